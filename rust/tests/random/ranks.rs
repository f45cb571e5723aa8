//! Books in both forms, with ranks in any order.

use super::{every_order, Random};
use crate::independent::book::Book;
use purlquartz::Sizes;

/// The book in form 1, or in form 2 with any ranks.
pub fn in_any_form(random: &mut Random, book: Book) -> Book {
    let form = random.between(1, 2) as u16;
    let sizes = Sizes { form, ..book.sizes };
    let ranks = some_ranks(random, sizes);
    Book {
        sizes,
        ranks,
        ..book
    }
}

/// In form 1 the terminals' numbers; in form 2 these in any order, and sometimes as they are.
pub fn some_ranks(random: &mut Random, sizes: Sizes) -> Vec<u16> {
    let mut ranks: Vec<u16> = (0..sizes.terminals).collect();
    if sizes.form == 2 && random.percent(85) {
        random.shuffle(&mut ranks);
    }
    ranks
}

/// The book in form 2 with these ranks.
pub fn ranked(book: &Book, ranks: Vec<u16>) -> Book {
    let book = book.in_form(2);
    Book { ranks, ..book }
}

/// The book in form 1, its ranks forgotten.
pub fn unranked(book: &Book) -> Book {
    let numbers = (0..book.sizes.terminals).collect();
    ranked(book, numbers).in_form(1)
}

/// The book in form 2 with its ranks in every order, the terminals' numbers first.
pub fn in_every_order(book: &Book) -> Vec<Book> {
    let orders = every_order(book.terminals()).into_iter();
    let books =
        orders.map(|ranks| ranked(book, ranks.into_iter().map(|rank| rank as u16).collect()));
    books.collect()
}
