//! Times the library's calls beside the independent implementation, in the same run, and prints
//! the times and their ratios as Markdown tables.
//!
//! `cargo bench` for all; `cargo bench -- quick` leaves out the largest books.

#[path = "../../tests/both/mod.rs"]
mod both;
#[path = "../../examples/make_book/grammar.rs"]
mod grammar;
#[path = "../../tests/independent/mod.rs"]
mod independent;
#[allow(dead_code)]
#[path = "../../examples/make_book/lalr.rs"]
mod lalr;
mod measure;
#[path = "../../tests/random/mod.rs"]
mod random;

use grammar::Grammar;
use independent::book::Book;
use measure::{ratio, shown, Subject};
use purlquartz::Sizes;
use random::books::{breakable, wild, Taste};
use random::lists::{covering_errors, encode_list, failing_lines, with_articles, Line};
use random::ranks::ranked;
use random::Random;
use std::{env, fs};

const SHIPPED: [&str; 7] = [
    "bracket",
    "double",
    "arithmetic",
    "pattern",
    "json",
    "statements",
    "program",
];

fn main() {
    let quick = env::args().any(|argument| argument == "quick");
    println!("Each cell has the library's time, the independent implementation's, and how many");
    println!("times as long the library takes. `≈` marks a total that is scaled up from a sample.");
    println!();
    print_books(quick);
    println!();
    print_breaks(quick);
    println!();
    print_sortings();
    println!();
    print_joinings();
    println!();
    print_growth(quick);
    println!();
    print_certificates();
}

fn shipped(name: &str) -> Book {
    let file = format!("{}/../books/{name}.book", env!("CARGO_MANIFEST_DIR"));
    Book::from_bytes(&fs::read(file).expect("the book is shipped")).expect("a good book")
}

/// The book in form 2 with the highest terminal first.
fn turned_round(name: &str) -> Book {
    let book = shipped(name);
    ranked(&book, (0..book.sizes.terminals).rev().collect())
}

/// A book with sentences of up to 512 symbols: each nonterminal is the one below it, twice.
fn doubling() -> Book {
    let mut text = "terminals: a\n".to_string();
    for level in (1..=9).rev() {
        text += &format!("x{level} -> x{below} x{below}\n", below = level - 1);
    }
    text += "x0 -> a\n";
    let grammar = Grammar::parse(&text).expect("a grammar");
    let tables = lalr::build(&grammar).expect("a grammar within the limits");
    Book::from_cells(&tables.cells).expect("a good book")
}

/// A random book where most cells are filled: much can be reached in many ways.
fn dense(seed: u64, terminals: u16, nonterminals: u16, states: u16) -> Book {
    let taste = Taste {
        sizes: Sizes {
            form: 1,
            terminals,
            nonterminals,
            states,
            productions: states.max(nonterminals),
        },
        longest: 3,
        shifts: 30,
        reduces: 40,
        gotos: 80,
    };
    wild(&mut Random::new(seed), taste)
}

fn print_books(quick: bool) {
    println!(
        "| book | form | T | N | S | P | check | to form 2 | to form 1 \
         | map | one pair | reached errors | all of them | judge |"
    );
    println!("|---|---|---|---|---|---|---|---|---|---|---|---|---|---|");
    for name in SHIPPED {
        print_book(name, &shipped(name));
    }
    print_book("program, ranks turned round", &turned_round("program"));
    print_book("doubling", &doubling());
    let sizes = [(4, 4, 16), (8, 8, 32), (16, 16, 64), (32, 32, 128)];
    for (terminals, nonterminals, states) in sizes {
        if !quick || states < 64 {
            print_book("random", &dense(1, terminals, nonterminals, states));
        }
    }
}

/// The list that is judged has an entry for each state that fails in error.
fn print_book(name: &str, book: &Book) {
    let library = Subject::new(&both::LIBRARY, book);
    let independent = Subject::new(&both::INDEPENDENT, book);
    let pair = library.farthest_error();
    let list = encode_list(&covering_errors(&mut Random::new(1), book));
    let cells = [
        both_times(library.check(), independent.check()),
        both_times(library.to_form(2), independent.to_form(2)),
        both_times(library.to_form(1), independent.to_form(1)),
        both_times(library.map(), independent.map()),
        both_times(library.find(pair), independent.find(pair)),
        library.errors.len().to_string(),
        both_times(library.find_errors(), independent.find_errors()),
        both_times(library.judge(&list), independent.judge(&list)),
    ];
    let sizes = book.sizes;
    println!(
        "| {name} | {} | {} | {} | {} | {} | {} |",
        sizes.form,
        sizes.terminals,
        sizes.nonterminals,
        sizes.states,
        sizes.productions,
        cells.join(" | ")
    );
}

fn both_times(library: measure::Time, independent: measure::Time) -> String {
    let ratio = ratio(library, independent);
    format!("{} / {} = {ratio}", shown(library), shown(independent))
}

/// Reductions that break, of shipped books, where none does, and of books made so that some do.
fn print_breaks(quick: bool) {
    println!("| book | reductions | that break | longest sentence | that one | all reductions |");
    println!("|---|---|---|---|---|---|");
    for name in SHIPPED {
        print_break(name, &shipped(name));
    }
    for name in ["json", "program"] {
        let book = breakable(&mut Random::new(1), &shipped(name), 10);
        print_break(&format!("{name}, 10 changes"), &book);
    }
    let mut book = doubling();
    book.gotos[0] = None;
    print_break("doubling, without a goto", &book);
    let sizes = [(4, 4, 16), (8, 8, 32), (16, 16, 64)];
    for (terminals, nonterminals, states) in sizes {
        if !quick || states < 64 {
            print_break("random", &dense(1, terminals, nonterminals, states));
        }
    }
}

/// One reduction is the one with the longest sentence; or else the last that there is.
fn print_break(name: &str, book: &Book) {
    let library = Subject::new(&both::LIBRARY, book);
    let independent = Subject::new(&both::INDEPENDENT, book);
    let breaks = library.breaks();
    let told = breaks.iter().filter(|(_, length)| length.is_some());
    let farthest = told.max_by_key(|(_, length)| *length).copied();
    let pair = farthest.map(|(pair, _)| pair);
    let Some(pair) = pair.or(library.reductions.last().copied()) else {
        return;
    };
    let length = farthest.and_then(|(_, length)| length);
    println!(
        "| {name} | {} | {} | {} | {} | {} |",
        library.reductions.len(),
        breaks.len(),
        length.map_or(String::new(), |length| length.to_string()),
        both_times(library.find_break(pair), independent.find_break(pair)),
        both_times(library.find_breaks(), independent.find_breaks()),
    );
}

/// Lists with an entry for each state that fails in error, sorted before and turned round. All lists
/// here have article numbers of one to three bytes.
fn print_sortings() {
    println!("| book | entries | bytes | sort_list, in order | turned round |");
    println!("|---|---|---|---|---|");
    for name in SHIPPED {
        print_sorting(name, &shipped(name));
    }
    print_sorting("doubling", &doubling());
}

fn print_sorting(name: &str, book: &Book) {
    let library = Subject::new(&both::LIBRARY, book);
    let independent = Subject::new(&both::INDEPENDENT, book);
    let mut lines = covering_errors(&mut Random::new(1), book);
    let sorted = encode_list(&lines);
    lines.reverse();
    let turned = encode_list(&lines);
    let times = [&sorted, &turned].map(|list| {
        both_times(
            library.sort_list(list, &sorted),
            independent.sort_list(list, &sorted),
        )
    });
    println!(
        "| {name} | {} | {} | {} |",
        lines.len(),
        sorted.len(),
        times.join(" | ")
    );
}

/// Lists with an entry for each state that fails: the shortest sentences joined with the longest of
/// some others, and the former in two, every other entry in each.
fn print_joinings() {
    println!(
        "| book | entries | bytes | of the other list | join_lists \
         | bytes, every other entry | join_lists |"
    );
    println!("|---|---|---|---|---|---|---|");
    for name in SHIPPED {
        print_joining(name, &shipped(name));
    }
    print_joining("doubling", &doubling());
}

fn print_joining(name: &str, book: &Book) {
    let library = Subject::new(&both::LIBRARY, book);
    let independent = Subject::new(&both::INDEPENDENT, book);
    let [shortest, longest] = shortest_and_longest(book);
    let joined = encode_list(&shortest);
    let longest = encode_list(&longest);
    let halves = [0, 1].map(|first| {
        let half = shortest.iter().skip(first).step_by(2);
        encode_list(&half.cloned().collect::<Vec<_>>())
    });
    let times = [[&joined, &longest], halves.each_ref()].map(|lists| {
        both_times(
            library.join_lists(lists, &joined),
            independent.join_lists(lists, &joined),
        )
    });
    println!(
        "| {name} | {} | {} | {} | {} | {} and {} | {} |",
        shortest.len(),
        joined.len(),
        longest.len(),
        times[0],
        halves[0].len(),
        halves[1].len(),
        times[1]
    );
}

/// For each state that has any lines the shortest and the longest of them.
fn shortest_and_longest(book: &Book) -> [Vec<Line>; 2] {
    let mut random = Random::new(1);
    let states = failing_lines(&mut random, book);
    let length = |line: &&Line| line.sentence.len();
    let shortest = chosen(&states, |lines| lines.iter().min_by_key(length));
    let longest = chosen(&states, |lines| lines.iter().max_by_key(length));
    [shortest, longest].map(|lines| with_articles(&mut random, lines))
}

/// One of the lines of each state that has any.
fn chosen(states: &[Vec<Line>], choose: impl Fn(&[Line]) -> Option<&Line>) -> Vec<Line> {
    let lines = states.iter().filter_map(|lines| choose(lines));
    lines.cloned().collect()
}

/// The check of true certificates beside the map. The maker is of this package, and not proved.
fn print_certificates() {
    println!("| book | claims | bytes of sentences | made in | map | check of the certificate |");
    println!("|---|---|---|---|---|---|");
    for name in SHIPPED {
        print_certificate(name, &shipped(name));
    }
    print_certificate("doubling", &doubling());
}

fn print_certificate(name: &str, book: &Book) {
    let library = Subject::new(&both::LIBRARY, book);
    let independent = Subject::new(&both::INDEPENDENT, book);
    let certificate = library.certificate();
    println!(
        "| {name} | {} | {} | {} | {} | {} |",
        certificate.crossings.len() + certificate.pairs.len(),
        certificate.sentences.len(),
        shown(library.make_certificate()),
        both_times(library.map(), independent.map()),
        both_times(
            library.check_certificate(&certificate),
            independent.check_certificate(&certificate)
        )
    );
}

/// How the map's time grows when one size is doubled and the others stay.
fn print_growth(quick: bool) {
    println!("| T | N | S | map | growth of the library | growth of the independent |");
    println!("|---|---|---|---|---|---|");
    let most = if quick { 2 } else { 4 };
    for doubled in 0..3 {
        let mut before = None;
        for factor in [1, 2, 4].into_iter().filter(|&factor| factor <= most) {
            let mut sizes = [8, 8, 32];
            sizes[doubled] *= factor;
            let times = map_times(sizes);
            print_growth_row(sizes, times, before);
            before = Some(times);
        }
    }
}

/// The map's times, summed over a few books of the same sizes.
fn map_times([terminals, nonterminals, states]: [u16; 3]) -> [measure::Time; 2] {
    let mut sums = [measure::Time::default(); 2];
    for seed in 1..=3 {
        let book = dense(seed, terminals, nonterminals, states);
        for (sum, calls) in sums.iter_mut().zip([&both::LIBRARY, &both::INDEPENDENT]) {
            sum.seconds += Subject::new(calls, &book).map().seconds / 3.0;
        }
    }
    sums
}

fn print_growth_row(
    [terminals, nonterminals, states]: [u16; 3],
    times: [measure::Time; 2],
    before: Option<[measure::Time; 2]>,
) {
    let growth = |which: usize| match before {
        Some(before) => format!("× {:.1}", times[which].seconds / before[which].seconds),
        None => String::new(),
    };
    println!(
        "| {terminals} | {nonterminals} | {states} | {} | {} | {} |",
        both_times(times[0], times[1]),
        growth(0),
        growth(1)
    );
}
