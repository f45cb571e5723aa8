//! The shipped books.

use crate::independent::book::Book;
use std::fs;

pub const SHIPPED: [&str; 8] = [
    "bracket",
    "double",
    "double_ranked",
    "arithmetic",
    "pattern",
    "json",
    "statements",
    "program",
];

pub fn shipped(name: &str) -> Book {
    let file = format!("{}/../books/{name}.book", env!("CARGO_MANIFEST_DIR"));
    Book::from_bytes(&fs::read(file).expect("the book is shipped")).expect("a good book")
}
