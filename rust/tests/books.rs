//! The shipped books of grammars: each is what its grammar makes, and parses what it should.

#[allow(dead_code)]
#[path = "../examples/make_book/grammar.rs"]
mod grammar;
mod independent;
#[allow(dead_code)]
#[path = "../examples/make_book/lalr.rs"]
mod lalr;

use grammar::Grammar;
use independent::book::Book;
use independent::machine::run;
use purlquartz::Ending;
use std::fs;
use std::path::PathBuf;

const NAMES: [&str; 5] = ["arithmetic", "pattern", "json", "statements", "program"];

fn file(name: &str, kind: &str) -> PathBuf {
    let books = concat!(env!("CARGO_MANIFEST_DIR"), "/../books");
    PathBuf::from(books).join(format!("{name}.{kind}"))
}

fn grammar(name: &str) -> Grammar {
    let text = fs::read_to_string(file(name, "grammar")).expect("the grammar is shipped");
    Grammar::parse(&text).expect("a good grammar")
}

fn book(name: &str) -> Book {
    let bytes = fs::read(file(name, "book")).expect("the book is shipped");
    Book::from_bytes(&bytes).expect("a good book")
}

#[test]
fn each_book_is_what_its_grammar_makes() {
    for name in NAMES {
        let tables = lalr::build(&grammar(name)).expect("within the limits");
        assert!(
            tables.conflicts.is_empty(),
            "{name}: {:?}",
            tables.conflicts
        );
        let made = Book::from_cells(&tables.cells).expect("in range");
        assert_eq!(made, book(name), "{name}");
        let stored = fs::read(file(name, "book")).expect("the book is shipped");
        assert_eq!(made.bytes(), stored, "{name}");
    }
}

#[test]
fn a_conflict_is_reported() {
    let text = "terminals: x\nsum -> sum sum\nsum -> x\n";
    let tables = lalr::build(&Grammar::parse(text).expect("a good grammar"));
    assert_eq!(tables.expect("within the limits").conflicts.len(), 1);
    let text = format!("conflicts: shift\n{text}");
    let tables = lalr::build(&Grammar::parse(&text).expect("a good grammar"));
    assert_eq!(tables.expect("within the limits").conflicts.len(), 0);
}

/// How the run over the named terminals, then the end mark, ends.
fn parse(name: &str, words: &str) -> Ending {
    let grammar = grammar(name);
    let number = |word: &str| {
        let found = grammar.terminals.iter().position(|known| known == word);
        found.expect("a terminal") as u8
    };
    let sentence: Vec<u8> = words.split_whitespace().map(number).collect();
    run(&book(name), &sentence, 0).0
}

#[test]
fn good_sentences_are_accepted() {
    let sentences = [
        ("arithmetic", "number plus minus number times open number over number close"),
        ("pattern", ""),
        ("pattern", "sign star bar open sign bar close query open_class sign to sign sign close_class"),
        ("json", "open_bracket open_brace string colon null comma string colon open_bracket close_bracket close_brace comma true close_bracket"),
        ("statements", "if name less number then if name less name then print name semicolon else begin name assign number plus number semicolon end_block"),
        ("program", ""),
        ("program", "var name assign open_bracket number comma string close_bracket semicolon"),
        ("program", "fun name open name comma name close open_brace if open name less number close open_brace return name semicolon close_brace else open_brace name open name open_bracket number close_bracket close assign not true or minus number semicolon close_brace close_brace"),
    ];
    for (name, words) in sentences {
        let ending = parse(name, words);
        assert!(
            matches!(ending, Ending::Accepted(_)),
            "{name}: {words}: {ending:?}"
        );
    }
}

#[test]
fn bad_sentences_fail() {
    let sentences = [
        ("arithmetic", "number plus times number"),
        ("pattern", "sign to sign"),
        ("json", "open_bracket true comma close_bracket"),
        ("statements", "if name then print name semicolon"),
        (
            "program",
            "fun name open name comma close open_brace close_brace",
        ),
    ];
    for (name, words) in sentences {
        let ending = parse(name, words);
        assert!(
            matches!(ending, Ending::Error(_)),
            "{name}: {words}: {ending:?}"
        );
    }
}
