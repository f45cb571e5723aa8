//! Prints certificates and what the checker of the tests says of them, to make test vectors:
//!
//! `certificate BOOK [VARIATION]...`
//!
//! BOOK is a file, or the cells of a book in one argument, in which `6*0` stands for six zeros. A
//! variation is changes with blanks between them, in one argument; without any the certificate is
//! printed as it is made. For each variation there are five lines: the changes after `#`, the two
//! rows, the sentences in hexadecimal, and the answer as the C function gives it. If the library
//! answers otherwise, a line says so.
//!
//! | change | what it does |
//! |---|---|
//! | `crossing:I=V` | claim I of the crossings is V |
//! | `pair:I=V` | claim I of the pairs is V; a sentence is written if it is at most 1,000 |
//! | `sentence:I=1.2.3` | the sentence of pair I |
//! | `crossings:N`, `pairs:N`, `bytes:N` | the row, or what the sentences take, is cut to N, or filled up with 0 |
//! | `byte:I=V` | byte I of the sentences is V |
//! | `insert:I=V` | a byte V is put before byte I |

mod changes;
#[allow(dead_code)]
#[path = "../make_book/grammar.rs"]
mod grammar;
#[path = "../../tests/independent/mod.rs"]
mod independent;
#[allow(dead_code)]
#[path = "../make_book/lalr.rs"]
mod lalr;
#[path = "../../tests/random/mod.rs"]
mod random;

use changes::Variation;
use independent::book::Book;
use independent::calls::check_certificate;
use purlquartz::certificate::Certificate;
use purlquartz::{Refusal, Verdict};
use random::certificates::Pieces;
use std::process::ExitCode;
use std::{env, fs};

fn main() -> ExitCode {
    let arguments: Vec<String> = env::args().skip(1).collect();
    let Some((book, variations)) = arguments.split_first() else {
        eprintln!("usage: certificate BOOK [VARIATION]...");
        return ExitCode::FAILURE;
    };
    match print_all(book, variations) {
        Ok(()) => ExitCode::SUCCESS,
        Err(message) => {
            eprintln!("{message}");
            ExitCode::FAILURE
        }
    }
}

fn print_all(book: &str, variations: &[String]) -> Result<(), String> {
    let book = read_book(book)?;
    let pieces = Pieces::of(&book);
    println!("book {}", in_runs(&book.cells()));
    let unchanged = [String::new()];
    let variations = match variations {
        [] => &unchanged,
        some => some,
    };
    for text in variations {
        let certificate = Variation::parse(text)?.apply(&pieces)?;
        println!(
            "# {}",
            if text.is_empty() {
                "as it is made"
            } else {
                text
            }
        );
        print(&book.cells(), &certificate);
    }
    Ok(())
}

fn read_book(book: &str) -> Result<Book, String> {
    let told = |refusal: Refusal| format!("refused {} place {}", refusal.number, refusal.place);
    if book.contains(' ') {
        let cells: Option<Vec<Vec<u16>>> = book.split_whitespace().map(run_of_cells).collect();
        let cells = cells.ok_or("the cells are not all numbers")?;
        return Book::from_cells(&cells.concat()).map_err(told);
    }
    let bytes = fs::read(book).map_err(|error| format!("{book}: {error}"))?;
    Book::from_bytes(&bytes).map_err(told)
}

/// `7`, or `3*7`.
fn run_of_cells(text: &str) -> Option<Vec<u16>> {
    let (times, value) = text.split_once('*').unwrap_or(("1", text));
    Some(vec![value.parse().ok()?; times.parse().ok()?])
}

fn print(cells: &[u16], certificate: &Certificate) {
    let Certificate {
        crossings,
        pairs,
        sentences,
    } = certificate;
    println!("crossings {}", in_runs(crossings));
    println!("pairs {}", in_runs(pairs));
    let sentences: Vec<String> = sentences.iter().map(|b| format!("{b:02x}")).collect();
    println!("bytes {}", sentences.join(" "));
    let expected = check_certificate(cells, crossings, pairs, &certificate.sentences);
    println!("check_certificate {}", answer(expected));
    let library = certificate.check(cells);
    if library != expected {
        println!("# the library answers {}", answer(library));
    }
}

/// As the C function fills it, without the zeros at its end.
fn answer(answer: Result<Verdict, Refusal>) -> String {
    let mut numbers = match answer {
        Err(refusal) => vec![0, refusal.number.into(), refusal.place],
        Ok(Verdict::Accepted) => vec![1],
        Ok(Verdict::Fault { condition, index }) => vec![2, condition as usize, index],
    };
    while numbers.len() > 1 && numbers.last() == Some(&0) {
        numbers.pop();
    }
    let numbers: Vec<String> = numbers.iter().map(usize::to_string).collect();
    numbers.join(" ")
}

/// Equal numbers in a row as `6*0`.
fn in_runs(numbers: &[u16]) -> String {
    let runs = numbers.chunk_by(|one, other| one == other);
    let runs = runs.map(|run| match run.len() {
        1 => run[0].to_string(),
        times => format!("{times}*{}", run[0]),
    });
    runs.collect::<Vec<_>>().join(" ")
}
