//! Makes a book from a grammar: `make_book GRAMMAR BOOK` reads the grammar's text, writes the book
//! of its LALR(1) tables in form 1, and prints the form, the sizes and the terminals by number.

mod grammar;
mod lalr;

use grammar::Grammar;
use lalr::Tables;
use purlquartz::MOST_BYTES;
use std::process::ExitCode;
use std::{env, fs};

fn main() -> ExitCode {
    let arguments: Vec<String> = env::args().skip(1).collect();
    let [grammar, book] = &arguments[..] else {
        eprintln!("usage: make_book GRAMMAR BOOK");
        return ExitCode::FAILURE;
    };
    match make(grammar, book) {
        Ok(()) => ExitCode::SUCCESS,
        Err(message) => {
            eprintln!("{grammar}: {message}");
            ExitCode::FAILURE
        }
    }
}

fn make(grammar_file: &str, book_file: &str) -> Result<(), String> {
    let text = fs::read_to_string(grammar_file).map_err(|error| error.to_string())?;
    let grammar = Grammar::parse(&text)?;
    let tables = lalr::build(&grammar)?;
    if !tables.conflicts.is_empty() {
        return Err(format!("conflicts\n{}", tables.conflicts.join("\n")));
    }
    let mut bytes = vec![0; MOST_BYTES];
    let written = purlquartz::write(&tables.cells, &mut bytes);
    let count = written.map_err(|refusal| format!("{refusal:?}"))?;
    fs::write(book_file, &bytes[..count]).map_err(|error| error.to_string())?;
    report(&grammar, &tables, count);
    Ok(())
}

fn report(grammar: &Grammar, tables: &Tables, bytes: usize) {
    println!(
        "form {} T {} N {} S {} P {}, {bytes} bytes",
        tables.cells[0],
        grammar.terminals.len(),
        grammar.nonterminals.len(),
        tables.states,
        grammar.rules.len()
    );
    for (number, name) in grammar.terminals.iter().enumerate() {
        println!("{number} {name}");
    }
}
