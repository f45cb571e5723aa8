//! Answers that are known beforehand: the lines of the specification, the limits, and books that
//! would take a step-by-step search for ever. Each is asked of the library and of the independent
//! implementation.

#[macro_use]
mod both;
#[allow(dead_code)]
#[path = "../examples/make_book/grammar.rs"]
mod grammar;
mod independent;
#[allow(dead_code)]
#[path = "../examples/make_book/lalr.rs"]
mod lalr;
mod made;
mod random;

use both::Calls;
use made::{after, doubling, shifted, thousand};
use purlquartz::*;

on_both! {
    one_number
    refused_places
    refused_parts
    refused_ranks
    no_left_side
    longest_book
    converted_books
    refused_conversions
    bracket_listing
    double_sentences
    ranked_sentences
    small_runs
    bracket_lists
    work_cells
    sentence_of_1000_and_1001
    exponential_length_is_long
    many_empty_reductions
}

const BRACKET: &[u8] = include_bytes!("../../books/bracket.book");
const DOUBLE: &[u8] = include_bytes!("../../books/double.book");
/// Double in form 2 with the ranks 2, 1, 0.
const DOUBLE_RANKED: &[u8] = include_bytes!("../../books/double_ranked.book");

fn cells_of(calls: &Calls, bytes: &[u8]) -> Vec<u16> {
    let mut cells = vec![0; MOST_CELLS];
    let count = (calls.read)(bytes, &mut cells).expect("a good book");
    cells.truncate(count);
    cells
}

fn work_for(calls: &Calls, cells: &[u16]) -> Vec<u16> {
    vec![0; (calls.check)(cells).expect("a good book").work_cells()]
}

/// The sentence of a pair, or the other answer.
fn find(calls: &Calls, cells: &[u16], state: u16, lookahead: u16) -> Result<Vec<u8>, Found> {
    let mut work = work_for(calls, cells);
    let mut buffer = [0; SENTENCE_BYTES];
    match (calls.find)(cells, state, lookahead, &mut work, &mut buffer).expect("no refusal") {
        Found::Sentence(length) => Ok(buffer[..length].to_vec()),
        other => Err(other),
    }
}

/// The first number of a book is the form, so 1 and 2 come before 3 and each tells what was read.
fn one_number(calls: &Calls) {
    let reads = |bytes: &[u8]| (calls.read)(bytes, &mut [0; 9]).expect_err("no book");
    let refusal = |number| Refusal { number, place: 0 };
    for good in [
        &[0x80, 0x01][..],
        &[0xff, 0xff, 0x03],
        &[0x80, 0x80, 0x04],
        &[0x81, 0x80, 0x04],
        &[0xff, 0xff, 0x7f],
    ] {
        assert_eq!(reads(good), refusal(3));
    }
    for bad in [
        &[0x80, 0x00][..],
        &[0x80, 0x80, 0x80],
        &[0xff, 0x80, 0x00],
        &[0xff, 0xff, 0xff],
    ] {
        assert_eq!(reads(bad), refusal(2));
    }
    for short in [&[][..], &[0x80], &[0x80, 0x80], &[0xff, 0xff]] {
        assert_eq!(reads(short), refusal(1));
    }
}

fn refused_places(calls: &Calls) {
    let refused = |bytes: &[u8]| {
        let refusal = (calls.read)(bytes, &mut [0; 99]).expect_err("no book");
        (refusal.number, refusal.place)
    };
    assert_eq!(refused(&BRACKET[..38]), (1, 38));
    assert_eq!(refused(&[BRACKET, &[0x80]].concat()), (6, 39));
    assert_eq!(refused(&[0]), (3, 0));
    assert_eq!(refused(&[3, 33]), (3, 0));
    assert_eq!(refused(&[1, 33]), (4, 1));
    assert_eq!(refused(&[1, 4, 1, 0x81, 0x01]), (4, 3));
    assert_eq!(refused(&[1, 4, 1, 6, 2, 1]), (5, 5));
}

/// A book of small numbers with some of them changed, which in bytes and in cells have the same
/// places. The first that is named is the first fault, and is told by the number of its part.
fn refused_with(calls: &Calls, book: &[u8], number: u16, faults: &[(usize, u8)]) {
    let mut bytes = book.to_vec();
    for &(at, value) in faults {
        bytes[at] = value;
    }
    let cells: Vec<u16> = bytes.iter().map(|&byte| byte.into()).collect();
    let place = faults[0].0;
    let refusal = Refusal { number, place };
    assert_eq!((calls.read)(&bytes, &mut [0; 99]), Err(refusal));
    assert_eq!((calls.check)(&cells), Err(refusal));
}

fn refused_parts(calls: &Calls) {
    let refused = |number, faults: &[_]| refused_with(calls, BRACKET, number, faults);
    // The first and the last left side, then length.
    for fault in [(5, 1), (7, 1), (6, 33), (8, 33)] {
        refused(5, &[fault]);
    }
    // The first and the last shift under terminal 0, then accept under another.
    for fault in [(9, 2), (29, 2), (10, 1), (32, 1)] {
        refused(14, &[fault]);
    }
    // The first and the last shift to state S, then reduction by production P.
    for fault in [(10, 14), (32, 14), (9, 7), (32, 7)] {
        refused(14, &[fault]);
    }
    for fault in [(33, 7), (38, 7)] {
        refused(15, &[fault]);
    }
    refused(4, &[(1, 33), (9, 2)]);
    refused(5, &[(8, 33), (9, 2)]);
    refused(5, &[(5, 1), (38, 7)]);
    refused(14, &[(32, 1), (33, 7)]);
    refused(14, &[(9, 7), (38, 7)]);
}

fn refused_ranks(calls: &Calls) {
    let book = [&[2], &BRACKET[1..9], &[3, 1, 0, 2], &BRACKET[9..]].concat();
    assert_eq!((calls.read)(&book, &mut [0; 99]), Ok(43));
    let refused = |number, faults: &[_]| refused_with(calls, &book, number, faults);
    // The first and the last rank T or more, then used before.
    for fault in [(9, 4), (12, 4), (12, 127), (10, 3), (12, 3), (12, 0)] {
        refused(16, &[fault]);
    }
    // The first of two, be it too high or used before.
    refused(16, &[(10, 4), (11, 3)]);
    refused(16, &[(10, 3), (12, 4)]);
    // After the productions, before the actions and gotos.
    refused(5, &[(8, 33), (9, 4)]);
    refused(16, &[(12, 3), (13, 2)]);
    refused(16, &[(9, 4), (42, 7)]);
    refused(14, &[(13, 2)]);
    refused(15, &[(42, 7)]);
    // Where a number takes two bytes, the offset is not the index.
    let refusal = |place| Refusal { number: 16, place };
    let bytes = [2, 2, 0, 0x80, 0x01, 0, 1, 1];
    assert_eq!((calls.read)(&bytes, &mut [0; 999]), Err(refusal(7)));
    let cells = [2, 2, 0, 128, 0, 1, 1];
    assert_eq!((calls.check)(&cells), Err(refusal(6)));
}

/// N = 0 with P = 1: no left side is in range.
fn no_left_side(calls: &Calls) {
    let refusal = Refusal {
        number: 5,
        place: 5,
    };
    assert_eq!(
        (calls.read)(&[1, 1, 0, 1, 1, 0, 0, 0], &mut [0; 99]),
        Err(refusal)
    );
    assert_eq!((calls.check)(&[1, 1, 0, 1, 1, 0, 0, 0]), Err(refusal));
}

/// Every size and every number at its most.
fn longest_book(calls: &Calls) {
    let mut cells = vec![2, 32, 32, 128, 128];
    cells.extend([31, 32].repeat(128));
    cells.extend((0..32).rev());
    let (reduce, shift) = (3 + 2 * 127, 2 + 2 * 127);
    cells.extend([&[reduce][..], &[shift; 31]].concat().repeat(128));
    cells.extend([128; 128 * 32]);
    assert_eq!(cells.len(), MOST_CELLS);
    let sizes = Sizes {
        form: 2,
        terminals: 32,
        nonterminals: 32,
        states: 128,
        productions: 128,
    };
    assert_eq!((calls.check)(&cells), Ok(sizes));
    let mut bytes = vec![0; MOST_BYTES];
    assert_eq!((calls.write)(&cells, &mut bytes), Ok(MOST_BYTES));
    assert_eq!(cells_of(calls, &bytes), cells);
    let refusal = Refusal {
        number: 17,
        place: 261,
    };
    assert_eq!(converted(calls, 1, &cells), Err(refusal));
    assert_eq!(converted(calls, 2, &cells), Ok(cells));
}

/// What a converter writes, both into more cells than that and into just enough; or its refusal.
fn converted(calls: &Calls, form: u16, cells: &[u16]) -> Result<Vec<u16>, Refusal> {
    let mut lent = vec![7; MOST_CELLS];
    let count = calls.to_form(form)(cells, &mut lent)?;
    assert!(lent[count..].iter().all(|&cell| cell == 7));
    lent.truncate(count);
    let mut enough = vec![0; count];
    assert_eq!(calls.to_form(form)(cells, &mut enough), Ok(count));
    assert_eq!(enough, lent);
    Ok(lent)
}

fn converted_books(calls: &Calls) {
    for (bytes, first_rank, ranks) in [(BRACKET, 9, &[0, 1, 2, 3][..]), (DOUBLE, 13, &[0, 1, 2])] {
        let form_1 = cells_of(calls, bytes);
        let form_2 = [&[2], &form_1[1..first_rank], ranks, &form_1[first_rank..]].concat();
        assert_eq!(converted(calls, 2, &form_1), Ok(form_2.clone()));
        assert_eq!(converted(calls, 1, &form_2), Ok(form_1.clone()));
        assert_eq!(converted(calls, 1, &form_1), Ok(form_1));
        assert_eq!(converted(calls, 2, &form_2), Ok(form_2));
    }
    let ranked = cells_of(calls, DOUBLE_RANKED);
    assert_eq!(converted(calls, 2, &ranked), Ok(ranked));
}

/// After the book's own refusals 17, at the first rank that is not its terminal's number, then 12.
fn refused_conversions(calls: &Calls) {
    let refused = |form, cells: &[u16], lent: usize, number, place| {
        let mut lent = vec![7; lent];
        let answer = calls.to_form(form)(cells, &mut lent);
        assert_eq!(answer, Err(Refusal { number, place }));
        assert!(lent.iter().all(|&cell| cell == 7));
    };
    let mut cells = cells_of(calls, DOUBLE_RANKED);
    refused(1, &cells, 99, 17, 13);
    refused(1, &cells, 0, 17, 13);
    refused(2, &cells, 55, 12, 0);
    refused(1, &[&cells[..], &[0]].concat(), 99, 6, 56);
    refused(1, &cells[..55], 99, 1, 55);
    cells[13..16].copy_from_slice(&[0, 2, 1]);
    refused(1, &cells, 99, 17, 14);
    cells[14] = 0;
    refused(1, &cells, 99, 16, 14);
    refused(2, &cells, 0, 16, 14);
    cells[13..16].copy_from_slice(&[0, 1, 2]);
    refused(1, &cells, 52, 12, 0);
    let form_1 = cells_of(calls, DOUBLE);
    refused(1, &form_1, 52, 12, 0);
    refused(2, &form_1, 55, 12, 0);
}

fn bracket_listing(calls: &Calls) {
    let cells = cells_of(calls, BRACKET);
    let listing: [(u16, u16, Option<&[u8]>); 14] = [
        (0, 0, Some(&[])),
        (0, 3, Some(&[])),
        (1, 1, Some(&[1])),
        (1, 2, Some(&[1])),
        (2, 0, Some(&[2])),
        (2, 3, Some(&[2])),
        (3, 1, None),
        (3, 2, None),
        (3, 3, Some(&[1])),
        (4, 0, Some(&[2, 1])),
        (4, 1, None),
        (4, 2, None),
        (5, 1, Some(&[2, 1, 3])),
        (5, 2, Some(&[2, 1, 3])),
    ];
    for (state, lookahead, sentence) in listing {
        let expected = sentence.map(<[u8]>::to_vec).ok_or(Found::Unreached);
        assert_eq!(find(calls, &cells, state, lookahead), expected);
    }
    assert_eq!(find(calls, &cells, 5, 0), Ok(vec![2, 1, 3]));
}

fn double_sentences(calls: &Calls) {
    let cells = cells_of(calls, DOUBLE);
    let lines: [(u16, u16, &[u8]); 4] = [
        (3, 1, &[1, 1]),
        (3, 2, &[1]),
        (5, 0, &[1, 1, 1]),
        (2, 0, &[1, 1, 1]),
    ];
    for (state, lookahead, sentence) in lines {
        assert_eq!(find(calls, &cells, state, lookahead), Ok(sentence.to_vec()));
    }
}

/// Double in form 2. Only (2, 0) has two shortest sentences, and they differ in 1 and 2: which is
/// found depends on whether 2 has a lower rank than 1.
fn ranked_sentences(calls: &Calls) {
    let ranked = |ranks: &[u8]| [&[2], &DOUBLE[1..13], ranks, &DOUBLE[13..]].concat();
    assert_eq!(DOUBLE_RANKED, ranked(&[2, 1, 0]));
    let lines: [([u8; 3], &[u8]); 6] = [
        ([0, 1, 2], &[1, 1, 1]),
        ([1, 0, 2], &[1, 1, 1]),
        ([2, 0, 1], &[1, 1, 1]),
        ([0, 2, 1], &[1, 2, 2]),
        ([1, 2, 0], &[1, 2, 2]),
        ([2, 1, 0], &[1, 2, 2]),
    ];
    for (ranks, sentence) in lines {
        let cells = cells_of(calls, &ranked(&ranks));
        assert_eq!(find(calls, &cells, 2, 0), Ok(sentence.to_vec()));
        assert_eq!(find(calls, &cells, 3, 1), Ok(vec![1, 1]));
    }
}

fn small_runs(calls: &Calls) {
    let mut stack = [7; STACK_CELLS + 1];
    let spinning = [1, 1, 1, 2, 2, 0, 0, 0, 1, 3, 5, 2, 0];
    let stop = Stop {
        state: 1,
        symbol: 0,
        taken: 0,
    };
    let ending = (calls.run)(&spinning, &[], 0, &mut stack);
    assert_eq!(ending, Ok(Ending::Spinning(stop)));
    assert_eq!(stack[..4], [0, 1, 0, 0]);
    assert_eq!(stack[STACK_CELLS], 7);
    assert_eq!(find(calls, &spinning, 1, 0), Ok(vec![]));
    let deep = [1, 1, 1, 1, 1, 0, 0, 3, 1];
    let stop = Stop { state: 0, ..stop };
    let ending = (calls.run)(&deep, &[], 0, &mut stack);
    assert_eq!(ending, Ok(Ending::Deep(stop)));
}

fn bracket_lists(calls: &Calls) {
    let cells = cells_of(calls, BRACKET);
    let judge = |list: &[u8]| {
        let mut work = work_for(calls, &cells);
        (calls.judge)(&cells, list, &mut work, &mut [0; STACK_CELLS])
    };
    let list = [
        6, 0, 0, 0, 1, 1, 1, 0, 1, 2, 0, 0, 1, 1, 3, 0, 2, 2, 1, 0, 0, 3, 2, 1, 3, 1, 0,
    ];
    assert_eq!(judge(&list), Ok(Judgement::Complete));
    let shorter = [&[5], &list[1..8], &list[12..]].concat();
    assert_eq!(judge(&shorter), Ok(Judgement::Uncovered { state: 2 }));
    let entries = (calls.entries)(&cells, &list).expect("a good list");
    let lookaheads: Vec<u16> = entries.iter().map(|entry| entry.lookahead).collect();
    assert_eq!(lookaheads, [0, 1, 0, 3, 0, 1]);
    assert!(entries.iter().all(|entry| entry.article == 0));
    let rest = |offset, left| Rest { offset, left };
    let next = (calls.next_entry)(&list, rest(16, 2)).expect("an entry");
    assert_eq!((next.0.symbols(&list), next.1), (&[2, 1][..], rest(21, 1)));
    assert_eq!((calls.next_entry)(&list, rest(16, 0)), None);
    let entry = (calls.entry)(&cells, &list, 4).expect("a good list");
    assert_eq!(entry.map(|entry| entry.symbols(&list)), Some(&[2, 1][..]));
    assert_eq!((calls.entry)(&cells, &list, 6), Ok(None));
}

/// A book without actions or gotos.
fn idle_book(terminals: u16, nonterminals: u16, states: u16) -> Vec<u16> {
    let rest = usize::from(states) * usize::from(terminals + nonterminals);
    let mut cells = vec![1, terminals, nonterminals, states, 0];
    cells.resize(5 + rest, 0);
    cells
}

fn work_cells(calls: &Calls) {
    let map = |book: &[u16], work: usize| (calls.map)(book, &mut vec![9; work], &mut [0; 256]);
    let book = idle_book(8, 8, 32);
    assert_eq!(map(&book, 32_768), Ok(256));
    let few = Refusal {
        number: 13,
        place: 0,
    };
    assert_eq!(map(&book, 32_767), Err(few));
    let book = idle_book(8, 9, 32);
    assert_eq!(map(&book, 32_768), Err(few));
    assert_eq!(map(&book, 34_816), Ok(256));
}

fn sentence_of_1000_and_1001(calls: &Calls) {
    let book = thousand();
    let cells = book.cells();
    let whole = after(&book, &[1]);
    let longer = shifted(&book, whole, 2) as u16;
    let whole = whole as u16;
    assert_eq!(find(calls, &cells, whole, 2), Ok(vec![1; 1_000]));
    assert_eq!(find(calls, &cells, longer, 0), Err(Found::Long));
    assert_eq!(find(calls, &cells, whole, 1), Err(Found::Unreached));
}

fn exponential_length_is_long(calls: &Calls) {
    let book = doubling("a0 -> x\n", 30);
    let cells = book.cells();
    let [whole, longer, short] = [1, 21, 22].map(|level| after(&book, &[level]) as u16);
    assert_eq!(find(calls, &cells, whole, 2), Err(Found::Long));
    assert_eq!(find(calls, &cells, short, 1), Ok(vec![1; 512]));
    assert_eq!(find(calls, &cells, longer, 1), Err(Found::Long));
}

fn many_empty_reductions(calls: &Calls) {
    let book = doubling("a0 ->\n", 28);
    let cells = book.cells();
    let whole = after(&book, &[1]);
    let taken = shifted(&book, whole, 2) as u16;
    assert_eq!(find(calls, &cells, whole as u16, 2), Ok(vec![]));
    assert_eq!(find(calls, &cells, taken, 0), Ok(vec![2]));
    let ending = (calls.run)(&cells, &[2], 0, &mut [0; STACK_CELLS]);
    assert!(matches!(ending, Ok(Ending::Spinning(_))));
}
