//! Article numbers, and numbers over 65,535 elsewhere: what is read of an article number's bytes,
//! lists that stop in one, numbers that are too high by their upper bits alone, and that an entry
//! keeps its article number and nothing else depends on it. Each is asked of the library and of the
//! independent implementation.

#[macro_use]
mod both;
#[allow(dead_code)]
#[path = "../examples/make_book/grammar.rs"]
mod grammar;
mod independent;
#[allow(dead_code)]
#[path = "../examples/make_book/lalr.rs"]
mod lalr;
mod made;
mod random;
mod shipped;

use both::lists::{join, join_into, judge, lines_of, sort, sort_into, UNTOUCHED};
use both::Calls;
use independent::book::Book;
use independent::numbers::{encoded, MOST_NUMBER};
use made::{bracket_lines, highly_numbered, ladder, ladder_lines, lengthened};
use purlquartz::*;
use random::lists::{all_with_article, encode_list, line, list_of, numbered, Line, ARTICLES};
use shipped::{shipped, SHIPPED};

on_both! {
    known_numbers
    badly_formed_numbers
    every_number
    every_three_bytes
    entries_have_their_articles
    lists_that_stop
    longest_list_that_stops
    older_lists
    wide_numbers_in_a_book
    wide_numbers_in_a_list
    the_first_fault_of_a_book
    the_first_fault_of_a_list
    another_article_is_another_entry
    articles_do_not_count
    room_for_articles
}

/// What is added to a number, so that its low 16 bits stay.
const UPPER: [u32; 5] = [0x1_0000, 0x2_0000, 0x8_0000, 0x10_0000, 0x1f_0000];

/// Every call that checks a list has the same refusal, and writes nothing.
fn refused_by_all(calls: &Calls, book: &Book, list: &[u8], number: u16, place: usize) {
    let cells = book.cells();
    let refusal = Refusal { number, place };
    assert_eq!((calls.check_list)(&cells, list), Err(refusal), "{list:?}");
    assert_eq!((calls.entries)(&cells, list), Err(refusal));
    for index in [0, 5, 128] {
        assert_eq!((calls.entry)(&cells, list, index), Err(refusal));
    }
    let (mut work, mut stack) = (vec![7; book.sizes.work_cells()], [7; STACK_CELLS]);
    let judged = (calls.judge)(&cells, list, &mut work, &mut stack);
    assert_eq!(judged, Err(refusal));
    assert!(work.iter().chain(&stack).all(|&cell| cell == 7));
    let untouched = vec![UNTOUCHED; 99];
    let sorted = sort_into(calls, &cells, list, 99);
    assert_eq!(sorted, (Err(refusal), untouched.clone()));
    for (lists, which) in [([list, &[0]], Which::First), ([&[0], list], Which::Second)] {
        let joined = join_into(calls, &cells, lists, 99);
        let list = Some(which);
        let refusal = JoinRefusal { list, refusal };
        assert_eq!(joined, (Err(refusal), untouched.clone()));
    }
}

/// Every call that gives entries gives these of a good list, and they follow one another.
fn read_by_all(calls: &Calls, book: &Book, list: &[u8], entries: &[Entry]) {
    let cells = book.cells();
    let checked = (calls.check_list)(&cells, list);
    let mut rest = checked.expect("a good list");
    assert_eq!(rest.left, entries.len());
    assert_eq!((calls.entries)(&cells, list), Ok(entries.to_vec()));
    for (index, entry) in entries.iter().enumerate() {
        assert_eq!((calls.entry)(&cells, list, index), Ok(Some(*entry)));
        let (next, after) = (calls.next_entry)(list, rest).expect("an entry");
        assert_eq!((next, after.left), (*entry, entries.len() - index - 1));
        rest = after;
    }
    assert_eq!((calls.entry)(&cells, list, entries.len()), Ok(None));
    assert_eq!((calls.next_entry)(list, rest), None);
    assert_eq!(rest.offset, list.len());
}

/// A list for Bracket whose only entry fails at the start, up to its article number.
const BEFORE: [u8; 3] = [1, 0, 0];

fn known_numbers(calls: &Calls) {
    let book = shipped("bracket");
    let known: [(&[u8], u32); 14] = [
        (&[0], 0),
        (&[0x7f], 127),
        (&[0x80, 0x01], 128),
        (&[0xff, 0x01], 255),
        (&[0x80, 0x02], 256),
        (&[0xff, 0x7f], 16_383),
        (&[0x80, 0x80, 0x01], 16_384),
        (&[0xff, 0xff, 0x03], 65_535),
        (&[0x80, 0x80, 0x04], 65_536),
        (&[0x81, 0x80, 0x04], 65_537),
        (&[0xff, 0xff, 0x07], 131_071),
        (&[0x80, 0x80, 0x08], 131_072),
        (&[0x80, 0x80, 0x7f], 2_080_768),
        (&[0xff, 0xff, 0x7f], 2_097_151),
    ];
    for (bytes, article) in known {
        let list = [&BEFORE, bytes].concat();
        let entry = Entry {
            start: 2,
            length: 0,
            lookahead: 0,
            article,
        };
        read_by_all(calls, &book, &list, &[entry]);
        let (longer, surplus) = ([&list[..], &[0]].concat(), list.len());
        refused_by_all(calls, &book, &longer, 6, surplus);
    }
}

/// Padded or with the third byte's top bit set, whatever follows; and cut short, where nothing
/// follows.
fn badly_formed_numbers(calls: &Calls) {
    let book = shipped("bracket");
    let bad: [&[u8]; 8] = [
        &[0x80, 0x00],
        &[0xff, 0x00],
        &[0x80, 0x80, 0x00],
        &[0xff, 0xff, 0x00],
        &[0x80, 0x80, 0x80],
        &[0x80, 0x80, 0x84],
        &[0xff, 0xff, 0xff],
        &[0x80, 0x80, 0x80, 0x01],
    ];
    for bytes in bad {
        for after in [&[][..], &[0], &[0x80], &[0, 0, 0, 0]] {
            let list = [&BEFORE, bytes, after].concat();
            refused_by_all(calls, &book, &list, 2, 3);
            let rest = Rest { offset: 1, left: 1 };
            assert_eq!((calls.next_entry)(&list, rest), None);
        }
    }
    for bytes in [&[][..], &[0x80], &[0xff], &[0x80, 0x80], &[0xff, 0xff]] {
        let list = [&BEFORE, bytes].concat();
        refused_by_all(calls, &book, &list, 1, 3);
        let rest = Rest { offset: 1, left: 1 };
        assert_eq!((calls.next_entry)(&list, rest), None);
    }
}

/// The bytes of a number, by division.
fn groups(value: u32) -> Vec<u8> {
    let [first, second, third] = [value % 128, value / 128 % 128, value / 16_384];
    let top = 128;
    match (second, third) {
        (0, 0) => vec![first as u8],
        (_, 0) => vec![(top + first) as u8, second as u8],
        _ => vec![(top + first) as u8, (top + second) as u8, third as u8],
    }
}

/// All 2,097,152 of them, each as the article number of an entry without symbols.
fn every_number(calls: &Calls) {
    for article in 0..=MOST_NUMBER {
        let list = [&[0, 0], &groups(article)[..]].concat();
        let next = (calls.next_entry)(&list, Rest { offset: 0, left: 1 });
        let (entry, rest) = next.expect("an entry");
        assert_eq!((entry.article, rest.offset), (article, list.len()));
    }
}

/// Of all bytes three in a row only those are read that begin with a number, of which there are as
/// many as numbers and what may follow those of one and two bytes.
fn every_three_bytes(calls: &Calls) {
    let mut read = 0;
    let mut list = [0; 5];
    for bytes in 0..1u32 << 24 {
        list[2..].copy_from_slice(&bytes.to_le_bytes()[..3]);
        let next = (calls.next_entry)(&list, Rest { offset: 0, left: 1 });
        read += usize::from(next.is_some());
    }
    let [one, two, three] = [128, 16_384 - 128, 2_097_152 - 16_384];
    assert_eq!(read, one * 65_536 + two * 256 + three);
}

fn entries_have_their_articles(calls: &Calls) {
    for (book, lines) in [
        (shipped("bracket"), bracket_lines()),
        (ladder(), ladder_lines()),
    ] {
        for lines in [numbered(lines.clone()), highly_numbered(lines)] {
            let list = encode_list(&lines);
            assert_eq!(lines_of(calls, &book, &list), lines);
            let entries = (calls.entries)(&book.cells(), &list);
            read_by_all(calls, &book, &list, &entries.expect("a good list"));
        }
    }
}

/// What a number of a list is: one that has this refusal if it is too high, or the article number of
/// this line, which has none.
#[derive(Clone, Copy)]
enum Field {
    Ranged(u16),
    Article(usize),
}

fn fields(lines: &[Line]) -> Vec<(u32, Field)> {
    let mut fields = vec![(lines.len() as u32, Field::Ranged(9))];
    for (at, line) in lines.iter().enumerate() {
        fields.push((line.sentence.len() as u32, Field::Ranged(8)));
        let symbols = line.sentence.iter().map(|&symbol| u32::from(symbol));
        fields.extend(symbols.map(|symbol| (symbol, Field::Ranged(7))));
        fields.push((line.lookahead.into(), Field::Ranged(11)));
        fields.push((line.article, Field::Article(at)));
    }
    fields
}

/// Where each number of a row begins in bytes.
fn starts(numbers: &[u32]) -> Vec<usize> {
    let counts = 0..numbers.len();
    counts
        .map(|count| encoded(&numbers[..count]).len())
        .collect()
}

/// After any byte of Bracket's list, article numbers of all widths in it.
fn lists_that_stop(calls: &Calls) {
    let book = shipped("bracket");
    let lines = numbered(bracket_lines());
    let (numbers, _): (Vec<u32>, Vec<Field>) = fields(&lines).into_iter().unzip();
    let list = encoded(&numbers);
    assert_eq!(list, encode_list(&lines));
    let starts = starts(&numbers);
    for count in 0..list.len() {
        let begun = starts.iter().rev().find(|&&start| start <= count);
        let place = *begun.expect("the count at least");
        refused_by_all(calls, &book, &list[..count], 1, place);
    }
}

fn longest_list_that_stops(calls: &Calls) {
    let book = ladder();
    let lines = highly_numbered(lengthened(ladder_lines(), 1_000));
    let list = encode_list(&lines);
    assert_eq!(list.len(), MOST_LIST_BYTES);
    assert_eq!(lines_of(calls, &book, &list), lines);
    for fewer in [1, 2, 3] {
        let last = MOST_LIST_BYTES - 3;
        refused_by_all(calls, &book, &list[..MOST_LIST_BYTES - fewer], 1, last);
    }
    let longer = [&list[..], &[0]].concat();
    refused_by_all(calls, &book, &longer, 6, MOST_LIST_BYTES);
}

/// Lists as they were written without article numbers: Bracket's stops, a symbol is 0 that was a
/// lookahead, and in the last what was a length is an article number.
fn older_lists(calls: &Calls) {
    let book = shipped("bracket");
    let older = [
        6, 0, 0, 1, 1, 1, 1, 2, 0, 1, 1, 3, 2, 2, 1, 0, 3, 2, 1, 3, 1,
    ];
    refused_by_all(calls, &book, &older, 1, 21);
    refused_by_all(calls, &book, &[1, 0, 0], 1, 3);
    refused_by_all(calls, &book, &[2, 0, 0, 1, 3, 0], 7, 5);
    let older = [2, 0, 0, 3, 1, 2, 3, 1];
    let lines = [line(&[], 0).with_article(3), line(&[2], 3).with_article(1)];
    assert_eq!(lines_of(calls, &book, &older), lines);
}

/// The refusal of a number that does not fit, by its index in the book.
fn fault_number(sizes: Sizes, index: usize) -> u16 {
    let [terminals, states] = [sizes.terminals, sizes.states].map(usize::from);
    let ranks = 5 + 2 * usize::from(sizes.productions);
    let actions = ranks + if sizes.form == 2 { terminals } else { 0 };
    let gotos = actions + states * terminals;
    match index {
        0 => 3,
        1..=4 => 4,
        _ if index < ranks => 5,
        _ if index < actions => 16,
        _ if index < gotos => 14,
        _ => 15,
    }
}

fn numbers_of(book: &Book) -> Vec<u32> {
    book.cells().into_iter().map(u32::from).collect()
}

/// The refusal of a row of numbers as a book, which is the same with enough cells and with none.
fn refused_book(calls: &Calls, bytes: &[u8], number: u16, place: usize) {
    for count in [MOST_CELLS, 0] {
        let mut cells = vec![7; count];
        let answer = (calls.read)(bytes, &mut cells);
        assert_eq!(answer, Err(Refusal { number, place }));
        assert!(cells.iter().all(|&cell| cell == 7));
    }
}

/// Every number of a book in turn, in range but for its upper bits.
fn wide_numbers_in_a_book(calls: &Calls) {
    let ladder = made::ladder();
    let books = [ladder.in_form(2), ladder];
    for book in books.into_iter().chain(SHIPPED.map(shipped)) {
        let numbers = numbers_of(&book);
        for (index, place) in starts(&numbers).into_iter().enumerate() {
            for upper in UPPER {
                let mut numbers = numbers.clone();
                numbers[index] += upper;
                let number = fault_number(book.sizes, index);
                refused_book(calls, &encoded(&numbers), number, place);
            }
        }
    }
}

/// The same of a list. Article numbers may be as high.
fn wide_numbers_in_a_list(calls: &Calls) {
    let book = shipped("bracket");
    let mut lines = bracket_lines();
    for (line, article) in lines.iter_mut().zip([0, 1, 127, 128, 16_384, 65_535]) {
        line.article = article;
    }
    let (numbers, fields): (Vec<u32>, Vec<Field>) = fields(&lines).into_iter().unzip();
    for (at, place) in starts(&numbers).into_iter().enumerate() {
        for upper in UPPER {
            let mut numbers = numbers.clone();
            numbers[at] += upper;
            let list = encoded(&numbers);
            match fields[at] {
                Field::Ranged(number) => refused_by_all(calls, &book, &list, number, place),
                Field::Article(of) => {
                    assert_eq!(lines_of(calls, &book, &list), raised(&lines, of, upper))
                }
            }
        }
    }
}

/// The lines with one article number so much higher.
fn raised(lines: &[Line], at: usize, more: u32) -> Vec<Line> {
    let mut lines = lines.to_vec();
    lines[at].article += more;
    lines
}

/// A row of numbers of one byte with two of them made wrong: the index of the first, whether that is
/// badly formed or else has upper bits, and the bytes.
type TwoFaults = (usize, bool, Vec<u8>);

fn two_faults(numbers: &[u8]) -> Vec<TwoFaults> {
    let wide = |at: usize| encoded(&[u32::from(numbers[at]) + UPPER[0]]);
    let padded = |at: usize| vec![numbers[at] | 0x80, 0];
    let mut rows = Vec::new();
    let seconds = (0..numbers.len()).flat_map(|second| (0..second).map(move |at| (at, second)));
    for (first, second) in seconds {
        let [before, between] = [&numbers[..first], &numbers[first + 1..second]];
        let after = &numbers[second + 1..];
        for (is_padded, one, other) in [
            (false, wide(first), wide(second)),
            (false, wide(first), padded(second)),
            (true, padded(first), wide(second)),
        ] {
            let bytes = [before, &one, between, &other, after].concat();
            rows.push((first, is_padded, bytes));
        }
    }
    rows
}

fn the_first_fault_of_a_book(calls: &Calls) {
    let book = shipped("bracket").in_form(2);
    for (first, is_padded, bytes) in two_faults(&book.bytes()) {
        let number = match is_padded {
            true => 2,
            false => fault_number(book.sizes, first),
        };
        refused_book(calls, &bytes, number, first);
    }
}

fn the_first_fault_of_a_list(calls: &Calls) {
    let book = shipped("bracket");
    let lines = bracket_lines();
    let fields = fields(&lines);
    for (first, is_padded, list) in two_faults(&encode_list(&lines)) {
        let number = match fields[first].1 {
            _ if is_padded => 2,
            Field::Ranged(number) => number,
            Field::Article(_) => continue,
        };
        refused_by_all(calls, &book, &list, number, first);
    }
}

/// Two lists that differ in article numbers alone: sorted, each keeps its own, and joined, the first
/// list's are taken. In one list such entries repeat a state.
fn another_article_is_another_entry(calls: &Calls) {
    let book = shipped("bracket");
    let both = [numbered(bracket_lines()), highly_numbered(bracket_lines())];
    let [first, second] = both.each_ref().map(|lines| encode_list(lines));
    assert_ne!(first, second);
    assert_eq!(join(calls, &book, &first, &second), Ok(first.clone()));
    assert_eq!(join(calls, &book, &second, &first), Ok(second));
    for lines in &both {
        let turned = list_of(lines, &[5, 4, 3, 2, 1, 0]);
        assert_eq!(sort(calls, &book, &turned), Ok(encode_list(lines)));
    }
    let [mut lines, others] = both;
    for (at, other) in others.into_iter().enumerate() {
        lines.insert(at + 1, other);
        let list = encode_list(&lines);
        let entry = at + 1;
        assert_eq!(judge(calls, &book, &list), Judgement::Repeat { entry });
        assert_eq!(sort(calls, &book, &list), Err(Sorted::Repeat { entry }));
        lines.remove(at + 1);
    }
}

/// Lists for Bracket without a fault and with each of them: what is said of them is the same with
/// any article numbers. Beside Bracket's lines, 6 is passed in state 0.
fn articles_do_not_count(calls: &Calls) {
    let book = shipped("bracket");
    let lines = [bracket_lines(), vec![line(&[], 1)]].concat();
    let orders: [&[usize]; 6] = [
        &[0, 1, 2, 3, 4, 5],
        &[1, 3],
        &[0, 1, 1],
        &[0, 2, 1],
        &[0, 6, 2],
        &[],
    ];
    for order in orders {
        let [plain, given] =
            [lines.clone(), numbered(lines.clone())].map(|lines| list_of(&lines, order));
        let judgement = judge(calls, &book, &plain);
        assert_eq!(judge(calls, &book, &given), judgement);
        let [one, other] = [&plain, &given].map(|list| sort(calls, &book, list).err());
        assert_eq!(one, other);
        let [one, other] = [&plain, &given].map(|list| join(calls, &book, &[0], list).err());
        assert_eq!(one, other);
        for article in ARTICLES {
            let list = list_of(&all_with_article(&lines, article), order);
            assert_eq!(judge(calls, &book, &list), judgement);
        }
    }
}

/// Sorted and joined lists take as many bytes as the article numbers that they have.
fn room_for_articles(calls: &Calls) {
    let book = shipped("bracket");
    let lists = ARTICLES.map(|article| {
        let list = encode_list(&all_with_article(&bracket_lines(), article));
        assert_eq!(list.len(), 21 + 6 * groups(article).len());
        list
    });
    for first in &lists {
        assert_eq!(sort(calls, &book, first), Ok(first.clone()));
        for second in &lists {
            assert_eq!(join(calls, &book, first, second), Ok(first.clone()));
        }
    }
}
