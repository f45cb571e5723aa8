//! One call at a time, made of the subject and of the independent implementation on equal memory.
//! Both answers and all memory, the guards too, must come out equal.

use super::lent::{Lent, Memory};
use super::{Calls, Finder, INDEPENDENT};
use crate::independent::book::Book;
use crate::independent::calls::{find_all, find_all_breaks};
use purlquartz::certificate::Certificate;
use purlquartz::{JoinRefusal, Joined, Refusal, Rest, Verdict};
use std::fmt::Debug;

/// What both answered, in a word: a refusal's number, or the name of the case. Or how they differ.
pub type Outcome = Result<String, String>;
/// The same for all pairs of a book.
pub type Outcomes = Result<Vec<String>, String>;

fn word<A: Debug, E: Copy + Into<Refusal>>(answer: &Result<A, E>) -> String {
    match answer {
        Err(refusal) => (*refusal).into().number.to_string(),
        Ok(answer) => name(answer),
    }
}

fn name(answer: &impl Debug) -> String {
    let whole = format!("{answer:?}");
    let name = whole.split(|sign: char| !sign.is_alphabetic()).next();
    name.unwrap_or_default().to_string()
}

fn same<A, E, M>(call: &str, subject: (Result<A, E>, M), expected: (Result<A, E>, M)) -> Outcome
where
    A: Debug + PartialEq,
    E: Copy + Debug + PartialEq + Into<Refusal>,
    M: Memory,
{
    if subject.0 != expected.0 {
        return Err(format!("{call}: {:?}, not {:?}", subject.0, expected.0));
    }
    match subject.1.difference(&expected.1) {
        Some(difference) => Err(format!("{call}: {difference}")),
        None => Ok(word(&expected.0)),
    }
}

pub fn read(subject: &Calls, bytes: &[u8], cells: &Lent<u16>) -> Outcome {
    let made = |calls: &Calls| {
        let (input, mut cells) = (Lent::holding(bytes), cells.clone());
        let answer = (calls.read)(input.part(), cells.part_mut());
        (answer, (input, cells))
    };
    same("read", made(subject), made(&INDEPENDENT))
}

pub fn check(subject: &Calls, cells: &[u16]) -> Outcome {
    let made = |calls: &Calls| {
        let input = Lent::holding(cells);
        ((calls.check)(input.part()), input)
    };
    same("check", made(subject), made(&INDEPENDENT))
}

/// The converter to form 1 or 2.
pub fn to_form(subject: &Calls, form: u16, cells: &[u16], lent: &Lent<u16>) -> Outcome {
    let made = |calls: &Calls| {
        let (input, mut lent) = (Lent::holding(cells), lent.clone());
        let answer = calls.to_form(form)(input.part(), lent.part_mut());
        (answer, (input, lent))
    };
    let call = format!("to_form_{form}");
    same(&call, made(subject), made(&INDEPENDENT))
}

pub fn write(subject: &Calls, cells: &[u16], bytes: &Lent<u8>) -> Outcome {
    let made = |calls: &Calls| {
        let (input, mut bytes) = (Lent::holding(cells), bytes.clone());
        let answer = (calls.write)(input.part(), bytes.part_mut());
        (answer, (input, bytes))
    };
    same("write", made(subject), made(&INDEPENDENT))
}

pub fn run(
    subject: &Calls,
    cells: &[u16],
    sentence: &[u8],
    lookahead: u16,
    stack: &Lent<u16>,
) -> Outcome {
    let made = |calls: &Calls| {
        let (cells, sentence) = (Lent::holding(cells), Lent::holding(sentence));
        let mut stack = stack.clone();
        let answer = (calls.run)(cells.part(), sentence.part(), lookahead, stack.part_mut());
        (answer, ((cells, sentence), stack))
    };
    same("run", made(subject), made(&INDEPENDENT))
}

pub fn find(
    subject: &Calls,
    cells: &[u16],
    pair: (u16, u16),
    work: &Lent<u16>,
    buffer: &Lent<u8>,
) -> Outcome {
    let finders = [subject.find, INDEPENDENT.find];
    same_pair("find", finders, cells, pair, work, buffer)
}

pub fn find_break(
    subject: &Calls,
    cells: &[u16],
    pair: (u16, u16),
    work: &Lent<u16>,
    buffer: &Lent<u8>,
) -> Outcome {
    let finders = [subject.find_break, INDEPENDENT.find_break];
    same_pair("find_break", finders, cells, pair, work, buffer)
}

fn same_pair<A: Debug + PartialEq>(
    call: &str,
    finders: [Finder<A>; 2],
    cells: &[u16],
    (state, lookahead): (u16, u16),
    work: &Lent<u16>,
    buffer: &Lent<u8>,
) -> Outcome {
    let [subject, expected] = finders.map(|finder| {
        let (cells, mut work, mut buffer) = (Lent::holding(cells), work.clone(), buffer.clone());
        let lent = (work.part_mut(), buffer.part_mut());
        let answer = finder(cells.part(), state, lookahead, lent.0, lent.1);
        (answer, (cells, (work, buffer)))
    });
    same(call, subject, expected)
}

/// All pairs of a good book, against answers that are worked out once.
pub fn find_each(subject: &Calls, book: &Book, work: &Lent<u16>, buffer: &Lent<u8>) -> Outcomes {
    let answers = find_all(book);
    same_pairs("find", subject.find, answers, book, work, buffer)
}

/// The reductions of all pairs of a good book likewise.
pub fn find_each_break(
    subject: &Calls,
    book: &Book,
    work: &Lent<u16>,
    buffer: &Lent<u8>,
) -> Outcomes {
    let answers = find_all_breaks(book);
    same_pairs(
        "find_break",
        subject.find_break,
        answers,
        book,
        work,
        buffer,
    )
}

fn same_pairs<A: Debug + PartialEq>(
    call: &str,
    finder: Finder<A>,
    answers: Vec<(A, Vec<u8>)>,
    book: &Book,
    work: &Lent<u16>,
    buffer: &Lent<u8>,
) -> Outcomes {
    let cells = book.cells();
    let mut cleared = work.clone();
    cleared.part_mut()[..book.sizes.work_cells()].fill(0);
    let mut words = Vec::new();
    for (pair, (found, sentence)) in answers.into_iter().enumerate() {
        let (mut work, mut lent) = (work.clone(), buffer.clone());
        let state = (pair / book.terminals()) as u16;
        let lookahead = (pair % book.terminals()) as u16;
        let answer = finder(&cells, state, lookahead, work.part_mut(), lent.part_mut());
        let mut expected = buffer.clone();
        expected.part_mut()[..sentence.len()].copy_from_slice(&sentence);
        let call = format!("{call} {state} {lookahead}");
        let expected = (cleared.clone(), expected);
        let word = same(&call, (answer, (work, lent)), (Ok(found), expected))?;
        words.push(word);
    }
    Ok(words)
}

pub fn map(subject: &Calls, cells: &[u16], work: &Lent<u16>, map: &Lent<u16>) -> Outcome {
    let made = |calls: &Calls| {
        let (cells, mut work, mut map) = (Lent::holding(cells), work.clone(), map.clone());
        let answer = (calls.map)(cells.part(), work.part_mut(), map.part_mut());
        (answer, (cells, (work, map)))
    };
    same("map", made(subject), made(&INDEPENDENT))
}

pub fn sets(
    subject: &Calls,
    cells: &[u16],
    work: &Lent<u16>,
    sets: &Lent<u32>,
    sizes: &Lent<u32>,
) -> Outcome {
    let made = |calls: &Calls| {
        let (cells, mut work) = (Lent::holding(cells), work.clone());
        let (mut sets, mut sizes) = (sets.clone(), sizes.clone());
        let lent = (work.part_mut(), sets.part_mut(), sizes.part_mut());
        let answer = (calls.sets)(cells.part(), lent.0, lent.1, lent.2);
        (answer, ((cells, work), (sets, sizes)))
    };
    same("sets", made(subject), made(&INDEPENDENT))
}

pub fn check_list(subject: &Calls, cells: &[u16], list: &[u8]) -> Outcome {
    let made = |calls: &Calls| {
        let (cells, list) = (Lent::holding(cells), Lent::holding(list));
        let answer = (calls.check_list)(cells.part(), list.part());
        (answer, (cells, list))
    };
    same("check_list", made(subject), made(&INDEPENDENT))
}

pub fn entry(subject: &Calls, cells: &[u16], list: &[u8], index: usize) -> Outcome {
    let made = |calls: &Calls| {
        let (cells, list) = (Lent::holding(cells), Lent::holding(list));
        let answer = (calls.entry)(cells.part(), list.part(), index);
        (answer, (cells, list))
    };
    same("entry", made(subject), made(&INDEPENDENT))
}

/// All entries by the iterator.
pub fn entries(subject: &Calls, cells: &[u16], list: &[u8]) -> Outcome {
    let made = |calls: &Calls| {
        let (cells, list) = (Lent::holding(cells), Lent::holding(list));
        let answer = (calls.entries)(cells.part(), list.part());
        (answer, (cells, list))
    };
    same("entries", made(subject), made(&INDEPENDENT))
}

/// Never a refusal: any offset and any count of entries left are taken.
pub fn next_entry(subject: &Calls, list: &[u8], rest: Rest) -> Outcome {
    let made = |calls: &Calls| {
        let list = Lent::holding(list);
        let answer = (calls.next_entry)(list.part(), rest);
        (Ok::<_, Refusal>(answer), list)
    };
    same("next_entry", made(subject), made(&INDEPENDENT))
}

pub fn judge(
    subject: &Calls,
    cells: &[u16],
    list: &[u8],
    work: &Lent<u16>,
    stack: &Lent<u16>,
) -> Outcome {
    let made = |calls: &Calls| {
        let (cells, list) = (Lent::holding(cells), Lent::holding(list));
        let (mut work, mut stack) = (work.clone(), stack.clone());
        let lent = (work.part_mut(), stack.part_mut());
        let answer = (calls.judge)(cells.part(), list.part(), lent.0, lent.1);
        (answer, ((cells, list), (work, stack)))
    };
    same("judge", made(subject), made(&INDEPENDENT))
}

pub fn sort_list(subject: &Calls, cells: &[u16], list: &[u8], lent: &Lent<u8>) -> Outcome {
    let made = |calls: &Calls| {
        let (cells, list) = (Lent::holding(cells), Lent::holding(list));
        let mut lent = lent.clone();
        let answer = (calls.sort_list)(cells.part(), list.part(), lent.part_mut());
        (answer, ((cells, list), lent))
    };
    same("sort_list", made(subject), made(&INDEPENDENT))
}

/// The word of a fault, or of a list's refusal, begins with whose it is.
pub fn join_lists(subject: &Calls, cells: &[u16], lists: [&[u8]; 2], lent: &Lent<u8>) -> Outcome {
    let made = |calls: &Calls| {
        let (cells, mut lent) = (Lent::holding(cells), lent.clone());
        let [first, second] = lists.map(Lent::holding);
        let parts = (first.part(), second.part(), lent.part_mut());
        let answer = (calls.join_lists)(cells.part(), parts.0, parts.1, parts.2);
        (answer, ((cells, lent), (first, second)))
    };
    let expected = made(&INDEPENDENT);
    let answer = expected.0;
    let outcome = same("join_lists", made(subject), expected)?;
    Ok(match answer {
        Ok(Joined::Fault { list, judgement }) => format!("{list:?}{}", name(&judgement)),
        Err(JoinRefusal { list, .. }) => list.as_ref().map(name).unwrap_or_default() + &outcome,
        Ok(Joined::List(_)) => outcome,
    })
}

/// The word of a fault is the name of its condition.
pub fn check_certificate(subject: &Calls, cells: &[u16], certificate: &Certificate) -> Outcome {
    let made = |calls: &Calls| {
        let cells = Lent::holding(cells);
        let crossings = Lent::holding(&certificate.crossings);
        let pairs = Lent::holding(&certificate.pairs);
        let sentences = Lent::holding(&certificate.sentences);
        let rows = (crossings.part(), pairs.part(), sentences.part());
        let answer = (calls.check_certificate)(cells.part(), rows.0, rows.1, rows.2);
        (answer, ((cells, crossings), (pairs, sentences)))
    };
    let expected = made(&INDEPENDENT);
    let answer = expected.0;
    let outcome = same("check_certificate", made(subject), expected)?;
    Ok(match answer {
        Ok(Verdict::Fault { condition, .. }) => format!("{condition:?}"),
        _ => outcome,
    })
}
