//! What is asked of lists, of either implementation.

use super::Calls;
use crate::independent::book::Book;
use crate::random::lists::Line;
use purlquartz::{Ending, JoinRefusal, Joined, Judgement, Refusal, Sorted, STACK_CELLS};
use std::fmt::Debug;

/// What lent bytes hold before a call.
pub const UNTOUCHED: u8 = 0xa5;

pub const TOO_SHORT: Refusal = Refusal {
    number: 12,
    place: 0,
};

/// How many bytes were written, or the fault that was told instead; or the refusal. And what the
/// lent bytes hold then.
pub type Told<F, R> = (Result<Result<usize, F>, R>, Vec<u8>);

/// The list that a call writes if it is lent so many bytes, or the fault, which must not depend on
/// how many they are, if enough. Other bytes keep their values, and too few are refused.
pub fn in_any_room<F, R>(
    enough: usize,
    too_short: R,
    call: impl Fn(usize) -> Told<F, R>,
) -> Result<Vec<u8>, F>
where
    F: Copy + Debug + PartialEq,
    R: Copy + Debug + PartialEq,
{
    let (answer, mut bytes) = call(enough + 3);
    match answer.expect("no refusal") {
        Ok(count) => {
            assert_eq!(bytes.split_off(count), vec![UNTOUCHED; enough + 3 - count]);
            assert_eq!(call(count), (answer, bytes.clone()));
            for room in [0, count - 1] {
                assert_eq!(call(room), (Err(too_short), vec![UNTOUCHED; room]));
            }
            Ok(bytes)
        }
        Err(fault) => {
            assert_eq!(bytes, vec![UNTOUCHED; enough + 3]);
            for room in [0, enough] {
                assert_eq!(call(room), (answer, vec![UNTOUCHED; room]));
            }
            Err(fault)
        }
    }
}

/// The sorted list, which is as long, or the fault.
pub fn sort(calls: &Calls, book: &Book, list: &[u8]) -> Result<Vec<u8>, Sorted> {
    let cells = book.cells();
    let sorted = in_any_room(list.len(), TOO_SHORT, |room| {
        let (answer, bytes) = sort_into(calls, &cells, list, room);
        let told = answer.map(|sorted| match sorted {
            Sorted::List(count) => Ok(count),
            fault => Err(fault),
        });
        (told, bytes)
    })?;
    assert_eq!(sorted.len(), list.len());
    Ok(sorted)
}

/// The answer with so many lent bytes, and what these hold then.
pub fn sort_into(
    calls: &Calls,
    cells: &[u16],
    list: &[u8],
    room: usize,
) -> (Result<Sorted, Refusal>, Vec<u8>) {
    let mut bytes = vec![UNTOUCHED; room];
    let answer = (calls.sort_list)(cells, list, &mut bytes);
    (answer, bytes)
}

/// The joined list, or the fault.
pub fn join(calls: &Calls, book: &Book, first: &[u8], second: &[u8]) -> Result<Vec<u8>, Joined> {
    let cells = book.cells();
    let too_short = JoinRefusal {
        list: None,
        refusal: TOO_SHORT,
    };
    in_any_room(first.len() + second.len(), too_short, |room| {
        let (answer, bytes) = join_into(calls, &cells, [first, second], room);
        let told = answer.map(|joined| match joined {
            Joined::List(count) => Ok(count),
            fault => Err(fault),
        });
        (told, bytes)
    })
}

/// The answer with so many lent bytes, and what these hold then.
pub fn join_into(
    calls: &Calls,
    cells: &[u16],
    [first, second]: [&[u8]; 2],
    room: usize,
) -> (Result<Joined, JoinRefusal>, Vec<u8>) {
    let mut bytes = vec![UNTOUCHED; room];
    let answer = (calls.join_lists)(cells, first, second, &mut bytes);
    (answer, bytes)
}

pub fn judge(calls: &Calls, book: &Book, list: &[u8]) -> Judgement {
    let mut work = vec![0; book.sizes.work_cells()];
    let judged = (calls.judge)(&book.cells(), list, &mut work, &mut [0; STACK_CELLS]);
    judged.expect("no refusal")
}

/// Whether a list of this judgement is neither complete nor uncovered.
pub fn is_fault(judgement: Judgement) -> bool {
    !matches!(judgement, Judgement::Complete | Judgement::Uncovered { .. })
}

pub fn lines_of(calls: &Calls, book: &Book, list: &[u8]) -> Vec<Line> {
    let entries = (calls.entries)(&book.cells(), list).expect("a good list");
    let lines = entries.iter().map(|entry| Line {
        sentence: entry.symbols(list).to_vec(),
        lookahead: entry.lookahead,
        article: entry.article,
    });
    lines.collect()
}

/// The states that the runs of a faultless list's entries end in.
pub fn states(calls: &Calls, book: &Book, list: &[u8]) -> Vec<usize> {
    let cells = book.cells();
    let lines = lines_of(calls, book, list).into_iter();
    let states = lines.map(|line| {
        let mut stack = [0; STACK_CELLS];
        match (calls.run)(&cells, &line.sentence, line.lookahead, &mut stack) {
            Ok(Ending::Error(stop) | Ending::Broken(stop)) => stop.state.into(),
            other => panic!("{other:?} in a list without a fault"),
        }
    });
    states.collect()
}
