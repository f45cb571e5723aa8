//! Safe calls to Purlquartz, machine-checked tools for the tables of LR(1) parsers.
//!
//! A *book* holds a parser's tables: T terminals, N nonterminals, S states and P productions. In
//! memory it is a row of 16-bit cells; [`read`] and [`write`](write()) turn bytes into cells and
//! back. Its *form* is 1 or 2, and every call takes both: in form 2 each terminal has a rank, in
//! form 1 its number is its rank. [`to_form_1`] and [`to_form_2`] turn one form into the other.
//!
//! All memory is lent by the caller. Each call checks its inputs whole before it writes anything,
//! so that a refused call changes nothing. Refusals come in the order: the book's, those of the
//! list or lists, sentence or certificate, then 17, 10, 11, 13, 12. The 12 of [`sort_list`] and of
//! [`join_lists`] alone comes later, once it is known that there is a result.
//!
//! In bytes a number takes one to three, the fewest possible, and may be from 0 to 2,097,151. One
//! that is outside the range of its place, also one over 65,535, gets the refusal of its place.
//!
//! A pair of a state and a lookahead *fails* if its action is error and some sequence of terminals
//! reaches it, or if its action is reduce and with some sequence that reduction cannot be done.
//! [`find`] and [`find_break`] answer the shortest such sentence, and [`judge`] whether a list has
//! one for every state that has a failing pair.
//!
//! A *list* is the count of its entries, and for each its length, its symbols, its lookahead and
//! its article number, that of its message. Entries have to stand in ascending order of the state
//! where they fail, which [`sort_list`] brings them into. [`join_lists`] makes one list of two. In
//! both an entry keeps its article number, and no judgement depends on it. Nothing marks a list
//! that was written before entries had article numbers: it is refused, or read as its bytes now
//! say.
//!
//! A *certificate* shows that a map is a book's map: [`check_certificate`] looks whether it does,
//! and [`certificate::make`] makes one.
#![deny(unsafe_code)]

mod answers;
pub mod certificate;
mod entries;
#[allow(unsafe_code)]
mod foreign;

pub use answers::*;
pub use entries::Entries;
use foreign::Answer;

/// Reads a book from bytes into the first lent cells, and answers how many. The cells after them
/// keep their values.
///
/// Refusals: 1 to 6 and 14 to 16 with the offset of the number's first byte; 12 if the book has
/// more cells than are lent.
pub fn read(bytes: &[u8], cells: &mut [u16]) -> Result<usize, Refusal> {
    count(foreign::read(bytes, cells))
}

/// Checks the cells of a book and answers its form and its sizes.
///
/// Refusals: 1, 3, 4, 5, 16, 14, 15 and 6 with the cell's index. Every call that takes cells gives
/// these first.
pub fn check(cells: &[u16]) -> Result<Sizes, Refusal> {
    let answer = accepted(foreign::check(cells))?;
    Ok(Sizes {
        form: answer[5] as u16,
        terminals: answer[1] as u16,
        nonterminals: answer[2] as u16,
        states: answer[3] as u16,
        productions: answer[4] as u16,
    })
}

/// Writes the book that the cells hold to the first lent cells in form 1, and answers how many. The
/// cells after them keep their values. The ranks of form 2 are left out, which must be the
/// terminals' numbers; a book of form 1 is written as it is.
///
/// Refusals: those of [`check`]; 17 with the cell's index at the first rank that is not its
/// terminal's number; 12 if the result has more cells than are lent.
pub fn to_form_1(cells: &[u16], lent: &mut [u16]) -> Result<usize, Refusal> {
    count(foreign::to_form_1(cells, lent))
}

/// Writes the book that the cells hold to the first lent cells in form 2, and answers how many. The
/// cells after them keep their values. To a book of form 1 the ranks 0 to T - 1 are added, in this
/// order; a book of form 2 is written as it is, whatever its ranks.
///
/// Refusals: those of [`check`]; 12 if the result has more cells than are lent.
pub fn to_form_2(cells: &[u16], lent: &mut [u16]) -> Result<usize, Refusal> {
    count(foreign::to_form_2(cells, lent))
}

/// Writes the book that the cells hold to the first lent bytes, and answers how many. The bytes
/// after them keep their values.
///
/// Refusals: those of [`check`]; 12 if the book has more bytes than are lent.
pub fn write(cells: &[u16], bytes: &mut [u8]) -> Result<usize, Refusal> {
    count(foreign::write(cells, bytes))
}

/// Runs a sentence with a lookahead, and answers how that ends. The first [`STACK_CELLS`] cells
/// then hold the stack before the step that was not taken, bottom first, then zeros; the cells
/// after them keep their values.
///
/// Refusals: those of [`check`]; 8, then 7 with the symbol's index; 11; 13 if fewer than
/// [`STACK_CELLS`] cells are lent.
pub fn run(
    cells: &[u16],
    sentence: &[u8],
    lookahead: u16,
    stack: &mut [u16],
) -> Result<Ending, Refusal> {
    let answer = accepted(foreign::run(cells, sentence, lookahead, stack))?;
    let stop = [answer[1], answer[2], answer[3]];
    Ok(ending(answer[0], stop))
}

/// Finds the shortest sentence that brings the machine to the state with the lookahead, and of
/// several the earliest in order: the lower rank at the first difference. It stands at the front of
/// the buffer; the bytes after it, or all where there is none, keep their values. The first
/// T × T × S × (N + 8) work cells are zero afterwards ([`Sizes::work_cells`]).
///
/// Refusals: those of [`check`]; 10; 11; 13 if fewer work cells are lent; 12 if the buffer has
/// fewer than [`SENTENCE_BYTES`] bytes.
pub fn find(
    cells: &[u16],
    state: u16,
    lookahead: u16,
    work: &mut [u16],
    buffer: &mut [u8],
) -> Result<Found, Refusal> {
    let answer = accepted(foreign::find(cells, state, lookahead, work, buffer))?;
    Ok(match answer[0] {
        1 => Found::Unreached,
        2 => Found::Long,
        3 => Found::Sentence(answer[1] as usize),
        kind => unknown(kind),
    })
}

/// Finds the shortest sentence that brings the machine to the state with the lookahead, with a
/// stack on which the reduction to be done there breaks, and of several the earliest in order. A
/// reduction of length n breaks if n or fewer states are stacked, or if the state that is on top
/// once n are taken off has no goto under its left side. Unlike in a [`run`], the stack and the
/// reductions before are unlimited. Of a pair whose action is not reduce the answer is
/// [`Break::None`].
///
/// The sentence, the other bytes of the buffer and the work cells are left as by [`find`], and the
/// refusals are those of [`find`].
pub fn find_break(
    cells: &[u16],
    state: u16,
    lookahead: u16,
    work: &mut [u16],
    buffer: &mut [u8],
) -> Result<Break, Refusal> {
    let answer = accepted(foreign::find_break(cells, state, lookahead, work, buffer))?;
    Ok(match answer[0] {
        1 => Break::None,
        2 => Break::Long,
        3 => Break::Sentence(answer[1] as usize),
        kind => unknown(kind),
    })
}

/// Writes the whole map to the first S × T lent cells, by state, then terminal, and answers that
/// count: the least length of a sentence that reaches the pair, [`LONG`] or [`UNREACHED`]. The
/// cells after them keep their values; the work cells are zero as after [`find`].
///
/// Refusals: those of [`check`]; 13 if too few work cells are lent; 12 if fewer than S × T map
/// cells are lent.
pub fn map(cells: &[u16], work: &mut [u16], map: &mut [u16]) -> Result<usize, Refusal> {
    count(foreign::map(cells, work, map))
}

/// Writes for each state the set of lookaheads that it is reached with, bit z for terminal z, and
/// beside it how many there are; answers S. The cells after the first S keep their values; the
/// work cells are zero as after [`find`].
///
/// Refusals: those of [`check`]; 13 if too few work cells are lent; 12 if fewer than S cells are
/// lent for the sets or for their sizes.
pub fn sets(
    cells: &[u16],
    work: &mut [u16],
    sets: &mut [u32],
    sizes: &mut [u32],
) -> Result<usize, Refusal> {
    count(foreign::sets(cells, work, sets, sizes))
}

/// Checks a list against a book, and answers where its first entry begins and how many there are.
///
/// Refusals: those of [`check`]; then with the offset of the number's first byte 1, 2, 9 for the
/// count; for each entry 1, 2, 8 for its length, 1, 2, 7 for each symbol, 1, 2, 11 for its
/// lookahead and 1, 2 for its article number, which may be any number; 6.
pub fn check_list(cells: &[u16], list: &[u8]) -> Result<Rest, Refusal> {
    let answer = accepted(foreign::check_list(cells, list))?;
    Ok(Rest {
        offset: answer[1] as usize,
        left: answer[2] as usize,
    })
}

/// Checks a list against a book, and answers an iterator over its entries. All of them together
/// take time in proportion to the list.
///
/// Refusals: those of [`check_list`].
pub fn entries<'list>(cells: &[u16], list: &'list [u8]) -> Result<Entries<'list>, Refusal> {
    Ok(Entries::new(list, check_list(cells, list)?))
}

/// Answers the next entry of a list that [`check_list`] has found good, and what is left after it,
/// or none after the last. With any other rest it still answers: none if no whole entry with
/// symbols and a lookahead below 32 stands at the offset.
pub fn next_entry(list: &[u8], rest: Rest) -> Option<(Entry, Rest)> {
    let answer = foreign::next_entry(list, rest.offset, rest.left);
    one_entry(&answer).map(|entry| {
        let rest = Rest {
            offset: answer[5] as usize,
            left: answer[6] as usize,
        };
        (entry, rest)
    })
}

/// Answers one entry of a list by its index from 0, or none past the last.
///
/// Refusals: those of [`check_list`].
pub fn entry(cells: &[u16], list: &[u8], index: usize) -> Result<Option<Entry>, Refusal> {
    let answer = accepted(foreign::entry(cells, list, index))?;
    Ok(one_entry(&answer))
}

/// Judges a list: the first entry that is wrong, or else out of order, or else repeats a state; or,
/// if there is none, whether every state with a failing pair is covered. An entry is right if its
/// run ends as error or as broken with the whole sentence in, and out of order if that is in a
/// lower state than the one before it. Article numbers do not count. The work cells are zero as
/// after [`find`], and so are the first [`STACK_CELLS`] stack cells.
///
/// Refusals: those of [`check_list`]; 13 if too few work or stack cells are lent.
pub fn judge(
    cells: &[u16],
    list: &[u8],
    work: &mut [u16],
    stack: &mut [u16],
) -> Result<Judgement, Refusal> {
    let answer = accepted(foreign::judge(cells, list, work, stack))?;
    Ok(match answer[0] {
        1 => Judgement::Complete,
        2 => Judgement::Uncovered {
            state: answer[1] as u16,
        },
        _ => fault(&answer),
    })
}

/// Writes a list to the first lent bytes with its entries, each with its article number, in
/// ascending order of the state where they fail, and answers how many. The bytes after them keep
/// their values. The entries may come in any order, but none may be wrong or repeat a state: the
/// first that is so is told as by [`judge`], and then no byte is written. The result has as many
/// bytes as the list. Lists with the same entries, article numbers too, are written alike, and one
/// that is in order as it is.
///
/// Refusals: those of [`check_list`]; 12 if there is a result and it has more bytes than are lent.
pub fn sort_list(cells: &[u16], list: &[u8], bytes: &mut [u8]) -> Result<Sorted, Refusal> {
    let answer = accepted(foreign::sort_list(cells, list, bytes))?;
    Ok(match answer[0] {
        1 => Sorted::List(answer[1] as usize),
        3 => Sorted::Repeat {
            entry: answer[1] as usize,
        },
        4 => Sorted::Wrong {
            entry: answer[1] as usize,
            ending: wrong_ending(&answer),
        },
        kind => unknown(kind),
    })
}

/// Joins two lists for the same book, and answers how many bytes that has: for each state that an
/// entry of either list fails in, the entry with fewer symbols is written to the first lent bytes,
/// at equal length the first list's, in ascending order of the states. The bytes after them keep
/// their values. An entry that is taken keeps its article number. Both lists have to be without a
/// fault by [`judge`]: else the first list's fault is told, or the second's if the first has none,
/// and then no byte is written. The result has no fault, and is complete if each state with a
/// failing pair has an entry in one of them.
///
/// Refusals: those of [`check`]; those of [`check_list`] for the first list, then for the second,
/// before any fault; 12 if there is a result and it has more bytes than are lent.
pub fn join_lists(
    cells: &[u16],
    first: &[u8],
    second: &[u8],
    bytes: &mut [u8],
) -> Result<Joined, JoinRefusal> {
    let answer = foreign::join_lists(cells, first, second, bytes);
    let list = whose(answer[7]);
    let answer = accepted(answer).map_err(|refusal| JoinRefusal { list, refusal })?;
    Ok(match (answer[0], list) {
        (1, None) => Joined::List(answer[1] as usize),
        (_, Some(list)) => Joined::Fault {
            list,
            judgement: fault(&answer),
        },
        (kind, None) => unknown(kind),
    })
}

/// Checks a certificate for a book, whoever made it, and accepts it or tells the first condition
/// that it does not meet. What is accepted is the book's map: `pairs` is then what [`map`] writes,
/// and no pair is long. No lent memory is written.
///
/// A certificate has two rows of claimed least lengths, 0 to 1,000, [`LONG`] or [`UNREACHED`], and
/// sentences:
///
/// - `crossings`, S × N × T × T cells ([`Sizes::crossing_cells`]): for each state q, nonterminal x,
///   first and following terminal, at ((q × N + x) × T + first) × T + following, what it takes to
///   cross the goto of q under x, be it there or none;
/// - `pairs`, S × T cells in the map's order ([`Sizes::map_cells`]);
/// - `sentences`: for each pair claimed at 1,000 or less, in the map's order, a length and symbols,
///   numbers as in a book.
///
/// Refusals: those of [`check`]; for the crossings 1 at their count if that is too low, or 6 at the
/// first surplus cell; for the pairs likewise; then with the offset of the number's first byte, for
/// each sentence that is due, 1, 2, 8 for its length and 1, 2, 7 for each symbol; 6.
pub fn check_certificate(
    cells: &[u16],
    crossings: &[u16],
    pairs: &[u16],
    sentences: &[u8],
) -> Result<Verdict, Refusal> {
    let answer = foreign::check_certificate(cells, crossings, pairs, sentences);
    let answer = accepted(answer)?;
    Ok(match answer[0] {
        1 => Verdict::Accepted,
        2 => Verdict::Fault {
            condition: condition(answer[1]),
            index: answer[2] as usize,
        },
        kind => unknown(kind),
    })
}

/// Kind 0 is a refusal for every call.
fn accepted(answer: Answer) -> Result<Answer, Refusal> {
    if answer[0] == 0 {
        return Err(Refusal {
            number: answer[1] as u16,
            place: answer[2] as usize,
        });
    }
    Ok(answer)
}

fn count(answer: Answer) -> Result<usize, Refusal> {
    let answer = accepted(answer)?;
    match answer[0] {
        1 => Ok(answer[1] as usize),
        kind => unknown(kind),
    }
}

fn one_entry(answer: &Answer) -> Option<Entry> {
    match answer[0] {
        1 => Some(Entry {
            start: answer[1] as usize,
            length: answer[2] as usize,
            lookahead: answer[3] as u16,
            article: answer[4] as u32,
        }),
        2 => None,
        kind => unknown(kind),
    }
}

/// The judgement of a list that is neither complete nor uncovered.
fn fault(answer: &Answer) -> Judgement {
    let entry = answer[1] as usize;
    match answer[0] {
        3 => Judgement::Repeat { entry },
        4 => Judgement::Wrong {
            entry,
            ending: wrong_ending(answer),
        },
        5 => Judgement::OutOfOrder { entry },
        kind => unknown(kind),
    }
}

/// How the run of a wrong entry ended.
fn wrong_ending(answer: &Answer) -> Ending {
    ending(answer[2], [answer[3], answer[4], answer[5]])
}

fn ending(kind: u64, [state, symbol, taken]: [u64; 3]) -> Ending {
    let stop = Stop {
        state: state as u16,
        symbol: symbol as u16,
        taken: taken as u16,
    };
    match kind {
        1 => Ending::Accepted(stop),
        2 => Ending::Error(stop),
        3 => Ending::Broken(stop),
        4 => Ending::Passed(stop),
        5 => Ending::Deep(stop),
        6 => Ending::Spinning(stop),
        kind => unknown(kind),
    }
}

/// The list that an answer to a joining is about, if about one.
fn whose(number: u64) -> Option<Which> {
    match number {
        0 => None,
        1 => Some(Which::First),
        2 => Some(Which::Second),
        number => unknown(number),
    }
}

fn condition(number: u64) -> Condition {
    match Condition::ALL.get(number as usize) {
        Some(&condition) => condition,
        None => unknown(number),
    }
}

/// Not met: the library's contracts name every kind.
fn unknown(kind: u64) -> ! {
    panic!("the library answered the unknown kind {kind}")
}
