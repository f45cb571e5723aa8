//! Every call of the library, over lent memory.

use super::book::{Action, Book};
use super::breaks::{find_breaks, has_break};
use super::certificate::Certificate;
use super::list::Item;
use super::numbers::refuse;
use super::reach::{distances, map_cell};
use super::summaries::Summaries;
use super::words::Words;
use super::{list, machine};
use purlquartz::*;
use std::collections::BTreeMap;

pub fn read(bytes: &[u8], cells: &mut [u16]) -> Result<usize, Refusal> {
    let result = Book::from_bytes(bytes)?.cells();
    hand_over(&result, cells)
}

pub fn check(cells: &[u16]) -> Result<Sizes, Refusal> {
    Ok(Book::from_cells(cells)?.sizes)
}

pub fn to_form_1(cells: &[u16], lent: &mut [u16]) -> Result<usize, Refusal> {
    let book = Book::from_cells(cells)?;
    let other = |&terminal: &usize| usize::from(book.ranks[terminal]) != terminal;
    if let Some(terminal) = (0..book.terminals()).find(other) {
        return refuse(17, book.first_rank() + terminal);
    }
    hand_over(&book.in_form(1).cells(), lent)
}

pub fn to_form_2(cells: &[u16], lent: &mut [u16]) -> Result<usize, Refusal> {
    hand_over(&Book::from_cells(cells)?.in_form(2).cells(), lent)
}

pub fn write(cells: &[u16], bytes: &mut [u8]) -> Result<usize, Refusal> {
    let result = Book::from_cells(cells)?.bytes();
    hand_over(&result, bytes)
}

fn hand_over<T: Copy>(result: &[T], lent: &mut [T]) -> Result<usize, Refusal> {
    if lent.len() < result.len() {
        return refuse(12, 0);
    }
    lent[..result.len()].copy_from_slice(result);
    Ok(result.len())
}

pub fn run(
    cells: &[u16],
    sentence: &[u8],
    lookahead: u16,
    stack: &mut [u16],
) -> Result<Ending, Refusal> {
    let book = Book::from_cells(cells)?;
    check_sentence(sentence, book.terminals())?;
    if lookahead >= book.sizes.terminals {
        return refuse(11, 0);
    }
    if stack.len() < STACK_CELLS {
        return refuse(13, 0);
    }
    let (ending, left) = machine::run(&book, sentence, lookahead);
    stack[..STACK_CELLS].fill(0);
    stack[..left.len()].copy_from_slice(&left);
    Ok(ending)
}

fn check_sentence(sentence: &[u8], terminals: usize) -> Result<(), Refusal> {
    if sentence.len() > SENTENCE_BYTES {
        return refuse(8, 0);
    }
    for (index, &symbol) in sentence.iter().enumerate() {
        if symbol == 0 || usize::from(symbol) >= terminals {
            return refuse(7, index);
        }
    }
    Ok(())
}

fn check_work(book: &Book, work: &[u16]) -> Result<(), Refusal> {
    if work.len() < book.sizes.work_cells() {
        return refuse(13, 0);
    }
    Ok(())
}

fn clear_work(book: &Book, work: &mut [u16]) {
    work[..book.sizes.work_cells()].fill(0);
}

/// The finder's refusals that come after the book's.
fn check_pair(
    book: &Book,
    (state, lookahead): (u16, u16),
    work: &[u16],
    buffer: &[u8],
) -> Result<(), Refusal> {
    if state >= book.sizes.states {
        return refuse(10, 0);
    }
    if lookahead >= book.sizes.terminals {
        return refuse(11, 0);
    }
    check_work(book, work)?;
    if buffer.len() < SENTENCE_BYTES {
        return refuse(12, 0);
    }
    Ok(())
}

pub fn find(
    cells: &[u16],
    state: u16,
    lookahead: u16,
    work: &mut [u16],
    buffer: &mut [u8],
) -> Result<Found, Refusal> {
    let book = Book::from_cells(cells)?;
    check_pair(&book, (state, lookahead), work, buffer)?;
    clear_work(&book, work);
    let summaries = Summaries::new(&book);
    let distances = distances(&summaries, 0);
    let head = summaries.head(state.into(), lookahead.into());
    let (found, sentence) = Words::new(&summaries, &distances).answer(head);
    buffer[..sentence.len()].copy_from_slice(&sentence);
    Ok(found)
}

pub fn find_break(
    cells: &[u16],
    state: u16,
    lookahead: u16,
    work: &mut [u16],
    buffer: &mut [u8],
) -> Result<Break, Refusal> {
    let book = Book::from_cells(cells)?;
    check_pair(&book, (state, lookahead), work, buffer)?;
    clear_work(&book, work);
    let lookahead = usize::from(lookahead);
    let (found, sentence) = find_breaks(&book, state.into(), lookahead..lookahead + 1).remove(0);
    buffer[..sentence.len()].copy_from_slice(&sentence);
    Ok(found)
}

/// The whole map of a valid book.
pub fn map_of(book: &Book) -> Vec<u16> {
    let summaries = Summaries::new(book);
    distances(&summaries, 0).into_iter().map(map_cell).collect()
}

/// The answers for all pairs of a valid book, by state, then terminal.
pub fn find_all(book: &Book) -> Vec<(Found, Vec<u8>)> {
    let summaries = Summaries::new(book);
    let distances = distances(&summaries, 0);
    let mut words = Words::new(&summaries, &distances);
    let answers = (0..distances.len()).map(|head| words.answer(head));
    answers.collect()
}

/// The same for the reductions of all pairs.
pub fn find_all_breaks(book: &Book) -> Vec<(Break, Vec<u8>)> {
    let rows = (0..book.states()).map(|state| find_breaks(book, state, 0..book.terminals()));
    rows.flatten().collect()
}

pub fn map(cells: &[u16], work: &mut [u16], map: &mut [u16]) -> Result<usize, Refusal> {
    let book = Book::from_cells(cells)?;
    check_work(&book, work)?;
    let count = hand_over(&map_of(&book), map)?;
    clear_work(&book, work);
    Ok(count)
}

pub fn sets(
    cells: &[u16],
    work: &mut [u16],
    sets: &mut [u32],
    sizes: &mut [u32],
) -> Result<usize, Refusal> {
    let book = Book::from_cells(cells)?;
    check_work(&book, work)?;
    if sets.len() < book.states() || sizes.len() < book.states() {
        return refuse(12, 0);
    }
    clear_work(&book, work);
    for (state, row) in map_of(&book).chunks(book.terminals()).enumerate() {
        sets[state] = 0;
        sizes[state] = 0;
        for (terminal, &cell) in row.iter().enumerate() {
            if cell != UNREACHED {
                sets[state] |= 1 << terminal;
                sizes[state] += 1;
            }
        }
    }
    Ok(book.states())
}

pub fn check_list(cells: &[u16], bytes: &[u8]) -> Result<Rest, Refusal> {
    let book = Book::from_cells(cells)?;
    Ok(list::decode(bytes, book.sizes.terminals)?.rest())
}

pub fn entry(cells: &[u16], bytes: &[u8], index: usize) -> Result<Option<Entry>, Refusal> {
    let book = Book::from_cells(cells)?;
    let list = list::decode(bytes, book.sizes.terminals)?;
    Ok(list.entries.get(index).copied())
}

pub fn entries(cells: &[u16], bytes: &[u8]) -> Result<Vec<Entry>, Refusal> {
    let book = Book::from_cells(cells)?;
    Ok(list::decode(bytes, book.sizes.terminals)?.entries)
}

pub fn next_entry(bytes: &[u8], rest: Rest) -> Option<(Entry, Rest)> {
    list::next(bytes, rest)
}

pub fn judge(
    cells: &[u16],
    bytes: &[u8],
    work: &mut [u16],
    stack: &mut [u16],
) -> Result<Judgement, Refusal> {
    let book = Book::from_cells(cells)?;
    let list = list::decode(bytes, book.sizes.terminals)?;
    check_work(&book, work)?;
    if stack.len() < STACK_CELLS {
        return refuse(13, 0);
    }
    clear_work(&book, work);
    stack[..STACK_CELLS].fill(0);
    Ok(judge_entries(&book, bytes, &list.entries))
}

/// The state that a sentence fails in, or the ending that makes its entry wrong.
pub fn failing_state(book: &Book, sentence: &[u8], lookahead: u16) -> Result<usize, Ending> {
    let (ending, _) = machine::run(book, sentence, lookahead);
    match ending {
        Ending::Error(stop) | Ending::Broken(stop) if usize::from(stop.taken) == sentence.len() => {
            Ok(stop.state.into())
        }
        ending => Err(ending),
    }
}

fn judge_entries(book: &Book, bytes: &[u8], entries: &[Entry]) -> Judgement {
    match states_in_order(book, bytes, entries) {
        Ok(states) => judge_cover(book, &states),
        Err(fault) => fault,
    }
}

/// The states that the entries fail in, or the first fault.
fn states_in_order(book: &Book, bytes: &[u8], entries: &[Entry]) -> Result<Vec<usize>, Judgement> {
    let mut states = Vec::new();
    for (entry, read) in entries.iter().enumerate() {
        let state = failing_state(book, read.symbols(bytes), read.lookahead)
            .map_err(|ending| Judgement::Wrong { entry, ending })?;
        if states.last().is_some_and(|&before| state < before) {
            return Err(Judgement::OutOfOrder { entry });
        }
        if states.contains(&state) {
            return Err(Judgement::Repeat { entry });
        }
        states.push(state);
    }
    Ok(states)
}

pub fn sort_list(cells: &[u16], bytes: &[u8], lent: &mut [u8]) -> Result<Sorted, Refusal> {
    let book = Book::from_cells(cells)?;
    let list = list::decode(bytes, book.sizes.terminals)?;
    let mut by_state = BTreeMap::new();
    for (entry, read) in list.entries.iter().enumerate() {
        match failing_state(&book, read.symbols(bytes), read.lookahead) {
            Err(ending) => return Ok(Sorted::Wrong { entry, ending }),
            Ok(state) if by_state.contains_key(&state) => return Ok(Sorted::Repeat { entry }),
            Ok(state) => by_state.insert(state, Item::of(bytes, read)),
        };
    }
    let sorted = list::encode_list(by_state.into_values());
    hand_over(&sorted, lent).map(Sorted::List)
}

/// The entries of both lists by state, and for one state by length. The sort leaves equals in their
/// order, so that the first list's comes first, and the first of each state is taken.
pub fn join_lists(
    cells: &[u16],
    first: &[u8],
    second: &[u8],
    lent: &mut [u8],
) -> Result<Joined, JoinRefusal> {
    let of = |list| move |refusal| JoinRefusal { list, refusal };
    let book = Book::from_cells(cells).map_err(of(None))?;
    let decode = |list, bytes| {
        let read = list::decode(bytes, book.sizes.terminals).map_err(of(Some(list)))?;
        Ok((list, bytes, read.entries))
    };
    let lists = [decode(Which::First, first)?, decode(Which::Second, second)?];
    let mut items = Vec::new();
    for (list, bytes, entries) in lists {
        match states_in_order(&book, bytes, &entries) {
            Err(judgement) => return Ok(Joined::Fault { list, judgement }),
            Ok(states) => {
                let entries = entries.iter().map(|entry| Item::of(bytes, entry));
                items.extend(states.into_iter().zip(entries));
            }
        }
    }
    items.sort_by_key(|(state, item)| (*state, item.sentence.len()));
    items.dedup_by_key(|(state, _)| *state);
    let joined = list::encode_list(items.into_iter().map(|(_, item)| item));
    let count = hand_over(&joined, lent).map_err(of(None))?;
    Ok(Joined::List(count))
}

/// The lowest state with a failing pair, long ones too, that is not among the states.
pub fn judge_cover(book: &Book, covered: &[usize]) -> Judgement {
    let map = map_of(book);
    let has_error = |state: usize| {
        (0..book.terminals()).any(|terminal| {
            book.action(state, terminal) == Action::Error
                && map[state * book.terminals() + terminal] != UNREACHED
        })
    };
    let failing = |state: usize| has_error(state) || has_break(book, state);
    match (0..book.states()).find(|state| !covered.contains(state) && failing(*state)) {
        Some(state) => Judgement::Uncovered {
            state: state as u16,
        },
        None => Judgement::Complete,
    }
}

pub fn check_certificate(
    cells: &[u16],
    crossings: &[u16],
    pairs: &[u16],
    sentences: &[u8],
) -> Result<Verdict, Refusal> {
    let book = Book::from_cells(cells)?;
    Ok(Certificate::decode(&book, crossings, pairs, sentences)?.verdict())
}
