//! Reductions that break, in books where it is known beforehand where and with which sentence: on a
//! short stack, for want of a goto, past a run's limits, or never. Each is asked of the library and
//! of the independent implementation.

#[macro_use]
mod both;
#[allow(dead_code)]
#[path = "../examples/make_book/grammar.rs"]
mod grammar;
mod independent;
#[allow(dead_code)]
#[path = "../examples/make_book/lalr.rs"]
mod lalr;
mod made;
mod random;
mod shipped;

use both::Calls;
use independent::book::{Action, Book, Production};
use made::{after, doubling, growing, hand_book, shifted, thousand, without_goto};
use purlquartz::*;
use random::lists::{covering, encode_list, line, Line};
use random::ranks::in_every_order;
use random::Random;
use shipped::{shipped, SHIPPED};

on_both! {
    short_stack
    missing_goto
    either_cause
    passed_before_it_breaks
    passed_and_taken_in
    many_empty_reductions
    too_deep
    sentence_of_1000_and_1001
    exponential_length_is_long
    longest_production
    ranks
    refused_in_order
    broken_entries
    state_that_only_breaks
    past_the_limits
    shipped_books
}

type Pair = (usize, usize);

/// The sentence of a pair, or the other answer. All work cells are zero afterwards, and the rest of
/// the buffer keeps its values.
fn find_break(calls: &Calls, book: &Book, (state, lookahead): Pair) -> Result<Vec<u8>, Break> {
    let mut work = vec![7; book.sizes.work_cells()];
    let mut buffer = vec![7; SENTENCE_BYTES + 1];
    let (state, lookahead) = (state as u16, lookahead as u16);
    let answer = (calls.find_break)(&book.cells(), state, lookahead, &mut work, &mut buffer);
    assert!(work.iter().all(|&cell| cell == 0));
    let (length, answer) = match answer.expect("no refusal") {
        Break::Sentence(length) => (length, Ok(buffer[..length].to_vec())),
        other => (0, Err(other)),
    };
    assert!(buffer[length..].iter().all(|&byte| byte == 7));
    answer
}

/// These pairs of the book break, each with this sentence, and no other pair does.
fn breaks_at(calls: &Calls, book: &Book, expected: &[(Pair, &[u8])]) {
    for state in 0..book.states() {
        for lookahead in 0..book.terminals() {
            let pair = (state, lookahead);
            let known = expected.iter().find(|(known, _)| *known == pair);
            let known = known.map(|(_, sentence)| sentence.to_vec());
            assert_eq!(find_break(calls, book, pair), known.ok_or(Break::None));
        }
    }
}

fn find(calls: &Calls, book: &Book, (state, lookahead): Pair) -> Option<Vec<u8>> {
    let mut work = vec![0; book.sizes.work_cells()];
    let mut buffer = vec![0; SENTENCE_BYTES];
    let (state, lookahead) = (state as u16, lookahead as u16);
    let answer = (calls.find)(&book.cells(), state, lookahead, &mut work, &mut buffer);
    match answer.expect("no refusal") {
        Found::Sentence(length) => Some(buffer[..length].to_vec()),
        Found::Unreached | Found::Long => None,
    }
}

fn run(calls: &Calls, book: &Book, sentence: &[u8], lookahead: u16) -> Ending {
    let ending = (calls.run)(&book.cells(), sentence, lookahead, &mut [0; STACK_CELLS]);
    ending.expect("no refusal")
}

fn judge(calls: &Calls, book: &Book, lines: &[Line]) -> Judgement {
    both::lists::judge(calls, book, &encode_list(lines))
}

fn stop(state: usize, symbol: u16, taken: u16) -> Stop {
    Stop {
        state: state as u16,
        symbol,
        taken,
    }
}

/// States 0 to 3 follow one another by 1, and reduce with 2 next; every goto leads to state 4,
/// which fails. With state k on top k + 1 states are stacked: k of them can be taken off, no more.
fn short_stack(calls: &Calls) {
    let actions = [[0, 4, 3], [0, 6, 3], [0, 8, 3], [0, 0, 3], [0, 0, 0]].concat();
    for length in [0, 1, 2, 3, 4, 32] {
        let book = hand_book([3, 1, 5, 1], &[[0, length]], &actions, &[5; 5]);
        let sentence = [1; 4];
        let broken = (0..4).filter(|&state| usize::from(length) > state);
        let broken = broken.map(|state| ((state, 2), &sentence[..state]));
        breaks_at(calls, &book, &broken.collect::<Vec<_>>());
    }
}

/// Bracket, but its state 2 has no goto: a motif can be reduced at the start, not in brackets.
fn missing_goto(calls: &Calls) {
    let bracket = shipped("bracket");
    breaks_at(calls, &bracket, &[]);
    let book = without_goto(&bracket, 2, 0);
    breaks_at(calls, &book, &[((1, 0), &[2, 1]), ((1, 3), &[2, 1])]);
    // With a shorter sentence the pair is reached, and the reduction is done.
    assert_eq!(find(calls, &book, (1, 3)), Some(vec![1]));
    // State 5 is reached only over the goto that is gone, so its reduction is never met.
    assert_eq!(find(calls, &book, (5, 0)), None);
    // Without any goto the shorter sentence will do.
    let book = without_goto(&book, 0, 0);
    breaks_at(calls, &book, &[((1, 0), &[1]), ((1, 3), &[1])]);
}

/// States 3 and 5 reduce three symbols with the end mark next. After `2 1` three states are
/// stacked, which is too few; after `1 2` state 4 is there as well, pushed by nothing, but state 0
/// has no goto. After `2 1 2` the reduction comes to state 0 too, after `1 2 2` to state 4, which
/// has a goto.
fn two_causes() -> Book {
    let actions = [
        [0, 3, 6],  // 0: with 1 next state 4 by nothing; shifts 2 to 2
        [0, 0, 8],  // 1: shifts 2 to 3
        [0, 8, 0],  // 2: shifts 1 to 3
        [5, 0, 12], // 3: reduces with 0 next; shifts 2 to 5
        [0, 4, 0],  // 4: shifts 1 to 1
        [5, 0, 0],  // 5: reduces with 0 next
    ];
    let gotos = [[5, 0], [0, 0], [0, 0], [0, 0], [0, 4], [0, 0]];
    let productions = [[0, 0], [1, 3]];
    hand_book(
        [3, 2, 6, 2],
        &productions,
        &actions.concat(),
        &gotos.concat(),
    )
}

/// Both causes are met with sentences of equal length.
fn either_cause(calls: &Calls) {
    let book = two_causes();
    breaks_at(calls, &book, &[((3, 0), &[1, 2]), ((5, 0), &[2, 1, 2])]);
    let broken = |state, taken| Ending::Broken(stop(state, 0, taken));
    assert_eq!(run(calls, &book, &[1, 2], 0), broken(3, 2));
    assert_eq!(run(calls, &book, &[2, 1], 0), broken(3, 2));
    assert_eq!(run(calls, &book, &[2, 1, 2], 0), broken(5, 3));
    // The goto leads to state 3, where three states are too few.
    assert_eq!(run(calls, &book, &[1, 2, 2], 0), broken(3, 3));
}

/// Of both sentences the one that begins with the lower rank, in every order of the ranks.
fn ranks(calls: &Calls) {
    for book in in_every_order(&two_causes()) {
        let first = match book.ranks[1] < book.ranks[2] {
            true => [1, 2],
            false => [2, 1],
        };
        breaks_at(calls, &book, &[((3, 0), &first), ((5, 0), &[2, 1, 2])]);
    }
}

/// States 0 to 3 follow one another by 1; state 3 reduces two symbols with 2 next, and comes back
/// by the goto of state 1. The second time the reduction comes to state 0, which has no goto, or
/// one to state 3, where two states are too few the third time.
fn passed_before_it_breaks(calls: &Calls) {
    let actions = [[0, 4, 0], [0, 6, 0], [0, 8, 0], [0, 0, 3]].concat();
    for first_goto in [0, 4] {
        let gotos = [first_goto, 4, 0, 0];
        let book = hand_book([3, 1, 4, 1], &[[0, 2]], &actions, &gotos);
        breaks_at(calls, &book, &[((3, 2), &[1, 1, 1])]);
        let ending = Ending::Broken(stop(3, 2, 3));
        assert_eq!(run(calls, &book, &[1, 1, 1], 2), ending);
    }
}

/// In state 1 a 1 is reduced with another 1 next, which is then taken in and is the next to be
/// reduced there: that breaks, since the goto of state 0 is the only one.
fn passed_and_taken_in(calls: &Calls) {
    let actions = [[0, 4], [0, 3], [0, 4]].concat();
    let book = hand_book([2, 1, 3, 1], &[[0, 1]], &actions, &[3, 0, 0]);
    assert_eq!(find(calls, &book, (1, 1)), Some(vec![1]));
    breaks_at(calls, &book, &[((1, 1), &[1, 1])]);
}

/// The last of 2^29 - 1 reductions before the first symbol breaks: for want of a goto, or because
/// it takes one state too many off. No run comes so far.
fn many_empty_reductions(calls: &Calls) {
    let book = doubling("a0 ->\n", 28);
    let pair = (after(&book, &[2, 2]), 2);
    assert_eq!(find_break(calls, &book, pair), Err(Break::None));
    let broken = without_goto(&book, 0, 1);
    assert_eq!(find_break(calls, &broken, pair), Ok(vec![]));
    let mut broken = book;
    broken.productions[1].length = 3;
    assert_eq!(find_break(calls, &broken, pair), Ok(vec![]));
    assert!(matches!(run(calls, &broken, &[], 2), Ending::Spinning(_)));
}

/// In state 64 a reduction breaks, and then 1,025 states are stacked.
fn deep_book() -> Book {
    let mut book = growing(Action::Reduce(0));
    book.actions[64 * 32 + 31] = Action::Reduce(2);
    book.productions.push(Production { left: 1, length: 0 });
    book.sizes.productions = 3;
    book
}

fn too_deep(calls: &Calls) {
    let book = deep_book();
    let symbols: Vec<u8> = (1..=30).collect();
    assert_eq!(find_break(calls, &book, (64, 31)), Ok(symbols.clone()));
    assert!(matches!(run(calls, &book, &symbols, 31), Ending::Deep(_)));
    // Also where it takes off as many states as a reduction can.
    let mut book = book;
    book.productions[2].length = 32;
    assert_eq!(find_break(calls, &book, (64, 31)), Ok(symbols));
}

/// `c` is reduced after 1,000 symbols, `start` after 1,001.
fn sentence_of_1000_and_1001(calls: &Calls) {
    let book = thousand();
    let whole = (after(&book, &[2; 10]), 2);
    let longer = (shifted(&book, after(&book, &[1]), 2), 0);
    for pair in [whole, longer] {
        assert_eq!(find_break(calls, &book, pair), Err(Break::None));
    }
    let broken = without_goto(&book, 0, 1);
    assert_eq!(find_break(calls, &broken, whole), Ok(vec![1; 1_000]));
    assert_eq!(find_break(calls, &broken, longer), Err(Break::None));
    let broken = without_goto(&book, 0, 0);
    assert_eq!(find_break(calls, &broken, whole), Err(Break::None));
    assert_eq!(find_break(calls, &broken, longer), Err(Break::Long));
    // The same on a short stack.
    let mut broken = book;
    broken.productions[0].length = 3;
    assert_eq!(find_break(calls, &broken, longer), Err(Break::Long));
    broken.productions[1].length = 11;
    assert_eq!(find_break(calls, &broken, whole), Ok(vec![1; 1_000]));
    assert_eq!(find_break(calls, &broken, longer), Err(Break::None));
}

/// What breaks is the reduction of 2^30 symbols; that of 512; that of 512 after as many others.
fn exponential_length_is_long(calls: &Calls) {
    let book = doubling("a0 -> x\n", 30);
    let broken = without_goto(&book, 0, 1);
    let pair = (after(&book, &[2, 2]), 2);
    assert_eq!(find_break(calls, &broken, pair), Err(Break::Long));
    let pair = (after(&book, &[23, 23]), 1);
    assert_eq!(find_break(calls, &book, pair), Err(Break::None));
    let broken = without_goto(&book, 0, 22);
    assert_eq!(find_break(calls, &broken, pair), Ok(vec![1; 512]));
    let broken = without_goto(&book, after(&book, &[22]), 22);
    assert_eq!(find_break(calls, &broken, pair), Err(Break::Long));
}

/// 32 states can be taken off 33 stacked ones, and not 32.
fn longest_production(calls: &Calls) {
    let states = 34;
    let mut actions = vec![0; states * 3];
    for state in 0..33 {
        actions[state * 3 + 1] = 4 + 2 * state as u16;
    }
    for state in [31, 32, 33] {
        actions[state * 3 + 2] = 3;
    }
    let sizes = [3, 1, states as u16, 1];
    let mut gotos = vec![0; states];
    gotos[0] = 1;
    let book = hand_book(sizes, &[[0, 32]], &actions, &gotos);
    let sentence = [1; 33];
    let expected: [(Pair, &[u8]); 2] = [((31, 2), &sentence[..31]), ((33, 2), &sentence)];
    breaks_at(calls, &book, &expected);
}

/// The book's refusals, then 10, 11, 13 and 12, each before the later ones; nothing is written.
fn refused_in_order(calls: &Calls) {
    let book = without_goto(&shipped("bracket"), 2, 0);
    let cells = book.cells();
    let refused = |cells: &[u16], (state, lookahead), work: usize, buffer: usize, number, place| {
        let (mut work, mut buffer) = (vec![7; work], vec![7; buffer]);
        let answer = (calls.find_break)(cells, state, lookahead, &mut work, &mut buffer);
        assert_eq!(answer, Err(Refusal { number, place }));
        assert!(work.iter().all(|&cell| cell == 7));
        assert!(buffer.iter().all(|&byte| byte == 7));
    };
    refused(&cells[..38], (6, 4), 0, 0, 1, 38);
    refused(&[&cells[..], &[0]].concat(), (6, 4), 0, 0, 6, 39);
    refused(&cells, (6, 4), 0, 0, 10, 0);
    refused(&cells, (65_535, 0), 864, 1_000, 10, 0);
    refused(&cells, (1, 4), 0, 0, 11, 0);
    refused(&cells, (1, 65_535), 864, 1_000, 11, 0);
    refused(&cells, (1, 3), 863, 0, 13, 0);
    refused(&cells, (1, 3), 0, 1_000, 13, 0);
    refused(&cells, (1, 3), 864, 999, 12, 0);
    // Also where no reduction is to be done.
    refused(&cells, (0, 0), 863, 999, 13, 0);
    refused(&cells, (0, 0), 864, 999, 12, 0);
    let answer = (calls.find_break)(&cells, 1, 3, &mut [7; 864], &mut [7; 1_000]);
    assert_eq!(answer, Ok(Break::Sentence(2)));
}

/// An entry may end as broken, with the whole sentence in; its state then has its entry.
fn broken_entries(calls: &Calls) {
    let book = without_goto(&shipped("bracket"), 2, 0);
    let judge = |lines: &[&Line]| {
        let lines: Vec<Line> = lines.iter().map(|&line| line.clone()).collect();
        judge(calls, &book, &lines)
    };
    // In states 0, 2 and 3, then two in state 1.
    let [start, open, reduced] = [line(&[], 0), line(&[2], 0), line(&[1], 3)];
    let [error, broken] = [line(&[1], 1), line(&[2, 1], 3)];
    for motif in [&error, &broken] {
        let lines = [&start, motif, &open, &reduced];
        assert_eq!(judge(&lines), Judgement::Complete);
    }
    let uncovered = Judgement::Uncovered { state: 1 };
    assert_eq!(judge(&[&start, &open, &reduced]), uncovered);
    for lines in [[&error, &broken], [&broken, &error], [&broken, &broken]] {
        assert_eq!(judge(&lines), Judgement::Repeat { entry: 1 });
    }
    // It breaks before the last symbol is in.
    let ending = Ending::Broken(stop(1, 3, 2));
    let wrong = Judgement::Wrong { entry: 1, ending };
    assert_eq!(judge(&[&start, &line(&[2, 1, 3], 0)]), wrong);
}

/// Nothing fails in error; state 1 reduces with every lookahead, and has to have an entry if that
/// breaks.
fn state_that_only_breaks(calls: &Calls) {
    let book = |goto| hand_book([2, 1, 2, 1], &[[0, 1]], &[1, 4, 3, 3], &[goto, 0]);
    let uncovered = Judgement::Uncovered { state: 1 };
    assert_eq!(judge(calls, &book(0), &[]), uncovered);
    for lookahead in [0, 1] {
        let lines = [line(&[1], lookahead)];
        assert_eq!(judge(calls, &book(0), &lines), Judgement::Complete);
    }
    breaks_at(calls, &book(0), &[((1, 0), &[1]), ((1, 1), &[1])]);
    breaks_at(calls, &book(1), &[]);
    assert_eq!(judge(calls, &book(1), &[]), Judgement::Complete);
}

/// A state whose failing pairs break past a run's limits alone stays uncovered, and so does one
/// whose failing pairs are all long.
fn past_the_limits(calls: &Calls) {
    let book = deep_book();
    let lines = covering(&mut Random::new(1), &book).into_iter();
    let (deep, right): (Vec<Line>, Vec<Line>) = lines.partition(|line| {
        let ending = run(calls, &book, &line.sentence, line.lookahead);
        matches!(ending, Ending::Deep(_))
    });
    let ending = Ending::Deep(stop(33, 31, 30));
    let wrong = Judgement::Wrong { entry: 0, ending };
    assert_eq!(judge(calls, &book, &deep), wrong);
    let uncovered = Judgement::Uncovered { state: 64 };
    assert_eq!(judge(calls, &book, &right), uncovered);

    // With 1,001 symbols in, `start` is reduced whatever is next, and then nothing fails.
    let mut book = thousand();
    let longer = shifted(&book, after(&book, &[1]), 2);
    let done = after(&book, &[0]);
    book.actions[3 * longer..][..3].fill(Action::Reduce(0));
    book.actions[3 * done + 1..][..2].fill(Action::Shift(done as u16));
    let lines = covering(&mut Random::new(1), &book);
    assert_eq!(judge(calls, &book, &lines), Judgement::Complete);
    let state = longer as u16;
    let uncovered = Judgement::Uncovered { state };
    let broken = without_goto(&book, 0, 0);
    assert_eq!(judge(calls, &broken, &lines), uncovered);
}

/// No reduction of a shipped book breaks, with any sequence.
fn shipped_books(calls: &Calls) {
    for name in SHIPPED {
        let book = shipped(name);
        let pairs = (0..book.sizes.map_cells())
            .map(|at| (at / book.terminals(), at % book.terminals()))
            .filter(|&(state, terminal)| matches!(book.action(state, terminal), Action::Reduce(_)));
        for pair in pairs {
            let answer = find_break(calls, &book, pair);
            assert_eq!(answer, Err(Break::None), "{name} {pair:?}");
        }
    }
}
