//! Checks the independent finder, of pairs and of reductions that break, and what the independent
//! judgement takes for failing, by brute force: all sentences, shortest and earliest by rank first,
//! are run on a machine without limits.

#[allow(dead_code)]
#[path = "../examples/make_book/grammar.rs"]
mod grammar;
mod independent;
#[allow(dead_code)]
#[path = "../examples/make_book/lalr.rs"]
mod lalr;
mod random;

use independent::book::{Action, Book};
use independent::calls::{find_all, find_all_breaks, judge};
use independent::machine::{reduction, run, Reduction};
use purlquartz::{Break, Ending, Found, Judgement, STACK_CELLS};
use random::books::{breaking_book, disturbed, small_taste, tied_book, wild};
use random::grammars::{grammar_book, SMALL};
use random::ranks::{in_every_order, unranked};
use random::Random;
use std::collections::VecDeque;

/// How many stacks the search by brute force looks at for one book.
const MOST_STACKS: usize = 250;
/// Sentences up to this length are also run with limits.
const MOST_RUN: usize = 2;

/// What the machine without limits does on a stack with a terminal next.
struct Look {
    /// The top states that it goes through, with that terminal not taken in.
    tops: Vec<u16>,
    how: How,
}

impl Look {
    /// The state whose reduction breaks.
    fn broken_in(&self) -> Option<u16> {
        match self.how {
            How::Breaks => self.tops.last().copied(),
            _ => None,
        }
    }
}

enum How {
    Accepts,
    Fails,
    Breaks,
    Shifts(Vec<u16>),
    GoesOnForEver,
}

/// Steps until the terminal is shifted, the machine ends, or it is seen to go on for ever.
fn look(book: &Book, stack: &[u16], terminal: usize) -> Look {
    let mut stack = stack.to_vec();
    let mut tops = Vec::new();
    // The lowest place of the stack that was on top so far.
    let mut lowest = stack.len() - 1;
    // By height: the states that were on top there while nothing below changed.
    let mut seen: Vec<u128> = Vec::new();
    let how = loop {
        let height = stack.len();
        let top = stack[height - 1];
        tops.push(top);
        seen.resize(height + 1, 0);
        // In both cases nothing below the earlier place was looked at since, so what followed
        // then follows again.
        let same_stack = seen[height] >> top & 1 == 1;
        let higher_again = stack[lowest..height - 1].contains(&top);
        if same_stack || higher_again {
            break How::GoesOnForEver;
        }
        seen[height] |= 1 << top;
        match book.action(top.into(), terminal) {
            Action::Error => break How::Fails,
            Action::Accept => break How::Accepts,
            Action::Shift(next) => {
                stack.push(next);
                break How::Shifts(stack);
            }
            Action::Reduce(production) => {
                let Some(Reduction { kept, pushed }) = reduction(book, &stack, production) else {
                    break How::Breaks;
                };
                lowest = lowest.min(kept);
                stack.truncate(kept);
                stack.push(pushed);
            }
        }
    };
    Look { tops, how }
}

/// What brute force found out about a book. Sentences stand by state, then terminal.
struct Brute {
    /// The first sentence met that reaches the pair.
    reaching: Vec<Option<Vec<u8>>>,
    /// The first one with which the reduction of the pair breaks.
    breaking: Vec<Option<Vec<u8>>>,
    /// The first sentence that was not tried, if any was left out.
    frontier: Option<Vec<u8>>,
}

impl Brute {
    /// Whether a sentence was met that fails in error in the state.
    fn has_error(&self, book: &Book, state: usize) -> bool {
        (0..book.terminals()).any(|terminal| {
            let reaching = &self.reaching[state * book.terminals() + terminal];
            book.action(state, terminal) == Action::Error && reaching.is_some()
        })
    }

    /// Whether one was met with which a reduction of the state breaks.
    fn has_break(&self, book: &Book, state: usize) -> bool {
        let row = &self.breaking[state * book.terminals()..][..book.terminals()];
        row.iter().any(Option::is_some)
    }
}

/// The terminals, those of lower rank first.
fn by_rank(book: &Book) -> Vec<usize> {
    let mut terminals: Vec<usize> = (0..book.terminals()).collect();
    terminals.sort_by_key(|&terminal| book.ranks[terminal]);
    terminals
}

fn brute(book: &Book) -> Brute {
    let by_rank = by_rank(book);
    let pair = |state: u16, terminal| usize::from(state) * book.terminals() + terminal;
    let mut reaching = vec![None; book.sizes.map_cells()];
    let mut breaking = reaching.clone();
    let mut open = VecDeque::from([(Vec::new(), vec![0u16])]);
    for _ in 0..MOST_STACKS {
        let Some((sentence, stack)) = open.pop_front() else {
            break;
        };
        for &terminal in &by_rank {
            let look = look(book, &stack, terminal);
            if sentence.len() <= MOST_RUN {
                check_run(book, &sentence, terminal, &look);
            }
            for &state in &look.tops {
                reaching[pair(state, terminal)].get_or_insert_with(|| sentence.clone());
            }
            if let Some(state) = look.broken_in() {
                breaking[pair(state, terminal)].get_or_insert_with(|| sentence.clone());
            }
            if let How::Shifts(stack) = look.how {
                let mut longer = sentence.clone();
                longer.push(terminal as u8);
                open.push_back((longer, stack));
            }
        }
    }
    Brute {
        reaching,
        breaking,
        frontier: open.pop_front().map(|(sentence, _)| sentence),
    }
}

/// The run with limits must end as the machine without does, unless a limit is met.
fn check_run(book: &Book, sentence: &[u8], terminal: usize, look: &Look) {
    let (ending, stack) = run(book, sentence, terminal as u16);
    let stop = match (ending, &look.how) {
        (Ending::Accepted(stop), How::Accepts) => stop,
        (Ending::Error(stop), How::Fails) => stop,
        (Ending::Broken(stop), How::Breaks) => stop,
        (Ending::Passed(stop), How::Shifts(_)) => stop,
        (Ending::Deep(_) | Ending::Spinning(_), _) => return,
        _ => panic!("{ending:?} for {sentence:?} {terminal} of {book:?}"),
    };
    assert_eq!(Some(&stop.state), look.tops.last());
    assert_eq!(stack.last(), look.tops.last());
    assert_eq!(usize::from(stop.symbol), terminal);
    assert_eq!(usize::from(stop.taken), sentence.len());
}

/// What the machine without limits does with the terminal once it has taken in the sentence.
fn look_after(book: &Book, sentence: &[u8], terminal: usize) -> Option<Look> {
    let mut stack = vec![0];
    for &symbol in sentence {
        match look(book, &stack, symbol.into()).how {
            How::Shifts(shifted) => stack = shifted,
            _ => return None,
        }
    }
    Some(look(book, &stack, terminal))
}

/// True if the one sentence is shorter than the other, or as long and of lower rank at the first
/// difference.
fn comes_before(book: &Book, one: &[u8], other: &[u8]) -> bool {
    let mut symbols = one.iter().zip(other);
    let difference = symbols.find(|(one, other)| one != other);
    let lower = difference.is_some_and(|(&one, &other)| {
        book.ranks[usize::from(one)] < book.ranks[usize::from(other)]
    });
    one.len() < other.len() || one.len() == other.len() && lower
}

/// How many pairs were settled by brute force, with a sentence and without any, and how many of the
/// sentences are others than by the terminals' numbers.
#[derive(Default)]
struct Tally {
    sentences: usize,
    none: usize,
    others: usize,
}

#[derive(Default)]
struct Tallies {
    reaching: Tally,
    breaking: Tally,
    /// Judgements of a list without entries that were settled: uncovered with a state that fails in
    /// error, with one that only breaks, and complete.
    in_error: usize,
    only_broken: usize,
    complete: usize,
}

/// What a finder says of a pair.
#[derive(Debug, PartialEq)]
enum Told {
    None,
    Long,
    Sentence(Vec<u8>),
}

fn told_reaching(book: &Book) -> Vec<Told> {
    let told = |(found, sentence): (Found, Vec<u8>)| match found {
        Found::Unreached => Told::None,
        Found::Long => Told::Long,
        Found::Sentence(length) => {
            assert_eq!(length, sentence.len());
            Told::Sentence(sentence)
        }
    };
    find_all(book).into_iter().map(told).collect()
}

fn told_breaking(book: &Book) -> Vec<Told> {
    let told = |(found, sentence): (Break, Vec<u8>)| match found {
        Break::None => Told::None,
        Break::Long => Told::Long,
        Break::Sentence(length) => {
            assert_eq!(length, sentence.len());
            Told::Sentence(sentence)
        }
    };
    find_all_breaks(book).into_iter().map(told).collect()
}

fn compare(book: &Book, tallies: &mut Tallies) {
    let brute = brute(book);
    let reaches = |look: &Look, state| look.tops.contains(&state);
    let breaks = |look: &Look, state| look.broken_in() == Some(state);
    let (tell, first) = (told_reaching, &brute.reaching);
    compare_told(book, &brute, tell, first, reaches, &mut tallies.reaching);
    let (tell, first) = (told_breaking, &brute.breaking);
    compare_told(book, &brute, tell, first, breaks, &mut tallies.breaking);
    compare_judgement(book, &brute, tallies);
}

/// Every sentence told does what it should, and is the first that does wherever that is known.
fn compare_told(
    book: &Book,
    brute: &Brute,
    tell: fn(&Book) -> Vec<Told>,
    first: &[Option<Vec<u8>>],
    does: impl Fn(&Look, u16) -> bool,
    tally: &mut Tally,
) {
    let unranked = tell(&unranked(book));
    for (pair, told) in tell(book).into_iter().enumerate() {
        let state = (pair / book.terminals()) as u16;
        let terminal = pair % book.terminals();
        if let Told::Sentence(sentence) = &told {
            let look = look_after(book, sentence, terminal);
            assert!(look.is_some_and(|look| does(&look, state)));
            let frontier = brute.frontier.as_ref();
            if frontier.is_none_or(|frontier| comes_before(book, sentence, frontier)) {
                assert_eq!(Some(sentence), first[pair].as_ref(), "{pair} {book:?}");
                tally.sentences += 1;
                tally.others += usize::from(told != unranked[pair]);
                continue;
            }
        }
        assert_eq!(None, first[pair].as_ref(), "{told:?} {pair} {book:?}");
        tally.none += usize::from(told == Told::None && brute.frontier.is_none());
    }
}

/// The judgement of a list without entries names the lowest state that fails.
fn compare_judgement(book: &Book, brute: &Brute, tallies: &mut Tallies) {
    let mut work = vec![0; book.sizes.work_cells()];
    let judged = judge(&book.cells(), &[0], &mut work, &mut [0; STACK_CELLS]);
    let fails = |&state: &usize| brute.has_error(book, state) || brute.has_break(book, state);
    let lowest = (0..book.states()).find(fails);
    match judged.expect("no refusal") {
        Judgement::Uncovered { state } if lowest == Some(state.into()) => {
            match brute.has_error(book, state.into()) {
                true => tallies.in_error += 1,
                false => tallies.only_broken += 1,
            }
        }
        Judgement::Complete if lowest.is_none() => tallies.complete += 1,
        Judgement::Uncovered { state } => {
            let left_out = brute.frontier.is_some();
            assert!(left_out && lowest.is_none_or(|lowest| usize::from(state) < lowest));
        }
        other => panic!("{other:?}, not {lowest:?}: {book:?}"),
    }
}

#[test]
fn wild_books() {
    let mut random = Random::new(1);
    let mut tallies = Tallies::default();
    for _ in 0..20_000 {
        let taste = small_taste(&mut random);
        compare(&wild(&mut random, taste), &mut tallies);
    }
    let Tallies {
        reaching, breaking, ..
    } = tallies;
    assert!(reaching.sentences > 50_000 && reaching.none > 20_000);
    assert!(reaching.others > 500);
    assert!(breaking.sentences > 5_000 && breaking.none > 20_000);
}

#[test]
fn books_of_grammars() {
    let mut random = Random::new(2);
    let mut tallies = Tallies::default();
    for _ in 0..4_000 {
        let book = grammar_book(&mut random, SMALL);
        compare(&book, &mut tallies);
        let changes = random.between(1, 6);
        compare(&disturbed(&mut random, &book, changes), &mut tallies);
    }
    let Tallies {
        reaching, breaking, ..
    } = tallies;
    assert!(reaching.sentences > 50_000 && reaching.none > 20_000);
    assert!(reaching.others > 500);
    assert!(breaking.sentences > 500 && breaking.none > 20_000);
}

#[test]
fn books_of_many_ties() {
    let mut random = Random::new(3);
    let mut tallies = Tallies::default();
    for _ in 0..4_000 {
        compare(&tied_book(&mut random), &mut tallies);
    }
    let Tallies {
        reaching, breaking, ..
    } = tallies;
    assert!(reaching.sentences > 50_000 && reaching.others > 4_000);
    assert!(breaking.sentences > 5_000 && breaking.others > 500);
}

#[test]
fn books_that_break() {
    let mut random = Random::new(4);
    let mut tallies = Tallies::default();
    for _ in 0..8_000 {
        compare(&breaking_book(&mut random), &mut tallies);
    }
    let breaking = tallies.breaking;
    assert!(breaking.sentences > 20_000 && breaking.none > 5_000);
    assert!(breaking.others > 500);
    assert!(tallies.in_error > 2_000 && tallies.only_broken > 2_000);
    assert!(tallies.complete > 50);
}

/// The two books of the specification with their ranks in every order: each pair that is reached
/// is settled, and no reduction breaks.
#[test]
fn every_order_of_ranks() {
    let bracket = include_bytes!("../../books/bracket.book");
    let double = include_bytes!("../../books/double.book");
    let mut tallies = Tallies::default();
    let mut reached = 0;
    for bytes in [&bracket[..], double] {
        for book in in_every_order(&Book::from_bytes(bytes).expect("a good book")) {
            compare(&book, &mut tallies);
            let found = find_all(&book).into_iter().map(|(found, _)| found);
            reached += found.filter(|&found| found != Found::Unreached).count();
        }
    }
    assert_eq!(tallies.reaching.sentences, reached);
    // Double (2, 0), in the orders that have 2 before 1.
    assert_eq!(tallies.reaching.others, 3);
    assert_eq!(tallies.breaking.sentences, 0);
}
