//! The machine under a run's limits.

use super::book::{Action, Book};
use purlquartz::{Ending, Stop};

pub const MOST_STATES: usize = 1_024;
pub const MOST_REDUCTIONS: usize = 4_096;

/// What a reduction would make of a stack: how many states stay, and the state then pushed.
pub struct Reduction {
    pub kept: usize,
    pub pushed: u16,
}

/// None if the reduction is broken.
pub fn reduction(book: &Book, stack: &[u16], production: u16) -> Option<Reduction> {
    let production = book.productions[usize::from(production)];
    let length = usize::from(production.length);
    if length >= stack.len() {
        return None;
    }
    let kept = stack.len() - length;
    let base = usize::from(stack[kept - 1]);
    let pushed = book.goto(base, usize::from(production.left))? as u16;
    Some(Reduction { kept, pushed })
}

/// How the run ends, and the stack before the step that was not taken.
pub fn run(book: &Book, sentence: &[u8], lookahead: u16) -> (Ending, Vec<u16>) {
    watched_run(book, sentence, lookahead, |_| {})
}

/// Whether the run, at some moment up to its ending, has all of the sentence in and not the
/// lookahead, with the state on top.
pub fn reaches_within_limits(book: &Book, sentence: &[u8], state: u16, lookahead: u16) -> bool {
    let mut reached = false;
    watched_run(book, sentence, lookahead, |moment| {
        reached |= usize::from(moment.taken) == sentence.len() && moment.state == state;
    });
    reached
}

/// A run that shows each of its moments, the ending's too.
fn watched_run(
    book: &Book,
    sentence: &[u8],
    lookahead: u16,
    mut see: impl FnMut(Stop),
) -> (Ending, Vec<u16>) {
    let mut stack = vec![0u16];
    let mut taken = 0;
    let mut reductions = 0;
    loop {
        let state = stack[stack.len() - 1];
        let symbol = sentence.get(taken).map_or(lookahead, |&s| u16::from(s));
        let stop = Stop {
            state,
            symbol,
            taken: taken as u16,
        };
        see(stop);
        match book.action(state.into(), symbol.into()) {
            Action::Accept => return (Ending::Accepted(stop), stack),
            Action::Error => return (Ending::Error(stop), stack),
            Action::Shift(_) if taken == sentence.len() => return (Ending::Passed(stop), stack),
            Action::Shift(_) if stack.len() == MOST_STATES => return (Ending::Deep(stop), stack),
            Action::Shift(next) => {
                stack.push(next);
                taken += 1;
                reductions = 0;
            }
            Action::Reduce(production) => {
                if let Some(ending) = reduce(book, &mut stack, production, reductions, stop) {
                    return (ending, stack);
                }
                reductions += 1;
            }
        }
    }
}

/// Does the reduction, or says why it ends the run.
fn reduce(
    book: &Book,
    stack: &mut Vec<u16>,
    production: u16,
    reductions: usize,
    stop: Stop,
) -> Option<Ending> {
    let Some(Reduction { kept, pushed }) = reduction(book, stack, production) else {
        return Some(Ending::Broken(stop));
    };
    if reductions == MOST_REDUCTIONS {
        return Some(Ending::Spinning(stop));
    }
    if kept == MOST_STATES {
        return Some(Ending::Deep(stop));
    }
    stack.truncate(kept);
    stack.push(pushed);
    None
}
