//! The checker of certificates.
//!
//! A *head* is a state with the terminal looked at; pairs are heads too. The transitions are put
//! down by the head that they lead to, and the roads to a reduction are gone along from their ends,
//! one transition at a time, for each production and following terminal by itself.

use super::book::{Action, Book};
use super::list::decode_sentence;
use super::machine::reaches_within_limits;
use super::numbers::{refuse, Bytes, Source};
use purlquartz::{Condition, Refusal, Verdict, LONG, UNREACHED};

/// A certificate that was not refused.
pub struct Certificate<'a> {
    book: &'a Book,
    crossings: &'a [u16],
    pairs: &'a [u16],
    /// By pair; none where none is due.
    sentences: Vec<Option<&'a [u8]>>,
}

/// A transition by the head that it comes from. Its end is told by where it is kept.
#[derive(Clone, Copy)]
struct Transition {
    from: usize,
    cost: u16,
}

impl<'a> Certificate<'a> {
    pub fn decode(
        book: &'a Book,
        crossings: &'a [u16],
        pairs: &'a [u16],
        sentences: &'a [u8],
    ) -> Result<Self, Refusal> {
        let heads = book.states() * book.terminals();
        check_count(crossings, heads * book.nonterminals() * book.terminals())?;
        check_count(pairs, heads)?;
        Ok(Certificate {
            book,
            crossings,
            pairs,
            sentences: decode_sentences(book, pairs, sentences)?,
        })
    }

    /// The first condition that is not met, with the lowest index at which it is not.
    pub fn verdict(&self) -> Verdict {
        for condition in Condition::ALL {
            if let Some(index) = self.fault(condition) {
                return Verdict::Fault { condition, index };
            }
        }
        Verdict::Accepted
    }

    fn fault(&self, condition: Condition) -> Option<usize> {
        match condition {
            Condition::Range => self.over_range(),
            Condition::Roads => self.over_a_road(),
            Condition::Start => self.first_pair(|pair, claim| {
                let state = pair / self.book.terminals();
                state == 0 && claim != 0
            }),
            Condition::Transitions => self.over_a_transition(),
            Condition::Short => self.first_pair(|_, claim| claim == LONG),
            Condition::Sentences => self.first_pair(|pair, _| !self.is_shown(pair)),
        }
    }

    /// The index of the first pair of which this is true.
    fn first_pair(&self, is_fault: impl Fn(usize, u16) -> bool) -> Option<usize> {
        let pair = (0..self.pairs.len()).find(|&pair| is_fault(pair, self.pairs[pair]))?;
        Some(self.crossings.len() + pair)
    }

    fn over_range(&self) -> Option<usize> {
        let mut claims = self.crossings.iter().chain(self.pairs);
        claims.position(|&claim| claim > UNREACHED)
    }

    fn crossing(&self, from: usize, nonterminal: usize, following: usize) -> usize {
        let terminals = self.book.terminals();
        let (state, first) = (from / terminals, from % terminals);
        ((state * self.book.nonterminals() + nonterminal) * terminals + first) * terminals
            + following
    }

    /// By head: the transitions that lead there. Unreached ones make no road shorter.
    fn transitions(&self) -> Vec<Vec<Transition>> {
        let terminals = self.book.terminals();
        let mut entering = vec![Vec::new(); self.pairs.len()];
        for from in 0..self.pairs.len() {
            let (state, first) = (from / terminals, from % terminals);
            if let Action::Shift(next) = self.book.action(state, first) {
                for head in &mut entering[usize::from(next) * terminals..][..terminals] {
                    head.push(Transition { from, cost: 1 });
                }
            }
            for nonterminal in 0..self.book.nonterminals() {
                let Some(next) = self.book.goto(state, nonterminal) else {
                    continue;
                };
                for following in 0..terminals {
                    let cost = self.crossings[self.crossing(from, nonterminal, following)];
                    if cost < UNREACHED {
                        entering[next * terminals + following].push(Transition { from, cost });
                    }
                }
            }
        }
        entering
    }

    /// The lowest crossing whose claim is over some road.
    fn over_a_road(&self) -> Option<usize> {
        let entering = self.transitions();
        let mut lowest = None;
        for production in 0..self.book.productions.len() {
            for following in 0..self.book.terminals() {
                let fault = self.over_a_road_to(&entering, production, following);
                lowest = [lowest, fault].into_iter().flatten().min();
            }
        }
        lowest
    }

    /// The same for roads that end where this production is reduced on this terminal.
    fn over_a_road_to(
        &self,
        entering: &[Vec<Transition>],
        production: usize,
        following: usize,
    ) -> Option<usize> {
        let mut roads = self.ends(production, following);
        let production = self.book.productions[production];
        for _ in 0..production.length {
            roads = lengthened(&roads, entering);
        }
        let over = roads.into_iter().filter_map(|(from, cost)| {
            let crossing = self.crossing(from, production.left.into(), following);
            (self.crossings[crossing] > cost).then_some(crossing)
        });
        over.min()
    }

    /// The empty roads at heads where this production is reduced on this terminal.
    fn ends(&self, production: usize, following: usize) -> Roads {
        let reduces = |&state: &usize| {
            self.book.action(state, following) == Action::Reduce(production as u16)
        };
        let states = (0..self.book.states()).filter(reduces);
        let heads = states.map(|state| (state * self.book.terminals() + following, 0));
        heads.collect()
    }

    /// The lowest pair whose claim is over some pair's with one transition from there.
    fn over_a_transition(&self) -> Option<usize> {
        let entering = self.transitions();
        self.first_pair(|pair, claim| {
            let mut reached = entering[pair].iter();
            reached.any(|step| claim > sum(self.pairs[step.from], step.cost))
        })
    }

    /// Whether the sentence of a pair, if one is due, is as long as claimed and reaches the pair.
    fn is_shown(&self, pair: usize) -> bool {
        let terminals = self.book.terminals();
        let (state, lookahead) = ((pair / terminals) as u16, (pair % terminals) as u16);
        self.sentences[pair].is_none_or(|sentence| {
            sentence.len() == usize::from(self.pairs[pair])
                && reaches_within_limits(self.book, sentence, state, lookahead)
        })
    }
}

/// Least costs of roads of one length to one end, with the heads that they come from.
type Roads = Vec<(usize, u16)>;

/// The roads with one transition more, put before them.
fn lengthened(roads: &Roads, entering: &[Vec<Transition>]) -> Roads {
    let mut costs = vec![UNREACHED; entering.len()];
    for &(to, cost) in roads {
        for step in &entering[to] {
            let longer = sum(step.cost, cost);
            costs[step.from] = costs[step.from].min(longer);
        }
    }
    let reached = costs.into_iter().enumerate();
    reached.filter(|&(_, cost)| cost < UNREACHED).collect()
}

/// Of claims in range.
fn sum(one: u16, other: u16) -> u16 {
    if one == UNREACHED || other == UNREACHED {
        return UNREACHED;
    }
    (one + other).min(LONG)
}

fn check_count(row: &[u16], due: usize) -> Result<(), Refusal> {
    if row.len() < due {
        return refuse(1, row.len());
    }
    if row.len() > due {
        return refuse(6, due);
    }
    Ok(())
}

/// One for each pair that is claimed at 1,000 or less.
fn decode_sentences<'a>(
    book: &Book,
    pairs: &[u16],
    bytes: &'a [u8],
) -> Result<Vec<Option<&'a [u8]>>, Refusal> {
    let mut source = Bytes::new(bytes);
    let mut sentences = Vec::new();
    for &claim in pairs {
        sentences.push(match claim {
            0..LONG => Some(&bytes[decode_sentence(&mut source, book.sizes.terminals)?]),
            _ => None,
        });
    }
    match source.rest() {
        Some(place) => refuse(6, place),
        None => Ok(sentences),
    }
}
