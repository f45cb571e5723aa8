//! The least lengths of all crossings.
//!
//! From each head the walks of no transition, of one, of two and so on are taken in layers, over
//! the crossings that are known so far. Where a walk stands after as many transitions as the
//! production has that is reduced there, it is a crossing of the production's left side. This is
//! gone over until nothing changes. Gotos that are none are used by no walk, so theirs come last.

use super::tables::{Action, Production, Tables};
use super::words::{sum, Way, Word, Words, EMPTY};
use crate::UNREACHED;

pub struct Crossings {
    /// In a certificate's order.
    ways: Vec<Way>,
    /// By head: the gotos that are there and can be crossed from it.
    leaving: Vec<Vec<Goto>>,
}

/// The goto's crossing, and the head that it leads to.
#[derive(Clone, Copy)]
struct Goto {
    crossing: usize,
    to: usize,
}

/// The least costs of standing at each head after so many transitions.
struct Layer {
    costs: Vec<u16>,
    /// How each head with a cost was come to.
    trails: Vec<Trail>,
    /// The heads that have a cost.
    heads: Vec<usize>,
}

impl Layer {
    fn new(heads: usize) -> Layer {
        Layer {
            costs: vec![UNREACHED; heads],
            trails: vec![START; heads],
            heads: Vec::new(),
        }
    }

    /// Only a head to start from.
    fn start(&mut self, head: usize) {
        self.clear();
        self.costs[head] = 0;
        self.trails[head] = START;
        self.heads.push(head);
    }

    fn clear(&mut self) {
        for head in self.heads.drain(..) {
            self.costs[head] = UNREACHED;
        }
    }
}

/// Two layers, the last one first, and the words of the transitions that led there, each with the
/// trail before it. Most walks come to nothing, so words are joined only for those that do not.
struct Walks {
    layers: [Layer; 2],
    trails: Vec<(Trail, Word)>,
}

/// 0 at the start; else one more than the index of the last transition.
type Trail = usize;

const START: Trail = 0;

impl Walks {
    fn new(heads: usize) -> Walks {
        Walks {
            layers: [Layer::new(heads), Layer::new(heads)],
            trails: Vec::new(),
        }
    }

    fn start(&mut self, head: usize) {
        self.trails.clear();
        self.layers[0].start(head);
    }

    /// Makes all walks longer by one transition.
    fn lengthen(&mut self, tables: &Tables, crossings: &Crossings) {
        let [layer, next] = &mut self.layers;
        next.clear();
        for &head in &layer.heads {
            for (to, way) in crossings.transitions(tables, head) {
                let cost = sum(layer.costs[head], way.cost);
                if cost >= next.costs[to] {
                    continue;
                }
                if next.costs[to] == UNREACHED {
                    next.heads.push(to);
                }
                self.trails.push((layer.trails[head], way.word));
                next.costs[to] = cost;
                next.trails[to] = self.trails.len();
            }
        }
        self.layers.swap(0, 1);
    }

    /// The way to a head of the last layer.
    fn way(&self, words: &mut Words, head: usize) -> Way {
        let mut word = EMPTY;
        let mut trail = self.layers[0].trails[head];
        while trail != START {
            let (before, step) = self.trails[trail - 1];
            word = words.join(step, word);
            trail = before;
        }
        let cost = self.layers[0].costs[head];
        Way { cost, word }
    }
}

impl Crossings {
    pub fn new(tables: &Tables, words: &mut Words) -> Crossings {
        let mut crossings = Crossings {
            ways: vec![Way::NONE; tables.crossings()],
            leaving: vec![Vec::new(); tables.heads()],
        };
        let mut walks = Walks::new(tables.heads());
        while crossings.pass(tables, words, &mut walks, true) {}
        crossings.pass(tables, words, &mut walks, false);
        crossings
    }

    pub fn claims(&self) -> Vec<u16> {
        self.ways.iter().map(|way| way.cost).collect()
    }

    /// Every transition from a head: the head that it leads to, and the way there.
    pub fn transitions<'a>(
        &'a self,
        tables: &'a Tables,
        head: usize,
    ) -> impl Iterator<Item = (usize, Way)> + 'a {
        let shifted = match tables.actions[head] {
            Action::Shift(state) => tables.row(state),
            _ => 0..0,
        };
        let symbol = Way::symbol(head % tables.terminals);
        let shifts = shifted.map(move |to| (to, symbol));
        let gotos = self.leaving[head].iter();
        shifts.chain(gotos.map(|goto| (goto.to, self.ways[goto.crossing])))
    }

    /// Goes over all heads, for gotos that are there or for none; says whether anything changed.
    fn pass(&mut self, tables: &Tables, words: &mut Words, walks: &mut Walks, there: bool) -> bool {
        let mut changed = false;
        for state in 0..tables.states {
            let is_wanted = |rule: &&Production| tables.goto(state, rule.left).is_some() == there;
            let wanted = tables.productions.iter().filter(is_wanted);
            let Some(longest) = wanted.map(|rule| rule.length).max() else {
                continue;
            };
            for head in tables.row(state) {
                walks.start(head);
                changed |= self.take(tables, words, walks, head, 0, there);
                for length in 1..=longest {
                    walks.lengthen(tables, self);
                    changed |= self.take(tables, words, walks, head, length, there);
                }
            }
        }
        changed
    }

    /// Takes in the crossings that walks of this length from a head make; says whether any was new
    /// or less than before.
    fn take(
        &mut self,
        tables: &Tables,
        words: &mut Words,
        walks: &Walks,
        head: usize,
        length: usize,
        there: bool,
    ) -> bool {
        let mut changed = false;
        for &end in &walks.layers[0].heads {
            let Action::Reduce(production) = tables.actions[end] else {
                continue;
            };
            let rule = tables.productions[production];
            let goto = tables.goto(head / tables.terminals, rule.left);
            if rule.length != length || goto.is_some() != there {
                continue;
            }
            let following = end % tables.terminals;
            let crossing = tables.crossing(head, rule.left, following);
            let before = self.ways[crossing].cost;
            if walks.layers[0].costs[end] >= before {
                continue;
            }
            changed = true;
            self.ways[crossing] = walks.way(words, end);
            if let (Some(state), UNREACHED) = (goto, before) {
                let to = tables.head(state, following);
                self.leaving[head].push(Goto { crossing, to });
            }
        }
        changed
    }
}
