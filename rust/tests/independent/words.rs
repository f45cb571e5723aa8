//! The shortest and earliest words, put together along least costs.
//!
//! The best word of a fact is the earliest by rank of all `front word + rest word` whose costs add
//! up to the fact's own. Facts of no cost have the empty word. The others are gathered from the one
//! wanted, then settled by rising cost; facts of one cost may lean on each other through parts of
//! no cost, so each cost is gone over until nothing changes.

use super::reach::map_cell;
use super::summaries::{Edge, Label, Summaries};
use purlquartz::{Found, LONG, UNREACHED};
use std::collections::HashMap;

#[derive(Clone, Copy, PartialEq, Eq, Hash, PartialOrd, Ord)]
enum Fact {
    /// The machine comes from the start to a head.
    Reach(u32),
    /// A head pops.
    Pop { head: u32, kind: u16, following: u8 },
}

/// The front or rest of a word.
#[derive(Clone, Copy)]
enum Part {
    Symbol(u8),
    Word(Fact),
}

pub struct Words<'a> {
    summaries: &'a Summaries<'a>,
    distances: &'a [Option<u16>],
    /// Edge numbers by the head that they leave and by the head that they enter.
    leaving: Vec<Vec<u32>>,
    entering: Vec<Vec<u32>>,
    /// The best words of settled facts.
    settled: HashMap<Fact, Vec<u8>>,
}

impl<'a> Words<'a> {
    pub fn new(summaries: &'a Summaries<'a>, distances: &'a [Option<u16>]) -> Self {
        let mut leaving = vec![Vec::new(); summaries.heads()];
        let mut entering = vec![Vec::new(); summaries.heads()];
        for (number, edge) in summaries.edges.iter().enumerate() {
            leaving[edge.from as usize].push(number as u32);
            entering[edge.to as usize].push(number as u32);
        }
        Words {
            summaries,
            distances,
            leaving,
            entering,
            settled: HashMap::new(),
        }
    }

    /// What the finder says of a head, with the sentence or nothing.
    pub fn answer(&mut self, head: usize) -> (Found, Vec<u8>) {
        match map_cell(self.distances[head]) {
            UNREACHED => (Found::Unreached, Vec::new()),
            LONG => (Found::Long, Vec::new()),
            length => (Found::Sentence(length.into()), self.sentence(head)),
        }
    }

    /// The sentence for a head whose distance is at most 1,000.
    fn sentence(&mut self, head: usize) -> Vec<u8> {
        let wanted = Fact::Reach(head as u32);
        if self.cost(wanted) == 0 {
            return Vec::new();
        }
        let facts = self.gather(wanted).into_iter();
        let mut facts: Vec<(usize, Fact)> = facts.map(|fact| (self.cost(fact), fact)).collect();
        facts.sort();
        for group in facts.chunk_by(|one, other| one.0 == other.0) {
            while self.improve(group) {}
        }
        self.settled[&wanted].clone()
    }

    fn cost(&self, fact: Fact) -> usize {
        match fact {
            Fact::Reach(head) => self.distances[head as usize].expect("reached").into(),
            Fact::Pop {
                head,
                kind,
                following,
            } => self
                .summaries
                .cost(head as usize, kind.into(), following.into())
                .expect("popped"),
        }
    }

    /// All facts of some cost, not settled yet, that the wanted one's words are made of.
    fn gather(&self, wanted: Fact) -> Vec<Fact> {
        let mut gathered = Vec::new();
        let mut seen = HashMap::from([(wanted, ())]);
        let mut open = vec![wanted];
        while let Some(fact) = open.pop() {
            if self.settled.contains_key(&fact) {
                continue;
            }
            gathered.push(fact);
            self.each_split(fact, |front, rest| {
                for part in [front, rest] {
                    if let Part::Word(needed) = part {
                        if self.cost(needed) > 0 && seen.insert(needed, ()).is_none() {
                            open.push(needed);
                        }
                    }
                }
            });
        }
        gathered
    }

    /// Goes over facts of one cost; says whether any word became earlier.
    fn improve(&mut self, group: &[(usize, Fact)]) -> bool {
        let mut improved = false;
        for &(_, fact) in group {
            if let Some(best) = self.best(fact) {
                if self.settled.get(&fact) != Some(&best) {
                    self.settled.insert(fact, best);
                    improved = true;
                }
            }
        }
        improved
    }

    /// The earliest word that the parts known so far make.
    fn best(&self, fact: Fact) -> Option<Vec<u8>> {
        let mut best: Option<Vec<u8>> = None;
        let mut word = Vec::new();
        self.each_split(fact, |front, rest| {
            word.clear();
            let known = self.append(front, &mut word) && self.append(rest, &mut word);
            let earlier = |best: &Vec<u8>| self.summaries.book.earlier(&word, best);
            if known && best.as_ref().is_none_or(earlier) {
                best = Some(word.clone());
            }
        });
        best
    }

    /// Appends a part's word; false if it is not known yet.
    fn append(&self, part: Part, word: &mut Vec<u8>) -> bool {
        match part {
            Part::Symbol(symbol) => word.push(symbol),
            Part::Word(fact) if self.cost(fact) == 0 => {}
            Part::Word(fact) => match self.settled.get(&fact) {
                Some(known) => word.extend(known),
                None => return false,
            },
        }
        true
    }

    /// Every way in which the fact's word of least cost falls into two parts.
    fn each_split(&self, fact: Fact, mut take: impl FnMut(Part, Part)) {
        let cost = self.cost(fact);
        match fact {
            Fact::Reach(head) => {
                for &edge in &self.entering[head as usize] {
                    let edge = self.summaries.edges[edge as usize];
                    let before = self.distances[edge.from as usize];
                    if before.is_some_and(|d| usize::from(d) + usize::from(edge.cost) == cost) {
                        take(Part::Word(Fact::Reach(edge.from)), self.crossing(edge));
                    }
                }
            }
            Fact::Pop {
                head,
                kind,
                following,
            } => {
                let Some(deeper) = self.summaries.kinds.deeper(kind.into()) else {
                    return;
                };
                for &edge in &self.leaving[head as usize] {
                    let edge = self.summaries.edges[edge as usize];
                    let to = edge.to as usize;
                    let after = self.summaries.cost(to, deeper, following.into());
                    if after.is_some_and(|c| c + usize::from(edge.cost) == cost) {
                        let rest = Fact::Pop {
                            head: edge.to,
                            kind: deeper as u16,
                            following,
                        };
                        take(self.crossing(edge), Part::Word(rest));
                    }
                }
            }
        }
    }

    /// The word of an edge.
    fn crossing(&self, edge: Edge) -> Part {
        match edge.label {
            Label::Shift => Part::Symbol(self.summaries.terminal(edge.from as usize) as u8),
            Label::Goto(left) => Part::Word(Fact::Pop {
                head: edge.from,
                kind: self.summaries.kinds.goto(left.into()) as u16,
                following: self.summaries.terminal(edge.to as usize) as u8,
            }),
        }
    }
}
