//! Pop summaries: what the machine can come to from a state on top with a terminal next.
//!
//! A *head* is a state with the terminal looked at. From a head the machine may, by consuming some
//! word, come to reduce a production so far that `pops` of the states below and including the
//! head's are taken off besides those that were pushed since; the left side is then due on the
//! state below. That is a *pop* of a kind (left side, states still to take off), with the terminal
//! that follows the word. A pop that takes off nothing is a goto of the head's own state: it makes
//! an *edge* to another head. A shift makes an edge to its state with any terminal next.
//!
//! Pops are found by rising cost, the word's length. All following terminals of one kind and cost
//! are kept as one set of bits, so that an edge hands on a whole batch at a time. Costs over 1,000
//! all count 1,001. Nothing is simulated step by step, so endless or very long runs of reductions
//! cost nothing.

use super::book::{Action, Book};

/// The cost of all that is longer than a sentence may be.
pub const OVER: usize = 1_001;

/// Numbers the kinds of pops: each left side with 0 up to the length of its longest production.
pub struct Kinds {
    base: Vec<usize>,
    left: Vec<usize>,
}

impl Kinds {
    fn new(book: &Book) -> Kinds {
        let mut longest = vec![0; book.nonterminals()];
        for production in &book.productions {
            let left = usize::from(production.left);
            longest[left] = longest[left].max(usize::from(production.length));
        }
        let mut kinds = Kinds {
            base: Vec::new(),
            left: Vec::new(),
        };
        for (left, longest) in longest.into_iter().enumerate() {
            kinds.base.push(kinds.left.len());
            kinds.left.resize(kinds.left.len() + longest + 1, left);
        }
        kinds
    }

    pub fn count(&self) -> usize {
        self.left.len()
    }

    /// The kind of a goto of the head's own state.
    pub fn goto(&self, left: usize) -> usize {
        self.base[left]
    }

    pub fn takes_off(&self, kind: usize) -> bool {
        kind > self.base[self.left[kind]]
    }

    /// The same left side with one state more to take off, if any production is so long.
    pub fn deeper(&self, kind: usize) -> Option<usize> {
        (self.left.get(kind + 1) == Some(&self.left[kind])).then_some(kind + 1)
    }
}

/// What an edge's word is made of.
#[derive(Clone, Copy, PartialEq, Eq)]
pub enum Label {
    Shift,
    Goto(u16),
}

#[derive(Clone, Copy)]
pub struct Edge {
    pub from: u32,
    pub to: u32,
    pub cost: u16,
    pub label: Label,
    /// How many batches of `to` were handed on to `from`.
    handed: u32,
}

/// Pops of one head that have the same kind and cost, as bits for the following terminals.
#[derive(Clone, Copy)]
struct Batch {
    cost: u16,
    kind: u16,
    following: u32,
}

pub struct Summaries<'book> {
    pub book: &'book Book,
    pub kinds: Kinds,
    pub edges: Vec<Edge>,
    /// By head and kind: the following terminals whose cost is known.
    known: Vec<u32>,
    /// By head, kind and following terminal: the cost and 1, or 0 for none.
    costs: Vec<u16>,
    /// By head, in order of cost.
    batches: Vec<Vec<Batch>>,
    /// By head: edges to it that have handed on all its batches.
    waiting: Vec<Vec<u32>>,
    /// By cost: edges that have something to hand on at that cost.
    due: Vec<Vec<u32>>,
}

impl<'book> Summaries<'book> {
    pub fn new(book: &'book Book) -> Self {
        let kinds = Kinds::new(book);
        let heads = book.states() * book.terminals();
        let mut summaries = Summaries {
            known: vec![0; heads * kinds.count()],
            costs: vec![0; heads * kinds.count() * book.terminals()],
            batches: vec![Vec::new(); heads],
            waiting: vec![Vec::new(); heads],
            due: vec![Vec::new(); OVER + 1],
            edges: Vec::new(),
            book,
            kinds,
        };
        summaries.start();
        for level in 0..=OVER {
            while let Some(edge) = summaries.due[level].pop() {
                summaries.hand_on(edge, level);
            }
        }
        summaries
    }

    pub fn heads(&self) -> usize {
        self.batches.len()
    }

    pub fn head(&self, state: usize, terminal: usize) -> usize {
        state * self.book.terminals() + terminal
    }

    pub fn terminal(&self, head: usize) -> usize {
        head % self.book.terminals()
    }

    /// The least cost of a pop, or none.
    pub fn cost(&self, head: usize, kind: usize, following: usize) -> Option<usize> {
        let row = head * self.kinds.count() + kind;
        let stored = self.costs[row * self.book.terminals() + following];
        usize::from(stored).checked_sub(1)
    }

    /// What the actions say by themselves: reductions pop at no cost, shifts are edges of cost 1.
    fn start(&mut self) {
        let terminals = self.book.terminals();
        for head in 0..self.heads() {
            let terminal = head % terminals;
            match self.book.action(head / terminals, terminal) {
                Action::Reduce(production) => {
                    let production = self.book.productions[usize::from(production)];
                    let kind = self.kinds.goto(production.left.into());
                    let kind = kind + usize::from(production.length);
                    self.settle(head, kind, 1 << terminal, 0);
                }
                Action::Shift(state) => {
                    for next in 0..terminals {
                        let to = self.head(state.into(), next);
                        self.add_edge(head, to, 1, Label::Shift);
                    }
                }
                Action::Accept | Action::Error => {}
            }
        }
    }

    /// Takes pops in that are new. Costs rise from call to call, so what is known is least.
    fn settle(&mut self, head: usize, kind: usize, following: u32, cost: usize) {
        let row = head * self.kinds.count() + kind;
        let new = following & !self.known[row];
        if new == 0 {
            return;
        }
        self.known[row] |= new;
        for terminal in bits(new) {
            self.costs[row * self.book.terminals() + terminal] = cost as u16 + 1;
        }
        self.batches[head].push(Batch {
            cost: cost as u16,
            kind: kind as u16,
            following: new,
        });
        for edge in std::mem::take(&mut self.waiting[head]) {
            self.queue(edge);
        }
        if !self.kinds.takes_off(kind) {
            self.cross(head, self.kinds.left[kind], new, cost);
        }
    }

    /// The head's own state has a goto under the left side, or the reduction is broken.
    fn cross(&mut self, head: usize, left: usize, following: u32, cost: usize) {
        let state = head / self.book.terminals();
        let Some(next) = self.book.goto(state, left) else {
            return;
        };
        for terminal in bits(following) {
            let to = self.head(next, terminal);
            self.add_edge(head, to, cost, Label::Goto(left as u16));
        }
    }

    fn add_edge(&mut self, from: usize, to: usize, cost: usize, label: Label) {
        self.edges.push(Edge {
            from: from as u32,
            to: to as u32,
            cost: cost as u16,
            label,
            handed: 0,
        });
        self.queue(self.edges.len() as u32 - 1);
    }

    /// An edge is due when it hands on its target's next batch; without one it waits.
    fn queue(&mut self, edge: u32) {
        let Edge {
            to, cost, handed, ..
        } = self.edges[edge as usize];
        match self.batches[to as usize].get(handed as usize) {
            Some(batch) => self.due[sum(cost, batch.cost)].push(edge),
            None => self.waiting[to as usize].push(edge),
        }
    }

    /// Hands on the batches that are due now: from below, one state fewer is to be taken off.
    fn hand_on(&mut self, edge: u32, level: usize) {
        let Edge { from, to, cost, .. } = self.edges[edge as usize];
        loop {
            let handed = self.edges[edge as usize].handed as usize;
            match self.batches[to as usize].get(handed) {
                Some(&batch) if sum(cost, batch.cost) == level => {
                    self.edges[edge as usize].handed += 1;
                    let kind = usize::from(batch.kind);
                    if self.kinds.takes_off(kind) {
                        self.settle(from as usize, kind - 1, batch.following, level);
                    }
                }
                _ => break,
            }
        }
        self.queue(edge);
    }
}

/// A sum of costs; all over 1,000 are one.
pub fn sum(one: u16, other: u16) -> usize {
    (usize::from(one) + usize::from(other)).min(OVER)
}

/// The bits of a set, lowest first.
pub fn bits(mut set: u32) -> impl Iterator<Item = usize> {
    std::iter::from_fn(move || {
        if set == 0 {
            return None;
        }
        let bit = set.trailing_zeros() as usize;
        set &= set - 1;
        Some(bit)
    })
}
