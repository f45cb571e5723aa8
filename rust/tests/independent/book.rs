//! The table book.

use super::numbers::{encoded, refuse, Bytes, Cells, Source};
use purlquartz::{Refusal, Sizes};

#[derive(Clone, Copy, Debug, PartialEq, Eq)]
pub enum Action {
    Error,
    Accept,
    Shift(u16),
    Reduce(u16),
}

#[derive(Clone, Copy, Debug, PartialEq, Eq)]
pub struct Production {
    pub left: u16,
    pub length: u16,
}

#[derive(Clone, Debug, PartialEq, Eq)]
pub struct Book {
    pub sizes: Sizes,
    pub productions: Vec<Production>,
    /// By terminal. They stand in the book only in form 2.
    pub ranks: Vec<u16>,
    /// By state, then terminal.
    pub actions: Vec<Action>,
    /// By state, then nonterminal.
    pub gotos: Vec<Option<u16>>,
}

impl Book {
    pub fn from_bytes(bytes: &[u8]) -> Result<Book, Refusal> {
        decode(&mut Bytes::new(bytes))
    }

    pub fn from_cells(cells: &[u16]) -> Result<Book, Refusal> {
        decode(&mut Cells::new(cells))
    }

    pub fn terminals(&self) -> usize {
        self.sizes.terminals.into()
    }

    pub fn nonterminals(&self) -> usize {
        self.sizes.nonterminals.into()
    }

    pub fn states(&self) -> usize {
        self.sizes.states.into()
    }

    pub fn action(&self, state: usize, terminal: usize) -> Action {
        self.actions[state * self.terminals() + terminal]
    }

    pub fn goto(&self, state: usize, nonterminal: usize) -> Option<usize> {
        self.gotos[state * self.nonterminals() + nonterminal].map(usize::from)
    }

    /// The book with another form. In form 1 the ranks have to be the terminals' numbers.
    pub fn in_form(&self, form: u16) -> Book {
        let sizes = Sizes { form, ..self.sizes };
        Book {
            sizes,
            ..self.clone()
        }
    }

    /// The index of the first rank's cell in form 2.
    pub fn first_rank(&self) -> usize {
        5 + 2 * self.productions.len()
    }

    /// Of two sentences of equal length, whether the one is earlier in order: whether it has the
    /// lower rank at the first difference.
    pub fn earlier(&self, one: &[u8], other: &[u8]) -> bool {
        let rank = |&symbol: &u8| self.ranks[usize::from(symbol)];
        one.iter().map(rank).lt(other.iter().map(rank))
    }

    pub fn cells(&self) -> Vec<u16> {
        let sizes = self.sizes;
        let mut cells = vec![sizes.form, sizes.terminals, sizes.nonterminals];
        cells.extend([sizes.states, sizes.productions]);
        for production in &self.productions {
            cells.extend([production.left, production.length]);
        }
        if sizes.form == 2 {
            cells.extend(&self.ranks);
        }
        cells.extend(self.actions.iter().map(|&action| action_cell(action)));
        cells.extend(self.gotos.iter().map(|goto| goto.map_or(0, |s| s + 1)));
        cells
    }

    pub fn bytes(&self) -> Vec<u8> {
        encoded(&self.cells())
    }
}

fn action_cell(action: Action) -> u16 {
    match action {
        Action::Error => 0,
        Action::Accept => 1,
        Action::Shift(state) => 2 + 2 * state,
        Action::Reduce(production) => 3 + 2 * production,
    }
}

fn decode(source: &mut impl Source) -> Result<Book, Refusal> {
    let form = source.next()?.within(3, 1, 2)?;
    let terminals = source.next()?.within(4, 1, 32)?;
    let nonterminals = source.next()?.within(4, 0, 32)?;
    let states = source.next()?.within(4, 1, 128)?;
    let productions = source.next()?.within(4, 0, 128)?;
    let sizes = Sizes {
        form,
        terminals,
        nonterminals,
        states,
        productions,
    };
    let book = Book {
        sizes,
        productions: decode_productions(source, sizes)?,
        ranks: decode_ranks(source, sizes)?,
        actions: decode_actions(source, sizes)?,
        gotos: decode_gotos(source, sizes)?,
    };
    match source.rest() {
        Some(place) => refuse(6, place),
        None => Ok(book),
    }
}

fn decode_productions(source: &mut impl Source, sizes: Sizes) -> Result<Vec<Production>, Refusal> {
    let mut productions = Vec::new();
    for _ in 0..sizes.productions {
        let left = source.next()?;
        if left.value >= sizes.nonterminals.into() {
            return refuse(5, left.place);
        }
        let left = left.value as u16;
        let length = source.next()?.within(5, 0, 32)?;
        productions.push(Production { left, length });
    }
    Ok(productions)
}

/// In form 1 no ranks stand in the book: a terminal's rank is its number.
fn decode_ranks(source: &mut impl Source, sizes: Sizes) -> Result<Vec<u16>, Refusal> {
    if sizes.form == 1 {
        return Ok((0..sizes.terminals).collect());
    }
    let mut ranks = Vec::new();
    for _ in 0..sizes.terminals {
        let number = source.next()?;
        let rank = number.within(16, 0, sizes.terminals - 1)?;
        if ranks.contains(&rank) {
            return refuse(16, number.place);
        }
        ranks.push(rank);
    }
    Ok(ranks)
}

fn decode_actions(source: &mut impl Source, sizes: Sizes) -> Result<Vec<Action>, Refusal> {
    let mut actions = Vec::new();
    for _ in 0..sizes.states {
        for terminal in 0..sizes.terminals {
            let number = source.next()?;
            match decode_action(number.value, terminal, sizes) {
                Some(action) => actions.push(action),
                None => return refuse(14, number.place),
            }
        }
    }
    Ok(actions)
}

fn decode_action(value: u32, terminal: u16, sizes: Sizes) -> Option<Action> {
    let end_mark = terminal == 0;
    match value {
        0 => Some(Action::Error),
        1 => end_mark.then_some(Action::Accept),
        _ if value & 1 == 0 => {
            let state = (value - 2) / 2;
            let is_there = state < sizes.states.into() && !end_mark;
            is_there.then_some(Action::Shift(state as u16))
        }
        _ => {
            let production = (value - 3) / 2;
            let is_there = production < sizes.productions.into();
            is_there.then_some(Action::Reduce(production as u16))
        }
    }
}

fn decode_gotos(source: &mut impl Source, sizes: Sizes) -> Result<Vec<Option<u16>>, Refusal> {
    let count = usize::from(sizes.states) * usize::from(sizes.nonterminals);
    let mut gotos = Vec::new();
    for _ in 0..count {
        let value = source.next()?.within(15, 0, sizes.states)?;
        gotos.push(value.checked_sub(1));
    }
    Ok(gotos)
}
