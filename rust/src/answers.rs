//! What the calls answer.

/// A map cell of a pair that some sequence reaches, but none of at most 1,000 symbols.
pub const LONG: u16 = 1_001;
/// A map cell of a pair that no sequence reaches.
pub const UNREACHED: u16 = 1_002;
/// The most symbols of a sentence, and the fewest bytes of a sentence buffer.
pub const SENTENCE_BYTES: usize = 1_000;
/// The fewest cells of a stack buffer.
pub const STACK_CELLS: usize = 1_024;
/// The most entries of a list.
pub const LIST_ENTRIES: usize = 128;
/// The most cells of a book.
pub const MOST_CELLS: usize = 8_485;
/// The most bytes of a book.
pub const MOST_BYTES: usize = 16_679;
/// The most bytes of a list: [`LIST_ENTRIES`] entries of [`SENTENCE_BYTES`] symbols.
pub const MOST_LIST_BYTES: usize = 128_770;

/// Why an input was refused, and where. A refused call has changed no lent memory.
///
/// | number | cause | place |
/// |---|---|---|
/// | 1 | a book, list, row of claims or row of sentences stops before a due number is complete | where the missing number begins |
/// | 2 | a number in bytes is badly formed: padded, or its third byte has the top bit set | its first byte |
/// | 3 | the form is neither 1 nor 2 | the number's offset or index |
/// | 4 | T, N, S or P outside its range | the number's offset or index |
/// | 5 | a production's left side or length outside its range | the number's offset or index |
/// | 6 | something follows the last number | where it begins |
/// | 7 | a symbol is 0, or T or more | the symbol's index; in a list or certificate, its offset |
/// | 8 | a sentence has over 1,000 symbols | 0; in a list or certificate, the length's offset |
/// | 9 | a list has over 128 entries | the count's offset |
/// | 10 | the state is S or more | 0 |
/// | 11 | the lookahead is T or more | 0; in a list, its offset |
/// | 12 | an output is too short | 0 |
/// | 13 | work or stack cells are too few | 0 |
/// | 14 | an action outside its range, a shift under terminal 0, or accept under another terminal | the number's offset or index |
/// | 15 | a goto outside its range | the number's offset or index |
/// | 16 | a rank is T or more, or was used before | the number's offset or index |
/// | 17 | a rank is not its terminal's number ([`to_form_1`](crate::to_form_1()) only) | the cell's index |
#[derive(Clone, Copy, Debug, PartialEq, Eq)]
pub struct Refusal {
    pub number: u16,
    pub place: usize,
}

/// The form of a book, 1 or 2, and how many terminals, nonterminals, states and productions it
/// has.
#[derive(Clone, Copy, Debug, PartialEq, Eq)]
pub struct Sizes {
    pub form: u16,
    pub terminals: u16,
    pub nonterminals: u16,
    pub states: u16,
    pub productions: u16,
}

impl Sizes {
    /// The work cells that the finder needs: T × T × S × (N + 8).
    pub fn work_cells(&self) -> usize {
        let terminals = usize::from(self.terminals);
        terminals * terminals * usize::from(self.states) * (usize::from(self.nonterminals) + 8)
    }

    /// The cells of the whole map, and of a certificate's claims for pairs: S × T.
    pub fn map_cells(&self) -> usize {
        usize::from(self.states) * usize::from(self.terminals)
    }

    /// The cells of a certificate's claims for crossings: S × N × T × T.
    pub fn crossing_cells(&self) -> usize {
        self.map_cells() * usize::from(self.nonterminals) * usize::from(self.terminals)
    }
}

/// Where a run ended: the top state, the symbol looked at, and how many symbols were taken in.
#[derive(Clone, Copy, Debug, PartialEq, Eq)]
pub struct Stop {
    pub state: u16,
    pub symbol: u16,
    pub taken: u16,
}

/// How a run ended.
#[derive(Clone, Copy, Debug, PartialEq, Eq)]
pub enum Ending {
    /// The machine accepted.
    Accepted(Stop),
    /// The action was error.
    Error(Stop),
    /// A reduction could not be done: too few states were stacked, or there was no goto.
    Broken(Stop),
    /// The whole sentence was taken in, and the lookahead would be shifted.
    Passed(Stop),
    /// A push would have made 1,025 states.
    Deep(Stop),
    /// 4,096 reductions were done since the last shift, and a further one could be done.
    Spinning(Stop),
}

/// What the finder says of one pair.
#[derive(Clone, Copy, Debug, PartialEq, Eq)]
pub enum Found {
    /// No sequence, however long, reaches the pair.
    Unreached,
    /// Some sequence reaches the pair, but none of at most 1,000 symbols.
    Long,
    /// The first so many bytes of the buffer are the shortest and earliest sentence.
    Sentence(usize),
}

/// What [`find_break`](crate::find_break()) says of the reduction of one pair.
#[derive(Clone, Copy, Debug, PartialEq, Eq)]
pub enum Break {
    /// No sequence, however long, brings the machine to the pair with a stack on which the
    /// reduction breaks. So it is too if the action of the pair is not reduce.
    None,
    /// Some sequence does, but none of at most 1,000 symbols.
    Long,
    /// The first so many bytes of the buffer are the shortest and earliest sentence that does.
    Sentence(usize),
}

/// The rest of a list: the offset of its next entry, and how many entries are left.
#[derive(Clone, Copy, Debug, PartialEq, Eq)]
pub struct Rest {
    pub offset: usize,
    pub left: usize,
}

/// One entry of a list: where its symbols stand, how many there are, its lookahead, and the article
/// number of its message, 0 to 2,097,151.
#[derive(Clone, Copy, Debug, PartialEq, Eq)]
pub struct Entry {
    pub start: usize,
    pub length: usize,
    pub lookahead: u16,
    pub article: u32,
}

impl Entry {
    /// The entry's sentence, as that part of the list's own bytes. The list must be the one that
    /// the entry was read from.
    pub fn symbols<'list>(&self, list: &'list [u8]) -> &'list [u8] {
        &list[self.start..self.start + self.length]
    }
}

/// What the judgement says of a list. Entries are counted from 0.
///
/// A failing pair is one whose action is error and that some sequence reaches, or one whose action
/// is reduce and where some sequence breaks it ([`Break`]).
#[derive(Clone, Copy, Debug, PartialEq, Eq)]
pub enum Judgement {
    /// Every state with a failing pair has its entry.
    Complete,
    /// The lowest state that has a failing pair and no entry.
    Uncovered { state: u16 },
    /// The entry fails in the state of an earlier one.
    Repeat { entry: usize },
    /// The entry's run ends neither as error nor as broken with the whole sentence in.
    Wrong { entry: usize, ending: Ending },
    /// The entry fails in a lower state than the one before it.
    OutOfOrder { entry: usize },
}

/// What [`sort_list`](crate::sort_list()) says of a list. Entries are counted from 0.
#[derive(Clone, Copy, Debug, PartialEq, Eq)]
pub enum Sorted {
    /// The first so many lent bytes are the list with its entries in state order.
    List(usize),
    /// As [`Judgement::Repeat`].
    Repeat { entry: usize },
    /// As [`Judgement::Wrong`].
    Wrong { entry: usize, ending: Ending },
}

/// One of the two lists that [`join_lists`](crate::join_lists()) is given.
#[derive(Clone, Copy, Debug, PartialEq, Eq)]
pub enum Which {
    First,
    Second,
}

/// What [`join_lists`](crate::join_lists()) says of two lists.
#[derive(Clone, Copy, Debug, PartialEq, Eq)]
pub enum Joined {
    /// The first so many lent bytes are the joined list.
    List(usize),
    /// The first list that has a fault, and its judgement: [`Judgement::Repeat`],
    /// [`Judgement::Wrong`] or [`Judgement::OutOfOrder`].
    Fault { list: Which, judgement: Judgement },
}

/// Why [`join_lists`](crate::join_lists()) was refused. The list is the one that the refusal is of,
/// and its place is an offset there; none if the refusal is of the book or of the lent bytes.
#[derive(Clone, Copy, Debug, PartialEq, Eq)]
pub struct JoinRefusal {
    pub list: Option<Which>,
    pub refusal: Refusal,
}

impl From<JoinRefusal> for Refusal {
    fn from(refused: JoinRefusal) -> Refusal {
        refused.refusal
    }
}

/// What the checker says of a certificate.
#[derive(Clone, Copy, Debug, PartialEq, Eq)]
pub enum Verdict {
    /// Every condition is met: the claims for pairs are the book's map.
    Accepted,
    /// The first condition that is not met, and the lowest index of a claim at which it is not. The
    /// crossings' claims are counted from 0, and the pairs' go on after them.
    Fault { condition: Condition, index: usize },
}

/// What a certificate must meet, in the order in which it is looked at.
///
/// A transition is a shift, which counts 1 and has any following terminal, or a goto that is there,
/// which counts its claim. A road is transitions in a row, each one's following terminal the next
/// one's first; an empty road has equal first and following. A sum over 1,000 stops at [`LONG`],
/// and [`UNREACHED`] with anything is unreached.
#[derive(Clone, Copy, Debug, PartialEq, Eq, PartialOrd, Ord)]
pub enum Condition {
    /// 0: no claim is over [`UNREACHED`].
    Range,
    /// 1: the claim of a crossing is no more than any road from its state with its first and
    /// following terminal, as long as a production of its nonterminal and ending where that is
    /// reduced on the following terminal. This holds of gotos that are none too.
    Roads,
    /// 2: state 0 is claimed 0 with every lookahead.
    Start,
    /// 3: the claim of a pair is no more than that of any pair and one transition from there, its
    /// first terminal that pair's lookahead and its following terminal this one's.
    Transitions,
    /// 4: no pair is claimed [`LONG`].
    Short,
    /// 5: the sentence of a pair has the claimed length, and its run with the pair's lookahead,
    /// under a run's limits, has at some moment all symbols in and the pair's state on top.
    Sentences,
}

impl Condition {
    /// All conditions; each has its number for index.
    pub const ALL: [Condition; 6] = [
        Condition::Range,
        Condition::Roads,
        Condition::Start,
        Condition::Transitions,
        Condition::Short,
        Condition::Sentences,
    ];
}
