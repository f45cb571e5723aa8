//! Verdicts on certificates that are known beforehand: each condition, the order of refusals, and
//! the limits of a run. Each is asked of the library and of the independent implementation.

#[macro_use]
mod both;
#[allow(dead_code)]
#[path = "../examples/make_book/grammar.rs"]
mod grammar;
mod independent;
#[allow(dead_code)]
#[path = "../examples/make_book/lalr.rs"]
mod lalr;
mod made;
mod random;
mod shipped;

use both::Calls;
use independent::book::{Action, Book};
use independent::calls::map_of;
use independent::numbers::encoded;
use made::{after, doubling, grammar_book, growing, hand_book, shifted, thousand};
use purlquartz::certificate::{make, Certificate};
use purlquartz::*;
use random::certificates::Pieces;
use shipped::{shipped, SHIPPED};
use std::collections::BTreeMap;

on_both! {
    bracket_is_accepted
    bracket_with_one_claim_off
    refused_rows
    refused_sentences
    refused_lengths
    refused_symbols
    wide_numbers
    refused_in_order
    no_sentence_over_1000
    other_sentences
    claims_that_bind_others
    gotos_that_are_none
    no_nonterminals
    no_symbols
    longest_production
    largest_rows
    long_pairs
    sums_stop
    too_deep
    spinning
    shipped_books
}

fn check(calls: &Calls, book: &Book, certificate: &Certificate) -> Result<Verdict, Refusal> {
    let Certificate {
        crossings,
        pairs,
        sentences,
    } = certificate;
    (calls.check_certificate)(&book.cells(), crossings, pairs, sentences)
}

/// The verdict on pieces, which are always well written.
fn verdict(calls: &Calls, book: &Book, pieces: &Pieces) -> Verdict {
    check(calls, book, &pieces.certificate()).expect("no refusal")
}

fn fault(condition: Condition, index: usize) -> Verdict {
    Verdict::Fault { condition, index }
}

/// The index of a crossing's claim.
fn crossing(book: &Book, [state, nonterminal, first, following]: [usize; 4]) -> usize {
    let row = (state * book.nonterminals() + nonterminal) * book.terminals() + first;
    row * book.terminals() + following
}

/// The index of a pair's claim.
fn pair(book: &Book, state: usize, lookahead: usize) -> usize {
    book.sizes.crossing_cells() + state * book.terminals() + lookahead
}

/// Bracket's certificate by hand. Only states 0 and 2 have a goto, which is crossed by `1`, or by
/// `2 1 3`, before the end mark or a further `3`.
fn bracket() -> (Book, Certificate) {
    let book = shipped("bracket");
    let mut crossings = vec![UNREACHED; 96];
    for state in [0, 2] {
        for following in [0, 3] {
            crossings[crossing(&book, [state, 0, 1, following])] = 1;
            crossings[crossing(&book, [state, 0, 2, following])] = 3;
        }
    }
    let pairs = [
        [0, 0, 0, 0],
        [1, 1, 1, 1],
        [1, 1, 1, 1],
        [1, UNREACHED, UNREACHED, 1],
        [2, UNREACHED, UNREACHED, 2],
        [3, 3, 3, 3],
    ];
    let sentences = [
        &[0].repeat(4)[..],
        &[1, 1].repeat(4),
        &[1, 2].repeat(4),
        &[1, 1].repeat(2),
        &[2, 2, 1].repeat(2),
        &[3, 2, 1, 3].repeat(4),
    ];
    let certificate = Certificate {
        crossings,
        pairs: pairs.concat(),
        sentences: sentences.concat(),
    };
    (book, certificate)
}

fn bracket_is_accepted(calls: &Calls) {
    let (book, certificate) = bracket();
    assert_eq!(check(calls, &book, &certificate), Ok(Verdict::Accepted));
    assert_eq!(make(&book.cells()), Ok(certificate));
}

/// Each claim of Bracket's one more, then each one less; sentences stay where they are due. What
/// was answered is held by how often, and by a sum over all of it.
fn bracket_with_one_claim_off(calls: &Calls) {
    let book = shipped("bracket");
    let mut tallies = Vec::new();
    let mut digest = Digest::new();
    for more in [true, false] {
        let mut tally = BTreeMap::new();
        for index in 0..120 {
            let mut pieces = Pieces::of(&book);
            let claim = pieces.claim(index);
            let changed = if more {
                claim.checked_add(1)
            } else {
                claim.checked_sub(1)
            };
            let Some(changed) = changed else { continue };
            *claim = changed;
            let verdict = verdict(calls, &book, &pieces);
            digest.take(&format!("{more} {index} {verdict:?}\n"));
            *tally.entry(name(verdict)).or_insert(0) += 1;
        }
        tallies.push(tally.into_iter().collect::<Vec<_>>());
    }
    let seen = |words: &[(&str, usize)]| {
        let words = words.iter().map(|&(word, times)| (word.to_string(), times));
        words.collect::<Vec<_>>()
    };
    let raised = [
        ("Range", 92),
        ("Roads", 8),
        ("Start", 4),
        ("Transitions", 16),
    ];
    assert_eq!(tallies[0], seen(&raised));
    let lowered = [
        ("Accepted", 76),
        ("Roads", 1),
        ("Sentences", 14),
        ("Short", 4),
        ("Transitions", 21),
    ];
    assert_eq!(tallies[1], seen(&lowered));
    assert_eq!(digest.sum, 0x8b76_e4f3_6e75_697d);
}

/// Accepted, or the name of the condition.
fn name(verdict: Verdict) -> String {
    match verdict {
        Verdict::Accepted => "Accepted".to_string(),
        Verdict::Fault { condition, .. } => format!("{condition:?}"),
    }
}

/// A sum over text that tells texts apart (FNV-1a).
struct Digest {
    sum: u64,
}

impl Digest {
    fn new() -> Digest {
        Digest {
            sum: 0xcbf2_9ce4_8422_2325,
        }
    }

    fn take(&mut self, text: &str) {
        for byte in text.bytes() {
            self.sum = (self.sum ^ u64::from(byte)).wrapping_mul(0x100_0000_01b3);
        }
    }
}

fn refused(calls: &Calls, book: &Book, certificate: &Certificate, number: u16, place: usize) {
    let refusal = Refusal { number, place };
    assert_eq!(check(calls, book, certificate), Err(refusal));
}

/// One cell too few and one too many, and none at all.
fn refused_rows(calls: &Calls) {
    let (book, good) = bracket();
    for (count, number, place) in [(95, 1, 95), (0, 1, 0), (97, 6, 96), (200, 6, 96)] {
        let mut bad = good.clone();
        bad.crossings.resize(count, 0);
        refused(calls, &book, &bad, number, place);
    }
    for (count, number, place) in [(23, 1, 23), (0, 1, 0), (25, 6, 24), (90, 6, 24)] {
        let mut bad = good.clone();
        bad.pairs.resize(count, UNREACHED);
        refused(calls, &book, &bad, number, place);
    }
}

/// Bracket's certificate with bytes of its sentences put in place of others.
fn refused_bytes(calls: &Calls, at: usize, old: usize, new: &[u8], number: u16, place: usize) {
    let (book, mut certificate) = bracket();
    certificate
        .sentences
        .splice(at..at + old, new.iter().copied());
    refused(calls, &book, &certificate, number, place);
}

/// The sentences take 46 bytes: four empty ones, from 4 on ten of one symbol, from 24 on two of two
/// and from 30 on four of three symbols.
fn refused_sentences(calls: &Calls) {
    let (book, good) = bracket();
    assert_eq!(good.sentences.len(), 46);
    // They stop: at once, after the first, within a sentence, before the last symbol.
    for count in [0, 1, 5, 30, 31, 42, 45] {
        let mut bad = good.clone();
        bad.sentences.truncate(count);
        refused(calls, &book, &bad, 1, count);
    }
    // Within a number, which then begins where it stops.
    refused_bytes(calls, 45, 1, &[0x83], 1, 45);
    refused_bytes(calls, 45, 1, &[0x83, 0x80], 1, 45);
    // Something follows, be it a number or not.
    for more in [&[0][..], &[0x80], &[1, 1]] {
        refused_bytes(calls, 46, 0, more, 6, 46);
    }
    // A length of 1,000 is no reason to refuse; its last symbol may be.
    let long = [&[0xe8, 0x07][..], &[1; 999]].concat();
    refused_bytes(calls, 42, 4, &long, 1, 42 + 1_001);
    refused_bytes(calls, 42, 4, &[&long[..], &[9]].concat(), 7, 42 + 1_001);
    let whole = [&long[..], &[1]].concat();
    refused_bytes(calls, 42, 4, &[&whole[..], &[1]].concat(), 6, 42 + 1_002);
    let (_, mut certificate) = bracket();
    certificate.sentences.splice(42..46, whole);
    let short = fault(Condition::Sentences, 119);
    assert_eq!(check(calls, &book, &certificate), Ok(short));
}

/// Padded, with a third top bit, or over 1,000: the first length, and the last.
fn refused_lengths(calls: &Calls) {
    for at in [0, 42] {
        for bad in [&[0x83, 0][..], &[0x83, 0x80, 0], &[0x80, 0x80, 0x80]] {
            refused_bytes(calls, at, 1, bad, 2, at);
        }
        for value in [1_001, 65_535, 65_536, 2_097_151] {
            refused_bytes(calls, at, 1, &encoded::<u32>(&[value]), 8, at);
        }
    }
}

/// Padded, with a third top bit, 0, or T or more: the first symbol, and the last.
fn refused_symbols(calls: &Calls) {
    for at in [5, 45] {
        for bad in [&[0x81, 0][..], &[0x81, 0x80, 0], &[0x83, 0x80, 0x80]] {
            refused_bytes(calls, at, 1, bad, 2, at);
        }
        for value in [0, 4, 127, 65_535, 65_536, 2_097_151] {
            refused_bytes(calls, at, 1, &encoded::<u32>(&[value]), 7, at);
        }
    }
}

/// Any number of the sentences, over 65,535 by its upper bits alone: a length, or else a symbol.
fn wide_numbers(calls: &Calls) {
    let (_, good) = bracket();
    let pieces = good.pairs.into_iter().filter(|&claim| claim < LONG);
    let is_length = pieces.flat_map(|claim| {
        let symbols = [false].repeat(claim.into());
        [vec![true], symbols].concat()
    });
    let mut count = 0;
    for (at, is_length) in is_length.enumerate() {
        let number = if is_length { 8 } else { 7 };
        for more in [1, 2, 16, 31] {
            let value = u32::from(good.sentences[at]) + 65_536 * more;
            refused_bytes(calls, at, 1, &encoded(&[value]), number, at);
        }
        count += 1;
    }
    assert_eq!(count, good.sentences.len());
}

/// The book's refusals come first, then those of the crossings, the pairs and the sentences; every
/// refusal comes before any fault.
fn refused_in_order(calls: &Calls) {
    let (book, mut certificate) = bracket();
    certificate.crossings[0] = 1_003;
    certificate.sentences.push(0);
    refused(calls, &book, &certificate, 6, 46);
    certificate.pairs.push(0);
    refused(calls, &book, &certificate, 6, 24);
    certificate.crossings.pop();
    refused(calls, &book, &certificate, 1, 95);
    let cells = &book.cells()[..38];
    let Certificate {
        crossings,
        pairs,
        sentences,
    } = &certificate;
    let refusal = Refusal {
        number: 1,
        place: 38,
    };
    let answer = (calls.check_certificate)(cells, crossings, pairs, sentences);
    assert_eq!(answer, Err(refusal));
    let answer = (calls.check_certificate)(&[3], &[], &[], &[]);
    let refusal = Refusal {
        number: 3,
        place: 0,
    };
    assert_eq!(answer, Err(refusal));
}

/// A pair claimed over 1,000, in range or not, has no sentence; what is written for it is surplus,
/// or read as the next one's.
fn no_sentence_over_1000(calls: &Calls) {
    let (book, good) = bracket();
    for claim in [LONG, UNREACHED, 1_003, 65_535] {
        let mut bad = good.clone();
        bad.pairs[23] = claim;
        refused(calls, &book, &bad, 6, 42);
        bad.sentences.truncate(42);
        let (condition, index) = match claim {
            LONG | UNREACHED => (Condition::Transitions, 119),
            _ => (Condition::Range, 119),
        };
        let fault = fault(condition, index);
        assert_eq!(check(calls, &book, &bad), Ok(fault));
    }
    let mut bad = good.clone();
    bad.pairs[23] = 1_000;
    let over = fault(Condition::Transitions, 119);
    assert_eq!(check(calls, &book, &bad), Ok(over));
    bad = good;
    bad.pairs[13] = 1_000;
    refused(calls, &book, &bad, 1, 46);
}

/// Any sentence of the claimed length that reaches the pair will do, and no other.
fn other_sentences(calls: &Calls) {
    for book in ["double", "double_ranked"].map(shipped) {
        let at = pair(&book, 2, 0);
        let pieces = Pieces::of(&book);
        let with = |sentence: &[u8]| {
            let mut pieces = pieces.clone();
            pieces.sentences[6] = sentence.to_vec();
            verdict(calls, &book, &pieces)
        };
        for sentence in [[1, 1, 1], [1, 2, 2]] {
            assert_eq!(with(&sentence), Verdict::Accepted);
        }
        let not_shown = fault(Condition::Sentences, at);
        for sentence in [&[1, 2, 1][..], &[1, 1], &[1, 1, 1, 1], &[1, 1, 2, 2], &[]] {
            assert_eq!(with(sentence), not_shown);
        }
    }
    // Sentences of two pairs swapped: the lower one is told.
    let book = shipped("bracket");
    let mut pieces = Pieces::of(&book);
    pieces.sentences.swap(4, 8);
    let swapped = fault(Condition::Sentences, pair(&book, 1, 0));
    assert_eq!(verdict(calls, &book, &pieces), swapped);
    // One for the same state with another lookahead: `1` fails before it reaches (3, 1).
    pieces = Pieces::of(&book);
    pieces.pairs[13] = 1;
    pieces.sentences[13] = vec![1];
    let unreached = fault(Condition::Sentences, pair(&book, 3, 1));
    assert_eq!(verdict(calls, &book, &pieces), unreached);
}

/// Claims of 0 where no walk can begin count in roads all the same.
fn claims_that_bind_others(calls: &Calls) {
    let book = shipped("bracket");
    // In state 2 nothing begins with the end mark. With this the road `2`, goto, `3` counts 2.
    let mut pieces = Pieces::of(&book);
    pieces.crossings[crossing(&book, [2, 0, 0, 3])] = 0;
    let over = fault(Condition::Roads, crossing(&book, [0, 0, 2, 0]));
    assert_eq!(verdict(calls, &book, &pieces), over);
    // With these claims lowered too the roads are good, and pair (4, 3) is nearer than claimed.
    for state in [0, 2] {
        for following in [0, 3] {
            pieces.crossings[crossing(&book, [state, 0, 2, following])] = 2;
        }
    }
    let over = fault(Condition::Transitions, pair(&book, 4, 3));
    assert_eq!(verdict(calls, &book, &pieces), over);
    // Lowered as well, and all that comes after it, it has no sentence.
    pieces.pairs[19] = 1;
    pieces.pairs[20..24].fill(2);
    let not_shown = fault(Condition::Sentences, pair(&book, 4, 3));
    assert_eq!(verdict(calls, &book, &pieces), not_shown);
    // A claim from the start on.
    pieces = Pieces::of(&book);
    pieces.crossings[crossing(&book, [0, 0, 0, 0])] = 0;
    let over = fault(Condition::Transitions, pair(&book, 3, 0));
    assert_eq!(verdict(calls, &book, &pieces), over);
    // An unreached pair that is claimed binds those after it.
    pieces = Pieces::of(&book);
    pieces.pairs[pair(&book, 3, 1) - 96] = 0;
    let not_shown = fault(Condition::Sentences, pair(&book, 3, 1));
    assert_eq!(verdict(calls, &book, &pieces), not_shown);
    pieces.pairs[pair(&book, 4, 3) - 96] = 1;
    let over = fault(Condition::Transitions, pair(&book, 5, 0));
    assert_eq!(verdict(calls, &book, &pieces), over);
}

/// Claims of gotos that are none are held to their roads, and used by no road.
fn gotos_that_are_none(calls: &Calls) {
    let mut book = shipped("bracket");
    book.gotos[2] = None;
    let pieces = Pieces::of(&book);
    assert_eq!(verdict(calls, &book, &pieces), Verdict::Accepted);
    let none = crossing(&book, [2, 0, 1, 3]);
    assert_eq!(pieces.crossings[none], 1);
    let claimed = |claim| {
        let mut pieces = pieces.clone();
        pieces.crossings[none] = claim;
        verdict(calls, &book, &pieces)
    };
    assert_eq!(claimed(0), Verdict::Accepted);
    for claim in [2, 1_000, LONG, UNREACHED] {
        assert_eq!(claimed(claim), fault(Condition::Roads, none));
    }
    // Every claim of a goto that is none may be 0.
    let mut pieces = pieces.clone();
    pieces.crossings[16..].fill(0);
    assert_eq!(verdict(calls, &book, &pieces), Verdict::Accepted);
}

/// Without nonterminals there are no crossings.
fn no_nonterminals(calls: &Calls) {
    let book = hand_book([2, 0, 2, 0], &[], &[0, 4, 1, 4], &[]);
    let good = Certificate {
        crossings: vec![],
        pairs: vec![0, 0, 1, 1],
        sentences: vec![0, 0, 1, 1, 1, 1],
    };
    assert_eq!(make(&book.cells()), Ok(good.clone()));
    assert_eq!(check(calls, &book, &good), Ok(Verdict::Accepted));
    for (at, claim, condition) in [
        (0, 1, Condition::Start),
        (1, 1, Condition::Start),
        (2, 2, Condition::Transitions),
        (3, 2, Condition::Transitions),
        (2, 0, Condition::Sentences),
    ] {
        let mut bad = good.clone();
        bad.pairs[at] = claim;
        assert_eq!(check(calls, &book, &bad), Ok(fault(condition, at)));
    }
    let mut bad = good.clone();
    bad.crossings.push(0);
    refused(calls, &book, &bad, 6, 0);
    bad = good;
    bad.pairs.pop();
    refused(calls, &book, &bad, 1, 3);
}

/// With the end mark alone there are no symbols: what is reached is reached by nothing.
fn no_symbols(calls: &Calls) {
    // After one reduction the machine spins in state 1.
    let book = hand_book([1, 1, 2, 2], &[[0, 0], [0, 1]], &[3, 5], &[2, 0]);
    let good = Certificate {
        crossings: vec![0, UNREACHED],
        pairs: vec![0, 0],
        sentences: vec![0, 0],
    };
    assert_eq!(make(&book.cells()), Ok(good.clone()));
    assert_eq!(check(calls, &book, &good), Ok(Verdict::Accepted));
    let mut bad = good.clone();
    bad.sentences = vec![0, 1, 1];
    refused(calls, &book, &bad, 7, 2);
    // The stack grows without end, with state 0 on top.
    let book = hand_book([1, 1, 1, 1], &[[0, 0]], &[3], &[1]);
    let good = Certificate {
        crossings: vec![0],
        pairs: vec![0],
        sentences: vec![0],
    };
    assert_eq!(check(calls, &book, &good), Ok(Verdict::Accepted));
}

/// A road of 32 transitions counts.
fn longest_production(calls: &Calls) {
    let right = ["x"; 32].join(" ");
    let book = grammar_book(&format!("terminals: x\nstart -> {right}\n"));
    let mut pieces = Pieces::of(&book);
    assert_eq!(verdict(calls, &book, &pieces), Verdict::Accepted);
    let whole = crossing(&book, [0, 0, 1, 0]);
    assert_eq!(pieces.crossings[whole], 32);
    pieces.crossings[whole] = 33;
    let over = fault(Condition::Roads, whole);
    assert_eq!(verdict(calls, &book, &pieces), over);
}

/// As many claims as there can be, of a book that does nothing.
fn largest_rows(calls: &Calls) {
    let book = hand_book([32, 32, 128, 0], &[], &[0; 4_096], &[0; 4_096]);
    let (crossings, pairs) = (4_194_304, 4_096);
    let mut good = Certificate {
        crossings: vec![UNREACHED; crossings],
        pairs: vec![UNREACHED; pairs],
        sentences: vec![0; 32],
    };
    good.pairs[..32].fill(0);
    assert_eq!(check(calls, &book, &good), Ok(Verdict::Accepted));
    let mut bad = good.clone();
    bad.pairs[pairs - 1] = LONG;
    let long = fault(Condition::Short, crossings + pairs - 1);
    assert_eq!(check(calls, &book, &bad), Ok(long));
    bad.crossings[crossings - 1] = 1_003;
    let over = fault(Condition::Range, crossings - 1);
    assert_eq!(check(calls, &book, &bad), Ok(over));
    bad.crossings.pop();
    refused(calls, &book, &bad, 1, crossings - 1);
    bad.crossings.resize(crossings + 1, UNREACHED);
    refused(calls, &book, &bad, 6, crossings);
}

/// A true certificate with long pairs: the first of them is told.
fn long_pairs(calls: &Calls) {
    let book = doubling("a0 -> x\n", 12);
    let mut pieces = Pieces::of(&book);
    assert_eq!(pieces.pairs, map_of(&book));
    let long = pieces.pairs.iter().position(|&claim| claim == LONG);
    let long = long.expect("4,096 symbols") + pieces.crossings.len();
    let told = fault(Condition::Short, long);
    assert_eq!(verdict(calls, &book, &pieces), told);
    // As unreached it is over the way there.
    *pieces.claim(long) = UNREACHED;
    let over = fault(Condition::Transitions, long);
    assert_eq!(verdict(calls, &book, &pieces), over);
}

/// A way of 1,000 symbols, and one more symbol: sums stop at 1,001, be they claimed or added up.
fn sums_stop(calls: &Calls) {
    let book = thousand();
    let pieces = Pieces::of(&book);
    let whole = after(&book, &[1]);
    let claimed = pair(&book, whole, 2);
    let long = pair(&book, shifted(&book, whole, 2), 0);
    let with = |changes: &[(usize, u16)]| {
        let mut pieces = pieces.clone();
        for &(index, claim) in changes {
            *pieces.claim(index) = claim;
        }
        verdict(calls, &book, &pieces)
    };
    let first_long = pieces.pairs.iter().position(|&claim| claim == LONG);
    let first_long = pair(&book, 0, 0) + first_long.expect("1,001 symbols");
    assert_eq!(with(&[]), fault(Condition::Short, first_long));
    assert_eq!(
        with(&[(claimed, LONG)]),
        fault(Condition::Transitions, claimed)
    );
    assert_eq!(
        with(&[(long, UNREACHED)]),
        fault(Condition::Transitions, long)
    );
    assert_eq!(with(&[(long, 1_003)]), fault(Condition::Range, long));
    // All long pairs claimed at 1,000, which no sum hinders: they have no sentence.
    let all = pieces.pairs.iter().enumerate();
    let all = all.filter(|&(_, &claim)| claim == LONG);
    let all: Vec<_> = all.map(|(at, _)| (pair(&book, 0, 0) + at, 1_000)).collect();
    assert_eq!(with(&all), fault(Condition::Sentences, first_long));
    // The crossing of `c y` is long, and held to that.
    let start = crossing(&book, [0, 0, 1, 0]);
    assert_eq!(pieces.crossings[start], LONG);
    assert_eq!(with(&[(start, UNREACHED)]), fault(Condition::Roads, start));
    assert_eq!(pieces.crossings[crossing(&book, [0, 1, 1, 2])], 1_000);
}

/// A pair with the 1,024th state on top is reached, one with a 1,025th is not, be it pushed by a
/// shift or by a reduction.
fn too_deep(calls: &Calls) {
    let symbols: Vec<u8> = (1..=31).collect();
    let book = growing(Action::Error);
    let pieces = Pieces::of(&book);
    let last = pair(&book, 33, 31) - pieces.crossings.len();
    assert_eq!(pieces.pairs[last], 30);
    assert_eq!(pieces.sentences[last], symbols[..30]);
    let (ending, stack) = independent::machine::run(&book, &symbols[..30], 31);
    assert!(matches!(ending, Ending::Error(_)));
    assert_eq!(stack.len(), STACK_CELLS);
    assert_eq!(verdict(calls, &book, &pieces), Verdict::Accepted);
    for (last, lookahead, length) in [(Action::Shift(64), 0, 31), (Action::Reduce(0), 31, 30)] {
        let book = growing(last);
        let pieces = Pieces::of(&book);
        assert_eq!(pieces.pairs, map_of(&book));
        let deep = pair(&book, 64, lookahead);
        let sentence = &pieces.sentences[deep - pieces.crossings.len()];
        assert_eq!(sentence[..], symbols[..length]);
        let past = fault(Condition::Sentences, deep);
        assert_eq!(verdict(calls, &book, &pieces), past);
    }
}

/// A pair that is reached by the 4,096th reduction is reached within the limits, one that takes one
/// more is not.
fn spinning(calls: &Calls) {
    let empties = |start: &str| {
        let mut text = format!("terminals: x\n{start}b -> a11\n");
        for level in (1..=11).rev() {
            text += &format!("a{level} -> a{0} a{0}\n", level - 1);
        }
        grammar_book(&(text + "a0 ->\n"))
    };
    // 4,095 reductions make a11.
    let book = empties("start -> b x\n");
    let pieces = Pieces::of(&book);
    assert_eq!(verdict(calls, &book, &pieces), Verdict::Accepted);
    let book = empties("start -> c x\nc -> b\n");
    let pieces = Pieces::of(&book);
    assert_eq!(pieces.pairs, map_of(&book));
    let late = after(&book, &[1]);
    // What comes after it is past the limits too.
    let places = [
        pair(&book, late, 1),
        pair(&book, shifted(&book, late, 1), 0),
        pair(&book, after(&book, &[0]), 0),
    ];
    let first = places.into_iter().min().expect("three");
    assert_eq!(
        verdict(calls, &book, &pieces),
        fault(Condition::Sentences, first)
    );
}

fn shipped_books(calls: &Calls) {
    for name in SHIPPED {
        let book = shipped(name);
        let certificate = make(&book.cells()).expect("a good book");
        let answer = check(calls, &book, &certificate);
        assert_eq!(answer, Ok(Verdict::Accepted), "{name}");
    }
}
