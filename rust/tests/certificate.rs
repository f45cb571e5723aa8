//! Certificates of random books: what the maker makes, held to the independent finder; and the
//! library's checker beside the independent one, on certificates that are true, weakened at one
//! place or two, disturbed and damaged. Seeds are fixed, so that every run makes the same
//! comparisons.

mod both;
#[allow(dead_code)]
#[path = "../examples/make_book/grammar.rs"]
mod grammar;
mod independent;
#[allow(dead_code)]
#[path = "../examples/make_book/lalr.rs"]
mod lalr;
mod random;
mod shipped;

use both::compare;
use both::{Calls, Checker, INDEPENDENT, LIBRARY};
use independent::book::Book;
use independent::calls::map_of;
use independent::numbers::{decoded, encoded};
use independent::summaries::{Summaries, OVER};
use purlquartz::certificate::{make, Certificate};
use purlquartz::*;
use random::books::{large_taste, medium_book, small_book, tied_book, wild};
use random::bytes::{damaged, damaged_cells, widened};
use random::certificates::{disturb, disturb_sentence, weak_places, weaken, Pieces};
use random::grammars::long_book;
use random::Random;
use shipped::{shipped, SHIPPED};
use std::collections::BTreeMap;

fn fault(condition: Condition, index: usize) -> Verdict {
    Verdict::Fault { condition, index }
}

/// The verdict of the independent checker on pieces, which are always well written.
fn expected(book: &Book, pieces: &Pieces) -> Verdict {
    let made = pieces.certificate();
    let check = INDEPENDENT.check_certificate;
    let answer = check(&book.cells(), &made.crossings, &made.pairs, &made.sentences);
    answer.expect("no refusal")
}

/// A book that is no good has the refusals of the check.
#[test]
fn the_maker_refuses() {
    let mut random = Random::new(31);
    for _ in 0..2_000 {
        let book = small_book(&mut random);
        let cells = damaged_cells(&mut random, &book);
        assert_eq!(make(&cells).err(), (INDEPENDENT.check)(&cells).err());
    }
}

/// The maker's claims are those of the finder of the tests, which works another way; gotos that are
/// none have their least roads too.
fn assert_true(book: &Book, certificate: &Certificate) {
    let summaries = Summaries::new(book);
    for (index, &claim) in certificate.crossings.iter().enumerate() {
        let terminals = book.terminals();
        let (row, following) = (index / terminals, index % terminals);
        let (row, first) = (row / terminals, row % terminals);
        let (state, nonterminal) = (row / book.nonterminals(), row % book.nonterminals());
        let head = summaries.head(state, first);
        let kind = summaries.kinds.goto(nonterminal);
        let expected = match summaries.cost(head, kind, following) {
            None => UNREACHED,
            Some(OVER) => LONG,
            Some(cost) => cost as u16,
        };
        assert_eq!(claim, expected, "crossing {index} of {:?}", book.cells());
    }
    assert_eq!(certificate.pairs, map_of(book), "book {:?}", book.cells());
}

/// How often each answer was seen.
#[derive(Default)]
struct Tally {
    seen: BTreeMap<String, usize>,
}

impl Tally {
    /// Compares the two checkers. What is accepted must be the true map.
    fn compare(&mut self, cells: &[u16], certificate: &Certificate) -> String {
        match compare::check_certificate(&LIBRARY, cells, certificate) {
            Ok(word) => {
                if word == "Accepted" {
                    let book = Book::from_cells(cells).expect("not refused");
                    assert_eq!(certificate.pairs, map_of(&book), "book {cells:?}");
                }
                *self.seen.entry(word.clone()).or_default() += 1;
                word
            }
            Err(difference) => panic!("{difference}\nbook {cells:?}\n{certificate:?}"),
        }
    }

    /// Each of the answers, named in one string, was seen at least five times.
    fn expect(&self, words: &str) {
        for word in words.split(' ') {
            let times = self.seen.get(word).copied();
            assert!(times.unwrap_or(0) >= 5, "{word}: {times:?}");
        }
    }
}

/// A true certificate is accepted unless a pair is long or reached only past a run's limits.
fn compare_true(tally: &mut Tally, book: &Book) {
    let cells = book.cells();
    let certificate = make(&cells).expect("a good book");
    assert_true(book, &certificate);
    let word = tally.compare(&cells, &certificate);
    match certificate.pairs.contains(&LONG) {
        true => assert_eq!(word, "Short", "book {cells:?}"),
        false => assert!(word == "Accepted" || word == "Sentences", "book {cells:?}"),
    }
}

#[test]
fn true_certificates() {
    let mut random = Random::new(32);
    let mut tally = Tally::default();
    for round in 0..12_000 {
        compare_true(&mut tally, &small_book(&mut random));
        if round % 4 == 0 {
            compare_true(&mut tally, &tied_book(&mut random));
        }
        if round % 20 == 0 {
            compare_true(&mut tally, &medium_book(&mut random));
        }
        if round % 100 == 0 {
            compare_true(&mut tally, &long_book(&mut random));
        }
    }
    tally.expect("Accepted Short");
}

#[test]
fn true_certificates_of_shipped_books() {
    let mut tally = Tally::default();
    for name in SHIPPED {
        compare_true(&mut tally, &shipped(name));
    }
    tally.expect("Accepted");
}

#[test]
fn true_certificate_of_a_large_book() {
    let mut random = Random::new(33);
    let mut tally = Tally::default();
    let taste = large_taste(&mut random);
    let book = wild(&mut random, taste);
    compare_true(&mut tally, &book);
}

/// The certificate of a random book that is accepted.
fn accepted_pieces(random: &mut Random, round: usize) -> (Book, Pieces) {
    loop {
        let book = match round % 10 {
            0 => medium_book(random),
            _ => small_book(random),
        };
        let pieces = Pieces::of(&book);
        if expected(&book, &pieces) == Verdict::Accepted {
            return (book, pieces);
        }
    }
}

/// Weakens a certificate at some places, one for each condition, and looks whether the first
/// condition of them is told with its place.
fn compare_weak(
    random: &mut Random,
    tally: &mut Tally,
    book: &Book,
    pieces: &Pieces,
    places: &[(Condition, usize)],
) {
    let mut pieces = pieces.clone();
    let (&(condition, index), later) = places.split_first().expect("some place");
    assert!(later.iter().all(|&(later, _)| later > condition));
    // The first comes last, in case that both are the same claim.
    for &(condition, index) in places.iter().rev() {
        weaken(random, &mut pieces, condition, index);
    }
    let told = expected(book, &pieces);
    let first = fault(condition, index);
    assert_eq!(told, first, "{places:?} of {:?}", book.cells());
    tally.compare(&book.cells(), &pieces.certificate());
}

/// Each condition is not met at the first and at the last place where that can be, and at one
/// between; then two conditions at once.
#[test]
fn weakened_certificates() {
    let mut random = Random::new(34);
    let mut tally = Tally::default();
    for round in 0..1_500 {
        let (book, pieces) = accepted_pieces(&mut random, round);
        let mut some = Vec::new();
        for condition in Condition::ALL {
            let places = weak_places(&book, &pieces, condition);
            if places.is_empty() {
                continue;
            }
            let any = random.pick(&places);
            some.push((condition, any));
            for index in [places[0], places[places.len() - 1], any] {
                let place = [(condition, index)];
                compare_weak(&mut random, &mut tally, &book, &pieces, &place);
            }
        }
        for first in 0..some.len() {
            for second in first + 1..some.len() {
                let places = [some[first], some[second]];
                compare_weak(&mut random, &mut tally, &book, &pieces, &places);
            }
        }
    }
    tally.expect("Range Roads Start Transitions Short Sentences");
}

/// The same on books of real size: for each condition at the first and the last place, and at some
/// between.
#[test]
fn weakened_certificates_of_shipped_books() {
    let mut random = Random::new(38);
    let mut tally = Tally::default();
    for name in SHIPPED {
        let book = shipped(name);
        let pieces = Pieces::of(&book);
        for condition in Condition::ALL {
            let places = weak_places(&book, &pieces, condition);
            let mut some = vec![places[0], places[places.len() - 1]];
            some.extend((0..12).map(|_| random.pick(&places)));
            for index in some {
                let place = [(condition, index)];
                compare_weak(&mut random, &mut tally, &book, &pieces, &place);
            }
        }
    }
    tally.expect("Range Roads Start Transitions Short Sentences");
}

/// Claims that are any numbers, and sentences that are any symbols.
#[test]
fn disturbed_certificates() {
    let mut random = Random::new(35);
    let mut tally = Tally::default();
    for round in 0..8_000 {
        let book = match round % 50 {
            0 => medium_book(&mut random),
            1 => long_book(&mut random),
            _ => small_book(&mut random),
        };
        let cells = book.cells();
        let pieces = Pieces::of(&book);
        for _ in 0..5 {
            let mut pieces = pieces.clone();
            disturb(&mut random, &book, &mut pieces);
            tally.compare(&cells, &pieces.certificate());
        }
        for _ in 0..2 {
            let mut pieces = pieces.clone();
            disturb_sentence(&mut random, &book, &mut pieces);
            tally.compare(&cells, &pieces.certificate());
        }
    }
    tally.expect("Accepted Range Roads Start Transitions Short Sentences 7");
}

/// Books of real size, and a large wild one: in the shipped books no goto that is none has a claim
/// below unreached.
#[test]
fn disturbed_certificates_of_larger_books() {
    let mut random = Random::new(39);
    let mut tally = Tally::default();
    let taste = large_taste(&mut random);
    let mut books = vec![wild(&mut random, taste)];
    books.extend(SHIPPED.map(shipped));
    for book in books {
        let cells = book.cells();
        let pieces = Pieces::of(&book);
        for _ in 0..25 {
            let mut pieces = pieces.clone();
            disturb(&mut random, &book, &mut pieces);
            tally.compare(&cells, &pieces.certificate());
        }
    }
    tally.expect("Accepted Range Roads Transitions Sentences");
}

/// Rows with nothing but one claim, or any claims.
#[test]
fn claims_from_nowhere() {
    let mut random = Random::new(36);
    let mut tally = Tally::default();
    for _ in 0..4_000 {
        let book = small_book(&mut random);
        let mut pieces = Pieces::of(&book);
        let choices = match random.below(3) {
            0 => vec![random.pick(&[0, 1, LONG, UNREACHED])],
            1 => vec![0, 1, 2, UNREACHED],
            _ => vec![0, 1, 2, 3, 999, 1_000, LONG, UNREACHED],
        };
        let pairs = random.percent(30);
        if random.percent(70) {
            pieces.crossings.fill_with(|| random.pick(&choices));
        }
        if pairs {
            pieces.pairs.fill_with(|| random.pick(&choices));
            pieces.pairs[..book.terminals()].fill(0);
        }
        tally.compare(&book.cells(), &pieces.certificate());
    }
    tally.expect("Accepted Roads Transitions Short Sentences");
}

/// A row with some cells lost or added at its end.
fn some_row(random: &mut Random, row: &mut Vec<u16>) {
    let count = row.len();
    let count = match random.below(4) {
        0 => count.saturating_sub(1),
        1 => count + 1,
        2 => random.below(count + 1),
        _ => count + random.between(1, 9),
    };
    row.resize(count, random.pick(&[0, 1, UNREACHED, 65_535]));
}

#[test]
fn damaged_certificates() {
    let mut random = Random::new(37);
    let mut tally = Tally::default();
    for round in 0..20_000 {
        let book = match round % 20 {
            0 => medium_book(&mut random),
            _ => small_book(&mut random),
        };
        let mut cells = book.cells();
        let mut pieces = Pieces::of(&book);
        if random.percent(30) {
            disturb(&mut random, &book, &mut pieces);
        }
        if random.percent(10) {
            let any = random.below(pieces.sentences.len());
            pieces.sentences[any] = vec![1; random.pick(&[999, 1_000, 1_001, 1_300])];
        }
        let mut certificate = pieces.certificate();
        if random.percent(70) {
            certificate.sentences = damaged(&mut random, &certificate.sentences);
        }
        if random.percent(10) {
            some_row(&mut random, &mut certificate.crossings);
        }
        if random.percent(10) {
            some_row(&mut random, &mut certificate.pairs);
        }
        if random.percent(10) {
            cells = damaged_cells(&mut random, &book);
        }
        tally.compare(&cells, &certificate);
    }
    tally.expect("Accepted Range Roads Sentences");
    tally.expect("1 2 3 4 5 16 14 15 6 7 8");
}

/// A number of a sentence over 65,535 has the refusal of its place, also where its low 16 bits are in
/// range.
#[test]
fn wide_numbers_in_sentences() {
    let mut random = Random::new(41);
    let mut tally = Tally::default();
    for round in 0..5_000 {
        let book = match round % 20 {
            0 => medium_book(&mut random),
            _ => small_book(&mut random),
        };
        let mut certificate = Pieces::of(&book).certificate();
        let numbers = decoded(&certificate.sentences);
        certificate.sentences = encoded(&widened(&mut random, &numbers));
        let word = tally.compare(&book.cells(), &certificate);
        assert!(["7", "8"].contains(&&word[..]), "{word}");
    }
    tally.expect("7 8");
}

/// The comparison must notice a wrong verdict and a wrong place.
mod faults {
    use super::*;

    fn noticed(subject: Checker) {
        let book = shipped("bracket");
        let subject = Calls {
            check_certificate: subject,
            ..INDEPENDENT
        };
        let mut pieces = Pieces::of(&book);
        *pieces.claim(4) += 1;
        let bad = pieces.certificate();
        let compared = |calls| compare::check_certificate(calls, &book.cells(), &bad);
        assert_eq!(compared(&INDEPENDENT), Ok("Roads".to_string()));
        assert!(compared(&subject).is_err());
    }

    #[test]
    fn a_wrong_verdict_is_noticed() {
        noticed(|_, _, _, _| Ok(Verdict::Accepted));
        noticed(|_, _, _, _| Ok(fault(Condition::Transitions, 4)));
        noticed(|_, _, _, _| Ok(fault(Condition::Roads, 5)));
        noticed(|_, _, _, _| {
            Err(Refusal {
                number: 1,
                place: 0,
            })
        });
    }
}
