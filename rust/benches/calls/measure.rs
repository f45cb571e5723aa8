//! Times of single calls on one book.

use crate::both::{Calls, Finder};
use crate::independent::book::{Action, Book};
use crate::independent::calls::map_of;
use crate::random::ranks::unranked;
use purlquartz::certificate::{make, Certificate};
use purlquartz::{Break, Verdict, LONG, MOST_CELLS, SENTENCE_BYTES, STACK_CELLS, UNREACHED};
use std::hint::black_box;
use std::time::{Duration, Instant};

/// A short call is repeated for so long.
const REPEAT: Duration = Duration::from_millis(200);
/// A long call is made so many times.
const BATCHES: usize = 3;
/// A batch of calls takes about so long.
const BATCH: Duration = Duration::from_micros(100);
/// The calls for all pairs of a kind may take so long before the rest is left out.
const PATIENCE: Duration = Duration::from_secs(20);

#[derive(Clone, Copy, Default)]
pub struct Time {
    pub seconds: f64,
    /// Scaled up from a sample.
    pub sampled: bool,
}

/// The least time of one call, so that other work on the machine counts little. Very short calls
/// are timed by the batch.
fn timed(mut call: impl FnMut()) -> Time {
    let start = Instant::now();
    call();
    let first = start.elapsed();
    let batch = (BATCH.as_nanos() / first.as_nanos().max(1)).max(1) as u32;
    let mut least = first;
    let mut batches = 1;
    while start.elapsed() < REPEAT || batches < BATCHES {
        batches += 1;
        let batch_start = Instant::now();
        for _ in 0..batch {
            call();
        }
        least = least.min(batch_start.elapsed() / batch);
    }
    Time {
        seconds: least.as_secs_f64(),
        sampled: false,
    }
}

pub type Pair = (u16, u16);

pub struct Subject<'a> {
    calls: &'a Calls,
    cells: Vec<u16>,
    /// In form 1 and in form 2, its ranks forgotten.
    unranked: [Vec<u16>; 2],
    map: Vec<u16>,
    work_cells: usize,
    /// The reached pairs whose action is error.
    pub errors: Vec<Pair>,
    /// The pairs whose action is reduce.
    pub reductions: Vec<Pair>,
}

impl<'a> Subject<'a> {
    pub fn new(calls: &'a Calls, book: &Book) -> Subject<'a> {
        let map = map_of(book);
        let mut errors = Vec::new();
        let mut reductions = Vec::new();
        for (at, &length) in map.iter().enumerate() {
            let (state, terminal) = (at / book.terminals(), at % book.terminals());
            let pair = (state as u16, terminal as u16);
            match book.action(state, terminal) {
                Action::Error if length != UNREACHED => errors.push(pair),
                Action::Reduce(_) => reductions.push(pair),
                _ => {}
            }
        }
        Subject {
            calls,
            cells: book.cells(),
            unranked: [1, 2].map(|form| unranked(book).in_form(form).cells()),
            work_cells: book.sizes.work_cells(),
            errors,
            reductions,
            map,
        }
    }

    /// The reached error pair with the longest sentence; (0, 0) if there is none.
    pub fn farthest_error(&self) -> Pair {
        let terminals = usize::from(self.cells[1]);
        let length = |&(state, terminal): &Pair| {
            self.map[usize::from(state) * terminals + usize::from(terminal)]
        };
        let told = self.errors.iter().filter(|pair| length(pair) < LONG);
        told.max_by_key(|pair| length(pair))
            .copied()
            .unwrap_or((0, 0))
    }

    /// The pairs whose reduction breaks, each with the length of its sentence, or none if long.
    pub fn breaks(&self) -> Vec<(Pair, Option<usize>)> {
        let mut work = vec![0; self.work_cells];
        let mut buffer = [0; SENTENCE_BYTES];
        let mut breaks = Vec::new();
        for &(state, lookahead) in &self.reductions {
            let call = self.calls.find_break;
            let broken = call(&self.cells, state, lookahead, &mut work, &mut buffer);
            match broken.expect("an answer") {
                Break::None => {}
                Break::Long => breaks.push(((state, lookahead), None)),
                Break::Sentence(length) => breaks.push(((state, lookahead), Some(length))),
            }
        }
        breaks
    }

    pub fn check(&self) -> Time {
        timed(|| {
            black_box((self.calls.check)(&self.cells)).expect("a good book");
        })
    }

    /// The converter to form 1 or 2, of the other form.
    pub fn to_form(&self, form: u16) -> Time {
        let [form_1, form_2] = &self.unranked;
        let (given, wanted) = match form {
            1 => (form_2, form_1),
            _ => (form_1, form_2),
        };
        let mut lent = vec![0; MOST_CELLS];
        let time = timed(|| {
            black_box(self.calls.to_form(form)(given, &mut lent)).expect("a book");
        });
        assert_eq!(lent[..wanted.len()], wanted[..], "a wrong book has no time");
        time
    }

    pub fn map(&self) -> Time {
        let mut work = vec![0; self.work_cells];
        let mut map = vec![0; self.map.len()];
        let time = timed(|| {
            black_box((self.calls.map)(&self.cells, &mut work, &mut map)).expect("a map");
        });
        assert_eq!(map, self.map, "a wrong map has no time");
        time
    }

    pub fn find(&self, pair: Pair) -> Time {
        let mut find = self.finder(self.calls.find);
        timed(|| find(pair))
    }

    pub fn find_break(&self, pair: Pair) -> Time {
        let mut find_break = self.finder(self.calls.find_break);
        timed(|| find_break(pair))
    }

    /// One call for each reached error pair.
    pub fn find_errors(&self) -> Time {
        timed_each(&self.errors, self.finder(self.calls.find))
    }

    /// One call for each reduction.
    pub fn find_breaks(&self) -> Time {
        timed_each(&self.reductions, self.finder(self.calls.find_break))
    }

    /// Asks a finder for a pair.
    fn finder<A: 'static>(&self, finder: Finder<A>) -> impl FnMut(Pair) + '_ {
        let mut work = vec![0; self.work_cells];
        let mut buffer = [0; SENTENCE_BYTES];
        move |(state, lookahead)| {
            let found = finder(&self.cells, state, lookahead, &mut work, &mut buffer);
            assert!(black_box(found).is_ok(), "a refusal has no time");
        }
    }

    pub fn judge(&self, list: &[u8]) -> Time {
        let mut work = vec![0; self.work_cells];
        let mut stack = [0; STACK_CELLS];
        timed(|| {
            let judged = (self.calls.judge)(&self.cells, list, &mut work, &mut stack);
            black_box(judged).expect("a judgement");
        })
    }

    pub fn sort_list(&self, list: &[u8], sorted: &[u8]) -> Time {
        let mut bytes = vec![0; sorted.len()];
        let time = timed(|| {
            let answer = (self.calls.sort_list)(&self.cells, list, &mut bytes);
            black_box(answer).expect("a list");
        });
        assert_eq!(bytes, sorted, "a wrong list has no time");
        time
    }

    pub fn join_lists(&self, [first, second]: [&Vec<u8>; 2], joined: &[u8]) -> Time {
        let mut bytes = vec![0; joined.len()];
        let time = timed(|| {
            let answer = (self.calls.join_lists)(&self.cells, first, second, &mut bytes);
            black_box(answer).expect("a list");
        });
        assert_eq!(bytes, joined, "a wrong list has no time");
        time
    }

    pub fn certificate(&self) -> Certificate {
        make(&self.cells).expect("a certificate")
    }

    pub fn make_certificate(&self) -> Time {
        timed(|| {
            black_box(self.certificate());
        })
    }

    pub fn check_certificate(&self, certificate: &Certificate) -> Time {
        let Certificate {
            crossings,
            pairs,
            sentences,
        } = certificate;
        timed(|| {
            let verdict = (self.calls.check_certificate)(&self.cells, crossings, pairs, sentences);
            assert_eq!(
                black_box(verdict),
                Ok(Verdict::Accepted),
                "a wrong one has no time"
            );
        })
    }
}

/// One call for each pair. Pairs are taken in strides, so that what fits into the time is spread
/// over all states.
fn timed_each(pairs: &[Pair], mut call: impl FnMut(Pair)) -> Time {
    let count = pairs.len();
    let stride = (1..).map(|step| count * 5 / 8 + step);
    let stride = stride
        .take(count)
        .find(|&stride| coprime(stride, count))
        .unwrap_or(1);
    let start = Instant::now();
    let mut done = 0;
    while done < count && start.elapsed() < PATIENCE {
        call(pairs[done * stride % count]);
        done += 1;
    }
    let scale = count as f64 / done.max(1) as f64;
    Time {
        seconds: start.elapsed().as_secs_f64() * scale,
        sampled: done < count,
    }
}

fn coprime(one: usize, other: usize) -> bool {
    match other {
        0 => one == 1,
        _ => coprime(other, one % other),
    }
}

/// A time with three digits, or so.
pub fn shown(time: Time) -> String {
    let mark = if time.sampled { "≈ " } else { "" };
    let units = [("s", 1.0), ("ms", 1e-3), ("µs", 1e-6), ("ns", 1e-9)];
    let fits = |&&(_, size): &&(&str, f64)| time.seconds >= size;
    let (unit, size) = units.iter().find(fits).unwrap_or(&units[3]);
    let value = time.seconds / size;
    let digits = if value < 10.0 { 1 } else { 0 };
    format!("{mark}{value:.digits$} {unit}")
}

pub fn ratio(library: Time, independent: Time) -> String {
    let ratio = library.seconds / independent.seconds;
    let digits = if ratio < 10.0 { 2 } else { 0 };
    format!("{ratio:.digits$}")
}
