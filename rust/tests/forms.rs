//! What the forms and the ranks of a book change and what they leave, on random books. Each is
//! asked of the library and of the independent implementation.

#[macro_use]
mod both;
#[allow(dead_code)]
#[path = "../examples/make_book/grammar.rs"]
mod grammar;
mod independent;
#[allow(dead_code)]
#[path = "../examples/make_book/lalr.rs"]
mod lalr;
mod random;

use both::Calls;
use purlquartz::*;
use random::books::{small_book, tied_book};
use random::lists::{damaged_list, encode_list, failing_lines, lines, two_lists, Line};
use random::ranks::unranked;
use random::Random;

on_both! {
    to_form_2_and_back
    both_forms_answer_alike
    ranks_only_choose_the_sentence
}

const BOOKS: usize = 2_000;

fn converted(calls: &Calls, form: u16, cells: &[u16]) -> Vec<u16> {
    let mut lent = vec![0; MOST_CELLS];
    let count = calls.to_form(form)(cells, &mut lent).expect("no refusal");
    lent.truncate(count);
    lent
}

/// Sentences to run; lists of them to read and judge, one as a rule refused; and lists to join.
struct Questions {
    lines: Vec<Line>,
    lists: [Vec<u8>; 2],
    joined: [[Vec<u8>; 2]; 2],
}

impl Questions {
    fn new(random: &mut Random, book: &independent::book::Book) -> Questions {
        let lines = lines(random, book);
        let bad = damaged_list(random, &lines, book.sizes.terminals);
        let failing = failing_lines(random, book);
        let [first, second] = two_lists(random, book, &failing).map(|lines| encode_list(&lines));
        Questions {
            joined: [[first.clone(), second], [first, bad.clone()]],
            lists: [encode_list(&lines), bad],
            lines,
        }
    }
}

/// What the calls answer, and leave in the lent memory, where ranks do not count.
#[derive(Debug, PartialEq)]
struct Answers {
    map: Vec<u16>,
    sets: Vec<u32>,
    set_sizes: Vec<u32>,
    /// Each with the stack.
    runs: Vec<(Result<Ending, Refusal>, Vec<u16>)>,
    lists: Vec<ListAnswers>,
    /// Each with the bytes written.
    joined: [(Result<Joined, JoinRefusal>, Vec<u8>); 2],
}

#[derive(Debug, PartialEq)]
struct ListAnswers {
    rest: Result<Rest, Refusal>,
    entries: Result<Vec<Entry>, Refusal>,
    second: Result<Option<Entry>, Refusal>,
    judgement: Result<Judgement, Refusal>,
    /// With the bytes written.
    sorted: (Result<Sorted, Refusal>, Vec<u8>),
}

fn answers(calls: &Calls, cells: &[u16], questions: &Questions) -> Answers {
    let sizes = (calls.check)(cells).expect("a good book");
    let mut work = vec![0; sizes.work_cells()];
    let mut map = vec![0; sizes.map_cells()];
    let mut sets = vec![0; sizes.states.into()];
    let mut set_sizes = sets.clone();
    (calls.map)(cells, &mut work, &mut map).expect("a map");
    (calls.sets)(cells, &mut work, &mut sets, &mut set_sizes).expect("sets");
    let runs = questions.lines.iter().map(|line| {
        let mut stack = vec![0; STACK_CELLS];
        let ending = (calls.run)(cells, &line.sentence, line.lookahead, &mut stack);
        (ending, stack)
    });
    let lists = questions.lists.iter().map(|list| ListAnswers {
        rest: (calls.check_list)(cells, list),
        entries: (calls.entries)(cells, list),
        second: (calls.entry)(cells, list, 1),
        judgement: (calls.judge)(cells, list, &mut work, &mut [0; STACK_CELLS]),
        sorted: sorted(calls, cells, list),
    });
    Answers {
        map,
        sets,
        set_sizes,
        runs: runs.collect(),
        lists: lists.collect(),
        joined: questions.joined.each_ref().map(|[first, second]| {
            let mut bytes = vec![0; first.len() + second.len()];
            let answer = (calls.join_lists)(cells, first, second, &mut bytes);
            (answer, bytes)
        }),
    }
}

fn sorted(calls: &Calls, cells: &[u16], list: &[u8]) -> (Result<Sorted, Refusal>, Vec<u8>) {
    let mut bytes = vec![0; list.len()];
    let answer = (calls.sort_list)(cells, list, &mut bytes);
    (answer, bytes)
}

/// What the finders say of a pair and of its reduction, and both sentences.
#[derive(Debug, PartialEq)]
struct PairAnswers {
    found: Found,
    broken: Break,
    sentences: [Vec<u8>; 2],
}

/// The answers for all pairs, by state, then terminal.
fn find_all(calls: &Calls, cells: &[u16]) -> Vec<PairAnswers> {
    let sizes = (calls.check)(cells).expect("a good book");
    let mut answers = Vec::new();
    for state in 0..sizes.states {
        for lookahead in 0..sizes.terminals {
            answers.push(find_pair(calls, cells, sizes, (state, lookahead)));
        }
    }
    answers
}

fn find_pair(
    calls: &Calls,
    cells: &[u16],
    sizes: Sizes,
    (state, lookahead): (u16, u16),
) -> PairAnswers {
    let mut work = vec![0; sizes.work_cells()];
    let [mut reaching, mut breaking] = [(); 2].map(|()| vec![0; SENTENCE_BYTES]);
    let found = (calls.find)(cells, state, lookahead, &mut work, &mut reaching);
    let found = found.expect("an answer");
    reaching.truncate(match found {
        Found::Sentence(length) => length,
        Found::Unreached | Found::Long => 0,
    });
    let broken = (calls.find_break)(cells, state, lookahead, &mut work, &mut breaking);
    let broken = broken.expect("an answer");
    breaking.truncate(match broken {
        Break::Sentence(length) => length,
        Break::None | Break::Long => 0,
    });
    PairAnswers {
        found,
        broken,
        sentences: [reaching, breaking],
    }
}

fn to_form_2_and_back(calls: &Calls) {
    let mut random = Random::new(31);
    for _ in 0..BOOKS {
        let book = small_book(&mut random);
        let form_1 = unranked(&book).cells();
        let form_2 = converted(calls, 2, &form_1);
        assert_eq!(form_2.len(), form_1.len() + book.terminals());
        assert_eq!(converted(calls, 1, &form_2), form_1);
        assert_eq!(converted(calls, 1, &form_1), form_1);
        assert_eq!(converted(calls, 2, &form_2), form_2);
    }
}

fn both_forms_answer_alike(calls: &Calls) {
    let mut random = Random::new(32);
    for _ in 0..BOOKS {
        let book = unranked(&small_book(&mut random));
        let questions = Questions::new(&mut random, &book);
        let form_1 = book.cells();
        let form_2 = converted(calls, 2, &form_1);
        let sizes = (calls.check)(&form_1).expect("a good book");
        assert_eq!(sizes.form, 1);
        assert_eq!((calls.check)(&form_2), Ok(Sizes { form: 2, ..sizes }));
        let alike = answers(calls, &form_1, &questions);
        assert_eq!(answers(calls, &form_2, &questions), alike, "{book:?}");
        assert_eq!(find_all(calls, &form_2), find_all(calls, &form_1));
    }
}

/// Other ranks leave all answers but the sentences, which stay as long. Of the two sentences of a
/// pair, or of its reduction, each is the earlier one by its own ranks.
fn ranks_only_choose_the_sentence(calls: &Calls) {
    let mut random = Random::new(33);
    let mut others = [0; 2];
    for _ in 0..BOOKS {
        let by_rank = tied_book(&mut random);
        let by_number = unranked(&by_rank);
        let questions = Questions::new(&mut random, &by_rank);
        let (one, other) = (by_number.cells(), by_rank.cells());
        let alike = answers(calls, &one, &questions);
        assert_eq!(answers(calls, &other, &questions), alike, "{by_rank:?}");
        for (one, other) in find_all(calls, &one).iter().zip(find_all(calls, &other)) {
            assert_eq!((one.found, one.broken), (other.found, other.broken));
            for (kind, one) in one.sentences.iter().enumerate() {
                let other = &other.sentences[kind];
                assert!(!by_number.earlier(other, one), "{by_rank:?}");
                assert!(!by_rank.earlier(one, other), "{by_rank:?}");
                others[kind] += usize::from(one != other);
            }
        }
    }
    assert!(others[0] > 2_000 && others[1] > 200, "{others:?}");
}
