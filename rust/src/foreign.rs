//! The functions of the static library, and the only unsafe code.
//!
//! Each function here lends its slices for the length of one call and hands back the eight numbers
//! of the answer: the kind, then its values.

pub(crate) type Answer = [u64; 8];

extern "C" {
    fn purlquartz_read(
        bytes: *const u8,
        byte_count: usize,
        cells: *mut u16,
        cell_count: usize,
        answer: *mut u64,
    );
    fn purlquartz_check(cells: *const u16, cell_count: usize, answer: *mut u64);
    fn purlquartz_to_form_1(
        cells: *const u16,
        cell_count: usize,
        lent: *mut u16,
        lent_count: usize,
        answer: *mut u64,
    );
    fn purlquartz_to_form_2(
        cells: *const u16,
        cell_count: usize,
        lent: *mut u16,
        lent_count: usize,
        answer: *mut u64,
    );
    fn purlquartz_write(
        cells: *const u16,
        cell_count: usize,
        bytes: *mut u8,
        byte_count: usize,
        answer: *mut u64,
    );
    fn purlquartz_run(
        cells: *const u16,
        cell_count: usize,
        sentence: *const u8,
        sentence_count: usize,
        lookahead: u16,
        stack: *mut u16,
        stack_count: usize,
        answer: *mut u64,
    );
    fn purlquartz_find(
        cells: *const u16,
        cell_count: usize,
        state: u16,
        lookahead: u16,
        work: *mut u16,
        work_count: usize,
        buffer: *mut u8,
        buffer_count: usize,
        answer: *mut u64,
    );
    fn purlquartz_find_break(
        cells: *const u16,
        cell_count: usize,
        state: u16,
        lookahead: u16,
        work: *mut u16,
        work_count: usize,
        buffer: *mut u8,
        buffer_count: usize,
        answer: *mut u64,
    );
    fn purlquartz_map(
        cells: *const u16,
        cell_count: usize,
        work: *mut u16,
        work_count: usize,
        map: *mut u16,
        map_count: usize,
        answer: *mut u64,
    );
    fn purlquartz_sets(
        cells: *const u16,
        cell_count: usize,
        work: *mut u16,
        work_count: usize,
        sets: *mut u32,
        set_count: usize,
        sizes: *mut u32,
        size_count: usize,
        answer: *mut u64,
    );
    fn purlquartz_check_list(
        cells: *const u16,
        cell_count: usize,
        list: *const u8,
        list_count: usize,
        answer: *mut u64,
    );
    fn purlquartz_entry(
        cells: *const u16,
        cell_count: usize,
        list: *const u8,
        list_count: usize,
        index: usize,
        answer: *mut u64,
    );
    fn purlquartz_next_entry(
        list: *const u8,
        list_count: usize,
        offset: usize,
        left: usize,
        answer: *mut u64,
    );
    fn purlquartz_judge(
        cells: *const u16,
        cell_count: usize,
        list: *const u8,
        list_count: usize,
        work: *mut u16,
        work_count: usize,
        stack: *mut u16,
        stack_count: usize,
        answer: *mut u64,
    );
    fn purlquartz_sort_list(
        cells: *const u16,
        cell_count: usize,
        list: *const u8,
        list_count: usize,
        bytes: *mut u8,
        byte_count: usize,
        answer: *mut u64,
    );
    fn purlquartz_join_lists(
        cells: *const u16,
        cell_count: usize,
        first: *const u8,
        first_count: usize,
        second: *const u8,
        second_count: usize,
        bytes: *mut u8,
        byte_count: usize,
        answer: *mut u64,
    );
    fn purlquartz_check_certificate(
        cells: *const u16,
        cell_count: usize,
        crossings: *const u16,
        crossing_count: usize,
        pairs: *const u16,
        pair_count: usize,
        sentences: *const u8,
        sentence_count: usize,
        answer: *mut u64,
    );
}

// Every call below is sound for the same reason: a slice's pointer is not null and good for its
// count, a lent slice is borrowed mutably and so overlaps nothing else, and the answer has eight
// numbers. The library keeps no pointer after it returns.

pub(crate) fn read(bytes: &[u8], cells: &mut [u16]) -> Answer {
    let mut answer = [0; 8];
    unsafe {
        purlquartz_read(
            bytes.as_ptr(),
            bytes.len(),
            cells.as_mut_ptr(),
            cells.len(),
            answer.as_mut_ptr(),
        )
    }
    answer
}

pub(crate) fn check(cells: &[u16]) -> Answer {
    let mut answer = [0; 8];
    unsafe { purlquartz_check(cells.as_ptr(), cells.len(), answer.as_mut_ptr()) }
    answer
}

pub(crate) fn to_form_1(cells: &[u16], lent: &mut [u16]) -> Answer {
    converted(purlquartz_to_form_1, cells, lent)
}

pub(crate) fn to_form_2(cells: &[u16], lent: &mut [u16]) -> Answer {
    converted(purlquartz_to_form_2, cells, lent)
}

type Converter = unsafe extern "C" fn(*const u16, usize, *mut u16, usize, *mut u64);

fn converted(converter: Converter, cells: &[u16], lent: &mut [u16]) -> Answer {
    let mut answer = [0; 8];
    unsafe {
        converter(
            cells.as_ptr(),
            cells.len(),
            lent.as_mut_ptr(),
            lent.len(),
            answer.as_mut_ptr(),
        )
    }
    answer
}

pub(crate) fn write(cells: &[u16], bytes: &mut [u8]) -> Answer {
    let mut answer = [0; 8];
    unsafe {
        purlquartz_write(
            cells.as_ptr(),
            cells.len(),
            bytes.as_mut_ptr(),
            bytes.len(),
            answer.as_mut_ptr(),
        )
    }
    answer
}

pub(crate) fn run(cells: &[u16], sentence: &[u8], lookahead: u16, stack: &mut [u16]) -> Answer {
    let mut answer = [0; 8];
    unsafe {
        purlquartz_run(
            cells.as_ptr(),
            cells.len(),
            sentence.as_ptr(),
            sentence.len(),
            lookahead,
            stack.as_mut_ptr(),
            stack.len(),
            answer.as_mut_ptr(),
        )
    }
    answer
}

pub(crate) fn find(
    cells: &[u16],
    state: u16,
    lookahead: u16,
    work: &mut [u16],
    buffer: &mut [u8],
) -> Answer {
    found(purlquartz_find, cells, (state, lookahead), work, buffer)
}

pub(crate) fn find_break(
    cells: &[u16],
    state: u16,
    lookahead: u16,
    work: &mut [u16],
    buffer: &mut [u8],
) -> Answer {
    let pair = (state, lookahead);
    found(purlquartz_find_break, cells, pair, work, buffer)
}

type Finder =
    unsafe extern "C" fn(*const u16, usize, u16, u16, *mut u16, usize, *mut u8, usize, *mut u64);

fn found(
    finder: Finder,
    cells: &[u16],
    (state, lookahead): (u16, u16),
    work: &mut [u16],
    buffer: &mut [u8],
) -> Answer {
    let mut answer = [0; 8];
    unsafe {
        finder(
            cells.as_ptr(),
            cells.len(),
            state,
            lookahead,
            work.as_mut_ptr(),
            work.len(),
            buffer.as_mut_ptr(),
            buffer.len(),
            answer.as_mut_ptr(),
        )
    }
    answer
}

pub(crate) fn map(cells: &[u16], work: &mut [u16], map: &mut [u16]) -> Answer {
    let mut answer = [0; 8];
    unsafe {
        purlquartz_map(
            cells.as_ptr(),
            cells.len(),
            work.as_mut_ptr(),
            work.len(),
            map.as_mut_ptr(),
            map.len(),
            answer.as_mut_ptr(),
        )
    }
    answer
}

pub(crate) fn sets(cells: &[u16], work: &mut [u16], sets: &mut [u32], sizes: &mut [u32]) -> Answer {
    let mut answer = [0; 8];
    unsafe {
        purlquartz_sets(
            cells.as_ptr(),
            cells.len(),
            work.as_mut_ptr(),
            work.len(),
            sets.as_mut_ptr(),
            sets.len(),
            sizes.as_mut_ptr(),
            sizes.len(),
            answer.as_mut_ptr(),
        )
    }
    answer
}

pub(crate) fn check_list(cells: &[u16], list: &[u8]) -> Answer {
    let mut answer = [0; 8];
    unsafe {
        purlquartz_check_list(
            cells.as_ptr(),
            cells.len(),
            list.as_ptr(),
            list.len(),
            answer.as_mut_ptr(),
        )
    }
    answer
}

pub(crate) fn entry(cells: &[u16], list: &[u8], index: usize) -> Answer {
    let mut answer = [0; 8];
    unsafe {
        purlquartz_entry(
            cells.as_ptr(),
            cells.len(),
            list.as_ptr(),
            list.len(),
            index,
            answer.as_mut_ptr(),
        )
    }
    answer
}

pub(crate) fn next_entry(list: &[u8], offset: usize, left: usize) -> Answer {
    let mut answer = [0; 8];
    unsafe { purlquartz_next_entry(list.as_ptr(), list.len(), offset, left, answer.as_mut_ptr()) }
    answer
}

pub(crate) fn judge(cells: &[u16], list: &[u8], work: &mut [u16], stack: &mut [u16]) -> Answer {
    let mut answer = [0; 8];
    unsafe {
        purlquartz_judge(
            cells.as_ptr(),
            cells.len(),
            list.as_ptr(),
            list.len(),
            work.as_mut_ptr(),
            work.len(),
            stack.as_mut_ptr(),
            stack.len(),
            answer.as_mut_ptr(),
        )
    }
    answer
}

pub(crate) fn sort_list(cells: &[u16], list: &[u8], bytes: &mut [u8]) -> Answer {
    let mut answer = [0; 8];
    unsafe {
        purlquartz_sort_list(
            cells.as_ptr(),
            cells.len(),
            list.as_ptr(),
            list.len(),
            bytes.as_mut_ptr(),
            bytes.len(),
            answer.as_mut_ptr(),
        )
    }
    answer
}

pub(crate) fn join_lists(cells: &[u16], first: &[u8], second: &[u8], bytes: &mut [u8]) -> Answer {
    let mut answer = [0; 8];
    unsafe {
        purlquartz_join_lists(
            cells.as_ptr(),
            cells.len(),
            first.as_ptr(),
            first.len(),
            second.as_ptr(),
            second.len(),
            bytes.as_mut_ptr(),
            bytes.len(),
            answer.as_mut_ptr(),
        )
    }
    answer
}

pub(crate) fn check_certificate(
    cells: &[u16],
    crossings: &[u16],
    pairs: &[u16],
    sentences: &[u8],
) -> Answer {
    let mut answer = [0; 8];
    unsafe {
        purlquartz_check_certificate(
            cells.as_ptr(),
            cells.len(),
            crossings.as_ptr(),
            crossings.len(),
            pairs.as_ptr(),
            pairs.len(),
            sentences.as_ptr(),
            sentences.len(),
            answer.as_mut_ptr(),
        )
    }
    answer
}
