//! The functions of `capi/span.h` over slices, with their results as the header describes them.
//!
//! This is the only file with `unsafe`. The archive's functions take every string of bytes and every number; what
//! they ask is that buffers do not overlap, which Rust's borrows ensure here.

/// Places that the reader is lent for stamps.
pub const STAMPS: usize = 32;
/// Places that the reader is lent for picks.
pub const PICKS: usize = 64;
/// Places that a census is lent for its counts.
pub const COUNTS: usize = 4;
/// Bytes of memory that a desk is lent: 16 problems of 16,394.
pub const DESK_MEMORY: usize = 262_304;
/// Words that a desk is lent for its state.
pub const DESK_WORDS: usize = 692;
/// The word of a desk's state in which the ticket stands that a call tells.
pub const DESK_TICKET: usize = 3;

mod archive {
    extern "C" {
        pub fn span_version() -> u64;
        pub fn span_solve(problem: *const u8, problem_size: usize, answers: *mut u8, answers_size: usize) -> u64;
        pub fn span_check(problem: *const u8, problem_size: usize, answer: *const u8, answer_size: usize) -> u64;
        pub fn span_read(
            record: *const u8,
            record_size: usize,
            n: u64,
            m: u64,
            stamps: *mut u64,
            stamps_count: usize,
            picks: *mut u64,
            picks_count: usize,
        ) -> u64;
        pub fn span_write(
            class: u64,
            span: u64,
            start: u64,
            stamps: *const u64,
            stamps_count: usize,
            picks: *const u64,
            picks_count: usize,
            n: u64,
            m: u64,
            buffer: *mut u8,
            buffer_size: usize,
        ) -> u64;
        pub fn span_reasons(
            problem: *const u8,
            problem_size: usize,
            answer: *const u8,
            answer_size: usize,
            rules: *mut u64,
            rules_count: usize,
            round: *mut u64,
            round_count: usize,
        ) -> u64;
        pub fn span_convert(stored: *const u8, stored_size: usize, buffer: *mut u8, buffer_size: usize) -> u64;
        pub fn span_merge(
            problem: *const u8,
            problem_size: usize,
            first: *const u8,
            first_size: usize,
            second: *const u8,
            second_size: usize,
            shift: i64,
            buffer: *mut u8,
            buffer_size: usize,
        ) -> u64;
        pub fn span_first_open(week: *const u64, week_count: usize, minute: u64) -> u64;
        pub fn span_hours_read(text: *const u8, text_size: usize) -> u64;
        pub fn span_hours_write(value: u64, buffer: *mut u8, buffer_size: usize) -> u64;
        pub fn span_marks_differ(
            before: *const u8,
            before_size: usize,
            after: *const u8,
            after_size: usize,
            count: u64,
        ) -> u64;
        pub fn span_census(n: u64, m: u64, w: u64, counts: *mut u64, counts_count: usize) -> u64;
        pub fn span_desk_open(memory: *const u8, memory_size: usize, state: *mut u64, state_count: usize) -> u64;
        pub fn span_desk_take(
            memory: *mut u8,
            memory_size: usize,
            state: *mut u64,
            state_count: usize,
            problem: *const u8,
            problem_size: usize,
        ) -> u64;
        pub fn span_desk_step(memory: *const u8, memory_size: usize, state: *mut u64, state_count: usize) -> u64;
        pub fn span_desk_collect(
            memory: *const u8,
            memory_size: usize,
            state: *mut u64,
            state_count: usize,
            ticket: u64,
            buffer: *mut u8,
            buffer_size: usize,
        ) -> u64;
    }
}

/// The release of the archive.
pub fn version() -> u64 {
    // SAFETY: it takes nothing and reads nothing.
    unsafe { archive::span_version() }
}

/// Answers a problem of kind 1 or 3, every question of it: 256 × the trials of all + refusal.
pub fn solve(problem: &[u8], answers: &mut [u8]) -> u64 {
    // SAFETY: both parts are valid for their lengths, and a `&mut` overlaps nothing.
    unsafe { archive::span_solve(problem.as_ptr(), problem.len(), answers.as_mut_ptr(), answers.len()) }
}

/// Judges an answer: the refusal, or 256 × class + 2³² × the span's offset number.
pub fn check(problem: &[u8], answer: &[u8]) -> u64 {
    // SAFETY: both parts are valid for their lengths and are only read.
    unsafe { archive::span_check(problem.as_ptr(), problem.len(), answer.as_ptr(), answer.len()) }
}

/// Reads an answer record: the refusal, 255 where fewer than [`STAMPS`] and [`PICKS`] places are lent, or
/// 256 × class + 2¹⁶ × start + 2³² × the span's offset number.
pub fn read(record: &[u8], n: u64, m: u64, stamps: &mut [u64], picks: &mut [u64]) -> u64 {
    // SAFETY: all parts are valid for their lengths, and each `&mut` overlaps nothing.
    unsafe {
        archive::span_read(
            record.as_ptr(),
            record.len(),
            n,
            m,
            stamps.as_mut_ptr(),
            stamps.len(),
            picks.as_mut_ptr(),
            picks.len(),
        )
    }
}

/// Writes an answer record: the refusal, or 256 × the record's size.
#[allow(clippy::too_many_arguments)]
pub fn write(
    class: u64,
    span: u64,
    start: u64,
    stamps: &[u64],
    picks: &[u64],
    n: u64,
    m: u64,
    buffer: &mut [u8],
) -> u64 {
    // SAFETY: all parts are valid for their lengths, and the `&mut` overlaps nothing.
    unsafe {
        archive::span_write(
            class,
            span,
            start,
            stamps.as_ptr(),
            stamps.len(),
            picks.as_ptr(),
            picks.len(),
            n,
            m,
            buffer.as_mut_ptr(),
            buffer.len(),
        )
    }
}

/// Names the rules behind an accepted answer and its binding round: the refusal, 255 where fewer than [`PICKS`] places for rules and
/// [`STAMPS`] for the round are lent, or 256 × the number of rules + 2¹⁶ × the number of the round's moments.
pub fn reasons(problem: &[u8], answer: &[u8], rules: &mut [u64], round: &mut [u64]) -> u64 {
    // SAFETY: all parts are valid for their lengths, and each `&mut` overlaps nothing.
    unsafe {
        archive::span_reasons(
            problem.as_ptr(),
            problem.len(),
            answer.as_ptr(),
            answer.len(),
            rules.as_mut_ptr(),
            rules.len(),
            round.as_mut_ptr(),
            round.len(),
        )
    }
}

/// Converts a stored problem: the refusal, or 256 × the size of the record written.
pub fn convert(stored: &[u8], buffer: &mut [u8]) -> u64 {
    // SAFETY: both parts are valid for their lengths, and a `&mut` overlaps nothing.
    unsafe { archive::span_convert(stored.as_ptr(), stored.len(), buffer.as_mut_ptr(), buffer.len()) }
}

/// Merges two plans, the second with a shift: the refusal, or 256 × the bytes of the merged stamps.
pub fn merge(problem: &[u8], first: &[u8], second: &[u8], shift: i64, buffer: &mut [u8]) -> u64 {
    // SAFETY: all parts are valid for their lengths, and the `&mut` overlaps nothing.
    unsafe {
        archive::span_merge(
            problem.as_ptr(),
            problem.len(),
            first.as_ptr(),
            first.len(),
            second.as_ptr(),
            second.len(),
            shift,
            buffer.as_mut_ptr(),
            buffer.len(),
        )
    }
}

/// The first open minute of a week list: the refusal, 0 for never, or 2³² × the minute's offset number.
pub fn first_open(week: &[u64], minute: u64) -> u64 {
    // SAFETY: the list is valid for its length and is only read.
    unsafe { archive::span_first_open(week.as_ptr(), week.len(), minute) }
}

/// Reads a text of hours and minutes: the refusal, or 2³² × the value's offset number.
pub fn hours_read(text: &[u8]) -> u64 {
    // SAFETY: the part is valid for its length and is only read.
    unsafe { archive::span_hours_read(text.as_ptr(), text.len()) }
}

/// Writes the text of a value, an offset number: the refusal, or 256 × the text's size.
pub fn hours_write(value: u64, buffer: &mut [u8]) -> u64 {
    // SAFETY: the part is valid for its length, and a `&mut` overlaps nothing.
    unsafe { archive::span_hours_write(value, buffer.as_mut_ptr(), buffer.len()) }
}

/// Whether two lists differ in some byte of their first `count`: 256 or 0, or 255 where a list is shorter.
pub fn marks_differ(before: &[u8], after: &[u8], count: u64) -> u64 {
    // SAFETY: both parts are valid for their lengths and are only read.
    unsafe { archive::span_marks_differ(before.as_ptr(), before.len(), after.as_ptr(), after.len(), count) }
}

/// A census of small problems: the refusal, 255 where fewer than [`COUNTS`] places are lent, or 0, with the counts of least, bottomless,
/// none and refused in the first places.
pub fn census(n: u64, m: u64, w: u64, counts: &mut [u64]) -> u64 {
    // SAFETY: the part is valid for its length, and a `&mut` overlaps nothing.
    unsafe { archive::span_census(n, m, w, counts.as_mut_ptr(), counts.len()) }
}

/// Opens a desk in lent memory and words, whatever they hold: the refusal, 255 where fewer than [`DESK_WORDS`] words are lent, or 0.
pub fn desk_open(memory: &[u8], state: &mut [u64]) -> u64 {
    // SAFETY: both parts are valid for their lengths, and a `&mut` overlaps nothing.
    unsafe { archive::span_desk_open(memory.as_ptr(), memory.len(), state.as_mut_ptr(), state.len()) }
}

/// Takes a problem in: the refusal, 255, or 0 with the ticket in word [`DESK_TICKET`].
///
/// # Safety
/// Where memory and words are enough, they are as the call before on this desk left them.
pub unsafe fn desk_take(memory: &mut [u8], state: &mut [u64], problem: &[u8]) -> u64 {
    // SAFETY: the parts are valid for their lengths, and a `&mut` overlaps nothing; the rest is the caller's.
    unsafe {
        archive::span_desk_take(
            memory.as_mut_ptr(),
            memory.len(),
            state.as_mut_ptr(),
            state.len(),
            problem.as_ptr(),
            problem.len(),
        )
    }
}

/// Makes one trial for the problem at the head of the line: the refusal, 255, 0 where none waits, 256 where the ticket in word
/// [`DESK_TICKET`] goes on waiting, 512 where it is answered now.
///
/// # Safety
/// As [`desk_take`].
pub unsafe fn desk_step(memory: &[u8], state: &mut [u64]) -> u64 {
    // SAFETY: the parts are valid for their lengths, and a `&mut` overlaps nothing; the rest is the caller's.
    unsafe { archive::span_desk_step(memory.as_ptr(), memory.len(), state.as_mut_ptr(), state.len()) }
}

/// Collects the answer of a ticket: the refusal, 255, 0 where it still waits, or 256 × class + 65,536 × own trials, with the record at the
/// buffer's start.
///
/// # Safety
/// As [`desk_take`].
pub unsafe fn desk_collect(memory: &[u8], state: &mut [u64], ticket: u64, buffer: &mut [u8]) -> u64 {
    // SAFETY: the parts are valid for their lengths, and a `&mut` overlaps nothing; the rest is the caller's.
    unsafe {
        archive::span_desk_collect(
            memory.as_ptr(),
            memory.len(),
            state.as_mut_ptr(),
            state.len(),
            ticket,
            buffer.as_mut_ptr(),
            buffer.len(),
        )
    }
}
