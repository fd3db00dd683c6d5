//! A desk for sixteen problems (document 02, 2.11).

use crate::builder::Problem;
use crate::calls::refusal;
use crate::raw;
use crate::solution::Error;
use crate::words::{Class, Refusal};

/// Bytes of memory that a desk is lent: 16 problems of 16,394.
pub const DESK_MEMORY: usize = raw::DESK_MEMORY;

/// What a step made.
#[derive(Clone, Copy, Debug, PartialEq, Eq)]
pub enum Step {
    /// No problem waits.
    NoneWaits,
    /// The problem with this ticket had its trial, and goes on waiting at the end of the line.
    GoesOn(u64),
    /// It had its trial, and is answered now.
    Done(u64),
}

/// What collecting gave.
#[derive(Clone, Copy, Debug, PartialEq, Eq)]
pub enum Collected {
    /// The ticket still waits.
    Waits,
    /// The answer's record stands at the buffer's start: its class, the trials that its problem had, and its size.
    Answer {
        /// The class.
        class: Class,
        /// The trials of its own.
        trials: u32,
        /// The size of the record, at most 208.
        size: usize,
    },
}

/// A desk, in memory of its own ([`Desk::new`]) or in lent memory ([`Desk::open`]). It keeps memory and state as each call left them, which is
/// all that the next call asks.
///
/// ```
/// let mut desk = span::Desk::new();
/// let ticket = desk.take_in(&[]).unwrap();
/// assert_eq!(ticket, 1);
/// let mut answer = [0; span::ANSWER_SIZE];
/// assert_eq!(desk.collect(ticket, &mut answer), Ok(span::Collected::Waits));
/// let mut steps = 1;
/// while desk.step() != span::Step::Done(ticket) {
///     steps += 1;
/// }
/// let Ok(span::Collected::Answer { trials, size, .. }) = desk.collect(ticket, &mut answer) else { panic!() };
/// assert_eq!(steps, trials);
/// assert_eq!(span::check(&[], &answer[..size]).unwrap().to_string(), "accepted least 0");
/// assert_eq!(desk.collect(ticket, &mut answer).unwrap_err().cause(), span::Cause::NoSuchTicket);
/// ```
pub struct Desk<'a> {
    memory: Memory<'a>,
    state: Vec<u64>,
}

/// Where the problems of a desk stand.
enum Memory<'a> {
    Own(Vec<u8>),
    Lent(&'a mut [u8]),
}

impl Memory<'_> {
    fn bytes(&mut self) -> &mut [u8] {
        match self {
            Memory::Own(bytes) => bytes,
            Memory::Lent(bytes) => bytes,
        }
    }
}

impl Default for Desk<'_> {
    fn default() -> Self {
        Desk::new()
    }
}

impl std::fmt::Debug for Desk<'_> {
    fn fmt(&self, out: &mut std::fmt::Formatter) -> std::fmt::Result {
        out.debug_struct("Desk").finish_non_exhaustive()
    }
}

impl<'a> Desk<'a> {
    /// A desk with nothing on it, in memory of its own.
    pub fn new() -> Desk<'a> {
        let (memory, mut state) = (vec![0; DESK_MEMORY], vec![0; raw::DESK_WORDS]);
        // Memory and words have the sizes that are asked for, so that nothing is refused.
        raw::desk_open(&memory, &mut state);
        Desk { memory: Memory::Own(memory), state }
    }

    /// A desk with nothing on it in lent memory, whatever that holds.
    ///
    /// # Errors
    ///
    /// Refusal 23: the memory is shorter than [`DESK_MEMORY`].
    pub fn open(memory: &'a mut [u8]) -> Result<Desk<'a>, Refusal> {
        let mut state = vec![0; raw::DESK_WORDS];
        refusal(raw::desk_open(memory, &mut state))?;
        Ok(Desk { memory: Memory::Lent(memory), state })
    }

    /// Takes in a problem of one question without suspended rules, and gives its ticket.
    ///
    /// # Errors
    ///
    /// The problem's fault; refusal 3, it has several questions or a suspended rule; 21, all places hold a problem, or the tickets are used up.
    pub fn take(&mut self, problem: &Problem) -> Result<u64, Error> {
        Ok(self.take_in(&problem.record()?)?)
    }

    /// Takes a problem of kind 1 in, or an idle day of no bytes, and gives its ticket.
    ///
    /// # Errors
    ///
    /// Refusals: the problem's, 1 to 6 and 17, then 21: all places hold a problem, or the tickets are used up.
    pub fn take_in(&mut self, problem: &[u8]) -> Result<u64, Refusal> {
        // SAFETY: memory and state are this desk's own, as the call before left them.
        refusal(unsafe { raw::desk_take(self.memory.bytes(), &mut self.state, problem) })?;
        Ok(self.state[raw::DESK_TICKET])
    }

    /// Makes one trial for the problem at the head of the line.
    pub fn step(&mut self) -> Step {
        // SAFETY: memory and state are this desk's own, as the call before left them.
        match unsafe { raw::desk_step(self.memory.bytes(), &mut self.state) } {
            0 => Step::NoneWaits,
            256 => Step::GoesOn(self.state[raw::DESK_TICKET]),
            512 => Step::Done(self.state[raw::DESK_TICKET]),
            other => unreachable!("the library gave {other}"),
        }
    }

    /// Hands over the answer of a ticket; its place is free again.
    ///
    /// # Errors
    ///
    /// Refusal 22, no such ticket is held; 7, the buffer is shorter than 208 bytes, after which the answer can still be collected.
    pub fn collect(&mut self, ticket: u64, buffer: &mut [u8]) -> Result<Collected, Refusal> {
        // SAFETY: memory and state are this desk's own, as the call before left them.
        let result = unsafe { raw::desk_collect(self.memory.bytes(), &mut self.state, ticket, buffer) };
        refusal(result)?;
        if result == 0 {
            return Ok(Collected::Waits);
        }
        let class = Class::of(result >> 8 & 255);
        let length = u32::from_le_bytes([buffer[0], buffer[1], buffer[2], buffer[3]]);
        Ok(Collected::Answer { class, trials: (result >> 16) as u32, size: length as usize + 4 })
    }
}
