//! A desk for sixteen problems (document 02, 2.11): random sequences of calls against a plain model of the paper, every answer judged.

use super::bytes::harmed;
use super::{checked, outcome_of};
use crate::generate::{any, any_questions, free, kept, Shape};
use crate::paper::{self, Outcome, BUFFER};
use crate::tally::Tally;
use random::Random;
use span::raw::{self, DESK_MEMORY, DESK_TICKET, DESK_WORDS};
use std::collections::{BTreeMap, VecDeque};

const PLACES: usize = 16;

/// A problem on the desk.
#[derive(Clone)]
struct Held {
    ticket: u64,
    problem: Vec<u8>,
    outcome: Outcome,
    /// The trials that its class and span ask for, and those that it had.
    trials: u64,
    own: u64,
    /// The steps since it was taken in.
    steps: u64,
}

/// The paper's desk: tickets, the line by tickets, and what is held.
#[derive(Default)]
struct Model {
    given: u64,
    line: VecDeque<u64>,
    held: BTreeMap<u64, Held>,
}

/// The desk that is tried, with its memory and words; both are longer than asked for now and then.
struct Tried {
    memory: Vec<u8>,
    state: Vec<u64>,
}

impl Tried {
    fn new(random: &mut Random) -> Tried {
        let mut memory = vec![0; DESK_MEMORY + [0, 1, 4096][random.below(3)]];
        random.fill(&mut memory);
        let state = (0..DESK_WORDS + random.below(3)).map(|_| random.word()).collect();
        Tried { memory, state }
    }

    fn open(&mut self) -> u64 {
        raw::desk_open(&self.memory, &mut self.state)
    }

    // SAFETY of the three: memory and state are kept here as each call left them.
    fn take(&mut self, problem: &[u8]) -> u64 {
        unsafe { raw::desk_take(&mut self.memory, &mut self.state, problem) }
    }

    fn step(&mut self) -> u64 {
        unsafe { raw::desk_step(&self.memory, &mut self.state) }
    }

    fn collect(&mut self, ticket: u64, buffer: &mut [u8]) -> u64 {
        unsafe { raw::desk_collect(&self.memory, &mut self.state, ticket, buffer) }
    }

    fn told(&self) -> u64 {
        self.state[DESK_TICKET]
    }
}

/// Class and span of a good problem, by the engine's own call and the checker.
fn outcome(tally: &mut Tally, problem: &[u8]) -> Outcome {
    let mut buffer = [0; BUFFER];
    let solved = span::solve(problem, &mut buffer).expect("a good problem");
    let found = outcome_of(solved.outcome);
    tally.same("the engine alone", checked(problem, &buffer[..solved.size]), Ok(found), problem, &buffer);
    found
}

/// Problems of many kinds, good ones with their outcomes.
struct Stock {
    good: Vec<(Vec<u8>, Outcome)>,
    bad: Vec<(Vec<u8>, u64)>,
}

/// The refusal of a problem on a desk, which "knows no kind but 1": as in the checker, but kind 5 gets 3, once 1 and 2 do not apply.
fn refusal_on_desk(bytes: &[u8]) -> Option<u64> {
    let stated = bytes.len() >= 10 && bytes[4..6] == [5, 0];
    if stated && u32::from_le_bytes([bytes[0], bytes[1], bytes[2], bytes[3]]) as usize + 4 == bytes.len() {
        return Some(3);
    }
    paper::read_problem(bytes).err()
}

/// A record of kind 1 as one of kind 5, all of its rules in force.
fn with_states(bytes: &[u8]) -> Vec<u8> {
    let rules = u16::from_le_bytes([bytes[8], bytes[9]]);
    let mut stated = bytes[..10].to_vec();
    stated[4] = 5;
    stated.extend((0..rules).flat_map(|_| [1, 0]));
    stated.extend(&bytes[10..]);
    let length = stated.len() as u32 - 4;
    stated[..4].copy_from_slice(&length.to_le_bytes());
    stated
}

fn stock(tally: &mut Tally, random: &mut Random, count: usize) -> Stock {
    let mut good = vec![(Vec::new(), Outcome::Least(0))];
    while good.len() < count {
        let problem = match random.below(4) {
            0 => any(random, 3, 4),
            1 => any(random, 31, 63),
            2 => free(random, Shape { n: 2, m: 2, w: 3, filled: 7 }),
            _ => kept(random, Shape { n: 6, m: 9, w: 20_160, filled: 5 }),
        };
        let bytes = problem.bytes();
        if paper::read_problem(&bytes).is_ok() {
            let found = outcome(tally, &bytes);
            good.push((bytes, found));
        }
    }
    let mut bad = Vec::new();
    while bad.len() < count / 4 {
        let bytes = if random.chance(1, 4) {
            any_questions(random, 2, 2, 2).bytes()
        } else if random.chance(1, 8) {
            with_states(&any(random, 3, 3).bytes())
        } else {
            let bytes = any(random, 3, 3).bytes();
            harmed(random, &bytes)
        };
        if let Some(number) = refusal_on_desk(&bytes) {
            bad.push((bytes, number));
        }
    }
    Stock { good, bad }
}

struct Run<'a> {
    tally: &'a mut Tally,
    random: Random,
    desk: Tried,
    model: Model,
    stock: &'a Stock,
    collected: Vec<u64>,
}

impl Run<'_> {
    /// A call that must change neither memory nor state.
    fn still(&mut self, what: &str, call: impl FnOnce(&mut Tried) -> u64, expected: u64) {
        let (memory, state) = (self.desk.memory.clone(), self.desk.state.clone());
        let found = call(&mut self.desk);
        self.tally.same(what, found, expected, &[], &[]);
        self.tally.same("memory after a refusal", self.desk.memory == memory, true, &[], &[]);
        self.tally.same("state after a refusal", self.desk.state == state, true, &[], &[]);
        self.tally.count(what);
    }

    fn take(&mut self) {
        let pick = self.random.word() as usize;
        if self.random.chance(1, 6) {
            let (problem, number) = &self.stock.bad[pick % self.stock.bad.len()];
            return self.still("problems refused", |desk| desk.take(problem), *number);
        }
        let (problem, outcome) = &self.stock.good[pick % self.stock.good.len()];
        if self.model.held.len() == PLACES {
            return self.still("full desks", |desk| desk.take(problem), 21);
        }
        let found = self.desk.take(problem);
        self.tally.same("taking in", found, 0, problem, &[]);
        self.model.given += 1;
        let ticket = self.model.given;
        self.tally.same("the ticket", self.desk.told(), ticket, problem, &[]);
        self.model.line.push_back(ticket);
        let trials = paper::trials_for(*outcome);
        let held = Held { ticket, problem: problem.clone(), outcome: *outcome, trials, own: 0, steps: 0 };
        self.model.held.insert(ticket, held);
        self.tally.count("problems taken in");
    }

    fn step(&mut self) {
        let Some(ticket) = self.model.line.pop_front() else {
            return self.still("steps with none waiting", |desk| desk.step(), 0);
        };
        let found = self.desk.step();
        for waiting in self.model.line.iter().chain([&ticket]) {
            self.model.held.get_mut(waiting).expect("it is held").steps += 1;
        }
        let held = self.model.held.get_mut(&ticket).expect("it is held");
        held.own += 1;
        let problem = held.problem.clone();
        let done = held.own == held.trials;
        let (own, steps) = (held.own, held.steps);
        self.tally.same("a step", found, if done { 512 } else { 256 }, &problem, &[]);
        self.tally.same("whose trial it was", self.desk.told(), ticket, &problem, &[]);
        self.tally.same("own trials within 24", own <= 24, true, &problem, &[]);
        self.tally.same("steps within 384", steps <= 384, true, &problem, &[]);
        if done {
            self.tally.count("problems answered");
        } else {
            self.model.line.push_back(ticket);
        }
        self.tally.count("steps");
    }

    fn collect(&mut self) {
        let some: Vec<u64> = self.model.held.keys().copied().collect();
        let ticket = match self.random.below(8) {
            0 => self.random.word(),
            1 => self.collected.last().copied().unwrap_or(0),
            2 => self.model.given + 1,
            3 => 0,
            _ if some.is_empty() => 1 << 63,
            _ => some[self.random.below(some.len())],
        };
        let size = [BUFFER, BUFFER + 9, 207, 0][self.random.below(4)];
        let mut buffer = vec![0; size];
        self.random.fill(&mut buffer);
        let before = buffer.clone();
        let Some(held) = self.model.held.get(&ticket).cloned() else {
            self.still("tickets not held", |desk| desk.collect(ticket, &mut buffer), 22);
            return self.tally.same("the buffer after 22", buffer == before, true, &[], &buffer);
        };
        if held.own < held.trials {
            self.still("tickets that wait", |desk| desk.collect(ticket, &mut buffer), 0);
            return self.tally.same("the buffer of one that waits", buffer == before, true, &[], &buffer);
        }
        if size < BUFFER {
            self.still("short buffers", |desk| desk.collect(ticket, &mut buffer), 7);
            return self.tally.same("the buffer after 7", buffer == before, true, &[], &buffer);
        }
        let class = match held.outcome {
            Outcome::Least(_) => 1,
            Outcome::Bottomless => 2,
            Outcome::None => 3,
        };
        let found = self.desk.collect(ticket, &mut buffer);
        self.tally.same("a collected answer", found, 256 * class + 65_536 * held.trials, &held.problem, &buffer);
        let end = 4 + u32::from_le_bytes([buffer[0], buffer[1], buffer[2], buffer[3]]) as usize;
        self.tally.same(
            "the checker on it",
            checked(&held.problem, &buffer[..end]),
            Ok(held.outcome),
            &held.problem,
            &buffer[..end],
        );
        self.tally.same("bytes behind it", buffer[end..] == before[end..], true, &held.problem, &buffer);
        self.model.held.remove(&held.ticket);
        self.collected.push(ticket);
        self.tally.count("answers collected");
    }

    /// Memory and words that are too short, which are told before anything else.
    fn short(&mut self) {
        let (memory, state) = (self.desk.memory.clone(), self.desk.state.clone());
        let mut buffer = [0; BUFFER];
        let shorter = [0, 1, DESK_MEMORY - 1][self.random.below(3)];
        let fewer = [0, 1, DESK_WORDS - 1][self.random.below(3)];
        let problem = &self.stock.bad[0].0;
        // SAFETY: too short a memory or state is told without a premise.
        let found = unsafe {
            [
                raw::desk_open(&memory[..shorter], &mut self.desk.state),
                raw::desk_take(&mut self.desk.memory[..shorter], &mut self.desk.state, problem),
                raw::desk_step(&memory[..shorter], &mut self.desk.state[..fewer]),
                raw::desk_collect(&memory[..shorter], &mut self.desk.state, 1, &mut buffer),
                raw::desk_open(&memory, &mut self.desk.state[..fewer]),
                raw::desk_take(&mut self.desk.memory, &mut self.desk.state[..fewer], problem),
                raw::desk_step(&memory, &mut self.desk.state[..fewer]),
                raw::desk_collect(&memory, &mut self.desk.state[..fewer], 1, &mut buffer),
            ]
        };
        self.tally.same("short memory, few words", found, [23, 23, 23, 23, 255, 255, 255, 255], &[], &[]);
        self.tally.same("memory then", self.desk.memory == memory, true, &[], &[]);
        self.tally.same("state then", self.desk.state == state, true, &[], &[]);
        self.tally.same("the buffer then", buffer, [0; BUFFER], &[], &buffer);
        self.tally.count("short memories and states");
    }
}

/// Random sequences, each with its own leaning to taking in, stepping and collecting.
fn sequences(tally: &mut Tally, stock: &Stock, calls: usize) {
    let mut random = Random::new(211);
    tally.seed(211);
    let mut made = 0;
    while made < calls {
        let mut desk = Tried::new(&mut random);
        tally.same("opening", desk.open(), 0, &[], &[]);
        let taking = 1 + random.below(6);
        let collecting = 1 + random.below(4);
        let length = 1 + random.below(4000);
        let own = Random::new(random.word());
        let mut run = Run { tally, random: own, desk, model: Model::default(), stock, collected: Vec::new() };
        for _ in 0..length {
            match run.random.below(taking + collecting + 12) {
                0 if run.random.chance(1, 50) => run.short(),
                pick if pick < taking => run.take(),
                pick if pick < taking + collecting => run.collect(),
                _ => run.step(),
            }
        }
        made += length;
        tally.count("sequences");
    }
}

/// Sixteen of the problems that take most trials: each is answered at most 384 steps after it was taken in; short ones among them are first.
fn full_desks(tally: &mut Tally, stock: &Stock) {
    let mut random = Random::new(384);
    let most = |wanted: u64| {
        let mut found: Vec<_> =
            stock.good.iter().filter(|(_, outcome)| paper::trials_for(*outcome) == wanted).collect();
        found.truncate(PLACES);
        found
    };
    let slow = most(stock.good.iter().map(|(_, outcome)| paper::trials_for(*outcome)).max().unwrap_or(1));
    let trials = paper::trials_for(slow[0].1);
    tally.same("the most trials of a problem", trials, 24, &slow[0].0, &[]);
    let mut desk = Tried::new(&mut random);
    desk.open();
    for at in 0..PLACES {
        tally.same("slow problems", desk.take(&slow[at % slow.len()].0), 0, &slow[0].0, &[]);
    }
    let mut steps = 0;
    let mut order = Vec::new();
    while order.len() < PLACES {
        steps += 1;
        if desk.step() == 512 {
            order.push(desk.told());
        }
    }
    tally.same("steps of sixteen slow ones", steps, PLACES as u64 * trials, &[], &[]);
    tally.same("their order", order, (1..=PLACES as u64).collect(), &[], &[]);
    for (wanted, name) in [(1, "none"), (2, "bottomless")] {
        let Some((short, _)) = most(wanted).first().copied().cloned() else {
            continue;
        };
        let mut desk = Tried::new(&mut random);
        desk.open();
        for at in 0..PLACES - 1 {
            desk.take(&slow[at % slow.len()].0);
        }
        desk.take(&short);
        let mut steps = 0;
        while desk.step() != 512 {
            steps += 1;
        }
        tally.same("the short one first", desk.told(), PLACES as u64, &short, &[]);
        tally.same("its steps", steps + 1, PLACES as u64 * wanted, &short, &[]);
        tally.count(name);
    }
}

/// The last ticket, and 21 behind it.
fn last_ticket(tally: &mut Tally, stock: &Stock) {
    let mut random = Random::new(64);
    let mut desk = Tried::new(&mut random);
    desk.open();
    // The state after so many takings-in and collections that its first word, the last ticket given, is this.
    desk.state[0] = u64::MAX - 1;
    let problem = &stock.good[1].0;
    tally.same("the last ticket", (desk.take(problem), desk.told()), (0, u64::MAX), problem, &[]);
    tally.same("behind it", desk.take(problem), 21, problem, &[]);
    tally.same("a refused problem behind it", desk.take(&stock.bad[0].0), stock.bad[0].1, problem, &[]);
    while desk.step() != 512 {}
    let mut buffer = [0; BUFFER];
    tally.same("its answer", desk.collect(u64::MAX, &mut buffer) & 255, 0, problem, &buffer);
    tally.same("with a place free", desk.take(problem), 21, problem, &[]);
    tally.same("opened anew", (desk.open(), desk.take(problem), desk.told()), (0, 0, 1), problem, &[]);
}

/// A problem has the same class, span, trials and bytes alone as among others.
fn alone(tally: &mut Tally, stock: &Stock) {
    let mut random = Random::new(1);
    for (problem, _) in stock.good.iter().take(60) {
        let mut records = Vec::new();
        for others in [0, 15] {
            let mut desk = Tried::new(&mut random);
            desk.open();
            for other in 0..others {
                desk.take(&stock.good[other % stock.good.len()].0);
            }
            desk.take(problem);
            let ticket = desk.told();
            while desk.step() != 512 || desk.told() != ticket {}
            let mut buffer = [0; BUFFER];
            records.push((desk.collect(ticket, &mut buffer), buffer));
        }
        tally.same("alone and among others", records[0] == records[1], true, problem, &records[0].1);
        tally.count("problems alone and among others");
    }
}

pub fn run(tally: &mut Tally) {
    let mut random = Random::new(16);
    let stock = stock(tally, &mut random, 200);
    last_ticket(tally, &stock);
    full_desks(tally, &stock);
    alone(tally, &stock);
    let calls = if tally.long { 1_000_000 } else { 30_000 };
    sequences(tally, &stock, calls);
}
