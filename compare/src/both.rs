//! One call on both sides, and the comparison of everything it gives.
//!
//! Both sides get the same bytes. Around what is lent stand guard bytes, filled with a pattern that
//! changes from call to call; afterwards the whole buffers are compared, guards and inputs included.
//! At the first difference the program prints the input and both results and ends with status 1.

use crate::tool;
use separate::machine::{self, Run};
use std::fmt::Debug;
use std::hint::black_box;

const GUARD: usize = 16;

/// The same lent bytes twice: for the tool and for the separate machine.
#[derive(Default)]
struct Pair {
    tool: Vec<u8>,
    separate: Vec<u8>,
}

impl Pair {
    /// Lends these bytes, between guards that depend on `pattern`.
    fn lend(&mut self, bytes: &[u8], pattern: u64) {
        let guards = (pattern | 1).wrapping_mul(0x9e37_79b9_7f4a_7c15).to_le_bytes();
        self.tool.clear();
        self.tool.extend(guards);
        self.tool.extend(guards.map(|byte| !byte));
        self.tool.extend_from_slice(bytes);
        self.tool.extend(guards);
        self.tool.extend(guards.map(|byte| byte ^ 0x5a));
        self.separate.clone_from(&self.tool);
    }

    /// Lends `length` bytes to write into; they begin as a pattern.
    fn lend_room(&mut self, length: usize, pattern: u64) {
        let first = pattern.wrapping_mul(31);
        self.tool.clear();
        self.tool.extend((0..(length + 2 * GUARD) as u64).map(|i| first.wrapping_add(i * 37) as u8));
        self.separate.clone_from(&self.tool);
    }

    fn tool(&mut self) -> &mut [u8] {
        inner_mut(&mut self.tool)
    }

    fn separate(&mut self) -> &mut [u8] {
        inner_mut(&mut self.separate)
    }

    fn equal(&self) -> bool {
        black_box(&self.tool) == &self.separate
    }

    fn results(&self) -> [String; 2] {
        let shown = |buffer: &[u8]| {
            let end = buffer.len() - GUARD;
            let [before, lent, behind] = [&buffer[..GUARD], &buffer[GUARD..end], &buffer[end..]].map(hex);
            format!("{lent} (guards {before} and {behind})")
        };
        [shown(&self.tool), shown(&self.separate)]
    }
}

fn inner_mut(buffer: &mut [u8]) -> &mut [u8] {
    let end = buffer.len() - GUARD;
    &mut buffer[GUARD..end]
}

pub fn hex(bytes: &[u8]) -> String {
    if bytes.is_empty() {
        return "(none)".to_string();
    }
    bytes.iter().map(|byte| format!("{byte:02x}")).collect()
}

/// Prints a difference, input first, and ends the program.
pub fn differ(call: &str, input: &[(&str, String)], results: &[(&str, [String; 2])]) -> ! {
    println!("difference in {call}");
    for (name, value) in input {
        println!("  {name}: {value}");
    }
    for (name, [tool, separate]) in results {
        let same = if tool == separate { " (the same)" } else { "" };
        println!("  {name}{same}");
        println!("    tool:     {tool}");
        println!("    separate: {separate}");
    }
    std::process::exit(1)
}

fn shown(tool: impl Debug, separate: impl Debug) -> [String; 2] {
    [format!("{tool:?}"), format!("{separate:?}")]
}

/// Both sides, with the buffers that are lent to them and the number of calls compared.
#[derive(Default)]
pub struct Both {
    pub calls: u64,
    saved: Pair,
    schedule: Pair,
    answers: Pair,
    out: Pair,
}

impl Both {
    pub fn fresh(&mut self, threads: u8, nodes: u8, room: usize) -> u8 {
        self.calls += 1;
        self.out.lend_room(room, self.calls);
        let theirs = tool::fresh(threads, nodes, self.out.tool());
        let ours = machine::fresh(threads, nodes, self.out.separate());
        if theirs != ours || !self.out.equal() {
            let input = [("T and K", format!("{threads} {nodes}")), ("room", room.to_string())];
            differ("fresh", &input, &[("answer", shown(theirs, ours)), ("bytes", self.out.results())]);
        }
        ours
    }

    /// One event over saved bytes. `saved` becomes the state it ends in.
    pub fn step(&mut self, saved: &mut [u8], thread: u8, node: u8) -> u8 {
        self.calls += 1;
        self.saved.lend(saved, self.calls);
        let theirs = tool::step(self.saved.tool(), thread, node);
        let ours = machine::step(self.saved.separate(), thread, node);
        if theirs != ours || !self.saved.equal() {
            let input = [("saved state", hex(saved)), ("thread and node", format!("{thread} {node}"))];
            differ("step", &input, &[("answer", shown(theirs, ours)), ("bytes", self.saved.results())]);
        }
        saved.copy_from_slice(self.saved.separate());
        ours
    }

    /// A step of which only the comparison is wanted; the state stays.
    pub fn try_step(&mut self, saved: &[u8], thread: u8, node: u8) -> u8 {
        let mut room = [0; 1024];
        match room.get_mut(..saved.len()) {
            Some(copy) => {
                copy.copy_from_slice(saved);
                self.step(copy, thread, node)
            }
            None => self.step(&mut saved.to_vec(), thread, node),
        }
    }

    /// A whole run. `saved` becomes the state it ends in.
    pub fn run(&mut self, saved: &mut [u8], schedule: &[u8], room: usize) -> Run {
        self.calls += 1;
        self.saved.lend(saved, self.calls);
        self.schedule.lend(schedule, self.calls);
        self.answers.lend_room(room, self.calls);
        let theirs = tool::run(self.saved.tool(), self.schedule.tool(), self.answers.tool());
        let ours = machine::run(self.saved.separate(), self.schedule.separate(), self.answers.separate());
        let equal = self.saved.equal() && self.schedule.equal() && self.answers.equal();
        if theirs != ours || !equal {
            let input = [
                ("saved state", hex(saved)),
                ("schedule", hex(schedule)),
                ("room for answers", room.to_string()),
            ];
            let results = [
                ("run", shown(theirs, ours)),
                ("state", self.saved.results()),
                ("schedule", self.schedule.results()),
                ("answers", self.answers.results()),
            ];
            differ("run", &input, &results);
        }
        saved.copy_from_slice(self.saved.separate());
        ours
    }

    /// A run of which only the comparison is wanted; the state stays.
    pub fn try_run(&mut self, saved: &[u8], schedule: &[u8], room: usize) -> Run {
        self.run(&mut saved.to_vec(), schedule, room)
    }

    /// Check, status, waiting and in use.
    pub fn questions(&mut self, saved: &[u8]) -> u8 {
        self.calls += 4;
        self.saved.lend(saved, self.calls);
        let lent = self.saved.tool();
        let theirs = (tool::check(lent), tool::status(lent), tool::waiting(lent), tool::in_use(lent));
        let lent = self.saved.separate();
        let ours =
            (machine::check(lent), machine::status(lent), machine::waiting(lent), machine::in_use(lent));
        if theirs != ours || !self.saved.equal() {
            let results = [
                ("check, status, waiting, in use (number, value)", shown(theirs, ours)),
                ("bytes", self.saved.results()),
            ];
            differ("questions", &[("saved state", hex(saved))], &results);
        }
        ours.0
    }

    pub fn chain(&mut self, saved: &[u8], from: u8, room: usize) -> (u8, u8) {
        self.calls += 1;
        self.saved.lend(saved, self.calls);
        self.out.lend_room(room, self.calls);
        let theirs = tool::chain(self.saved.tool(), from, self.out.tool());
        let ours = machine::chain(self.saved.separate(), from, self.out.separate());
        if theirs != ours || !self.saved.equal() || !self.out.equal() {
            let input = [("saved state", hex(saved)), ("from", from.to_string()), ("room", room.to_string())];
            let results = [
                ("number and length", shown(theirs, ours)),
                ("list", self.out.results()),
                ("bytes", self.saved.results()),
            ];
            differ("chain", &input, &results);
        }
        ours
    }

    /// All questions about a state, and the chain from each of `starts`.
    pub fn ask_all(&mut self, saved: &[u8], starts: impl Iterator<Item = u8>, room: usize) {
        self.questions(saved);
        for from in starts {
            self.chain(saved, from, room);
        }
    }
}
