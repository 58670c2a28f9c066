//! The separate machine: Figure 1 of technical report whh596B under the rules of document 01.
//!
//! Written from these two papers alone. A state is a few numbers and two fixed arrays; an event
//! allocates nothing. The first half works on a `State`, the second half (from `fresh` on) does the
//! same over saved bytes, which is what is compared.

use std::fmt::Write;

/// Most threads, and most nodes.
pub const MOST: u8 = 32;
/// Most entries (accepted steps at line 11) in a state's life.
pub const MOST_ENTRIES: u32 = 1_000_000;
/// Low and high go from 1 to this.
pub const LAST_PLACE: u32 = 1_000_001;
/// Most bytes of a schedule.
pub const LONGEST_SCHEDULE: usize = 65_536;

/// Bytes of the records of a saved state: its heading, a node, a thread.
pub const HEADING: usize = 23;
pub const NODE: usize = 4;
pub const THREAD: usize = 11;

/// A number of document 01's table, 1 to 12.
pub type Refusal = u8;

#[derive(Clone, Copy, Debug, Default, PartialEq, Eq)]
pub(crate) struct Node {
    pub(crate) next: u8,
    pub(crate) locked: u8,
}

#[derive(Clone, Copy, Debug, Default, PartialEq, Eq)]
pub(crate) struct Thread {
    pub(crate) line: u8,
    pub(crate) my: u8,
    pub(crate) prev: u8,
    pub(crate) succ: u8,
    pub(crate) nxmy: u8,
    pub(crate) slot: u32,
}

/// A state in the ranges of document 01. Only `fresh` and `read` make one, and a step keeps the
/// ranges, so a `State` needs no second check.
#[derive(Clone, Debug, PartialEq, Eq)]
pub struct State {
    pub(crate) threads: u8,
    pub(crate) nodes: u8,
    pub(crate) flag: u8,
    pub(crate) tail: u8,
    pub(crate) mess: u8,
    pub(crate) low: u32,
    pub(crate) high: u32,
    pub(crate) entered: u32,
    pub(crate) in_use: u32,
    // Index 0 of both stays unused, so that a number is its own index.
    pub(crate) node: [Node; MOST as usize + 1],
    pub(crate) thread: [Thread; MOST as usize + 1],
}

/// How a run ended.
#[derive(Clone, Copy, Debug, Default, PartialEq, Eq)]
pub struct Run {
    /// The stopping number, or 0.
    pub stop: u8,
    /// Events with answer 0.
    pub executed: u32,
    /// Events with answer 12.
    pub waited: u32,
    /// Where the unread part of the schedule begins.
    pub unread: usize,
}

fn is_size(number: u8) -> bool {
    (1..=MOST).contains(&number)
}

/// The length of a saved state.
pub fn saved_length(threads: u8, nodes: u8) -> usize {
    HEADING + NODE * usize::from(nodes) + THREAD * usize::from(threads)
}

/// The bit of a node, which is not 0, in the word of the nodes in use.
fn bit(node: u8) -> u32 {
    1 << (node - 1)
}

/// Follows a node: it may be read or written where it is not 0 and in use.
fn follow(in_use: u32, node: u8) -> Result<usize, Refusal> {
    if node == 0 {
        return Err(9);
    }
    if in_use & bit(node) == 0 {
        return Err(10);
    }
    Ok(usize::from(node))
}

fn number(bytes: &[u8]) -> u32 {
    u32::from_le_bytes([bytes[0], bytes[1], bytes[2], bytes[3]])
}

impl Node {
    fn read(record: &[u8; NODE], nodes: u8) -> Option<Node> {
        let [b'L', b'N', next, locked] = *record else {
            return None;
        };
        let good = next <= nodes && locked <= 1;
        good.then_some(Node { next, locked })
    }

    fn save(&self, record: &mut [u8; NODE]) {
        *record = [b'L', b'N', self.next, self.locked];
    }
}

impl Thread {
    fn read(record: &[u8; THREAD], nodes: u8) -> Option<Thread> {
        let [b'L', b'T', line, my, prev, succ, nxmy, s0, s1, s2, s3] = *record else {
            return None;
        };
        let slot = u32::from_le_bytes([s0, s1, s2, s3]);
        let good = (11..=29).contains(&line)
            && my <= nodes
            && prev <= nodes
            && succ <= nodes
            && nxmy <= nodes
            && slot <= MOST_ENTRIES;
        good.then_some(Thread { line, my, prev, succ, nxmy, slot })
    }

    fn save(&self, record: &mut [u8; THREAD]) {
        let Thread { line, my, prev, succ, nxmy, slot } = *self;
        let [s0, s1, s2, s3] = slot.to_le_bytes();
        *record = [b'L', b'T', line, my, prev, succ, nxmy, s0, s1, s2, s3];
    }
}

impl State {
    /// The fresh state. Refusal 3 for a size outside 1 to 32.
    pub fn fresh(threads: u8, nodes: u8) -> Result<State, Refusal> {
        if !is_size(threads) || !is_size(nodes) {
            return Err(3);
        }
        let mut state = State::empty();
        (state.threads, state.nodes) = (threads, nodes);
        state.flag = 1;
        (state.low, state.high) = (1, 1);
        for thread in &mut state.thread[1..=usize::from(threads)] {
            thread.line = 11;
        }
        Ok(state)
    }

    /// 0 everywhere: no state yet, but the place to load one into.
    fn empty() -> State {
        State {
            threads: 0,
            nodes: 0,
            flag: 0,
            tail: 0,
            mess: 0,
            low: 0,
            high: 0,
            entered: 0,
            in_use: 0,
            node: [Node::default(); MOST as usize + 1],
            thread: [Thread::default(); MOST as usize + 1],
        }
    }

    /// Reads a saved state. Refusal 1 if it breaks a rule.
    pub fn read(saved: &[u8]) -> Result<State, Refusal> {
        let mut state = State::empty();
        state.load(saved)?;
        Ok(state)
    }

    /// Reads a saved state into an empty one, where it stands: a state is too large to be handed around.
    fn load(&mut self, saved: &[u8]) -> Result<(), Refusal> {
        self.load_records(saved).ok_or(1)
    }

    fn load_records(&mut self, saved: &[u8]) -> Option<()> {
        let (heading, records) = saved.split_first_chunk()?;
        self.load_heading(heading)?;
        if saved.len() != self.length() {
            return None;
        }
        let nodes = self.nodes;
        let (node_records, thread_records) = records.split_at(NODE * usize::from(nodes));
        for (node, record) in self.node[1..].iter_mut().zip(node_records.as_chunks().0) {
            *node = Node::read(record, nodes)?;
        }
        for (thread, record) in self.thread[1..].iter_mut().zip(thread_records.as_chunks().0) {
            *thread = Thread::read(record, nodes)?;
        }
        Some(())
    }

    fn load_heading(&mut self, heading: &[u8; HEADING]) -> Option<()> {
        self.threads = heading[2];
        self.nodes = heading[3];
        self.flag = heading[4];
        self.tail = heading[5];
        self.mess = heading[6];
        self.low = number(&heading[7..11]);
        self.high = number(&heading[11..15]);
        self.entered = number(&heading[15..19]);
        self.in_use = number(&heading[19..23]);
        let good = heading[..2] == *b"LH"
            && is_size(self.threads)
            && is_size(self.nodes)
            && self.flag <= 1
            && self.tail <= self.nodes
            && self.mess <= self.nodes
            && (1..=LAST_PLACE).contains(&self.low)
            && (1..=LAST_PLACE).contains(&self.high)
            && self.entered <= MOST_ENTRIES
            && u64::from(self.in_use) >> self.nodes == 0;
        good.then_some(())
    }

    /// The length of this state when it is saved.
    pub fn length(&self) -> usize {
        saved_length(self.threads, self.nodes)
    }

    /// Saves the state into exactly as many bytes as it needs.
    pub fn save(&self, saved: &mut [u8]) {
        self.save_heading(saved);
        for node in 1..=self.nodes {
            self.save_node(node, saved);
        }
        for thread in 1..=self.threads {
            self.save_thread(thread, saved);
        }
    }

    fn save_heading(&self, saved: &mut [u8]) {
        let heading = &mut saved[..HEADING];
        heading[..2].copy_from_slice(b"LH");
        heading[2] = self.threads;
        heading[3] = self.nodes;
        heading[4] = self.flag;
        heading[5] = self.tail;
        heading[6] = self.mess;
        heading[7..11].copy_from_slice(&self.low.to_le_bytes());
        heading[11..15].copy_from_slice(&self.high.to_le_bytes());
        heading[15..19].copy_from_slice(&self.entered.to_le_bytes());
        heading[19..23].copy_from_slice(&self.in_use.to_le_bytes());
    }

    fn save_node(&self, node: u8, saved: &mut [u8]) {
        let index = usize::from(node);
        let records = saved[HEADING..].as_chunks_mut().0;
        self.node[index].save(&mut records[index - 1]);
    }

    fn save_thread(&self, thread: u8, saved: &mut [u8]) {
        let index = usize::from(thread);
        let records = saved[HEADING + NODE * usize::from(self.nodes)..].as_chunks_mut().0;
        self.thread[index].save(&mut records[index - 1]);
    }

    /// The line a thread is at, or 0 if there is no such thread.
    pub fn line(&self, thread: u8) -> u8 {
        let known = (1..=self.threads).contains(&thread);
        if known {
            self.thread[usize::from(thread)].line
        } else {
            0
        }
    }

    /// One event. The answer is 0, or the refusal that left the state unchanged.
    pub fn step(&mut self, thread: u8, node: u8) -> u8 {
        match self.execute(thread, node) {
            Ok(_) => 0,
            Err(refusal) => refusal,
        }
    }

    /// Executes one line of one thread, and says which node's record it wrote (0 if none).
    ///
    /// Each line first refuses, in the order of the numbers, and only then changes something.
    fn execute(&mut self, thread: u8, node: u8) -> Result<u8, Refusal> {
        if thread == 0 || thread > self.threads {
            return Err(5);
        }
        let t = &mut self.thread[usize::from(thread)];
        let mut written = 0;
        t.line = match t.line {
            11 => {
                if node == 0 || node > self.nodes {
                    return Err(6);
                }
                if self.entered == MOST_ENTRIES {
                    return Err(7);
                }
                if self.in_use & bit(node) != 0 {
                    return Err(8);
                }
                t.my = node;
                self.in_use |= bit(node);
                self.entered += 1;
                12
            }
            _ if node != 0 => return Err(6),
            12 => {
                let my = follow(self.in_use, t.my)?;
                self.node[my].next = 0;
                written = t.my;
                13
            }
            13 => {
                let my = follow(self.in_use, t.my)?;
                self.node[my].locked = 1;
                written = t.my;
                14
            }
            14 => {
                if self.high == LAST_PLACE {
                    return Err(11);
                }
                t.prev = self.tail;
                self.tail = t.my;
                t.slot = self.high;
                self.high += 1;
                15
            }
            15 if t.prev == 0 => 16,
            15 => 18,
            16 => {
                if self.flag != 1 {
                    return Err(12);
                }
                17
            }
            17 => {
                self.flag = 0;
                20
            }
            18 => {
                let prev = follow(self.in_use, t.prev)?;
                self.node[prev].next = t.my;
                written = t.prev;
                19
            }
            19 => {
                let my = follow(self.in_use, t.my)?;
                if self.node[my].locked != 0 {
                    return Err(12);
                }
                20
            }
            20 => {
                let my = follow(self.in_use, t.my)?;
                t.succ = self.node[my].next;
                t.nxmy = t.succ;
                21
            }
            21 if t.succ == 0 => 22,
            21 => 25,
            22 => {
                if self.tail == t.my {
                    self.tail = 0;
                    25
                } else {
                    23
                }
            }
            23 => {
                let my = follow(self.in_use, t.my)?;
                if self.node[my].next == 0 {
                    return Err(12);
                }
                24
            }
            24 => {
                let my = follow(self.in_use, t.my)?;
                t.succ = self.node[my].next;
                t.nxmy = t.succ;
                25
            }
            25 => {
                self.mess = t.succ;
                26
            }
            26 => {
                follow(self.in_use, t.my)?;
                t.succ = 0;
                self.in_use &= !bit(t.my);
                27
            }
            27 => 28,
            28 => {
                t.succ = self.mess;
                29
            }
            29 => {
                if t.succ != 0 {
                    follow(self.in_use, t.succ)?;
                }
                if self.low == LAST_PLACE {
                    return Err(11);
                }
                if t.succ != 0 {
                    self.node[usize::from(t.succ)].locked = 0;
                    written = t.succ;
                } else {
                    self.flag = 1;
                }
                self.low += 1;
                11
            }
            _ => unreachable!("a line is 11 to 29"),
        };
        Ok(written)
    }

    /// 1 free, 2 held, 3 passing.
    pub fn status(&self) -> u8 {
        if self.tail == 0 && self.flag == 1 {
            1
        } else if self.present().iter().any(|t| (20..=29).contains(&t.line)) {
            2
        } else {
            3
        }
    }

    /// How many threads are at line 16 or 19.
    pub fn waiting(&self) -> u8 {
        self.present().iter().filter(|t| t.line == 16 || t.line == 19).count() as u8
    }

    /// How many nodes are in use.
    pub fn in_use(&self) -> u8 {
        self.in_use.count_ones() as u8
    }

    /// A node, its next, and so on, before 0 or after K nodes, into `out`; the list's length.
    pub fn chain(&self, from: u8, out: &mut [u8]) -> Result<u8, Refusal> {
        if out.len() < usize::from(self.nodes) {
            return Err(4);
        }
        if from == 0 || from > self.nodes {
            return Err(6);
        }
        let mut length = 0;
        let mut node = from;
        while node != 0 && length < self.nodes {
            out[usize::from(length)] = node;
            length += 1;
            node = self.node[usize::from(node)].next;
        }
        Ok(length)
    }

    fn present(&self) -> &[Thread] {
        &self.thread[1..=usize::from(self.threads)]
    }
}

/// A good schedule: its sizes and its events, four bytes each. Refusal 2 for any other.
fn read_schedule(schedule: &[u8]) -> Result<(u8, u8, &[[u8; 4]]), Refusal> {
    if schedule.len() > LONGEST_SCHEDULE {
        return Err(2);
    }
    let (records, rest) = schedule.as_chunks();
    let Some((&[b'S', b'H', threads, nodes], events)) = records.split_first() else {
        return Err(2);
    };
    let marked = events.iter().all(|event| event[..2] == *b"SE");
    if !rest.is_empty() || !is_size(threads) || !is_size(nodes) || !marked {
        return Err(2);
    }
    Ok((threads, nodes, events))
}

/// Writes the saved fresh state at the start of `out`: 0, or 3, then 4.
pub fn fresh(threads: u8, nodes: u8, out: &mut [u8]) -> u8 {
    let state = match State::fresh(threads, nodes) {
        Ok(state) => state,
        Err(refusal) => return refusal,
    };
    let Some(saved) = out.get_mut(..state.length()) else {
        return 4;
    };
    state.save(saved);
    0
}

/// Whether the bytes are a saved state: 0 or 1.
pub fn check(saved: &[u8]) -> u8 {
    match State::empty().load(saved) {
        Ok(()) => 0,
        Err(refusal) => refusal,
    }
}

/// One event over saved bytes, which change where they stand.
pub fn step(saved: &mut [u8], thread: u8, node: u8) -> u8 {
    match execute_saved(saved, thread, node) {
        Ok(()) => 0,
        Err(refusal) => refusal,
    }
}

/// A step alters the heading, the acting thread and at most one node: only these are written back.
fn execute_saved(saved: &mut [u8], thread: u8, node: u8) -> Result<(), Refusal> {
    let mut state = State::empty();
    state.load(saved)?;
    let written = state.execute(thread, node)?;
    state.save_heading(saved);
    state.save_thread(thread, saved);
    if written != 0 {
        state.save_node(written, saved);
    }
    Ok(())
}

/// A whole run over saved bytes, which become the state it ends in.
pub fn run(saved: &mut [u8], schedule: &[u8], answers: &mut [u8]) -> Run {
    match execute_run(saved, schedule, answers) {
        Ok(run) => run,
        Err(refusal) => Run { stop: refusal, ..Run::default() },
    }
}

fn execute_run(saved: &mut [u8], schedule: &[u8], answers: &mut [u8]) -> Result<Run, Refusal> {
    let mut state = State::empty();
    state.load(saved)?;
    let (threads, nodes, events) = read_schedule(schedule)?;
    if threads != state.threads || nodes != state.nodes {
        return Err(3);
    }
    let Some(answers) = answers.get_mut(..events.len()) else {
        return Err(4);
    };
    let mut run = Run { unread: schedule.len(), ..Run::default() };
    for (index, (&[_, _, thread, node], place)) in events.iter().zip(answers).enumerate() {
        let answer = state.step(thread, node);
        *place = answer;
        match answer {
            0 => run.executed += 1,
            12 => run.waited += 1,
            _ => {
                run.stop = answer;
                // What follows this event; the schedule's heading is as long as an event.
                run.unread = 4 * (index + 2);
                break;
            }
        }
    }
    state.save(saved);
    Ok(run)
}

/// A question gives 0 and its value, or the refusal and 0.
fn question(saved: &[u8], value: fn(&State) -> u8) -> (u8, u8) {
    let mut state = State::empty();
    match state.load(saved) {
        Ok(()) => (0, value(&state)),
        Err(refusal) => (refusal, 0),
    }
}

pub fn status(saved: &[u8]) -> (u8, u8) {
    question(saved, State::status)
}

pub fn waiting(saved: &[u8]) -> (u8, u8) {
    question(saved, State::waiting)
}

pub fn in_use(saved: &[u8]) -> (u8, u8) {
    question(saved, State::in_use)
}

/// The chain question: 0 and the list's length, or 1, 4, 6 and 0.
pub fn chain(saved: &[u8], from: u8, out: &mut [u8]) -> (u8, u8) {
    match State::read(saved).and_then(|state| state.chain(from, out)) {
        Ok(length) => (0, length),
        Err(refusal) => (refusal, 0),
    }
}

/// What the printing program prints for an input.
pub fn text(input: &[u8]) -> String {
    let Ok((threads, nodes, events)) = read_schedule(input) else {
        return "refused 2\n".to_string();
    };
    let mut state = State::fresh(threads, nodes).expect("a good schedule has good sizes");
    let mut text = "n thread line answer tail flag low high\n".to_string();
    let (mut executed, mut waited, mut stop) = (0, 0, 0);
    for (index, &[_, _, thread, node]) in events.iter().enumerate() {
        let line = state.line(thread);
        let answer = state.step(thread, node);
        let State { tail, flag, low, high, .. } = state;
        let n = index + 1;
        print(&mut text, format_args!("{n} {thread} {line} {answer} {tail} {flag} {low} {high}"));
        match answer {
            0 => executed += 1,
            12 => waited += 1,
            _ => stop = answer,
        }
        if stop != 0 {
            break;
        }
    }
    let (status, waiting) = (state.status(), state.waiting());
    print(&mut text, format_args!("end {executed} {waited} {stop} {status} {waiting}"));
    text
}

fn print(text: &mut String, line: std::fmt::Arguments) {
    writeln!(text, "{line}").expect("a string takes any text");
}
