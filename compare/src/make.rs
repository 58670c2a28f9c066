//! Inputs: saved states, schedules and events. They are made from document 01's layout, byte by byte,
//! and not by the machine that is compared.

use crate::random::Random;
use separate::machine::State;

/// One number of a saved state: where it stands, how many bytes it has, and its range.
#[derive(Clone, Copy)]
pub struct Field {
    pub at: usize,
    pub width: usize,
    pub first: u32,
    pub last: u32,
}

impl Field {
    fn new(at: usize, width: usize, first: u32, last: u32) -> Field {
        Field { at, width, first, last }
    }

    pub fn set(&self, saved: &mut [u8], value: u32) {
        saved[self.at..self.at + self.width].copy_from_slice(&value.to_le_bytes()[..self.width]);
    }

    /// The values at and around the bounds that fit into the field's bytes.
    pub fn edges(&self) -> Vec<u32> {
        let most = if self.width == 1 { 255 } else { u32::MAX };
        let (first, last) = (self.first, self.last);
        let mut values = vec![0, 1, first.saturating_sub(1), first, first + 1, last / 2];
        values.extend([last.saturating_sub(1), last, last.saturating_add(1), last.saturating_add(2)]);
        values.extend([most / 2, most / 2 + 1, most - 1, most]);
        values.retain(|&value| value <= most);
        values.sort_unstable();
        values.dedup();
        values
    }
}

pub const LOW: usize = 7;
pub const HIGH: usize = 11;
pub const ENTERED: usize = 15;
pub const WORD: usize = 19;

pub fn node_at(node: u8) -> usize {
    23 + 4 * (usize::from(node) - 1)
}

pub fn thread_at(nodes: u8, thread: u8) -> usize {
    23 + 4 * usize::from(nodes) + 11 * (usize::from(thread) - 1)
}

/// Every number of a saved state of these sizes.
pub fn fields(threads: u8, nodes: u8) -> Vec<Field> {
    let most = u32::from(nodes);
    let mut fields = vec![
        Field::new(4, 1, 0, 1),
        Field::new(5, 1, 0, most),
        Field::new(6, 1, 0, most),
        Field::new(LOW, 4, 1, 1_000_001),
        Field::new(HIGH, 4, 1, 1_000_001),
        Field::new(ENTERED, 4, 0, 1_000_000),
        Field::new(WORD, 4, 0, all_in_use(nodes)),
    ];
    for node in 1..=nodes {
        let at = node_at(node);
        fields.extend([Field::new(at + 2, 1, 0, most), Field::new(at + 3, 1, 0, 1)]);
    }
    for thread in 1..=threads {
        let at = thread_at(nodes, thread);
        fields.push(Field::new(at + 2, 1, 11, 29));
        fields.extend((3..7).map(|offset| Field::new(at + offset, 1, 0, most)));
        fields.push(Field::new(at + 7, 4, 0, 1_000_000));
    }
    fields
}

/// The word with every node in use.
pub fn all_in_use(nodes: u8) -> u32 {
    u32::MAX >> (32 - nodes)
}

/// The marks and sizes of a saved state, all numbers 0.
pub fn blank(threads: u8, nodes: u8) -> Vec<u8> {
    let mut saved = vec![b'L', b'H', threads, nodes];
    saved.resize(23, 0);
    (0..nodes).for_each(|_| saved.extend([b'L', b'N', 0, 0]));
    (0..threads).for_each(|_| saved.extend([b'L', b'T', 0, 0, 0, 0, 0, 0, 0, 0, 0]));
    saved
}

/// The saved fresh state, from document 01's sentence.
pub fn fresh(threads: u8, nodes: u8) -> Vec<u8> {
    let mut saved = blank(threads, nodes);
    saved[4] = 1;
    saved[LOW] = 1;
    saved[HIGH] = 1;
    for thread in 1..=threads {
        saved[thread_at(nodes, thread) + 2] = 11;
    }
    saved
}

/// A state somewhere in the ranges, often at a bound; most such states no run reaches.
pub fn random_state(random: &mut Random, threads: u8, nodes: u8) -> Vec<u8> {
    let mut saved = blank(threads, nodes);
    for field in fields(threads, nodes) {
        let span = (field.last - field.first) as usize;
        let value = match random.below(12) {
            0 => field.first,
            1 | 2 => field.last,
            3 => field.last - span.min(1) as u32,
            _ => field.first + random.below(span + 1) as u32,
        };
        field.set(&mut saved, value);
    }
    if random.once_in(2) {
        let word = all_in_use(nodes) & (random.next() | random.next()) as u32;
        saved[WORD..WORD + 4].copy_from_slice(&word.to_le_bytes());
    }
    saved
}

pub fn random_sizes(random: &mut Random) -> (u8, u8) {
    let most = random.pick(&[2, 3, 5, 9, 32]);
    let mut size = || if random.once_in(6) { most } else { random.from_to(1, most) };
    (size(), size())
}

pub fn schedule(threads: u8, nodes: u8, events: &[(u8, u8)]) -> Vec<u8> {
    let mut schedule = vec![b'S', b'H', threads, nodes];
    for &(thread, node) in events {
        schedule.extend([b'S', b'E', thread, node]);
    }
    schedule
}

/// How a walk chooses the thread of its next event.
#[derive(Clone, Copy)]
pub enum Order {
    Any,
    RoundRobin,
    /// One thread for a while, then another.
    Bursts,
    /// Only the first few threads, so that these meet often.
    Few,
    /// Each thread does its whole passage before the next begins; nobody waits.
    Turns,
}

pub const ORDERS: [Order; 5] = [Order::Any, Order::RoundRobin, Order::Bursts, Order::Few, Order::Turns];

/// Chooses events that suit the state they come to.
pub struct Events {
    order: Order,
    thread: u8,
}

impl Events {
    pub fn new(order: Order) -> Events {
        Events { order, thread: 1 }
    }

    /// A thread that exists, and a node of the right kind (which may be in use).
    pub fn next(&mut self, random: &mut Random, state: &State, sizes: (u8, u8)) -> (u8, u8) {
        let (threads, nodes) = sizes;
        self.thread = match self.order {
            Order::Any => random.from_to(1, threads),
            Order::RoundRobin => self.thread % threads + 1,
            Order::Bursts if random.once_in(9) => random.from_to(1, threads),
            Order::Bursts => self.thread,
            Order::Few => random.from_to(1, threads.min(3)),
            Order::Turns if state.line(self.thread) == 11 => random.from_to(1, threads),
            Order::Turns => self.thread,
        };
        let node = if state.line(self.thread) == 11 { random.from_to(1, nodes) } else { 0 };
        (self.thread, node)
    }
}

/// An event of any kind: mostly near the ranges, sometimes any two bytes.
pub fn odd_event(random: &mut Random, sizes: (u8, u8)) -> (u8, u8) {
    let (threads, nodes) = sizes;
    let [any_thread, any_node] = [random.byte(), random.byte()];
    let thread = random.pick(&[0, 1, threads, threads + 1, threads.div_ceil(2), any_thread, 33, 255]);
    let node = random.pick(&[0, 1, nodes, nodes + 1, nodes.div_ceil(2), any_node, 33, 255]);
    (thread, node)
}

/// As a walk's event, with an odd one now and then.
pub fn mixed_event(
    random: &mut Random,
    events: &mut Events,
    state: &State,
    sizes: (u8, u8),
    odd_once_in: usize,
) -> (u8, u8) {
    if random.once_in(odd_once_in) {
        odd_event(random, sizes)
    } else {
        events.next(random, state, sizes)
    }
}

/// The length of a saved state of these sizes, good ones or not.
pub fn blank_length(threads: u8, nodes: u8) -> usize {
    23 + 4 * usize::from(nodes) + 11 * usize::from(threads)
}
