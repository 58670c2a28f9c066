//! Random walks from fresh and from states near the limits: compared after each step, and then again
//! as whole runs that go on with the unread part of their schedule.

use crate::both::{differ, hex, Both};
use crate::make::{self, Events, Order};
use crate::random::Random;
use separate::machine::State;

pub const SIZES: [(u8, u8); 14] = [
    (1, 1),
    (1, 2),
    (2, 1),
    (2, 2),
    (3, 2),
    (2, 3),
    (4, 4),
    (5, 8),
    (8, 5),
    (16, 16),
    (31, 32),
    (32, 31),
    (32, 32),
    (32, 32),
];

const MOST_EVENTS: usize = 16_383;

/// Walks `length` events and compares each; gives the events taken, refused ones among them.
fn walk(
    both: &mut Both,
    random: &mut Random,
    saved: &mut [u8],
    order: Order,
    length: usize,
) -> Vec<(u8, u8)> {
    let sizes = (saved[2], saved[3]);
    let mut state = State::read(saved).expect("walks begin in good states");
    let mut events = Events::new(order);
    let mut taken = Vec::with_capacity(length);
    let odd_once_in = random.pick(&[5, 50, 5000]);
    for n in 0..length {
        let (thread, node) = make::mixed_event(random, &mut events, &state, sizes, odd_once_in);
        let answer = both.step(saved, thread, node);
        taken.push((thread, node));
        if state.step(thread, node) != answer || State::read(saved).as_ref() != Ok(&state) {
            differ("the separate machine's two steps", &[("after", hex(saved))], &[]);
        }
        if n % 16 == 0 {
            both.ask_all(saved, [random.byte(), 1, sizes.1].into_iter(), 32);
        }
    }
    taken
}

/// The same events as whole runs. A run that stops is taken up again with its unread part.
fn run_again(both: &mut Both, random: &mut Random, saved: &mut [u8], taken: &[(u8, u8)]) {
    let (threads, nodes) = (saved[2], saved[3]);
    let longest = random.pick(&[500, 2_000, MOST_EVENTS]);
    for events in taken.chunks(longest) {
        let mut schedule = make::schedule(threads, nodes, events);
        loop {
            let room = schedule.len() / 4 - 1 + random.pick(&[0, 0, 1, 7]);
            let run = both.run(saved, &schedule, room);
            if run.stop == 0 {
                break;
            }
            schedule.drain(4..run.unread);
        }
    }
}

pub fn compare(both: &mut Both, random: &mut Random, start: &[u8], length: usize) {
    for order in make::ORDERS {
        let (mut by_steps, mut by_runs) = (start.to_vec(), start.to_vec());
        let taken = walk(both, random, &mut by_steps, order, length);
        run_again(both, random, &mut by_runs, &taken);
        if by_steps != by_runs {
            let input = [("start", hex(start)), ("events", format!("{taken:?}"))];
            differ("a run against its steps", &input, &[("state", [hex(&by_runs), hex(&by_steps)])]);
        }
    }
}

/// The fresh state with its counters a few before their limits.
pub fn near_the_limits(random: &mut Random, threads: u8, nodes: u8) -> Vec<u8> {
    let mut saved = make::fresh(threads, nodes);
    for (at, last) in [(make::LOW, 1_000_001), (make::HIGH, 1_000_001), (make::ENTERED, 1_000_000)] {
        let value = last - random.below(9) as u32;
        saved[at..at + 4].copy_from_slice(&value.to_le_bytes());
    }
    saved
}
