//! Schedules: lengths near the limits, damaged ones, other sizes, and answer buffers of all lengths.

use crate::both::Both;
use crate::make::{self, Events, Order};
use crate::random::Random;
use separate::machine::State;

/// Events that never stop a run from `saved`: accepted ones and waits.
pub fn going_on(random: &mut Random, saved: &[u8], order: Order, count: usize) -> Vec<(u8, u8)> {
    let sizes = (saved[2], saved[3]);
    let mut state = State::read(saved).expect("schedules begin in good states");
    let mut events = Events::new(order);
    let mut taken = Vec::with_capacity(count);
    while taken.len() < count {
        let (thread, node) = events.next(random, &state, sizes);
        if let 0 | 12 = state.step(thread, node) {
            taken.push((thread, node));
        }
    }
    taken
}

/// Runs with room for one answer too few, just enough, and more.
fn rooms(both: &mut Both, saved: &[u8], schedule: &[u8]) {
    let events = (schedule.len() / 4).saturating_sub(1);
    for room in [events.saturating_sub(1), events, events + 1, events + 40] {
        both.try_run(saved, schedule, room);
    }
}

/// Every length near the limits: cut from, or grown out of, a schedule that goes on to its end.
pub fn lengths(both: &mut Both, random: &mut Random, saved: &[u8]) {
    let mut schedule = make::schedule(saved[2], saved[3], &going_on(random, saved, Order::Any, 16_383));
    for length in (0..=24).chain(65_516..=65_536) {
        rooms(both, saved, &schedule[..length]);
    }
    for byte in [b'S', b'E', 1, 0, b'S', b'E', 0, 0, b'S', b'E'] {
        schedule.push(byte);
        rooms(both, saved, &schedule);
    }
    schedule.resize(131_072 + 4, 0);
    rooms(both, saved, &schedule);
    // The length is wrong but for a number of two bytes, in which 65,536 + 8 would be 8.
    rooms(both, saved, &schedule[..65_544]);
}

/// A run that stops at the last event, and one place before it, of the longest schedule.
pub fn late_stops(both: &mut Both, random: &mut Random, saved: &[u8]) {
    let events = going_on(random, saved, Order::Bursts, 16_383);
    let schedule = make::schedule(saved[2], saved[3], &events);
    for event in [1, 2, 8_191, 16_382, 16_383] {
        let mut stopping = schedule.clone();
        stopping[4 * event + 2] = 0;
        rooms(both, saved, &stopping);
    }
}

/// Each byte of a short schedule replaced by every value.
pub fn every_byte(both: &mut Both, random: &mut Random, saved: &[u8]) {
    let events = going_on(random, saved, Order::Any, 4);
    let schedule = make::schedule(saved[2], saved[3], &events);
    let mut changed = schedule.clone();
    for at in 0..schedule.len() {
        for value in 0..=255 {
            changed[at] = value;
            both.try_run(saved, &changed, events.len());
        }
        both.try_run(saved, &changed, 0);
        changed[at] = schedule[at];
    }
}

/// Damaged marks far into a long schedule: nothing of it may be executed.
pub fn late_damage(both: &mut Both, random: &mut Random, saved: &[u8], count: usize) {
    let events = going_on(random, saved, Order::Any, 16_383);
    let mut schedule = make::schedule(saved[2], saved[3], &events);
    for n in 0..count {
        let event = match n {
            0 => 1,
            1 => 16_383,
            _ => 1 + random.below(16_383),
        };
        let at = 4 * event + random.below(2);
        let old = schedule[at];
        schedule[at] = random.byte();
        both.try_run(saved, &schedule, 16_383);
        schedule[at] = old;
    }
}

/// All pairs of sizes in the schedule's heading.
pub fn other_sizes(both: &mut Both, random: &mut Random, saved: &[u8]) {
    let mut schedule = make::schedule(saved[2], saved[3], &going_on(random, saved, Order::Any, 2));
    for threads in 0..=255 {
        for nodes in 0..=255 {
            (schedule[2], schedule[3]) = (threads, nodes);
            both.try_run(saved, &schedule, random.below(4));
        }
    }
}

/// All pairs of a thread byte and a node byte, as the middle one of three events.
pub fn any_event(both: &mut Both, random: &mut Random, saved: &[u8]) {
    let events = going_on(random, saved, Order::Any, 3);
    let mut schedule = make::schedule(saved[2], saved[3], &events);
    for thread in 0..=255 {
        for node in 0..=255 {
            (schedule[10], schedule[11]) = (thread, node);
            both.try_run(saved, &schedule, 3);
        }
    }
}

/// Every choice of what is wrong at once, so that refusals 1 to 4 come in their order.
pub fn in_order(both: &mut Both, random: &mut Random, saved: &[u8]) {
    let sizes = (saved[2], saved[3]);
    let events = going_on(random, saved, Order::Any, 5);
    for wrong in 0..64 {
        let is = |choice: usize| wrong >> choice & 1 == 1;
        let mut state = saved.to_vec();
        state[4] = if is(0) { 2 } else { state[4] };
        let mut schedule = make::schedule(sizes.0, sizes.1, &events);
        schedule[23] = if is(1) { 77 } else { schedule[23] };
        schedule[20] = if is(2) { b'L' } else { schedule[20] };
        schedule[2] = if is(3) { sizes.0 % 32 + 1 } else { sizes.0 };
        schedule[3] = if is(4) { sizes.1 % 32 + 1 } else { sizes.1 };
        both.try_run(&state, &schedule, if is(5) { 4 } else { 5 });
        both.try_run(&state, &schedule[..23], if is(5) { 3 } else { 4 });
    }
}
