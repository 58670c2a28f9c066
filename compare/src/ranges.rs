//! States in and just out of every range, reached or not.

use crate::both::Both;
use crate::make::{self, Events, Order};
use crate::random::Random;
use separate::machine::State;

/// Everything about one saved state: the questions, chains, some steps and a run. The state may be bad.
pub fn everything(both: &mut Both, random: &mut Random, saved: &[u8], sizes: (u8, u8), steps: usize) {
    let (threads, nodes) = sizes;
    both.questions(saved);
    for from in [0, 1, nodes, nodes + 1, random.from_to(1, nodes)] {
        both.chain(saved, from, usize::from(nodes) + random.below(2));
    }
    let state = State::read(saved);
    let mut events = Events::new(Order::Any);
    let mut event = |random: &mut Random| match &state {
        Ok(state) => make::mixed_event(random, &mut events, state, sizes, 4),
        Err(_) => make::odd_event(random, sizes),
    };
    for _ in 0..steps {
        let (thread, node) = event(random);
        both.try_step(saved, thread, node);
    }
    let scheduled: Vec<(u8, u8)> = (0..random.below(12)).map(|_| event(random)).collect();
    both.try_run(saved, &make::schedule(threads, nodes, &scheduled), scheduled.len());
}

/// Each field of a state at, below and above its bounds.
pub fn each_field(both: &mut Both, random: &mut Random, saved: &[u8]) {
    let sizes = (saved[2], saved[3]);
    let mut changed = saved.to_vec();
    for field in make::fields(sizes.0, sizes.1) {
        for value in field.edges() {
            field.set(&mut changed, value);
            everything(both, random, &changed, sizes, 2);
        }
        changed.copy_from_slice(saved);
    }
}

/// Random states; every fourth has one number set to a value at or around its bounds.
pub fn random_states(both: &mut Both, random: &mut Random, count: usize) {
    for n in 0..count {
        let sizes = make::random_sizes(random);
        let mut saved = make::random_state(random, sizes.0, sizes.1);
        if n % 4 == 0 {
            let field = random.pick(&make::fields(sizes.0, sizes.1));
            let value = random.pick(&field.edges());
            field.set(&mut saved, value);
        }
        everything(both, random, &saved, sizes, 6);
    }
}

/// All states of one thread and two nodes in which the numbers that a line looks at take every value;
/// those it does not look at are random. Each with every node, so every order of two refusals occurs.
pub fn one_thread(both: &mut Both, random: &mut Random, once_in: usize) {
    let mut saved = make::random_state(random, 1, 2);
    let at = make::thread_at(2, 1);
    let mut numbers: [(usize, u8, u8); 9] = [(0, 0, 0); 9];
    numbers[0] = (at + 2, 11, 29);
    numbers[1..4].copy_from_slice(&[(at + 3, 0, 2), (at + 4, 0, 2), (at + 5, 0, 2)]);
    numbers[4..7].copy_from_slice(&[(4, 0, 1), (5, 0, 2), (make::WORD, 0, 3)]);
    numbers[7..9].copy_from_slice(&[(25, 0, 2), (26, 0, 1)]);
    for &(at, first, _) in &numbers {
        saved[at] = first;
    }
    loop {
        if random.once_in(once_in) {
            counters(random, &mut saved);
            for node in 0..=3 {
                both.try_step(&saved, 1, node);
            }
            both.questions(&saved);
        }
        // Counts through all values, the last number fastest.
        let Some(place) = numbers.iter().rposition(|&(at, _, last)| saved[at] < last) else {
            return;
        };
        saved[numbers[place].0] += 1;
        for &(at, first, _) in &numbers[place + 1..] {
            saved[at] = first;
        }
    }
}

fn counters(random: &mut Random, saved: &mut [u8]) {
    for (at, last) in [(make::LOW, 1_000_001), (make::HIGH, 1_000_001), (make::ENTERED, 1_000_000)] {
        let value: u32 = last - random.below(3) as u32;
        saved[at..at + 4].copy_from_slice(&value.to_le_bytes());
    }
}
