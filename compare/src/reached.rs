//! All states reached with few threads and nodes, breadth-first over all events from fresh.

use crate::both::Both;
use crate::make;
use std::collections::{HashSet, VecDeque};

/// States are told apart without low, high, entered and slot, so that the search is finite.
fn key(saved: &[u8], threads: u8, nodes: u8) -> Vec<u8> {
    let mut key = saved.to_vec();
    key[make::LOW..make::WORD].fill(0);
    for thread in 1..=threads {
        let at = make::thread_at(nodes, thread);
        key[at + 7..at + 11].fill(0);
    }
    key
}

/// The numbers around 1 to `last`, and two far away.
fn around(last: u8) -> Vec<u8> {
    (0..=last + 1).chain([33, 255]).collect()
}

/// Gives how many states were looked at, and whether these were all.
pub fn compare(both: &mut Both, threads: u8, nodes: u8, limit: usize) -> (usize, bool) {
    let start = make::fresh(threads, nodes);
    let mut known = HashSet::from([key(&start, threads, nodes)]);
    let mut queue = VecDeque::from([start]);
    let mut looked_at = 0;
    while let Some(state) = queue.pop_front() {
        if looked_at == limit {
            return (looked_at, false);
        }
        looked_at += 1;
        both.ask_all(&state, 0..=nodes + 1, usize::from(nodes));
        for &thread in &around(threads) {
            for &node in &around(nodes) {
                let mut after = state.clone();
                let moved = both.step(&mut after, thread, node) == 0;
                if moved && known.len() < 3 * limit && known.insert(key(&after, threads, nodes)) {
                    queue.push_back(after);
                }
            }
        }
    }
    (looked_at, true)
}
