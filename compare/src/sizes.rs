//! Fresh states of all sizes, and chains from all starts into buffers of all lengths.

use crate::both::Both;
use crate::make;
use crate::random::Random;

/// Fresh with all 256 x 256 sizes.
pub fn fresh(both: &mut Both) {
    for threads in 0..=255u8 {
        for nodes in 0..=255u8 {
            let length = make::blank_length(threads, nodes);
            for room in [length - 1, length, 504] {
                both.fresh(threads, nodes, room);
            }
        }
    }
}

/// Fresh with every room from none to more than enough.
pub fn fresh_rooms(both: &mut Both) {
    for (threads, nodes) in [(1, 1), (2, 5), (32, 1), (1, 32), (32, 32), (0, 1), (1, 33)] {
        for room in (0..=520).chain([4_096, 70_000]) {
            both.fresh(threads, nodes, room);
        }
    }
}

/// Chains of one state: every start, and every room near K.
pub fn chains(both: &mut Both, saved: &[u8]) {
    let room = usize::from(saved[3]);
    for from in 0..=255 {
        both.chain(saved, from, room);
        both.chain(saved, from, room - 1);
    }
    for from in 0..=saved[3] + 1 {
        for room in [0, 1, room.saturating_sub(2), room + 1, room + 2, 33, 300] {
            both.chain(saved, from, room);
        }
    }
}

/// States whose nodes stand in rings, in one line, in random links.
pub fn linked(random: &mut Random, threads: u8, nodes: u8) -> Vec<Vec<u8>> {
    let mut states = Vec::new();
    for kind in 0..7 {
        let mut saved = make::random_state(random, threads, nodes);
        for node in 1..=nodes {
            let next = match kind {
                0 => 0,
                1 => node % nodes + 1,
                2 => node,
                3 if node < nodes => node + 1,
                3 => 0,
                4 => node - 1,
                5 => random.from_to(1, nodes),
                _ => random.from_to(0, nodes),
            };
            saved[make::node_at(node) + 2] = next;
        }
        states.push(saved);
    }
    states
}
