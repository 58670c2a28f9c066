//! Saved states damaged at every byte, cut and extended.

use crate::both::Both;
use crate::make;
use crate::random::Random;
use crate::ranges::everything;

/// Each byte of a good state replaced by other values.
pub fn every_byte(both: &mut Both, random: &mut Random, saved: &[u8], all_values: bool) {
    let sizes = (saved[2], saved[3]);
    let mut changed = saved.to_vec();
    for at in 0..saved.len() {
        let old = saved[at];
        let few = [0, 1, 2, 10, 11, 29, 30, 32, 33, 255, old ^ 1, old ^ 32, old ^ 128, sizes.1, sizes.1 + 1];
        let few = few.into_iter().chain([old.wrapping_add(1), old.wrapping_sub(1), random.byte()]);
        let values: Vec<u8> = if all_values { (0..=255).collect() } else { few.collect() };
        for value in values {
            changed[at] = value;
            everything(both, random, &changed, sizes, 1);
        }
        changed[at] = old;
    }
}

/// Every length from nothing to the whole, and longer ones.
pub fn every_length(both: &mut Both, random: &mut Random, saved: &[u8]) {
    let sizes = (saved[2], saved[3]);
    for length in 0..=saved.len() {
        everything(both, random, &saved[..length], sizes, 2);
    }
    let mut longer = saved.to_vec();
    for n in 0..60 {
        // Either records that look right or any byte.
        let byte = if n % 2 == 0 { saved[saved.len() - 11 + n % 11] } else { random.byte() };
        longer.push(byte);
        everything(both, random, &longer, sizes, 2);
    }
    for length in [503, 504, 600, 1_000, 4_096, 70_000] {
        longer.resize(length, b'L');
        everything(both, random, &longer, sizes, 1);
    }
}

/// All pairs of sizes in the heading, over a state of other sizes.
pub fn other_sizes(both: &mut Both, saved: &[u8]) {
    let mut changed = saved.to_vec();
    for threads in 0..=255 {
        for nodes in 0..=255 {
            (changed[2], changed[3]) = (threads, nodes);
            both.questions(&changed);
        }
    }
}

/// Sizes in the heading that make the same length: 4 threads are as long as 11 nodes.
pub fn same_length(both: &mut Both, random: &mut Random) {
    for (threads, nodes) in [(5, 1), (9, 3), (32, 10), (20, 21)] {
        let mut saved = make::fresh(threads, nodes);
        (saved[2], saved[3]) = (threads - 4, nodes + 11);
        everything(both, random, &saved, (threads - 4, nodes + 11), 4);
        let good = make::fresh(threads - 4, nodes + 11);
        everything(both, random, &good, (threads - 4, nodes + 11), 4);
    }
}
