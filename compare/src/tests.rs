//! Document 01's cases: P1 to P12, the printed run, and the four useless tools.

use crate::machine::{self, Run, State};

type Step = fn(&mut State, u8, u8) -> u8;

fn two() -> State {
    State::fresh(2, 2).unwrap()
}

/// Thread `thread` executes `count` events; the first names `node` and all must be accepted.
fn go(step: Step, state: &mut State, thread: u8, node: u8, count: usize) -> bool {
    (0..count).all(|n| step(state, thread, if n == 0 { node } else { 0 }) == 0)
}

fn saved(state: &State) -> Vec<u8> {
    let mut bytes = vec![0; state.length()];
    state.save(&mut bytes);
    bytes
}

fn schedule(threads: u8, nodes: u8, events: &[(u8, u8)]) -> Vec<u8> {
    let mut bytes = vec![b'S', b'H', threads, nodes];
    events.iter().for_each(|&(thread, node)| bytes.extend([b'S', b'E', thread, node]));
    bytes
}

fn passage(count: usize) -> Vec<(u8, u8)> {
    (0..count).map(|n| (1, u8::from(n == 0))).collect()
}

fn p2(step: Step) -> bool {
    let mut state = two();
    go(step, &mut state, 1, 1, 15)
        && state.line(1) == 11
        && (state.low, state.high, state.entered) == (2, 2, 1)
        && (state.flag, state.tail, state.status()) == (1, 0, 1)
}

/// P6 up to both threads through 14.
fn both_through_14(step: Step) -> Option<State> {
    let mut state = two();
    (go(step, &mut state, 1, 1, 4) && go(step, &mut state, 2, 2, 4)).then_some(state)
}

fn p6(step: Step) -> bool {
    let Some(mut state) = both_through_14(step) else { return false };
    let queued = state.thread[2].prev == 1
        && (state.thread[1].slot, state.thread[2].slot) == (1, 2)
        && (state.tail, state.high) == (2, 3);
    queued && go(step, &mut state, 2, 0, 2) && step(&mut state, 2, 0) == 12
}

#[test]
fn p1_fresh() {
    let fresh = saved(&two());
    assert_eq!(fresh.len(), 53);
    assert_eq!(machine::status(&fresh), (0, 1));
    let expected = b"LH\x02\x02\x01\x00\x00\x01\0\0\0\x01\0\0\0\0\0\0\0\0\0\0\0LN\0\0LN\0\0\
        LT\x0b\0\0\0\0\0\0\0\0LT\x0b\0\0\0\0\0\0\0\0";
    assert_eq!(fresh, expected);
}

#[test]
fn p2_a_whole_passage() {
    assert!(p2(State::step));
}

#[test]
fn p3_ten_of_it() {
    let mut state = two();
    assert!(go(State::step, &mut state, 1, 1, 10));
    assert_eq!((state.line(1), state.tail, state.flag, state.status()), (25, 0, 0, 2));
}

#[test]
fn p4_thread_and_node() {
    for (thread, node, answer) in [(0, 0, 5), (3, 1, 5), (1, 0, 6), (1, 3, 6)] {
        let mut state = two();
        assert_eq!(state.step(thread, node), answer);
        assert_eq!(state, two());
    }
}

#[test]
fn p5_node_in_use() {
    let mut state = two();
    assert_eq!(state.step(1, 1), 0);
    assert_eq!(state.step(2, 1), 8);
    assert_eq!(state.step(2, 2), 0);
}

#[test]
fn p6_two_in_the_queue() {
    assert!(p6(State::step));
}

#[test]
fn p7_a_newcomer_at_22() {
    let mut state = both_through_14(State::step).unwrap();
    assert!(go(State::step, &mut state, 1, 0, 6));
    assert_eq!((state.line(1), state.step(1, 0)), (23, 12));
    assert!(go(State::step, &mut state, 2, 0, 2));
    assert_eq!(state.step(1, 0), 0);
}

#[test]
fn p8_passing_it_on() {
    let mut state = both_through_14(State::step).unwrap();
    assert!(go(State::step, &mut state, 2, 0, 2));
    assert_eq!(state.step(2, 0), 12);
    while state.line(1) != 11 {
        assert_eq!(state.step(1, 0), 0);
    }
    assert_eq!((state.node[2].locked, state.flag, state.low), (0, 0, 2));
    assert_eq!(state.step(2, 0), 0);
}

#[test]
fn p9_the_node_serves_again() {
    let mut state = two();
    assert!(go(State::step, &mut state, 1, 1, 12));
    assert_eq!(state.step(2, 1), 0);
}

#[test]
fn p10_followed_nodes() {
    let mut state = two();
    state.thread[1].line = 12;
    assert_eq!(state.step(1, 0), 9);
    state.thread[1].my = 1;
    assert_eq!(state.step(1, 0), 10);
}

#[test]
fn p11_entries() {
    let mut state = two();
    state.entered = 1_000_000;
    assert_eq!(state.step(1, 1), 7);
    state.in_use = 1;
    assert_eq!(state.step(1, 1), 7);
    state.in_use = 0;
    state.entered = 999_999;
    assert_eq!(state.step(1, 1), 0);
}

#[test]
fn p12_places() {
    let mut state = two();
    state.thread[1].line = 14;
    state.thread[1].my = 1;
    state.high = 1_000_001;
    assert_eq!(state.step(1, 0), 11);
    state.high = 1_000_000;
    assert_eq!(state.step(1, 0), 0);
    assert_eq!(state.thread[1].slot, 1_000_000);
}

#[test]
fn saved_states_that_break_a_rule() {
    let mut bytes = saved(&two());
    assert_eq!(machine::check(&bytes), 0);
    assert_eq!(machine::check(&bytes[..52]), 1);
    bytes.push(0);
    assert_eq!(machine::check(&bytes), 1);
    bytes.pop();
    for (line, answer) in [(10, 1), (11, 0), (29, 0), (30, 1)] {
        bytes[33] = line;
        assert_eq!(machine::check(&bytes), answer);
    }
}

#[test]
fn the_printed_run() {
    let input = schedule(1, 1, &[(1, 1), (1, 0), (1, 0), (1, 0), (2, 0)]);
    let expected = "n thread line answer tail flag low high\n\
        1 1 11 0 0 1 1 1\n2 1 12 0 0 1 1 1\n3 1 13 0 0 1 1 1\n4 1 14 0 1 1 1 2\n5 2 0 5 1 1 1 2\n\
        end 4 0 5 3 0\n";
    assert_eq!(machine::text(&input), expected);
    assert_eq!(machine::text(&input[..input.len() - 1]), "refused 2\n");
}

#[test]
fn a_run_counts_and_stops() {
    let mut state = saved(&two());
    let mut answers = [99; 20];
    let mut events = passage(15);
    events.extend([(1, 1), (1, 2), (2, 2)]);
    let run = machine::run(&mut state, &schedule(2, 2, &events), &mut answers);
    assert_eq!(run, Run { stop: 6, executed: 16, waited: 0, unread: 4 + 4 * 17 });
    assert_eq!(answers[..16], [0; 16]);
    assert_eq!(answers[16..], [6, 99, 99, 99]);
}

#[test]
fn a_run_is_refused_in_order() {
    let fresh = saved(&two());
    let try_run = |saved: &[u8], schedule: &[u8], room: usize| {
        let (mut after, mut answers) = (saved.to_vec(), vec![99; room]);
        let run = machine::run(&mut after, schedule, &mut answers);
        let stands = after == saved && answers == vec![99; room];
        assert!(stands && run == Run { stop: run.stop, ..Run::default() });
        run.stop
    };
    let (good, other) = (schedule(2, 2, &passage(3)), schedule(2, 3, &passage(3)));
    assert_eq!(try_run(&fresh[1..], &good[1..], 0), 1);
    assert_eq!(try_run(&fresh, &other[..15], 0), 2);
    assert_eq!(try_run(&fresh, &other, 0), 3);
    assert_eq!(try_run(&fresh, &good, 2), 4);
}

#[test]
fn chains() {
    let mut state = two();
    let mut out = [99; 3];
    assert_eq!(state.chain(1, &mut out), Ok(1));
    assert_eq!(out, [1, 99, 99]);
    state.node[1].next = 2;
    state.node[2].next = 1;
    assert_eq!(state.chain(2, &mut out), Ok(2));
    assert_eq!(out, [2, 1, 99]);
    assert_eq!(state.chain(0, &mut out[..1]), Err(4));
    assert_eq!(state.chain(0, &mut out), Err(6));
    assert_eq!(state.chain(3, &mut out), Err(6));
}

fn refuses_all(_: &mut State, _: u8, _: u8) -> u8 {
    12
}

fn always_fresh(state: &mut State, _: u8, _: u8) -> u8 {
    *state = State::fresh(state.threads, state.nodes).unwrap();
    0
}

fn leaves_alone(_: &mut State, _: u8, _: u8) -> u8 {
    0
}

/// Does the whole passage at line 11 and then only moves line numbers.
fn all_at_once(state: &mut State, thread: u8, node: u8) -> u8 {
    let line = state.line(thread);
    if line == 11 {
        let answer = state.step(thread, node);
        while answer == 0 && state.line(thread) != 11 && state.step(thread, 0) == 0 {}
        state.thread[usize::from(thread)].line = 12;
        return answer;
    }
    let then = match line {
        17 => 20,
        22 => 25,
        29 => 11,
        _ => line + 1,
    };
    state.thread[usize::from(thread)].line = then;
    0
}

#[test]
fn four_useless_tools() {
    for useless in [refuses_all, always_fresh, leaves_alone] {
        assert!(!p2(useless));
    }
    assert!(p2(all_at_once));
    assert!(!p6(all_at_once));
}
