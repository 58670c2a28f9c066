//! Times and stack depths of both sides, side by side on the same bytes.

use crate::make::{self, Order};
use crate::random::Random;
use crate::schedules::going_on;
use crate::tool;
use separate::machine::{self, Run};
use std::hint::black_box;
use std::time::Instant;

const EVENTS: usize = 16_383;
const REFUSED: usize = 1_000;
/// Many short rounds, so that a pause of the machine spoils few of them.
const ROUNDS: usize = 101;

type StepSaved = fn(&mut [u8], u8, u8) -> u8;
type RunSaved = fn(&mut [u8], &[u8], &mut [u8]) -> Run;
type FreshSaved = fn(u8, u8, &mut [u8]) -> u8;
type AskSaved = fn(&[u8]) -> (u8, u8);
type ChainSaved = fn(&[u8], u8, &mut [u8]) -> (u8, u8);

/// What one side took: the median of all rounds, and the least, which other work on the machine spoils less.
struct Taken {
    median: f64,
    least: f64,
}

/// The two sides of a measurement, the tool first.
type Sides = [Taken; 2];

fn taken(mut times: Vec<f64>) -> Taken {
    times.sort_unstable_by(f64::total_cmp);
    Taken { median: times[times.len() / 2], least: times[0] }
}

/// Alternates the two sides for some rounds; the times of each, in nanoseconds for one of `count`.
fn alternate(count: usize, mut tool: impl FnMut() -> f64, mut separate: impl FnMut() -> f64) -> Sides {
    let mut times = [Vec::new(), Vec::new()];
    for round in 0..=ROUNDS {
        let pair = if round % 2 == 0 {
            let first = tool();
            [first, separate()]
        } else {
            let first = separate();
            [tool(), first]
        };
        // The first round only warms up.
        if round > 0 {
            (0..2).for_each(|side| times[side].push(pair[side] / count as f64));
        }
    }
    times.map(taken)
}

/// The buffers of a measurement; both sides use the same ones.
struct Bench {
    start: Vec<u8>,
    schedule: Vec<u8>,
    saved: Vec<u8>,
    answers: Vec<u8>,
}

impl Bench {
    fn new(size: u8, order: Order, seed: u64) -> Bench {
        let start = make::fresh(size, size);
        let events = going_on(&mut Random::new(seed), &start, order, EVENTS);
        let schedule = make::schedule(size, size, &events);
        Bench { saved: start.clone(), start, schedule, answers: vec![0; EVENTS] }
    }

    /// Before each measurement the state is fresh and the answers are cleared, outside the time taken.
    fn clear(&mut self) {
        self.saved.copy_from_slice(&self.start);
        self.answers.fill(0xff);
    }

    fn run(&mut self, run: RunSaved) -> (f64, Run) {
        self.clear();
        let began = Instant::now();
        let result = run(black_box(&mut self.saved), black_box(&self.schedule), black_box(&mut self.answers));
        let time = began.elapsed().as_nanos() as f64;
        assert_eq!((result.stop, (result.executed + result.waited) as usize), (0, EVENTS));
        (time, result)
    }

    /// The same events one by one, each over the saved bytes.
    fn steps(&mut self, step: StepSaved) -> f64 {
        self.clear();
        let began = Instant::now();
        let events = self.schedule.as_chunks::<4>().0;
        for (&[_, _, thread, node], answer) in events[1..].iter().zip(&mut self.answers) {
            *answer = step(black_box(&mut self.saved), thread, node);
        }
        began.elapsed().as_nanos() as f64
    }
}

/// One refused step, many times; it leaves the bytes as they are.
fn refused(saved: &mut [u8], event: (u8, u8), expected: u8, step: StepSaved) -> f64 {
    let began = Instant::now();
    for _ in 0..REFUSED {
        let answer = step(black_box(&mut *saved), event.0, event.1);
        assert_eq!(answer, expected);
    }
    began.elapsed().as_nanos() as f64
}

fn row(what: &str, [tool, separate]: Sides) {
    let columns = |tool: f64, separate: f64| format!("{tool:>9.1} {separate:>9.1} {:>6.2}", tool / separate);
    let median = columns(tool.median, separate.median);
    println!("{what:<54} {median} {}", columns(tool.least, separate.least));
}

fn stack_row(what: &str, tool: usize, separate: usize) {
    println!("{what:<54} {tool:>9} {separate:>9} {:>6.2}", tool as f64 / separate as f64);
}

fn times(size: u8, order: Order, name: &str, seed: u64) {
    let (mut left, mut right) = (Bench::new(size, order, seed), Bench::new(size, order, seed));
    let run = left.run(tool::run).1;
    let waits = 100.0 * f64::from(run.waited) / EVENTS as f64;
    assert_eq!(run, right.run(machine::run).1);
    assert!(left.saved == right.saved && left.answers == right.answers);
    let what = format!("T = K = {size}, {name}, {waits:.0} % waits");
    let bench = std::cell::RefCell::new(left);
    let sides =
        alternate(EVENTS, || bench.borrow_mut().run(tool::run).0, || bench.borrow_mut().run(machine::run).0);
    row(&format!("run:  {what}"), sides);
    let sides = alternate(
        EVENTS,
        || bench.borrow_mut().steps(tool::step),
        || bench.borrow_mut().steps(machine::step),
    );
    row(&format!("step: {what}"), sides);
}

fn refused_steps(size: u8) {
    let good = make::fresh(size, size);
    let mut waits = good.clone();
    waits[4] = 0;
    waits[make::thread_at(size, 1) + 2] = 16;
    let mut bad = good.clone();
    *bad.last_mut().expect("a state has bytes") = 255;
    let cases = [
        (bad, (1, 1), 1, "the last byte is bad"),
        (good.clone(), (0, 0), 5, "no such thread"),
        (good, (1, 0), 6, "no such node"),
        (waits, (1, 0), 12, "the line waits"),
    ];
    for (saved, event, expected, why) in cases {
        let saved = std::cell::RefCell::new(saved);
        let sides = alternate(
            REFUSED,
            || refused(&mut saved.borrow_mut(), event, expected, tool::step),
            || refused(&mut saved.borrow_mut(), event, expected, machine::step),
        );
        row(&format!("refused step: T = K = {size}, {expected} ({why})"), sides);
    }
}

/// How deep a call goes into the stack.
///
/// A fresh thread paints a region of its stack below the current frame, makes the call, and looks for
/// the lowest byte that lost its paint.
mod stack {
    use std::hint::black_box;
    use std::mem::MaybeUninit;
    use std::thread;

    const REGION: usize = 256 * 1024;

    fn paint_of(address: usize) -> u8 {
        (address.wrapping_mul(0x9e37_79b9) >> 13) as u8 | 1
    }

    /// Paints the stack below the caller; gives the address of the lowest painted byte.
    #[inline(never)]
    fn paint() -> usize {
        let mut region = MaybeUninit::<[u8; REGION]>::uninit();
        let first = black_box(region.as_mut_ptr()) as usize;
        for address in first..first + REGION {
            unsafe { (address as *mut u8).write_volatile(paint_of(address)) };
        }
        first
    }

    /// How many bytes from the lowest painted one on still have their paint.
    #[inline(never)]
    fn untouched(first: usize) -> usize {
        let kept = |address: &usize| unsafe { (*address as *const u8).read_volatile() } == paint_of(*address);
        (first..first + REGION).take_while(kept).count()
    }

    #[inline(never)]
    fn measure(call: &mut dyn FnMut()) -> usize {
        let first = paint();
        call();
        REGION - untouched(first)
    }

    /// The depth of a call, beyond that of a call that does nothing.
    pub fn depth(call: impl FnMut() + Send + Clone) -> usize {
        let deepest = in_fresh_thread(call);
        deepest.saturating_sub(in_fresh_thread(|| ()))
    }

    fn in_fresh_thread(mut call: impl FnMut() + Send) -> usize {
        thread::scope(|scope| {
            let thread = thread::Builder::new().stack_size(4 * REGION);
            let handle = thread.spawn_scoped(scope, || measure(&mut call)).expect("a thread starts");
            handle.join().expect("the measurement ends")
        })
    }
}

fn stacks(size: u8, seed: u64) {
    let Bench { saved, schedule, answers, .. } = Bench::new(size, Order::Any, seed);
    let step = |step: StepSaved| {
        let mut saved = saved.clone();
        stack::depth(move || {
            black_box(step(&mut saved, 1, 1));
        })
    };
    let run = |run: RunSaved| {
        let (mut saved, schedule, mut answers) = (saved.clone(), schedule.clone(), answers.clone());
        stack::depth(move || {
            black_box(run(&mut saved, &schedule, &mut answers));
        })
    };
    let fresh = |fresh: FreshSaved| {
        let mut saved = saved.clone();
        stack::depth(move || {
            black_box(fresh(size, size, &mut saved));
        })
    };
    let ask = |ask: AskSaved| {
        let saved = saved.clone();
        stack::depth(move || {
            black_box(ask(&saved));
        })
    };
    // one chain through all the nodes, 1 to K, and one of a single node
    let chain = |chain: ChainSaved, all: bool| {
        let (mut linked, mut list) = (saved.clone(), vec![0; usize::from(size)]);
        for node in 1..size {
            linked[23 + 4 * (usize::from(node) - 1) + 2] = if all { node + 1 } else { 0 };
        }
        stack::depth(move || {
            black_box(chain(&linked, 1, &mut list));
        })
    };
    let row = |what: &str, tool, separate| stack_row(&format!("{what}, T = K = {size}"), tool, separate);
    row("step", step(tool::step), step(machine::step));
    row("run", run(tool::run), run(machine::run));
    row("fresh", fresh(tool::fresh), fresh(machine::fresh));
    row("check", ask(|b| (tool::check(b), 0)), ask(|b| (machine::check(b), 0)));
    row("status", ask(tool::status), ask(machine::status));
    row("waiting", ask(tool::waiting), ask(machine::waiting));
    row("nodes in use", ask(tool::in_use), ask(machine::in_use));
    row("chain of one node", chain(tool::chain, false), chain(machine::chain, false));
    row("chain of K nodes", chain(tool::chain, true), chain(machine::chain, true));
}

pub fn bench(seed: u64) {
    println!("seed {seed}; schedules of {EVENTS} events from fresh, accepted or waiting, none stops");
    println!("{ROUNDS} rounds in which the two sides alternate: the median, and the least");
    println!("both use the same buffers; before a schedule the state is set to fresh and the answers are");
    println!("cleared, outside the time taken");
    println!();
    let columns = format!("{:>9} {:>9} {:>6}", "tool", "separate", "ratio");
    println!("{:<54} {:<26} {:<26}", "", "   median", "   least");
    println!("{:<54} {columns} {columns}", "nanoseconds an event");
    for size in [4, 32] {
        times(size, Order::Any, "any order", seed);
        times(size, Order::RoundRobin, "round robin", seed);
        times(size, Order::Turns, "in turns", seed);
    }
    for size in [4, 32] {
        refused_steps(size);
    }
    println!();
    println!("{:<54} {columns}", "stack bytes of a call (the step accepted, the run whole)");
    for size in [4, 32] {
        stacks(size, seed);
    }
    println!(
        "stack: a fresh thread paints 256 KiB of its stack below its frame, makes the call and looks for"
    );
    println!("the lowest byte without paint; less the same for a call of an empty function");
}
