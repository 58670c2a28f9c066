//! Compares the proved tool with the separate machine, part by part.
//!
//! Options: `--show PROGRAM` (needed), `--short` or `--long`, `--seed N`, or `--bench` alone.

mod bench;
mod both;
mod damage;
mod make;
mod random;
mod ranges;
mod reached;
mod schedules;
mod show;
mod sizes;
mod tool;
mod walks;

use both::Both;
use random::Random;
use std::path::PathBuf;
use std::process::ExitCode;
use std::time::Instant;

#[derive(Clone, Copy)]
enum Amount {
    Short,
    Usual,
    Long,
}

impl Amount {
    fn of(self, short: usize, usual: usize, long: usize) -> usize {
        match self {
            Amount::Short => short,
            Amount::Usual => usual,
            Amount::Long => long,
        }
    }
}

struct Options {
    show: PathBuf,
    amount: Amount,
    seed: u64,
    bench: bool,
}

fn options() -> Option<Options> {
    let mut options = Options { show: PathBuf::new(), amount: Amount::Usual, seed: 1, bench: false };
    let mut words = std::env::args().skip(1);
    while let Some(word) = words.next() {
        match word.as_str() {
            "--show" => options.show = words.next()?.into(),
            "--short" => options.amount = Amount::Short,
            "--long" => options.amount = Amount::Long,
            "--seed" => options.seed = words.next()?.parse().ok()?,
            "--bench" => options.bench = true,
            _ => return None,
        }
    }
    // Only the benchmark does without the printing program.
    (options.bench || !options.show.as_os_str().is_empty()).then_some(options)
}

/// The parts, with what they share: both sides, the random numbers and the number of things compared.
struct Parts {
    both: Both,
    random: Random,
    amount: Amount,
    total: u64,
    began: Instant,
}

impl Parts {
    /// Ends a part: one line with how many it compared.
    fn end(&mut self, part: &str, compared: u64) {
        self.total += compared;
        println!("{part}: {compared} ({:.1} s)", self.began.elapsed().as_secs_f64());
        self.began = Instant::now();
    }

    fn end_calls(&mut self, part: &str) {
        let compared = self.both.calls;
        self.both.calls = 0;
        self.end(part, compared);
    }

    fn show(&mut self, program: PathBuf) {
        let mut show = show::Show::new(&program);
        show::printed_run(&mut show);
        show::stops(&mut show);
        let (short, long) = (self.amount.of(60, 300, 3_000), self.amount.of(1, 4, 40));
        show::good_schedules(&mut show, &mut self.random, short, long);
        show::bad_schedules(&mut show, &mut self.random, self.amount.of(30, 150, 1_500));
        show::edges(&mut show, &mut self.random);
        self.end("runs of the printing program", show.runs);
    }

    fn reached(&mut self) {
        let usual = [(1, 1), (1, 2), (2, 1), (2, 2), (2, 3), (3, 3)];
        let long = [(1, 3), (1, 4), (3, 1), (3, 2), (2, 4), (4, 4), (5, 2)];
        let limit = self.amount.of(300, 8_000, 150_000);
        let mut states = Vec::new();
        for &(threads, nodes) in usual.iter().chain(if limit > 8_000 { &long[..] } else { &[] }) {
            let (count, all) = reached::compare(&mut self.both, threads, nodes, limit);
            let which = if all { "all" } else { "the first" };
            states.push(format!("{threads} x {nodes} {which} {count}"));
        }
        self.end_calls(&format!("calls on reached states (threads x nodes: {})", states.join(", ")));
    }

    fn walks(&mut self) {
        let length = self.amount.of(300, 4_000, 80_000);
        for (threads, nodes) in walks::SIZES {
            walks::compare(&mut self.both, &mut self.random, &make::fresh(threads, nodes), length);
        }
        self.end_calls("calls on random walks from fresh");
        for (threads, nodes) in walks::SIZES {
            for _ in 0..self.amount.of(1, 3, 30) {
                let start = walks::near_the_limits(&mut self.random, threads, nodes);
                walks::compare(&mut self.both, &mut self.random, &start, 300);
            }
        }
        self.end_calls("calls on random walks near the limits");
    }

    fn ranges(&mut self) {
        ranges::one_thread(&mut self.both, &mut self.random, self.amount.of(20, 2, 1));
        self.end_calls("calls on one thread's states, every order of refusals");
        for (threads, nodes) in [(1, 1), (2, 3), (32, 32), (1, 32), (32, 1), (7, 31)] {
            for n in 0..self.amount.of(1, 3, 20) {
                let fresh = make::fresh(threads, nodes);
                let other = make::random_state(&mut self.random, threads, nodes);
                let saved = if n == 0 { fresh } else { other };
                ranges::each_field(&mut self.both, &mut self.random, &saved);
            }
        }
        self.end_calls("calls on states with each field at its bounds");
        ranges::random_states(&mut self.both, &mut self.random, self.amount.of(1_000, 60_000, 2_000_000));
        self.end_calls("calls on random states");
    }

    fn damage(&mut self) {
        for (threads, nodes) in [(1, 1), (2, 3), (32, 32), (3, 32), (32, 2)] {
            let saved = make::random_state(&mut self.random, threads, nodes);
            let all_values = threads < self.amount.of(1, 3, 33) as u8;
            damage::every_byte(&mut self.both, &mut self.random, &saved, all_values);
            damage::every_length(&mut self.both, &mut self.random, &saved);
            damage::every_length(&mut self.both, &mut self.random, &make::fresh(threads, nodes));
        }
        damage::other_sizes(&mut self.both, &make::fresh(6, 7));
        damage::same_length(&mut self.both, &mut self.random);
        self.end_calls("calls on damaged states");
    }

    fn schedules(&mut self) {
        let (both, random) = (&mut self.both, &mut self.random);
        for (threads, nodes) in [(1, 1), (2, 3), (32, 32)] {
            let saved = make::fresh(threads, nodes);
            schedules::in_order(both, random, &saved);
            schedules::every_byte(both, random, &saved);
            schedules::any_event(both, random, &saved);
            schedules::other_sizes(both, random, &saved);
            schedules::lengths(both, random, &saved);
            schedules::late_stops(both, random, &saved);
            schedules::late_damage(both, random, &saved, self.amount.of(5, 100, 2_000));
        }
        self.end_calls("runs of schedules, good and bad");
    }

    fn sizes(&mut self) {
        sizes::fresh(&mut self.both);
        sizes::fresh_rooms(&mut self.both);
        self.end_calls("fresh states of all sizes");
        for (threads, nodes) in [(1, 1), (1, 2), (3, 5), (2, 31), (32, 32)] {
            for _ in 0..self.amount.of(1, 4, 100) {
                for saved in sizes::linked(&mut self.random, threads, nodes) {
                    sizes::chains(&mut self.both, &saved);
                }
            }
        }
        self.end_calls("chains");
    }
}

fn main() -> ExitCode {
    let Some(options) = options() else {
        eprintln!("usage: compare --show PROGRAM [--short | --long] [--seed N], or compare --bench");
        return ExitCode::from(2);
    };
    if options.bench {
        bench::bench(options.seed);
        return ExitCode::SUCCESS;
    }
    println!("seed {}", options.seed);
    let mut parts = Parts {
        both: Both::default(),
        random: Random::new(options.seed),
        amount: options.amount,
        total: 0,
        began: Instant::now(),
    };
    parts.sizes();
    parts.ranges();
    parts.show(options.show);
    parts.schedules();
    parts.walks();
    parts.reached();
    parts.damage();
    println!("no difference in {} compared", parts.total);
    ExitCode::SUCCESS
}
