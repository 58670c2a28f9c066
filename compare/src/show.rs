//! The printing program: schedules on standard input, the expected text from the separate machine.

use crate::both::{differ, hex};
use crate::make::{self, Order, ORDERS};
use crate::random::Random;
use crate::schedules::going_on;
use separate::machine;
use std::fs::File;
use std::io::{Read, Write};
use std::path::Path;
use std::process::{Command, Stdio};
use std::sync::mpsc;
use std::thread;
use std::time::Duration;

const PATIENCE: Duration = Duration::from_secs(20);

/// How an input reaches the program.
#[derive(Clone, Copy, Debug)]
enum Way {
    /// Through a pipe, as fast as it goes.
    Pipe,
    /// Through a pipe in pieces of this many bytes, with small pauses.
    Pieces(usize),
    /// From a file.
    File,
}

/// Runs the program and compares what it prints.
pub struct Show<'a> {
    program: &'a Path,
    pub runs: u64,
}

impl Show<'_> {
    pub fn new(program: &Path) -> Show<'_> {
        Show { program, runs: 0 }
    }

    fn compare(&mut self, input: &[u8], way: Way) {
        let mut command = Command::new(self.program);
        if let Way::File = way {
            command.stdin(input_file(input));
        } else {
            command.stdin(Stdio::piped());
        }
        let printed = printed(command, input, way);
        self.judge(printed, machine::text(input), &format!("{way:?}"), &hex(input));
    }

    /// An input that cannot be read is refused as a bad schedule.
    fn compare_unreadable(&mut self, command: Command, what: &str) {
        let printed = printed(command, &[], Way::File);
        self.judge(printed, "refused 2\n".to_string(), what, "(cannot be read)");
    }

    fn judge(&mut self, printed: Vec<u8>, expected: String, way: &str, input: &str) {
        self.runs += 1;
        if printed == expected.as_bytes() {
            return;
        }
        let printed = String::from_utf8_lossy(&printed);
        let same = printed.lines().zip(expected.lines()).take_while(|(left, right)| left == right).count();
        let lines = [&*printed, &expected].map(|text| format!("{:?}", text.lines().nth(same)));
        let ends = [&*printed, &expected].map(|text| {
            let last = text.lines().last().unwrap_or_default();
            format!("{} bytes, the last line {last:?}", text.len())
        });
        let line = format!("line {} of the text", same + 1);
        let input = [("standard input", input.to_string()), ("given by", way.to_string())];
        differ("the printing program", &input, &[(&line, lines), ("the whole text", ends)]);
    }
}

/// A file with this input, already out of the file system's names.
fn input_file(input: &[u8]) -> File {
    let path = std::env::temp_dir().join(format!("compare-input-{}", std::process::id()));
    std::fs::write(&path, input).expect("a temporary file can be written");
    let file = File::open(&path).expect("it was just written");
    std::fs::remove_file(&path).expect("it was just written");
    file
}

/// Runs a command and gives its standard output. It must end by itself, and in time.
fn printed(mut command: Command, input: &[u8], way: Way) -> Vec<u8> {
    let mut child = command.stdout(Stdio::piped()).spawn().expect("the program starts");
    let mut output = child.stdout.take().expect("standard output is a pipe");
    let (sender, receiver) = mpsc::channel();
    let reader = thread::spawn(move || {
        let mut text = Vec::new();
        let read = output.read_to_end(&mut text);
        // The receiver is gone only after the time is up.
        let _ = sender.send(read.map(|_| text));
    });
    if let Some(mut pipe) = child.stdin.take() {
        let pieces = if let Way::Pieces(size) = way { size } else { input.len().max(1) };
        for piece in input.chunks(pieces) {
            // The program may end before it has read everything: a longer input is bad anyway.
            if pipe.write_all(piece).is_err() {
                break;
            }
            if let Way::Pieces(_) = way {
                thread::sleep(Duration::from_millis(1));
            }
        }
    }
    let text = receiver.recv_timeout(PATIENCE);
    let Ok(text) = text else {
        let _ = child.kill();
        differ("the printing program: it does not end", &[("standard input", hex(input))], &[]);
    };
    reader.join().expect("the reading thread ends");
    let status = child.wait().expect("the program was started here");
    if status.code().is_none() {
        differ(&format!("the printing program: {status}"), &[("standard input", hex(input))], &[]);
    }
    text.expect("standard output can be read")
}

const PRINTED_RUN: &str = "n thread line answer tail flag low high
1 1 11 0 0 1 1 1
2 1 12 0 0 1 1 1
3 1 13 0 0 1 1 1
4 1 14 0 1 1 1 2
5 2 0 5 1 1 1 2
end 4 0 5 3 0
";

/// Document 01's run, letter by letter.
pub fn printed_run(show: &mut Show) {
    let events = [(1, 1), (1, 0), (1, 0), (1, 0), (2, 0)];
    let input = make::schedule(1, 1, &events);
    let mut command = Command::new(show.program);
    command.stdin(Stdio::piped());
    let printed = printed(command, &input, Way::Pipe);
    show.judge(printed, PRINTED_RUN.to_string(), "Pipe", &hex(&input));
    show.compare(&input, Way::Pieces(1));
    show.compare(&input, Way::File);
}

/// A good schedule of this many events from fresh.
fn good(random: &mut Random, count: usize) -> Vec<u8> {
    let sizes = make::random_sizes(random);
    let start = make::fresh(sizes.0, sizes.1);
    let order = random.pick(&ORDERS);
    make::schedule(sizes.0, sizes.1, &going_on(random, &start, order, count))
}

/// Schedules that end by themselves or stop, short ones and some long ones.
pub fn good_schedules(show: &mut Show, random: &mut Random, short: usize, long: usize) {
    for n in 0..short {
        let count = random.below(if n % 8 == 0 { 600 } else { 40 });
        let mut input = good(random, count);
        if n % 2 == 0 && count > 0 {
            // Stops of each kind a run from fresh can have: any thread, any node, a node in use.
            let (thread, node) = make::odd_event(random, (input[2], input[3]));
            let at = 4 * (1 + random.below(count));
            (input[at + 2], input[at + 3]) = (thread, node);
        }
        let way = random.pick(&[Way::Pipe, Way::File]);
        show.compare(&input, way);
    }
    for _ in 0..long {
        let input = good(random, 16_383);
        show.compare(&input, Way::Pipe);
    }
}

/// Schedules with a damaged byte, or cut somewhere.
pub fn bad_schedules(show: &mut Show, random: &mut Random, count: usize) {
    for n in 0..count {
        let events = random.below(12);
        let mut input = good(random, events);
        if n % 2 == 0 {
            let at = random.below(input.len());
            input[at] = random.byte();
        } else {
            input.truncate(random.below(input.len() + 1));
        }
        show.compare(&input, Way::Pipe);
    }
}

/// Inputs at the edges of what can be given.
pub fn edges(show: &mut Show, random: &mut Random) {
    let start = make::fresh(3, 3);
    let full = make::schedule(3, 3, &going_on(random, &start, Order::Any, 16_383));
    for way in [Way::Pipe, Way::File] {
        show.compare(&[], way);
        show.compare(&full[..4], way);
        for length in [65_528, 65_532, 65_535, 65_536] {
            show.compare(&full[..length], way);
        }
        for more in [1, 2, 4, 8, 65_536, 1_000_000] {
            let mut longer = full.clone();
            longer.resize(full.len() + more, b'S');
            show.compare(&longer, way);
        }
        show.compare(&vec![0; 65_536], way);
        show.compare(&vec![b'S'; 65_537], way);
    }
    // Reads that end in the middle of a record, and one that brings only the byte too many.
    let short = &full[..4 * 60];
    show.compare(short, Way::Pieces(1));
    show.compare(short, Way::Pieces(7));
    show.compare(&full, Way::Pieces(4_095));
    show.compare(&[&full[..], b"S"].concat(), Way::Pieces(65_536));
    show.compare(&[&full[..], b"SE"].concat(), Way::Pieces(1_025));
    let mut closed = Command::new("sh");
    closed.args(["-c", "exec \"$0\" <&-"]).arg(show.program);
    show.compare_unreadable(closed, "a closed standard input");
    let mut directory = Command::new(show.program);
    directory.stdin(File::open(std::env::temp_dir()).expect("the directory can be opened"));
    show.compare_unreadable(directory, "a directory as standard input");
}

/// Stops 5, 6 and 8; no run of 16,383 events from fresh reaches 7, 9, 10 or 11.
pub fn stops(show: &mut Show) {
    for threads in [1, 2, 32] {
        for nodes in [1, 2, 32] {
            for stop in [(0, 0), (threads + 1, 1), (33, 0), (255, 255), (1, 0), (1, nodes + 1), (1, 255)] {
                show.compare(&make::schedule(threads, nodes, &[stop, (1, 1)]), Way::Pipe);
                show.compare(&make::schedule(threads, nodes, &[(1, 1), (1, 0), stop, (1, 0)]), Way::Pipe);
            }
            show.compare(&make::schedule(threads, nodes, &[(1, 1), (threads, 1), (1, 0)]), Way::Pipe);
        }
    }
}
