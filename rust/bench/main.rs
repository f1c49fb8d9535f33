//! Measures the library beside the plain Rust implementation of `tests/plain`, in one run: nanoseconds for each entry of a run
//! with n = 16 by each method, and bytes for each second of judging and writing. Each figure is the best of several. Both are given the same
//! files, and both judge a file, run it and lay its records. Beside each schedule stands which part of its entries are spins and blanks.
//! The last line is the ratio of the two at 32,768 random entries of CC-Synch.
#[path = "../tests/inputs/mod.rs"]
mod inputs;
#[path = "../tests/plain/mod.rs"]
mod plain;

use inputs::{Given, Random, CC_SYNCH, DSM_SYNCH};
use std::hint::black_box;
use std::time::{Duration, Instant};

/// How often each figure is measured.
const TRIALS: u32 = 60;

const LENGTHS: [usize; 4] = [4_096, 8_192, 16_384, 32_768];

const N: u8 = 16;

/// The schedules that are measured, each with its name and the thread of an entry.
type Schedule = (&'static str, fn(&mut Random, usize) -> u8);

const SCHEDULES: [Schedule; 3] = [
    ("random", |random, _| random.below(16) as u8),
    ("round-robin", |_, i| (i % 16) as u8),
    // thread 0 has one entry in 256
    ("one starving", |random, i| match i % 256 {
        0 => 0,
        _ => 1 + random.below(15) as u8,
    }),
];

struct Method {
    number: u8,
    /// The method in a listing's head.
    word: &'static str,
    /// Each call alone, its entries one after the other: none is a spin.
    one_by_one: Schedule,
    /// The entries of these calls.
    length: usize,
}

const METHODS: [Method; 2] = [
    Method {
        number: CC_SYNCH,
        word: "cc",
        one_by_one: ("one call by one", |_, i| (i / 21 % 16) as u8),
        length: 16 * 16 * 21,
    },
    Method {
        number: DSM_SYNCH,
        word: "dsm",
        one_by_one: ("one call by one", |_, i| (i / 19 % 16) as u8),
        length: 16 * 16 * 19,
    },
];

/// A queue, 16 threads with 16 requests each, put and take in turn. CC-Synch's file is of version 1.
fn given(method: u8, schedule: Schedule, length: usize) -> Given {
    let mut random = Random(0x9E37_79B9_7F4A_7C15);
    Given {
        version: if method == CC_SYNCH { 1 } else { 2 },
        object: 0,
        n: N,
        h: 8,
        capacity: 64,
        method,
        counts: vec![16; N.into()],
        requests: [[0, 7, 1, 0, 0], [1, 0, 0, 0, 0]].concat().repeat(128),
        schedule: (0..length).map(|i| schedule.1(&mut random, i)).collect(),
    }
}

/// The shortest of several trials of each, in turn, so that both meet the same machine.
fn best_of_both(mut library: impl FnMut(), mut plain: impl FnMut()) -> (Duration, Duration) {
    let timed = |work: &mut dyn FnMut()| {
        let start = Instant::now();
        work();
        start.elapsed()
    };
    let mut best = (Duration::MAX, Duration::MAX);
    for _ in 0..TRIALS {
        best.0 = best.0.min(timed(&mut library));
        best.1 = best.1.min(timed(&mut plain));
    }
    best
}

/// Prints a row: a figure of each, and how many times as long the library takes, which is the answer.
fn row(name: &str, best: (Duration, Duration), figure: impl Fn(f64) -> f64) -> f64 {
    let (library, plain) = (best.0.as_secs_f64(), best.1.as_secs_f64());
    let ratio = library / plain;
    println!(
        "{name:<40} {:>8.1} {:>8.1} {ratio:>8.2}",
        figure(library),
        figure(plain)
    );
    ratio
}

/// Runs a file by both; they agree.
fn runs(file: &[u8]) -> (Duration, Duration) {
    let (mut ours, mut theirs) = ([0; ccs::ENOUGH_FOR_RECORDS], [0; ccs::ENOUGH_FOR_RECORDS]);
    let best = best_of_both(
        || {
            black_box(ccs::run(black_box(file), &mut ours)).expect("a file in range");
        },
        || {
            black_box(plain::run(black_box(file), &mut theirs)).expect("a file in range");
        },
    );
    assert_eq!(ours, theirs, "the two disagree");
    best
}

fn judges(file: &[u8]) -> (Duration, Duration) {
    best_of_both(
        || {
            black_box(ccs::judge(black_box(file))).expect("a file in range");
        },
        || {
            black_box(plain::judge(black_box(file))).expect("a file in range");
        },
    )
}

/// Writes a file from its fields by both; they agree.
fn writes(given: &Given, file: &[u8]) -> (Duration, Duration) {
    let (mut ours, mut theirs) = (vec![0; file.len()], vec![0; file.len()]);
    let best = best_of_both(
        || {
            black_box(ccs::write(black_box(&given.fields()), &mut ours)).expect("fields in range");
        },
        || {
            black_box(plain::write(black_box(&given.plain_fields()), &mut theirs))
                .expect("fields in range");
        },
    );
    assert!(ours == file && theirs == file, "the two disagree");
    best
}

/// A row for a schedule of so many entries, by a method.
fn schedule_row(method: &Method, schedule: Schedule, length: usize) -> f64 {
    let file = given(method.number, schedule, length).bytes();
    let counts = ccs::run(&file, &mut [0; ccs::ENOUGH_FOR_RECORDS]).expect("a file in range");
    let part = |count: u32| format!("{:.0} %", 100.0 * f64::from(count) / length as f64);
    let (spins, blanks) = (part(counts.spins), part(counts.blanks));
    let name = format!(
        "{:<3} {:<15} {length:>6} {spins:>6} {blanks:>6}",
        method.word, schedule.0
    );
    row(&name, runs(&file), |time| time * 1e9 / length as f64)
}

fn main() {
    println!("ns an entry       entries  spins blanks   library    plain    ratio");
    let mut ratio = 0.0;
    for method in &METHODS {
        for schedule in SCHEDULES {
            for length in LENGTHS {
                let this = schedule_row(method, schedule, length);
                if method.number == CC_SYNCH && schedule.0 == "random" {
                    ratio = this;
                }
            }
        }
        schedule_row(method, method.one_by_one, method.length);
    }
    println!("MB a second       bytes                   library    plain    ratio");
    let given = given(CC_SYNCH, SCHEDULES[0], 32_768);
    let file = given.bytes();
    let rate = |time: f64| file.len() as f64 / time / 1e6;
    for (name, best) in [("judge", judges(&file)), ("write", writes(&given, &file))] {
        row(&format!("    {name:<15} {:>6}", file.len()), best, rate);
    }
    println!("ratio {ratio:.2}");
}
