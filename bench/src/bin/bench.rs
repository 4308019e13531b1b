//! `bench [MINUTES]`: the proved library against plain Rust, the fastest safe Rust and memcpy, on one recording of a
//! night (of so many minutes; eight hours if not said), a table of ratios with the goals beside them; then runs of
//! samples, the index of events and the overview, each against plain Rust, with what judging takes of a call beside the
//! ratio without it. Median of several rounds, in each of which every call is made once, in turn, so that a busy machine slows them
//! alike.
//!
//!     cargo run --release --offline
//!
//! A ratio is the library's speed as a share of the other's: above 1 the library is the faster one.

use nights::night::{Night, EIGHT_HOURS};
use nights::{epochs, fastest, index, runs, timing};
use second::bytes::Order;
use second::record::Format;
use std::hint::black_box;
use std::process::ExitCode;

const CHANNELS: usize = 20;

/// What the calls write into.
struct Out {
    rows: Vec<i64>,
    bytes: Vec<u8>,
}

/// A call, for its time alone: what it answers is kept from being thrown away.
type Call = fn(&[u8], &mut Out);

/// The library's call, others that do the same, and the goal for the ratio where there is one.
struct Race {
    name: String,
    library: Call,
    others: Vec<(&'static str, Call, Option<f64>)>,
}

fn main() -> ExitCode {
    let args: Vec<String> = std::env::args().skip(1).collect();
    let frames = match &args[..] {
        [] => Some(EIGHT_HOURS),
        [minutes] => minutes.parse::<usize>().ok().map(|minutes| 60 * minutes),
        _ => None,
    };
    let Some(frames) = frames else {
        eprintln!("usage: bench [MINUTES]");
        return ExitCode::from(2);
    };
    println!("| call | against | library, ms | other, ms | ratio | goal |");
    println!("|---|---|---|---|---|---|");
    for (bits, format) in [
        (16, Format::Signed16),
        (24, Format::Signed24),
        (32, Format::Signed32),
    ] {
        let made = Night::new(format, CHANNELS, frames, 1).write(Order::Little);
        let mut races = vec![turn(bits)];
        if bits == 16 {
            races.extend(of_records());
            races.extend(rewriting());
        }
        let mut out = Out {
            rows: vec![0; made.rows.len() * 4],
            bytes: vec![0; made.file.len()],
        };
        run(&made.file, &mut out, &races);
    }
    println!();
    runs::measure(frames);
    println!();
    index::measure(frames);
    println!();
    epochs::measure(frames);
    ExitCode::SUCCESS
}

fn memcpy(file: &[u8], out: &mut Out) {
    out.bytes.copy_from_slice(black_box(file));
    black_box(&mut out.bytes);
}

fn turn(bits: usize) -> Race {
    let by_sample: Call = |file, out| {
        black_box(fastest::turn_by_sample(file, &mut out.bytes)).expect("a night is turned");
    };
    let mut others: Vec<(_, Call, _)> = vec![
        (
            "plain Rust",
            |file, _| {
                black_box(second::turn::turn(file, u64::MAX)).expect("a night is turned");
            },
            None,
        ),
        (
            "fastest safe Rust",
            |file, out| {
                black_box(fastest::turn(file, &mut out.bytes)).expect("a night is turned");
            },
            Some(1.0),
        ),
        ("memcpy", memcpy, (bits != 24).then_some(0.6)),
    ];
    if bits == 24 {
        others.insert(1, ("safe Rust, a sample at a time", by_sample, Some(1.0)));
    }
    Race {
        name: format!("turn, {bits} bits"),
        library: |file, out| {
            black_box(psg::turn(file, &mut out.bytes)).expect("a night is turned");
        },
        others,
    }
}

/// Judging, the table, two questions, and the overview of an epoch beside judging alone.
fn of_records() -> [Race; 5] {
    [
        Race {
            name: "judge".to_string(),
            library: |file, _| {
                black_box(psg::judge(file)).expect("a night is judged");
            },
            others: vec![(
                "second program",
                |file, _| {
                    black_box(second::judge::judge(file)).expect("a night is judged");
                },
                None,
            )],
        },
        Race {
            name: "table".to_string(),
            library: |file, out| {
                black_box(psg::table(file, &mut out.rows)).expect("a night is listed");
            },
            others: vec![(
                "second program",
                |file, _| {
                    black_box(second::table::table(file, u64::MAX)).expect("a night is listed");
                },
                Some(1.0),
            )],
        },
        Race {
            name: "facts".to_string(),
            library: |file, _| {
                black_box(psg::facts(file, 1)).expect("a recording is there");
            },
            others: vec![(
                "second program",
                |file, _| {
                    black_box(second::questions::facts(file, 1)).expect("a recording is there");
                },
                None,
            )],
        },
        Race {
            name: "sample".to_string(),
            library: |file, _| {
                black_box(psg::sample(file, 1, 1, CHANNELS, 99)).expect("a sample is there");
            },
            others: vec![(
                "second program",
                |file, _| {
                    let channel = CHANNELS as u64;
                    black_box(second::questions::sample(file, 1, 1, channel, 99))
                        .expect("a sample is there");
                },
                None,
            )],
        },
        Race {
            name: "overview, one epoch".to_string(),
            library: |file, _| {
                black_box(overview::overview(file, 1, 1, 1)).expect("an epoch is there");
            },
            others: vec![(
                "judge",
                |file, _| {
                    black_box(psg::judge(file)).expect("a night is judged");
                },
                None,
            )],
        },
    ]
}

fn rewriting() -> [Race; 2] {
    [
        Race {
            name: "rewrite, same order".to_string(),
            library: |file, out| {
                black_box(psg::rewrite(file, psg::Order::Little, &mut out.bytes))
                    .expect("a night is rewritten");
            },
            others: vec![("memcpy", memcpy, Some(0.5))],
        },
        Race {
            name: "rewrite, other order".to_string(),
            library: |file, out| {
                black_box(psg::rewrite(file, psg::Order::Big, &mut out.bytes))
                    .expect("a night is rewritten");
            },
            others: vec![("memcpy", memcpy, None)],
        },
    ]
}

/// The races on a file, and a line of the table for each pair.
fn run(file: &[u8], out: &mut Out, races: &[Race]) {
    let calls = races.iter().flat_map(Race::calls);
    let calls: Vec<_> = calls
        .map(|call| move |out: &mut Out| call(black_box(file), out))
        .collect();
    let took = timing::rounds(out, |out| memcpy(file, out), &calls);
    let mut took = took.iter();
    for race in races {
        let library = took.next().expect("a time for each call");
        for ((name, _, goal), other) in race.others.iter().zip(&mut took) {
            line(&race.name, name, library, other, *goal);
        }
    }
}

impl Race {
    fn calls(&self) -> impl Iterator<Item = Call> + '_ {
        let others = self.others.iter().map(|other| other.1);
        [self.library].into_iter().chain(others)
    }
}

fn line(call: &str, against: &str, library: &[f64], other: &[f64], goal: Option<f64>) {
    let ratio = timing::ratio(other, library);
    let goal = goal.map_or(String::new(), |goal| timing::goal(goal, ratio));
    let [library, other] = [library, other].map(|took| 1e3 * timing::median(took.to_vec()));
    println!("| {call} | {against} | {library:.2} | {other:.2} | {ratio:.2} | {goal} |");
}
