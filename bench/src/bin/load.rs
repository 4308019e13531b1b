//! `load [--small]`: forty recordings of eight hours, on all cores at once, judged, listed and turned by the proved
//! library; each result is compared with what the recording was made to give. Prints files and bytes a second, and how
//! many results were lost; status 1 if any was. `--small` takes ten minutes of each night, for the gate.
//!
//!     cargo run --release --offline --bin load
//!
//! A night is 196 to 288 MB, so each core makes its own, waits for the others, calls the library, and looks at what it
//! answered, one night after the other: at any time a core holds two files, the one lent and the one written. Only the
//! calls are timed, while all cores are calling.

use ask::{Answer, Lent};
use nights::night::{Night, EIGHT_HOURS};
use psg::{Facts, Refusal};
use second::bytes::Order;
use second::lines::{listed, written};
use second::record::Format;
use second::table::ROW_NUMBERS;
use std::num::NonZero;
use std::process::ExitCode;
use std::sync::Barrier;
use std::thread;
use std::time::{Duration, Instant};

const NIGHTS: usize = 40;
const SMALL: usize = 600;
const CALLS: [&str; 3] = ["judged", "listed", "turned"];
/// Room beyond an answer, that has to stay as it was.
const BEYOND: usize = 9;

fn main() -> ExitCode {
    let args: Vec<String> = std::env::args().skip(1).collect();
    let args: Vec<&str> = args.iter().map(String::as_str).collect();
    let frames = match args[..] {
        [] => EIGHT_HOURS,
        ["--small"] => SMALL,
        _ => {
            eprintln!("usage: load [--small]");
            return ExitCode::from(2);
        }
    };
    let cores = thread::available_parallelism().map_or(1, NonZero::get);
    let cores = cores.min(NIGHTS);
    println!("{NIGHTS} recordings of {frames} seconds on {cores} cores at once");
    let rounds = all_nights(frames, cores);
    let calls = (0..CALLS.len()).map(|call| (CALLS[call], call..call + 1));
    for (name, which) in calls.chain([("all", 0..CALLS.len())]) {
        report(name, &rounds, |done| done.took[which.clone()].iter().sum());
    }
    let lost: usize = rounds.iter().flatten().map(|done| done.lost).sum();
    println!("{} results, {lost} lost", NIGHTS * CALLS.len());
    ExitCode::from(u8::from(lost > 0))
}

/// What was done with a night.
struct Done {
    bytes: usize,
    took: [Duration; CALLS.len()],
    lost: usize,
}

/// A round is as long as its slowest core.
fn report(name: &str, rounds: &[Vec<Done>], took: impl Fn(&Done) -> Duration) {
    let slowest = |round: &Vec<Done>| round.iter().map(&took).max().unwrap_or_default();
    let seconds = rounds.iter().map(slowest).sum::<Duration>().as_secs_f64();
    let bytes: usize = rounds.iter().flatten().map(|done| done.bytes).sum();
    println!(
        "{name:8} {:10.1} files/s {:10.2} GB/s",
        NIGHTS as f64 / seconds,
        bytes as f64 / seconds / 1e9
    );
}

/// All nights, by rounds of one night a core.
fn all_nights(frames: usize, cores: usize) -> Vec<Vec<Done>> {
    let together = Barrier::new(cores);
    let mut shares: Vec<_> = thread::scope(|scope| {
        let workers: Vec<_> = (0..cores)
            .map(|core| {
                let together = &together;
                scope.spawn(move || share(frames, core, cores, together))
            })
            .collect();
        let shares = workers.into_iter().map(|worker| worker.join());
        shares
            .map(|share| share.expect("a worker does not panic").into_iter())
            .collect()
    });
    let rounds = 0..NIGHTS.div_ceil(cores);
    rounds
        .map(|_| shares.iter_mut().filter_map(Iterator::next).collect())
        .collect()
}

/// One core's nights. A core without a night in the last round waits with the others.
fn share(frames: usize, core: usize, cores: usize, together: &Barrier) -> Vec<Done> {
    let mut all = Vec::new();
    for index in (core..NIGHTS.next_multiple_of(cores)).step_by(cores) {
        let mut work = (index < NIGHTS).then(|| Work::new(index, frames));
        together.wait();
        let called = work.as_mut().map(Work::call);
        together.wait();
        all.extend(work.zip(called).map(|(work, called)| work.done(called)));
    }
    all
}

/// A night with what is expected of it, and the buffers that are lent for it.
struct Work {
    file: Vec<u8>,
    facts: Facts,
    table: String,
    turned: String,
    rows: Lent<i64>,
    out: Lent<u8>,
}

/// The answers to the three calls, and how long each took.
struct Called {
    facts: Result<Facts, Refusal>,
    rows: Result<usize, Refusal>,
    bytes: Result<usize, Refusal>,
    took: [Duration; CALLS.len()],
}

impl Work {
    /// Night `index`: 20 to 32 channels, eight nights in a row with as many, in either order.
    fn new(index: usize, frames: usize) -> Work {
        let channels = 20 + 3 * (index / 8);
        let night = Night::new(Format::Signed16, channels, frames, index as u64);
        let order = [Order::Little, Order::Big][index % 2];
        let turned = written(&night.write(order.other()).file);
        let made = night.write(order);
        let numbers = ROW_NUMBERS * made.rows.len();
        Work {
            facts: Facts {
                channels: channels as u32,
                frames: frames as u32,
                seconds: 1,
            },
            table: listed(made.rows.len(), made.rows.iter().flatten()),
            turned,
            rows: Lent::new(&made.file, (numbers + BEYOND) as u64),
            out: Lent::new(&made.file, (made.file.len() + BEYOND) as u64),
            file: made.file,
        }
    }

    /// The library has no call that only judges: facts judges the file and reads three numbers.
    fn call(&mut self) -> Called {
        let start = Instant::now();
        let facts = psg::facts(&self.file, 1);
        let judged = start.elapsed();
        let rows = psg::table(&self.file, &mut self.rows.buffer);
        let listed = start.elapsed();
        let bytes = psg::turn(&self.file, &mut self.out.buffer);
        let turned = start.elapsed();
        Called {
            facts,
            rows,
            bytes,
            took: [judged, listed - judged, turned - listed],
        }
    }

    /// A result is lost when the answer, what was written, or what stands beyond it is not as expected.
    fn done(self, called: Called) -> Done {
        let whole = |values| Answer {
            values: Ok(values),
            stray: None,
        };
        let kept = [
            called.facts == Ok(self.facts),
            self.rows.listed(called.rows) == whole(self.table),
            self.out.written(called.bytes) == whole(self.turned),
        ];
        Done {
            bytes: self.file.len(),
            took: called.took,
            lost: kept.iter().filter(|kept| !**kept).count(),
        }
    }
}
