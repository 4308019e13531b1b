//! Files made afresh, valid and damaged, through the library and the second program.

use crate::buffers::written_differs;
use crate::epochs::epochs_differ;
use crate::events::times_differ;
use crate::parts::{part_differs, parts_differ};
use ask::{refused, Answer};
use second::generate::{self, questions, Question};
use second::judge::judge;
use second::model::Model;
use second::random::Random;
use second::refusal::Refusal;
use std::num::NonZero;
use std::thread;
use std::time::Instant;

/// When a run ends.
#[derive(Clone, Copy)]
pub enum Until {
    Count(u64),
    Time(Instant),
}

impl Until {
    /// Whether file `index` is still of the run.
    fn takes(self, index: u64) -> bool {
        match self {
            Until::Count(count) => index < count,
            Until::Time(end) => Instant::now() < end,
        }
    }
}

/// How many files there were, how many of them were accepted, how many questions were asked, and the differences.
#[derive(Default)]
pub struct Compared {
    pub files: u64,
    pub accepted: u64,
    pub questions: u64,
    pub differences: Vec<String>,
}

pub fn compare(seed: u64, until: Until) -> Compared {
    let threads = thread::available_parallelism().map_or(1, NonZero::get);
    let shares = thread::scope(|scope| {
        let workers: Vec<_> = (0..threads)
            .map(|first| scope.spawn(move || share(seed, (first as u64..).step_by(threads), until)))
            .collect();
        workers
            .into_iter()
            .map(|worker| worker.join().expect("a comparison does not panic"))
            .collect::<Vec<_>>()
    });
    let mut all = Compared::default();
    for share in shares {
        all.files += share.files;
        all.accepted += share.accepted;
        all.questions += share.questions;
        all.differences.extend(share.differences);
    }
    all
}

/// One thread's share of the files.
fn share(seed: u64, indices: impl Iterator<Item = u64>, until: Until) -> Compared {
    let mut compared = Compared::default();
    for index in indices.take_while(|&index| until.takes(index)) {
        let file = generate::file(seed, index).bytes;
        // Not the sequence that the file itself was drawn from.
        let asked = questions(&file, &mut Random::new(!seed, index));
        let verdict = judge(&file);
        compared.files += 1;
        compared.accepted += u64::from(verdict.is_ok());
        compared.questions += asked.len() as u64;
        let differences = differences(&file, &verdict, &asked);
        let named = differences
            .into_iter()
            .map(|why| format!("file {index} of seed {seed}: {why}"));
        compared.differences.extend(named);
    }
    compared
}

/// Where the library differs from the second program, whose verdict this is: the verdict, what is written, the times of
/// events, parts cut by any numbers, tracks and overviews, and the answers to questions.
pub fn differences(
    file: &[u8],
    verdict: &Result<Model, Refusal>,
    asked: &[Question],
) -> Vec<String> {
    verdict_differs(file, verdict)
        .into_iter()
        .chain(written_differs(file))
        .chain(times_differ(file, verdict))
        .chain(parts_differ(file))
        .chain(epochs_differ(file, verdict))
        .chain(asked.iter().filter_map(|one| answer_differs(file, one)))
        .collect()
}

/// The header's values of an accepted file, or the refusal: order letter, script letter and K.
fn verdict_differs(file: &[u8], verdict: &Result<Model, Refusal>) -> Option<String> {
    let found = refused(psg::judge(file))
        .map(|header| (header.order.letter(), header.script, header.recordings));
    let expected = match verdict {
        Ok(model) => Ok((model.order.letter(), model.script, model.recordings.len())),
        Err(refusal) => Err(*refusal),
    };
    (found != expected)
        .then(|| format!("judge: {found:?}, but the second program says {expected:?}"))
}

/// A difference in the answer, in the buffer where one was lent, among a run's entries, or in the part of a place.
fn answer_differs(file: &[u8], one: &Question) -> Option<String> {
    let Question { op, args } = one;
    let (found, stray) = match ask::answer(file, op, args) {
        Some(Answer { values, stray }) => (Some(values), stray),
        None => (None, None),
    };
    let expected = second::ask::answer(file, op, args);
    let why = if found != expected || found.is_none() {
        Some(format!(
            "{found:?}, but the second program says {expected:?}"
        ))
    } else if let Some(place) = stray {
        Some(format!("the lent buffer was written at {place}"))
    } else {
        let values = found?.ok()?;
        match *op {
            "run_int" => entry_differs(file, 0, args, &values),
            "run_float" => entry_differs(file, 1, args, &values),
            "place" => placed_differs(file, args),
            _ => None,
        }
    };
    why.map(|why| format!("{op} {args:?}: {why}"))
}

/// The first entry of a run, of floats or not, that is not what the single question answers.
fn entry_differs(file: &[u8], is_float: u8, args: &[u64], values: &str) -> Option<String> {
    let [recording, frame, channel, first, ..] = args[..] else {
        return None;
    };
    values
        .split_whitespace()
        .zip(first..)
        .find_map(|(entry, sample)| {
            let single = ask::answer(file, "sample", &[recording, frame, channel, sample])?.values;
            let same = single == Ok(format!("{is_float} {entry}"));
            (!same).then(|| format!("{entry}, but sample {sample} is {single:?}"))
        })
}

/// A difference in the part that is cut by a place which was answered.
fn placed_differs(file: &[u8], args: &[u64]) -> Option<String> {
    let &[recording, frame, channel] = args else {
        return None;
    };
    let [recording, frame, channel] = [recording, frame, channel].map(|arg| arg as usize);
    let place = psg::place(file, recording, frame, channel).ok()?;
    part_differs(file, place)
}
