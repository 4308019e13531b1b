//! A corpus of our own: small files of a seed, valid and damaged, each with what `listing` prints, and questions with
//! their answers.

use crate::ask::answer;
use crate::bytes::Order;
use crate::corpus::shown::shown;
use crate::generate::{self, questions, Question, PLAIN};
use crate::judge::judge;
use crate::lines::answer_line;
use crate::listing::{self, listing};
use crate::model::{FrameBlock, Slot};
use crate::overview::epochs_of;
use crate::random::Random;
use crate::refusal;
use std::collections::{BTreeMap, BTreeSet};
use std::fs;
use std::io;
use std::path::Path;

/// So many files are drawn, to choose from.
const DRAWN: u64 = 40_000;

/// Files are at most so long, but for the first that `listing` does not read.
const MOST_BYTES: usize = 2000;

/// Of those that show nothing new at most a third of the count is accepted, and a fifteenth refused with each number.
const ACCEPTED_SHARE: u64 = 3;
const REFUSED_SHARE: u64 = 15;

/// Of the questions drawn for an accepted file so many are kept, in percent; of a refused one all.
const KEPT_PERCENT: usize = 12;

/// A letter that names no order.
const NO_ORDER: u8 = b'l';

/// Writes NAME.bin and NAME.out for so many files of the seed, questions.ask and questions.ans.
pub fn make(seed: u64, count: u64, folder: &Path) -> io::Result<()> {
    fs::create_dir_all(folder)?;
    let (mut asked, mut answered) = (String::new(), String::new());
    for (index, file) in chosen(seed, count) {
        let name = format!("f{index:06}.bin");
        let path = folder.join(&name);
        fs::write(&path, &file)?;
        fs::write(path.with_extension("out"), listing(&file))?;
        // Not the sequence that the file itself was drawn from.
        for Question { op, args } in about(&file, &mut Random::new(!seed, index)) {
            let line = answer_line(answer(&file, op, &args).expect("a question that is known"));
            asked.push_str(&question_line(&name, op, &args));
            answered.push_str(&format!("{line}\n"));
        }
    }
    fs::write(folder.join("questions.ask"), asked)?;
    fs::write(folder.join("questions.ans"), answered)
}

fn question_line(name: &str, op: &str, args: &[u64]) -> String {
    let args: String = args.iter().map(|arg| format!(" {arg}")).collect();
    format!("{name} {op}{args}\n")
}

/// The files of the seed that are small enough and show what none before them does; then the first of the others, of
/// whose verdict there are not too many. Each with its index.
fn chosen(seed: u64, count: u64) -> BTreeMap<u64, Vec<u8>> {
    let (mut files, mut others) = (BTreeMap::new(), Vec::new());
    let mut all_shown = BTreeSet::new();
    let mut long = false;
    for index in 0..DRAWN {
        let file = generate::file(seed, index).bytes;
        if file.len() > listing::MOST_BYTES && !long {
            long = true;
            files.insert(index, file);
        } else if file.len() <= MOST_BYTES {
            let before = all_shown.len();
            all_shown.extend(shown(&file));
            if all_shown.len() > before {
                files.insert(index, file);
            } else {
                others.push((index, file));
            }
        }
    }
    let mut taken: BTreeMap<Option<u8>, u64> = BTreeMap::new();
    for (index, file) in others {
        let verdict = judge(&file).err().map(|refusal| refusal.number);
        let share = verdict.map_or(ACCEPTED_SHARE, |_| REFUSED_SHARE);
        let times = taken.entry(verdict).or_default();
        if *times < count.div_ceil(share) && (files.len() as u64) < count {
            *times += 1;
            files.insert(index, file);
        }
    }
    files
}

/// The calls that write, then what is asked of the header and some of the other questions.
fn about(file: &[u8], random: &mut Random) -> Vec<Question> {
    let percent = judge(file).map_or(100, |_| KEPT_PERCENT);
    let mut all = writing(file);
    let drawn = questions(file, random);
    let kept = |question: &Question| PLAIN.contains(question) || random.chance(percent);
    all.extend(drawn.into_iter().filter(kept));
    all
}

/// Each call that writes, with just enough room, with one less, with none, and with all there is.
fn writing(file: &[u8]) -> Vec<Question> {
    let rewrite = |letter: u8| ("rewrite", vec![u64::from(letter)]);
    let calls = [
        ("table", vec![]),
        ("index", vec![]),
        ("turn", vec![]),
        rewrite(Order::Little.letter()),
        rewrite(Order::Big.letter()),
        rewrite(NO_ORDER),
        ("run_int", whole_run(file, false)),
        ("run_float", whole_run(file, true)),
        ("overview_range", whole_overview(file)),
    ];
    let mut all = Vec::new();
    for (op, before) in calls {
        let question = |room: u64| Question {
            op,
            args: [&before[..], &[room]].concat(),
        };
        let need = match answer(file, op, &question(0).args) {
            Some(Err(refused)) if refused.number == refusal::OUTPUT_SHORT => refused.at as u64,
            _ => 0,
        };
        let mut rooms = vec![0, need.saturating_sub(1), need, u64::MAX];
        rooms.dedup();
        all.extend(rooms.into_iter().map(question));
    }
    all
}

/// All samples of the first channel of whole numbers, or of floats, in the first frame. Where there is none, channel 1
/// is asked for one.
fn whole_run(file: &[u8], floats: bool) -> Vec<u64> {
    let found = judge(file).ok().and_then(|model| {
        let (channel, slot) = first_of(&model.recordings[0].block, floats)?;
        Some((channel, slot.count))
    });
    let (channel, count) = found.unwrap_or((1, 1));
    vec![1, 1, channel, 0, count]
}

/// All epochs of the first channel of whole numbers in the last recording. Where there is none, channel 1 is asked for
/// one.
fn whole_overview(file: &[u8]) -> Vec<u64> {
    let found = judge(file).ok().and_then(|model| {
        let block = &model.recordings.last()?.block;
        let (channel, _) = first_of(block, false)?;
        Some([model.recordings.len() as u64, channel, 0, epochs_of(block)])
    });
    found.unwrap_or([1, 1, 0, 1]).to_vec()
}

/// The first channel of whole numbers, or of floats, with its number.
fn first_of(block: &FrameBlock, floats: bool) -> Option<(u64, &Slot)> {
    let mut slots = (1..).zip(&block.slots);
    slots.find(|(_, slot)| slot.format.is_float() == floats)
}
