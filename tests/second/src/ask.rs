//! Answers to the questions of a corpus, in its form.

use crate::index::{event_kind, index};
use crate::judge::judge;
use crate::lines::{answer_line, counted, joined, listed, written, Desk, Question};
use crate::model::{Calibration, Item, Model, Sample, Span, Sub};
use crate::overview::{overview, overview_range, Envelope, Epochs, EPOCH_NUMBERS};
use crate::place::{place, Place};
use crate::questions;
use crate::refusal::Refusal;
use crate::rewrite::{rewrite, rewrite_room};
use crate::run::{run_float, run_int, Run};
use crate::table::table;
use crate::teach::teach;
use crate::track::track;
use crate::turn::turn;

/// The answer line to a question line, or why the line is no question.
pub fn answer_to(desk: &mut Desk, line: &str) -> Result<String, String> {
    let Question { file, op, args } = desk.question(line)?;
    let answered = answer(file, op, &args).ok_or_else(|| format!("unknown: {line}"))?;
    Ok(answer_line(answered))
}

/// The values of an answer, or its refusal; nothing when there is no such question.
pub fn answer(file: &[u8], op: &str, args: &[u64]) -> Option<Result<String, Refusal>> {
    Some(match (op, args) {
        ("table", &[room]) => {
            table(file, room).map(|rows| listed(rows.len(), rows.iter().flatten()))
        }
        ("header", &[]) => judge(file).map(|model| header_values(&model)),
        ("facts", &[r]) => questions::facts(file, r)
            .map(|facts| joined(&[facts.channels, facts.frames, facts.seconds])),
        ("channel", &[r, c]) => questions::channel(file, r, c).map(|c| sub_values(&c)),
        ("montage_count", &[r]) => questions::montage_count(file, r).map(|n| n.to_string()),
        ("montage", &[r, c]) => questions::montage(file, r, c).map(|c| sub_values(&c)),
        ("patient_item", &[r, i]) => questions::patient_item(file, r, i).map(|i| item_values(&i)),
        ("event_item", &[r, i]) => questions::event_item(file, r, i).map(|i| item_values(&i)),
        ("clock", &[r, f]) => questions::clock(file, r, f).map(|clock| joined(&clock)),
        ("place", &[r, f, c]) => place(file, r, f, c).map(place_values),
        ("track", &[r, c]) => track(file, r, c).map(|track| joined(&track.numbers())),
        ("sample", &[r, f, c, s]) => questions::sample(file, r, f, c, s).map(sample_values),
        ("run_int", &[ref run @ .., room]) => {
            run_int(file, run_of(run)?, room).map(|samples| joined(&samples))
        }
        ("run_float", &[ref run @ .., room]) => {
            run_float(file, run_of(run)?, room).map(|samples| joined(&samples))
        }
        ("index", &[room]) => {
            index(file, room).map(|entries| counted(entries.len(), &entries.concat()))
        }
        ("event_kind", &[code]) => event_kind(code).map(str::to_string),
        ("overview", &[r, c, epoch]) => overview(file, r, c, epoch).map(overview_values),
        ("overview_range", &[recording, channel, first, number, room]) => {
            let epochs = Epochs {
                recording,
                channel,
                first,
                number,
            };
            overview_range(file, epochs, room)
                .map(|numbers| counted(numbers.len() / EPOCH_NUMBERS, &numbers))
        }
        ("rewrite", &[order, room]) => rewrite(file, order, room).map(|out| written(&out)),
        ("rewrite_room", &[]) => rewrite_room(file).map(|n| n.to_string()),
        ("teach", &[room]) => teach(file, room).map(|out| written(&out)),
        ("turn", &[room]) => turn(file, room).map(|out| written(&out)),
        _ => return None,
    })
}

/// The run that the arguments before the room ask for.
fn run_of(args: &[u64]) -> Option<Run> {
    let &[recording, frame, channel, first, number] = args else {
        return None;
    };
    Some(Run {
        recording,
        frame,
        channel,
        first,
        number,
    })
}

fn header_values(model: &Model) -> String {
    joined(&[
        model.spelling.number(),
        model.version.number(),
        model.form.number(),
        usize::from(model.order.letter()),
        usize::from(model.script),
        model.recordings.len(),
    ])
}

fn span_values(span: Span) -> String {
    joined(&[span.at, span.length])
}

fn item_values(item: &Item) -> String {
    format!("{} {}", item.code, span_values(item.text))
}

fn place_values(place: Place) -> String {
    joined(&[place.position, place.width, place.count])
}

fn overview_values(samples: Option<Envelope>) -> String {
    samples.map_or("empty".to_string(), |samples| joined(&samples.numbers()))
}

fn sample_values(sample: Sample) -> String {
    match sample {
        Sample::Whole(value) => format!("0 {value}"),
        Sample::Float(bits) => format!("1 {bits}"),
    }
}

/// The values of a channel or an electrode; of a montage channel G1 and G2 too,
/// before the texts.
fn sub_values(sub: &Sub) -> String {
    let first = joined(&[
        sub.number,
        sub.flags,
        sub.channel_type,
        sub.format,
        sub.rate,
    ]);
    let calibration = match sub.calibration {
        Calibration::Whole(values) => format!("0 {}", joined(&values)),
        Calibration::Float(bits) => format!("1 {}", joined(&bits)),
    };
    let others = [
        sub.calibration_frequency,
        sub.filter_low,
        sub.filter_high,
        sub.sensitivity,
    ];
    let leads = sub.leads.iter().flatten().copied();
    let last: Vec<i32> = others.into_iter().chain(leads).collect();
    let texts = [sub.label, sub.unit, sub.comment].map(span_values);
    format!("{first} {calibration} {} {}", joined(&last), joined(&texts))
}
