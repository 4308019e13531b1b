//! The questions of a corpus put to the proved libraries, `psg` and above it `overview`, and their answers in the
//! corpus' form. A call that writes is lent a buffer with marks, so that a write beyond its answer shows.

mod lent;

use lent::by_bits;
pub use lent::{marked, Answer, Lent};

use overview::Envelope;
use psg::{Calibration, Channel, EventKind, FloatBits, Heading, Item, Montage, Place, Text, Track};
use second::lines::joined;
use second::refusal::Refusal;
use std::fmt::Display;

/// The library's answer; nothing when it has no such question.
pub fn answer(file: &[u8], op: &str, args: &[u64]) -> Option<Answer> {
    match (op, args) {
        ("table", &[room]) => return Some(table(file, room)),
        ("index", &[room]) => return Some(index(file, room)),
        ("turn", &[room]) => return Some(bytes(file, room, |out| psg::turn(file, out))),
        ("rewrite", &[letter, room]) => {
            let letter = u8::try_from(letter).ok()?;
            let rewrite = |out: &mut [u8]| psg::rewrite_by_letter(file, letter, out);
            return Some(bytes(file, room, rewrite));
        }
        ("overview_range", &[recording, channel, first, number, room]) => {
            let asked = [recording, channel, first, number].map(|arg| arg as usize);
            return Some(epochs(file, asked, room));
        }
        ("run_int", args) => {
            return run(file, args, |[r, f, c, first, number], out| {
                psg::run(file, r, f, c, first, number, out)
            });
        }
        ("run_float", args) => {
            return run(file, args, |[r, f, c, first, number], bits| {
                by_bits(bits, |out| {
                    psg::run_floats(file, r, f, c, first, number, out)
                })
            });
        }
        _ => {}
    }
    let values = refused(question(file, op, args)?);
    Some(Answer {
        values,
        stray: None,
    })
}

/// The library's refusal, as the second program has it.
pub fn refused<T>(answer: Result<T, psg::Refusal>) -> Result<T, Refusal> {
    answer.map_err(|refusal| Refusal::new(refusal.number, refusal.position))
}

fn table(file: &[u8], room: u64) -> Answer {
    let mut lent = Lent::new(file, room);
    let rows = psg::table(file, &mut lent.buffer);
    lent.listed(rows)
}

fn index(file: &[u8], room: u64) -> Answer {
    let mut lent = Lent::for_index(file, room);
    let entries = psg::index(file, &mut lent.buffer);
    lent.indexed(entries)
}

fn epochs(file: &[u8], [recording, channel, first, number]: [usize; 4], room: u64) -> Answer {
    let mut lent = Lent::for_epochs(file, number, room);
    let out = &mut lent.buffer;
    let count = overview::overview_range(file, recording, channel, first, number, out);
    lent.overviewed(count)
}

fn bytes(
    file: &[u8],
    room: u64,
    call: impl Fn(&mut [u8]) -> Result<usize, psg::Refusal>,
) -> Answer {
    let mut lent = Lent::new(file, room);
    let length = call(&mut lent.buffer);
    lent.written(length)
}

/// A run of samples; nothing where the arguments are not as many as one has.
fn run<T: Display + From<u8> + PartialEq>(
    file: &[u8],
    args: &[u64],
    call: impl Fn([usize; 5], &mut [T]) -> Result<usize, psg::Refusal>,
) -> Option<Answer> {
    let (&room, place) = args.split_last()?;
    let place: [u64; 5] = place.try_into().ok()?;
    let mut lent = Lent::for_run(file, room);
    let count = call(place.map(|arg| arg as usize), &mut lent.buffer);
    Some(lent.numbers(count))
}

/// The questions that lend no buffer.
fn question(file: &[u8], op: &str, args: &[u64]) -> Option<Result<String, psg::Refusal>> {
    let args: Vec<usize> = args.iter().map(|&arg| arg as usize).collect();
    Some(match (op, &args[..]) {
        ("header", &[]) => psg::header(file).map(header),
        ("rewrite_room", &[]) => psg::rewrite_room(file).map(|n| n.to_string()),
        ("facts", &[r]) => psg::facts(file, r).map(|f| joined(&[f.channels, f.frames, f.seconds])),
        ("channel", &[r, c]) => psg::channel(file, r, c).map(channel),
        ("montage_count", &[r]) => psg::montage_count(file, r).map(|n| n.to_string()),
        ("montage", &[r, c]) => psg::montage(file, r, c).map(montage),
        ("patient_item", &[r, i]) => psg::patient_item(file, r, i).map(item),
        ("event_item", &[r, i]) => psg::event_item(file, r, i).map(item),
        ("clock", &[r, f]) => psg::clock(file, r, f).map(|c| joined(&[c.hour, c.minute, c.second])),
        ("place", &[r, f, c]) => psg::place(file, r, f, c).map(place),
        ("track", &[r, c]) => psg::track(file, r, c).map(track),
        ("overview", &[r, c, e]) => overview::overview(file, r, c, e).map(envelope),
        ("sample", &[r, f, c, s]) => psg::sample(file, r, f, c, s).map(sample),
        ("event_kind", &[code]) => psg::event_kind(code as u64).map(|k| kind(k).to_string()),
        _ => return None,
    })
}

fn header(h: Heading) -> String {
    joined(&[
        h.spelling.number() as usize,
        h.version as usize,
        h.form as usize,
        h.order.letter().into(),
        h.script.into(),
        h.recordings,
    ])
}

fn text(text: Text) -> String {
    joined(&[text.position, text.length])
}

fn item(item: Item) -> String {
    format!("{} {}", item.code, text(item.text))
}

fn place(place: Place) -> String {
    joined(&[place.position, place.width, place.count])
}

/// The order as its letter.
fn track(track: Track) -> String {
    let order: usize = track.order.letter().into();
    let before = joined(&[order, track.format as usize]);
    let behind = joined(&[track.step, track.frames as usize, track.seconds as usize]);
    format!("{before} {} {behind}", place(track.first))
}

fn envelope(samples: Option<Envelope>) -> String {
    match samples {
        Some(s) => format!("{} {} {}", s.smallest, s.largest, s.count),
        None => "empty".to_string(),
    }
}

fn sample(sample: psg::Sample) -> String {
    match sample {
        psg::Sample::Whole(value) => format!("0 {value}"),
        psg::Sample::Float(FloatBits(bits)) => format!("1 {bits}"),
    }
}

fn kind(kind: EventKind) -> &'static str {
    match kind {
        EventKind::None => "none",
        EventKind::RecordingStart => "recording_start",
        EventKind::RecordingEnd => "recording_end",
        EventKind::CalibrationStart => "calibration_start",
        EventKind::CalibrationEnd => "calibration_end",
        EventKind::InstStart => "INST_start",
        EventKind::InstEnd => "INST_end",
        EventKind::SleepAllowed => "sleep_allowed",
        EventKind::WakeCall => "wake_call",
        EventKind::LightsOut => "lights_out",
        EventKind::LightsOn => "lights_on",
        EventKind::MeasurementStopped => "measurement_stopped",
        EventKind::MeasurementResumed => "measurement_resumed",
        EventKind::User => "user",
        EventKind::Reserved => "reserved",
    }
}

fn channel(c: Channel) -> String {
    descriptor(&c, &[])
}

/// G1 and G2 stand before the texts.
fn montage(m: Montage) -> String {
    descriptor(&m.channel, &[m.g1, m.g2])
}

/// A channel's fields, with these numbers before its texts.
fn descriptor(c: &Channel, inputs: &[i32]) -> String {
    let first = joined(&[c.number, c.flags, c.kind, c.format, c.rate]);
    let calibration = match c.calibration {
        Calibration::Numbers(numbers) => format!("0 {}", joined(&numbers)),
        Calibration::Floats(floats) => format!("1 {}", joined(&floats.map(|float| float.0))),
    };
    let others = [
        c.calibration_frequency,
        c.low_cut,
        c.high_cut,
        c.sensitivity,
    ];
    let last = joined(&[&others, inputs].concat());
    let texts = joined(&[c.label, c.unit, c.comment].map(text));
    format!("{first} {calibration} {last} {texts}")
}
