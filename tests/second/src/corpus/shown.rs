//! What a file of a corpus shows, in words: its verdict with the place, or the records, rates, paddings, events and
//! epochs that it has.

use super::{epochs, events};
use crate::bytes::Order;
use crate::generate::{NO_FORMS, NO_IDENTIFIERS};
use crate::header::{self, Form, Version, RECORDINGS_AT};
use crate::judge::judge;
use crate::model::{Calibration, Channel, Model, Recording, Sub};
use crate::record::{self, channel, channels, frames, Kind, Rate, HEAD, MICROSECONDS, PROCESSED};
use crate::refusal::{self, Refusal};
use std::collections::BTreeSet;

pub fn shown(file: &[u8]) -> BTreeSet<String> {
    match judge(file) {
        Ok(model) => forms(file, &model),
        Err(refusal) => refusals(file, refusal),
    }
}

/// What an accepted file shows.
fn forms(file: &[u8], model: &Model) -> BTreeSet<String> {
    let mut shown = BTreeSet::from([
        format!("{:?}", model.spelling),
        format!("{:?}", model.version),
        format!("{:?}", model.form),
        format!("{:?}", model.order),
        format!("script {}", model.script),
    ]);
    shown.insert(match model.recordings.len() {
        1 => "one recording".to_string(),
        _ => "several recordings".to_string(),
    });
    if file[RECORDINGS_AT] == b'0' {
        shown.insert("zeros before K".to_string());
    }
    for recording in &model.recordings {
        shown.extend(held(model.form, recording).into_iter().map(str::to_string));
        shown.extend(padded(recording).into_iter().map(str::to_string));
        for channel in recording.channels.iter() {
            shown.insert(format!("{:?}", channel.format));
            shown.insert(rated(channel, recording.block.seconds).to_string());
            shown.insert(format!("type {}", channel.sub.channel_type));
        }
        shown.extend(recording.montage.iter().flat_map(wired));
    }
    shown.extend(events::shown(file, model));
    shown.extend(epochs::shown(file, model));
    shown
}

/// What its rate is in a frame of so many seconds.
fn rated(channel: &Channel, seconds: i32) -> &'static str {
    match channel.rate {
        Rate::None => "no samples",
        Rate::Hertz(_) => "hertz",
        Rate::Microseconds(3906) => "256 Hz",
        Rate::Microseconds(period) => match seconds as u64 * MICROSECONDS % period {
            0 => "a period that divides",
            _ => "a period that does not divide",
        },
    }
}

/// The calibration and the inputs of a montage's channel.
fn wired(sub: &Sub) -> [String; 3] {
    let calibration = match sub.calibration {
        Calibration::Float(_) => "floats in a 355",
        Calibration::Whole(_) => "numbers in a 355",
    };
    let [g1, g2] = sub
        .leads
        .expect("G1 and G2")
        .map(|input| match input >> 16 {
            0 if input > 0 => "input of an electrode".to_string(),
            high => format!("input {high}"),
        });
    [calibration.to_string(), g1, g2]
}

/// What a refused file shows.
fn refusals(file: &[u8], refusal: Refusal) -> BTreeSet<String> {
    let number = refusal.number;
    let mut shown = BTreeSet::from([format!("refused {number}")]);
    shown.extend(form(file).map(|form| format!("refused {number}, {form:?}")));
    shown.extend(in_header(file, refusal).map(|field| format!("{number} for {field}")));
    shown.extend(at_code(file, refusal).map(|code| format!("{number} at {code}")));
    shown.extend(at_field(file, refusal).map(|place| format!("{number} {place}")));
    shown.extend(in_version(file, refusal).map(|version| format!("{number} in {version:?}")));
    shown
}

/// The older version that refuses there what the newest does not.
fn in_version(file: &[u8], refusal: Refusal) -> Option<Version> {
    let label = header::VERSION_AT..header::FORM_AT;
    let version = Version::from_field(file.get(label.clone())?)?;
    let mut newest = file.to_vec();
    newest[label].copy_from_slice(Version::V300.field());
    (judge(&newest).err() != Some(refusal)).then_some(version)
}

/// The form that the header names, if it names one.
fn form(file: &[u8]) -> Option<Form> {
    Form::from_field(file.get(header::FORM_AT..header::ORDER_AT)?)
}

/// What stands where neither spelling does, or neither form.
fn in_header(file: &[u8], refusal: Refusal) -> Option<String> {
    let field = match refusal.number {
        refusal::IDENTIFIER => &file[header::IDENTIFIER_AT..header::VERSION_AT],
        refusal::FORM => &file[header::FORM_AT..header::ORDER_AT],
        _ => return None,
    };
    let is_drawn =
        NO_IDENTIFIERS.iter().any(|no| *no == field) || NO_FORMS.iter().any(|no| *no == field);
    is_drawn.then(|| String::from_utf8_lossy(field).to_string())
}

/// The code of a list or a sub that is not allowed there, and the form.
fn at_code(file: &[u8], refusal: Refusal) -> Option<String> {
    const LISTS: [Kind; 3] = [Kind::Channels, Kind::Electrodes, Kind::Montage];
    if refusal.number != refusal::CODE {
        return None;
    }
    let order = Order::from_letter(file[header::ORDER_AT])?;
    let code = order.i32_at(file, refusal.at);
    let of_a_list = |list: &Kind| {
        list.has_code(code) || list.subs().is_some_and(|subs| subs.kind.has_code(code))
    };
    let form = String::from_utf8_lossy(form(file)?.field());
    LISTS
        .iter()
        .any(of_a_list)
        .then(|| format!("{code} in {form}"))
}

/// The field of a list or of a 140 that is outside its values, or disagrees.
fn at_field(file: &[u8], refusal: Refusal) -> Option<&'static str> {
    if ![refusal::VALUE, refusal::DISAGREEMENT].contains(&refusal.number) {
        return None;
    }
    let order = Order::from_letter(file[header::ORDER_AT])?;
    let number = |at: usize| order.i32_at(file, at);
    let length = |at| record::length(number(at), number(at + record::MULTIPLIER_AT)) as usize;
    let is = |part: usize, kind: Kind| kind.has_code(number(part + record::CODE_AT));
    let mut recording = header::LENGTH;
    while recording + length(recording) <= refusal.at {
        recording += length(recording);
    }
    let (mut part, mut own) = (recording + HEAD, false);
    while part + length(part) <= refusal.at {
        own |= is(part, Kind::Channels) || is(part, Kind::Electrodes);
        part += length(part);
    }
    let field = refusal.at - part;
    let in_sub = field.checked_sub(channels::FIRST);
    let in_sub = in_sub.map_or(0, |field| field % channel::LENGTH);
    let seconds = is(part, Kind::Frames) && field == frames::SECONDS;
    let montage = is(part, Kind::Montage);
    let electrode = is(part, Kind::Electrodes) && in_sub == channel::NUMBER;
    let kind = is(part, Kind::Channels) && in_sub == channel::TYPE;
    let places = true_of(&[
        (seconds && own, "at seconds"),
        (seconds && !own, "at seconds and an inherited 120"),
        (montage && field == channels::COUNT, "at a 350's count"),
        (montage && in_sub == channel::LEADS[0], "at G1"),
        (montage && in_sub == channel::LEADS[1], "at G2"),
        (electrode, "at an electrode code"),
        (
            kind && number(refusal.at) == PROCESSED,
            "for type 101 in a 125",
        ),
    ]);
    places.first().copied()
}

/// Which records it holds, and where makers' records stand.
fn held(form: Form, recording: &Recording) -> Vec<&'static str> {
    let kinds: Vec<Kind> = recording.parts.iter().map(|part| part.kind).collect();
    let has = |kind| kinds.contains(&kind);
    let signals = kinds.iter().position(|kind| *kind == Kind::Frames).unwrap();
    let maker_in = |kinds: &[Kind]| kinds.contains(&Kind::Maker);
    let (montage, inherited) = (has(Kind::Montage), !has(form.list()));
    let more = recording.montage.len() > recording.channels.len();
    let maker_behind = |kind| kinds.windows(2).any(|pair| pair == [kind, Kind::Maker]);
    true_of(&[
        (has(Kind::Events), "a 200"),
        (!has(Kind::Events), "no 200"),
        (inherited && form == Form::Channels, "inherited 120"),
        (inherited && form == Form::Electrodes, "inherited 320"),
        (montage, "a 350"),
        (montage && inherited, "a 350 and an inherited 320"),
        (maker_behind(Kind::Montage), "maker behind 350"),
        (more, "more in a 350 than in a 320"),
        (!has(Kind::Patient), "inherited 130"),
        (!recording.patient.is_empty(), "items"),
        (recording.patient.is_empty(), "an empty 130"),
        (maker_in(&kinds[..signals]), "maker before 140"),
        (maker_in(&kinds[signals..]), "maker behind 140"),
        (recording.block.frames.len() > 1, "several frames"),
    ])
}

/// Where it has padding.
fn padded(recording: &Recording) -> Vec<&'static str> {
    let block = &recording.block;
    let used = frames::FIRST + block.frames.len() * block.frame_length;
    let end = recording.parts.last().unwrap().end();
    let frame = block.frame_length > block.frame_content;
    let signals = block.record.length > used;
    let behind = recording.record.end() > end;
    true_of(&[
        (frame, "padding of a frame"),
        (signals, "padding of a 140"),
        (behind, "padding of a recording"),
        (!frame && !signals && !behind, "no padding"),
    ])
}

pub fn true_of(forms: &[(bool, &'static str)]) -> Vec<&'static str> {
    let shown = forms.iter().filter(|(is, _)| *is);
    shown.map(|(_, form)| *form).collect()
}
