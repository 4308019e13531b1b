//! What the events of an accepted file show, in words.

use super::shown::true_of;
use crate::index::{codes, event_kind, index, Entry, EVENT};
use crate::model::{Model, Recording};
use crate::record::Format;
use std::collections::BTreeSet;

/// Of a code that stays for so many samples some may be passed over at once.
const LONG: usize = 16;

/// A channel's codes in a recording, frame by frame.
type Frames = Vec<Vec<u16>>;

pub fn shown(file: &[u8], model: &Model) -> BTreeSet<String> {
    let entries = index(file, u64::MAX).expect("an accepted file");
    let mut shown: BTreeSet<String> = entries.iter().flat_map(coded).collect();
    let recordings: BTreeSet<i64> = entries.iter().map(|entry| entry[0]).collect();
    shown.extend((!entries.is_empty()).then(|| format!("events in {:?}", model.form)));
    let all: Vec<Vec<Frames>> = model
        .recordings
        .iter()
        .map(|recording| of_recording(file, model, recording))
        .collect();
    for (recording, channels) in model.recordings.iter().zip(&all) {
        shown.extend(unlisted(recording));
        shown.extend(channels.iter().flat_map(|frames| in_channel(frames)));
    }
    let two = |channels: &Vec<Frames>| channels.iter().filter(|frames| has_any(frames)).count() > 1;
    let whole = true_of(&[
        (recordings.len() > 1, "events in several recordings"),
        (all.iter().any(two), "events in two channels"),
        (
            all.windows(2).any(|pair| goes_on(&pair[0], &pair[1])),
            "an event that the recording before ended with",
        ),
    ]);
    shown.extend(whole.into_iter().map(str::to_string));
    shown
}

/// The kind of an entry's code, and the code itself where it is the first or the last of a user's own.
fn coded([.., code]: &Entry) -> Vec<String> {
    let kind = event_kind(*code as u64).expect("a code of 16 bits");
    let edge = [0x1000, 0xffff].contains(code).then(|| code.to_string());
    let sorts = [kind.to_string()].into_iter().chain(edge);
    sorts.map(|sort| format!("event {sort}")).collect()
}

/// The codes of each channel; none where it is not one of events.
fn of_recording(file: &[u8], model: &Model, recording: &Recording) -> Vec<Frames> {
    let channels = recording.channels.iter().zip(&recording.block.slots);
    channels
        .map(|(channel, slot)| {
            let listed = channel.sub.channel_type == EVENT && channel.format == Format::Signed16;
            let frames = recording.block.frames.iter().filter(|_| listed);
            let codes = frames.map(|frame| codes(model.order, file, frame.samples(slot)));
            codes.map(Iterator::collect).collect()
        })
        .collect()
}

/// Channels with samples of which either type or format is that of events.
fn unlisted(recording: &Recording) -> Vec<String> {
    let channels = recording.channels.iter().zip(&recording.block.slots);
    let channels = channels.filter(|(_, slot)| slot.count > 0);
    let sorts = channels.filter_map(|(channel, _)| {
        match (channel.sub.channel_type == EVENT, channel.format) {
            (true, Format::Signed16) => None,
            (true, format) => Some(format!("events of {format:?}")),
            (false, Format::Signed16) => Some("16 bits without events".to_string()),
            (false, _) => None,
        }
    });
    sorts.collect()
}

fn has_any(frames: &[Vec<u16>]) -> bool {
    frames.iter().flatten().any(|code| *code != 0)
}

/// What the codes of a channel show.
fn in_channel(frames: &[Vec<u16>]) -> Vec<String> {
    let all: Vec<u16> = frames.concat();
    let into_next = |pair: &[Vec<u16>]| {
        let (last, first) = (pair[0].last(), pair[1].first());
        last.is_some_and(|code| *code != 0) && last == first
    };
    let mut changes = all.clone();
    changes.dedup();
    let behind = |zero: bool| {
        let again = |codes: &[u16]| codes[0] == codes[2] && codes[0] != 0;
        let mut threes = changes.windows(3);
        threes.any(|codes| again(codes) && (codes[1] == 0) == zero)
    };
    let stays = |codes: &[u16]| codes[0] != 0 && codes.iter().all(|code| *code == codes[0]);
    let forms = true_of(&[
        (
            all.first().is_some_and(|code| *code != 0),
            "an event at once",
        ),
        (
            frames.windows(2).any(into_next),
            "an event that goes on into the next frame",
        ),
        (behind(true), "an event again behind 0"),
        (behind(false), "an event again behind another"),
        (all.windows(LONG).any(stays), "an event that stays"),
        (
            !all.is_empty() && !has_any(frames),
            "a channel of events without one",
        ),
    ]);
    forms.into_iter().map(str::to_string).collect()
}

/// Whether a channel of the second recording begins with the code that it ended with in the first.
fn goes_on(first: &[Frames], second: &[Frames]) -> bool {
    first.iter().zip(second).any(|(first, second)| {
        let last = first.last().and_then(|codes| codes.last());
        let next = second.first().and_then(|codes| codes.first());
        last.is_some_and(|code| *code != 0) && last == next
    })
}
