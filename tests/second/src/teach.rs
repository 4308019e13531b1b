//! A copy for teaching (request 9 of document 02): the file with the texts that tell whose it is set to zero, byte for
//! byte as long as it was, and all else as it stands.

use crate::judge::judge;
use crate::model::{Item, Model, Recording, Span};
use crate::refusal::{require_room, Refusal};
use crate::turn::refuse_makers;

/// The patient codes whose texts stay.
pub const KEPT: [i32; 2] = [21, 23];

pub fn teach(file: &[u8], room: u64) -> Result<Vec<u8>, Refusal> {
    let model = judge(file)?;
    refuse_makers(&model)?;
    require_room(room, file.len())?;
    let mut out = file.to_vec();
    for text in private_texts(&model) {
        out[text.at..text.at + text.length].fill(0);
    }
    Ok(out)
}

/// The texts that a copy does not show. One that is taken over from an earlier recording is named by each that takes
/// it.
pub fn private_texts(model: &Model) -> Vec<Span> {
    model.recordings.iter().flat_map(texts_of).collect()
}

fn texts_of(recording: &Recording) -> Vec<Span> {
    let patient = recording.patient.iter().filter(|item| tells_whose(item));
    let items = patient.chain(&recording.events).map(|item| item.text);
    let channels = recording.channels.iter().map(|channel| channel.sub.comment);
    let montage = recording.montage.iter().map(|sub| sub.comment);
    let comments = channels.chain(montage).chain([recording.overview.comment]);
    items.chain(comments).collect()
}

/// An empty slot too: its text may be what was there before.
fn tells_whose(item: &Item) -> bool {
    !KEPT.contains(&item.code)
}
