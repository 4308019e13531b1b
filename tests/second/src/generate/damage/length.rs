//! Damages of the file's length and of a recording's.

use super::{small_plan, valid};
use crate::generate::draw::{self, SMALL};
use crate::generate::plan::{MakerPlan, PartPlan};
use crate::generate::sheet::{write, RecordPlace, Sheet};
use crate::header;
use crate::listing;
use crate::random::Random;
use crate::record::{self, Kind, HEAD};

pub fn bytes_appended(random: &mut Random) -> Sheet {
    let mut sheet = valid(random);
    let count = random.pick(&[1, 2, 15, 16, 17, 40]);
    let more = match random.below(3) {
        0 => vec![0; count],
        1 => random.bytes(count),
        // A whole recording too many, or the start of one.
        _ => sheet.bytes[header::LENGTH..][..count.min(32)].to_vec(),
    };
    sheet.bytes.extend(more);
    sheet
}

pub fn cut(random: &mut Random) -> Sheet {
    let mut sheet = valid(random);
    let at = match random.below(4) {
        0 => random.below(sheet.bytes.len()),
        1 => about_a_record(random, &sheet, |record| record.kind == Kind::Recording),
        2 => sheet.bytes.len() - 1,
        _ => about_a_record(random, &sheet, |_| true),
    };
    sheet.bytes.truncate(at);
    sheet
}

/// A recording that ends too early by its own size, so that one of its records
/// lacks the room. What follows the recording stays.
pub fn recording_shortened(random: &mut Random) -> Sheet {
    let plan = small_plan(random);
    let mut sheet = write(random, &plan);
    let mut recordings = sheet.records.clone();
    recordings.retain(|record| record.kind == Kind::Recording);
    let recording = random.pick(&recordings);
    let end = recording.at + recording.length;
    let least = recording.at + HEAD;
    let at = match random.below(4) {
        0 => least + random.below(end - least),
        _ => about_a_record(random, &sheet, |_| true).clamp(least, end),
    };
    sheet.bytes.drain(at..end);
    let order = sheet.order;
    let size_at = recording.at + record::SIZE_AT;
    let multiplier_at = recording.at + record::MULTIPLIER_AT;
    order.put(&mut sheet.bytes, size_at, 4, (at - recording.at) as i32);
    order.put(&mut sheet.bytes, multiplier_at, 4, 0);
    sheet
}

/// A valid file that a maker's record brings to the limit of `listing`.
pub fn about_the_listing_limit(random: &mut Random) -> Sheet {
    let mut plan = draw::draw_shaped(random, &SMALL);
    let wanted = listing::MOST_BYTES + random.pick(&[0, 0, 1, 2, 500]) - random.below(2);
    let recording = &mut plan.recordings[0];
    recording.multiplier = 0;
    recording.settle();
    let spare = wanted - plan.length();
    let maker = MakerPlan {
        multiplier: 0,
        length: spare,
        ..draw::draw_maker(random)
    };
    plan.recordings[0].parts.insert(1, PartPlan::Maker(maker));
    write(random, &plan)
}

/// A position at a record's start or end or a little after.
fn about_a_record(random: &mut Random, sheet: &Sheet, passes: fn(&RecordPlace) -> bool) -> usize {
    let mut records = sheet.records.clone();
    records.retain(passes);
    let record = random.pick(&records);
    let edge = random.pick(&[record.at, record.at + record.length]);
    edge + random.pick(&[0, 0, 0, 1, 4, 8, 15, 16, 17])
}
