//! Damages of the electrode form: leads, montages, and records of the other form.

use super::any_recording;
use super::disagreement::{held, INHERITING};
use super::field::{any_place, set_near_edge};
use crate::generate::draw::{self, Shape, SMALL};
use crate::generate::plan::{ChannelsPlan, FilePlan, PartPlan, RecordingPlan};
use crate::generate::sheet::{write, Field, Place, Sheet};
use crate::header::Form;
use crate::random::Random;
use crate::record::{Kind, MOST_CHANNELS};

/// Every recording has a 350; many inherit the 320 that its leads are about.
const INHERITING_MONTAGES: Shape = Shape {
    montages: 100,
    ..INHERITING
};

/// A small plan of electrodes with a 350 in every recording.
fn montage_plan(random: &mut Random) -> FilePlan {
    let shape = Shape {
        makers: random.pick(&[0, 0, 30]),
        montages: 100,
        ..SMALL
    };
    draw::draw_formed(random, &shape, Form::Electrodes)
}

/// A field of a 350 or a 355, its head's too, at or near an edge of its rule.
pub fn wrong_montage_field(random: &mut Random) -> Sheet {
    let plan = montage_plan(random);
    let mut sheet = write(random, &plan);
    let place = any_place(random, &sheet, |field| usize::from(in_montage(field)));
    set_near_edge(random, &mut sheet, &place);
    sheet
}

fn in_montage(field: Field) -> bool {
    match field {
        Field::Size(kind)
        | Field::Code(kind)
        | Field::Serial(kind)
        | Field::Multiplier(kind)
        | Field::SubCount(kind)
        | Field::SubSize(kind) => matches!(kind, Kind::Montage | Kind::MontageChannel),
        Field::Lead1 | Field::Lead2 => true,
        _ => false,
    }
}

/// G1 or G2 about the last electrode of the 320 that holds, whatever 100 counts, or with high bits about 3.
pub fn wrong_lead(random: &mut Random) -> Sheet {
    let mut plan = draw::draw_formed(random, &INHERITING_MONTAGES, Form::Electrodes);
    let index = random.below(plan.recordings.len());
    let electrodes = held(&mut plan.recordings[..=index]).len() as i32;
    let recording = &mut plan.recordings[index];
    if let Some(montage) = recording.montage() {
        let channel = random.below(montage.leads.len());
        let lead = match random.below(5) {
            0..=2 => electrodes + random.between(0, 2),
            3 => random.between(3, 5) << 16 | random.between(0, electrodes + 1),
            _ => random.pick(&[-1, -0x1_0000, i32::MIN, i32::MAX, 0xffff, 1 << 31 | 1]),
        };
        montage.leads[channel][random.below(2)] = lead;
    }
    if let Some(overview) = recording.overview().filter(|_| random.chance(30)) {
        // An inherited 320 is held against 100 later, at the 140.
        overview.channels += random.pick(&[-1, 1, 1, 2]);
    }
    write(random, &plan)
}

/// The count of montage channels: its own values, against the record's size, and not against 100.
pub fn montage_disagrees(random: &mut Random) -> Sheet {
    let mut plan = montage_plan(random);
    let recording = any_recording(random, &mut plan);
    let channels = recording.overview().map_or(1, |overview| overview.channels);
    if let Some(montage) = recording.montage() {
        match random.below(5) {
            0 => montage.count += random.pick(&[-1, 1]),
            1 => montage.count = random.pick(&[-1, 0, MOST_CHANNELS, MOST_CHANNELS + 1]),
            2 => montage.count = channels,
            3 => {
                montage.leads.pop();
            }
            _ => montage.leads.push([0, 0]),
        }
    }
    recording.settle();
    write(random, &plan)
}

/// A 350 before the 200, before what stands in front of that, behind the 140, or twice.
pub fn montage_misplaced(random: &mut Random) -> Sheet {
    let mut plan = montage_plan(random);
    let recording = any_recording(random, &mut plan);
    if let Some(at) = recording.parts.iter().position(is_montage) {
        let montage = recording.parts[at].clone();
        if random.chance(75) {
            recording.parts.remove(at);
        }
        let events = recording.parts.iter().position(is_events);
        let any = random.below(recording.parts.len() + 1);
        let to = random.pick(&[events.unwrap_or(any), any]);
        recording.parts.insert(to, montage);
    }
    recording.settle();
    write(random, &plan)
}

fn is_montage(part: &PartPlan) -> bool {
    matches!(part, PartPlan::Montage(_))
}

fn is_events(part: &PartPlan) -> bool {
    matches!(part, PartPlan::Items(items) if items.kind == Kind::Events)
}

/// Records of the other form: all of them, by the header; a list; a 350 among channels; or one sub's code.
pub fn other_form(random: &mut Random) -> Sheet {
    let mut plan = montage_plan(random);
    match random.below(4) {
        0 => plan.form = plan.form.other(),
        1 => {
            if random.chance(50) {
                plan = draw::draw_formed(random, &SMALL, Form::Channels);
            }
            let other = plan.form.other().list();
            let mut lists: Vec<_> = lists(&mut plan).collect();
            let any = random.below(lists.len());
            lists[any].kind = other;
        }
        2 => {
            plan.form = Form::Channels;
            lists(&mut plan).for_each(|list| list.kind = Kind::Channels);
        }
        _ => return other_sub(random, &plan),
    }
    write(random, &plan)
}

/// The lists of channels or electrodes that the recordings hold.
fn lists(plan: &mut FilePlan) -> impl Iterator<Item = &mut ChannelsPlan> {
    let recordings = plan.recordings.iter_mut();
    recordings.filter_map(RecordingPlan::channels)
}

/// A sub with the code of another list's.
fn other_sub(random: &mut Random, plan: &FilePlan) -> Sheet {
    const SUBS: [Kind; 3] = [Kind::Channel, Kind::Electrode, Kind::MontageChannel];
    let mut sheet = write(random, plan);
    let is_sub = |place: &&Place| matches!(place.field, Field::Code(kind) if SUBS.contains(&kind));
    let subs: Vec<Place> = sheet.places.iter().filter(is_sub).copied().collect();
    let place = random.pick(&subs);
    sheet.set(&place, random.pick(&SUBS).rules().code);
    sheet
}
