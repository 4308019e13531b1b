//! Damaged files: a valid one with something wrong, so that every refusal is
//! met at every place that has one. A damage may by chance leave a file valid.

mod disagreement;
mod electrodes;
mod field;
mod header;
mod length;
mod noise;
mod older;
mod padding;
mod parts;

pub use header::{NO_FORMS, NO_IDENTIFIERS};

use super::draw::{self, Shape, SMALL};
use super::plan::{FilePlan, RecordingPlan};
use super::sheet::{write, Sheet};
use crate::judge::judge;
use crate::random::Random;

type Damage = fn(&mut Random) -> Sheet;

/// Every damage, with its weight.
const DAMAGES: &[(usize, Damage)] = &[
    (9, header::wrong_header),
    (4, header::wrong_identifier),
    (2, header::short_file),
    (20, field::wrong_head_field),
    (4, field::wrong_head),
    (34, field::wrong_field),
    (4, field::wrong_date),
    (16, field::several_wrong_fields),
    (3, header::wrong_recording_count),
    (3, length::bytes_appended),
    (4, length::cut),
    (5, length::recording_shortened),
    (6, parts::parts_in_disorder),
    (3, parts::maker_misplaced),
    (7, padding::padding_not_zero),
    (6, padding::padding_too_long),
    (8, disagreement::items_disagree),
    (10, disagreement::counts_disagree),
    (5, disagreement::frames_disagree),
    (5, disagreement::seconds_do_not_fit),
    (5, disagreement::another_period),
    (2, disagreement::a_sample_too_many),
    (5, noise::bytes_disturbed),
    (4, field::regrouped),
    (4, field::least_length),
    (1, noise::order_mistaken),
    (1, noise::garbage),
    (1, length::about_the_listing_limit),
    (12, electrodes::wrong_montage_field),
    (12, electrodes::wrong_lead),
    (8, electrodes::montage_disagrees),
    (5, electrodes::montage_misplaced),
    (8, electrodes::other_form),
    (15, older::relabelled),
    (15, older::one_breach),
];

/// The share of files with a second damage close to the first refusal.
const TWICE_PERCENT: usize = 25;

/// A file with one of the damages, or two.
pub fn draw_damaged(random: &mut Random) -> Sheet {
    let damage = random.pick_weighted(DAMAGES);
    let mut sheet = damage(random);
    if random.chance(TWICE_PERCENT) {
        // Which of the two is met first depends on the order of the tests.
        if let Err(refusal) = judge(&sheet.bytes) {
            field::set_any_about(random, &mut sheet, refusal.at);
        }
    }
    sheet
}

fn valid(random: &mut Random) -> Sheet {
    let plan = draw::draw_any(random);
    write(random, &plan)
}

/// A small plan with makers' records, so that those are damaged too.
fn small_plan(random: &mut Random) -> FilePlan {
    let makers = random.pick(&[0, 0, 30]);
    draw::draw_shaped(random, &Shape { makers, ..SMALL })
}

/// One of the recordings; the later ones are as frequent as the first.
fn any_recording<'a>(random: &mut Random, plan: &'a mut FilePlan) -> &'a mut RecordingPlan {
    let index = random.below(plan.recordings.len());
    &mut plan.recordings[index]
}
