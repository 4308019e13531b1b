//! Single fields set to values at or near the edges of their rules.

use super::{any_recording, small_plan, valid};
use crate::generate::draw::{self, Shape, SMALL};
use crate::generate::edges;
use crate::generate::sheet::{write, Field, Place, Sheet};
use crate::judge::judge;
use crate::random::Random;
use crate::record::{self, Extent, HEAD};

/// Most files have a maker's record to damage.
const WITH_MAKERS: Shape = Shape {
    makers: 30,
    ..SMALL
};

pub fn wrong_head_field(random: &mut Random) -> Sheet {
    let plan = draw::draw_shaped(random, &WITH_MAKERS);
    let mut sheet = write(random, &plan);
    let place = any_place(random, &sheet, |field| usize::from(field.in_head()));
    set_near_edge(random, &mut sheet, &place);
    sheet
}

/// Several fields of one head: which is refused first?
pub fn wrong_head(random: &mut Random) -> Sheet {
    let plan = small_plan(random);
    let mut sheet = write(random, &plan);
    let is_size = |field| matches!(field, Field::Size(_));
    let first = any_place(random, &sheet, |field| usize::from(is_size(field)));
    let head = first.at..first.at + HEAD;
    for place in sheet.places.clone() {
        if head.contains(&place.at) && random.chance(50) {
            set_near_edge(random, &mut sheet, &place);
        }
    }
    sheet
}

pub fn wrong_field(random: &mut Random) -> Sheet {
    let mut sheet = valid(random);
    let place = any_place(random, &sheet, edges::count);
    set_near_edge(random, &mut sheet, &place);
    sheet
}

/// Two or three fields close together, each refused by itself: which comes
/// first?
pub fn several_wrong_fields(random: &mut Random) -> Sheet {
    let mut sheet = valid(random);
    let mut wrong = Vec::new();
    let first = any_place(random, &sheet, edges::count);
    let mut place = Some(first);
    for _ in 0..random.between(2, 3) {
        if let Some(place) = place {
            let value = refused_value(random, &mut sheet, &place);
            wrong.extend(value.map(|value| (place, value)));
        }
        place = any_place_about(random, &sheet, first.at);
    }
    for (place, value) in wrong {
        sheet.set(&place, value);
    }
    sheet
}

/// A value for which the sheet, valid before and after, is refused.
fn refused_value(random: &mut Random, sheet: &mut Sheet, place: &Place) -> Option<i32> {
    const TRIES: usize = 8;
    let now = sheet.get(place);
    for _ in 0..TRIES {
        let value = edges::value(random, sheet, place);
        sheet.set(place, value);
        let refused = judge(&sheet.bytes).is_err();
        sheet.set(place, now);
        if refused {
            return Some(value);
        }
    }
    None
}

/// A date that is nearly right: its three fields are judged together.
pub fn wrong_date(random: &mut Random) -> Sheet {
    const DATES: [[i32; 3]; 16] = [
        [1900, 2, 29],
        [2100, 2, 29],
        [100, 2, 29],
        [2023, 2, 29],
        [2000, 2, 30],
        [1, 1, 0],
        [1, 0, 1],
        [0, 1, 1],
        [0, 0, 1],
        [2020, 4, 31],
        [2020, 6, 31],
        [2020, 9, 31],
        [2020, 11, 31],
        [2020, 12, 32],
        [9999, 13, 1],
        [10_000, 1, 1],
    ];
    let mut plan = small_plan(random);
    let recording = any_recording(random, &mut plan);
    if let Some(overview) = recording.overview() {
        overview.date = random.pick(&DATES);
    }
    write(random, &plan)
}

/// Another size and multiplier for the same length, or nearly.
pub fn regrouped(random: &mut Random) -> Sheet {
    let mut sheet = valid(random);
    let is_grouped = |field| matches!(field, Field::Size(kind) if kind.rules().multiplied);
    let place = any_place(random, &sheet, |field| usize::from(is_grouped(field)));
    let length = sheet.record_at(place.at).length;
    let mut multipliers: Vec<usize> = (1..=record::MOST_MULTIPLIER as usize).collect();
    if random.chance(60) {
        multipliers.retain(|times| length.is_multiple_of(*times));
    }
    let times = random.pick(&multipliers);
    let size = random.pick(&[length / times, length.div_ceil(times)]);
    set_group(&mut sheet, &place, size, times);
    sheet
}

/// A length about the least of the record's kind, as any product.
pub fn least_length(random: &mut Random) -> Sheet {
    let plan = draw::draw_shaped(random, &WITH_MAKERS);
    let mut sheet = write(random, &plan);
    let is_size = |field| matches!(field, Field::Size(_));
    let place = any_place(random, &sheet, |field| usize::from(is_size(field)));
    let rules = sheet.record_at(place.at).kind.rules();
    let least = match rules.extent {
        Extent::Fixed(size) => size as usize,
        Extent::AtLeast(length) => length as usize,
    };
    let length = (least + random.below(3)).saturating_sub(1);
    let most = if rules.multiplied { length } else { 0 };
    let mut multipliers: Vec<usize> = (0..=most).collect();
    multipliers.retain(|times| length.is_multiple_of((*times).max(1)));
    let times = random.pick(&multipliers);
    set_group(&mut sheet, &place, length / times.max(1), times);
    sheet
}

/// Sets the size field at `place` and the multiplier of the same head.
fn set_group(sheet: &mut Sheet, place: &Place, size: usize, multiplier: usize) {
    let order = sheet.order;
    let multiplier_at = place.at + record::MULTIPLIER_AT;
    order.put(&mut sheet.bytes, place.at, 4, size as i32);
    order.put(&mut sheet.bytes, multiplier_at, 4, multiplier as i32);
}

/// Sets a field not far from a position, if there is one.
pub fn set_any_about(random: &mut Random, sheet: &mut Sheet, at: usize) {
    if let Some(place) = any_place_about(random, sheet, at) {
        set_near_edge(random, sheet, &place);
    }
}

fn any_place_about(random: &mut Random, sheet: &Sheet, at: usize) -> Option<Place> {
    let reach = random.pick(&[9, 20, 64, 160]);
    let near = at.saturating_sub(reach)..at + reach;
    let mut places = sheet.places.clone();
    // The file may be cut by now; a size is set with an eye to its whole head.
    places.retain(|place| near.contains(&place.at) && place.at + HEAD <= sheet.bytes.len());
    (!places.is_empty()).then(|| random.pick(&places))
}

/// Any place: first the sort of field, by its weight, so that rare ones are not
/// drowned, then one of its places, the last one often.
pub fn any_place(random: &mut Random, sheet: &Sheet, weight: impl Fn(Field) -> usize) -> Place {
    let mut fields: Vec<Field> = sheet.places.iter().map(|place| place.field).collect();
    fields.sort();
    fields.dedup();
    let weighted: Vec<(usize, Field)> = fields.into_iter().map(|f| (weight(f), f)).collect();
    let field = random.pick_weighted(&weighted);
    let places: Vec<&Place> = sheet.places.iter().filter(|p| p.field == field).collect();
    match random.below(4) {
        0 => *places[places.len() - 1],
        _ => *places[random.below(places.len())],
    }
}

pub fn set_near_edge(random: &mut Random, sheet: &mut Sheet, place: &Place) {
    let value = edges::value(random, sheet, place);
    sheet.set(place, value);
}
