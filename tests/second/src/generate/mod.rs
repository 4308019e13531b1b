//! Files for the comparison, valid and damaged, drawn from a seed, and questions about them.

mod codes;
mod damage;
mod draw;
mod edges;
mod epochs;
mod plan;
mod questions;
mod sheet;

pub use damage::{NO_FORMS, NO_IDENTIFIERS};
pub use questions::{questions, Question, PLAIN};
pub use sheet::{Field, Sheet};

use crate::random::Random;

const VALID_PERCENT: usize = 30;

/// File `index` of a seed.
pub fn file(seed: u64, index: u64) -> Sheet {
    let mut random = Random::new(seed, index);
    if random.chance(VALID_PERCENT) {
        draw_valid(&mut random)
    } else {
        damage::draw_damaged(&mut random)
    }
}

/// A valid file, whatever the index.
pub fn valid_file(seed: u64, index: u64) -> Sheet {
    draw_valid(&mut Random::new(seed, index))
}

fn draw_valid(random: &mut Random) -> Sheet {
    let plan = draw::draw_any(random);
    sheet::write(random, &plan)
}
