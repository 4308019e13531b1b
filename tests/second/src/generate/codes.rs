//! Codes of events, drawn one after the other: some stay for long, and some come back.

use crate::index::PUBLISHED;
use crate::random::Random;

#[derive(Default)]
pub struct Codes {
    now: u16,
    /// The one before it that was not 0.
    before: u16,
    /// For how many samples more it stays.
    left: i32,
}

impl Codes {
    /// The next code.
    pub fn draw(&mut self, random: &mut Random) -> i32 {
        if self.left == 0 {
            let next = self.another(random);
            if self.now != 0 {
                self.before = self.now;
            }
            self.now = next;
            self.left = stay(random);
        }
        self.left -= 1;
        self.now.into()
    }

    /// 0, the code before, one that differs in a bit from this one, a published one, a user's, or any.
    fn another(&self, random: &mut Random) -> u16 {
        const USERS: [u16; 5] = [0x1000, 0x1fff, 0x3000, 0xf000, 0xffff];
        match random.below(8) {
            0 | 1 => 0,
            2 | 3 => self.before,
            4 => self.now ^ random.pick(&[1, 0x80, 0x100, 0x8000]),
            5 => random.pick(&PUBLISHED).0 as u16,
            6 => random.pick(&USERS),
            _ => random.word() as u16,
        }
    }
}

/// For how many samples a code stays.
fn stay(random: &mut Random) -> i32 {
    match random.below(10) {
        0..=4 => 1,
        5 | 6 => random.between(2, 4),
        7 | 8 => random.between(5, 20),
        _ => random.between(16, 100),
    }
}
