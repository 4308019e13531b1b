//! The calls of liboverview.a, as include/overview.h declares them. The one module with `unsafe`: a slice is passed as
//! its pointer and length, of which what the header asks of a caller holds, as bindings/rust/src/calls.rs says.

use psg::Refusal;
use std::mem::{align_of, offset_of, size_of};

/// The samples of an epoch.
#[repr(C)]
pub struct Overview {
    refusal: u32,
    position: u64,
    pub smallest: i64,
    pub largest: i64,
    pub count: u64,
}

/// How many epochs.
#[repr(C)]
pub struct Counted {
    refusal: u32,
    position: u64,
    pub count: u64,
}

impl Overview {
    pub fn answer(self) -> Result<Overview, Refusal> {
        unless_refused(self.refusal, self.position).map(|()| self)
    }
}

impl Counted {
    pub fn answer(self) -> Result<Counted, Refusal> {
        unless_refused(self.refusal, self.position).map(|()| self)
    }
}

/// 0 is no refusal.
fn unless_refused(number: u32, position: u64) -> Result<(), Refusal> {
    match number {
        0 => Ok(()),
        _ => Err(Refusal {
            number: number as u8,
            position: position as usize,
        }),
    }
}

/// The layout of each answer, as tests/overview.c has it for C: its size, and where each field lies.
macro_rules! layouts {
    ($($name:ident, $c_name:ident, $size:literal { $($field:ident $at:literal),* })*) => {
        $(const _: () = {
            assert!(size_of::<$name>() == $size);
            assert!(align_of::<$name>() == 8);
            $(assert!(offset_of!($name, $field) == $at);)*
        };)*

        /// The numbers above, for the test that the C side has the same.
        #[cfg(test)]
        const LAYOUTS: &[(&str, usize, &[(&str, usize)])] =
            &[$((stringify!($c_name), $size, &[$((stringify!($field), $at)),*])),*];
    };
}

layouts! {
    Overview, psg_overview, 40 { refusal 0, position 8, smallest 16, largest 24, count 32 }
    Counted, psg_overview_counted, 24 { refusal 0, position 8, count 16 }
}

extern "C" {
    fn psg_overview(
        file: *const u8,
        length: usize,
        recording: usize,
        channel: usize,
        epoch: usize,
    ) -> Overview;

    fn psg_overview_range(
        file: *const u8,
        length: usize,
        recording: usize,
        channel: usize,
        first: usize,
        number: usize,
        out: *mut i64,
        room: usize,
    ) -> Counted;
}

pub fn overview(file: &[u8], recording: usize, channel: usize, epoch: usize) -> Overview {
    // SAFETY: the slice is whole, and the call only reads it.
    unsafe { psg_overview(file.as_ptr(), file.len(), recording, channel, epoch) }
}

pub fn overview_range(
    file: &[u8],
    recording: usize,
    channel: usize,
    first: usize,
    number: usize,
    out: &mut [i64],
) -> Counted {
    let (bytes, length) = (file.as_ptr(), file.len());
    let (numbers, room) = (out.as_mut_ptr(), out.len());
    // SAFETY: both are whole slices, and the call keeps neither.
    unsafe {
        psg_overview_range(
            bytes, length, recording, channel, first, number, numbers, room,
        )
    }
}

#[cfg(test)]
mod tests {
    use super::LAYOUTS;
    use std::collections::BTreeSet;

    #[test]
    fn the_c_side_asserts_the_same_layouts() {
        let path = concat!(env!("CARGO_MANIFEST_DIR"), "/../../tests/overview.c");
        let text = std::fs::read_to_string(path).expect("the C side");
        let lines = text.lines().map(str::trim);
        let said = lines.filter(|line| line.starts_with("SIZE(") || line.starts_with("AT("));
        let said: BTreeSet<String> = said.map(str::to_string).collect();
        let mut own = BTreeSet::new();
        for (name, size, fields) in LAYOUTS {
            own.insert(format!("SIZE({name}, {size})"));
            let places = fields.iter();
            own.extend(places.map(|(field, at)| format!("AT({name}, {field}, {at})")));
        }
        assert_eq!(said, own);
    }
}
