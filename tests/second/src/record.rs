//! The kinds of record, and what is fixed about each: code, size, the offsets
//! of its number fields, texts and reserve areas.

use crate::header::Version;

/// The four numbers a record starts with.
pub const HEAD: usize = 16;
pub const SIZE_AT: usize = 0;
pub const CODE_AT: usize = 4;
pub const SERIAL_AT: usize = 8;
pub const MULTIPLIER_AT: usize = 12;
pub const HEAD_NUMBERS: [usize; 4] = [SIZE_AT, CODE_AT, SERIAL_AT, MULTIPLIER_AT];

pub const MOST_MULTIPLIER: i32 = 128;
/// Records of this code or more are makers' records.
pub const LEAST_MAKER_CODE: i32 = 1024;
/// What a recording may hold, without padding.
pub const MOST_CONTENT: u64 = 137_438_953_472;
pub const MOST_CHANNELS: i32 = 128;
pub const MOST_FRAMES: i32 = 1_000_000;

/// A text or a reserve area inside a record: offset and length.
pub type Area = (usize, usize);

#[derive(Clone, Copy, Debug, PartialEq, Eq, PartialOrd, Ord, Hash)]
pub enum Kind {
    Recording,
    Overview,
    Channels,
    Channel,
    Electrodes,
    Electrode,
    Patient,
    Events,
    Montage,
    MontageChannel,
    Frames,
    Frame,
    Maker,
    Delimiter,
}

/// The rule of a record's length.
#[derive(Clone, Copy, Debug, PartialEq, Eq)]
pub enum Extent {
    /// The size field has this value.
    Fixed(i32),
    /// The length is at least this.
    AtLeast(i64),
}

pub struct Rules {
    pub code: i32,
    pub extent: Extent,
    /// Whether the multiplier may be other than 0.
    pub multiplied: bool,
    /// Offsets of the signed 32-bit numbers after the head.
    pub numbers: &'static [usize],
    pub reserve: &'static [Area],
}

pub mod recording {
    use super::*;
    pub const RULES: Rules = Rules {
        code: 10,
        extent: Extent::AtLeast(HEAD as i64),
        multiplied: true,
        numbers: &[],
        reserve: &[],
    };
}

/// 100: what the recording is, when it was made.
pub mod overview {
    use super::*;
    pub const DATA_FORM: usize = 16;
    pub const CHANNELS: usize = 20;
    pub const FRAMES: usize = 24;
    pub const YEAR: usize = 32;
    pub const MONTH: usize = 36;
    pub const DAY: usize = 40;
    pub const HOUR: usize = 44;
    pub const MINUTE: usize = 48;
    pub const SECOND: usize = 52;
    pub const TIME_TEXT: Area = (56, 20);
    pub const MAINS: usize = 76;
    pub const COMMENT: Area = (96, 32);
    pub const LENGTH: usize = 128;
    pub const RULES: Rules = Rules {
        code: 100,
        extent: Extent::Fixed(LENGTH as i32),
        multiplied: false,
        numbers: &[
            DATA_FORM, CHANNELS, FRAMES, YEAR, MONTH, DAY, HOUR, MINUTE, SECOND, MAINS,
        ],
        reserve: &[(28, 4), (80, 16)],
    };
}

/// 120, 320 and 350: the lists of channels, electrodes and montage channels have
/// one form.
pub mod channels {
    use super::*;
    pub const COUNT: usize = 16;
    pub const SUB_SIZE: usize = 20;
    pub const FIRST: usize = 32;
    pub const RULES: Rules = rules(120);
    pub const ELECTRODES_RULES: Rules = rules(320);
    pub const MONTAGE_RULES: Rules = rules(350);

    const fn rules(code: i32) -> Rules {
        Rules {
            code,
            extent: Extent::AtLeast(FIRST as i64),
            multiplied: false,
            numbers: &[COUNT, SUB_SIZE],
            reserve: &[(24, 8)],
        }
    }
}

/// What a list of subs holds, and the tests on a sub's fields.
pub struct Subs {
    pub kind: Kind,
    pub is_number: fn(i32) -> bool,
    pub is_type: fn(Version, i32) -> bool,
    pub is_format: fn(Version, i32) -> bool,
    /// Of flags, type and rate.
    pub is_rate: fn(i32, i32, i32) -> bool,
}

/// 125, 325 and 355: the descriptors of a channel, an electrode and a montage
/// channel have one form, but for which fields there are and how they are tested.
pub mod channel {
    use super::*;
    /// Of an electrode, its code.
    pub const NUMBER: usize = 16;
    pub const FLAGS: usize = 20;
    pub const TYPE: usize = 24;
    pub const FORMAT: usize = 28;
    pub const RATE: usize = 32;
    /// CAL, CAL AD, Offset AD and Offset CAL.
    pub const CALIBRATION: [usize; 4] = [36, 40, 44, 48];
    pub const CALIBRATION_FREQUENCY: usize = 52;
    pub const FILTER_LOW: usize = 56;
    pub const FILTER_HIGH: usize = 60;
    pub const SENSITIVITY: usize = 64;
    pub const NUMBERS_END: usize = 68;
    pub const LABEL: Area = (72, 16);
    pub const UNIT: Area = (88, 16);
    /// G1 and G2.
    pub const LEADS: [usize; 2] = [104, 108];
    pub const COMMENT: Area = (196, 60);
    pub const LENGTH: usize = 256;

    /// Those that all have, then those of a channel and a montage channel, then
    /// those of a montage channel.
    const NUMBERS: &[usize] = &[
        NUMBER,
        FLAGS,
        TYPE,
        FORMAT,
        RATE,
        CALIBRATION[0],
        CALIBRATION[1],
        CALIBRATION[2],
        CALIBRATION[3],
        FILTER_LOW,
        FILTER_HIGH,
        CALIBRATION_FREQUENCY,
        SENSITIVITY,
        LEADS[0],
        LEADS[1],
    ];
    pub const RULES: Rules = rules(125, 13, &[(68, 4), (104, 92)]);
    pub const ELECTRODE_RULES: Rules = rules(325, 11, &[(52, 4), (64, 8), (104, 92)]);
    pub const MONTAGE_RULES: Rules = rules(355, 15, &[(68, 4), (112, 84)]);

    /// With the first `numbers` of the number fields.
    const fn rules(code: i32, numbers: usize, reserve: &'static [Area]) -> Rules {
        Rules {
            code,
            extent: Extent::Fixed(LENGTH as i32),
            multiplied: false,
            numbers: NUMBERS.split_at(numbers).0,
            reserve,
        }
    }

    pub const SUBS: Subs = Subs {
        kind: Kind::Channel,
        is_number: |_| true,
        is_type: |version, kind| is_type(kind) && version.has_type(kind),
        is_format: |version, format| {
            Format::from_number(format).is_some_and(|format| version.has_format(format))
        },
        is_rate: |flags, kind, rate| Rate::from_fields(flags, kind, rate).is_some(),
    };
    pub const ELECTRODE_SUBS: Subs = Subs {
        kind: Kind::Electrode,
        is_number: |code| code >= 0,
        is_type: |version, kind| (SUBS.is_type)(version, kind) || kind == PROCESSED,
        ..SUBS
    };
    /// Of a montage channel G1 and G2 alone are judged, beside the head.
    pub const MONTAGE_SUBS: Subs = Subs {
        kind: Kind::MontageChannel,
        is_number: |_| true,
        is_type: |_, _| true,
        is_format: |_, _| true,
        is_rate: |_, _, _| true,
    };
}

/// 130 and 200: the patient's items and the event items have one form.
pub mod items {
    use super::*;
    pub const COUNT: usize = 16;
    pub const FIRST: usize = 24;
    pub const MOST: i32 = 256;
    /// An item's size and code, before its text.
    pub const ITEM_HEAD: usize = 8;
    pub const ITEM_SIZE: usize = 0;
    pub const ITEM_CODE: usize = 4;
    pub const PATIENT_RULES: Rules = rules(130);
    pub const EVENT_RULES: Rules = rules(200);

    const fn rules(code: i32) -> Rules {
        Rules {
            code,
            extent: Extent::AtLeast(FIRST as i64),
            multiplied: false,
            numbers: &[COUNT],
            reserve: &[(20, 4)],
        }
    }
}

/// 140: all frames of a recording.
pub mod frames {
    use super::*;
    pub const SECONDS: usize = 16;
    pub const FRAME_LENGTH: usize = 20;
    pub const COUNT: usize = 24;
    pub const FIRST: usize = 32;
    pub const MOST_SECONDS: i32 = 3600;
    /// How much longer than its samples a frame may be.
    pub const MOST_FRAME_PADDING: u64 = 127;
    pub const RULES: Rules = Rules {
        code: 140,
        extent: Extent::AtLeast(FIRST as i64),
        multiplied: true,
        numbers: &[SECONDS, FRAME_LENGTH, COUNT],
        reserve: &[(28, 4)],
    };
}

/// 145: one frame.
pub mod frame {
    use super::*;
    /// Unsigned 16-bit hour, minute and second.
    pub const CLOCK: [usize; 3] = [16, 18, 20];
    pub const CLOCK_WIDTH: usize = 2;
    pub const SAMPLES: usize = 24;
    pub const RULES: Rules = Rules {
        code: 145,
        extent: Extent::AtLeast(SAMPLES as i64),
        multiplied: true,
        numbers: &[],
        reserve: &[(22, 2)],
    };
}

pub mod maker {
    use super::*;
    pub const RULES: Rules = Rules {
        code: LEAST_MAKER_CODE,
        extent: Extent::AtLeast(HEAD as i64),
        multiplied: true,
        numbers: &[],
        reserve: &[],
    };
}

/// 16 zero bytes; the size field is 0 and the length counts as 16.
pub mod delimiter {
    use super::*;
    pub const RULES: Rules = Rules {
        code: 0,
        extent: Extent::Fixed(0),
        multiplied: false,
        numbers: &[],
        reserve: &[],
    };
}

impl Kind {
    pub const fn rules(self) -> &'static Rules {
        match self {
            Kind::Recording => &recording::RULES,
            Kind::Overview => &overview::RULES,
            Kind::Channels => &channels::RULES,
            Kind::Channel => &channel::RULES,
            Kind::Electrodes => &channels::ELECTRODES_RULES,
            Kind::Electrode => &channel::ELECTRODE_RULES,
            Kind::Montage => &channels::MONTAGE_RULES,
            Kind::MontageChannel => &channel::MONTAGE_RULES,
            Kind::Patient => &items::PATIENT_RULES,
            Kind::Events => &items::EVENT_RULES,
            Kind::Frames => &frames::RULES,
            Kind::Frame => &frame::RULES,
            Kind::Maker => &maker::RULES,
            Kind::Delimiter => &delimiter::RULES,
        }
    }

    /// The subs of a record that lists any.
    pub const fn subs(self) -> Option<&'static Subs> {
        match self {
            Kind::Channels => Some(&channel::SUBS),
            Kind::Electrodes => Some(&channel::ELECTRODE_SUBS),
            Kind::Montage => Some(&channel::MONTAGE_SUBS),
            _ => None,
        }
    }

    /// Whether a number field stands at this offset.
    pub fn has_number(self, offset: usize) -> bool {
        self.rules().numbers.contains(&offset)
    }

    /// Whether a record with this code is of this kind.
    pub fn has_code(self, code: i32) -> bool {
        match self {
            Kind::Maker => code >= LEAST_MAKER_CODE,
            _ => code == self.rules().code,
        }
    }
}

/// A record's length: size when the multiplier is 0, else size times multiplier.
pub fn length(size: i32, multiplier: i32) -> i64 {
    let times = if multiplier == 0 { 1 } else { multiplier };
    i64::from(size) * i64::from(times)
}

/// Padding is shorter than the multiplier, and there is none when that is 0.
pub fn padding_fits(padding: u64, multiplier: i32) -> bool {
    padding == 0 || i64::from(multiplier) > padding as i64
}

pub fn is_patient_code(code: i32) -> bool {
    const SINGLE: [i32; 5] = [0, 1, 201, 210, 220];
    const RANGES: [(i32, i32); 4] = [(11, 14), (21, 26), (101, 107), (301, 399)];
    SINGLE.contains(&code)
        || RANGES
            .iter()
            .any(|(low, high)| (*low..=*high).contains(&code))
}

pub fn is_event_code(code: i32) -> bool {
    const BIT_12: i32 = 1 << 12;
    code == 0 || ((4096..=65_535).contains(&code) && code & BIT_12 != 0)
}

/// The type that the oldest version lacks.
pub const NEWEST_TYPE: i32 = 20;

pub fn is_type(value: i32) -> bool {
    (0..=18).contains(&value) || value == NEWEST_TYPE
}

/// The type of a signal that was processed when it was recorded.
pub const PROCESSED: i32 = 101;

/// Whether G1 or G2 names an electrode by its serial, the earth by 0, or (its high
/// 16 bits 1 to 3) a processed potential, whose low bits are free.
pub fn is_lead(value: i32, electrodes: usize) -> bool {
    let (high, low) = (value as u32 >> 16, value as u32 & 0xffff);
    match high {
        0 => low as usize <= electrodes,
        1..=3 => true,
        _ => false,
    }
}

/// Days of a month (1 to 12) in the Gregorian calendar.
pub fn days_in(year: i32, month: i32) -> i32 {
    let leap = year % 4 == 0 && (year % 100 != 0 || year % 400 == 0);
    match month {
        2 if leap => 29,
        2 => 28,
        4 | 6 | 9 | 11 => 30,
        _ => 31,
    }
}

/// The format of a channel's samples.
#[derive(Clone, Copy, Debug, PartialEq, Eq)]
pub enum Format {
    Signed16,
    Signed24,
    Signed32,
    Float32,
}

impl Format {
    pub const ALL: [Format; 4] = [
        Format::Signed16,
        Format::Signed24,
        Format::Signed32,
        Format::Float32,
    ];

    pub fn from_number(number: i32) -> Option<Format> {
        Format::ALL.into_iter().find(|f| f.number() == number)
    }

    pub fn number(self) -> i32 {
        match self {
            Format::Signed16 => 1,
            Format::Signed24 => 2,
            Format::Signed32 => 3,
            Format::Float32 => 4,
        }
    }

    /// Bytes of one sample.
    pub fn width(self) -> usize {
        match self {
            Format::Signed16 => 2,
            Format::Signed24 => 3,
            Format::Signed32 | Format::Float32 => 4,
        }
    }

    /// Whether a sample is a float, and no whole number.
    pub fn is_float(self) -> bool {
        self == Format::Float32
    }
}

/// What a channel's rate counts.
#[derive(Clone, Copy, Debug, PartialEq, Eq)]
pub enum Rate {
    /// Rate 0: no samples.
    None,
    Hertz(u64),
    Microseconds(u64),
}

const MOST_HERTZ: i32 = 1_000_000;
/// Of a second.
pub const MICROSECONDS: u64 = 1_000_000;
/// The bit of the flags that makes a rate a period.
pub const PERIOD_FLAG: i32 = 1;

impl Rate {
    /// The rate of a channel, if its fields pass: 0 needs type 0 (OFF).
    pub fn from_fields(flags: i32, channel_type: i32, rate: i32) -> Option<Rate> {
        let is_period = flags & PERIOD_FLAG != 0;
        match rate {
            0 => (channel_type == 0).then_some(Rate::None),
            1.. if is_period => Some(Rate::Microseconds(rate as u64)),
            1..=MOST_HERTZ => Some(Rate::Hertz(rate as u64)),
            _ => None,
        }
    }

    /// Samples in a frame of `seconds`. A period's count is the time divided by
    /// it, rounded down (document 02, request 2); nothing when that leaves none.
    pub fn samples(self, seconds: u64) -> Option<u64> {
        match self {
            Rate::None => Some(0),
            Rate::Hertz(rate) => Some(rate * seconds),
            Rate::Microseconds(period) => {
                Some(seconds * MICROSECONDS / period).filter(|count| *count > 0)
            }
        }
    }
}

#[cfg(test)]
mod tests {
    use super::*;

    #[test]
    fn worked_values_6_and_7() {
        assert_eq!(length(20_000_000, 128), 2_560_000_000);
        assert_eq!(length(16, 1), 16);
        assert_eq!(length(16, 0), 16);
        assert_eq!(length(-1, 128), -128);
    }

    #[test]
    fn worked_values_8_and_9() {
        assert_eq!(Rate::Hertz(200).samples(10), Some(2000));
        assert_eq!(Rate::Microseconds(5000).samples(10), Some(2000));
    }

    #[test]
    fn a_periods_count_is_rounded_down() {
        let count = |period, seconds| Rate::Microseconds(period).samples(seconds);
        assert_eq!(count(3906, 1), Some(256));
        assert_eq!(count(3906, 30), Some(7680));
        assert_eq!(count(3, 1), Some(333_333));
        assert_eq!(count(500_000, 1), Some(2));
        assert_eq!(count(500_001, 1), Some(1));
        assert_eq!(count(1_000_000, 1), Some(1));
        assert_eq!(count(1_000_001, 1), None);
        assert_eq!(count(1_000_001, 2), Some(1));
        assert_eq!(count(2_147_483_647, 2147), None);
        assert_eq!(count(2_147_483_647, 2148), Some(1));
        assert_eq!(Rate::None.samples(1), Some(0));
    }

    #[test]
    fn rates() {
        assert_eq!(Rate::from_fields(0, 0, 0), Some(Rate::None));
        assert_eq!(Rate::from_fields(1, 0, 0), Some(Rate::None));
        assert_eq!(Rate::from_fields(0, 1, 0), None);
        assert_eq!(Rate::from_fields(0, 1, 1_000_001), None);
        let million = Some(Rate::Hertz(1_000_000));
        assert_eq!(Rate::from_fields(-2, 0, 1_000_000), million);
        let longest = Some(Rate::Microseconds(2_147_483_647));
        assert_eq!(Rate::from_fields(-1, 3, i32::MAX), longest);
        assert_eq!(Rate::from_fields(1, 0, -1), None);
        assert_eq!(Rate::from_fields(0, 0, i32::MIN), None);
    }

    #[test]
    fn leads() {
        for lead in [0, 1, 3, 0x1_0000, 0x1_0004, 0x2_ffff, 0x3_0000, 0x3_ffff] {
            assert!(is_lead(lead, 3), "{lead:#x}");
        }
        for lead in [
            4,
            128,
            0xffff,
            0x4_0000,
            0x4_0001,
            0x7fff_0001,
            -1,
            i32::MIN,
        ] {
            assert!(!is_lead(lead, 3), "{lead:#x}");
        }
        assert!(is_lead(128, 128) && !is_lead(129, 128) && !is_lead(2, 1));
    }

    #[test]
    fn the_fields_and_the_reserve_of_a_sub_fill_it_once() {
        for kind in [Kind::Channel, Kind::Electrode, Kind::MontageChannel] {
            let rules = kind.rules();
            let numbers = HEAD_NUMBERS.iter().chain(rules.numbers);
            let texts = [channel::LABEL, channel::UNIT, channel::COMMENT];
            let mut areas: Vec<Area> = numbers.map(|offset| (*offset, 4)).collect();
            areas.extend(texts.iter().chain(rules.reserve));
            areas.sort();
            let mut end = 0;
            for (offset, length) in areas {
                assert_eq!(offset, end, "{kind:?}");
                end = offset + length;
            }
            assert_eq!(end, channel::LENGTH);
        }
    }

    #[test]
    fn which_sub_has_which_fields() {
        let has = |kind: Kind| {
            [
                channel::CALIBRATION_FREQUENCY,
                channel::SENSITIVITY,
                channel::LEADS[0],
                channel::LEADS[1],
            ]
            .map(|offset| kind.has_number(offset))
        };
        assert_eq!(has(Kind::Channel), [true, true, false, false]);
        assert_eq!(has(Kind::Electrode), [false; 4]);
        assert_eq!(has(Kind::MontageChannel), [true; 4]);
    }

    #[test]
    fn leap_days() {
        assert_eq!(days_in(2000, 2), 29);
        assert_eq!(days_in(1900, 2), 28);
        assert_eq!(days_in(2024, 2), 29);
        assert_eq!(days_in(2023, 2), 28);
    }

    #[test]
    fn item_codes() {
        for code in [0, 1, 11, 14, 21, 26, 101, 107, 201, 210, 220, 301, 399] {
            assert!(is_patient_code(code), "{code}");
        }
        for code in [-1, 2, 10, 15, 20, 27, 100, 108, 200, 202, 211, 300, 400] {
            assert!(!is_patient_code(code), "{code}");
        }
        for code in [0, 4096, 8191, 12_288, 65_535] {
            assert!(is_event_code(code), "{code}");
        }
        for code in [-1, 1, 4095, 8192, 12_287, 57_344, 65_536, 69_632, i32::MIN] {
            assert!(!is_event_code(code), "{code}");
        }
    }

    #[test]
    fn padding_is_shorter_than_the_multiplier() {
        assert!(padding_fits(0, 0) && padding_fits(0, 1) && padding_fits(1, 2));
        assert!(!padding_fits(1, 0) && !padding_fits(1, 1) && !padding_fits(2, 2));
    }
}
