//! The file header: 32 bytes of ASCII.

use crate::bytes::Order;
use crate::record::{self, Format, Kind};
use crate::refusal::{self, require, Refusal};

pub const LENGTH: usize = 32;
pub const IDENTIFIER_AT: usize = 0;
pub const IDENTIFIER_LENGTH: usize = 8;
pub const VERSION_AT: usize = 8;
pub const VERSION_LENGTH: usize = 6;
pub const FORM_AT: usize = 14;
pub const FORM_LENGTH: usize = 2;
pub const ORDER_AT: usize = 16;
pub const SCRIPT_AT: usize = 17;
pub const SCRIPTS: &[u8; 4] = b"SJEU";
pub const UNICODE: u8 = b'U';
pub const RECORDINGS_AT: usize = 18;
pub const RECORDINGS_LENGTH: usize = 4;
pub const MOST_RECORDINGS: usize = 64;
pub const SPACES_AT: usize = 22;

/// Which of the two identifiers stands there: as the standard spells it, or by
/// the society's abbreviation.
#[derive(Clone, Copy, Debug, PartialEq, Eq)]
pub enum Spelling {
    Spg,
    Psg,
}

impl Spelling {
    pub const ALL: [Spelling; 2] = [Spelling::Spg, Spelling::Psg];

    pub fn from_identifier(field: &[u8]) -> Option<Spelling> {
        let mut all = Spelling::ALL.into_iter();
        all.find(|spelling| spelling.identifier() == field)
    }

    pub fn identifier(self) -> &'static [u8; IDENTIFIER_LENGTH] {
        match self {
            Spelling::Spg => b"JSSR-SPG",
            Spelling::Psg => b"JSSR-PSG",
        }
    }

    /// How an answer line names it.
    pub fn number(self) -> usize {
        match self {
            Spelling::Spg => 0,
            Spelling::Psg => 1,
        }
    }

    pub fn other(self) -> Spelling {
        match self {
            Spelling::Spg => Spelling::Psg,
            Spelling::Psg => Spelling::Spg,
        }
    }
}

/// The version of the format that a file is labelled with, oldest first, and what
/// each allows (document 02, request 6).
#[derive(Clone, Copy, Debug, PartialEq, Eq, PartialOrd, Ord)]
pub enum Version {
    V100,
    V110,
    V200,
    V300,
}

impl Version {
    pub const ALL: [Version; 4] = [Version::V100, Version::V110, Version::V200, Version::V300];

    pub const OLDER: [Version; 3] = [Version::V100, Version::V110, Version::V200];

    pub fn from_field(field: &[u8]) -> Option<Version> {
        let mut all = Version::ALL.into_iter();
        all.find(|version| version.field() == field)
    }

    pub fn field(self) -> &'static [u8; VERSION_LENGTH] {
        match self {
            Version::V100 => b"000100",
            Version::V110 => b"000110",
            Version::V200 => b"000200",
            Version::V300 => b"000300",
        }
    }

    pub fn number(self) -> usize {
        decimal(self.field())
    }

    pub fn has_form(self, form: Form) -> bool {
        form == Form::Channels || self >= Version::V200
    }

    pub fn has_script(self, script: u8) -> bool {
        SCRIPTS.contains(&script) && (script != UNICODE || self >= Version::V300)
    }

    /// Whether a multiplier may be other than 0.
    pub fn has_multipliers(self) -> bool {
        self >= Version::V300
    }

    pub fn has_format(self, format: Format) -> bool {
        format == Format::Signed16 || self >= Version::V300
    }

    pub fn has_type(self, channel_type: i32) -> bool {
        channel_type != record::NEWEST_TYPE || self >= Version::V110
    }

    /// Whether every recording has an event table of its own.
    pub fn needs_events(self) -> bool {
        self < Version::V200
    }
}

/// How the signals are recorded: by channels, or by single electrodes against a
/// common point.
#[derive(Clone, Copy, Debug, PartialEq, Eq)]
pub enum Form {
    Channels,
    Electrodes,
}

impl Form {
    pub const ALL: [Form; 2] = [Form::Channels, Form::Electrodes];

    pub fn from_field(field: &[u8]) -> Option<Form> {
        let mut all = Form::ALL.into_iter();
        all.find(|form| form.field() == field)
    }

    pub fn field(self) -> &'static [u8; FORM_LENGTH] {
        match self {
            Form::Channels => b"00",
            Form::Electrodes => b"01",
        }
    }

    pub fn number(self) -> usize {
        decimal(self.field())
    }

    pub fn other(self) -> Form {
        match self {
            Form::Channels => Form::Electrodes,
            Form::Electrodes => Form::Channels,
        }
    }

    /// The record that lists its channels or electrodes.
    pub fn list(self) -> Kind {
        match self {
            Form::Channels => Kind::Channels,
            Form::Electrodes => Kind::Electrodes,
        }
    }

    /// The records of a recording, in their order; makers' records stand between.
    pub fn parts(self) -> &'static [Kind] {
        match self {
            Form::Channels => &[
                Kind::Overview,
                Kind::Channels,
                Kind::Patient,
                Kind::Events,
                Kind::Frames,
                Kind::Delimiter,
            ],
            Form::Electrodes => &[
                Kind::Overview,
                Kind::Electrodes,
                Kind::Patient,
                Kind::Events,
                Kind::Montage,
                Kind::Frames,
                Kind::Delimiter,
            ],
        }
    }
}

/// What may differ from file to file.
#[derive(Clone, Copy, Debug, PartialEq, Eq)]
pub struct Header {
    pub spelling: Spelling,
    pub version: Version,
    pub form: Form,
    pub order: Order,
    pub script: u8,
    pub recordings: usize,
}

/// Judges the header; each refusal stands at its field's first byte.
pub fn judge(file: &[u8]) -> Result<Header, Refusal> {
    require(file.len() >= LENGTH, refusal::FILE_SHORT, 0)?;
    let identifier = &file[IDENTIFIER_AT..IDENTIFIER_AT + IDENTIFIER_LENGTH];
    let spelling = Spelling::from_identifier(identifier)
        .ok_or(Refusal::new(refusal::IDENTIFIER, IDENTIFIER_AT))?;
    let version = Version::from_field(&file[VERSION_AT..VERSION_AT + VERSION_LENGTH])
        .ok_or(Refusal::new(refusal::VERSION, VERSION_AT))?;
    let form = Form::from_field(&file[FORM_AT..FORM_AT + FORM_LENGTH])
        .filter(|form| version.has_form(*form))
        .ok_or(Refusal::new(refusal::FORM, FORM_AT))?;
    let order = Order::from_letter(file[ORDER_AT]).ok_or(Refusal::new(refusal::ORDER, ORDER_AT))?;
    let script = file[SCRIPT_AT];
    require(version.has_script(script), refusal::SCRIPT, SCRIPT_AT)?;
    let digits = &file[RECORDINGS_AT..RECORDINGS_AT + RECORDINGS_LENGTH];
    let recordings = recordings(digits).ok_or(Refusal::new(refusal::RECORDINGS, RECORDINGS_AT))?;
    let spaces = &file[SPACES_AT..LENGTH];
    require(all_spaces(spaces), refusal::SPACES, SPACES_AT)?;
    Ok(Header {
        spelling,
        version,
        form,
        order,
        script,
        recordings,
    })
}

/// The canonical header: spelling, version and form are kept, no leading zeros.
pub fn canonical(header: &Header) -> [u8; LENGTH] {
    let mut out = [b' '; LENGTH];
    out[IDENTIFIER_AT..VERSION_AT].copy_from_slice(header.spelling.identifier());
    out[VERSION_AT..FORM_AT].copy_from_slice(header.version.field());
    out[FORM_AT..ORDER_AT].copy_from_slice(header.form.field());
    out[ORDER_AT] = header.order.letter();
    out[SCRIPT_AT] = header.script;
    let digits = header.recordings.to_string();
    out[RECORDINGS_AT..RECORDINGS_AT + digits.len()].copy_from_slice(digits.as_bytes());
    out
}

fn all_spaces(bytes: &[u8]) -> bool {
    bytes.iter().all(|byte| *byte == b' ')
}

/// K: one or more digits, then only spaces, with a value from 1 to 64.
fn recordings(field: &[u8]) -> Option<usize> {
    let digits = field.iter().take_while(|b| b.is_ascii_digit()).count();
    let value = decimal(&field[..digits]);
    let passes = all_spaces(&field[digits..]) && (1..=MOST_RECORDINGS).contains(&value);
    passes.then_some(value)
}

/// The number that digits write.
pub fn decimal(digits: &[u8]) -> usize {
    let join = |value, digit: &u8| 10 * value + usize::from(digit - b'0');
    digits.iter().fold(0, join)
}

#[cfg(test)]
mod tests {
    use super::*;

    #[test]
    fn the_count_of_recordings() {
        let passing: [(&[u8; 4], usize); 6] = [
            (b"1   ", 1),
            (b"64  ", 64),
            (b"0001", 1),
            (b"064 ", 64),
            (b"0064", 64),
            (b"07  ", 7),
        ];
        for (field, value) in passing {
            assert_eq!(recordings(field), Some(value), "{field:?}");
        }
        let refused: [&[u8; 4]; 10] = [
            b"    ", b"0   ", b"0000", b"65  ", b"9999", b" 1  ", b"1 1 ", b"1\0\0\0", b"+1  ",
            b"1.  ",
        ];
        for field in refused {
            assert_eq!(recordings(field), None, "{field:?}");
        }
    }

    #[test]
    fn a_canonical_header_is_accepted() {
        let written: [(Spelling, Form, &[u8; LENGTH]); 4] = [
            (
                Spelling::Spg,
                Form::Channels,
                b"JSSR-SPG00030000BU12            ",
            ),
            (
                Spelling::Psg,
                Form::Channels,
                b"JSSR-PSG00030000BU12            ",
            ),
            (
                Spelling::Spg,
                Form::Electrodes,
                b"JSSR-SPG00030001BU12            ",
            ),
            (
                Spelling::Psg,
                Form::Electrodes,
                b"JSSR-PSG00030001BU12            ",
            ),
        ];
        for (spelling, form, expected) in written {
            let header = Header {
                spelling,
                version: Version::V300,
                form,
                order: Order::Big,
                script: b'U',
                recordings: 12,
            };
            assert_eq!(&canonical(&header), expected);
            assert_eq!(judge(expected), Ok(header));
        }
    }

    #[test]
    fn spellings_have_an_identifier_and_a_number_each() {
        for spelling in Spelling::ALL {
            assert_eq!(
                Spelling::from_identifier(spelling.identifier()),
                Some(spelling)
            );
            assert_eq!(Spelling::ALL[spelling.number()], spelling);
            assert_eq!(spelling.other().other(), spelling);
            assert_ne!(spelling.other(), spelling);
        }
        for field in [&b"JSSR-SP"[..], b"JSSR-PSG0", b""] {
            assert_eq!(Spelling::from_identifier(field), None);
        }
    }

    #[test]
    fn version_and_form_as_numbers() {
        assert_eq!(Version::ALL.map(Version::number), [100, 110, 200, 300]);
        assert_eq!((Form::Channels.number(), Form::Electrodes.number()), (0, 1));
    }

    #[test]
    fn any_other_form_is_4() {
        let header = Header {
            spelling: Spelling::Spg,
            version: Version::V300,
            form: Form::Electrodes,
            order: Order::Little,
            script: b'E',
            recordings: 1,
        };
        for field in [
            b"02", b"10", b"11", b"99", b" 0", b" 1", b"0 ", b"1 ", b"0\0",
        ] {
            let mut bytes = canonical(&header);
            bytes[FORM_AT..ORDER_AT].copy_from_slice(field);
            let refused = Err(Refusal::new(refusal::FORM, FORM_AT));
            assert_eq!(judge(&bytes), refused, "{field:?}");
        }
    }
}
