//! Recordings in the JSSR PSG common format, versions 1.00 to 3.00: a file's verdict and its table, questions about it,
//! the index of its events, turning it to the other byte order, and writing it anew in its canonical form, by a library
//! whose every function is proved to meet its contract.
//!
//! Every call judges the file itself and answers every file and every argument; [`part`] alone judges nothing, and cuts
//! from a file by an answer. Recordings, channels, items and frames are asked for from 1, samples from 0. Nothing is
//! written in place: `out` is a buffer of its own, as its `&mut` says. Who makes a slice of a mapped file vouches that
//! nothing writes to that file or shortens it during a call.
//!
//! [`timed_entries`] is a convenience of this crate and not a call of the library: what it adds to the index, the clock
//! time of each entry, is worked out here and tested, not proved.
//!
//! ```
//! use psg::{Order, Spelling};
//!
//! let file = std::fs::read("../../crates/listing/stdin").unwrap();
//! let header = psg::judge(&file)?;
//! assert_eq!((header.order, header.script, header.recordings), (Order::Little, b'S', 1));
//! let heading = psg::header(&file)?;
//! assert_eq!((heading.spelling, heading.version, heading.form), (Spelling::Spg, 300, 0));
//! let facts = psg::facts(&file, 1)?;
//! assert_eq!((facts.channels, facts.frames, facts.seconds), (1, 1, 1));
//! let turned = psg::turned(&file)?;
//! assert_eq!(psg::turned(&turned)?, file);
//! assert_eq!((psg::order(&file)?, psg::order(&turned)?), (Order::Little, Order::Big));
//! assert_eq!(psg::rewritten(&turned, Order::Little)?, psg::rewritten(&file, Order::Little)?);
//! # Ok::<(), psg::Refusal>(())
//! ```

#![warn(missing_docs)]

mod calls;
mod events;
mod float;
mod order;
mod refusal;
mod spelling;

use calls::Answer;
pub use events::{Entry, EventKind, TimedEntry};
pub use float::FloatBits;
pub use order::Order;
pub use refusal::Refusal;
pub use spelling::Spelling;

/// A record of the table.
#[derive(Clone, Copy, Debug, PartialEq, Eq)]
pub struct Row {
    /// Where it begins in the file.
    pub position: i64,
    /// Its length in bytes, multiplied already.
    pub length: i64,
    /// What it is, as document 01 numbers them: 10 is a recording, 145 a frame, 1024 or more a maker's record.
    pub code: i64,
    /// Recordings, channels and frames are numbered from 1, and makers' records as they like; others have 0.
    pub serial: i64,
}

/// What a verdict says of the header of an accepted file; [`Heading`] has all of it.
#[derive(Clone, Copy, Debug, PartialEq, Eq)]
pub struct Header {
    /// The byte order.
    pub order: Order,
    /// The letter of the texts' script: `b'S'`, `b'J'`, `b'E'` or `b'U'`.
    pub script: u8,
    /// K, how many recordings the file holds: 1 to 64.
    pub recordings: usize,
}

/// All that the header of an accepted file says.
#[derive(Clone, Copy, Debug, PartialEq, Eq)]
pub struct Heading {
    /// The spelling of the identifier.
    pub spelling: Spelling,
    /// The version as a number: 100, 110, 200 or 300.
    pub version: u32,
    /// The form as a number: 0 for channels, 1 for electrodes.
    pub form: u32,
    /// The byte order.
    pub order: Order,
    /// The letter of the texts' script: `b'S'`, `b'J'`, `b'E'` or `b'U'`.
    pub script: u8,
    /// K, how many recordings the file holds: 1 to 64.
    pub recordings: usize,
}

/// M, F and T: how many channels and frames a recording has, and the seconds of a frame.
#[derive(Clone, Copy, Debug, PartialEq, Eq)]
pub struct Facts {
    /// M, the channels or electrodes.
    pub channels: u32,
    /// F, the frames.
    pub frames: u32,
    /// T, the seconds of a frame.
    pub seconds: u32,
}

/// A text, by where it stands in the file.
#[derive(Clone, Copy, Debug, PartialEq, Eq)]
pub struct Text {
    /// Where it begins.
    pub position: usize,
    /// How many bytes it has.
    pub length: usize,
}

impl Text {
    /// Its bytes, in the file that the answer is about.
    pub fn of<'a>(&self, file: &'a [u8]) -> &'a [u8] {
        &file[self.position..self.position + self.length]
    }
}

/// CAL, CAL AD, Offset AD and Offset CAL.
#[derive(Clone, Copy, Debug, PartialEq, Eq)]
pub enum Calibration {
    /// Where the channel's format is 4.
    Floats([FloatBits; 4]),
    /// Where it is another.
    Numbers([i32; 4]),
}

/// The descriptor of a channel or of an electrode, record 125 or 325; in a [`Montage`] that of a montage's channel, which
/// may have any values.
#[derive(Clone, Copy, Debug, PartialEq, Eq)]
pub struct Channel {
    /// The channel number, or the code of the electrode.
    pub number: i32,
    /// The flags; bit 0 says what the rate is.
    pub flags: i32,
    /// The type, 0 to 18 or 20, or 101 of an electrode; 0 is OFF.
    pub kind: i32,
    /// A sample is a signed number of 16, 24 or 32 bits (1, 2 and 3), or a float (4).
    pub format: i32,
    /// Samples a second, or microseconds a sample where bit 0 of the flags is 1; 0 means no samples.
    pub rate: i32,
    /// The four calibration numbers.
    pub calibration: Calibration,
    /// The calibration frequency; 0 of an electrode, which has none.
    pub calibration_frequency: i32,
    /// The first filter.
    pub low_cut: i32,
    /// The second filter.
    pub high_cut: i32,
    /// The sensitivity; 0 of an electrode, which has none.
    pub sensitivity: i32,
    /// The label.
    pub label: Text,
    /// The unit.
    pub unit: Text,
    /// The comment.
    pub comment: Text,
}

/// A montage's channel, record 355.
#[derive(Clone, Copy, Debug, PartialEq, Eq)]
pub struct Montage {
    /// Its descriptor.
    pub channel: Channel,
    /// The first input, G1. The high 16 bits say what it is, 0 to 3; where they are 0, the low 16 bits are the serial of an
    /// electrode, or 0 for earth.
    pub g1: i32,
    /// The second input, G2.
    pub g2: i32,
}

/// A patient's or an event's item.
#[derive(Clone, Copy, Debug, PartialEq, Eq)]
pub struct Item {
    /// What the item is about.
    pub code: i32,
    /// What it says.
    pub text: Text,
}

/// The clock time of a frame.
#[derive(Clone, Copy, Debug, PartialEq, Eq)]
pub struct Clock {
    /// 0 to 23.
    pub hour: u32,
    /// 0 to 59.
    pub minute: u32,
    /// 0 to 59.
    pub second: u32,
}

/// Where the samples of a channel stand in a frame; [`part`] cuts them from the file.
#[derive(Clone, Copy, Debug, PartialEq, Eq)]
pub struct Place {
    /// Where the first one begins in the file; without samples, where it would.
    pub position: usize,
    /// How many bytes each has: 2, 3 or 4.
    pub width: usize,
    /// How many there are.
    pub count: usize,
}

/// Where the samples of a channel stand in every frame of a recording.
#[derive(Clone, Copy, Debug, PartialEq, Eq)]
pub struct Track {
    /// The byte order of the file.
    pub order: Order,
    /// A sample is a signed number of 16, 24 or 32 bits (1, 2 and 3), or a float (4).
    pub format: u32,
    /// Where they stand in frame 1.
    pub first: Place,
    /// How many bytes it is from one frame's samples to the next frame's.
    pub step: usize,
    /// F, the frames.
    pub frames: u32,
    /// T, the seconds of a frame.
    pub seconds: u32,
}

impl Track {
    /// Where they stand in a frame, asked for from 1, as [`place`] answers it; nothing where there is no such frame.
    pub fn place(&self, frame: usize) -> Option<Place> {
        let before = frame.checked_sub(1)?;
        (before < self.frames as usize).then(|| Place {
            position: self.first.position + self.step * before,
            ..self.first
        })
    }
}

/// A sample.
#[derive(Clone, Copy, Debug, PartialEq, Eq)]
pub enum Sample {
    /// A signed number of 16, 24 or 32 bits.
    Whole(i32),
    /// A float.
    Float(FloatBits),
}

/// The verdict on a file: what its header says, or why it is refused. Only judging is done; the other calls do it
/// themselves, so none needs this one before it.
pub fn judge(file: &[u8]) -> Result<Header, Refusal> {
    let header = calls::judge(file).answer()?;
    Ok(Header {
        order: order_of(header.order),
        script: header.script as u8,
        recordings: header.recordings as usize,
    })
}

fn order_of(letter: u32) -> Order {
    Order::from_letter(letter as u8).expect("an accepted file's letter is L or B")
}

/// Writes four numbers a record into `rows` (position, length, code, serial), by position: how many records.
pub fn table(file: &[u8], rows: &mut [i64]) -> Result<usize, Refusal> {
    Ok(calls::table(file, rows).answer()?.count as usize)
}

/// The table, in a vector.
pub fn rows(file: &[u8]) -> Result<Vec<Row>, Refusal> {
    let mut numbers = vec![0; needed(table(file, &mut []))?];
    table(file, &mut numbers)?;
    let rows = numbers.chunks_exact(4).map(|row| Row {
        position: row[0],
        length: row[1],
        code: row[2],
        serial: row[3],
    });
    Ok(rows.collect())
}

/// Writes the file in the other byte order into `out`: how many bytes.
pub fn turn(file: &[u8], out: &mut [u8]) -> Result<usize, Refusal> {
    Ok(calls::turn(file, out).answer()?.count as usize)
}

/// The file in the other byte order.
pub fn turned(file: &[u8]) -> Result<Vec<u8>, Refusal> {
    let mut out = vec![0; file.len()];
    turn(file, &mut out)?;
    Ok(out)
}

/// The byte order of a file.
pub fn order(file: &[u8]) -> Result<Order, Refusal> {
    Ok(judge(file)?.order)
}

/// Writes the canonical file in the byte order asked for into `out`: how many bytes.
pub fn rewrite(file: &[u8], order: Order, out: &mut [u8]) -> Result<usize, Refusal> {
    rewrite_by_letter(file, order.letter(), out)
}

/// The same by the letter, as the library takes it: 19 for one that names no order, which [`Order`] cannot ask for and
/// tests have to.
pub fn rewrite_by_letter(file: &[u8], letter: u8, out: &mut [u8]) -> Result<usize, Refusal> {
    Ok(calls::rewrite(file, letter, out).answer()?.count as usize)
}

/// The canonical file in the byte order asked for.
pub fn rewritten(file: &[u8], order: Order) -> Result<Vec<u8>, Refusal> {
    let mut out = vec![0; needed(rewrite(file, order, &mut []))?];
    rewrite(file, order, &mut out)?;
    Ok(out)
}

/// Room for the canonical file in either byte order: its length is at most this, so [`rewrite`] never refuses a buffer
/// of so many bytes with 17. It is the file's length and 254 bytes for each recording.
pub fn rewrite_room(file: &[u8]) -> Result<usize, Refusal> {
    Ok(calls::rewrite_room(file).answer()?.count as usize)
}

/// What refusal 17 of a call with an empty buffer asks for.
fn needed(asked: Result<usize, Refusal>) -> Result<usize, Refusal> {
    match asked {
        Err(refusal) if refusal.number == 17 => Ok(refusal.position),
        other => other,
    }
}

/// What the header of a file says. Only the file can be refused.
pub fn header(file: &[u8]) -> Result<Heading, Refusal> {
    let heading = calls::header(file).answer()?;
    let spelling = Spelling::from_number(heading.spelling);
    Ok(Heading {
        spelling: spelling.expect("an accepted file has one of the two"),
        version: heading.version,
        form: heading.form,
        order: order_of(heading.order),
        script: heading.script as u8,
        recordings: heading.recordings as usize,
    })
}

/// How many channels and frames a recording has, and the seconds of a frame.
pub fn facts(file: &[u8], recording: usize) -> Result<Facts, Refusal> {
    let facts = calls::facts(file, recording).answer()?;
    Ok(Facts {
        channels: facts.channels,
        frames: facts.frames,
        seconds: facts.seconds,
    })
}

/// The descriptor of a channel that holds for a recording, or of an electrode, its own or taken over.
pub fn channel(file: &[u8], recording: usize, channel: usize) -> Result<Channel, Refusal> {
    let answer = calls::channel(file, recording, channel).answer();
    answer.map(descriptor)
}

fn descriptor(c: calls::Channel) -> Channel {
    let calibration = [c.cal, c.cal_ad, c.offset_ad, c.offset_cal];
    Channel {
        number: c.number,
        flags: c.flags,
        kind: c.kind,
        format: c.format,
        rate: c.rate,
        calibration: match c.is_float {
            0 => Calibration::Numbers(calibration.map(|bits| bits as i32)),
            _ => Calibration::Floats(calibration.map(FloatBits)),
        },
        calibration_frequency: c.frequency,
        low_cut: c.low_cut,
        high_cut: c.high_cut,
        sensitivity: c.sensitivity,
        label: text(c.label, c.label_length),
        unit: text(c.unit, c.unit_length),
        comment: text(c.comment, c.comment_length),
    }
}

/// How many channels a recording's own montage has: 0 where it has none.
pub fn montage_count(file: &[u8], recording: usize) -> Result<usize, Refusal> {
    let counted = calls::montage_count(file, recording).answer()?;
    Ok(counted.count as usize)
}

/// A channel of a recording's own montage.
pub fn montage(file: &[u8], recording: usize, channel: usize) -> Result<Montage, Refusal> {
    let montage = calls::montage(file, recording, channel).answer()?;
    Ok(Montage {
        channel: descriptor(montage.channel),
        g1: montage.g1,
        g2: montage.g2,
    })
}

fn text(position: u64, length: u64) -> Text {
    Text {
        position: position as usize,
        length: length as usize,
    }
}

fn item(answer: calls::Item) -> Result<Item, Refusal> {
    let item = answer.answer()?;
    Ok(Item {
        code: item.code,
        text: text(item.text, item.text_length),
    })
}

/// An item of the record 130 that holds for a recording, its own or taken over.
pub fn patient_item(file: &[u8], recording: usize, number: usize) -> Result<Item, Refusal> {
    item(calls::patient_item(file, recording, number))
}

/// An item of a recording's own record 200.
pub fn event_item(file: &[u8], recording: usize, number: usize) -> Result<Item, Refusal> {
    item(calls::event_item(file, recording, number))
}

/// The clock time of a frame.
pub fn clock(file: &[u8], recording: usize, frame: usize) -> Result<Clock, Refusal> {
    let clock = calls::clock(file, recording, frame).answer()?;
    Ok(Clock {
        hour: clock.hour,
        minute: clock.minute,
        second: clock.second,
    })
}

/// Where the samples of a channel stand in a frame, how wide they are and how many.
///
/// ```
/// let file = std::fs::read("../../crates/listing/stdin").unwrap();
/// let place = psg::place(&file, 1, 1, 1)?;
/// assert_eq!((place.position, place.width, place.count), (544, 2, 1));
/// assert_eq!(psg::part(&file, place), &file[544..546]);
/// # Ok::<(), psg::Refusal>(())
/// ```
pub fn place(
    file: &[u8],
    recording: usize,
    frame: usize,
    channel: usize,
) -> Result<Place, Refusal> {
    let place = calls::place(file, recording, frame, channel).answer()?;
    Ok(placed(place.start, place.width, place.count))
}

fn placed(start: u64, width: u64, count: u64) -> Place {
    Place {
        position: start as usize,
        width: width as usize,
        count: count as usize,
    }
}

/// Where the samples of a channel stand in every frame of a recording: one judging for all its frames.
///
/// ```
/// let file = std::fs::read("../../crates/listing/stdin").unwrap();
/// let track = psg::track(&file, 1, 1)?;
/// assert_eq!((track.order, track.format), (psg::Order::Little, 1));
/// assert_eq!((track.frames, track.seconds), (1, 1));
/// for frame in 1..=track.frames as usize {
///     assert_eq!(track.place(frame), psg::place(&file, 1, frame, 1).ok());
/// }
/// # Ok::<(), psg::Refusal>(())
/// ```
pub fn track(file: &[u8], recording: usize, channel: usize) -> Result<Track, Refusal> {
    let track = calls::track(file, recording, channel).answer()?;
    Ok(Track {
        order: order_of(track.order),
        format: track.format,
        first: placed(track.start, track.width, track.count),
        step: track.step as usize,
        frames: track.frames,
        seconds: track.seconds,
    })
}

/// The bytes of a place, as a part of the file: where not all of them lie inside it, the empty part at its end; where
/// there are none, the empty part at the position. Cut from the same file that [`place`] was asked about: another one
/// is as safe, whatever the numbers are, but the bytes are that file's.
pub fn part(file: &[u8], place: Place) -> &[u8] {
    let part = calls::part(file.len(), place.position, place.width, place.count);
    text(part.start, part.length).of(file)
}

/// One sample of a channel in a frame.
pub fn sample(
    file: &[u8],
    recording: usize,
    frame: usize,
    channel: usize,
    sample: usize,
) -> Result<Sample, Refusal> {
    let sample = calls::sample(file, recording, frame, channel, sample).answer()?;
    Ok(match sample.is_float {
        0 => Sample::Whole(sample.value),
        _ => Sample::Float(FloatBits(sample.bits)),
    })
}

/// Writes a run of samples of a channel in a frame into `out`, `number` of them from the sample `first` on: how many.
/// It is for the formats 1 to 3, [`run_floats`] for 4; the other of the two is refused with 19.
///
/// ```
/// let file = std::fs::read("../../crates/listing/stdin").unwrap();
/// let mut samples = vec![0; psg::place(&file, 1, 1, 1)?.count];
/// psg::run(&file, 1, 1, 1, 0, samples.len(), &mut samples)?;
/// assert_eq!(psg::Sample::Whole(samples[0] as i32), psg::sample(&file, 1, 1, 1, 0)?);
/// # Ok::<(), psg::Refusal>(())
/// ```
pub fn run(
    file: &[u8],
    recording: usize,
    frame: usize,
    channel: usize,
    first: usize,
    number: usize,
    out: &mut [i64],
) -> Result<usize, Refusal> {
    let counted = calls::run(file, recording, frame, channel, first, number, out).answer()?;
    Ok(counted.count as usize)
}

/// The same of a channel of format 4. A float keeps its bits, a NaN's too.
pub fn run_floats(
    file: &[u8],
    recording: usize,
    frame: usize,
    channel: usize,
    first: usize,
    number: usize,
    out: &mut [f32],
) -> Result<usize, Refusal> {
    let bits = calls::bits_of(out);
    let counted =
        calls::run_floats(file, recording, frame, channel, first, number, bits).answer()?;
    Ok(counted.count as usize)
}

/// Writes the index of night events into `out`, five numbers an entry (recording, frame, channel, place, code), by
/// recording, frame, channel and place: how many entries. [`Entry`] says what is one; [`entries`] has them in a vector.
pub fn index(file: &[u8], out: &mut [i64]) -> Result<usize, Refusal> {
    Ok(calls::index(file, out).answer()?.count as usize)
}

/// The index of night events, in a vector. A night of up to a hundred events is judged once, one of more twice.
///
/// ```
/// use psg::EventKind;
///
/// let mut file = std::fs::read("../../crates/listing/stdin").unwrap();
/// // Its channel becomes one of events, and its one sample lights out.
/// file[232] = 1;
/// file[544..546].copy_from_slice(&0x106_u16.to_le_bytes());
/// for entry in psg::entries(&file)? {
///     assert_eq!((entry.recording, entry.frame, entry.channel, entry.place), (1, 1, 1, 0));
///     assert_eq!((entry.code, entry.kind()), (0x106, EventKind::LightsOut));
/// }
/// # assert_eq!(psg::entries(&file)?.len(), 1);
/// # Ok::<(), psg::Refusal>(())
/// ```
pub fn entries(file: &[u8]) -> Result<Vec<Entry>, Refusal> {
    let mut numbers = vec![0; events::USUAL_ROOM];
    let count = match index(file, &mut numbers) {
        Err(refusal) if refusal.number == 17 => {
            numbers = vec![0; refusal.position];
            index(file, &mut numbers)
        }
        other => other,
    };
    Ok(events::entries(&numbers, count?))
}

/// The same with the clock time of each, by the clock of its frame and by the channel's rate or period. A convenience,
/// not a call of the library; [`TimedEntry`] says how exact it is. The file is judged a few times, and once for each
/// channel that has entries, but not for each entry.
///
/// ```
/// # let mut file = std::fs::read("../../crates/listing/stdin").unwrap();
/// # file[232] = 1;
/// # file[544..546].copy_from_slice(&0x106_u16.to_le_bytes());
/// for timed in psg::timed_entries(&file)? {
///     let (clock, millisecond) = (timed.clock, timed.nanosecond / 1_000_000);
///     println!("{:02}:{:02}:{:02}.{millisecond:03}", clock.hour, clock.minute, clock.second);
///     assert_eq!(Ok(clock), psg::clock(&file, timed.entry.recording, timed.entry.frame));
/// }
/// # assert_eq!(psg::timed_entries(&file)?.len(), 1);
/// # Ok::<(), psg::Refusal>(())
/// ```
pub fn timed_entries(file: &[u8]) -> Result<Vec<TimedEntry>, Refusal> {
    events::timed(file, entries(file)?)
}

/// What an event's code stands for. It asks for no file; 19 above 65535.
pub fn event_kind(code: u64) -> Result<EventKind, Refusal> {
    let kind = calls::event_kind(code).answer()?.kind;
    Ok(EventKind::from_number(kind).expect("the library's numbers are the kinds'"))
}
