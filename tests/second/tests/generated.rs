//! What is true of all generated files.

use second::bytes::Order;
use second::corpus::shown::shown;
use second::generate::{self, Field, Sheet};
use second::header::{Header, Spelling, IDENTIFIER_LENGTH};
use second::judge::judge;
use second::model::{Item, Model, Recording, Span, Sub};
use second::questions::{self, sample_at};
use second::record::{Kind, Rate, MICROSECONDS};
use second::refusal::{Refusal, IDENTIFIER};
use second::rewrite::{rewrite, rewrite_room};
use second::table::table;
use second::turn::turn;
use std::collections::{BTreeMap, BTreeSet};

const SEED: u64 = 7;
const VALID: u64 = 3000;
const ANY: u64 = 80_000;
const ROOM: u64 = u64::MAX;

fn valid_files() -> impl Iterator<Item = Sheet> {
    (0..VALID).map(|index| generate::valid_file(SEED, index))
}

fn has_makers(sheet: &Sheet) -> bool {
    sheet
        .records
        .iter()
        .any(|record| record.kind == Kind::Maker)
}

fn letter(order: Order) -> u64 {
    u64::from(order.letter())
}

#[test]
fn the_same_seed_gives_the_same_files() {
    for index in 0..200 {
        let (one, other) = (generate::file(3, index), generate::file(3, index));
        assert_eq!(one.bytes, other.bytes);
    }
    let differs = (0..50).any(|i| generate::file(3, i).bytes != generate::file(4, i).bytes);
    assert!(differs);
}

#[test]
fn valid_files_have_the_rows_they_were_written_with() {
    for sheet in valid_files() {
        let rows = table(&sheet.bytes, ROOM).expect("a valid file");
        let found: Vec<(i64, i64)> = rows.iter().map(|row| (row[0], row[1])).collect();
        let written: Vec<(i64, i64)> = sheet
            .records
            .iter()
            .map(|record| (record.at as i64, record.length as i64))
            .collect();
        assert_eq!(found, written);
    }
}

#[test]
fn periods_of_every_sort_are_frequent_in_valid_files() {
    let mut times: BTreeMap<&str, u64> = BTreeMap::new();
    for sheet in valid_files() {
        let model = judge(&sheet.bytes).expect("a valid file");
        for recording in &model.recordings {
            let time = recording.block.seconds as u64 * MICROSECONDS;
            for (channel, slot) in recording.channels.iter().zip(&recording.block.slots) {
                if let Rate::Microseconds(period) = channel.rate {
                    let sort = match time % period {
                        0 => "divides",
                        _ if period == 3906 => "256 Hz",
                        _ => "does not divide",
                    };
                    assert_eq!(slot.count, (time - time % period) / period);
                    *times.entry(sort).or_default() += 1;
                }
            }
        }
    }
    for (sort, least) in [
        ("divides", VALID / 2),
        ("does not divide", VALID),
        ("256 Hz", 100),
    ] {
        let found = times.get(sort).copied().unwrap_or(0);
        assert!(found >= least, "{sort}: only {found}");
    }
}

/// How many of the valid files show each of these at least.
#[test]
fn events_of_every_sort_are_frequent_in_valid_files() {
    let mut times: BTreeMap<String, u64> = BTreeMap::new();
    for sheet in valid_files() {
        for form in shown(&sheet.bytes) {
            *times.entry(form).or_default() += 1;
        }
    }
    for (least, forms) in [
        (
            VALID / 10,
            "events in Channels, events in Electrodes, events in several recordings, an event at once, \
            an event that goes on into the next frame, an event again behind 0, event user, event reserved, \
            16 bits without events",
        ),
        (
            VALID / 50,
            "events in two channels, an event again behind another, an event that stays, \
            an event that the recording before ended with, a channel of events without one, events of Signed24, \
            events of Signed32, events of Float32, event lights_out, event INST_end, event 4096, event 65535",
        ),
    ] {
        for form in forms.split(", ") {
            let found = times.get(form).copied().unwrap_or(0);
            println!("{form}: {found}");
            assert!(found >= least, "{form}: only {found}");
        }
    }
}

#[test]
fn turning_twice_gives_the_file_back() {
    for sheet in valid_files() {
        let turned = turn(&sheet.bytes, ROOM);
        assert_eq!(turned.is_err(), has_makers(&sheet));
        if let Ok(turned) = turned {
            assert_ne!(turned, sheet.bytes);
            assert_eq!(turn(&turned, ROOM), Ok(sheet.bytes));
        }
    }
}

#[test]
fn a_rewritten_file_reads_the_same_and_is_canonical() {
    for sheet in valid_files() {
        let model = judge(&sheet.bytes).expect("a valid file");
        for order in [Order::Little, Order::Big] {
            match rewrite(&sheet.bytes, letter(order), ROOM) {
                Err(refusal) => {
                    assert_eq!(refusal.number, 18);
                    assert!(has_makers(&sheet) && order != sheet.order);
                }
                Ok(out) => {
                    let rewritten = judge(&out).expect("a rewritten file");
                    let reading = reading(&sheet.bytes, &model);
                    assert_eq!(reading, self::reading(&out, &rewritten));
                    assert_eq!(rewrite(&out, letter(order), ROOM), Ok(out));
                }
            }
        }
    }
}

/// Small as they are, none of them needs a multiplier, so their own length is room enough.
#[test]
fn a_rewrite_fits_the_room_that_is_reserved_for_it() {
    for sheet in valid_files() {
        let length = sheet.bytes.len();
        let count = judge(&sheet.bytes).expect("a valid file").recordings.len();
        assert_eq!(rewrite_room(&sheet.bytes), Ok(length + 254 * count));
        for order in [Order::Little, Order::Big] {
            let refusal = rewrite(&sheet.bytes, letter(order), length as u64).err();
            assert!(refusal.is_none_or(|refusal| refusal.number == 18));
        }
    }
}

#[test]
fn both_canonical_files_are_each_other_turned() {
    for sheet in valid_files().filter(|sheet| !has_makers(sheet)) {
        let little = rewrite(&sheet.bytes, letter(Order::Little), ROOM).expect("no makers");
        let big = rewrite(&sheet.bytes, letter(Order::Big), ROOM).expect("no makers");
        assert_eq!(turn(&little, ROOM), Ok(big));
    }
}

/// The same file by the other spelling.
fn respelt(file: &[u8]) -> Vec<u8> {
    let spelling = Spelling::from_identifier(&file[..IDENTIFIER_LENGTH]);
    let other = spelling.expect("a valid file").other();
    [other.identifier(), &file[IDENTIFIER_LENGTH..]].concat()
}

#[test]
fn both_spellings_are_frequent_and_all_else_is_the_same_by_either() {
    let mut times = [0; 2];
    for sheet in valid_files() {
        let file = sheet.bytes;
        let other = respelt(&file);
        let header = questions::header(&file).expect("a valid file");
        times[header.spelling.number()] += 1;
        let expected = Header {
            spelling: header.spelling.other(),
            ..header
        };
        assert_eq!(questions::header(&other), Ok(expected));
        assert_eq!(table(&other, ROOM), table(&file, ROOM));
        let respell = |out: Result<Vec<u8>, Refusal>| out.map(|out| respelt(&out));
        assert_eq!(turn(&other, ROOM), respell(turn(&file, ROOM)));
        for order in [Order::Little, Order::Big] {
            let rewritten = |file| rewrite(file, letter(order), ROOM);
            assert_eq!(rewritten(&other), respell(rewritten(&file)));
        }
    }
    assert!(times.iter().all(|times| *times >= VALID / 3), "{times:?}");
}

/// A file's reading as text: everything but sizes, multipliers, frame length,
/// reserve, byte order and positions.
fn reading(file: &[u8], model: &Model) -> String {
    let mut all = format!("{:?} {:?} {}", model.spelling, model.form, model.script);
    all.push_str(&format!(" {}\n", model.recordings.len()));
    for recording in &model.recordings {
        all.push_str(&recording_reading(file, model.order, recording));
    }
    all
}

fn recording_reading(file: &[u8], order: Order, recording: &Recording) -> String {
    let text = |span: Span| file[span.at..span.at + span.length].to_vec();
    let overview = &recording.overview;
    let mut all = format!(
        "{:?} {:?} {:?} {:?} {:?} {:?} {:?}\n",
        overview.channels,
        overview.frames,
        overview.date,
        overview.time,
        text(overview.time_text),
        overview.mains,
        text(overview.comment),
    );
    for channel in recording.channels.iter() {
        all.push_str(&sub_reading(&channel.sub, text));
    }
    for channel in &recording.montage {
        all.push_str(&sub_reading(channel, text));
    }
    let items = |items: &[Item]| -> Vec<(i32, Vec<u8>)> {
        items
            .iter()
            .map(|item| (item.code, text(item.text)))
            .collect()
    };
    all.push_str(&format!("{:?}\n", items(&recording.patient)));
    all.push_str(&format!("{:?}\n", items(&recording.events)));
    for part in &recording.parts {
        let whole = (part.kind == Kind::Maker).then(|| file[part.at..part.end()].to_vec());
        all.push_str(&format!("{:?} {whole:?}\n", part.kind));
    }
    all.push_str(&format!("{}\n", recording.block.seconds));
    for frame in &recording.block.frames {
        all.push_str(&format!("{:?}\n", frame.clock));
        for slot in &recording.block.slots {
            let first = frame.samples(slot).at;
            let width = slot.format.width();
            let samples = (0..slot.count as usize)
                .map(|n| sample_at(order, file, first + n * width, slot.format));
            all.push_str(&format!("{:?}\n", samples.collect::<Vec<_>>()));
        }
    }
    all
}

fn sub_reading(sub: &Sub, text: impl Fn(Span) -> Vec<u8>) -> String {
    format!(
        "{:?} {:?} {:?} {:?}\n",
        [
            sub.number,
            sub.flags,
            sub.channel_type,
            sub.format,
            sub.rate,
            sub.calibration_frequency,
            sub.filter_low,
            sub.filter_high,
            sub.sensitivity,
        ],
        sub.calibration,
        sub.leads,
        [sub.label, sub.unit, sub.comment].map(&text),
    )
}

/// The sort of place at which a file was refused, as text.
fn place_of(sheet: &Sheet, refusal: Refusal) -> String {
    let number = refusal.number;
    if let Some(place) = sheet.place_at(refusal.at) {
        let at = at_field(number, place.field);
        return match place.field {
            Field::Seconds if inherits(sheet, place.at) => inherited(at),
            _ => at,
        };
    }
    let paddings = sheet.paddings.iter().filter(|padding| padding.length > 0);
    let mut around = paddings.filter(|p| (p.at..p.at + p.length).contains(&refusal.at));
    match around.next() {
        Some(padding) => in_padding(number, padding.kind),
        None if refusal.at == sheet.bytes.len() => at_file_end(number),
        None => String::new(),
    }
}

fn at_field(number: u8, field: Field) -> String {
    format!("{number} at {field:?}")
}

/// Whether the recording around a position has no 120 or 320 before it.
fn inherits(sheet: &Sheet, at: usize) -> bool {
    let before = sheet.records.iter().filter(|record| record.at < at);
    let mut parts = before.rev().take_while(|r| r.kind != Kind::Recording);
    !parts.any(|record| matches!(record.kind, Kind::Channels | Kind::Electrodes))
}

fn inherited(at: String) -> String {
    format!("{at}, its 120 inherited")
}

fn in_padding(number: u8, kind: Kind) -> String {
    format!("{number} in the padding of {kind:?}")
}

fn at_file_end(number: u8) -> String {
    format!("{number} at the file's end")
}

/// Every refusal of a field or a padding, with its place.
fn named_places() -> Vec<String> {
    const SHARED: &[Kind] = &[
        Kind::Recording,
        Kind::Overview,
        Kind::Patient,
        Kind::Events,
        Kind::Frames,
        Kind::Frame,
        Kind::Maker,
        Kind::Delimiter,
    ];
    const LISTS: &[Kind] = &[Kind::Channels, Kind::Electrodes, Kind::Montage];
    let subs = LISTS.iter().filter_map(|list| list.subs());
    let subs: Vec<Kind> = subs.map(|subs| subs.kind).collect();
    let mut all = Vec::new();
    for kind in [SHARED, LISTS, &subs[..]].concat() {
        all.push(at_field(9, Field::Code(kind)));
        all.push(at_field(10, Field::Size(kind)));
        all.push(at_field(11, Field::Multiplier(kind)));
        if kind != Kind::Maker {
            all.push(at_field(12, Field::Serial(kind)));
        }
    }
    let values = [
        Field::DataForm,
        Field::ChannelCount,
        Field::TotalFrames,
        Field::Year,
        Field::Month,
        Field::Day,
        Field::Hour,
        Field::Minute,
        Field::Second,
        Field::Mains,
        Field::Seconds,
        Field::ClockHour,
        Field::ClockMinute,
        Field::ClockSecond,
    ];
    all.extend(values.map(|field| at_field(13, field)));
    for kind in LISTS {
        all.push(at_field(13, Field::SubCount(*kind)));
        all.push(at_field(13, Field::SubSize(*kind)));
        all.push(at_field(14, Field::SubCount(*kind)));
    }
    // Of a montage channel these are not judged.
    for kind in subs.into_iter().filter(|k| *k != Kind::MontageChannel) {
        let fields = [Field::Type(kind), Field::Format(kind), Field::Rate(kind)];
        all.extend(fields.map(|field| at_field(13, field)));
    }
    let electrodes = [Field::ElectrodeCode, Field::Lead1, Field::Lead2];
    all.extend(electrodes.map(|field| at_field(13, field)));
    for kind in [Kind::Patient, Kind::Events] {
        all.push(at_field(10, Field::ItemSize(kind)));
        all.push(at_field(13, Field::ItemCode(kind)));
        all.push(at_field(13, Field::ItemCount(kind)));
        all.push(at_field(14, Field::ItemCount(kind)));
    }
    let disagreements = [
        Field::ChannelCount,
        Field::Seconds,
        Field::FrameLength,
        Field::FrameCount,
    ];
    all.extend(disagreements.map(|field| at_field(14, field)));
    all.push(inherited(at_field(14, Field::Seconds)));
    let padded = [Kind::Recording, Kind::Frames, Kind::Frame];
    all.extend(padded.map(|kind| in_padding(15, kind)));
    all.push(in_padding(10, Kind::Recording));
    all.push(at_file_end(10));
    all
}

#[test]
fn every_refusal_is_met_at_every_place() {
    let mut places: BTreeMap<String, usize> = BTreeMap::new();
    let mut numbers: BTreeMap<u8, usize> = BTreeMap::new();
    let mut identifiers: BTreeSet<Vec<u8>> = BTreeSet::new();
    for index in 0..ANY {
        let sheet = generate::file(SEED, index);
        if let Err(refusal) = judge(&sheet.bytes) {
            *numbers.entry(refusal.number).or_default() += 1;
            *places.entry(place_of(&sheet, refusal)).or_default() += 1;
            if refusal.number == IDENTIFIER {
                identifiers.insert(sheet.bytes[..IDENTIFIER_LENGTH].to_vec());
            }
        }
    }
    for number in 1..=16 {
        let times = numbers.get(&number).copied().unwrap_or(0);
        assert!(times >= 100, "{number}: only {times}");
    }
    for identifier in generate::NO_IDENTIFIERS {
        assert!(identifiers.contains(&identifier[..]), "{identifier:?}");
    }
    for place in named_places() {
        let times = places.get(&place).copied().unwrap_or(0);
        println!("{place}: {times}");
        assert!(times >= 20, "{place}: only {times}");
    }
}
