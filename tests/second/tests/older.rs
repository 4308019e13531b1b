//! Older recordings (document 02, request 6): the smallest file of each version, every rule that a version adds, and
//! what relabelling does to generated files.

mod common;

use common::{of_electrodes, Pen, PENS};
use second::ask::answer;
use second::bytes::Order;
use second::generate;
use second::header::{Version, FORM_AT, SCRIPT_AT, VERSION_AT};
use second::judge::judge;
use second::model::Model;
use second::record::{self, channel, Format, Kind};
use second::refusal::{self, Refusal};
use second::rewrite::rewrite;
use second::table::table;
use second::turn::turn;
use std::collections::BTreeMap;

const ROOM: u64 = u64::MAX;

// Where the records of the smallest file stand.
const RECORDING: usize = 32;
const CHANNEL: usize = 208;
const EVENTS: usize = 488;
const FRAMES: usize = 512;
const FRAME: usize = 544;

const SAMPLE: [u8; 2] = [0xff, 0x7f];

/// The smallest file that every version accepts: that of document 01 with an event table.
fn smallest(pen: Pen) -> Vec<u8> {
    file_with(pen, &[pen.items(200, &[])])
}

/// The smallest file with these records in the place of its event table.
fn file_with(pen: Pen, events: &[Vec<u8>]) -> Vec<u8> {
    let parts = [
        &[
            pen.overview(1, 1),
            pen.channels(&[[0, 1, 1, 1]]),
            pen.items(130, &[]),
        ],
        events,
        &[pen.frames(1, 0, &[pen.frame(1, 26, 0, &SAMPLE)])],
    ];
    pen.file(&[pen.recording(1, 0, &parts.concat())])
}

fn labelled(file: &[u8], label: &[u8; 6]) -> Vec<u8> {
    let mut out = file.to_vec();
    out[VERSION_AT..FORM_AT].copy_from_slice(label);
    out
}

fn of_version(file: &[u8], version: Version) -> Vec<u8> {
    labelled(file, version.field())
}

fn refused(number: u8, at: usize) -> Option<Refusal> {
    Some(Refusal { number, at })
}

/// The refusal of a file under each label.
fn verdicts(file: &[u8]) -> [Option<Refusal>; 4] {
    Version::ALL.map(|version| judge(&of_version(file, version)).err())
}

#[test]
fn each_version_is_read_and_kept() {
    for pen in PENS {
        for version in Version::ALL {
            let file = of_version(&smallest(pen), version);
            let letter = pen.0.letter();
            let expected = format!("0 {} 0 {letter} 69 1", version.number());
            assert_eq!(answer(&file, "header", &[]), Some(Ok(expected)));
            let turned = turn(&file, ROOM).expect("no makers");
            assert_eq!(judge(&turned).expect("turned").version, version);
            assert_eq!(turn(&turned, ROOM), Ok(file.clone()));
            for order in [Order::Little, Order::Big] {
                let anew = rewrite(&file, order.letter().into(), ROOM).expect("no makers");
                assert_eq!(judge(&anew).expect("anew").version, version);
            }
            assert_eq!(rewrite(&file, letter.into(), ROOM), Ok(file));
        }
    }
}

#[test]
fn any_other_version_is_3() {
    let others = [
        b"000000", b"000101", b"000120", b"000210", b"000310", b"000400", b"100000", b"0001 0",
        b" 00100",
    ];
    for pen in PENS {
        for label in others {
            let file = labelled(&smallest(pen), label);
            assert_eq!(
                judge(&file).err(),
                refused(refusal::VERSION, 8),
                "{label:?}"
            );
        }
    }
}

#[test]
fn the_event_table_is_needed_before_2_00() {
    for pen in PENS {
        let maker = pen.record([20, 1100, 0, 0], &[1, 2, 3, 4]);
        let (none, makers) = (file_with(pen, &[]), file_with(pen, &[maker.clone(), maker]));
        let at_code = |at| refused(refusal::CODE, at + record::CODE_AT);
        assert_eq!(
            verdicts(&none),
            [at_code(EVENTS), at_code(EVENTS), None, None]
        );
        let behind = EVENTS + 40;
        assert_eq!(
            verdicts(&makers),
            [at_code(behind), at_code(behind), None, None]
        );
        // The recording ends where the table should stand.
        let parts = [
            pen.overview(1, 1),
            pen.channels(&[[0, 1, 1, 1]]),
            pen.items(130, &[]),
        ];
        let mut ended = pen.file(&[pen.recording(1, 0, &parts)]);
        ended.truncate(EVENTS);
        let ended = pen.set(&ended, &[(RECORDING, (EVENTS - RECORDING) as i32)]);
        assert_eq!(verdicts(&ended), [refused(refusal::SIZE, EVENTS); 4]);
    }
}

#[test]
fn an_event_table_is_needed_in_every_recording() {
    for pen in PENS {
        let block = pen.frames(1, 0, &[pen.frame(1, 26, 0, &SAMPLE)]);
        let first = [
            pen.overview(1, 1),
            pen.channels(&[[0, 1, 1, 1]]),
            pen.items(130, &[]),
            pen.items(200, &[]),
            block.clone(),
        ];
        let second = [pen.overview(1, 1), block];
        let file = pen.file(&[pen.recording(1, 0, &first), pen.recording(2, 0, &second)]);
        let at = judge(&file).expect("a valid file").recordings[1]
            .block
            .record
            .at;
        let there = refused(refusal::CODE, at + record::CODE_AT);
        assert_eq!(verdicts(&file), [there, there, None, None]);
    }
}

#[test]
fn no_multiplier_before_3_00() {
    for pen in PENS {
        let maker = pen.record([20, 1100, 0, 0], &[1, 2, 3, 4]);
        let file = file_with(pen, &[maker, pen.items(200, &[])]);
        // Behind the maker's record.
        let records = [RECORDING, EVENTS, FRAMES + 20, FRAME + 20];
        for at in records.map(|at| at + record::MULTIPLIER_AT) {
            let file = pen.set(&file, &[(at, 1)]);
            let there = refused(refusal::MULTIPLIER, at);
            assert_eq!(verdicts(&file), [there, there, there, None], "{at}");
        }
    }
}

#[test]
fn one_format_and_no_u_before_3_00() {
    for pen in PENS {
        let at = CHANNEL + channel::FORMAT;
        let there = refused(refusal::VALUE, at);
        for format in [Format::Signed24, Format::Signed32, Format::Float32] {
            let file = pen.set(&smallest(pen), &[(at, format.number())]);
            // In 3.00 the frame is then too short for its sample.
            let short = refused(refusal::DISAGREEMENT, FRAMES + record::frames::FRAME_LENGTH);
            assert_eq!(verdicts(&file), [there, there, there, short]);
        }
        let mut file = smallest(pen);
        file[SCRIPT_AT] = b'U';
        let there = refused(refusal::SCRIPT, SCRIPT_AT);
        assert_eq!(verdicts(&file), [there, there, there, None]);
    }
}

#[test]
fn type_20_from_1_10_on() {
    for pen in PENS {
        let at = CHANNEL + channel::TYPE;
        let file = pen.set(&smallest(pen), &[(at, 20)]);
        assert_eq!(
            verdicts(&file),
            [refused(refusal::VALUE, at), None, None, None]
        );
    }
}

#[test]
fn electrodes_from_2_00_on() {
    for pen in PENS {
        let file = pen.smallest_electrodes();
        let there = refused(refusal::FORM, FORM_AT);
        assert_eq!(verdicts(&file), [there, there, None, None]);
        // Type 101 of an electrode; what stands in a 355 is not judged.
        let montage = 520;
        let changes = [
            (CHANNEL + channel::TYPE, record::PROCESSED),
            (montage + channel::TYPE, 20),
            (montage + channel::FORMAT, 4),
        ];
        assert_eq!(
            verdicts(&pen.set(&file, &changes)),
            [there, there, None, None]
        );
        // A label is tested before the form, and the form before the script.
        let mut both = of_electrodes(smallest(pen));
        both[SCRIPT_AT] = b'U';
        assert_eq!(
            judge(&labelled(&both, b"000101")).err(),
            refused(refusal::VERSION, 8)
        );
        assert_eq!(judge(&of_version(&both, Version::V110)).err(), there);
        let script = refused(refusal::SCRIPT, SCRIPT_AT);
        assert_eq!(judge(&of_version(&both, Version::V200)).err(), script);
    }
}

/// Where a file of 3.00 breaks the rules of a version, in file order.
fn breaches(file: &[u8], model: &Model, version: Version) -> Vec<Refusal> {
    let mut all = Vec::new();
    let mut unless = |keeps: bool, number: u8, at: usize| {
        if !keeps {
            all.push(Refusal { number, at });
        }
    };
    unless(version.has_form(model.form), refusal::FORM, FORM_AT);
    unless(version.has_script(model.script), refusal::SCRIPT, SCRIPT_AT);
    for record in &model.records {
        let at = record.at;
        let plain = version.has_multipliers() || record.multiplier == 0;
        unless(plain, refusal::MULTIPLIER, at + record::MULTIPLIER_AT);
        if matches!(record.kind, Kind::Channel | Kind::Electrode) {
            let field = |offset| model.order.i32_at(file, at + offset);
            let is_type = version.has_type(field(channel::TYPE));
            unless(is_type, refusal::VALUE, at + channel::TYPE);
            let format = Format::from_number(field(channel::FORMAT)).expect("an accepted file");
            unless(
                version.has_format(format),
                refusal::VALUE,
                at + channel::FORMAT,
            );
        }
    }
    for recording in &model.recordings {
        let has_events = recording.parts.iter().any(|part| part.kind == Kind::Events);
        let at = recording.block.record.at + record::CODE_AT;
        unless(has_events || !version.needs_events(), refusal::CODE, at);
    }
    all.sort_by_key(|breach| breach.at);
    all
}

fn sub_of(model: &Model) -> impl Iterator<Item = second::model::Sub> + '_ {
    model
        .recordings
        .iter()
        .flat_map(|recording| recording.channels.iter().map(|channel| channel.sub))
}

#[test]
fn relabelling_generated_files() {
    let mut times: BTreeMap<Version, [u64; 2]> = BTreeMap::new();
    let mut numbers: BTreeMap<u8, u64> = BTreeMap::new();
    for index in 0..4000 {
        let file = generate::valid_file(11, index).bytes;
        let newest = of_version(&file, Version::V300);
        // What an older version accepts, the newest accepts with the same reading.
        let model = judge(&file).expect("a valid file");
        let renewed = judge(&newest).expect("as the newest version");
        assert_eq!(renewed.version, Version::V300);
        assert_eq!(renewed.records, model.records);
        assert!(sub_of(&renewed).eq(sub_of(&model)));
        assert_eq!(table(&newest, ROOM), table(&file, ROOM));
        for version in Version::OLDER {
            let relabelled = of_version(&newest, version);
            let first = breaches(&newest, &renewed, version).first().copied();
            let verdict = judge(&relabelled).err();
            assert_eq!(verdict, first, "{version:?}, file {index}");
            times.entry(version).or_default()[usize::from(first.is_some())] += 1;
            if let Some(first) = first {
                *numbers.entry(first.number).or_default() += 1;
            }
        }
    }
    for version in Version::OLDER {
        assert!(
            times[&version].iter().all(|count| *count > 300),
            "{times:?}"
        );
    }
    for number in [
        refusal::FORM,
        refusal::SCRIPT,
        refusal::CODE,
        refusal::MULTIPLIER,
        refusal::VALUE,
    ] {
        assert!(
            numbers.get(&number).is_some_and(|count| *count > 50),
            "{numbers:?}"
        );
    }
}

#[test]
fn rewriting_an_older_file_needs_no_multiplier() {
    for index in 0..4000 {
        let file = generate::valid_file(12, index).bytes;
        let model = judge(&file).expect("a valid file");
        if model.version == Version::V300 {
            continue;
        }
        let anew = rewrite(&file, model.order.letter().into(), file.len() as u64);
        let anew = judge(&anew.expect("in its own order")).expect("under its own label");
        assert_eq!(anew.version, model.version);
        assert!(anew.records.iter().all(|record| record.multiplier == 0));
    }
}

#[test]
fn every_breach_is_met_in_damaged_files() {
    let mut met: BTreeMap<(Version, u8), u64> = BTreeMap::new();
    for index in 0..40_000 {
        let file = generate::file(13, index).bytes;
        let label = file.get(VERSION_AT..FORM_AT).and_then(Version::from_field);
        if let (Some(version), Err(refusal)) = (label, judge(&file)) {
            *met.entry((version, refusal.number)).or_default() += 1;
        }
    }
    for version in Version::OLDER {
        for number in 4..=16 {
            // Without a multiplier there is no padding.
            let expected = number != refusal::PADDING;
            let found = met.contains_key(&(version, number));
            assert_eq!(found, expected, "{version:?} {number}");
        }
    }
}
