//! What the project's own corpus (tests/corpus, made by tests/corpus.sh) has to show, and that this program answers it.

use second::bytes::Order;
use second::corpus::{self, shown::shown};
use second::header::{self, Form, Spelling, Version, IDENTIFIER_LENGTH, SCRIPTS};
use second::index::PUBLISHED;
use second::record::Format;
use std::collections::BTreeSet;
use std::fs;
use std::path::{Path, PathBuf};
use std::process::Command;

const MOST_PACKED: u64 = 500_000;

fn archive() -> PathBuf {
    Path::new(env!("CARGO_MANIFEST_DIR")).join("../corpus/files.tar.gz")
}

/// The corpus, unpacked into a folder of this name.
fn unpacked(name: &str) -> PathBuf {
    let folder = Path::new(env!("CARGO_TARGET_TMPDIR")).join(name);
    // An older corpus may still be there.
    let _ = fs::remove_dir_all(&folder);
    fs::create_dir_all(&folder).unwrap();
    let tar = Command::new("tar")
        .arg("xzf")
        .arg(archive())
        .arg("-C")
        .arg(&folder)
        .status();
    assert!(tar.expect("tar").success());
    folder.join("corpus")
}

fn files(folder: &Path) -> Vec<Vec<u8>> {
    let paths = fs::read_dir(folder)
        .unwrap()
        .map(|entry| entry.unwrap().path());
    let bins = paths.filter(|path| path.extension().is_some_and(|e| e == "bin"));
    bins.map(|path| fs::read(path).unwrap()).collect()
}

fn spelling(file: &[u8]) -> Option<Spelling> {
    Spelling::from_identifier(file.get(..IDENTIFIER_LENGTH)?)
}

fn form(file: &[u8]) -> Option<Form> {
    Form::from_field(file.get(header::FORM_AT..header::ORDER_AT)?)
}

#[test]
fn the_archive_is_small_and_answered() {
    assert!(fs::metadata(archive()).unwrap().len() <= MOST_PACKED);
    let compared = corpus::compare(&unpacked("answered")).unwrap();
    assert!(compared.files >= 200 && compared.questions >= 5000);
    assert_eq!(compared.differences, Vec::<String>::new());
}

#[test]
fn every_question_is_answered_and_refused() {
    let folder = unpacked("questions");
    let asked = fs::read_to_string(folder.join("questions.ask")).unwrap();
    let answered = fs::read_to_string(folder.join("questions.ans")).unwrap();
    let mut found = BTreeSet::new();
    for (asked, answered) in asked.lines().zip(answered.lines()) {
        let mut words = asked.split(' ');
        let (file, op) = (words.next().unwrap(), words.next().unwrap());
        let mut words = answered.split(' ');
        match (words.next(), words.next()) {
            (Some("refused"), Some(number)) => {
                found.insert(format!("{op} refused"));
                found.insert(format!("{op} refused {number}"));
                found.insert(format!("refused {number}"));
            }
            (_, value) => {
                let file = fs::read(folder.join(file)).unwrap();
                found.insert(format!("{op} ok"));
                match (op, value, words.next(), words.next()) {
                    ("place", _, Some(width), Some(count)) => {
                        let samples = if count == "0" { "no" } else { "some" };
                        found.insert(format!("place of {samples} samples, {width} bytes each"));
                    }
                    ("track", Some(letter), Some(format), _) => {
                        found.insert(format!("track of format {format}, order {letter}"));
                    }
                    ("overview", Some(_), Some(_), Some(count)) => {
                        let samples = if count == "1" {
                            "one sample"
                        } else {
                            "samples"
                        };
                        found.insert(format!("overview of {samples}"));
                    }
                    _ => {}
                }
                let values = value.map_or("empty", |_| "with values");
                found.insert(format!("{op} ok {values}"));
                found.extend(value.map(|first| format!("{op} ok {first}")));
                found.insert(format!("{op} ok {:?}", spelling(&file)));
                found.insert(format!("{op} ok {:?}", form(&file)));
            }
        }
    }
    let ops = "table header facts channel montage_count patient_item event_item clock place track sample run_int \
        run_float index event_kind overview overview_range rewrite rewrite_room turn";
    for op in ops.split(' ') {
        assert!(found.contains(&format!("{op} refused")), "{op} refused");
        let spellings = Spelling::ALL.map(|spelling| format!("{op} ok {:?}", Some(spelling)));
        let forms = Form::ALL.map(|form| format!("{op} ok {:?}", Some(form)));
        for ok in [spellings, forms].concat() {
            assert!(found.contains(&ok), "{ok}");
        }
    }
    assert!(found.contains("montage ok") && found.contains("montage refused"));
    for width in 2..=4 {
        for samples in ["no", "some"] {
            let shown = format!("place of {samples} samples, {width} bytes each");
            assert!(found.contains(&shown), "{shown}");
        }
    }
    for format in 1..=4 {
        for letter in [Order::Little, Order::Big].map(Order::letter) {
            let shown = format!("track of format {format}, order {letter}");
            assert!(found.contains(&shown), "{shown}");
        }
    }
    let overviews =
        "overview ok empty, overview of one sample, overview of samples, overview refused 19, \
        overview_range ok 0, overview_range ok 1, overview_range ok 2, overview_range refused 17, \
        overview_range refused 19";
    for shown in overviews.split(", ") {
        assert!(found.contains(shown), "{shown}");
    }
    for op in ["run_int", "run_float"] {
        for shown in "ok empty, ok with values, refused 17, refused 19".split(", ") {
            let shown = format!("{op} {shown}");
            assert!(found.contains(&shown), "{shown}");
        }
    }
    let indexed = "index ok 0, index ok 1, index refused 17, event_kind refused 19";
    let published = PUBLISHED.map(|(_, kind)| kind);
    let kinds = published.into_iter().chain(["user", "reserved"]);
    let kinds: Vec<String> = kinds.map(|kind| format!("event_kind ok {kind}")).collect();
    for shown in indexed.split(", ").chain(kinds.iter().map(String::as_str)) {
        assert!(found.contains(shown), "{shown}");
    }
    for number in 1..=19 {
        assert!(found.contains(&format!("refused {number}")), "{number}");
    }
}

#[test]
fn every_refusal_and_every_form_is_there() {
    let files = files(&unpacked("forms"));
    let shown: BTreeSet<String> = files.iter().flat_map(|file| shown(file)).collect();
    let mut wanted: Vec<String> = (1..=16).map(|number| format!("refused {number}")).collect();
    for form in Form::ALL {
        wanted.extend((5..=16).map(|number| format!("refused {number}, {form:?}")));
    }
    wanted.extend([Order::Little, Order::Big].map(|order| format!("{order:?}")));
    wanted.extend(Spelling::ALL.map(|spelling| format!("{spelling:?}")));
    wanted.extend(Version::ALL.map(|version| format!("{version:?}")));
    wanted.extend(Form::ALL.map(|form| format!("{form:?}")));
    wanted.extend(SCRIPTS.map(|script| format!("script {script}")));
    wanted.extend(Format::ALL.map(|format| format!("{format:?}")));
    let named = "one recording, several recordings, zeros before K, inherited 120, inherited 130, a 200, no 200, \
        items, an empty 130, maker before 140, maker behind 140, hertz, a period that divides, \
        a period that does not divide, 256 Hz, no samples, several frames, padding of a frame, padding of a 140, \
        padding of a recording, no padding, 14 at seconds, 14 at seconds and an inherited 120, \
        2 for JSSR-SSG, 2 for JSSR-PPG, 2 for JSSR-SGP, 2 for JSSR-PSP, 2 for jssr-psg, 4 for 02, \
        inherited 320, type 101, a 350, a 350 and an inherited 320, maker behind 350, more in a 350 than in a 320, \
        floats in a 355, numbers in a 355, input 0, input of an electrode, input 1, input 2, input 3, \
        9 at 120 in 01, 9 at 320 in 00, 9 at 350 in 00, 9 at 125 in 01, 9 at 355 in 01, 13 at an electrode code, \
        13 at a 350's count, 14 at a 350's count, 13 at G1, 13 at G2, 13 for type 101 in a 125, 4 in V100, 4 in V110, \
        6 in V100, 6 in V110, 6 in V200, 9 in V100, 9 in V110, 11 in V100, 11 in V110, 11 in V200, \
        13 in V100, 13 in V110, 13 in V200, events in Channels, events in Electrodes, events in several recordings, \
        events in two channels, events of Signed24, events of Signed32, events of Float32, 16 bits without events, \
        a channel of events without one, event user, event 4096, event 65535, event reserved, event lights_out, \
        an event at once, an event that goes on into the next frame, an event again behind 0, \
        an event again behind another, an event that stays, an event that the recording before ended with, \
        epochs of Signed16, epochs of Signed24, epochs of Signed32, epochs of Channels, epochs of Electrodes, \
        several frames in an epoch, epochs of whole frames, a frame that goes on into the next epoch, \
        an empty epoch before another, an empty epoch behind the start of a short frame, \
        an empty epoch behind the start of a long frame, an end where an epoch would start, an end within an epoch, \
        empty epochs without samples, floats without samples";
    wanted.extend(named.split(", ").map(str::to_string));
    wanted.retain(|form| !shown.contains(form));
    assert_eq!(wanted, Vec::<String>::new());
}
