//! Copies for teaching: by hand, and of generated files beside the questions about them.

mod common;

use common::PENS;
use second::ask::answer;
use second::generate;
use second::judge::judge;
use second::lines::answer_line;
use second::questions::{event_item, patient_item};
use second::random::Random;
use second::refusal::Refusal;
use second::table::table;
use second::teach::{private_texts, teach};

const ROOM: u64 = u64::MAX;

/// Files of the generator that have a copy.
fn taught() -> impl Iterator<Item = (Vec<u8>, Vec<u8>)> {
    let files = (0..400).map(|index| generate::valid_file(99, index).bytes);
    files.filter_map(|file| teach(&file, ROOM).ok().map(|copy| (file, copy)))
}

#[test]
fn the_texts_of_items_are_zero_but_for_two_codes() {
    for pen in PENS {
        let codes = [0, 1, 21, 23, 22, 301];
        let patient: Vec<(i32, &[u8])> = codes.iter().map(|&code| (code, &b"name"[..])).collect();
        let recording = pen.recording(
            1,
            0,
            &[
                pen.overview(1, 1),
                pen.channels(&[[0, 1, 1, 1]]),
                pen.items(130, &patient),
                pen.items(200, &[(4096, b"lights"), (0, b"spare")]),
                pen.frames(1, 0, &[pen.frame(1, 26, 0, &[7; 2])]),
            ],
        );
        let file = pen.file(&[recording]);
        let copy = teach(&file, ROOM).expect("a file without a maker's record");
        let text = |item: second::model::Item| copy[item.text.at..item.end()].to_vec();
        for (number, code) in (1..).zip(codes) {
            let item = patient_item(&copy, 1, number).expect("an item");
            let kept = code == 21 || code == 23;
            assert_eq!(item.code, code);
            assert_eq!(text(item), if kept { *b"name" } else { [0; 4] });
        }
        for (number, length) in [(1, 6), (2, 5)] {
            let item = event_item(&copy, 1, number).expect("an item");
            assert_eq!(text(item), vec![0; length]);
        }
    }
}

#[test]
fn a_copy_has_the_files_records_and_differs_in_private_texts_alone() {
    let mut seen = 0;
    for (file, copy) in taught() {
        assert_eq!(copy.len(), file.len());
        assert_eq!(table(&copy, ROOM), table(&file, ROOM));
        let mut private = vec![false; file.len()];
        for text in private_texts(&judge(&file).expect("a valid file")) {
            private[text.at..text.at + text.length].fill(true);
        }
        for (at, (&byte, &was)) in copy.iter().zip(&file).enumerate() {
            assert_eq!(byte, if private[at] { 0 } else { was }, "byte {at}");
        }
        assert_eq!(teach(&copy, ROOM), Ok(copy));
        seen += 1;
    }
    assert!(seen > 100, "{seen} files have a copy");
}

#[test]
fn files_that_differ_in_private_texts_alone_have_one_copy() {
    let mut random = Random::new(7, 0);
    for (mut file, copy) in taught() {
        for text in private_texts(&judge(&file).expect("a valid file")) {
            file[text.at..text.at + text.length].copy_from_slice(&random.bytes(text.length));
        }
        assert_eq!(teach(&file, ROOM), Ok(copy));
    }
}

#[test]
fn a_makers_record_is_18_and_comes_before_17() {
    let mut makers = 0;
    for index in 0..400 {
        let file = generate::valid_file(98, index).bytes;
        let model = judge(&file).expect("a valid file");
        let expected = match model.first_maker() {
            Some(maker) => {
                makers += 1;
                Refusal::new(18, maker.at + 4)
            }
            None => Refusal::new(17, file.len()),
        };
        assert_eq!(teach(&file, file.len() as u64 - 1), Err(expected));
        let line = answer_line(answer(&file, "teach", &[0]).expect("an op"));
        assert_eq!(line, format!("refused {} {}", expected.number, expected.at));
    }
    assert!(makers > 0);
}
