//! Calls that write into a buffer lent to them: the answer, what they wrote, and that no other place was touched.

use ask::{marked, refused};
use second::index::{index, ENTRY_NUMBERS};
use second::refusal::Refusal;
use second::table::{table, ROW_NUMBERS};
use second::turn::turn;
use std::fmt::Debug;

/// The first difference of the calls that write.
pub fn written_differs(file: &[u8]) -> Option<String> {
    table_differs(file)
        .or_else(|| index_differs(file))
        .or_else(|| turn_differs(file))
        .or_else(|| rewrite_differs(file))
}

fn table_differs(file: &[u8]) -> Option<String> {
    call_differs(
        "table",
        file,
        |rows| psg::table(file, rows).map(|count| ROW_NUMBERS * count),
        |room| table(file, room).map(|rows| rows.concat()),
    )
}

fn index_differs(file: &[u8]) -> Option<String> {
    call_differs(
        "index",
        file,
        |entries| psg::index(file, entries).map(|count| ENTRY_NUMBERS * count),
        |room| index(file, room).map(|entries| entries.concat()),
    )
}

/// Where it answers, what it wrote is turned back and must be the file.
fn turn_differs(file: &[u8]) -> Option<String> {
    let there = call_differs(
        "turn",
        file,
        |out| psg::turn(file, out),
        |room| turn(file, room),
    );
    there.or_else(|| {
        let there = psg::turned(file).ok()?;
        let mut back = marked(file.len());
        let again = refused(psg::turn(&there, &mut back));
        differs("turn back", (again, &back), (Ok(file.len()), file))
    })
}

/// In both orders, and in one that is none.
fn rewrite_differs(file: &[u8]) -> Option<String> {
    [b'L', b'B', b'b'].into_iter().find_map(|letter| {
        call_differs(
            &format!("rewrite in {}", char::from(letter)),
            file,
            |out| psg::rewrite_by_letter(file, letter, out),
            |room| second::rewrite::rewrite(file, letter.into(), room),
        )
    })
}

/// A call's first difference: with room to spare, just enough, one too little and none. A refused one gets room as
/// well.
pub fn call_differs<T: Copy + Debug + From<u8> + PartialEq>(
    call: &str,
    file: &[u8],
    library: impl Fn(&mut [T]) -> Result<usize, psg::Refusal>,
    second: impl Fn(u64) -> Result<Vec<T>, Refusal>,
) -> Option<String> {
    let need = second(u64::MAX).map_or(file.len(), |values| values.len());
    let rooms = [need + 9, need, need.saturating_sub(1), 0];
    rooms.into_iter().find_map(|room| {
        let mut out = marked(room);
        let found = refused(library(&mut out));
        let said = second(room as u64);
        let mut expected = marked(room);
        if let Ok(values) = &said {
            expected[..values.len()].copy_from_slice(values);
        }
        let said = said.map(|values| values.len());
        differs(call, (found, &out), (said, &expected))
    })
}

/// A difference, in words, where the two answers or what the buffer holds are not the same.
fn differs<T: Debug + PartialEq>(
    call: &str,
    found: (Result<usize, Refusal>, &[T]),
    expected: (Result<usize, Refusal>, &[T]),
) -> Option<String> {
    if found.0 != expected.0 {
        return Some(format!(
            "{call}: {:?}, but the second program says {:?}",
            found.0, expected.0
        ));
    }
    let at = found.1.iter().zip(expected.1).position(|(a, b)| a != b)?;
    Some(format!("{call}: the buffer differs at {at}"))
}
