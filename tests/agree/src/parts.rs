//! Parts of a file, cut by its places and by numbers of any size, beside those that the second program says.

use psg::Place;
use second::model::Span;
use second::place;

const MOST: usize = usize::MAX;

/// Widths and counts; the products of some are small again in 64 bits.
const FACTORS: [usize; 11] = [
    0,
    1,
    2,
    3,
    4,
    1 << 31,
    1 << 32,
    1 << 63,
    MOST / 3 + 1,
    MOST - 1,
    MOST,
];

/// The first difference of what a place that the second program says too cuts: its bytes; and what it cuts from a file
/// that ends before the last of them.
pub fn part_differs(file: &[u8], place: Place) -> Option<String> {
    let start = place.position;
    let end = start + place.width * place.count;
    let found = psg::part(file, place);
    if found.as_ptr_range() != file[start..end].as_ptr_range() {
        let found = span(file, found);
        return Some(format!("{found:?}, but the bytes are {start} to {end}"));
    }
    let ends = [0, start - 1, start, start.midpoint(end), end - 1, end];
    ends.into_iter()
        .find_map(|end| cut_differs(&file[..end], place))
}

/// The first difference of what any numbers cut: positions in the file, at its end and behind it, with counts that just
/// reach its end or just do not, and with others. From behind the file they reach it by going on from 2^64 at 0.
pub fn parts_differ(file: &[u8]) -> Option<String> {
    let length = file.len();
    let positions = [
        0,
        1,
        length / 2,
        length.saturating_sub(1),
        length,
        length + 1,
        1 << 63,
        MOST - length,
        MOST,
    ];
    positions.into_iter().find_map(|position| {
        let rest = length.wrapping_sub(position);
        FACTORS.into_iter().find_map(|width| {
            let most = rest.checked_div(width).unwrap_or(rest);
            let near = [most.saturating_sub(1), most, most.saturating_add(1)];
            let mut counts = FACTORS.into_iter().chain(near);
            counts.find_map(|count| {
                let place = Place {
                    position,
                    width,
                    count,
                };
                cut_differs(file, place)
            })
        })
    })
}

/// A difference in what a place cuts from a file of which it need not be.
fn cut_differs(file: &[u8], place: Place) -> Option<String> {
    let numbers = [place.position, place.width, place.count];
    let [position, width, count] = numbers.map(|number| number as u64);
    let same = place::Place {
        position,
        width,
        count,
    };
    let (found, length) = (span(file, psg::part(file, place)), file.len());
    let expected = place::part(length as u64, same);
    (found != expected).then(|| {
        format!("{place:?} of {length} bytes: {found:?}, but the second program says {expected:?}")
    })
}

/// Where a part stands in the file, by its address, and its length.
fn span(file: &[u8], part: &[u8]) -> Span {
    Span {
        at: part.as_ptr() as usize - file.as_ptr() as usize,
        length: part.len(),
    }
}
