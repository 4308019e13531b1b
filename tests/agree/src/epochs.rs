//! The track and the overview of every channel of an accepted file, beside what the second program says of it, beside
//! the library's own places and single epochs, and beside the same file turned.

use crate::buffers::call_differs;
use ask::refused;
use overview::{Envelope, NUMBERS};
use second::model::{FrameBlock, Model, Slot};
use second::overview::{epochs_of, overview_range, Epochs};
use second::place::place_in;
use second::refusal::Refusal;

/// In a recording of more frames the library is asked for the places of so many of them alone.
const MOST_PLACES: usize = 60;

/// Of so many epochs, and of the last ones, each is asked for by itself.
const MOST_SINGLES: usize = 20;

/// A channel of a file, by the numbers that it is asked for with.
struct Asked<'a> {
    file: &'a [u8],
    recording: usize,
    channel: usize,
    block: &'a FrameBlock,
    slot: &'a Slot,
}

/// The first difference of tracks and overviews. Of a refused file the questions drawn are enough.
pub fn epochs_differ(file: &[u8], verdict: &Result<Model, Refusal>) -> Option<String> {
    let model = verdict.as_ref().ok()?;
    let turned = psg::turned(file).ok();
    let mut recordings = (1..).zip(&model.recordings);
    recordings.find_map(|(recording, of)| {
        let mut channels = (1..).zip(&of.block.slots);
        channels.find_map(|(channel, slot)| {
            let asked = Asked {
                file,
                recording,
                channel,
                block: &of.block,
                slot,
            };
            let why = asked
                .track_differs(model.order.letter())
                .or_else(|| asked.overview_differs(turned.as_deref()));
            why.map(|why| format!("recording {recording}, channel {channel}: {why}"))
        })
    })
}

impl Asked<'_> {
    /// What it says of the recording and the channel, then the place of every frame.
    fn track_differs(&self, letter: u8) -> Option<String> {
        let track = match psg::track(self.file, self.recording, self.channel) {
            Ok(track) => track,
            Err(refusal) => return Some(format!("track: {refusal}")),
        };
        let frames = self.block.frames.len();
        let found = (
            track.order.letter(),
            track.format,
            track.frames as usize,
            track.seconds,
        );
        let seconds = self.block.seconds as u32;
        let expected = (letter, self.slot.format.number() as u32, frames, seconds);
        if found != expected || track.place(0).or(track.place(frames + 1)).is_some() {
            return Some(format!(
                "{track:?}, but the second program has {expected:?}"
            ));
        }
        let every = frames.div_ceil(MOST_PLACES);
        (1..=frames).find_map(|frame| {
            let found = track.place(frame)?;
            let read = place_in(&self.block.frames[frame - 1], self.slot);
            let numbers = [read.position, read.width, read.count].map(|number| number as usize);
            let same = [found.position, found.width, found.count] == numbers;
            let asked = frame % every == 0 || frame == frames;
            let placed = asked.then(|| psg::place(self.file, self.recording, frame, self.channel));
            let agreed = same && placed.is_none_or(|placed| placed == Ok(found));
            (!agreed)
                .then(|| format!("track: {found:?} in frame {frame}, but {placed:?} and {read:?}"))
        })
    }

    /// All epochs and the later half of them, each by itself, in a vector, and of the turned file.
    fn overview_differs(&self, turned: Option<&[u8]>) -> Option<String> {
        let number = epochs_of(self.block) as usize;
        let whole = self.said(0, number, u64::MAX);
        self.range_differs(0, number)
            .or_else(|| self.range_differs(number / 2, number - number / 2))
            .or_else(|| self.single_differs(number, &whole))
            .or_else(|| self.vector_differs("epochs", self.file, &whole))
            .or_else(|| self.vector_differs("turned, epochs", turned?, &whole))
    }

    /// What the second program says of so many epochs.
    fn said(&self, first: usize, number: usize, room: u64) -> Result<Vec<i64>, Refusal> {
        let epochs = Epochs {
            recording: self.recording as u64,
            channel: self.channel as u64,
            first: first as u64,
            number: number as u64,
        };
        overview_range(self.file, epochs, room)
    }

    fn range_differs(&self, first: usize, number: usize) -> Option<String> {
        let range = |out: &mut [i64]| {
            let (recording, channel) = (self.recording, self.channel);
            overview::overview_range(self.file, recording, channel, first, number, out)
                .map(|epochs| NUMBERS * epochs)
        };
        let call = format!("overview_range of {number} from {first}");
        let said = |room| self.said(first, number, room);
        call_differs(&call, self.file, range, said)
    }

    /// The first epochs, the last, and some behind them, of which there are so many.
    fn single_differs(&self, number: usize, whole: &Result<Vec<i64>, Refusal>) -> Option<String> {
        let first = 0..number.min(MOST_SINGLES);
        let last = number.saturating_sub(2)..number + 2;
        let mut epochs = first.chain(last).chain([1 << 63, usize::MAX]);
        epochs.find_map(|epoch| {
            let found = overview::overview(self.file, self.recording, self.channel, epoch);
            let found = refused(found).map(numbers);
            let expected = match whole {
                Ok(all) if epoch < number => Ok(all[NUMBERS * epoch..][..NUMBERS].to_vec()),
                // Behind the last one, and of floats.
                _ => Err(Refusal::new(19, 0)),
            };
            let same = found.as_ref().map(|found| &found[..]) == expected.as_deref();
            (!same).then(|| format!("epoch {epoch}: {found:?}, but in the range {expected:?}"))
        })
    }

    fn vector_differs(
        &self,
        name: &str,
        file: &[u8],
        whole: &Result<Vec<i64>, Refusal>,
    ) -> Option<String> {
        let epochs = refused(overview::epochs(file, self.recording, self.channel));
        let found = epochs.map(|epochs| epochs.into_iter().flat_map(numbers).collect());
        (found != *whole).then(|| format!("{name}: {found:?}, but {whole:?}"))
    }
}

/// The numbers of an epoch in a range.
fn numbers(samples: Option<Envelope>) -> [i64; NUMBERS] {
    samples.map_or([0; NUMBERS], |samples| {
        [samples.smallest, samples.largest, samples.count as i64]
    })
}
