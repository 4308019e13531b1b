//! Runs: samples of a channel in a frame that follow one another, in one call. Whole numbers and floats have a call
//! each; the one that is not for the channel's format is outside its range.

use crate::judge::judge;
use crate::questions::{samples_of, OUTSIDE};
use crate::refusal::{require_room, Refusal};

/// So many samples, from the first one on, which is asked for from 0.
#[derive(Clone, Copy, Debug, PartialEq, Eq)]
pub struct Run {
    pub recording: u64,
    pub frame: u64,
    pub channel: u64,
    pub first: u64,
    pub number: u64,
}

/// The samples of formats 1 to 3, if `room` numbers hold them.
pub fn run_int(file: &[u8], run: Run, room: u64) -> Result<Vec<i64>, Refusal> {
    let samples = samples(file, run, room, false)?;
    Ok(samples.into_iter().map(i64::from).collect())
}

/// Those of format 4, as their bits.
pub fn run_float(file: &[u8], run: Run, room: u64) -> Result<Vec<u32>, Refusal> {
    let samples = samples(file, run, room, true)?;
    Ok(samples.into_iter().map(|bits| bits as u32).collect())
}

/// The samples as signed numbers, by the call that is for floats or by the other.
fn samples(file: &[u8], run: Run, room: u64, floats: bool) -> Result<Vec<i32>, Refusal> {
    let model = judge(file)?;
    let (frame, slot) = samples_of(&model, run.recording, run.frame, run.channel)?;
    let end = run.first.checked_add(run.number);
    let inside = end.is_some_and(|end| end <= slot.count);
    if slot.format.is_float() != floats || !inside {
        return Err(OUTSIDE);
    }
    let (first, number) = (run.first as usize, run.number as usize);
    require_room(room, number)?;
    let (start, width) = (frame.samples(slot).at, slot.format.width());
    let places = (first..first + number).map(|sample| start + sample * width);
    Ok(places
        .map(|at| model.order.signed_at(file, at, width))
        .collect())
}
