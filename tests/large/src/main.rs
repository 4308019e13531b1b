//! A sparse file of more than 2 GiB: listed, its samples placed and cut, turned there and back, and rewritten through
//! the library, and the canonical form compared with the second program's. `large PATH` makes the file at PATH, and
//! leaves it there.

mod file;

use psg::{Order, Place};
use std::process::ExitCode;

/// What a step did not come to.
type Failed = String;

fn main() -> ExitCode {
    let Some(path) = std::env::args().nth(1) else {
        eprintln!("usage: large PATH");
        return ExitCode::from(2);
    };
    match run(&path) {
        Ok(()) => ExitCode::SUCCESS,
        Err(failed) => {
            eprintln!("large: {failed}");
            ExitCode::from(1)
        }
    }
}

fn run(path: &str) -> Result<(), Failed> {
    file::make(path).map_err(|error| format!("{path}: {error}"))?;
    let file = std::fs::read(path).map_err(|error| format!("{path}: {error}"))?;
    println!("{path}: {} bytes", file.len());
    listed(&file)?;
    placed(&file)?;
    let turned = psg::turned(&file).map_err(|refusal| refusal.to_string())?;
    turned_back(&file, &turned)?;
    rewritten(&file, &turned)
}

/// The table: where the 140 and the frames stand, beyond 2 GiB too.
fn listed(file: &[u8]) -> Result<(), Failed> {
    let rows = psg::rows(file).map_err(|refusal| refusal.to_string())?;
    let signals = rows.iter().find(|row| row.code == 140).ok_or("no 140")?;
    same(
        "the 140's length",
        signals.length as u64,
        file::signals().length(),
    )?;
    let frames: Vec<u64> = rows
        .iter()
        .filter(|row| row.code == 145)
        .map(|row| row.position as u64)
        .collect();
    same("frames", frames, file::frames())?;
    println!("listed: {} records", rows.len());
    Ok(())
}

/// The samples of the first frame and of the last, which stands beyond 2 GiB.
fn placed(file: &[u8]) -> Result<(), Failed> {
    let frames = file::frames();
    let track = psg::track(file, 1, 1).map_err(|refusal| refusal.to_string())?;
    for (frame, start) in [(1, frames[0]), (frames.len(), frames[frames.len() - 1])] {
        let place = psg::place(file, 1, frame, 1).map_err(|refusal| refusal.to_string())?;
        let expected = Place {
            position: start as usize + file::BEFORE_SAMPLES,
            width: file::WIDTH,
            count: file::SAMPLES,
        };
        same("a place", place, expected)?;
        same("a place of the track", track.place(frame), Some(expected))?;
        let bytes = &file[expected.position..][..file::WIDTH * file::SAMPLES];
        let part = psg::part(file, place);
        same("a part", part.as_ptr_range(), bytes.as_ptr_range())?;
        println!(
            "frame {frame}: {} samples at {}",
            place.count, place.position
        );
    }
    Ok(())
}

fn turned_back(file: &[u8], turned: &[u8]) -> Result<(), Failed> {
    let order = psg::order(turned).map_err(|refusal| refusal.to_string())?;
    same("the turned order", order, Order::Big)?;
    let back = psg::turned(turned).map_err(|refusal| refusal.to_string())?;
    same("turned twice", back == file, true)?;
    println!("turned: {} bytes, and back", turned.len());
    Ok(())
}

/// In both orders, from the file and from its turned copy, and within the room that is reserved.
fn rewritten(file: &[u8], turned: &[u8]) -> Result<(), Failed> {
    let room = psg::rewrite_room(file).map_err(|refusal| refusal.to_string())?;
    for order in [Order::Little, Order::Big] {
        let anew = psg::rewritten(file, order).map_err(|refusal| refusal.to_string())?;
        let other = psg::rewritten(turned, order).map_err(|refusal| refusal.to_string())?;
        same("of the turned copy", anew == other, true)?;
        drop(other);
        let second = second::rewrite::rewrite(file, order.letter().into(), u64::MAX);
        let second = second.map_err(|refusal| format!("the second program: {refusal:?}"))?;
        same("of the second program", anew == second, true)?;
        same("in its room", anew.len() <= room, true)?;
        let (size, multiplier) = file::canonical_signals(&anew);
        println!(
            "rewritten, {order:?}: {} bytes, with room for {room}; its 140 is {size} times {multiplier}",
            anew.len()
        );
    }
    Ok(())
}

fn same<T: PartialEq + std::fmt::Debug>(what: &str, got: T, wanted: T) -> Result<(), Failed> {
    if got == wanted {
        return Ok(());
    }
    Err(format!("{what}: {got:?}, not {wanted:?}"))
}
