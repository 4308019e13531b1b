//! `ward FILE RECORDING CHANNEL [LABEL]`: the overview of a channel as an SVG, on standard output. Status 1 where the
//! file is refused, 2 where it cannot be read or asked for.
//!
//!     cargo run --release --offline -- night.psg 1 1 > night.svg

use std::process::ExitCode;

const USAGE: &str = "usage: ward FILE RECORDING CHANNEL [LABEL]";

fn main() -> ExitCode {
    let args: Vec<String> = std::env::args().skip(1).collect();
    let args: Vec<&str> = args.iter().map(String::as_str).collect();
    let drawn = match args[..] {
        [file, recording, channel] => draw(file, [recording, channel], None),
        [file, recording, channel, label] => draw(file, [recording, channel], Some(label)),
        _ => Err((2, USAGE.to_string())),
    };
    match drawn {
        Ok(svg) => {
            print!("{svg}");
            ExitCode::SUCCESS
        }
        Err((status, why)) => {
            eprintln!("{why}");
            ExitCode::from(status)
        }
    }
}

/// The picture, or the status and why there is none.
fn draw(name: &str, numbers: [&str; 2], label: Option<&str>) -> Result<String, (u8, String)> {
    let [recording, channel] = numbers.map(str::parse);
    let (Ok(recording), Ok(channel)) = (recording, channel) else {
        return Err((2, USAGE.to_string()));
    };
    let file = std::fs::read(name).map_err(|why| (2, format!("{name}: {why}")))?;
    ward::picture(&file, recording, channel, label).map_err(|why| (1, format!("{name}: {why}")))
}
