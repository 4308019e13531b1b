//! A night at a glance, for the ward's screen: the smallest and the largest sample of one channel in each epoch of
//! thirty seconds, as an area in an SVG. It draws the overview, and not the traces. [`night`] makes a night to draw.

pub mod night;
mod svg;

use overview::Refusal;
use svg::Picture;

/// The picture of a channel of a recording, with its own label as the title unless another is given.
pub fn picture(
    file: &[u8],
    recording: usize,
    channel: usize,
    label: Option<&str>,
) -> Result<String, Refusal> {
    let epochs = overview::epochs(file, recording, channel)?;
    let start = psg::clock(file, recording, 1)?;
    let own = psg::channel(file, recording, channel)?.label;
    let title = label.map_or_else(|| readable(own.of(file)), str::to_string);
    let start = (start.hour as usize * 60 + start.minute as usize) * 60 + start.second as usize;
    Ok(svg::draw(&Picture {
        title,
        start,
        epochs,
    }))
}

/// A text as far as it is one of UTF-8, without the spaces or zeros that fill its field.
fn readable(text: &[u8]) -> String {
    let text = String::from_utf8_lossy(text);
    let text = text.trim_end_matches([' ', '\0']);
    text.replace(char::is_control, " ")
}
