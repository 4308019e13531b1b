//! The drawing: an area between smallest and largest, epoch by epoch, over an axis of clock times.

use overview::{Envelope, SECONDS};
use std::fmt::Write;

/// What is drawn: the epochs, and the second of the day at which the first of them starts.
pub struct Picture {
    pub title: String,
    pub start: usize,
    pub epochs: Vec<Option<Envelope>>,
}

const WIDTH: f64 = 960.0;
const HEIGHT: f64 = 240.0;

/// Where the area is drawn.
const LEFT: f64 = 64.0;
const RIGHT: f64 = WIDTH - 20.0;
const TOP: f64 = 40.0;
const BOTTOM: f64 = HEIGHT - 28.0;

/// The share of the height that stays free above and below the area.
const FREE: f64 = 0.06;

/// The seconds from one tick to the next, of which the shortest is taken that gives few enough.
const STEPS: [usize; 8] = [60, 300, 600, 1800, 3600, 7200, 14_400, 43_200];
const MOST_TICKS: usize = 12;

/// So many lines across, or fewer.
const LINES: f64 = 5.0;

pub fn draw(picture: &Picture) -> String {
    let scale = Scale::of(&picture.epochs);
    let title = escaped(&picture.title);
    let count = picture.epochs.len();
    let mut svg = format!(
        "<svg xmlns=\"http://www.w3.org/2000/svg\" width=\"{WIDTH}\" height=\"{HEIGHT}\" \
         viewBox=\"0 0 {WIDTH} {HEIGHT}\" role=\"img\" font-family=\"sans-serif\" font-size=\"11\" fill=\"#555\">\n\
         <title>{title}, {count} epochs of {SECONDS} seconds</title>\n\
         <rect width=\"{WIDTH}\" height=\"{HEIGHT}\" fill=\"#fcfcfa\"/>\n"
    );
    values(&mut svg, &scale);
    area(&mut svg, picture, &scale);
    times(&mut svg, picture, &scale);
    let from = clock(picture.start);
    let to = clock(picture.start + SECONDS * count);
    write_line(
        &mut svg,
        format_args!(
            "<text x=\"{LEFT}\" y=\"24\" font-size=\"15\" fill=\"#222\">{title}</text>\n\
             <text x=\"{RIGHT}\" y=\"24\" text-anchor=\"end\">\
             {from} to {to}, smallest and largest sample in {SECONDS} s</text>\n</svg>"
        ),
    );
    svg
}

fn write_line(svg: &mut String, line: std::fmt::Arguments) {
    writeln!(svg, "{line}").expect("a text takes any line");
}

/// Where an epoch's start and a value lie in the picture.
struct Scale {
    epochs: f64,
    low: f64,
    high: f64,
}

impl Scale {
    fn of(epochs: &[Option<Envelope>]) -> Scale {
        let some = || epochs.iter().flatten();
        let low = some().map(|samples| samples.smallest).min().unwrap_or(0) as f64;
        let high = some().map(|samples| samples.largest).max().unwrap_or(0) as f64;
        let free = (FREE * (high - low)).max(1.0);
        Scale {
            epochs: epochs.len() as f64,
            low: low - free,
            high: high + free,
        }
    }

    fn x(&self, epoch: f64) -> Tenths {
        Tenths(LEFT + (RIGHT - LEFT) * epoch / self.epochs)
    }

    fn y(&self, value: i64) -> Tenths {
        let share = (self.high - value as f64) / (self.high - self.low);
        Tenths(TOP + (BOTTOM - TOP) * share)
    }
}

/// A place in the picture, to a tenth, and without one where it is whole.
struct Tenths(f64);

impl std::fmt::Display for Tenths {
    fn fmt(&self, out: &mut std::fmt::Formatter<'_>) -> std::fmt::Result {
        let tenths = (10.0 * self.0).round() as i64;
        match tenths % 10 {
            0 => write!(out, "{}", tenths / 10),
            rest => write!(out, "{}.{rest}", tenths / 10),
        }
    }
}

/// A path for each row of epochs with samples, so that the empty ones between are gaps. Each epoch is one step above
/// and one below; its line shows where both are one.
fn area(svg: &mut String, picture: &Picture, scale: &Scale) {
    let mut first = 0;
    for row in picture
        .epochs
        .chunk_by(|one, other| one.is_some() == other.is_some())
    {
        let samples: Vec<Envelope> = row.iter().copied().flatten().collect();
        if !samples.is_empty() {
            let steps = steps(first, &samples, scale);
            write_line(
                svg,
                format_args!(
                    "<path fill=\"#6a9bc3\" stroke=\"#3f74a3\" stroke-width=\"0.5\" d=\"{steps}\"/>"
                ),
            );
        }
        first += row.len();
    }
}

/// Along the largest ones, and back along the smallest.
fn steps(first: usize, row: &[Envelope], scale: &Scale) -> String {
    let x = |epoch: usize| scale.x((first + epoch) as f64);
    let mut path = format!("M{} {}", x(0), scale.y(row[0].smallest));
    for (epoch, samples) in row.iter().enumerate() {
        path += &format!("V{}H{}", scale.y(samples.largest), x(epoch + 1));
    }
    for (epoch, samples) in row.iter().enumerate().rev() {
        path += &format!("V{}H{}", scale.y(samples.smallest), x(epoch));
    }
    path + "Z"
}

/// The lines across, with their values.
fn values(svg: &mut String, scale: &Scale) {
    let step = round_step(((scale.high - scale.low) / LINES).ceil() as i64);
    let first = (scale.low / step as f64).ceil() as i64;
    let last = (scale.high / step as f64).floor() as i64;
    for value in (first..=last).map(|line| line * step) {
        let (y, left) = (scale.y(value), LEFT - 8.0);
        let colour = if value == 0 { "#bbb" } else { "#e6e6e2" };
        write_line(
            svg,
            format_args!(
                "<path stroke=\"{colour}\" stroke-width=\"0.5\" d=\"M{LEFT} {y}H{RIGHT}\"/>\
                 <text x=\"{left}\" y=\"{y}\" dy=\"4\" text-anchor=\"end\">{value}</text>"
            ),
        );
    }
}

/// The first of 1, 2, 5, 10, 20, 50.. that is as large.
fn round_step(least: i64) -> i64 {
    let tens = (0..).map(|tens| 10_i64.pow(tens));
    let mut steps = tens.flat_map(|tens| [tens, 2 * tens, 5 * tens]);
    steps.find(|step| *step >= least).unwrap_or(i64::MAX)
}

/// The axis below, with the clock at each tick: that of the first frame, and the seconds since.
fn times(svg: &mut String, picture: &Picture, scale: &Scale) {
    let all = SECONDS * picture.epochs.len();
    let fits = |step: &&usize| all / **step <= MOST_TICKS;
    let step = STEPS.iter().find(fits).unwrap_or(&STEPS[STEPS.len() - 1]);
    write_line(
        svg,
        format_args!("<path stroke=\"#999\" d=\"M{LEFT} {BOTTOM}H{RIGHT}\"/>"),
    );
    let first = picture.start.next_multiple_of(*step) - picture.start;
    for second in (first..=all).step_by(*step) {
        let x = scale.x(second as f64 / SECONDS as f64);
        let (end, below) = (BOTTOM + 4.0, BOTTOM + 17.0);
        let clock = clock(picture.start + second);
        write_line(
            svg,
            format_args!(
                "<path stroke=\"#999\" d=\"M{x} {BOTTOM}V{end}\"/>\
                 <text x=\"{x}\" y=\"{below}\" text-anchor=\"middle\">{clock}</text>"
            ),
        );
    }
}

fn clock(second: usize) -> String {
    format!("{:02}:{:02}", second / 3600 % 24, second / 60 % 60)
}

fn escaped(text: &str) -> String {
    let text = text.replace('&', "&amp;").replace('<', "&lt;");
    text.replace('>', "&gt;")
}
