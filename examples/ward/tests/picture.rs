//! The picture of small files: well formed, with a step above and one below for each epoch that is not empty.

use ward::night;

/// Frames with one sample a second, of this value.
fn frames(seconds: usize, values: &[i16]) -> Vec<Vec<i16>> {
    values.iter().map(|value| vec![*value; seconds]).collect()
}

/// The elements that are open, each closed by its own end, with quoted attributes; nothing stands bare that may not.
fn well_formed(svg: &str) {
    let mut open = Vec::new();
    let mut rest = svg;
    while let Some(start) = rest.find('<') {
        let (text, from) = rest.split_at(start);
        assert!(!text.contains('>'), "{text}");
        let end = from.find('>').expect("an end of the tag");
        let tag = &from[1..end];
        assert_eq!(tag.matches('"').count() % 2, 0, "{tag}");
        if let Some(name) = tag.strip_prefix('/') {
            assert_eq!(open.pop(), Some(name));
        } else if !tag.ends_with('/') {
            open.push(tag.split(' ').next().unwrap());
        }
        rest = &from[end + 1..];
    }
    assert!(open.is_empty() && rest.trim().is_empty(), "{open:?} {rest}");
    for part in svg.split('&').skip(1) {
        let name = part.split(';').next().unwrap();
        assert!(["amp", "lt", "gt"].contains(&name), "{part}");
    }
}

/// How many steps along each area has.
fn areas(svg: &str) -> Vec<usize> {
    let paths = svg.lines().filter(|line| line.contains("fill=\"#6a9bc3\""));
    let steps = |path: &str| {
        let (_, drawn) = path.split_once(" d=\"M").expect("a path");
        assert!(drawn.contains("Z\""), "{drawn}");
        drawn.matches('H').count()
    };
    paths.map(steps).collect()
}

#[test]
fn it_has_a_step_above_and_one_below_for_each_epoch() {
    for count in [1, 2, 29, 30, 31, 600] {
        let values: Vec<i16> = (0..count).map(|value| value as i16).collect();
        let file = night::file("Flow", [23, 59, 30], 1, &frames(1, &values));
        let svg = ward::picture(&file, 1, 1, None).unwrap();
        well_formed(&svg);
        let epochs = (count as usize).div_ceil(30);
        assert_eq!(areas(&svg), [2 * epochs]);
        assert!(svg.contains(&format!(
            "<title>Flow, {epochs} epochs of 30 seconds</title>"
        )));
    }
}

#[test]
fn empty_epochs_are_gaps() {
    // Of frames of 45 seconds every third epoch is empty; the last one is, too.
    let file = night::file("Flow", [0, 0, 0], 45, &frames(45, &[7, -8, 9, 0, 5]));
    let epochs = overview::epochs(&file, 1, 1).unwrap();
    let empty: Vec<usize> = (0..epochs.len())
        .filter(|&at| epochs[at].is_none())
        .collect();
    assert_eq!((epochs.len(), empty), (8, vec![2, 5, 7]));
    let svg = ward::picture(&file, 1, 1, None).unwrap();
    well_formed(&svg);
    assert_eq!(areas(&svg), [4, 4, 2]);
}

#[test]
fn hours_have_their_clock() {
    let file = night::file("Flow", [22, 40, 0], 600, &frames(600, &[1; 48]));
    let svg = ward::picture(&file, 1, 1, None).unwrap();
    well_formed(&svg);
    let hours = [
        "23:00", "00:00", "01:00", "02:00", "03:00", "04:00", "05:00", "06:00",
    ];
    for hour in hours {
        assert!(svg.contains(&format!(">{hour}</text>")), "{hour}");
    }
    assert!(svg.contains("22:40 to 06:40"));
}

#[test]
fn a_title_is_the_channels_label_or_another_and_its_letters_are_kept() {
    let file = night::file("A<B & \"C\">", [0, 0, 0], 1, &frames(1, &[1]));
    let svg = ward::picture(&file, 1, 1, None).unwrap();
    well_formed(&svg);
    assert!(svg.contains(">A&lt;B &amp; \"C\"&gt;</text>"));
    let svg = ward::picture(&file, 1, 1, Some("鼻流")).unwrap();
    assert!(svg.contains(">鼻流</text>"));
}

#[test]
fn a_refusal_is_the_librarys() {
    let file = night::file("Flow", [0, 0, 0], 1, &frames(1, &[1]));
    let refused = |file: &[u8], recording, channel| {
        let refusal = ward::picture(file, recording, channel, None).unwrap_err();
        (refusal.number, refusal.position)
    };
    assert_eq!(refused(&file, 2, 1), (19, 0));
    assert_eq!(refused(&file, 1, 2), (19, 0));
    assert_eq!(refused(&file[..file.len() - 1], 1, 1), (10, 32));
}

/// The README shows it and says how it is made.
#[test]
fn the_picture_in_docs_is_the_nights() {
    let svg = ward::picture(&night::night(), 1, 1, None).unwrap();
    well_formed(&svg);
    assert_eq!(areas(&svg), [2 * 960]);
    let path = concat!(env!("CARGO_MANIFEST_DIR"), "/../../docs/ward.svg");
    let shown = std::fs::read_to_string(path).expect("the picture");
    assert!(shown == svg, "docs/ward.svg is of another night");
    assert!(shown.len() <= 60_000, "{}", shown.len());
}
