//! The line of a refusal, judged by one that is written here with the names of the manual's table.
mod common;
#[path = "random/rng.rs"]
#[allow(dead_code)]
mod rng;

use common::refusal;
use hirqazhom::{NoLine, Place, Refusal};
use rng::Rng;

const CORNERS: [u32; 9] = [0, 1, 9, 10, 99, 100, 999_999_999, 1_000_000_000, u32::MAX];

/// The name that the manual's table has for a number.
fn name_of(number: u32) -> &'static str {
    let row = format!("\n| {number} | ");
    let (_, rest) = include_str!("../../docs/MANUAL.md").split_once(&row).unwrap_or(("", "not known to this version |"));
    rest.split_once(" |").unwrap().0
}

/// The line, or none where no call gives the number with this place.
fn line_of(why: Refusal) -> Option<String> {
    let n = why.number;
    let place = match why.place {
        Place::Nowhere if n != 0 && !(3..=5).contains(&n) && !(8..=9).contains(&n) => String::new(),
        Place::Arc { state, arc } if (2..=5).contains(&n) => format!(" state {state}; arc {arc};"),
        Place::State(state) if n == 5 => format!(" state {state};"),
        Place::Frames(frames) if (8..=10).contains(&n) || (12..=14).contains(&n) => format!(" frames decoded {frames};"),
        _ => return None,
    };
    Some(format!("refusal {n}; {};{place}", name_of(n)))
}

/// Judges the line that is written, and that it is read back.
fn judge(why: Refusal) {
    let line = why.line();
    assert_eq!(line, line_of(why).unwrap_or_default(), "{why:?}");
    assert_eq!(line.parse(), if line.is_empty() { Err(NoLine) } else { Ok(why) }, "{line}");
    assert!(line.len() <= 96, "{line}");
}

/// Judges what bytes are read as: the line of what is read is these bytes.
fn judge_bytes(bytes: &[u8]) {
    if let Some(why) = Refusal::from_line(bytes) {
        assert_eq!(line_of(why).map(String::into_bytes).as_deref(), Some(bytes), "{why:?}");
    }
}

fn places(r: &mut Rng) -> [Place; 4] {
    let [a, b] = [0; 2].map(|_| if r.chance(50) { r.pick(&CORNERS) } else { r.next() as u32 });
    [Place::Nowhere, Place::Arc { state: a, arc: b }, Place::State(a), Place::Frames(a)]
}

#[test]
fn every_number_with_every_place() {
    let mut r = Rng(1);
    for number in (0..40).chain(CORNERS) {
        for _ in 0..20 {
            for place in places(&mut r) {
                judge(refusal(number, place));
            }
        }
    }
}

#[test]
fn the_corners_of_a_u32() {
    for state in CORNERS {
        for arc in CORNERS {
            judge(refusal(3, Place::Arc { state, arc }));
        }
        judge(refusal(5, Place::State(state)));
        judge(refusal(14, Place::Frames(state)));
        judge(refusal(state, Place::Nowhere));
    }
}

#[test]
fn lines_with_a_fault_are_none() {
    let line = "refusal 5; weight out of range; state 17; arc 3;";
    assert_eq!(line.parse(), Ok(refusal(5, Place::Arc { state: 17, arc: 3 })));
    let faulty = [
        "",
        ";",
        "5",
        "refusal 5;",
        "refusal 5; weight out of range;",
        "refusal 5; weight out of range; state 017; arc 3;",
        "refusal 5; weight out of range; state 17; arc 03;",
        "refusal 05; weight out of range; state 17; arc 3;",
        "refusal 5; weight out of range; state 17; arc 3",
        "refusal 5; weight out of range; state 17; arc 3;;",
        "refusal 5; weight out of range; state 17; arc 3;\n",
        " refusal 5; weight out of range; state 17; arc 3;",
        "Refusal 5; weight out of range; state 17; arc 3;",
        "refusal 5; weight out of range; state 4294967296; arc 3;",
        "refusal 5; weight out of range; state -1; arc 3;",
        "refusal 5; weight out of range; arc 3; state 17;",
        "refusal 5; weight out of range; frames decoded 17;",
        "refusal 6; weight out of range; state 17; arc 3;",
        "refusal 3; arc label outside the tables;",
        "refusal 0; not known to this version;",
        "refusal 4294967296; not known to this version;",
        "refusal 8; frame of the wrong length;",
        "refusal 1; graph too large or misshapen; state 17;",
    ];
    for text in faulty {
        assert_eq!(text.parse::<Refusal>(), Err(NoLine), "{text}");
    }
}

#[test]
fn changed_lines() {
    let mut r = Rng(96);
    for _ in 0..100_000 {
        let place = r.below(4);
        let why = refusal(r.below(25) as u32, places(&mut r)[place]);
        let mut bytes = why.line().into_bytes();
        for _ in 0..r.below(3) {
            let at = r.below(bytes.len() + 1);
            match r.below(3) {
                0 => bytes.insert(at, r.pick(b"0123456789; acehrst")),
                1 if at < bytes.len() => bytes[at] = r.next() as u8,
                _ => bytes.truncate(at),
            }
        }
        judge_bytes(&bytes);
    }
}

#[test]
fn long_texts_are_none() {
    for byte in [b'0', b'1', b' ', b';', 255] {
        assert_eq!(Refusal::from_line(&vec![byte; 1 << 16]), None);
    }
}

/// Each line of the page is one, and the page has them all: each number with each place that a call gives it.
#[test]
fn the_page_for_fitters_has_every_line() {
    let page = include_str!("../../docs/FITTERS.md");
    let lines = page.lines().filter_map(|row| row.strip_prefix("| `")?.split_once("` |"));
    let listed: Vec<Refusal> = lines.map(|(line, _)| line.parse().expect(line)).collect();
    let arc = Place::Arc { state: 17, arc: 3 };
    let frames = Place::Frames(250);
    let mut all: Vec<Refusal> = [1, 2, 6, 7, 10, 11, 13, 14, 15, 16, 20, 22, 99].map(|n| refusal(n, Place::Nowhere)).into();
    all.extend([2, 3, 4, 5].map(|n| refusal(n, arc)));
    all.extend([8, 9, 12, 13, 14].map(|n| refusal(n, frames)));
    all.extend([refusal(5, Place::State(17)), refusal(10, Place::Frames(65_536))]);
    assert_eq!(listed.len(), all.len());
    assert!(all.iter().all(|why| listed.contains(why)));
}
