//! The line of a refusal, from the words of the request and the manual's names: the Rust has none.
use crate::gen::Rng;
use crate::script::{rec, Answer, Rec, LINE, READ_LINE};

const NAMES: [(u32, &str); 18] = [
    (1, "graph too large or misshapen"),
    (2, "start or arc target is no state"),
    (3, "arc label outside the tables"),
    (4, "arc label has no phone"),
    (5, "weight out of range"),
    (6, "setting or store size out of range"),
    (7, "silence setting out of range"),
    (8, "frame of the wrong length"),
    (9, "frame value out of range"),
    (10, "too many frames, or bad segments"),
    (11, "output too short, or bad reading ends"),
    (12, "cost out of range"),
    (13, "record store full"),
    (14, "epsilon queue full"),
    (15, "reading store full"),
    (16, "output shorter than the line"),
    (20, "block or output of the wrong length"),
    (22, "course setting or frame out of range"),
];

/// A number, which of the four places, and the two numbers of a place.
pub type Why = [u32; 4];

pub const NOWHERE: u32 = 0;
pub const ARC: u32 = 1;
pub const STATE: u32 = 2;
pub const FRAMES: u32 = 3;

/// Empty where no call gives the number with this place.
pub fn line([number, place, at, arc]: Why) -> String {
    let place = match (place, number) {
        (NOWHERE, 0 | 3..=5 | 8..=9) => return String::new(),
        (NOWHERE, _) => String::new(),
        (ARC, 2..=5) => format!(" state {at}; arc {arc};"),
        (STATE, 5) => format!(" state {at};"),
        (FRAMES, 8..=10 | 12..=14) => format!(" frames decoded {at};"),
        _ => return String::new(),
    };
    let name = NAMES.iter().find(|n| n.0 == number).map_or("not known to this version", |n| n.1);
    format!("refusal {number}; {name};{place}")
}

/// The refusal whose line this is: taken apart at the semicolons, and composed anew.
pub fn read(bytes: &[u8]) -> Option<Why> {
    let text = std::str::from_utf8(bytes).ok()?;
    let parts: Vec<&str> = text.split_terminator(';').collect();
    let number = |i: usize, label: &str| parts.get(i)?.strip_prefix(label)?.parse().ok();
    let n = number(0, "refusal ")?;
    let why = match (parts.len(), number(2, " state "), number(2, " frames decoded ")) {
        (2, ..) => [n, NOWHERE, 0, 0],
        (3, Some(state), _) => [n, STATE, state, 0],
        (3, _, Some(frames)) => [n, FRAMES, frames, 0],
        (4, Some(state), _) => [n, ARC, state, number(3, " arc ")?],
        _ => return None,
    };
    (line(why) == text).then_some(why)
}

const CORNERS: [u32; 7] = [0, 1, 9, 10, 999_999_999, 1_000_000_000, u32::MAX];

/// What a place does not use is 0, as the calls have it.
fn why(number: u32, place: u32, at: u32, arc: u32) -> Why {
    match place {
        NOWHERE => [number, place, 0, 0],
        ARC => [number, place, at, arc],
        _ => [number, place, at, 0],
    }
}

/// Mostly one that a call gives.
fn any(r: &mut Rng) -> Why {
    let [at, arc, far] = [0; 3].map(|_| if r.chance(50) { r.pick(&CORNERS) } else { r.below(1 << 32) as u32 });
    let place = r.below(4) as u32;
    let number = match place {
        _ if r.chance(15) => r.below(25) as u32,
        NOWHERE if r.chance(20) => far,
        NOWHERE => r.pick(&[1, 2, 6, 7, 10, 11, 12, 13, 14, 15, 16, 20, 22]),
        ARC => r.range(2, 5) as u32,
        STATE => 5,
        _ => r.pick(&[8, 9, 10, 12, 13, 14]),
    };
    why(number, place, at, arc)
}

/// Every number with every place, the least and the largest: its line written, and read.
pub fn corners() -> Vec<Rec> {
    let numbers = (0..=25).chain(CORNERS).flat_map(|number| (NOWHERE..=FRAMES).map(move |place| (number, place)));
    let all = numbers.flat_map(|(number, place)| [0, u32::MAX].map(|at| why(number, place, at, at)));
    all.flat_map(|w| [rec(LINE, &[96, w[0], w[1], w[2], w[3]]), rec(READ_LINE, &words_of(line(w).as_bytes()))]).collect()
}

/// Lines to write, some into too short a slice, and to read, some of them changed.
pub fn generate(seed: u64) -> Vec<Rec> {
    let mut r = Rng(seed ^ 0x11_4e5);
    let mut v = Vec::new();
    for _ in 0..r.range(1, 6) {
        let why = any(&mut r);
        let mut bytes = line(why).into_bytes();
        if r.chance(50) {
            let places = match r.below(4) {
                0 => r.below(97),
                1 => bytes.len() as u64,
                2 => (bytes.len() as u64).saturating_sub(1),
                _ => 96,
            };
            v.push(rec(LINE, &[&[places as u32], why.as_slice()].concat()));
            continue;
        }
        for _ in 0..r.below(3) {
            let at = r.below(bytes.len() as u64 + 1) as usize;
            match r.below(3) {
                0 => bytes.insert(at, r.pick(b"0123456789; acehrst")),
                1 if at < bytes.len() => bytes[at] = r.below(256) as u8,
                _ => bytes.truncate(at),
            }
        }
        v.push(rec(READ_LINE, &words_of(&bytes)));
    }
    v
}

/// The bytes of a payload: their number, and four to a word.
pub fn bytes(words: &[u32]) -> Option<Vec<u8>> {
    let (&len, rest) = words.split_first()?;
    let mut bytes: Vec<u8> = rest.iter().flat_map(|w| w.to_le_bytes()).collect();
    let whole = (len as usize).div_ceil(4) == rest.len();
    bytes.truncate(len as usize);
    whole.then_some(bytes)
}

/// Such a payload; the last word is filled up with 0.
pub fn words_of(bytes: &[u8]) -> Vec<u32> {
    let words = bytes.chunks(4).map(|c| u32::from_le_bytes(std::array::from_fn(|i| c.get(i).copied().unwrap_or(0))));
    std::iter::once(bytes.len() as u32).chain(words).collect()
}

/// Likewise in an answer.
pub fn put(a: &mut Answer, bytes: &[u8]) {
    for w in words_of(bytes) {
        a.u(w as usize);
    }
}
