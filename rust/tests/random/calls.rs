//! Random calls, and their answers.
use crate::common::{BELOW, HUGE};
use crate::graphs::ODD;
use crate::rng::Rng;
use hirqazhom::{Decoder, Graph, KeptStores, Output, Path, Places, Reading, Refusal};

/// What a list is asked for.
#[derive(Clone, Copy, Debug)]
pub struct Asked {
    pub finals: bool,
    pub listed: usize,
    pub max: usize,
}

/// What is lent to a list: places for entries below joins, for kept readings, and of the output.
#[derive(Clone, Copy, Debug)]
pub struct Lent {
    pub entries: usize,
    pub kept: usize,
    pub places: Places,
}

/// A read has places where its output is lent; else the wrapper lends enough.
#[derive(Debug)]
pub enum Call {
    Start,
    Frame(Vec<f32>),
    Keep(Option<f32>),
    Best(bool, Option<Places>),
    Alternatives(Asked, Option<Places>),
    Readings(Asked, Option<Lent>),
}

#[derive(Debug)]
pub enum Answer {
    Done(Result<(), Refusal>),
    Best(Result<Option<Path>, Refusal>),
    Paths(Result<Vec<Path>, Refusal>),
    Readings(Result<Vec<Reading>, Refusal>),
}

fn random_frame(r: &mut Rng, graph: &Graph) -> Vec<f32> {
    let n = graph.tables().pdfs as usize;
    let length = if r.chance(3) { r.below(n + 2) } else { n };
    let (odd, large) = (r.chance(3), r.chance(3));
    let value = |_| match r.below(4) {
        0 if odd => r.pick(&ODD),
        0 if large => r.pick(&[BELOW, -BELOW, HUGE / 2.0]),
        _ => r.pick(&[0.0, -0.0, -0.25, -0.5, -1.0, -2.0, 0.5]),
    };
    (0..length).map(value).collect()
}

fn random_places(r: &mut Rng) -> Places {
    let mut size = || if r.chance(60) { 200 } else { r.below(9) };
    Places { entries: size(), words: size(), frames: size(), segments: size() }
}

pub fn random_call(r: &mut Rng, graph: &Graph) -> Call {
    let counts = [0, 1, 2, 3, 5, 64, 64, 65];
    let asked = Asked { finals: r.chance(50), listed: r.pick(&counts), max: r.pick(&counts) };
    let places = r.chance(40).then(|| random_places(r));
    match r.below(36) {
        0 => Call::Start,
        1 => Call::Keep(r.chance(80).then(|| r.pick(&ODD))),
        2..=5 => Call::Keep(Some(r.pick(&[0.0, 0.25, 0.5, 1.0, 2.0, 4.0]))),
        6 | 7 => Call::Best(asked.finals, places),
        8..=10 => Call::Alternatives(asked, places),
        11..=18 => Call::Readings(asked, places.map(|places| Lent { entries: r.pick(&[0, 2, 5, 200]), kept: r.pick(&[0, 1, 3, 200]), places })),
        _ => Call::Frame(random_frame(r, graph)),
    }
}

fn alternatives(d: &mut Decoder, a: &Asked, places: Option<Places>) -> Result<Vec<Path>, Refusal> {
    let Some(places) = places else { return d.alternatives(a.finals, a.max) };
    let mut out = Output::new(places);
    let count = d.alternatives_into(a.finals, a.max, &mut out)?;
    assert_eq!(count, out.paths().len());
    Ok(out.paths())
}

fn readings(d: &mut Decoder, a: &Asked, lent: &Option<Lent>) -> Result<Vec<Reading>, Refusal> {
    let Some(lent) = lent else { return d.reading_list(a.finals, a.listed, a.max) };
    let mut out = Output::new(lent.places);
    let count = d.reading_list_into(a.finals, a.listed, a.max, &mut KeptStores::new(lent.entries, lent.kept), &mut out)?;
    assert_eq!(count, out.readings().len());
    Ok(out.readings())
}

pub fn answer(d: &mut Decoder, call: &Call) -> Answer {
    match call {
        Call::Start => Answer::Done(d.start()),
        Call::Frame(loglikes) => Answer::Done(d.frame(loglikes)),
        Call::Keep(margin) => Answer::Done(d.set_keep(*margin)),
        Call::Best(finals, None) => Answer::Best(d.best_path(*finals)),
        Call::Best(finals, Some(places)) => Answer::Best(d.best_path_into(*finals, &mut Output::new(*places))),
        Call::Alternatives(asked, places) => Answer::Paths(alternatives(d, asked, *places)),
        Call::Readings(asked, lent) => Answer::Readings(readings(d, asked, lent)),
    }
}
