//! Random graphs and settings, and what the manual says of them.
use crate::common::{refusal, BELOW, HUGE, NOT_FINAL};
use crate::rng::Rng;
use hirqazhom::{Config, Graph, Lengths, Place, Refusal, Tables, NO_STATE};

/// Numbers near the limits, most of them past one.
pub const ODD: [f32; 10] = [f32::NAN, f32::INFINITY, f32::NEG_INFINITY, HUGE, -HUGE, BELOW, -BELOW, -1.0, -0.0, 0.0];

/// Up to 12 states where ties, epsilon arcs and words are frequent.
pub fn random_tables(r: &mut Rng) -> Tables {
    let states = if r.chance(10) { r.below(3) } else { 2 + r.below(11) };
    let (labels, pdfs) = (1 + r.below(5), 1 + r.below(4));
    let start = if states == 0 || r.chance(3) { NO_STATE } else { r.below(states) as u32 };
    let mut t = Tables { offsets: vec![0], tid2pdf: vec![-1], tid2phone: vec![0], start, pdfs: pdfs as u32, ..Tables::default() };
    for _ in 0..labels {
        t.tid2pdf.push(r.below(pdfs) as i32);
        t.tid2phone.push(1 + r.below(3) as i32);
    }
    let (epsilons, large) = (r.pick(&[0, 15, 40, 80]), r.chance(10));
    for _ in 0..states {
        for _ in 0..r.pick(&[0, 1, 2, 3, 3, 4, 4, 5, 5, 6]) {
            random_arc(r, &mut t, states, epsilons, large);
        }
        t.offsets.push(t.ilabels.len() as u32);
        t.finals.push(r.pick(&[NOT_FINAL, NOT_FINAL, 0.0, 0.5, 3.0, -1.0]));
    }
    t
}

/// An arc, and now and then another that differs in its word alone.
fn random_arc(r: &mut Rng, t: &mut Tables, states: usize, epsilons: usize, large: bool) {
    let label = if r.chance(epsilons) { 0 } else { 1 + r.below(t.tid2pdf.len() - 1) };
    let weight = if large && r.chance(20) { r.pick(&[BELOW, BELOW / 2.0]) } else { r.pick(&[0.0, 0.0, 0.25, 0.5, 1.0]) };
    let weight = if label > 0 && r.chance(10) { -weight } else { weight };
    let to = r.below(states) as u32;
    for _ in 0..r.pick(&[1, 1, 1, 2]) {
        t.ilabels.push(label as i32);
        t.olabels.push(r.pick(&[0, 0, 1, 2, 3, -4]));
        t.weights.push(weight);
        t.nextstates.push(to);
    }
}

/// Some value of a list becomes this.
fn put<T>(r: &mut Rng, list: &mut [T], value: T) {
    if !list.is_empty() {
        list[r.below(list.len())] = value;
    }
}

/// One value becomes another, or one slice longer or shorter.
pub fn spoil(r: &mut Rng, t: &mut Tables) {
    let (states, arcs, ids) = (t.finals.len() as u32, t.ilabels.len() as u32, t.tid2pdf.len() as i32);
    let odd = r.pick(&ODD);
    match r.below(16) {
        0 => t.start = r.pick(&[states, states.wrapping_sub(1), NO_STATE, NO_STATE - 1]),
        1 => put(r, &mut t.nextstates, states),
        2 => put(r, &mut t.ilabels, ids),
        3 => put(r, &mut t.ilabels, -1),
        4 => put(r, &mut t.tid2pdf, t.pdfs as i32),
        5 => put(r, &mut t.tid2pdf, -1),
        6 => put(r, &mut t.tid2phone, 0),
        7 | 8 => put(r, &mut t.weights, odd),
        9 => put(r, &mut t.finals, odd),
        10 => put(r, &mut t.offsets, arcs),
        11 => t.offsets.push(arcs),
        12 => t.finals.truncate(states.saturating_sub(1) as usize),
        13 => t.weights.push(0.0),
        14 => t.tid2phone.truncate(ids as usize - 1),
        _ => t.pdfs = 0,
    }
}

fn tame(x: f32) -> bool {
    x.abs() < HUGE
}

/// A beam or a margin that is in range.
pub fn fair(x: f32) -> bool {
    tame(x) && x >= 0.0
}

/// The number that refuses an arc.
fn arc_number(t: &Tables, a: usize) -> Option<u32> {
    let (label, weight) = (t.ilabels[a], t.weights[a]);
    let of = |table: &[i32]| usize::try_from(label).ok().and_then(|i| table.get(i)).copied();
    let (pdf, phone) = (of(&t.tid2pdf), of(&t.tid2phone));
    let has_pdf = pdf.is_some_and(|p| p >= 0 && (p as u32) < t.pdfs) && phone.is_some();
    if t.nextstates[a] as usize >= t.finals.len() {
        Some(2)
    } else if label != 0 && !has_pdf {
        Some(3)
    } else if label != 0 && phone < Some(1) {
        Some(4)
    } else if !tame(weight) || (label == 0 && weight < 0.0) {
        Some(5)
    } else {
        None
    }
}

/// How the manual judges a graph: its shape, the start, the arcs in order, the final weights.
pub fn judged(t: &Tables) -> Option<Refusal> {
    let (states, arcs) = (t.finals.len(), t.ilabels.len());
    let runs = t.offsets.len() == states + 1 && t.offsets[0] == 0 && t.offsets.is_sorted() && t.offsets[states] as usize == arcs;
    if !runs || [t.olabels.len(), t.weights.len(), t.nextstates.len()] != [arcs; 3] {
        return Some(refusal(1, Place::Nowhere));
    }
    if t.start as usize >= states && t.start != NO_STATE {
        return Some(refusal(2, Place::Nowhere));
    }
    for s in 0..states {
        for a in t.offsets[s]..t.offsets[s + 1] {
            if let Some(number) = arc_number(t, a as usize) {
                return Some(refusal(number, Place::Arc { state: s as u32, arc: a - t.offsets[s] }));
            }
        }
    }
    let wrong = t.finals.iter().position(|&w| !tame(w) && w != NOT_FINAL);
    wrong.map(|s| refusal(5, Place::State(s as u32)))
}

pub fn random_config(r: &mut Rng) -> Config {
    let min_active = r.pick(&[0, 0, 1, 2, 5]);
    let max_active = min_active + r.pick(&[1, 2, 6, 1000, 1000]);
    let config = Config { beam: r.pick(&[0.0, 0.5, 1.0, 2.0, 2.0, 4.0, 4.0, 8.0, 8.0, 8.0]), max_active, min_active, beam_delta: r.pick(&[0.0, 0.25, 0.5]) };
    match r.below(30) {
        0 => Config { beam: r.pick(&ODD), ..config },
        1 => Config { beam_delta: r.pick(&ODD), ..config },
        2 => Config { max_active: min_active, ..config },
        _ => config,
    }
}

/// Enough for the states mostly; records and queue from none to more than enough.
pub fn random_lengths(r: &mut Rng, graph: &Graph) -> Lengths {
    let states = if r.chance(5) { r.below(graph.states() + 1) } else { graph.states() + r.below(2) };
    let records = if r.chance(1) { r.pick(&[1_048_576, 1_048_577]) } else { r.pick(&[0, 3, 10, 40, 4000, 4000, 4000, 4000]) };
    let queue = [graph.queue_places_with_margin(), graph.queue_places_with_margin(), graph.queue_places(), r.below(8)];
    Lengths { states, records, queue: r.pick(&queue) }
}

/// The number that refuses a fitting.
pub fn unfit(c: &Config, n: &Lengths, graph: &Graph) -> Option<u32> {
    let fits = fair(c.beam) && fair(c.beam_delta) && c.max_active > c.min_active && n.states >= graph.states() && n.records <= 1_048_576;
    (!fits).then_some(6)
}
