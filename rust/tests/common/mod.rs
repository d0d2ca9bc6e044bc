//! What the tests share: small graphs, settings, and all that a decoder tells.
#![allow(dead_code)] // no test needs all of it
use hirqazhom::{Config, Decoder, Fitted, Graph, Lengths, Place, Refusal, Segment, Tables};

/// 2^100, which is refused, and the largest number that is not.
pub const HUGE: f32 = f32::from_bits(0x7180_0000);
pub const BELOW: f32 = f32::from_bits(0x717f_ffff);

/// The final weight of a state that is not final.
pub const NOT_FINAL: f32 = f32::INFINITY;

pub const CONFIG: Config = Config { beam: 8.0, max_active: 1000, min_active: 0, beam_delta: 0.5 };

/// State, label, word, weight, target.
pub type ArcIn = (u32, i32, i32, f32, u32);

/// A graph that starts in state 0. Its arcs stand in the order of their states; label n has pdf n - 1 and phone n.
pub fn tables(finals: &[f32], arcs: &[ArcIn]) -> Tables {
    let labels = arcs.iter().map(|a| a.1).max().unwrap_or(0);
    Tables {
        offsets: (0..=finals.len() as u32).map(|s| arcs.iter().filter(|a| a.0 < s).count() as u32).collect(),
        ilabels: arcs.iter().map(|a| a.1).collect(),
        olabels: arcs.iter().map(|a| a.2).collect(),
        weights: arcs.iter().map(|a| a.3).collect(),
        nextstates: arcs.iter().map(|a| a.4).collect(),
        finals: finals.to_vec(),
        tid2pdf: (-1..labels).collect(),
        tid2phone: (0..=labels).collect(),
        start: 0,
        pdfs: labels as u32,
    }
}

/// A fitting with so many places for records and in the queue.
pub fn fit(t: Tables, config: Config, records: usize, queue: usize) -> Fitted {
    let graph = Graph::new(t).expect("the graph is accepted");
    let lengths = Lengths { queue, ..Lengths::of(&graph, records) };
    Decoder::fit(graph.into(), config, lengths)
}

/// A decoder with room for all that these tests do.
pub fn decoder(t: Tables) -> Decoder {
    fit(t, CONFIG, 1000, 1000).started().expect("the start is accepted")
}

pub fn refusal(number: u32, place: Place) -> Refusal {
    Refusal { number, place }
}

pub fn segment(phone: i32, start: u32, end: u32) -> Segment {
    Segment { phone, start, end }
}

/// The graph of the README's recorded call: 0 silence, 1 carrier three, 2 carrier two, 3 dropped stitch.
pub fn recorded_graph() -> Tables {
    let arcs = [(0, 1, 0, 0.0, 0), (0, 2, 2, 0.0, 3), (1, 4, 0, 0.0, 1), (2, 3, 0, 0.0, 2), (3, 2, 0, 0.0, 3), (3, 3, 3, 0.0, 2), (3, 4, 4, 0.0, 1)];
    tables(&[NOT_FINAL, 0.0, 0.0, NOT_FINAL], &arcs)
}

/// Its log-likelihoods of silence, dropped stitch, carrier two, carrier three.
pub const RECORDED: [[f32; 4]; 8] = [
    [-0.5, -4.0, -6.0, -6.0],
    [-0.5, -3.0, -6.0, -6.0],
    [-3.0, -0.5, -4.0, -4.0],
    [-4.0, -0.25, -4.0, -4.0],
    [-5.0, -0.5, -2.0, -2.0],
    [-6.0, -3.0, -0.5, -0.5],
    [-6.0, -4.0, -0.25, -0.25],
    [-4.0, -4.0, -0.75, -0.75],
];

/// Words 5 and 6 on two arcs of one cost into one state, which stays with itself.
pub fn two_words() -> Tables {
    tables(&[NOT_FINAL, 0.0], &[(0, 1, 5, 1.0, 1), (0, 1, 6, 1.0, 1), (1, 1, 0, 0.25, 1)])
}

/// All that can be read. Debug writes two f32 alike only where their bits are; no answer has a NaN.
pub fn told(d: &mut Decoder) -> String {
    let mut all = format!("{} frames, {} active, {:?}", d.frames_decoded(), d.num_active(), d.final_relative_cost());
    for finals in [false, true] {
        all += &format!("\n{:?}", d.best_path(finals));
        all += &format!("\n{:?}", d.alternatives(finals, 64));
        all += &format!("\n{:?}", d.reading_list(finals, 5, 64));
    }
    all
}
