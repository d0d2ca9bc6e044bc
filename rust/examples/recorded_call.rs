//! Decodes the recorded call of the README. Two paths tie to the last bit; the same one is written each time.
use hirqazhom::{Config, Decoder, Graph, Lengths, Refusal, Tables};
use std::process::ExitCode;

/// The machine knits three courses in four frames.
const COURSES: u32 = 3;
const COURSE_FRAMES: u32 = 4;

const WORDS: [&str; 5] = ["", "", "dropped stitch", "carrier two", "carrier three"];

/// A state for each sound: 0 silence, 1 carrier three, 2 carrier two, 3 dropped stitch. `crates/listen` has the arcs one by one.
fn graph() -> Result<Graph, Refusal> {
    let none = f32::INFINITY;
    Graph::new(Tables {
        offsets: vec![0, 2, 3, 4, 7],
        ilabels: vec![1, 2, 4, 3, 2, 3, 4],
        olabels: vec![0, 2, 0, 0, 0, 3, 4],
        weights: vec![0.0; 7],
        nextstates: vec![0, 3, 1, 2, 3, 2, 1],
        finals: vec![none, 0.0, 0.0, none],
        tid2pdf: vec![-1, 0, 1, 2, 3],
        tid2phone: vec![0, 1, 2, 3, 4],
        start: 0,
        pdfs: 4,
    })
}

/// Log-likelihoods of silence, dropped stitch, carrier two, carrier three.
const FRAMES: [[f32; 4]; 8] = [
    [-0.5, -4.0, -6.0, -6.0],
    [-0.5, -3.0, -6.0, -6.0],
    [-3.0, -0.5, -4.0, -4.0],
    [-4.0, -0.25, -4.0, -4.0],
    [-5.0, -0.5, -2.0, -2.0],
    [-6.0, -3.0, -0.5, -0.5],
    [-6.0, -4.0, -0.25, -0.25],
    [-4.0, -4.0, -0.75, -0.75],
];

fn hear() -> Result<(), Refusal> {
    let graph = graph()?;
    let config = Config { beam: 8.0, max_active: 1000, min_active: 0, beam_delta: 0.5 };
    let lengths = Lengths::of(&graph, 32);
    let mut decoder = Decoder::fit(graph.into(), config, lengths).started()?;
    for frame in &FRAMES {
        decoder.frame(frame)?;
    }
    let Some(path) = decoder.best_path(true)? else {
        println!("nothing was heard");
        return Ok(());
    };
    let courses = path.courses(COURSES, COURSE_FRAMES)?;
    for (i, &word) in path.words.iter().enumerate() {
        let end = path.frames.get(i + 1).copied().unwrap_or(decoder.frames_decoded());
        println!("frames {}..{}  course {}  {}", path.frames[i], end, courses[i].course, WORDS[word as usize]);
    }
    Ok(())
}

fn main() -> ExitCode {
    match hear() {
        Ok(()) => ExitCode::SUCCESS,
        Err(why) => {
            println!("{}", why.line());
            ExitCode::FAILURE
        }
    }
}
