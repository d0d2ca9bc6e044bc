//! Random graphs, settings and calls, some of them spoilt. Nothing panics, each answer has the proved properties, each refusal is one that the manual gives there, and a
//! twin that gets the same calls gives the same answers. A failure names its seed.
mod calls;
mod checks;
#[path = "../common/mod.rs"]
mod common;
mod graphs;
mod leaves;
mod paths;
mod reads;
mod rng;

use calls::{answer, random_call};
use checks::{check, Past};
use graphs::{judged, random_config, random_lengths, random_tables, spoil, unfit};
use hirqazhom::{Decoder, Fitted, Graph, Lengths, Refusal};
use rng::Rng;
use std::panic::{catch_unwind, resume_unwind, UnwindSafe};

/// Runs each seed; of one that fails the message begins with the seed.
fn each_seed(count: u64, run: impl Fn(&mut Rng) + Copy + UnwindSafe) {
    for seed in 0..count {
        if let Err(why) = catch_unwind(move || run(&mut Rng(seed))) {
            match (why.downcast_ref::<String>(), why.downcast_ref::<&str>()) {
                (Some(text), _) => panic!("seed {seed}: {text}"),
                (_, Some(text)) => panic!("seed {seed}: {text}"),
                _ => resume_unwind(why),
            }
        }
    }
}

/// A fitted decoder, and why its start was refused if it was.
fn fitted(f: Fitted) -> Result<(Decoder, Option<Refusal>), Refusal> {
    match f {
        Fitted::Done(d) => Ok((d, None)),
        Fitted::Refused(d, why) => Ok((d, Some(why))),
        Fitted::Unfit(why) => Err(why),
    }
}

/// One graph, one fitting, and some calls.
fn life(r: &mut Rng) {
    let mut t = random_tables(r);
    for _ in 0..r.pick(&[0, 0, 0, 0, 0, 1, 2]) {
        spoil(r, &mut t);
    }
    let expected = judged(&t);
    let graph = Graph::new(t);
    assert_eq!(graph.as_ref().err(), expected.as_ref());
    let Ok(graph) = graph else { return };

    let graph = std::sync::Arc::new(graph);
    let (config, lengths) = (random_config(r), random_lengths(r, &graph));
    let (first, twin) = (fitted(Decoder::fit(graph.clone(), config, lengths)), fitted(Decoder::fit(graph.clone(), config, lengths)));
    assert_eq!(first.as_ref().err().map(|why| why.number), unfit(&config, &lengths, &graph));
    if let (Ok(first), Ok(twin)) = (first, twin) {
        assert_eq!(first.1, twin.1);
        calls_on(r, first.0, twin.0, lengths, first.1);
    }
}

/// Random calls to both decoders, whose own start was refused by `start` if it was.
fn calls_on(r: &mut Rng, mut first: Decoder, mut twin: Decoder, lengths: Lengths, start: Option<Refusal>) {
    let mut past = Past::new(lengths, first.graph());
    past.started(&first, start);
    for _ in 0..r.below(40) {
        let call = random_call(r, first.graph());
        let given = answer(&mut first, &call);
        assert_eq!(format!("{given:?}"), format!("{:?}", answer(&mut twin, &call)), "the twin's answer to {call:?}");
        check(&mut past, &mut first, &call, &given);
    }
}

#[test]
fn every_answer_and_every_refusal_of_a_random_life_is_right() {
    each_seed(3_000, life);
}

#[test]
fn silence_weights_are_those_of_the_latest_segments() {
    each_seed(500, leaves::silence);
}

#[test]
fn a_search_finds_what_there_is() {
    each_seed(2_000, leaves::search);
}
