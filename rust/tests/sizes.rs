//! Sizes: those that suffice, those that no machine has, and those that a process with little memory cannot get. What is not there is refused by its number.
mod common;
use common::{decoder, refusal, tables, two_words, CONFIG};
use hirqazhom::{Decoder, Graph, KeptStores, Lengths, Output, Place, Places, Refusal, SilenceWeighting};
use std::process::Command;

/// Enough for one frame.
const ENOUGH: Lengths = Lengths { states: 2, records: 9, queue: 9 };

/// A fitting, and a frame that wants a record and a place of the queue.
fn one_frame(lengths: Lengths) -> Result<(), Refusal> {
    let graph = Graph::new(tables(&[0.0; 2], &[(0, 1, 7, 0.5, 1), (1, 0, 0, 0.5, 0)]))?;
    Decoder::fit(graph.into(), CONFIG, lengths).started()?.frame(&[0.0])
}

/// A reading list with a kept reading.
fn read(places: Places, entries: usize, kept: usize) -> Result<usize, Refusal> {
    let mut d = decoder(two_words());
    d.set_keep(Some(0.0))?;
    d.frame(&[0.0])?;
    d.reading_list_into(false, 2, 2, &mut KeptStores::new(entries, kept), &mut Output::new(places))
}

/// The weights of one frame.
fn weigh(frames: usize, differences: usize) -> Result<(), Refusal> {
    let mut silence = SilenceWeighting::new(&[1], 0.5, 1, frames)?;
    silence.compute_current_traceback(&[], 1)?;
    silence.get_delta_weights(1, 0, differences).map(drop)
}

#[test]
fn the_sizes_are_the_manuals() -> Result<(), Refusal> {
    assert_eq!(Lengths { states: 5_000, records: 32_768, queue: 4_096 }.bytes(), 385_000 + 2_752_512 + 16_384);
    assert_eq!(Lengths { states: usize::MAX, records: 1, queue: 1 }.bytes(), usize::MAX);
    // Two states have epsilon arcs, three such arcs there are.
    let graph = Graph::new(tables(&[0.0; 3], &[(0, 0, 5, 1.0, 1), (0, 0, 6, 1.0, 1), (1, 0, 0, 1.0, 2), (1, 1, 0, 0.0, 1)]))?;
    assert_eq!(Lengths::of(&graph, 9), Lengths { states: 3, records: 9, queue: 5 });
    assert_eq!((graph.states(), graph.queue_places(), graph.queue_places_with_margin()), (3, 5, 11));
    Ok(())
}

fn by<T>(number: u32, place: Place) -> Result<T, Refusal> {
    Err(refusal(number, place))
}

#[test]
fn more_states_or_queue_than_any_memory_holds_are_refused_by_number() {
    assert_eq!(one_frame(ENOUGH), Ok(()));
    assert_eq!(one_frame(Lengths { states: usize::MAX, ..ENOUGH }), by(6, Place::Nowhere));
    assert_eq!(one_frame(Lengths { queue: usize::MAX, ..ENOUGH }), by(14, Place::Frames(0)));
}

#[test]
fn more_than_1048576_records_are_too_many_whatever_the_memory() {
    for records in [1_048_577, 1 << 40, usize::MAX / 84, usize::MAX] {
        assert_eq!(one_frame(Lengths { records, ..ENOUGH }), by(6, Place::Nowhere), "{records} records");
    }
}

#[test]
fn more_output_or_places_for_joins_than_any_memory_holds_are_too_few() {
    let (max, enough) = (usize::MAX, Places::new(9, 9, 9));
    assert_eq!(read(enough, 9, 9), Ok(2));
    for p in [Places { entries: max, ..enough }, Places { words: max, ..enough }, Places { frames: max, ..enough }, Places { segments: max, ..enough }] {
        assert_eq!(read(p, 9, 9), by(11, Place::Nowhere), "{p:?}");
    }
    for (entries, kept) in [(max, max), (max, 9), (9, max)] {
        assert_eq!(read(enough, entries, kept), by(15, Place::Nowhere), "{entries} and {kept}");
    }
}

#[test]
fn more_silence_places_than_any_memory_holds_are_too_few() {
    assert_eq!(weigh(9, 9), Ok(()));
    assert_eq!(weigh(usize::MAX, 9), by(10, Place::Nowhere));
    assert_eq!(weigh(9, usize::MAX), by(11, Place::Nowhere));
}

const CHILD: &str = "HIRQAZHOM_TEST_OF_SHORT_MEMORY";

#[test]
fn what_there_is_no_memory_for_is_refused_by_number() {
    if std::env::var_os(CHILD).is_some() {
        // From what there is memory for to what no machine has; on the way some slices of a store can be had and others not.
        return (17..29).flat_map(|k| [2 << k, 3 << k]).chain([1 << 40, usize::MAX]).for_each(ask_for);
    }
    let me = std::env::current_exe().expect("this program has a name");
    let limited = r#"ulimit -v 500000 && exec "$0" what_there_is_no_memory_for_is_refused_by_number --exact"#;
    let child = Command::new("sh").args(["-c", limited]).arg(me).env(CHILD, "").output().expect("sh runs");
    assert!(child.status.success(), "{}{}", String::from_utf8_lossy(&child.stdout), String::from_utf8_lossy(&child.stderr));
}

/// Accepted, or refused by one of these.
fn accepted_or<T>(numbers: &[u32], n: usize, given: Result<T, Refusal>) {
    if let Err(why) = given {
        assert!(numbers.contains(&why.number), "{why}, with {n} places");
    }
}

fn ask_for(n: usize) {
    accepted_or(&[6], n, one_frame(Lengths { states: n, ..ENOUGH }));
    accepted_or(&[6, 13], n, one_frame(Lengths { records: n, ..ENOUGH }));
    accepted_or(&[14], n, one_frame(Lengths { queue: n, ..ENOUGH }));
    accepted_or(&[11], n, read(Places::new(n, 9, 9), 9, 9));
    accepted_or(&[11], n, read(Places::new(9, n, 9), 9, 9));
    accepted_or(&[11], n, read(Places::new(9, 9, n), 9, 9));
    accepted_or(&[15], n, read(Places::new(9, 9, 9), n, 9));
    accepted_or(&[15], n, read(Places::new(9, 9, 9), 9, n));
    accepted_or(&[10], n, weigh(n, 9));
    accepted_or(&[11], n, weigh(9, n));
}
