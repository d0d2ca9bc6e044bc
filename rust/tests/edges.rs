//! The edges: nothing decoded, nothing lent, nobody heard, long answers, zeros, ties, and many decoders over one graph.
mod common;
use common::{decoder, fit, recorded_graph, refusal, segment, tables, told, two_words, CONFIG, NOT_FINAL, RECORDED};
use hirqazhom::{Config, Decoder, Fitted, Graph, KeptStores, Lengths, Output, Path, Place, Places, Refusal, Segment, SilenceWeighting, Tables, NO_STATE};
use std::sync::Arc;

/// Word 7 into state 1, which stays with itself.
fn one_word() -> Tables {
    tables(&[NOT_FINAL, 0.0], &[(0, 1, 7, 0.5, 1), (1, 1, 0, 0.25, 1)])
}

fn path(words: &[i32], frames: &[u32], segments: &[Segment], cost: f32) -> Path {
    Path { words: words.to_vec(), frames: frames.to_vec(), segments: segments.to_vec(), cost }
}

/// Nothing is heard, whatever frames are sent.
fn hears_nothing(d: &mut Decoder, pdfs: usize) -> Result<(), Refusal> {
    for n in 0..3 {
        assert_eq!((d.frames_decoded(), d.num_active(), d.final_relative_cost()), (n, 0, f32::INFINITY));
        for finals in [false, true] {
            assert_eq!((d.best_path(finals)?, d.alternatives(finals, 64)?, d.reading_list(finals, 64, 64)?), (None, vec![], vec![]));
        }
        d.frame(&vec![0.0; pdfs])?;
    }
    d.start()
}

#[test]
fn before_any_frame_the_path_is_empty_and_costs_nothing() -> Result<(), Refusal> {
    let mut d = decoder(one_word());
    let empty = path(&[], &[], &[], 0.0);
    for finals in [false, true] {
        assert_eq!(d.best_path(finals)?, Some(empty.clone()));
        assert_eq!(d.alternatives(finals, 1)?, std::slice::from_ref(&empty));
        let readings = d.reading_list(finals, 1, 1)?;
        assert_eq!((readings.len(), readings[0].path.as_ref()), (1, Some(&empty)));
    }
    // No place for words or segments is wanted.
    assert_eq!(d.best_path_into(false, &mut Output::new(Places::new(0, 0, 0)))?, Some(empty));
    Ok(())
}

#[test]
fn a_phone_goes_on_as_one_segment() -> Result<(), Refusal> {
    let mut d = decoder(one_word());
    d.frame(&[-1.0])?;
    assert_eq!(d.best_path(true)?, Some(path(&[7], &[0], &[segment(1, 0, 1)], 1.5)));
    d.frame(&[-1.0])?;
    assert_eq!(d.best_path(true)?, Some(path(&[7], &[0], &[segment(1, 0, 2)], 1.25)));
    Ok(())
}

#[test]
fn a_total_at_the_cutoff_is_dropped() -> Result<(), Refusal> {
    let mut d = fit(one_word(), Config { beam: 0.0, ..CONFIG }, 10, 0).started()?;
    d.frame(&[-1.0])?;
    assert_eq!((d.frames_decoded(), d.best_path(false)?), (1, None));
    // An epsilon arc out of the start whose weight reaches the beam is not taken.
    for (weight, active) in [(8.0, 1), (7.5, 2)] {
        assert_eq!(decoder(tables(&[0.0; 2], &[(0, 0, 0, weight, 1)])).num_active(), active);
    }
    Ok(())
}

#[test]
fn stores_of_no_place_are_enough_where_none_is_wanted() -> Result<(), Refusal> {
    // Before the first frame there is no phone, so that every frame that is heard wants a record; here nothing is.
    let mut d = fit(tables(&[0.5], &[]), CONFIG, 0, 0).started()?;
    assert_eq!(d.best_path(true)?, Some(path(&[], &[], &[], 0.5)));
    d.frame(&[])?;
    assert_eq!((d.frames_decoded(), d.best_path(true)?), (1, None));

    // Without epsilon arcs no queue is wanted.
    let mut d = fit(recorded_graph(), CONFIG, 100, 0).started()?;
    assert_eq!(hearing(&mut d), hearing(&mut decoder(recorded_graph())));

    let none = Lengths { states: 0, records: 0, queue: 0 };
    let Fitted::Unfit(why) = Decoder::fit(Graph::new(one_word())?.into(), CONFIG, none) else { panic!("fitted without a place for its states") };
    assert_eq!(why, refusal(6, Place::Nowhere));
    Ok(())
}

#[test]
fn a_long_path_is_read_whole() -> Result<(), Refusal> {
    // A word in each frame.
    let mut d = fit(tables(&[0.0], &[(0, 1, 7, 0.0, 0)]), CONFIG, 5000, 0).started()?;
    (0..5000).try_for_each(|_| d.frame(&[-1.0]))?;
    let long = path(&[7; 5000], &(0..5000).collect::<Vec<u32>>(), &[segment(1, 0, 5000)], 1.0);
    assert_eq!(d.best_path(true)?.as_ref(), Some(&long));
    assert_eq!(d.alternatives(true, 64)?, std::slice::from_ref(&long));
    assert_eq!(d.reading_list(true, 64, 64)?[0].path, Some(long));
    Ok(())
}

#[test]
fn a_list_is_not_cut_at_listed() -> Result<(), Refusal> {
    // A word for each of 300 states; the later token comes first.
    let arcs: Vec<common::ArcIn> = (1..300).map(|s| (0, 1, s as i32, 0.0, s)).collect();
    let mut d = decoder(tables(&[0.0; 300], &arcs));
    d.frame(&[0.0])?;
    let readings = d.reading_list(false, 2, 3)?;
    assert!(readings.iter().map(|r| r.words[0]).eq((1..300).rev()));
    assert_eq!(readings.iter().filter(|r| r.path.is_some()).count(), 3);
    let paths = d.alternatives(false, 64)?;
    assert!(paths.iter().map(|p| p.words[0]).eq((236..300).rev()));
    Ok(())
}

#[test]
fn a_graph_of_no_states_is_fitted_and_hears_nothing() -> Result<(), Refusal> {
    let nothing = Tables { start: NO_STATE, pdfs: 2, ..tables(&[], &[]) };
    hears_nothing(&mut fit(nothing, CONFIG, 0, 0).started()?, 2)
}

#[test]
fn without_a_start_state_nothing_is_heard() -> Result<(), Refusal> {
    hears_nothing(&mut decoder(Tables { start: NO_STATE, ..one_word() }), 1)
}

#[test]
fn zero_and_minus_zero_are_one_log_likelihood() -> Result<(), Refusal> {
    let t = || tables(&[-0.0; 2], &[(0, 0, 0, -0.0, 1), (0, 1, 7, -0.0, 1), (1, 1, 8, 0.0, 1)]);
    let (mut zero, mut minus) = (decoder(t()), decoder(t()));
    for _ in 0..3 {
        zero.frame(&[0.0])?;
        minus.frame(&[-0.0])?;
        assert_eq!(told(&mut minus), told(&mut zero));
    }
    let costs = [minus.best_path(false)?, minus.best_path(true)?].map(|p| p.map(|p| p.cost.to_bits()));
    assert_eq!(costs, [Some(0); 2]);
    Ok(())
}

/// The words of the alternatives after the frame [0], and what they cost.
fn after_one_frame(arcs: &[common::ArcIn]) -> Result<Vec<(Vec<i32>, f32)>, Refusal> {
    let mut d = decoder(tables(&[NOT_FINAL, 0.0, 0.0], arcs));
    d.frame(&[0.0])?;
    Ok(d.alternatives(true, 64)?.into_iter().map(|p| (p.words, p.cost)).collect())
}

#[test]
fn of_equal_totals_the_first_stays_and_of_equal_ranks_the_later_token_wins() -> Result<(), Refusal> {
    assert_eq!(after_one_frame(&[(0, 1, 5, 1.0, 1), (0, 1, 6, 1.0, 1)])?, [(vec![5], 1.0)]);
    assert_eq!(after_one_frame(&[(0, 1, 5, 1.0, 1), (0, 1, 6, 1.0, 2)])?, [(vec![6], 1.0), (vec![5], 1.0)]);
    assert_eq!(after_one_frame(&[(0, 1, 5, 1.0, 2), (0, 1, 6, 1.0, 1)])?, [(vec![6], 1.0), (vec![5], 1.0)]);
    // Word 7 beats word 5 and takes over its place in the order.
    assert_eq!(after_one_frame(&[(0, 1, 5, 2.0, 1), (0, 1, 6, 1.0, 2), (0, 1, 7, 1.0, 1)])?, [(vec![6], 1.0), (vec![7], 1.0)]);
    Ok(())
}

#[test]
fn finals_count_where_an_active_state_is_final() -> Result<(), Refusal> {
    // Word 5 costs 10, all of it weight, word 6 costs 9.5 and no weight. With finals a tenth of the weight is taken off the rank.
    let arcs = [(0, 1, 5, 10.0, 1), (0, 2, 6, 0.0, 2)];
    let read = |finals: [f32; 3], use_final| -> Result<Vec<(i32, f32)>, Refusal> {
        let mut d = decoder(tables(&finals, &arcs));
        d.frame(&[0.0, -9.5])?;
        Ok(d.alternatives(use_final, 64)?.iter().map(|p| (p.words[0], p.cost)).collect())
    };
    assert_eq!(read([NOT_FINAL, 0.0, 0.0], false)?, [(6, 9.5), (5, 10.0)]);
    assert_eq!(read([NOT_FINAL, 0.0, 0.0], true)?, [(5, 10.0), (6, 9.5)]);
    assert_eq!(read([NOT_FINAL, 3.0, NOT_FINAL], true)?, [(5, 13.0)]);
    assert_eq!(read([0.0, NOT_FINAL, NOT_FINAL], true)?, [(6, 9.5), (5, 10.0)]);
    Ok(())
}

#[test]
fn a_loser_of_the_same_cost_is_kept_and_listed_second() -> Result<(), Refusal> {
    let mut d = decoder(two_words());
    d.set_keep(Some(0.0))?;
    d.frame(&[0.0])?;
    let readings: Vec<_> = d.reading_list(false, 2, 2)?.into_iter().map(|r| (r.words, r.cost, r.kept)).collect();
    assert_eq!(readings, [(vec![5], 1.0, 0), (vec![6], 1.0, 1)]);
    // Listed at 0, or without a margin, there are own groups alone.
    assert_eq!(d.reading_list(false, 0, 2)?.len(), 1);
    d.set_keep(None)?;
    assert_eq!(d.reading_list(false, 2, 2)?.len(), 1);
    Ok(())
}

#[test]
fn silence_is_weighed_as_the_scope_says() -> Result<(), Refusal> {
    let mut silence = SilenceWeighting::new(&[1], 0.5, 3, 16)?;
    assert!(silence.active());
    silence.compute_current_traceback(&[segment(1, 0, 1), segment(2, 1, 2)], 2)?;
    assert_eq!(silence.get_delta_weights(6, 0, 16)?, [(0, 0.5), (1, 0.5), (2, 0.5), (3, 1.0), (4, 1.0), (5, 1.0)]);
    assert_eq!(silence.get_delta_weights(6, 0, 16)?, [(3, 0.0), (4, 0.0), (5, 0.0)]);
    let mut fresh = SilenceWeighting::new(&[1], 0.5, 3, 16)?;
    assert_eq!(fresh.get_delta_weights(1, 1, 16)?, []);
    assert_eq!(fresh.get_delta_weights(4, 1, 16)?, [(1, 0.5), (2, 0.5), (3, 0.5)]);
    assert_eq!((silence.frames(), fresh.frames()), (2, 1));
    assert!(!SilenceWeighting::new(&[], 0.5, 3, 0)?.active() && !SilenceWeighting::new(&[1], 1.0, 3, 0)?.active());
    Ok(())
}

fn fit_recorded(graph: &Arc<Graph>) -> Decoder {
    Decoder::fit(graph.clone(), CONFIG, Lengths::of(graph, 100)).started().expect("the start is accepted")
}

/// What is told after each frame of the recorded call.
fn hearing(d: &mut Decoder) -> Vec<String> {
    let heard = |frame: &[f32; 4]| d.frame(frame).map(|()| told(d)).expect("the frame is accepted");
    RECORDED.iter().map(heard).collect()
}

#[test]
fn two_decoders_share_a_graph_and_nothing_else() -> Result<(), Refusal> {
    let graph = Arc::new(Graph::new(recorded_graph())?);
    let alone = hearing(&mut fit_recorded(&graph));
    let (mut first, mut second) = (fit_recorded(&graph), fit_recorded(&graph));
    // The second one hears the call two frames later.
    for n in 0..10 {
        if let Some(frame) = RECORDED.get(n) {
            first.frame(frame)?;
            assert_eq!(told(&mut first), alone[n]);
        }
        if let Some(m) = n.checked_sub(2) {
            second.frame(&RECORDED[m])?;
            assert_eq!(told(&mut second), alone[m]);
        }
    }
    Ok(())
}

#[test]
fn decoders_in_two_threads_hear_the_same() -> Result<(), Refusal> {
    let graph = Arc::new(Graph::new(recorded_graph())?);
    let alone = hearing(&mut fit_recorded(&graph));
    let hear_on = |mut d: Decoder| move || (0..50).map(|_| heard_anew(&mut d)).collect::<Vec<_>>();
    let threads = [0, 1].map(|_| std::thread::spawn(hear_on(fit_recorded(&graph))));
    for thread in threads {
        let hearings = thread.join().expect("the thread ends");
        assert!(hearings.iter().all(|h| *h == alone));
    }
    Ok(())
}

fn heard_anew(d: &mut Decoder) -> Vec<String> {
    d.start().expect("the start is accepted");
    hearing(d)
}

#[test]
fn two_threads_may_read_one_decoder() -> Result<(), Refusal> {
    let mut d = decoder(recorded_graph());
    RECORDED.iter().try_for_each(|frame| d.frame(frame))?;
    let (alone, d) = (d.best_path(true)?, &d);
    std::thread::scope(|s| {
        for thread in [0, 1].map(|_| s.spawn(move || d.best_path(true))) {
            assert_eq!(thread.join().expect("the thread ends").as_ref(), Ok(&alone));
        }
    });
    Ok(())
}

/// Compiles where T may go to another thread and be shared with it.
const fn shared<T: Send + Sync>() {}

const _: () = {
    shared::<Graph>();
    shared::<Decoder>();
    shared::<Output>();
    shared::<KeptStores>();
    shared::<SilenceWeighting>();
    shared::<Refusal>();
};
