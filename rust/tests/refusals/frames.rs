//! 8 to 10 and 12 to 14: a frame. The place is always the frames decoded.
use crate::common::{decoder, fit, refusal, segment, tables, two_words, BELOW, CONFIG, HUGE, NOT_FINAL};
use hirqazhom::{Config, Place, Refusal, Tables};

/// 2^99.
const HALF: f32 = HUGE / 2.0;

/// One state with an arc of this weight to itself.
fn one_state(weight: f32) -> Tables {
    tables(&[0.0], &[(0, 1, 0, weight, 0)])
}

fn at(number: u32, frames: u32) -> Result<(), Refusal> {
    Err(refusal(number, Place::Frames(frames)))
}

/// The answer to one frame after a fitting.
fn first(t: Tables, frame: &[f32]) -> Result<(), Refusal> {
    decoder(t).frame(frame)
}

#[test]
fn by_8_where_a_frame_has_not_a_value_for_each_pdf() -> Result<(), Refusal> {
    let mut d = decoder(tables(&[0.0], &[(0, 2, 0, 0.5, 0)]));
    for n in 0..3 {
        for frame in [&[][..], &[0.0], &[0.0; 3]] {
            assert_eq!(d.frame(frame), at(8, n), "{} values", frame.len());
        }
        d.frame(&[0.0; 2])?;
    }
    Ok(())
}

#[test]
fn by_9_where_a_log_likelihood_is_no_tame_number() -> Result<(), Refusal> {
    let mut d = decoder(tables(&[0.0], &[(0, 2, 0, 0.0, 0)]));
    for n in 0..2 {
        for x in [f32::NAN, f32::INFINITY, f32::NEG_INFINITY, HUGE, -HUGE] {
            assert_eq!(d.frame(&[x, 0.0]), at(9, n), "first {x}");
            assert_eq!(d.frame(&[0.0, x]), at(9, n), "last {x}");
        }
        d.frame(&[0.0, 0.0])?;
    }
    for x in [BELOW, -BELOW] {
        first(one_state(0.0), &[x])?;
    }
    Ok(())
}

#[test]
fn by_10_after_65536_frames() -> Result<(), Refusal> {
    let mut d = decoder(one_state(0.5));
    for _ in 0..65_536 {
        d.frame(&[-1.0])?;
    }
    for frame in [&[-1.0][..], &[], &[f32::NAN]] {
        assert_eq!(d.frame(frame), at(10, 65_536));
    }
    let path = d.best_path(true)?.expect("a token is active");
    assert_eq!(path.segments, [segment(1, 0, 65_536)]);
    d.start()?;
    d.frame(&[-1.0])
}

#[test]
fn by_12_where_a_total_of_the_first_look_is_huge() {
    assert_eq!(first(one_state(BELOW), &[-BELOW]), at(12, 0));
    assert_eq!(first(one_state(-BELOW), &[BELOW]), at(12, 0));
    // The beam would have dropped it.
    assert_eq!(first(tables(&[0.0], &[(0, 1, 0, 0.0, 0), (0, 2, 0, BELOW, 0)]), &[0.0, -BELOW]), at(12, 0));
}

#[test]
fn by_12_where_a_total_passes_its_cutoff_and_is_huge() -> Result<(), Refusal> {
    // State 0 is the best; the huge total is state 1's.
    let without = tables(&[0.0; 2], &[(0, 0, 0, 1.0, 1), (1, 1, 0, BELOW, 1)]);
    assert_eq!(first(without, &[-BELOW]), at(12, 0));
    let with = tables(&[0.0; 2], &[(0, 0, 0, 1.0, 1), (0, 2, 0, 0.0, 0), (1, 1, 0, BELOW, 1)]);
    first(with, &[-BELOW, 0.0])?;

    // By an epsilon arc after the frame's arc.
    let epsilon = || tables(&[0.0; 2], &[(0, 1, 0, 0.0, 1), (1, 0, 0, HALF, 0)]);
    let mut d = fit(epsilon(), Config { beam: BELOW, ..CONFIG }, 10, 10).started()?;
    assert_eq!(d.frame(&[-1.5 * HALF]), at(12, 0));
    first(epsilon(), &[-1.5 * HALF])
}

#[test]
fn by_12_where_a_graph_sum_is_huge() -> Result<(), Refusal> {
    // The costs stay 0.
    let mut d = decoder(one_state(HALF));
    d.frame(&[HALF])?;
    assert_eq!(d.frame(&[HALF]), at(12, 1));
    d.start()?;
    d.frame(&[HALF])
}

#[test]
fn by_13_where_a_frame_wants_a_record() -> Result<(), Refusal> {
    // A change of phone wants one, and so does a word; who stays in a phone without a word wants none.
    let t = || tables(&[0.0; 2], &[(0, 1, 0, 0.0, 0), (0, 2, 7, 0.0, 1)]);
    assert_eq!(fit(t(), CONFIG, 0, 0).started()?.frame(&[0.0, -90.0]), at(13, 0));
    let mut d = fit(t(), CONFIG, 1, 0).started()?;
    d.frame(&[0.0, -90.0])?;
    assert_eq!(d.frame(&[-90.0, 0.0]), at(13, 1));
    d.frame(&[0.0, -90.0])
}

#[test]
fn by_13_where_a_frame_wants_a_join() -> Result<(), Refusal> {
    let mut d = fit(two_words(), CONFIG, 1, 0).started()?;
    d.set_keep(Some(0.0))?;
    assert_eq!(d.frame(&[0.0]), at(13, 0));
    d.set_keep(None)?;
    d.frame(&[0.0])
}

#[test]
fn by_14_where_a_frame_finds_the_queue_full() -> Result<(), Refusal> {
    let t = || tables(&[0.0; 3], &[(0, 1, 0, 0.0, 0), (0, 2, 0, 0.0, 1), (1, 0, 0, 0.5, 2)]);
    let mut d = fit(t(), CONFIG, 10, 0).started()?;
    d.frame(&[0.0, -90.0])?;
    assert_eq!(d.frame(&[0.0, 0.0]), at(14, 1));
    let mut d = fit(t(), CONFIG, 10, 1).started()?;
    d.frame(&[0.0, 0.0])
}

#[test]
fn length_then_values_then_total_graph_sum_record_and_push() -> Result<(), Refusal> {
    assert_eq!(first(two_words(), &[f32::NAN; 2]), at(8, 0));
    assert_eq!(first(one_state(BELOW), &[f32::NAN]), at(9, 0));

    // The arc wants a record, and its state a place of the queue; there is neither.
    let t = |weight| tables(&[NOT_FINAL; 3], &[(0, 1, 7, weight, 1), (1, 0, 0, 0.0, 2)]);
    let mut d = fit(t(BELOW), CONFIG, 0, 0).started()?;
    assert_eq!(d.frame(&[-BELOW]), at(12, 0));
    assert_eq!(d.frame(&[BELOW]), at(13, 0));
    assert_eq!(fit(t(0.0), CONFIG, 1, 0).started()?.frame(&[0.0]), at(14, 0));

    // The second word wants a second record, and doubles the graph sum.
    let mut d = fit(tables(&[0.0], &[(0, 1, 7, HALF, 0)]), CONFIG, 1, 0).started()?;
    d.frame(&[HALF])?;
    assert_eq!(d.frame(&[HALF]), at(12, 1));
    Ok(())
}
