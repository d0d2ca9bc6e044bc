//! 7, 10 and 11: the silence weights. They have no place.
use crate::common::{refusal, segment, BELOW, HUGE};
use hirqazhom::{trailing_silence_frames, Place, Refusal, Segment, SilenceWeighting};

/// Phone 1 weighs a half, and a decoder frame is two input frames.
fn silence(places: usize) -> SilenceWeighting {
    SilenceWeighting::new(&[1], 0.5, 2, places).expect("the settings are accepted")
}

fn by(number: u32) -> Refusal {
    refusal(number, Place::Nowhere)
}

#[test]
fn by_7_where_a_setting_is_out_of_range() {
    let judged = |weight, subsampling| SilenceWeighting::new(&[1], weight, subsampling, 1).map(drop);
    for weight in [f32::NAN, f32::INFINITY, f32::NEG_INFINITY, HUGE, -HUGE] {
        assert_eq!(judged(weight, 1), Err(by(7)), "weight {weight}");
    }
    for subsampling in [0, 17, u32::MAX] {
        assert_eq!(judged(0.5, subsampling), Err(by(7)), "subsampling {subsampling}");
    }
    for (weight, subsampling) in [(BELOW, 1), (-BELOW, 16), (-0.0, 2)] {
        assert_eq!(judged(weight, subsampling), Ok(()));
    }
}

#[test]
fn by_10_where_a_traceback_brings_too_many_frames() {
    let traced = |places, frames| silence(places).compute_current_traceback(&[], frames);
    for (places, frames) in [(0, 1), (2, 3), (65_537, 65_537), (2, u32::MAX)] {
        assert_eq!(traced(places, frames), Err(by(10)), "{frames} frames in {places} places");
    }
    for (places, frames) in [(0, 0), (2, 2), (65_536, 65_536)] {
        assert_eq!(traced(places, frames), Ok(()), "{frames} frames in {places} places");
    }
}

#[test]
fn by_10_where_segments_cannot_be() {
    let many = |n| vec![segment(1, 0, 1); n];
    let judged = |segments: &[Segment]| (silence(2).compute_current_traceback(segments, 2), trailing_silence_frames(&[1], segments));
    for segments in [vec![segment(1, 1, 0)], vec![segment(2, 0, 1), segment(2, 0, 65_537)], many(65_537)] {
        assert_eq!(judged(&segments), (Err(by(10)), Err(by(10))), "{} segments", segments.len());
    }
    for (segments, trailing) in [(vec![], 0), (vec![segment(1, 1, 1)], 0), (vec![segment(1, 0, 65_536)], 65_536), (many(65_536), 65_536)] {
        assert_eq!(judged(&segments), (Ok(()), Ok(trailing)), "{} segments", segments.len());
    }
}

#[test]
fn by_10_where_differences_are_asked_of_too_many_frames() {
    let told = |places, ready, first| silence(places).get_delta_weights(ready, first, 200_000).map(|d| d.len());
    let far = 1 << 32;
    // Two input frames a decoder frame.
    for (places, ready, first) in [(9, far + 1, far), (9, far + 2, far + 1), (9, 0, far + 1), (2, 5, 0), (65_537, 131_073, 0), (9, u64::MAX, 0)] {
        assert_eq!(told(places, ready, first), Err(by(10)), "{ready} and {first} in {places} places");
    }
    for (places, ready, first, count) in [(9, far, far - 1, 2), (2, 4, 0, 4), (65_536, 131_072, 0, 131_072), (0, far, far, 0), (0, 3, far, 0)] {
        assert_eq!(told(places, ready, first), Ok(count), "{ready} and {first} in {places} places");
    }
}

#[test]
fn by_11_where_differences_have_too_few_places() {
    for places in [0, 3] {
        assert_eq!(silence(2).get_delta_weights(4, 0, places), Err(by(11)), "{places} places");
    }
    assert_eq!(silence(2).get_delta_weights(4, 0, 4), Ok(vec![(0, 0.5), (1, 0.5), (2, 0.5), (3, 0.5)]));
    // The frames before the output.
    assert_eq!(silence(1).get_delta_weights(4, 0, 0), Err(by(10)));
}
