//! Random searches and silence calls.
use crate::common::{refusal, segment};
use crate::rng::Rng;
use hirqazhom::{find, trailing_silence_frames, Place, Segment, SilenceWeighting};

/// Readings side by side; now and then the ends fall or pass the words.
pub fn search(r: &mut Rng) {
    let words: Vec<i32> = (0..r.below(12)).map(|_| r.pick(&[0, 1, 2, 3, -1])).collect();
    let mut ends: Vec<u32> = (0..r.below(5)).map(|_| r.below(words.len() + 1) as u32).collect();
    if r.chance(80) {
        ends.sort();
    }
    if r.chance(10) {
        ends.push(words.len() as u32 + 1);
    }
    let word = r.pick(&[0, 1, 2, 3, 4, -1]);
    let given = find(word, &ends, &words);
    if !ends.is_sorted() || ends.last().is_some_and(|&e| e as usize > words.len()) {
        return assert_eq!(given, Err(refusal(11, Place::Nowhere)));
    }
    let begin = |i: usize| if i == 0 { 0 } else { ends[i - 1] as usize };
    let has = |i: usize| words[begin(i)..ends[i] as usize].contains(&word);
    match given.expect("the ends are right") {
        Some(i) => assert!(has(i)),
        None => assert!(!(0..ends.len()).any(has)),
    }
}

/// Segments that tile the frames.
fn random_segments(r: &mut Rng, frames: u32) -> Vec<Segment> {
    let mut ends: Vec<u32> = (0..r.below(5)).map(|_| r.below(frames as usize + 1) as u32).collect();
    ends.push(frames);
    ends.sort();
    let begin = |i: usize| if i == 0 { 0 } else { ends[i - 1] };
    (0..ends.len()).map(|i| segment(1 + r.below(3) as i32, begin(i), ends[i])).collect()
}

/// The silence at the end of the segments, phone by phone from the last.
fn trailing(phones: &[i32], segments: &[Segment]) -> u64 {
    segments.iter().rev().take_while(|s| phones.contains(&s.phone)).map(|s| u64::from(s.end - s.start)).sum()
}

/// Differences of weights add up to the weights: from 100 frames before the end on, those of the latest segments.
pub fn silence(r: &mut Rng) {
    let (weight, subsampling, places) = (r.pick(&[0.0, 0.25, 0.5, 1.0, -2.0]), 1 + r.below(3), r.pick(&[8, 150, 400]));
    let phones = &[1, 2, 9][..r.below(3)];
    let mut s = SilenceWeighting::new(phones, weight, subsampling as u32, places).expect("the settings are right");
    assert_eq!(s.active(), !phones.is_empty() && weight != 1.0);
    let (mut frames, mut sums) = (0, vec![0.0; 400 * subsampling]);
    for _ in 0..r.below(8) {
        let more = frames + r.pick(&[0, 1, 2, 10, 60, 120]);
        let segments = random_segments(r, more);
        assert_eq!(trailing_silence_frames(phones, &segments), Ok(trailing(phones, &segments)));
        if s.compute_current_traceback(&segments, more) == Err(refusal(10, Place::Nowhere)) {
            assert!(more as usize > places);
            continue;
        }
        frames = more;
        assert_eq!(s.frames(), frames);
        add_differences(r, &mut s, frames as usize * subsampling, &mut sums);
        for f in (frames.saturating_sub(100))..frames {
            let silent = segments.iter().any(|s| (s.start..s.end).contains(&f) && phones.contains(&s.phone));
            let expected = if silent { weight } else { 1.0 };
            assert!(sums[f as usize * subsampling..][..subsampling].iter().all(|&w| w == expected), "frame {f}: {sums:?}");
        }
    }
}

/// Asks for the differences of the frames up to `ready`, at first with few places.
fn add_differences(r: &mut Rng, s: &mut SilenceWeighting, ready: usize, sums: &mut [f32]) {
    let few = r.below(20);
    let given = s.get_delta_weights(ready as u64, 0, few);
    let deltas = given.or_else(|why| {
        assert_eq!(why, refusal(11, Place::Nowhere));
        s.get_delta_weights(ready as u64, 0, sums.len())
    });
    for (frame, delta) in deltas.expect("there are places enough") {
        sums[frame as usize] += delta;
    }
}
