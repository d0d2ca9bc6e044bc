//! The silence weights.
use crate::ffi::{Silence, SilenceState};
use crate::{zeros, Refusal, Segment};
use std::fmt;

/// Segments in three slices.
struct Columns {
    phones: Vec<i32>,
    starts: Vec<u32>,
    ends: Vec<u32>,
}

impl Columns {
    fn of(segments: &[Segment]) -> Columns {
        Columns { phones: segments.iter().map(|s| s.phone).collect(), starts: segments.iter().map(|s| s.start).collect(), ends: segments.iter().map(|s| s.end).collect() }
    }
}

/// The silence phones, the state, and a place for each decoder frame.
pub struct SilenceWeighting {
    silence_phones: Vec<i32>,
    state: SilenceState,
    status: Vec<u32>,
    weights: Vec<f32>,
}

impl fmt::Debug for SilenceWeighting {
    fn fmt(&self, f: &mut fmt::Formatter<'_>) -> fmt::Result {
        f.debug_struct("SilenceWeighting").field("state", &self.state).finish_non_exhaustive()
    }
}

impl SilenceWeighting {
    /// With `places` for frames; 65,536 are always enough. Refused by 7.
    ///
    /// ```
    /// use hirqazhom::{Segment, SilenceWeighting};
    ///
    /// // Phone 1 is silence, which weighs a quarter; a decoder frame is one input frame. Every weight was 0 before.
    /// let mut silence = SilenceWeighting::new(&[1], 0.25, 1, 16)?;
    /// silence.compute_current_traceback(&[Segment { phone: 1, start: 0, end: 2 }, Segment { phone: 2, start: 2, end: 3 }], 3)?;
    /// assert_eq!(silence.get_delta_weights(3, 0, 16)?, [(0, 0.25), (1, 0.25), (2, 1.0)]);
    /// # Ok::<(), hirqazhom::Refusal>(())
    /// ```
    pub fn new(silence_phones: &[i32], weight: f32, subsampling: u32, places: usize) -> Result<SilenceWeighting, Refusal> {
        let s = call!(hirqazhom_silence_new [] v weight, v subsampling,);
        Refusal::of_number(s.number)?;
        Ok(SilenceWeighting { silence_phones: silence_phones.to_vec(), state: s.state, status: zeros(1, places), weights: zeros(1, places) })
    }

    fn go_on(&mut self, s: Silence) -> Result<usize, Refusal> {
        Refusal::of_number(s.number)?;
        self.state = s.state;
        Ok(s.count as usize)
    }

    /// Whether the weighting makes a difference.
    pub fn active(&self) -> bool {
        call!(hirqazhom_silence_active [] v self.state, r self.silence_phones,)
    }

    /// How many frames the list has, known or not.
    pub fn frames(&self) -> u32 {
        self.state.frames
    }

    /// Records what the best path's segments say of the decoded frames. Refused by 10, and then nothing is changed.
    pub fn compute_current_traceback(&mut self, segments: &[Segment], num_frames_decoded: u32) -> Result<(), Refusal> {
        let c = Columns::of(segments);
        let s = call!(hirqazhom_silence_traceback []
            v self.state, r self.silence_phones, r c.phones, r c.starts, r c.ends, v num_frames_decoded, w self.status, w self.weights,);
        self.go_on(s).map(|_| ())
    }

    /// Frames and the differences of their weights. Refused by 10, or by 11 where they are more than `places`, and then nothing is changed.
    pub fn get_delta_weights(&mut self, num_frames_ready: u64, first_decoder_frame: u64, places: usize) -> Result<Vec<(u64, f32)>, Refusal> {
        let (mut frames, mut deltas) = (zeros::<u64>(1, places), zeros::<f32>(1, places));
        let s = call!(hirqazhom_silence_deltas []
            v self.state, v num_frames_ready, v first_decoder_frame, w self.status, w self.weights, w frames, w deltas,);
        let n = self.go_on(s)?;
        Ok(frames.into_iter().zip(deltas).take(n).collect())
    }
}

/// How many frames the silence at the end has. Refused by 10.
pub fn trailing_silence_frames(silence_phones: &[i32], segments: &[Segment]) -> Result<u64, Refusal> {
    let c = Columns::of(segments);
    let n = call!(hirqazhom_trailing_silence_frames [] r silence_phones, r c.phones, r c.starts, r c.ends,);
    Refusal::of_number(n.number)?;
    Ok(n.count)
}
