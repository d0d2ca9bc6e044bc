//! The course of a frame, from the words of the request: the Rust has none.
use crate::script::{rec, Rec, COURSE};

/// The whole part of frame × courses / frames, and the remainder; none where that is refused.
pub fn course(frame: u32, courses: u32, frames: u32) -> Option<(u64, u64)> {
    let range = 1..=65_535;
    let passed = u64::from(frame) * u64::from(courses);
    let by = u64::from(frames);
    (range.contains(&courses) && range.contains(&frames) && frame <= 65_536).then(|| (passed / by, passed % by))
}

pub const CORNERS: [u32; 6] = [0, 1, 65_535, 65_536, 65_537, u32::MAX];

/// A call for each combination of corners.
pub fn corners() -> Vec<Rec> {
    let pairs = CORNERS.iter().flat_map(|&frame| CORNERS.map(|courses| (frame, courses)));
    pairs.flat_map(|(frame, courses)| CORNERS.map(|frames| rec(COURSE, &[frame, courses, frames]))).collect()
}
