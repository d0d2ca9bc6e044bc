//! The course of a frame, judged by the equation that fixes it.
mod common;
#[path = "random/rng.rs"]
#[allow(dead_code)]
mod rng;

use common::{decoder, recorded_graph, refusal, RECORDED};
use hirqazhom::{course, Course, Path, Place, Refusal};
use rng::Rng;

const CORNERS: [u32; 6] = [0, 1, 65_535, 65_536, 65_537, u32::MAX];

/// Asks for a course and judges the answer, in numbers that cannot overflow.
fn judge(frame: u32, courses: u32, frames: u32) {
    let answer = course(frame, courses, frames);
    let range = 1..=65_535;
    if !range.contains(&courses) || !range.contains(&frames) || frame > 65_536 {
        assert_eq!(answer, Err(refusal(22, Place::Nowhere)), "frame {frame}, {courses} courses in {frames} frames");
        return;
    }
    let c = answer.expect("all three are in range");
    assert_eq!(
        u64::from(c.course) * u64::from(frames) + u64::from(c.remainder),
        u64::from(frame) * u64::from(courses),
        "frame {frame}, {courses} courses in {frames} frames"
    );
    assert!(c.remainder < frames, "frame {frame}, {courses} courses in {frames} frames");
}

#[test]
fn every_combination_of_corners() {
    for frame in CORNERS {
        for courses in CORNERS {
            for frames in CORNERS {
                judge(frame, courses, frames);
            }
        }
    }
}

#[test]
fn random_numbers_in_and_out_of_range() {
    let mut r = Rng(11);
    for _ in 0..200_000 {
        let [frame, courses, frames] = [0; 3].map(|_| if r.chance(90) { r.below(65_536) } else { r.below(1 << 32) } as u32);
        judge(frame, courses, frames);
    }
}

#[test]
fn the_largest_product_does_not_overflow() {
    assert_eq!(course(65_536, 65_535, 1), Ok(Course { course: 4_294_901_760, remainder: 0 }));
    assert_eq!(course(65_536, 65_535, 65_535), Ok(Course { course: 65_536, remainder: 0 }));
    assert_eq!(course(65_536, 65_535, 65_534), Ok(Course { course: 65_537, remainder: 2 }));
}

#[test]
fn a_later_frame_never_has_a_lower_course() -> Result<(), Refusal> {
    for (courses, frames) in [(3, 4), (1, 1), (1, 65_535), (65_535, 1), (65_535, 65_534), (7, 3)] {
        let mut last = 0;
        for frame in 0..=65_536 {
            let c = course(frame, courses, frames)?.course;
            assert!(last <= c, "frame {frame}, {courses} courses in {frames} frames");
            last = c;
        }
    }
    Ok(())
}

fn recorded_path() -> Result<Path, Refusal> {
    let mut d = decoder(recorded_graph());
    for frame in &RECORDED {
        d.frame(frame)?;
    }
    Ok(d.best_path(true)?.expect("a token is active"))
}

#[test]
fn a_word_has_its_course_beside_its_frame() -> Result<(), Refusal> {
    let path = recorded_path()?;
    assert_eq!(path.frames, [2, 5]);
    assert_eq!(path.courses(3, 4)?, [Course { course: 1, remainder: 2 }, Course { course: 3, remainder: 3 }]);
    Ok(())
}

#[test]
fn the_courses_of_a_path_are_refused_by_22() -> Result<(), Refusal> {
    let path = recorded_path()?;
    let silent = Path { words: vec![], frames: vec![], ..path.clone() };
    assert_eq!(silent.courses(3, 4), Ok(vec![]));
    for (courses, frames) in [(0, 4), (65_536, 4), (3, 0), (3, 65_536)] {
        assert_eq!(path.courses(courses, frames), Err(refusal(22, Place::Nowhere)));
        assert_eq!(silent.courses(courses, frames), Err(refusal(22, Place::Nowhere)));
    }
    let late = Path { frames: vec![65_536, 65_537], ..path };
    assert_eq!(late.courses(3, 4), Err(refusal(22, Place::Nowhere)));
    Ok(())
}
