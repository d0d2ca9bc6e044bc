//! The course on the needles at a frame.
use crate::{Path, Refusal};

/// A course and a remainder: course × frames + remainder is frame × courses, and the remainder is below frames.
#[derive(Clone, Copy, Debug, PartialEq, Eq)]
pub struct Course {
    /// The whole part of frame × courses / frames.
    pub course: u32,
    /// What is left.
    pub remainder: u32,
}

/// The course of a frame, where so many courses are knitted in so many frames. A later frame never has a lower one. Refused by 22 where `courses` or `frames` is outside 1 to 65,535, or the
/// frame above 65,536.
///
/// ```
/// use hirqazhom::{course, Course};
///
/// // three courses in four frames
/// assert_eq!(course(5, 3, 4), Ok(Course { course: 3, remainder: 3 }));
/// assert_eq!(course(5, 3, 0).unwrap_err().number, 22);
/// ```
pub fn course(frame: u32, courses: u32, frames: u32) -> Result<Course, Refusal> {
    let c = call!(hirqazhom_course [] v frame, v courses, v frames,);
    Refusal::of_number(c.number)?;
    Ok(Course { course: c.course, remainder: c.remainder })
}

impl Path {
    /// The course of each word's frame, in the words' order. Refused where [`course`] refuses one of them, and by 22 with no words too where `courses` or `frames` is outside its range.
    pub fn courses(&self, courses: u32, frames: u32) -> Result<Vec<Course>, Refusal> {
        course(0, courses, frames)?;
        self.frames.iter().map(|&frame| course(frame, courses, frames)).collect()
    }
}
