//! Refusals: a number and a place.
use crate::constants::{AT_ARC, AT_FRAMES, AT_STATE, MAX_LINE, NOWHERE};
use crate::ffi::Verdict;
use std::fmt;
use std::str::{self, FromStr};

/// Where a refusal was met.
#[derive(Clone, Copy, Debug, PartialEq, Eq)]
pub enum Place {
    /// It has no place.
    Nowhere,
    /// At an arc.
    Arc {
        /// The arc's state.
        state: u32,
        /// The arc, counted within its state from 0.
        arc: u32,
    },
    /// At a state.
    State(u32),
    /// After so many frames decoded.
    Frames(u32),
}

/// Why a call was refused. [`constants`](crate::constants) has the numbers by name.
#[derive(Clone, Copy, Debug, PartialEq, Eq)]
pub struct Refusal {
    /// From 1 on, as in the manual's table.
    pub number: u32,
    /// Where it was met.
    pub place: Place,
}

impl Refusal {
    /// 0 is no refusal.
    pub(crate) fn of(v: Verdict) -> Result<(), Refusal> {
        let place = match v.place {
            AT_ARC => Place::Arc { state: v.at, arc: v.arc },
            AT_STATE => Place::State(v.at),
            AT_FRAMES => Place::Frames(v.at),
            _ => Place::Nowhere,
        };
        Refusal::unless_zero(v.number, place)
    }

    /// Writes the refusal's line to the start of `line`, and gives its length, at most [`MAX_LINE`]. Refused by 16 where `line` is shorter: nothing is written.
    pub fn write_line(self, line: &mut [u8]) -> Result<usize, Refusal> {
        let written = call!(hirqazhom_write_line [] v self.verdict(), w line,);
        Refusal::of_number(written.number)?;
        Ok(written.count as usize)
    }

    /// The refusal's line, for a fitter to read: number, name and place. It is empty for a place that the number cannot have, which no call gives.
    ///
    /// ```
    /// use hirqazhom::{Place, Refusal};
    /// let why = Refusal { number: 2, place: Place::Arc { state: 17, arc: 3 } };
    /// assert_eq!(why.line(), "refusal 2; start or arc target is no state; state 17; arc 3;");
    /// assert_eq!(why.line().parse(), Ok(why));
    /// ```
    pub fn line(self) -> String {
        let mut line = [0; MAX_LINE];
        let n = self.write_line(&mut line).unwrap_or(0);
        str::from_utf8(&line[..n]).unwrap_or_default().to_string()
    }

    /// The refusal whose line the bytes are, or none.
    pub fn from_line(bytes: &[u8]) -> Option<Refusal> {
        Refusal::of(call!(hirqazhom_read_line [] r bytes,)).err()
    }

    fn verdict(self) -> Verdict {
        let (place, at, arc) = match self.place {
            Place::Nowhere => (NOWHERE, 0, 0),
            Place::Arc { state, arc } => (AT_ARC, state, arc),
            Place::State(state) => (AT_STATE, state, 0),
            Place::Frames(frames) => (AT_FRAMES, frames, 0),
        };
        Verdict { number: self.number, place, at, arc }
    }

    pub(crate) fn of_number(number: u32) -> Result<(), Refusal> {
        Refusal::unless_zero(number, Place::Nowhere)
    }

    fn unless_zero(number: u32, place: Place) -> Result<(), Refusal> {
        if number == 0 {
            return Ok(());
        }
        Err(Refusal { number, place })
    }
}

impl fmt::Display for Refusal {
    fn fmt(&self, f: &mut fmt::Formatter<'_>) -> fmt::Result {
        write!(f, "refused by number {}", self.number)?;
        match self.place {
            Place::Nowhere => Ok(()),
            Place::Arc { state, arc } => write!(f, " at arc {arc} of state {state}"),
            Place::State(s) => write!(f, " at state {s}"),
            Place::Frames(n) => write!(f, ", frames decoded: {n}"),
        }
    }
}

impl std::error::Error for Refusal {}

/// A text that is no refusal's line.
#[derive(Clone, Copy, Debug, PartialEq, Eq)]
pub struct NoLine;

impl fmt::Display for NoLine {
    fn fmt(&self, f: &mut fmt::Formatter<'_>) -> fmt::Result {
        f.write_str("not the line of a refusal")
    }
}

impl std::error::Error for NoLine {}

/// Reads what `line` gives, and nothing else.
impl FromStr for Refusal {
    type Err = NoLine;

    fn from_str(line: &str) -> Result<Refusal, NoLine> {
        Refusal::from_line(line.as_bytes()).ok_or(NoLine)
    }
}
