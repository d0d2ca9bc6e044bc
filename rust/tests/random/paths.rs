//! Whether the graph has a path with these words, frames and phones.
use hirqazhom::{Segment, Tables};
use std::collections::BTreeSet;

/// What is asked of a path: its words and their frames, and where they are known the phones.
pub struct Sought<'a> {
    pub words: &'a [i32],
    pub frames: &'a [u32],
    pub segments: Option<&'a [Segment]>,
}

impl Sought<'_> {
    /// How many words there are behind an arc with this word at this frame, if it may come next.
    fn goes_on(&self, done: usize, word: i32, frame: u32) -> Option<usize> {
        if word == 0 {
            return Some(done);
        }
        let next = self.words.get(done) == Some(&word) && self.frames.get(done) == Some(&frame);
        next.then_some(done + 1)
    }

    fn has_phone(&self, phone: i32, frame: u32) -> bool {
        self.segments.is_none_or(|all| all.iter().any(|s| s.phone == phone && (s.start..s.end).contains(&frame)))
    }
}

/// A state, and how many words there are on the way to it.
type Reached = (u32, usize);

/// Where the arcs lead from here at this frame, the emitting ones or the epsilon arcs.
fn steps(t: &Tables, sought: &Sought, (state, done): Reached, frame: u32, emitting: bool) -> Vec<Reached> {
    let arcs = t.offsets[state as usize] as usize..t.offsets[state as usize + 1] as usize;
    let taken = |label: i32| (label != 0) == emitting && (label == 0 || sought.has_phone(t.tid2phone[label as usize], frame));
    arcs.filter(|&a| taken(t.ilabels[a])).filter_map(|a| sought.goes_on(done, t.olabels[a], frame).map(|n| (t.nextstates[a], n))).collect()
}

/// With all that epsilon arcs lead to. They are heard at the frame of the emitting arc before them.
fn closed(t: &Tables, sought: &Sought, mut reached: BTreeSet<Reached>, frame: u32) -> BTreeSet<Reached> {
    let mut todo: Vec<Reached> = reached.iter().copied().collect();
    while let Some(from) = todo.pop() {
        todo.extend(steps(t, sought, from, frame, false).into_iter().filter(|&to| reached.insert(to)));
    }
    reached
}

/// Some path of so many frames from the start is the one sought. Where finals count it ends in a final state.
pub fn has_path(t: &Tables, sought: &Sought, frames: u32, finals: bool) -> bool {
    let mut reached = closed(t, sought, [(t.start, 0)].into(), 0);
    for frame in 0..frames {
        let emitted = reached.iter().flat_map(|&from| steps(t, sought, from, frame, true)).collect();
        reached = closed(t, sought, emitted, frame);
    }
    reached.iter().any(|&(state, done)| done == sought.words.len() && (!finals || t.finals[state as usize].is_finite()))
}
