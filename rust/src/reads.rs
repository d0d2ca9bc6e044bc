//! The reads: paths and readings out of lent output.
use crate::constants::{MAX_LISTED, TOO_SHORT};
use crate::{zeros, Decoder, Refusal};
use std::ops::Range;

/// A phone's frames; the end is not in it.
#[derive(Clone, Copy, Debug, PartialEq, Eq)]
pub struct Segment {
    /// The phone.
    pub phone: i32,
    /// Its first frame.
    pub start: u32,
    /// The frame after its last one.
    pub end: u32,
}

/// A path through the graph over the frames decoded.
#[derive(Clone, Debug, PartialEq)]
pub struct Path {
    /// Its words, oldest first.
    pub words: Vec<i32>,
    /// A frame for each word.
    pub frames: Vec<u32>,
    /// Its phones, oldest first.
    pub segments: Vec<Segment>,
    /// What it costs. Compare costs of one read, not of two frames.
    pub cost: f32,
}

/// The token that a reading ends in.
#[derive(Clone, Copy, Debug, PartialEq)]
pub struct Token {
    /// Its cost.
    pub cost: f32,
    /// Its graph sum.
    pub graph: f32,
    /// Its phone.
    pub phone: i32,
    /// How late its state got a token; decides between equal ranks.
    pub seq: u32,
}

/// A reading of a reading list.
#[derive(Clone, Debug, PartialEq)]
pub struct Reading {
    /// Its words, oldest first.
    pub words: Vec<i32>,
    /// What the list is ordered by.
    pub rank: f32,
    /// What it costs.
    pub cost: f32,
    /// The kept histories on its way.
    pub kept: usize,
    /// The token that it ends in.
    pub token: Token,
    /// Frames and segments, of the first `max` readings.
    pub path: Option<Path>,
}

/// How much output is lent: paths or readings, and words, words' frames and segments over all of them.
#[derive(Clone, Copy, Debug, PartialEq, Eq)]
pub struct Places {
    /// Paths or readings.
    pub entries: usize,
    /// Words.
    pub words: usize,
    /// Words' frames.
    pub frames: usize,
    /// Segments.
    pub segments: usize,
}

impl Places {
    /// With as many for words as for their frames.
    pub fn new(entries: usize, words: usize, segments: usize) -> Places {
        Places { entries, words, frames: words, segments }
    }
}

/// What the last read that was accepted wrote.
#[derive(Clone, Copy, Debug)]
enum Written {
    Nothing,
    Paths(usize),
    /// How many readings, and of how many frames and segments were asked for.
    Readings(usize, usize),
}

/// Lent output. What is too short for the whole answer is refused by 11, and then nothing is written.
#[derive(Clone, Debug)]
pub struct Output {
    written: Written,
    words: Vec<i32>,
    frames: Vec<u32>,
    segments: Vec<u32>,
    ends: Vec<u32>,
    numbers: Vec<u64>,
    costs: Vec<f32>,
}

impl Output {
    /// With so many places.
    pub fn new(p: Places) -> Output {
        Output {
            written: Written::Nothing,
            words: zeros(1, p.words),
            frames: zeros(1, p.frames),
            segments: zeros(3, p.segments),
            ends: zeros(2, p.entries),
            numbers: zeros(5, p.entries),
            costs: zeros(4, p.entries),
        }
    }

    fn segments(&self, r: Range<usize>) -> Vec<Segment> {
        let segment = |s: &[u32]| Segment { phone: s[0] as i32, start: s[1], end: s[2] };
        self.segments[3 * r.start..3 * r.end].chunks(3).map(segment).collect()
    }

    fn path(&self, words: Range<usize>, segments: Range<usize>, cost: f32) -> Path {
        Path { words: self.words[words.clone()].to_vec(), frames: self.frames[words].to_vec(), segments: self.segments(segments), cost }
    }

    /// The alternatives, where the last read into this output was of alternatives.
    pub fn paths(&self) -> Vec<Path> {
        let Written::Paths(n) = self.written else { return Vec::new() };
        let end = |i: usize, k: usize| if i == 0 { 0 } else { self.ends[2 * (i - 1) + k] as usize };
        (0..n).map(|i| self.path(end(i, 0)..end(i + 1, 0), end(i, 1)..end(i + 1, 1), self.costs[i])).collect()
    }

    /// The readings, where the last read into this output was a reading list.
    pub fn readings(&self) -> Vec<Reading> {
        let Written::Readings(n, traced) = self.written else { return Vec::new() };
        let end = |i: usize, k: usize| if i == 0 { 0 } else { self.numbers[5 * (i - 1) + k] as usize };
        let reading = |i: usize| {
            let (numbers, costs) = (&self.numbers[5 * i..], &self.costs[4 * i..]);
            let words = end(i, 0)..end(i + 1, 0);
            Reading {
                words: self.words[words.clone()].to_vec(),
                rank: costs[0],
                cost: costs[1],
                kept: numbers[2] as usize,
                token: Token { cost: costs[2], graph: costs[3], phone: numbers[3] as i32, seq: numbers[4] as u32 },
                path: (i < traced).then(|| self.path(words, end(i, 1)..end(i + 1, 1), costs[1])),
            }
        };
        (0..n).map(reading).collect()
    }
}

/// Places for the entries below joins and for kept readings, lent to `reading_list` alone. Too few are refused by 15.
pub struct KeptStores {
    pub(crate) entry_hashes: Vec<u64>,
    pub(crate) entry_nexts: Vec<u32>,
    pub(crate) entry_sums: Vec<f32>,
    pub(crate) kept_hashes: Vec<u64>,
    pub(crate) kept_links: Vec<u32>,
    pub(crate) kept_sums: Vec<f32>,
    pub(crate) order: Vec<u32>,
}

impl KeptStores {
    /// With so many places for entries below joins and for kept readings.
    pub fn new(entries: usize, kept: usize) -> KeptStores {
        let order = zeros(1, kept);
        // no more places than `order` has, which a call takes to be as long as they are
        let kept = order.len();
        KeptStores {
            entry_hashes: zeros(1, entries),
            entry_nexts: zeros(3, entries),
            entry_sums: zeros(2, entries),
            kept_hashes: zeros(1, kept),
            kept_links: zeros(4, kept),
            kept_sums: zeros(2, kept),
            order,
        }
    }

    /// Places for kept readings.
    fn places(&self) -> usize {
        self.kept_hashes.len().min(self.kept_links.len() / 4).min(self.kept_sums.len() / 2)
    }

    /// The manual's sizes: `listed` + 1 entries for each record, `listed` kept readings for each state. A `listed` above 64 is refused by 6, and needs none.
    pub fn of(d: &Decoder, listed: usize) -> KeptStores {
        if listed > MAX_LISTED {
            return KeptStores::new(0, 0);
        }
        KeptStores::new((listed + 1) * d.records_used(), listed * d.graph().states())
    }
}

impl Decoder {
    /// The best path, or none where no token counts. Refused only where there is no memory for it, by 11.
    pub fn best_path(&self, use_final: bool) -> Result<Option<Path>, Refusal> {
        grown(|out| self.best_path_into(use_final, out))
    }

    /// The best path by way of lent output. Refused by 11 where that is too short.
    pub fn best_path_into(&self, use_final: bool, out: &mut Output) -> Result<Option<Path>, Refusal> {
        let (s, t) = (&self.stores, self.graph().tables());
        let p = call!(hirqazhom_best_path []
            r s.tokens, r s.sums, r s.records, r s.labels, r t.finals, v self.value(), v use_final, w out.words, w out.frames, w out.segments,);
        Refusal::of_number(p.number)?;
        out.written = Written::Nothing;
        Ok(p.found.then(|| out.path(0..p.words as usize, 0..p.segments as usize, p.cost)))
    }

    /// The best path of each word list, best first, at most `max`. Refused by 6 where that is above 64.
    pub fn alternatives(&mut self, use_final: bool, max: usize) -> Result<Vec<Path>, Refusal> {
        grown(|out| self.alternatives_into(use_final, max, out).map(|_| out.paths()))
    }

    /// How many paths were written; `Output::paths` reads them. Refused by 11 where the output is too short.
    pub fn alternatives_into(&mut self, use_final: bool, max: usize, out: &mut Output) -> Result<usize, Refusal> {
        let (graph, value, s) = self.parts();
        let c = call!(hirqazhom_alternatives []
            r s.tokens, r s.sums, r s.records, r s.labels, r graph.tables().finals, v value, v use_final, v max, w s.keys, w s.places, w s.own, w s.history_keys,
            w s.history_skips, w out.words, w out.frames, w out.segments, w out.ends, w out.costs,);
        Refusal::of_number(c.number)?;
        out.written = Written::Paths(c.count as usize);
        Ok(c.count as usize)
    }

    /// Own groups and kept readings in one list, the first `max` of it with a path. Refused by 6 where `listed` or `max` is above 64.
    pub fn reading_list(&mut self, use_final: bool, listed: usize, max: usize) -> Result<Vec<Reading>, Refusal> {
        let mut kept = KeptStores::of(self, listed);
        grown(|out| self.reading_list_into(use_final, listed, max, &mut kept, out).map(|_| out.readings()))
    }

    /// How many readings were written; `Output::readings` reads them. Refused by 15 where `kept` has too few places, by 11 where the output is too short.
    pub fn reading_list_into(&mut self, use_final: bool, listed: usize, max: usize, kept: &mut KeptStores, out: &mut Output) -> Result<usize, Refusal> {
        let (graph, value, s) = self.parts();
        let (mut none, k) = (KeptStores::new(0, 0), kept.places());
        // without memory to list its readings the store counts as empty, which is refused by 15 where one is wanted
        let kept = if lengthened(&mut s.keys, k) && lengthened(&mut s.list, graph.states() + k) { kept } else { &mut none };
        let c = call!(hirqazhom_reading_list []
            r s.tokens, r s.sums, r s.records, r s.labels, r s.gaps, r graph.tables().finals, v value, v use_final, v listed, v max, w s.keys, w s.places, w s.own,
            w s.heads, w s.list, w s.lists, w s.route, w s.history_keys, w s.history_skips, w kept.entry_hashes, w kept.entry_nexts, w kept.entry_sums,
            w kept.kept_hashes, w kept.kept_links, w kept.kept_sums, w kept.order, w out.words, w out.frames, w out.segments, w out.numbers, w out.costs,);
        Refusal::of_number(c.number)?;
        out.written = Written::Readings(c.count as usize, max);
        Ok(c.count as usize)
    }
}

/// Whether the scratch has so many places, which it is given if there is memory for them.
fn lengthened<T: crate::Number>(scratch: &mut Vec<T>, places: usize) -> bool {
    if scratch.len() < places {
        let longer = zeros(1, places);
        if longer.len() < places {
            return false;
        }
        *scratch = longer;
    }
    true
}

/// Reads into more and more output, until nothing is refused by 11. After 2^32 times the first there is no memory for more.
fn grown<T>(mut read: impl FnMut(&mut Output) -> Result<T, Refusal>) -> Result<T, Refusal> {
    let mut answer = read(&mut Output::new(Places::new(64, 1024, 1024)));
    for doubled in 1..=32 {
        if !matches!(&answer, Err(why) if why.number == TOO_SHORT) {
            break;
        }
        answer = read(&mut Output::new(Places::new(64 << doubled, 1024 << doubled, 1024 << doubled)));
    }
    answer
}

/// The index, counted from 0, of the first reading that has the word, or none. Reading i is `words[ends[i - 1]..ends[i]]`, from 0 for the first. Refused by 11 where ends fall or pass the words.
///
/// ```
/// assert_eq!(hirqazhom::find(7, &[2, 3], &[5, 6, 7]), Ok(Some(1)));
/// assert_eq!(hirqazhom::find(7, &[1, 2, 3], &[5, 7, 7]), Ok(Some(1)));
/// assert_eq!(hirqazhom::find(8, &[2, 3], &[5, 6, 7]), Ok(None));
/// assert_eq!(hirqazhom::find(7, &[2, 4], &[5, 6, 7]).unwrap_err().number, 11);
/// ```
pub fn find(word: i32, ends: &[u32], words: &[i32]) -> Result<Option<usize>, Refusal> {
    let i = call!(hirqazhom_find [] v word, r ends, r words,);
    Refusal::of_number(i.number)?;
    Ok(i.found.then_some(i.index as usize))
}
