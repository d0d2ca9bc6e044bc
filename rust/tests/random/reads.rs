//! What every path and every reading list has to be, by the manual.
use crate::calls::Asked;
use crate::common::refusal;
use crate::paths::{has_path, Sought};
use hirqazhom::{Decoder, Path, Place, Reading, Refusal};
use std::collections::HashSet;

/// Whether finals count: where they are asked for and some active state is final.
fn finals_count(d: &Decoder, asked: bool) -> bool {
    asked && d.final_relative_cost().is_finite()
}

fn by_6() -> Refusal {
    refusal(6, Place::Nowhere)
}

/// A frame for each word; they do not fall, and are below the frames decoded, 0 where there are none.
fn frames_are_right(p: &Path, decoded: u32) {
    assert_eq!(p.frames.len(), p.words.len());
    assert!(p.frames.is_sorted() && p.frames.iter().all(|&f| f < decoded.max(1)), "{:?}", p.frames);
}

/// Nonempty segments from 0 to the frames decoded, each in another phone than the one before.
fn segments_tile(p: &Path, decoded: u32) {
    let ends: Vec<u32> = p.segments.iter().map(|s| s.end).collect();
    let starts: Vec<u32> = p.segments.iter().map(|s| s.start).collect();
    assert!(p.segments.iter().all(|s| s.start < s.end), "{:?}", p.segments);
    assert_eq!([&[0], &ends[..]].concat(), [&starts[..], &[decoded]].concat());
    assert!(p.segments.windows(2).all(|s| s[0].phone != s[1].phone), "{:?}", p.segments);
}

/// Some path of the graph has these words, frames and, where they are asked for, phones.
fn is_of_the_graph(d: &Decoder, finals: bool, p: &Path, phones: bool) {
    frames_are_right(p, d.frames_decoded());
    let sought = Sought { words: &p.words, frames: &p.frames, segments: phones.then_some(&p.segments) };
    assert!(has_path(d.graph().tables(), &sought, d.frames_decoded(), finals_count(d, finals)), "the graph has no path {p:?}");
}

/// The path of a token, all of whose phones are known.
fn own_path_is_right(d: &Decoder, finals: bool, p: &Path) {
    segments_tile(p, d.frames_decoded());
    is_of_the_graph(d, finals, p, true);
}

pub fn best_is_right(d: &Decoder, finals: bool, given: &Result<Option<Path>, Refusal>) {
    let given = given.as_ref().expect("the output is enough");
    assert_eq!(given.is_none(), d.num_active() == 0);
    if let Some(p) = given {
        own_path_is_right(d, finals, p);
    }
}

fn all_differ<'a>(words: impl Iterator<Item = &'a Vec<i32>>) -> bool {
    let mut seen = HashSet::new();
    words.into_iter().all(|w| seen.insert(w))
}

pub fn paths_are_right(d: &Decoder, asked: &Asked, given: &Result<Vec<Path>, Refusal>) {
    if asked.max > 64 {
        return assert_eq!(*given, Err(by_6()));
    }
    let paths = given.as_ref().expect("the output is enough");
    assert!(paths.len() <= asked.max.min(d.num_active() as usize));
    assert!(all_differ(paths.iter().map(|p| &p.words)), "{paths:?}");
    // Without finals the rank is the cost.
    assert!(finals_count(d, asked.finals) || paths.is_sorted_by(|p, q| p.cost <= q.cost), "{paths:?}");
    for p in paths {
        own_path_is_right(d, asked.finals, p);
    }
    let best = d.best_path(asked.finals).expect("the output is enough").filter(|_| asked.max > 0);
    assert_eq!(paths.first(), best.as_ref());
}

/// Rank, an own group before a kept reading, the larger seq, then the words.
fn in_order(a: &Reading, b: &Reading) -> bool {
    let key = |r: &Reading| (r.kept > 0, u32::MAX - r.token.seq, r.words.clone());
    a.rank < b.rank || (a.rank == b.rank && key(a) < key(b))
}

pub fn readings_are_right(d: &mut Decoder, margin: bool, asked: &Asked, given: &Result<Vec<Reading>, Refusal>) {
    if asked.listed > 64 || asked.max > 64 {
        return assert_eq!(*given, Err(by_6()));
    }
    let mut list = d.reading_list(asked.finals, asked.listed, 64).expect("all that is lent is enough");
    let own = d.alternatives(asked.finals, 64).expect("the output is enough");
    if margin && asked.listed > 0 {
        assert!(list.len() <= (asked.listed + 1) * d.graph().states());
    } else {
        assert!(list.iter().map(|r| &r.words).eq(own.iter().map(|p| &p.words)) && list.iter().all(|r| r.kept == 0));
    }
    assert_eq!(list.first().and_then(|r| r.path.as_ref()), own.first());
    assert!(all_differ(list.iter().map(|r| &r.words)), "{list:?}");
    // With finals a kept reading may rank below the first, which is the best token's.
    let first = usize::from(finals_count(d, asked.finals)).min(list.len());
    assert!(list[first..].is_sorted_by(in_order), "{list:?}");
    for (i, r) in list.iter().enumerate() {
        assert_eq!(r.path.is_some(), i < 64);
        reading_is_right(d, asked.finals, r);
    }
    // What is not asked for is not traced, and else it is the same list.
    list.iter_mut().skip(asked.max).for_each(|r| r.path = None);
    assert_eq!(given.as_ref(), Ok(&list));
}

fn reading_is_right(d: &Decoder, finals: bool, r: &Reading) {
    let count = finals_count(d, finals);
    assert!(count || r.rank == r.cost, "{r:?}");
    assert!(count || r.kept > 0 || r.cost == r.token.cost, "{r:?}");
    assert_eq!(r.token.phone == 0, d.frames_decoded() == 0);
    let Some(p) = &r.path else { return };
    assert_eq!((&p.words, p.cost), (&r.words, r.cost));
    if r.kept == 0 {
        assert_eq!(p.segments.last().map_or(0, |s| s.phone), r.token.phone);
        return own_path_is_right(d, finals, p);
    }
    is_of_the_graph(d, finals, p, false);
}
