//! What every call may answer, by the manual.
use crate::calls::{Answer, Asked, Call, Lent};
use crate::common::{refusal, HUGE};
use crate::graphs::fair;
use crate::reads::{best_is_right, paths_are_right, readings_are_right};
use hirqazhom::{Decoder, Graph, Lengths, Path, Place, Places, Reading, Refusal, NO_STATE};

fn any_large(numbers: &[f32]) -> bool {
    numbers.iter().any(|x| x.abs() > HUGE / 16.0)
}

/// What is known of a decoder from its calls.
pub struct Past {
    frames: u32,
    margin: bool,
    /// Some arc, or some frame since the start, has a large number: without one no total and no sum can be huge.
    large: bool,
    lengths: Lengths,
    /// Places of the queue that are enough without a margin, and with one.
    enough: (usize, usize),
}

impl Past {
    pub fn new(lengths: Lengths, graph: &Graph) -> Past {
        Past { frames: 0, margin: false, large: false, lengths, enough: (graph.queue_places(), graph.queue_places_with_margin()) }
    }

    /// After a start, refused or not.
    pub fn started(&mut self, d: &Decoder, refused: Option<Refusal>) {
        self.frames = 0;
        self.large = any_large(&d.graph().tables().weights);
        assert_eq!(d.num_active() == 0, refused.is_some() || d.graph().tables().start == NO_STATE);
        if let Some(why) = refused {
            assert_eq!(why.place, Place::Nowhere);
            self.store_full(why);
        }
    }

    /// 13 or 14, and 14 only where the queue is shorter than what the manual says is enough.
    fn store_full(&self, why: Refusal) {
        let enough = if self.margin { self.enough.1 } else { self.enough.0 };
        assert!(why.number == 13 || (why.number == 14 && self.lengths.queue < enough), "{why}");
    }

    fn heard(&mut self, d: &Decoder, loglikes: &[f32], given: Result<(), Refusal>) {
        let number = given.map_or_else(|why| why.number, |()| 0);
        if loglikes.len() != d.graph().tables().pdfs as usize {
            assert_eq!(number, 8);
        } else if !loglikes.iter().all(|x| x.abs() < HUGE) {
            assert_eq!(number, 9);
        } else if number == 12 {
            assert!(self.large || any_large(loglikes), "12, and no number is large");
        } else if let Err(why) = given {
            self.store_full(why);
        }
        match given {
            Ok(()) => (self.frames, self.large) = (self.frames + 1, self.large || any_large(loglikes)),
            Err(why) => assert_eq!(why.place, Place::Frames(self.frames)),
        }
    }

    fn kept(&mut self, margin: Option<f32>, given: Result<(), Refusal>) {
        let accepted = margin.is_none_or(fair);
        assert_eq!(given, if accepted { Ok(()) } else { Err(refusal(6, Place::Nowhere)) });
        if accepted {
            self.margin = margin.is_some();
        }
    }
}

/// What an answer of so many entries needs, with all its words, and of its traced paths frames and segments.
fn needed<'a>(entries: usize, words: usize, traced: impl Iterator<Item = &'a Path> + Clone) -> Places {
    Places { entries, words, frames: traced.clone().map(|p| p.frames.len()).sum(), segments: traced.map(|p| p.segments.len()).sum() }
}

/// The answer with these places, where with enough of them it is `whole`: that, or 11 where one is too short.
fn within<T>(whole: Result<T, Refusal>, lent: &Option<Places>, need: impl Fn(&T) -> Places) -> Result<T, Refusal> {
    let whole = whole?;
    let short = |lent: &Places, need: Places| lent.entries < need.entries || lent.words < need.words || lent.frames < need.frames || lent.segments < need.segments;
    match lent {
        Some(lent) if short(lent, need(&whole)) => Err(refusal(11, Place::Nowhere)),
        _ => Ok(whole),
    }
}

fn check_readings(past: &Past, d: &mut Decoder, asked: &Asked, lent: &Option<Lent>, given: &Result<Vec<Reading>, Refusal>) {
    let whole = d.reading_list(asked.finals, asked.listed, asked.max);
    readings_are_right(d, past.margin, asked, &whole);
    let words = |all: &[Reading]| all.iter().map(|r| r.words.len()).sum();
    let need = |all: &Vec<Reading>| needed(all.len(), words(all), all.iter().filter_map(|r| r.path.as_ref()));
    if let (Some(lent), Err(Refusal { number: 15, place: Place::Nowhere })) = (lent, given) {
        let enough = ((asked.listed + 1) * d.records_used(), asked.listed * d.graph().states());
        assert!(past.margin && whole.is_ok() && (lent.entries < enough.0 || lent.kept < enough.1));
    } else {
        assert_eq!(*given, within(whole, &lent.map(|l| l.places), need));
    }
}

/// The answer is one that the call may give.
pub fn check(past: &mut Past, d: &mut Decoder, call: &Call, given: &Answer) {
    match (call, given) {
        (Call::Start, Answer::Done(given)) => past.started(d, given.err()),
        (Call::Frame(loglikes), Answer::Done(given)) => past.heard(d, loglikes, *given),
        (Call::Keep(margin), Answer::Done(given)) => past.kept(*margin, *given),
        (Call::Best(finals, lent), Answer::Best(given)) => {
            let whole = d.best_path(*finals);
            best_is_right(d, *finals, &whole);
            assert_eq!(*given, within(whole, lent, |p| needed(0, p.iter().map(|p| p.words.len()).sum(), p.iter())));
        }
        (Call::Alternatives(asked, lent), Answer::Paths(given)) => {
            let whole = d.alternatives(asked.finals, asked.max);
            paths_are_right(d, asked, &whole);
            assert_eq!(*given, within(whole, lent, |all| needed(all.len(), all.iter().map(|p| p.words.len()).sum(), all.iter())));
        }
        (Call::Readings(asked, lent), Answer::Readings(given)) => check_readings(past, d, asked, lent, given),
        _ => panic!("{given:?} is no answer to {call:?}"),
    }
    assert_eq!(d.frames_decoded(), past.frames);
    assert!(d.num_active() as usize <= d.graph().states() && d.records_used() <= past.lengths.records);
}
