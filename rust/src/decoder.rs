//! The decoder with its graph and stores.
use crate::constants::MAX_RECORDS;
use crate::ffi::{Answer, Value};
use crate::{zeros, Config, Graph, KeptStores, Refusal};
use std::fmt;
use std::sync::Arc;

/// How much is lent. A store that is too small is refused by its number: 6 for states, 13 for records, 14 for the queue.
#[derive(Clone, Copy, Debug, PartialEq, Eq)]
pub struct Lengths {
    /// As many as the graph has, or more.
    pub states: usize,
    /// Places for records: about twice the live ones that you expect; at most 1,048,576, else 6. With none no frame is heard: a path's first phone wants a record.
    pub records: usize,
    /// Places of the epsilon queue.
    pub queue: usize,
}

impl Lengths {
    /// For this graph, with a queue that suffices as long as there is no margin. With one a call may be refused by 14; then fit with a longer queue.
    pub fn of(graph: &Graph, records: usize) -> Lengths {
        Lengths { states: graph.states(), records, queue: graph.queue_places() }
    }

    /// Of the stores, without graph and output.
    pub fn bytes(&self) -> usize {
        let parts = [(77, self.states), (84, self.records), (4, self.queue)];
        parts.iter().fold(0usize, |sum, (each, places)| sum.saturating_add(places.saturating_mul(*each)))
    }
}

/// What a fitting gives.
#[allow(clippy::large_enum_variant)] // it is taken apart at once
#[derive(Debug)]
#[must_use]
pub enum Fitted {
    /// A decoder after its start.
    Done(Decoder),
    /// A decoder whose own start was refused by 13 or 14: it has no token until a start is accepted.
    Refused(Decoder, Refusal),
    /// No decoder: refused by 1 to 6.
    Unfit(Refusal),
}

impl Fitted {
    /// The decoder, if its start was accepted too; else why not.
    pub fn started(self) -> Result<Decoder, Refusal> {
        match self {
            Fitted::Done(decoder) => Ok(decoder),
            Fitted::Refused(_, why) | Fitted::Unfit(why) => Err(why),
        }
    }
}

/// A fitted decoder. Its stores are its own, as the last call left them.
pub struct Decoder {
    graph: Arc<Graph>,
    value: Value,
    pub(crate) stores: Stores,
}

impl fmt::Debug for Decoder {
    fn fmt(&self, f: &mut fmt::Formatter<'_>) -> fmt::Result {
        f.debug_struct("Decoder").field("value", &self.value).finish_non_exhaustive()
    }
}

/// What is lent per state and per record, and the queue.
pub(crate) struct Stores {
    pub tokens: Vec<u32>,
    pub sums: Vec<f32>,
    pub eps: Vec<u8>,
    pub scratch: Vec<f32>,
    pub keys: Vec<u64>,
    pub places: Vec<u32>,
    pub own: Vec<u32>,
    pub heads: Vec<u32>,
    pub list: Vec<u32>,
    pub records: Vec<u32>,
    pub labels: Vec<i32>,
    pub gaps: Vec<f32>,
    pub lists: Vec<u32>,
    pub route: Vec<u32>,
    pub history_keys: Vec<u64>,
    pub history_skips: Vec<u32>,
    pub queue: Vec<u32>,
}

impl Stores {
    fn new(n: Lengths) -> Stores {
        Stores {
            tokens: zeros(8, n.states),
            sums: zeros(4, n.states),
            eps: zeros(1, n.states),
            scratch: zeros(1, n.states),
            keys: zeros(1, n.states),
            places: zeros(1, n.states),
            own: zeros(1, n.states),
            heads: zeros(1, n.states),
            list: zeros(1, n.states),
            records: zeros(8, n.records),
            labels: zeros(2, n.records),
            gaps: zeros(2, n.records),
            lists: zeros(2, n.records),
            route: zeros(1, n.records),
            history_keys: zeros(2, n.records),
            history_skips: zeros(2, n.records),
            queue: zeros(1, n.queue),
        }
    }
}

impl Decoder {
    /// A new decoder without margin, after its start.
    ///
    /// ```
    /// use hirqazhom::{Config, Decoder, Fitted, Graph, Lengths, Tables, NO_STATE};
    ///
    /// let nothing = Graph::new(Tables { offsets: vec![0], start: NO_STATE, ..Tables::default() })?;
    /// let none = Lengths { states: 0, records: 0, queue: 0 };
    /// let config = Config { beam: 8.0, max_active: 100, min_active: 0, beam_delta: 0.5 };
    ///
    /// // Settings are judged by 6: a `max_active` that is not above `min_active`.
    /// let nothing = std::sync::Arc::new(nothing);
    /// let Fitted::Unfit(why) = Decoder::fit(nothing.clone(), Config { max_active: 0, ..config }, none) else { panic!() };
    /// assert_eq!(why.number, 6);
    ///
    /// // A graph without a start is fitted, and nothing is heard.
    /// let decoder = Decoder::fit(nothing, config, none).started()?;
    /// assert_eq!((decoder.num_active(), decoder.best_path(false)?), (0, None));
    /// # Ok::<(), hirqazhom::Refusal>(())
    /// ```
    pub fn fit(graph: Arc<Graph>, config: Config, lengths: Lengths) -> Fitted {
        // one record more than the most is enough for a 6, whatever the memory
        let mut s = Stores::new(Lengths { records: lengths.records.min(MAX_RECORDS + 1), ..lengths });
        let t = graph.tables();
        // a reading list brings the store for its kept readings, and lengthens `keys` and `list` to it
        let kept = KeptStores::new(0, 0);
        let a = call!(hirqazhom_fit []
            w s.tokens, w s.sums, w s.records, w s.labels, w s.gaps, w s.queue, r s.scratch, r s.keys, r s.places, r s.own, r s.heads, r s.list, r s.lists, r s.route,
            r s.history_keys, r s.history_skips, r kept.kept_hashes, r kept.kept_links, r kept.kept_sums, r kept.order, w s.eps, r t.offsets, r t.ilabels, r t.olabels,
            r t.weights, r t.nextstates, r t.finals, r t.tid2pdf, r t.tid2phone, v t.start, v t.pdfs, v config,);
        let decoder = Decoder { graph, value: a.decoder, stores: s };
        match Refusal::of(a.verdict) {
            Ok(()) => Fitted::Done(decoder),
            Err(why) if a.fitted => Fitted::Refused(decoder, why),
            Err(why) => Fitted::Unfit(why),
        }
    }

    fn go_on(&mut self, a: Answer) -> Result<(), Refusal> {
        self.value = a.decoder;
        Refusal::of(a.verdict)
    }

    /// Drops all tokens and records: zero frames, and the same margin. Refused by 13 or 14: so too, but without a token.
    pub fn start(&mut self) -> Result<(), Refusal> {
        let (s, t) = (&mut self.stores, self.graph.tables());
        let a = call!(hirqazhom_start []
            w s.tokens, w s.sums, w s.records, w s.labels, w s.gaps, w s.queue, r s.eps, r t.offsets, r t.ilabels, r t.olabels, r t.weights, r t.nextstates,
            r t.tid2pdf, r t.tid2phone, v self.value,);
        self.go_on(a)
    }

    /// One log-likelihood for each pdf. Refused by 8 to 10 and 12 to 14; a refused frame changes no later answer.
    pub fn frame(&mut self, loglikes: &[f32]) -> Result<(), Refusal> {
        let (s, t) = (&mut self.stores, self.graph.tables());
        let a = call!(hirqazhom_frame []
            w s.tokens, w s.sums, w s.records, w s.labels, w s.gaps, w s.queue, w s.scratch, r s.eps, r t.offsets, r t.ilabels, r t.olabels, r t.weights,
            r t.nextstates, r t.tid2pdf, r t.tid2phone, r loglikes, v self.value,);
        self.go_on(a)
    }

    /// The keep margin, or none. Refused by 6, and then it is as it was.
    pub fn set_keep(&mut self, margin: Option<f32>) -> Result<(), Refusal> {
        let (keeps, margin) = (margin.is_some(), margin.unwrap_or(0.0));
        let a = call!(hirqazhom_set_keep [] v self.value, v keeps, v margin,);
        self.go_on(a)
    }

    /// Frames since the start.
    pub fn frames_decoded(&self) -> u32 {
        call!(hirqazhom_frames_decoded [] v self.value,)
    }

    /// How many tokens are active.
    pub fn num_active(&self) -> u32 {
        call!(hirqazhom_num_active [] r self.stores.tokens, v self.value,)
    }

    /// The least sum of cost and final weight, less the least cost; +∞ where no active state is final.
    pub fn final_relative_cost(&self) -> f32 {
        call!(hirqazhom_final_relative_cost [] r self.stores.tokens, r self.stores.sums, r self.graph.tables().finals, v self.value,)
    }

    /// Records in use, dead ones too.
    pub fn records_used(&self) -> usize {
        self.value.used as usize
    }

    /// The graph.
    pub fn graph(&self) -> &Graph {
        &self.graph
    }

    /// The parts that a read lends: the graph, the decoder's value and the stores.
    pub(crate) fn parts(&mut self) -> (&Graph, Value, &mut Stores) {
        (&self.graph, self.value, &mut self.stores)
    }

    pub(crate) fn value(&self) -> Value {
        self.value
    }
}
