//! Graphs that the builder has accepted.
use crate::Refusal;

/// A graph in slices, as a caller brings it.
#[derive(Clone, Debug, Default)]
pub struct Tables {
    /// Where each state's arcs begin, and the number of arcs: one more than there are states.
    pub offsets: Vec<u32>,
    /// Of each arc its transition id, or 0 on an epsilon arc.
    pub ilabels: Vec<i32>,
    /// Of each arc its word, or 0.
    pub olabels: Vec<i32>,
    /// Of each arc its weight.
    pub weights: Vec<f32>,
    /// Of each arc the state that it leads to.
    pub nextstates: Vec<u32>,
    /// Of each state its final weight; +∞ is "not final".
    pub finals: Vec<f32>,
    /// Of each transition id its pdf. Entry 0 is not used.
    pub tid2pdf: Vec<i32>,
    /// Of each transition id its phone. Entry 0 is not used.
    pub tid2phone: Vec<i32>,
    /// The start state, or [`NO_STATE`](crate::NO_STATE).
    pub start: u32,
    /// How many log-likelihoods a frame has.
    pub pdfs: u32,
}

/// A graph that was accepted, and that nobody writes any more. Decoders and threads may share it.
#[derive(Debug)]
pub struct Graph(Tables);

impl Graph {
    /// Refused by 1 to 5, with the arc or the state.
    ///
    /// ```
    /// use hirqazhom::{Graph, Place, Refusal, Tables};
    ///
    /// // An arc from state 0 to state 9, which is none.
    /// let tables = Tables {
    ///     offsets: vec![0, 1],
    ///     ilabels: vec![0],
    ///     olabels: vec![0],
    ///     weights: vec![0.0],
    ///     nextstates: vec![9],
    ///     finals: vec![0.0],
    ///     ..Tables::default()
    /// };
    /// assert_eq!(Graph::new(tables).unwrap_err(), Refusal { number: 2, place: Place::Arc { state: 0, arc: 0 } });
    /// ```
    pub fn new(t: Tables) -> Result<Graph, Refusal> {
        Refusal::of(call!(hirqazhom_build []
            r t.offsets, r t.ilabels, r t.olabels, r t.weights, r t.nextstates, r t.finals, r t.tid2pdf, r t.tid2phone, v t.start, v t.pdfs,))?;
        Ok(Graph(t))
    }

    /// The slices.
    pub fn tables(&self) -> &Tables {
        &self.0
    }

    /// How many states it has.
    pub fn states(&self) -> usize {
        self.0.finals.len()
    }

    /// How many states have epsilon arcs, and how many such arcs there are.
    fn epsilons(&self) -> (usize, usize) {
        let t = &self.0;
        let arcs = |s: usize| (t.offsets[s]..t.offsets[s + 1]).filter(|&a| t.ilabels[a as usize] == 0).count();
        (0..self.states()).map(arcs).filter(|&n| n > 0).fold((0, 0), |(s, a), n| (s + 1, a + n))
    }

    /// Places of the queue that suffice without a margin (the manual's s + a, for s states with epsilon arcs and a such arcs).
    pub fn queue_places(&self) -> usize {
        let (states, arcs) = self.epsilons();
        states + arcs
    }

    /// Places of the queue that suffice whatever the margin (the manual's s + (s + 1)·a), which grows with the product of both.
    pub fn queue_places_with_margin(&self) -> usize {
        let (states, arcs) = self.epsilons();
        states + (states + 1) * arcs
    }
}
