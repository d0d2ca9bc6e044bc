//! Runs a script against one of the decoder copies and judges the refusals of document 01.
use crate::courses;
use crate::fst::{Arc, State, VectorFst, NO_STATE};
use crate::lines;
use crate::rt;
use crate::script::*;
use crate::shuffle;
use crate::silence::SilenceWeighting;

/// A script that calls on what is not there, or whose record is misshapen.
pub const SCRIPT_ERROR: u32 = u32::MAX;

#[derive(Clone, Debug, Default)]
pub struct PathOut {
    pub cost: f32,
    pub words: Vec<i32>,
    pub word_frames: Vec<usize>,
    pub phones: Vec<(i32, usize, usize)>,
}

#[derive(Clone, Debug)]
pub struct GroupOut {
    pub words: Vec<i32>,
    pub rank: f32,
    pub cost: f32,
    pub route: usize,
    /// The token's cost, graph, phone and seq.
    pub token: (f32, f32, i32, u32),
}

pub trait Dec {
    fn start(&mut self) -> u32;
    fn frame(&mut self, l: &[f32]) -> u32;
    fn keep(&mut self, m: Option<f32>);
    fn best(&self, fin: bool) -> Option<PathOut>;
    fn alternatives(&self, fin: bool, max: usize) -> Vec<PathOut>;
    fn readings(&self, fin: bool, listed: usize, max: usize) -> (Vec<GroupOut>, Vec<PathOut>);
    fn relative(&self) -> f32;
    fn active(&self) -> usize;
    fn frames(&self) -> usize;
    fn reached(&mut self) -> Option<(usize, usize)> {
        None
    }
    fn odd(&self) -> bool {
        false
    }
}

macro_rules! dec {
    ($m:ident, $name:ident, $start:expr, $frame:expr, {$($extra:tt)*}) => {
        pub struct $name(pub crate::$m::Decoder<'static>);
        impl Dec for $name {
            fn start(&mut self) -> u32 { $start(&mut self.0) }
            fn frame(&mut self, l: &[f32]) -> u32 { $frame(&mut self.0, l) }
            fn keep(&mut self, m: Option<f32>) { self.0.set_keep(m) }
            fn best(&self, fin: bool) -> Option<PathOut> {
                self.0.best_path(fin).map(|p| path!(p))
            }
            fn alternatives(&self, fin: bool, max: usize) -> Vec<PathOut> {
                self.0.alternatives(fin, max).into_iter().map(|p| path!(p)).collect()
            }
            fn readings(&self, fin: bool, listed: usize, max: usize) -> (Vec<GroupOut>, Vec<PathOut>) {
                let g = self.0.readings(fin, listed);
                let p = self.0.trace_groups(&g, max).into_iter().map(|p| path!(p)).collect();
                let g = g.into_iter().map(|g| GroupOut {
                    words: g.words, rank: g.rank, cost: g.cost, route: g.route.len(),
                    token: (g.token.cost, g.token.graph, g.token.phone, g.token.seq),
                }).collect();
                (g, p)
            }
            fn relative(&self) -> f32 { self.0.final_relative_cost() }
            fn active(&self) -> usize { self.0.num_active() }
            fn frames(&self) -> usize { self.0.num_frames_decoded() }
            $($extra)*
        }
    };
}
macro_rules! path {
    ($p:ident) => {
        PathOut {
            cost: $p.cost,
            words: $p.words,
            word_frames: $p.word_frames,
            phones: $p.phones.iter().map(|s| (s.phone, s.start, s.end)).collect(),
        }
    };
}
dec!(plain, Plain, |d: &mut crate::plain::Decoder<'_>| { d.init_decoding(); 0 },
    |d: &mut crate::plain::Decoder<'_>, l: &[f32]| { d.advance_frame(l); 0 }, {});
dec!(asc, Asc, |d: &mut crate::asc::Decoder<'_>| { d.init_decoding(); 0 },
    |d: &mut crate::asc::Decoder<'_>, l: &[f32]| { d.advance_frame(l); 0 }, {});
dec!(refusing, Refusing, |d: &mut crate::refusing::Decoder<'_>| d.try_start(),
    |d: &mut crate::refusing::Decoder<'_>, l: &[f32]| d.try_frame(l), {
        fn reached(&mut self) -> Option<(usize, usize)> { Some(self.0.reached()) }
        fn odd(&self) -> bool { self.0.odd_number() }
    });

/// A refusal: its number, then the words of its place (a state and an arc within it, a state, the
/// frames decoded, or none).
pub struct No(pub Vec<u32>);

impl From<u32> for No {
    fn from(n: u32) -> No {
        No(vec![n])
    }
}

#[derive(Clone, Copy, PartialEq, Debug)]
pub enum Mode {
    /// The seed as it is; 12 to 15 are not judged.
    Plain,
    /// StateMap ascending; 12 to 15 are not judged.
    Asc,
    /// StateMap ascending, 12 to 15 judged.
    Refusing,
}

/// Refusals 1 to 5.
pub fn check_graph(g: &Raw) -> Result<(), No> {
    let (n, m) = (g.finals.len(), g.ilabels.len());
    let offsets_run = g.offsets.first() == Some(&0)
        && g.offsets.last().map(|&e| e as usize) == Some(m)
        && g.offsets.windows(2).all(|p| p[0] <= p[1]);
    if n > 65_535
        || m > 1_048_576
        || g.pdfs.len() > 65_537
        || g.phones.len() > 65_537
        || g.offsets.len() != n + 1
        || g.olabels.len() != m
        || g.weights.len() != m
        || g.targets.len() != m
        || !offsets_run
    {
        return Err(1.into());
    }
    if g.start != NO_STATE && g.start as usize >= n {
        return Err(2.into());
    }
    for s in 0..n {
        for a in g.offsets[s]..g.offsets[s + 1] {
            let number = check_arc(g, a as usize);
            if number != 0 {
                return Err(No(vec![number, s as u32, a - g.offsets[s]]));
            }
        }
    }
    match g.finals.iter().position(|&w| w != f32::INFINITY && !rt::in_range(w)) {
        Some(s) => Err(No(vec![5, s as u32])),
        None => Ok(()),
    }
}

/// The lowest of 2 to 5 that an arc meets, or 0.
fn check_arc(g: &Raw, a: usize) -> u32 {
    let (l, w) = (g.ilabels[a], g.weights[a]);
    if g.targets[a] as usize >= g.finals.len() {
        return 2;
    }
    if l < 0 {
        return 3;
    }
    if l != 0 {
        let l = l as usize;
        if l >= g.pdfs.len() || l >= g.phones.len() || g.pdfs[l] < 0 || g.pdfs[l] as u32 >= g.npdf {
            return 3;
        }
        if g.phones[l] < 1 {
            return 4;
        }
    }
    if !rt::in_range(w) || (l == 0 && w < 0.0) { 5 } else { 0 }
}

#[derive(Clone, Debug)]
pub struct Fit {
    pub beam: f32,
    pub max: u32,
    pub min: u32,
    pub delta: f32,
    pub places: u32,
    pub records: u32,
    pub queue: u32,
    pub below: u32,
    pub kept: u32,
}
pub const NO_LIMIT: u32 = u32::MAX;
pub const MAX_RECORDS: u32 = 1_048_576;

impl Fit {
    pub fn rec(&self) -> Rec {
        rec(FIT, &[self.beam.to_bits(), self.max, self.min, self.delta.to_bits(), self.places,
            self.records, self.queue, self.below, self.kept])
    }
    pub fn from_words(w: &[u32]) -> Option<Fit> {
        if w.len() < 4 || w.len() > 9 {
            return None;
        }
        let at = |i: usize, d: u32| w.get(i).copied().unwrap_or(d);
        Some(Fit {
            beam: f32::from_bits(w[0]),
            max: w[1],
            min: w[2],
            delta: f32::from_bits(w[3]),
            places: at(4, NO_LIMIT),
            records: at(5, MAX_RECORDS),
            queue: at(6, NO_LIMIT),
            below: at(7, NO_LIMIT),
            kept: at(8, NO_LIMIT),
        })
    }
}

/// A beam, a beam_delta or a keep margin.
pub fn check_width(x: f32) -> u32 {
    if x < 0.0 || !rt::in_range(x) { 6 } else { 0 }
}

pub struct Driver {
    pub mode: Mode,
    /// Give the token's cost, graph sum, phone and seq with each reading (off where copies are
    /// compared whose seq may differ).
    pub tokens: bool,
    graph: Option<(std::sync::Arc<VectorFst>, &'static [i32], &'static [i32], u32)>,
    fit: Option<Fit>,
    pub dec: Option<Box<dyn Dec>>,
    silence: Option<(SilenceWeighting, usize, usize)>,
    pub read_peak: (usize, usize),
}

fn cap(w: &[u32], i: usize) -> usize {
    w.get(i).map_or(usize::MAX, |&c| if c == NO_LIMIT { usize::MAX } else { c as usize })
}

/// Whether the sizes from `i` on, of words, word frames and segments, are too small.
fn too_long(w: &[u32], i: usize, words: &[usize], paths: &[PathOut]) -> bool {
    words.iter().sum::<usize>() > cap(w, i)
        || paths.iter().map(|p| p.word_frames.len()).sum::<usize>() > cap(w, i + 1)
        || paths.iter().map(|p| p.phones.len()).sum::<usize>() > cap(w, i + 2)
}

fn put_path(a: &mut Answer, p: &PathOut) {
    a.f(p.cost).u(p.words.len());
    for (w, f) in p.words.iter().zip(&p.word_frames) {
        a.i(*w).u(*f);
    }
    a.u(p.phones.len());
    for s in &p.phones {
        a.i(s.0).u(s.1).u(s.2);
    }
}

impl Driver {
    pub fn new(mode: Mode) -> Driver {
        Driver { mode, tokens: true, graph: None, fit: None, dec: None, silence: None, read_peak: (0, 0) }
    }

    pub fn run(&mut self, script: &[Rec]) -> Vec<Answer> {
        script.iter().map(|r| self.call(r)).collect()
    }

    pub fn call(&mut self, r: &Rec) -> Answer {
        self.try_call(r).unwrap_or_else(|no| {
            let mut a = Answer::new(r.kind, no.0[0]);
            for &w in &no.0[1..] {
                a.u(w as usize);
            }
            a
        })
    }

    fn try_call(&mut self, r: &Rec) -> Result<Answer, No> {
        let w = &r.words[..];
        let mut a = Answer::new(r.kind, 0);
        let ok = |n: u32| if n == 0 { Ok(()) } else { Err(n) };
        let shape = |fits: bool| if fits { Ok(()) } else { Err(SCRIPT_ERROR) };
        match r.kind {
            GRAPH => {
                let g = Raw::from_words(w).ok_or(SCRIPT_ERROR)?;
                check_graph(&g)?;
                let states = (0..g.finals.len())
                    .map(|s| State {
                        final_weight: g.finals[s],
                        arcs: (g.offsets[s] as usize..g.offsets[s + 1] as usize)
                            .map(|i| Arc {
                                ilabel: g.ilabels[i],
                                olabel: g.olabels[i],
                                weight: g.weights[i],
                                nextstate: g.targets[i],
                            })
                            .collect(),
                    })
                    .collect();
                self.dec = None;
                self.fit = None;
                self.graph = Some((
                    std::sync::Arc::new(VectorFst { start: g.start, states }),
                    Box::leak(g.pdfs.into_boxed_slice()),
                    Box::leak(g.phones.into_boxed_slice()),
                    g.npdf,
                ));
            }
            FIT => {
                let f = Fit::from_words(w).ok_or(SCRIPT_ERROR)?;
                let (fst, pdfs, phones, _) = self.graph.as_ref().ok_or(SCRIPT_ERROR)?;
                ok(check_width(f.beam))?;
                ok(check_width(f.delta))?;
                if f.min >= f.max || (f.places as usize) < fst.states.len() || f.records > MAX_RECORDS {
                    return Err(6.into());
                }
                self.dec = None;
                macro_rules! make {
                    ($m:ident) => {
                        crate::$m::Decoder::new(fst.clone(), pdfs, phones, crate::$m::DecoderConfig {
                            beam: f.beam,
                            max_active: f.max as usize,
                            min_active: f.min as usize,
                            beam_delta: f.delta,
                        })
                    };
                }
                let mut started = 0;
                self.dec = Some(match self.mode {
                    Mode::Plain => Box::new(Plain(make!(plain))),
                    Mode::Asc => Box::new(Asc(make!(asc))),
                    Mode::Refusing => {
                        rt::set_capacity(
                            f.records as usize,
                            if f.queue == NO_LIMIT { usize::MAX } else { f.queue as usize },
                        );
                        let mut d = Refusing(make!(refusing));
                        started = d.start();
                        Box::new(d)
                    }
                });
                self.fit = Some(f);
                ok(started)?;
            }
            START => {
                shape(w.is_empty())?;
                ok(self.dec()?.start())?;
            }
            FRAME => {
                let npdf = self.graph.as_ref().ok_or(SCRIPT_ERROR)?.3;
                let d = self.dec()?;
                let l: Vec<f32> = w.iter().map(|&b| f32::from_bits(b)).collect();
                let decoded = d.frames();
                let number = if decoded >= 65_536 {
                    10
                } else if w.len() != npdf as usize {
                    8
                } else if l.iter().any(|&x| !rt::in_range(x)) {
                    9
                } else {
                    d.frame(&l)
                };
                if number != 0 {
                    return Err(No(vec![number, decoded as u32]));
                }
            }
            KEEP => {
                let margin = match w {
                    [0] => None,
                    [1, b] => Some(f32::from_bits(*b)),
                    _ => return Err(SCRIPT_ERROR.into()),
                };
                let d = self.dec()?;
                if let Some(m) = margin {
                    ok(check_width(m))?;
                }
                d.keep(margin);
            }
            BEST => {
                shape((1..=4).contains(&w.len()) && w[0] < 2)?;
                match self.dec()?.best(w[0] == 1) {
                    None => {
                        a.u(0);
                    }
                    Some(p) => {
                        if too_long(w, 1, &[p.words.len()], std::slice::from_ref(&p)) {
                            return Err(11.into());
                        }
                        a.u(1);
                        put_path(&mut a, &p);
                    }
                }
            }
            ALTERNATIVES => {
                shape((2..=6).contains(&w.len()) && w[0] < 2)?;
                let d = self.dec()?;
                if w[1] > 64 {
                    return Err(6.into());
                }
                let p = d.alternatives(w[0] == 1, w[1] as usize);
                let words: Vec<usize> = p.iter().map(|p| p.words.len()).collect();
                if p.len() > cap(w, 2) || too_long(w, 3, &words, &p) {
                    return Err(11.into());
                }
                a.u(p.len());
                for p in &p {
                    put_path(&mut a, p);
                }
            }
            READINGS => {
                shape((3..=7).contains(&w.len()) && w[0] < 2)?;
                let tokens = self.tokens;
                let mode = self.mode;
                let (below, kept) = self.fit.as_ref().map_or((0, 0), |f| (f.below, f.kept));
                let d = self.dec()?;
                if w[1] > 64 || w[2] > 64 {
                    return Err(6.into());
                }
                rt::clear_sizes();
                let (g, p) = d.readings(w[0] == 1, w[1] as usize, w[2] as usize);
                if mode == Mode::Refusing {
                    let (b, k) = rt::sizes();
                    if (below != NO_LIMIT && b > below as usize) || (kept != NO_LIMIT && k > kept as usize) {
                        return Err(15.into());
                    }
                    self.read_peak = (self.read_peak.0.max(b), self.read_peak.1.max(k));
                }
                let words: Vec<usize> = g.iter().map(|g| g.words.len()).collect();
                if g.len() > cap(w, 3) || too_long(w, 4, &words, &p) {
                    return Err(11.into());
                }
                a.u(g.len());
                for g in &g {
                    a.f(g.rank).f(g.cost).u(g.route);
                    if tokens {
                        let t = g.token;
                        a.f(t.0).f(t.1).i(t.2).u(t.3 as usize);
                    }
                    a.u(g.words.len());
                    for w in &g.words {
                        a.i(*w);
                    }
                }
                a.u(p.len());
                for p in &p {
                    put_path(&mut a, p);
                }
            }
            RELATIVE => {
                shape(w.is_empty())?;
                a.f(self.dec()?.relative());
            }
            ACTIVE => {
                shape(w.is_empty())?;
                a.u(self.dec()?.active());
            }
            FRAMES => {
                shape(w.is_empty())?;
                a.u(self.dec()?.frames());
            }
            SEARCH => {
                // word, number of readings, end of each part, number of words, words
                let word = *w.first().ok_or(SCRIPT_ERROR)?;
                let n = *w.get(1).ok_or(SCRIPT_ERROR)? as usize;
                let ends = w.get(2..2 + n).ok_or(SCRIPT_ERROR)?;
                let m = *w.get(2 + n).ok_or(SCRIPT_ERROR)? as usize;
                let words = w.get(3 + n..).ok_or(SCRIPT_ERROR)?;
                shape(words.len() == m)?;
                let mut from = 0;
                let mut hits = Vec::new();
                for (i, &e) in ends.iter().enumerate() {
                    if e < from || e as usize > m {
                        return Err(11.into());
                    }
                    if words[from as usize..e as usize].contains(&word) {
                        hits.push(i);
                    }
                    from = e;
                }
                a.u(usize::from(!hits.is_empty()));
                if let Some(&first) = hits.iter().min() {
                    a.u(first);
                }
            }
            SHUFFLE | UNSHUFFLE => {
                let (places, block) = shuffle::block(w).ok_or(SCRIPT_ERROR)?;
                if block.len() % 4 != 0 || places != block.len() {
                    return Err(20.into());
                }
                let out = if r.kind == SHUFFLE { shuffle::shuffled(&block) } else { shuffle::unshuffled(&block) };
                shuffle::put(&mut a, &out);
            }
            COURSE => {
                shape(w.len() == 3)?;
                let (course, remainder) = courses::course(w[0], w[1], w[2]).ok_or(22)?;
                a.u(course as usize).u(remainder as usize);
            }
            LINE => {
                shape(w.len() == 5 && w[2] <= lines::FRAMES)?;
                let line = lines::line([w[1], w[2], w[3], w[4]]);
                if (w[0] as usize) < line.len() {
                    return Err(16.into());
                }
                lines::put(&mut a, line.as_bytes());
            }
            READ_LINE => {
                let why = lines::read(&lines::bytes(w).ok_or(SCRIPT_ERROR)?);
                a.u(usize::from(why.is_some()));
                why.iter().flatten().for_each(|&x| {
                    a.u(x as usize);
                });
            }
            SILENCE_NEW => {
                shape(w.len() >= 4 && w.len() == 4 + w[3] as usize)?;
                let (weight, subsampling) = (f32::from_bits(w[0]), w[1]);
                if !(1..=16).contains(&subsampling) || !rt::in_range(weight) {
                    return Err(7.into());
                }
                let phones: Vec<i32> = w[4..].iter().map(|&p| p as i32).collect();
                self.silence = Some((
                    SilenceWeighting::new(&phones, weight, subsampling as usize),
                    if w[2] == NO_LIMIT { usize::MAX } else { w[2] as usize },
                    subsampling as usize,
                ));
            }
            SILENCE_TRACEBACK => {
                shape(!w.is_empty() && (w.len() - 1) % 3 == 0)?;
                let (s, places, _) = self.silence.as_mut().ok_or(SCRIPT_ERROR)?;
                let n = w[0] as usize;
                if n > 65_536 || n > *places {
                    return Err(10.into());
                }
                let path = segments(&w[1..])?;
                s.compute_current_traceback(&path, n);
                a.u(s.len());
            }
            SILENCE_DELTAS => {
                shape(w.len() == 4 || w.len() == 5)?;
                let (s, places, fs) = self.silence.as_mut().ok_or(SCRIPT_ERROR)?;
                let wide = |i: usize| u64::from(w[i]) | u64::from(w[i + 1]) << 32;
                let (ready, first) = (wide(0), wide(2));
                if ready > 1 << 32 || first > 1 << 32 {
                    return Err(10.into());
                }
                let (ready, first) = (ready as usize, first as usize);
                let need = ready.saturating_sub(first).div_ceil(*fs);
                if need > 65_536 || need > *places {
                    return Err(10.into());
                }
                let mut next = s.clone();
                let d = next.get_delta_weights(ready, first);
                if d.len() > cap(w, 4) {
                    return Err(11.into());
                }
                *s = next;
                a.u(d.len());
                for (f, x) in d {
                    a.wide(f as u64).f(x);
                }
            }
            TRAILING => {
                let n = *w.first().ok_or(SCRIPT_ERROR)? as usize;
                let phones = w.get(1..1 + n).ok_or(SCRIPT_ERROR)?;
                let segs = &w[1 + n..];
                shape(segs.len() % 3 == 0)?;
                let path = segments(segs)?;
                let phones: Vec<i32> = phones.iter().map(|&p| p as i32).collect();
                a.wide(path.trailing_silence_frames(&phones) as u64);
            }
            SILENCE_ACTIVE => {
                a.u(usize::from(self.silence.as_ref().ok_or(SCRIPT_ERROR)?.0.active()));
            }
            _ => return Err(SCRIPT_ERROR.into()),
        }
        Ok(a)
    }

    fn dec(&mut self) -> Result<&mut Box<dyn Dec>, u32> {
        self.dec.as_mut().ok_or(SCRIPT_ERROR)
    }
}

fn segments(w: &[u32]) -> Result<crate::asc::Path, u32> {
    if w.len() / 3 > 65_536 {
        return Err(10);
    }
    let mut path = crate::asc::Path::default();
    for s in w.chunks(3) {
        if s[2] < s[1] || s[2] > 65_536 {
            return Err(10);
        }
        path.phones.push(crate::asc::PhoneSegment {
            phone: s[0] as i32,
            start: s[1] as usize,
            end: s[2] as usize,
        });
    }
    Ok(path)
}
