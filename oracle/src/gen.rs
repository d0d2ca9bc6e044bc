//! Random cases: small graphs where ties are frequent.
use crate::courses::CORNERS;
use crate::driver::{Fit, MAX_RECORDS, NO_LIMIT};
use crate::script::*;

/// splitmix64
pub struct Rng(pub u64);
impl Rng {
    pub fn next(&mut self) -> u64 {
        self.0 = self.0.wrapping_add(0x9e37_79b9_7f4a_7c15);
        let mut z = self.0;
        z = (z ^ (z >> 30)).wrapping_mul(0xbf58_476d_1ce4_e5b9);
        z = (z ^ (z >> 27)).wrapping_mul(0x94d0_49bb_1331_11eb);
        z ^ (z >> 31)
    }
    pub fn below(&mut self, n: u64) -> u64 {
        self.next() % n
    }
    pub fn range(&mut self, a: u64, b: u64) -> u64 {
        a + self.below(b - a + 1)
    }
    pub fn chance(&mut self, percent: u64) -> bool {
        self.below(100) < percent
    }
    pub fn pick<T: Copy>(&mut self, v: &[T]) -> T {
        v[self.below(v.len() as u64) as usize]
    }
    /// In [0, 1).
    pub fn unit(&mut self) -> f32 {
        (self.next() >> 40) as f32 / (1u64 << 24) as f32
    }
}

#[derive(Clone, Debug)]
pub struct ArcIn {
    pub il: i32,
    pub ol: i32,
    pub w: f32,
    pub to: u32,
}

#[derive(Clone, Debug)]
pub struct Case {
    pub npdf: u32,
    pub start: u32,
    /// Transition id to pdf and phone.
    pub tids: Vec<(i32, i32)>,
    pub states: Vec<(f32, Vec<ArcIn>)>,
    pub fit: Fit,
    pub calls: Vec<Rec>,
}

impl Case {
    pub fn raw(&self) -> Raw {
        let mut g = Raw { npdf: self.npdf, start: self.start, offsets: vec![0], ..Raw::default() };
        for t in &self.tids {
            g.pdfs.push(t.0);
            g.phones.push(t.1);
        }
        for (f, arcs) in &self.states {
            g.finals.push(*f);
            for a in arcs {
                g.ilabels.push(a.il);
                g.olabels.push(a.ol);
                g.weights.push(a.w);
                g.targets.push(a.to);
            }
            g.offsets.push(g.ilabels.len() as u32);
        }
        g
    }
    pub fn script(&self) -> Vec<Rec> {
        let mut v = vec![self.raw().to_rec(), self.fit.rec()];
        v.extend(self.calls.iter().cloned());
        v
    }
    pub fn size(&self) -> usize {
        4 * self.states.len() + 3 * self.states.iter().map(|s| s.1.len()).sum::<usize>() + 2 * self.calls.len()
    }
}

pub fn case(seed: u64) -> Case {
    let mut r = Rng(seed.wrapping_mul(0x2545_f491_4f6c_dd1d) ^ 0x1234_5678);
    for _ in 0..4 {
        r.next();
    }
    let n = if r.chance(12) { r.range(13, 60) } else { r.range(2, 12) } as u32;
    let npdf = r.range(1, 4) as u32;
    let ntid = r.range(1, 6);
    let mut tids = vec![(-1, 0)];
    for _ in 0..ntid {
        tids.push((r.below(u64::from(npdf)) as i32, r.range(1, 3) as i32));
    }
    let fine = r.chance(25); // sometimes weights that do not tie
    let weights: &[f32] = if r.chance(50) { &[0.0, 0.25, 0.5, 1.0] } else { &[0.0, 0.0, 0.5, -0.0] };
    let eps_pct = r.pick(&[0u64, 15, 30, 50, 85]);
    let word_pct = r.pick(&[20u64, 50, 80]);
    let mut states: Vec<(f32, Vec<ArcIn>)> = Vec::new();
    for _ in 0..n {
        let f = if r.chance(50) { f32::INFINITY } else { r.pick(&[0.0f32, 0.5, 1.0, 3.0, -1.0, -0.0]) };
        let k = r.range(0, 5);
        let mut arcs: Vec<ArcIn> = Vec::new();
        for _ in 0..k {
            let il = if r.chance(eps_pct) { 0 } else { r.range(1, ntid) as i32 };
            let ol = if r.chance(word_pct) { r.range(1, 3) as i32 } else { 0 };
            let mut w = if fine { r.unit() * 2.0 } else { r.pick(weights) };
            if il != 0 && r.chance(5) {
                w = -w;
            }
            let to = if r.chance(70) { r.below(u64::from(n)) } else { r.below(u64::from(n.min(3))) } as u32;
            arcs.push(ArcIn { il, ol, w, to });
            if r.chance(25) {
                let mut twin = arcs.last().unwrap().clone();
                twin.ol = r.range(0, 3) as i32;
                arcs.push(twin);
            }
        }
        states.push((f, arcs));
    }
    let min = r.pick(&[0u32, 0, 1, 2, 3, 5]);
    let max = if r.chance(40) { 1000 } else { min + r.range(1, 6) as u32 };
    let fit = Fit {
        beam: r.pick(&[0.25f32, 0.5, 1.0, 2.0, 4.0, 8.0]),
        max,
        min,
        delta: r.pick(&[0.0f32, 0.25, 0.5]),
        places: n,
        records: MAX_RECORDS,
        queue: NO_LIMIT,
        below: NO_LIMIT,
        kept: NO_LIMIT,
    };
    let mut calls = Vec::new();
    let margin = |r: &mut Rng| r.pick(&[0.0f32, 0.25, 0.5, 1.0, 2.0, 4.0]).to_bits();
    if r.chance(75) {
        let m = margin(&mut r);
        calls.push(rec(KEEP, &[1, m]));
        if r.chance(50) {
            calls.push(rec(START, &[]));
        }
    }
    let frames = r.range(1, 24);
    let reads_pct = r.pick(&[10u64, 40, 90]);
    for _ in 0..frames {
        let l: Vec<u32> = (0..npdf)
            .map(|_| if fine { -r.unit() * 3.0 } else { r.pick(&[0.0f32, -0.25, -0.5, -1.0, -2.0, 0.5]) })
            .map(f32::to_bits)
            .collect();
        calls.push(rec(FRAME, &l));
        if r.chance(3) {
            calls.push(rec(START, &[]));
        }
        if r.chance(4) {
            calls.push(rec(KEEP, &[0]));
        }
        if r.chance(6) {
            let m = margin(&mut r);
            calls.push(rec(KEEP, &[1, m]));
        }
        if r.chance(reads_pct) {
            reads(&mut r, &mut calls);
        }
    }
    reads(&mut r, &mut calls);
    Case { npdf, start: if r.chance(1) { u32::MAX } else { 0 }, tids, states, fit, calls }
}

fn reads(r: &mut Rng, calls: &mut Vec<Rec>) {
    let f = r.below(2) as u32;
    for k in [BEST, ALTERNATIVES, READINGS, RELATIVE, ACTIVE, FRAMES] {
        if !r.chance(70) {
            continue;
        }
        match k {
            BEST => calls.push(rec(k, &[f])),
            ALTERNATIVES => {
                let m = r.pick(&[0u32, 1, 2, 5, 64]);
                calls.push(rec(k, &[f, m]));
            }
            READINGS => {
                let (l, m) = (r.pick(&[0u32, 1, 2, 3, 5, 10, 64]), r.pick(&[0u32, 1, 3, 64]));
                calls.push(rec(k, &[f, l, m]));
            }
            _ => calls.push(rec(k, &[])),
        }
    }
}

/// A case with small stores (13 to 15) and, at some reads, small output slices (11).
pub fn tight(seed: u64) -> Case {
    let mut c = case(seed);
    let mut r = Rng(seed ^ 0x717);
    c.fit.records = r.pick(&[1u32, 3, 6, 10, 20, 40]);
    c.fit.queue = r.pick(&[0u32, 2, 5, 10, 100]);
    c.fit.below = r.pick(&[0u32, 5, 20, 100, 1000]);
    c.fit.kept = r.pick(&[0u32, 1, 3, 10, 100]);
    for k in &mut c.calls {
        let sizes = match k.kind {
            BEST => 3,
            ALTERNATIVES | READINGS => 4,
            _ => 0,
        };
        if r.chance(30) {
            k.words.extend((0..sizes).map(|_| r.pick(&[0u32, 1, 2, 4, 8, 16, 64])));
        }
    }
    c
}

/// A case with numbers near 2^100 (12).
pub fn huge(seed: u64) -> Case {
    let mut c = case(seed);
    let mut r = Rng(seed ^ 0x5555);
    let big = [0x717f_ffffu32, 0xf17f_ffff, 0x7100_0000, 0xf100_0000, 0x7080_0000, 0x717f_fffe];
    for st in &mut c.states {
        for a in &mut st.1 {
            if r.chance(25) {
                a.w = f32::from_bits(r.pick(&big));
                if a.il == 0 {
                    a.w = a.w.abs();
                }
            }
        }
        if r.chance(20) {
            st.0 = f32::from_bits(r.pick(&big));
        }
    }
    if r.chance(50) {
        c.fit.beam = f32::from_bits(0x717f_ffff);
    }
    if r.chance(30) {
        c.fit.delta = f32::from_bits(0x717f_ffff);
    }
    for k in &mut c.calls {
        if k.kind == FRAME {
            for w in &mut k.words {
                if r.chance(25) {
                    *w = r.pick(&big);
                }
            }
        }
        if k.kind == KEEP && k.words.len() == 2 && r.chance(50) {
            k.words[1] = 0x717f_ffff;
        }
    }
    c
}

/// Searches of a word in reading lists, some of them misshapen.
pub fn search(seed: u64) -> Vec<Rec> {
    let mut r = Rng(seed ^ 0x5ea_2c4);
    let mut v = Vec::new();
    for _ in 0..r.range(1, 6) {
        let (m, n) = if r.chance(60) { (r.below(12), r.below(5)) } else { (r.below(60), r.below(20)) };
        let misshapen = r.chance(20);
        let mut w = vec![r.pick(&[0u32, 1, 2, 3, u32::MAX]), n as u32];
        let mut end = 0;
        for _ in 0..n {
            end = if misshapen && r.chance(30) { r.below(m + 3) } else { m.min(end + r.below(6)) };
            w.push(end as u32);
        }
        w.push(m as u32);
        w.extend((0..m).map(|_| r.pick(&[0u32, 1, 2, 3, u32::MAX])));
        v.push(rec(SEARCH, &w));
    }
    v
}

/// Blocks to shuffle and to unshuffle, some of a length that is refused, or with an output of another.
pub fn shuffle(seed: u64) -> Vec<Rec> {
    let mut r = Rng(seed ^ 0x5_4aff1e);
    let mut v = Vec::new();
    for _ in 0..r.range(1, 6) {
        let len = if r.chance(75) { 4 * r.below(20) } else { r.below(80) };
        let places = if r.chance(80) { len } else { r.below(80) };
        let mut w = vec![places as u32, len as u32];
        w.extend((0..len.div_ceil(4)).map(|_| r.below(1 << 32) as u32));
        v.push(rec(r.pick(&[SHUFFLE, UNSHUFFLE]), &w));
    }
    v
}

/// Courses of frames, some at the corners of their ranges.
pub fn course(seed: u64) -> Vec<Rec> {
    let mut r = Rng(seed ^ 0xc0_425e);
    let one = |r: &mut Rng| if r.chance(20) { r.pick(&CORNERS) } else { r.below(65_536) as u32 };
    (0..r.range(1, 6)).map(|_| rec(COURSE, &[one(&mut r), one(&mut r), one(&mut r)])).collect()
}

/// A script of silence calls, some of them refused.
pub fn silence(seed: u64) -> Vec<Rec> {
    let mut r = Rng(seed ^ 0x51_1e4c_e000);
    let mut v = Vec::new();
    for _ in 0..r.range(1, 3) {
        let weight = r.pick(&[0.0f32, -0.0, 0.5, 1.0, 1e-3, -2.0, 3e29, 1.5e30, f32::NAN]).to_bits();
        let n = r.below(4);
        let mut w = vec![weight, r.pick(&[1u32, 1, 2, 3, 3, 16, 0, 17]), r.pick(&[4u32, 200, 400, 65_536]), n as u32];
        w.extend((0..n).map(|_| r.range(1, 4) as u32));
        v.push(rec(SILENCE_NEW, &w));
        let mut frames = 0u64;
        for _ in 0..r.range(1, 14) {
            match r.below(5) {
                0 | 1 => {
                    frames += r.pick(&[0u64, 1, 2, 3, 10, 120]);
                    let mut w = vec![frames as u32];
                    let mut at = if r.chance(80) { 0 } else { r.below(frames + 2) };
                    for _ in 0..r.below(6) {
                        let len = r.below(frames + 2);
                        w.extend([r.range(1, 4) as u32, at as u32, (at + len) as u32]);
                        if r.chance(3) {
                            w.extend([1, 3, 2]);
                        }
                        at += len;
                    }
                    v.push(rec(SILENCE_TRACEBACK, &w));
                }
                2 | 3 => {
                    let first = r.pick(&[0u64, 0, 1, 7, 1 << 32, (1 << 32) - 5, (1 << 32) + 1]);
                    let ready = first.saturating_sub(1) + r.below(4 * frames + 6);
                    let mut w = vec![ready as u32, (ready >> 32) as u32, first as u32, (first >> 32) as u32];
                    if r.chance(15) {
                        w.push(r.below(40) as u32);
                    }
                    v.push(rec(SILENCE_DELTAS, &w));
                }
                _ => {
                    let n = r.below(3);
                    let mut w = vec![n as u32];
                    w.extend((0..n).map(|_| r.range(1, 3) as u32));
                    let mut at = 0;
                    for _ in 0..r.below(5) {
                        let len = r.below(5);
                        w.extend([r.range(1, 3) as u32, at as u32, (at + len) as u32]);
                        at += len;
                    }
                    v.push(rec(TRAILING, &w));
                    v.push(rec(SILENCE_ACTIVE, &[]));
                }
            }
        }
    }
    v
}

/// A graph with some numbers spoilt, fitted with settings that may be spoilt too.
pub fn spoilt(seed: u64) -> Vec<Rec> {
    let c = case(seed);
    let mut r = Rng(seed ^ 0xbad);
    let mut g = c.raw();
    let odd = [0x7fc0_0000u32, 0x7f80_0000, 0xff80_0000, 0x7180_0000, 0xf180_0000, 0x717f_ffff, 0x8000_0000, 0xbf80_0000, 0];
    for _ in 0..r.below(4) {
        let m = g.ilabels.len() as u64;
        let n = g.finals.len() as u64;
        let any_arc = |r: &mut Rng| r.below(m.max(1)) as usize;
        match r.below(12) {
            0 => g.start = r.pick(&[n as u32, n as u32 - 1, u32::MAX, u32::MAX - 1]),
            1 if m > 0 => { let a = any_arc(&mut r); let t = r.pick(&[n as u32, n as u32 - 1, u32::MAX]); if let Some(x) = g.targets.get_mut(a) { *x = t } }
            2 if m > 0 => { let a = any_arc(&mut r); g.ilabels[a] = r.pick(&[-1, i32::MIN, g.pdfs.len() as i32, g.pdfs.len() as i32 - 1, i32::MAX]) }
            3 => { let t = r.below(g.pdfs.len() as u64) as usize; g.pdfs[t] = r.pick(&[-1, g.npdf as i32, g.npdf as i32 - 1]) }
            4 => { let t = r.below(g.phones.len() as u64) as usize; g.phones[t] = r.pick(&[0, -1, 1]) }
            5 | 6 if m > 0 => { let a = any_arc(&mut r); let w = f32::from_bits(r.pick(&odd)); if let Some(x) = g.weights.get_mut(a) { *x = w } }
            7 => { let s = r.below(n) as usize; g.finals[s] = f32::from_bits(r.pick(&odd)) }
            8 => { let o = r.below(g.offsets.len() as u64) as usize; g.offsets[o] = r.below(m + 2) as u32 }
            9 => match r.below(6) {
                0 => { g.finals.pop(); }
                1 => g.offsets.push(m as u32),
                2 => { g.olabels.pop(); }
                3 => g.weights.push(0.0),
                4 => { g.targets.pop(); }
                _ => { g.ilabels.pop(); }
            },
            10 => { g.phones.pop(); }
            _ => { g.pdfs.pop(); }
        }
        if g.finals.is_empty() || g.pdfs.is_empty() || g.phones.is_empty() || g.offsets.is_empty() {
            break;
        }
    }
    let mut f = c.fit.clone();
    match r.below(8) {
        0 => f.beam = f32::from_bits(r.pick(&odd)),
        1 => f.delta = f32::from_bits(r.pick(&odd)),
        2 => f.min = f.max,
        3 => f.max = f.min,
        4 => f.places = f.places.wrapping_sub(1),
        5 => f.records = r.pick(&[MAX_RECORDS, MAX_RECORDS + 1]),
        _ => {}
    }
    vec![g.to_rec(), f.rec(), rec(KEEP, &[1, r.pick(&odd)]), rec(FRAME, &vec![0; c.npdf as usize]), rec(BEST, &[0])]
}
