//! Ascending against unmodified; the refusing copy against the ascending one; the exactness of
//! 13 to 15; rollback.
use crate::driver::*;
use crate::gen::*;
use crate::rt;
use crate::script::*;
use std::collections::BTreeMap;

fn run_mode(mode: Mode, s: &[Rec], tokens: bool) -> Vec<Answer> {
    let mut d = Driver::new(mode);
    d.tokens = tokens;
    d.run(s)
}

/// Kinds of reads whose answers differ.
fn differing(c: &Case) -> BTreeMap<u32, usize> {
    let s = c.script();
    let a = run_mode(Mode::Asc, &s, false);
    let p = run_mode(Mode::Plain, &s, false);
    let mut m = BTreeMap::new();
    for (x, y) in a.iter().zip(&p) {
        if x.words != y.words {
            *m.entry(x.kind).or_insert(0) += 1;
        }
    }
    m
}

fn valid(c: &Case) -> bool {
    check_graph(&c.raw()).is_ok()
}

/// Drop what can be dropped while reads of `kind` still differ.
pub fn shrink(c: &Case, test: &dyn Fn(&Case) -> bool) -> Case {
    let mut best = c.clone();
    best.fit.places = NO_LIMIT;
    loop {
        let mut better: Option<Case> = None;
        let mut cands: Vec<Case> = Vec::new();
        for i in 0..best.calls.len() {
            let mut n = best.clone();
            n.calls.remove(i);
            cands.push(n);
        }
        for s in (0..best.states.len()).rev() {
            if s as u32 != best.start {
                let mut n = best.clone();
                n.states.remove(s);
                for st in &mut n.states {
                    st.1.retain(|a| a.to != s as u32);
                    for a in &mut st.1 {
                        if a.to > s as u32 {
                            a.to -= 1;
                        }
                    }
                }
                if n.start != u32::MAX && n.start > s as u32 {
                    n.start -= 1;
                }
                cands.push(n);
            }
        }
        for s in 0..best.states.len() {
            for i in 0..best.states[s].1.len() {
                let mut n = best.clone();
                n.states[s].1.remove(i);
                cands.push(n);
            }
        }
        for n in cands {
            if n.size() < best.size() && valid(&n) && test(&n) {
                better = Some(n);
                break;
            }
        }
        match better {
            Some(n) => best = n,
            None => break,
        }
    }
    // Simpler numbers, one pass.
    let mut simpler: Vec<Box<dyn Fn(&mut Case)>> = Vec::new();
    for s in 0..best.states.len() {
        simpler.push(Box::new(move |c| c.states[s].0 = f32::INFINITY));
        for i in 0..best.states[s].1.len() {
            simpler.push(Box::new(move |c| c.states[s].1[i].w = 0.0));
            simpler.push(Box::new(move |c| c.states[s].1[i].ol = 0));
            simpler.push(Box::new(move |c| {
                if c.states[s].1[i].il != 0 {
                    c.states[s].1[i].il = 1
                }
            }));
        }
    }
    for k in 0..best.calls.len() {
        if best.calls[k].kind == FRAME {
            for j in 0..best.calls[k].words.len() {
                simpler.push(Box::new(move |c| c.calls[k].words[j] = 0));
            }
        }
    }
    simpler.push(Box::new(|c| c.fit.delta = 0.0));
    simpler.push(Box::new(|c| c.fit.max = 1000));
    simpler.push(Box::new(|c| c.fit.min = 0));
    for f in simpler {
        let mut n = best.clone();
        f(&mut n);
        if valid(&n) && test(&n) {
            best = n;
        }
    }
    best
}

fn limited(c: &Case, records: u32, queue: u32, below: u32, kept: u32) -> Case {
    let mut c = c.clone();
    c.fit.records = records;
    c.fit.queue = queue;
    c.fit.below = below;
    c.fit.kept = kept;
    c
}

pub fn run(seed0: u64, count: u64, dir: &str) {
    std::fs::create_dir_all(dir).unwrap();
    let mut scripts_differing: BTreeMap<u32, u64> = BTreeMap::new();
    let mut calls_differing: BTreeMap<u32, u64> = BTreeMap::new();
    let mut calls_all: BTreeMap<u32, u64> = BTreeMap::new();
    let mut smallest: BTreeMap<u32, (usize, Case)> = BTreeMap::new();
    let mut shrunk: BTreeMap<u32, u32> = BTreeMap::new();
    let (mut any, mut ties_only) = (0u64, 0u64);
    let mut faults: BTreeMap<&str, u64> = BTreeMap::new();
    let mut fault_seed: BTreeMap<&str, u64> = BTreeMap::new();
    let mut refusals: BTreeMap<u32, u64> = BTreeMap::new();
    let mut with_kept = 0u64;
    let (mut worst_queue, mut worst_ratio) = ((0usize, 0usize, 0usize, 0u64), 0.0f64);
    let mut over_bound = 0u64;
    let mut worst_arcs = (0.0f64, 0usize, 0usize, 0u64);
    let mut huge_refusals: BTreeMap<u32, u64> = BTreeMap::new();
    let mut longest_list = (0u32, 0u32);
    let mut peak_read = (0usize, 0usize);
    for seed in seed0..seed0 + count {
        let c = case(seed);
        if !valid(&c) {
            continue;
        }
        let s = c.script();
        let mut fault = |k: &'static str| {
            *faults.entry(k).or_insert(0) += 1;
            fault_seed.entry(k).or_insert(seed);
        };
        // ascending against unmodified
        let asc = run_mode(Mode::Asc, &s, false);
        let plain = run_mode(Mode::Plain, &s, false);
        let mut kinds: BTreeMap<u32, u64> = BTreeMap::new();
        for (x, y) in asc.iter().zip(&plain) {
            *calls_all.entry(x.kind).or_insert(0) += 1;
            if x.words != y.words {
                *kinds.entry(x.kind).or_insert(0) += 1;
            }
        }
        if !kinds.is_empty() {
            any += 1;
            if !kinds.contains_key(&ACTIVE) {
                ties_only += 1;
            }
        }
        for (&k, &n) in &kinds {
            *scripts_differing.entry(k).or_insert(0) += 1;
            *calls_differing.entry(k).or_insert(0) += n;
            let done = shrunk.entry(k).or_insert(0);
            if *done < 60 {
                *done += 1;
                let small = shrink(&c, &|c| differing(c).contains_key(&k));
                if smallest.get(&k).is_none_or(|b| small.size() < b.0) {
                    smallest.insert(k, (small.size(), small));
                }
            }
        }
        // (iii) the std maps' order: fresh seeds in every run
        let full = run_mode(Mode::Asc, &s, true);
        for _ in 0..2 {
            if run_mode(Mode::Asc, &s, true) != full {
                fault("iii: a std map's order shows");
            }
        }
        // the refusing copy without limits, counting
        rt::clear_peaks();
        rt::set_exact(true);
        let mut d = Driver::new(Mode::Refusing);
        d.tokens = true;
        let mut got = Vec::new();
        for r in &s {
            got.push(d.call(r));
            if let Some(dec) = &mut d.dec {
                let (marked, live) = dec.reached().unwrap();
                if marked != live {
                    fault("live count is not reachability");
                }
                if dec.odd() {
                    fault("i, ii: a cost or graph sum is -0 or not finite");
                }
            }
        }
        let (live, queue) = rt::peaks();
        let (below, kept) = d.read_peak;
        drop(d);
        rt::set_exact(false);
        if rt::live() != 0 {
            fault("records left over");
        }
        if got != full {
            fault("refusing copy differs from ascending");
        }
        for a in got.iter().filter(|a| a.types.contains(&b'f')) {
            for (w, t) in a.words.iter().zip(&a.types) {
                if *t == b'f' && f32::from_bits(*w).is_nan() {
                    fault("ii: NaN in an answer");
                }
                if *t == b'f' && *w == 0x8000_0000 {
                    fault("i: -0 in an answer");
                }
            }
        }
        with_kept += u64::from(kept > 0);
        peak_read = (peak_read.0.max(below), peak_read.1.max(kept));
        // (v)
        let eps: usize = c.states.iter().map(|s| s.1.iter().filter(|a| a.il == 0).count()).sum();
        let eps_states = c.states.iter().filter(|s| s.1.iter().any(|a| a.il == 0)).count();
        if queue > worst_queue.0 {
            worst_queue = (queue, c.states.len(), eps, seed);
        }
        if eps + eps_states > 0 {
            worst_ratio = worst_ratio.max(queue as f64 / (eps + eps_states) as f64);
            over_bound += u64::from(queue > eps);
            if eps > 0 && queue as f64 / eps as f64 > worst_arcs.0 {
                worst_arcs = (queue as f64 / eps as f64, queue, eps, seed);
            }
        }
        // (iv)
        for (sweep, empty) in [(1, true), (2, true), (0, false), (2, false)] {
            rt::set_variant(sweep, empty);
            if run_mode(Mode::Refusing, &s, true) != full {
                fault("iv: sweep or is_empty shows");
            }
        }
        rt::set_variant(0, true);
        // 13 to 15 exact: at the peak nothing is refused, one below it something is.
        let (l, q, b, k) = (live as u32, queue as u32, below as u32, kept as u32);
        if run_mode(Mode::Refusing, &limited(&c, l, q, b, k).script(), true)[2..] != full[2..] {
            fault("refused at the peak");
        }
        for (n, v, lim) in [
            (13, live, limited(&c, l.wrapping_sub(1), q, b, k)),
            (14, queue, limited(&c, l, q.wrapping_sub(1), b, k)),
            (15, below, limited(&c, l, q, b.wrapping_sub(1), k)),
            (15, kept, limited(&c, l, q, b, k.wrapping_sub(1))),
        ] {
            if v > 0 {
                let a = run_mode(Mode::Refusing, &lim.script(), true);
                if !a.iter().any(|a| a.refusal() == n) {
                    fault("not refused below the peak");
                }
            }
        }
        for (r, a) in s.iter().zip(&full) {
            if r.kind == READINGS && r.words[1] > 0 && a.words[1] > longest_list.0.max(r.words[1]) {
                longest_list = (a.words[1], r.words[1]);
            }
        }
        // 12: numbers near 2^100
        {
            let h = huge(seed);
            let hs = h.script();
            let mut d = Driver::new(Mode::Refusing);
            d.tokens = true;
            let mut a = Vec::new();
            for r in &hs {
                let x = d.call(r);
                if d.dec.as_ref().is_some_and(|d| d.odd()) {
                    fault("i, ii: a cost or graph sum is -0 or not finite (huge)");
                }
                if (x.kind == START || x.kind == FIT) && x.refusal() == 12 {
                    fault("a start gives 12");
                }
                for (w, t) in x.words.iter().zip(&x.types) {
                    if *t == b'f' && f32::from_bits(*w).is_nan() {
                        fault("ii: NaN in an answer (huge)");
                    }
                }
                *huge_refusals.entry(x.refusal()).or_insert(0) += 1;
                a.push(x);
            }
            drop(d);
            let ok: Vec<bool> = a.iter().map(|x| x.refusal() == 0).collect();
            let rest: Vec<Rec> = hs.iter().zip(&ok).filter(|x| *x.1).map(|x| x.0.clone()).collect();
            let want: Vec<&Answer> = a.iter().zip(&ok).filter(|x| *x.1).map(|x| x.0).collect();
            let b = run_mode(Mode::Refusing, &rest, true);
            if b.iter().collect::<Vec<_>>() != want {
                fault("a frame refused by 12 shows later");
            }
            // without the refused frames the ascending copy agrees
            if run_mode(Mode::Asc, &rest, true) != b {
                fault("ascending differs on accepted huge frames");
            }
        }
        // rollback: refused frames, margins and reads taken out change nothing.
        let mut r = Rng(seed ^ 0xabcdef);
        let t = limited(
            &c,
            r.below(live as u64 + 1) as u32,
            r.below(queue as u64 + 1) as u32,
            r.below(below as u64 + 1) as u32,
            r.below(kept as u64 + 1) as u32,
        );
        let mut t = t;
        for i in (0..t.calls.len()).rev() {
            // some calls that are refused for other reasons
            if r.chance(4) {
                let bad = match r.below(6) {
                    0 => rec(FRAME, &vec![0; c.npdf as usize + 1]),
                    1 => rec(FRAME, &vec![0x7fc0_0000; c.npdf as usize]),
                    2 => rec(FRAME, &vec![0xf17f_ffff; c.npdf as usize]),
                    3 => rec(KEEP, &[1, 0xbf80_0000]),
                    4 => rec(READINGS, &[0, 65, 1]),
                    _ => rec(ALTERNATIVES, &[0, 64, 0, 0, 0, 0]),
                };
                t.calls.insert(i, bad);
            }
        }
        let ts = t.script();
        let a = run_mode(Mode::Refusing, &ts, true);
        for x in &a {
            *refusals.entry(x.refusal()).or_insert(0) += 1;
        }
        let keep_it: Vec<bool> = a
            .iter()
            .map(|x| x.refusal() == 0 || x.kind == START || x.kind == FIT || x.kind == GRAPH)
            .collect();
        let rest: Vec<Rec> = ts.iter().zip(&keep_it).filter(|x| *x.1).map(|x| x.0.clone()).collect();
        let want: Vec<&Answer> = a.iter().zip(&keep_it).filter(|x| *x.1).map(|x| x.0).collect();
        let b = run_mode(Mode::Refusing, &rest, true);
        if b.iter().collect::<Vec<_>>() != want {
            fault("a refused call shows later");
        }
    }
    println!("{count} scripts from seed {seed0}; {with_kept} with kept readings; peaks of below {} and kept {}", peak_read.0, peak_read.1);
    println!("ascending against unmodified: {any} scripts differ, {ties_only} of them without a differing `active` answer");
    for (k, n) in &calls_all {
        println!(
            "  {:<14} {:>8} calls, {:>7} differ, in {:>6} scripts",
            name(*k), n, calls_differing.get(k).unwrap_or(&0), scripts_differing.get(k).unwrap_or(&0)
        );
    }
    for (k, (size, c)) in &smallest {
        let p = format!("{dir}/differ-{}.txt", name(*k));
        let s = c.script();
        let show = |m| run_mode(m, &s, false).iter().map(|a| format!("#   {}\n", a.text(true))).collect::<String>();
        let text = format!(
            "# Smallest case found (size {size}) in which `{}` differs between ascending and unmodified.\n{}# ascending answers\n{}# unmodified answers\n{}",
            name(*k), to_text(&s, true), show(Mode::Asc), show(Mode::Plain)
        );
        std::fs::write(&p, text).unwrap();
        println!("  smallest for {:<12} size {size}: {p}", name(*k));
    }
    println!("queue: longest {} with {} states, {} epsilon arcs (seed {}); at most {worst_ratio:.2} times (epsilon arcs + states with any); longer than the number of epsilon arcs in {over_bound} scripts, worst {worst_arcs:?}",
        worst_queue.0, worst_queue.1, worst_queue.2, worst_queue.3);
    println!("longest reading list {} at listed {}; refusals in the huge runs: {huge_refusals:?}", longest_list.0, longest_list.1);
    println!("refusals in the tight runs: {refusals:?}");
    if faults.is_empty() {
        println!("no faults");
    }
    for (k, n) in &faults {
        println!("FAULT {k}: {n} (first seed {})", fault_seed[k]);
    }
}
