//! The proved search and three in Rust, by turns in one process: `docs/SPEED.md`.
use crate::bench::Instant;
use crate::gen::Rng;
use std::hint::black_box;

type Answer = Result<Option<usize>, u32>;
type Way = fn(i32, &[u32], &[i32]) -> Answer;

const NAMES: [&str; 4] = ["proved", "plain loop", "plain loop, ends trusted", "`contains`"];
const WORDS: usize = 10_000;
const ROUNDS: usize = 15;

/// The calls of a turn.
const TURN: usize = 1_000;

fn proved(word: i32, ends: &[u32], words: &[i32]) -> Answer {
    hirqazhom::find(word, ends, words).map_err(|refusal| refusal.number)
}

/// Refuses as the proved one does, and then walks.
fn plain(word: i32, ends: &[u32], words: &[i32]) -> Answer {
    let mut from = 0;
    for &end in ends {
        if end < from || end as usize > words.len() {
            return Err(11);
        }
        from = end;
    }
    trusting(word, ends, words)
}

fn trusting(word: i32, ends: &[u32], words: &[i32]) -> Answer {
    let mut i = 0;
    for (reading, &end) in ends.iter().enumerate() {
        while i < end as usize {
            if words[i] == word {
                return Ok(Some(reading));
            }
            i += 1;
        }
    }
    Ok(None)
}

fn contains(word: i32, ends: &[u32], words: &[i32]) -> Answer {
    let (mut from, mut hit) = (0, None);
    for (reading, &end) in ends.iter().enumerate() {
        if end < from || end as usize > words.len() {
            return Err(11);
        }
        if hit.is_none() && words[from as usize..end as usize].contains(&word) {
            hit = Some(reading);
        }
        from = end;
    }
    Ok(hit)
}

/// The least time of a call, in seconds, of each way.
fn measure(ways: [Way; 4], word: i32, ends: &[u32], words: &[i32]) -> [f64; 4] {
    let mut least = [f64::MAX; 4];
    for _ in 0..ROUNDS {
        for (way, least) in ways.iter().zip(&mut least) {
            let start = Instant::now();
            for _ in 0..TURN {
                let _ = black_box(way(black_box(word), black_box(ends), black_box(words)));
            }
            *least = least.min(start.secs() / TURN as f64);
        }
    }
    least
}

pub fn run() {
    let ways: [Way; 4] = [proved, plain, trusting, contains];
    println!("{WORDS} words; CPU time of the thread, least of {ROUNDS} rounds; in brackets the proved one's time to it.");
    println!("\n| readings of | the word is | {} |\n|---|---|---|---|---|---|", NAMES.join(" | "));
    for each in [1, 10, 100, WORDS] {
        let mut r = Rng(each as u64);
        let mut words: Vec<i32> = (0..WORDS).map(|_| r.below(1 << 20) as i32).collect();
        let ends: Vec<u32> = (1..=WORDS / each).map(|i| (i * each) as u32).collect();
        words[WORDS / 2] = -1;
        words[WORDS - 1] = -2;
        for (place, word) in [("in the middle", -1), ("last", -2), ("nowhere", -3)] {
            let want = trusting(word, &ends, &words);
            assert!(ways.iter().all(|way| way(word, &ends, &words) == want));
            let times = measure(ways, word, &ends, &words);
            let cells: Vec<String> = times.iter().map(|t| format!("{:.2} µs ({:.2})", t * 1e6, times[0] / t)).collect();
            println!("| {each} | {place} | {} |", cells.join(" | "));
        }
    }
}
