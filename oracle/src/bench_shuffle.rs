//! The proved shuffle and unshuffle, a plain loop of each and c-blosc's, by turns in one process: `docs/SPEED.md`.
use crate::bench::Instant;
use crate::gen::Rng;
use crate::shuffle::{shuffled, unshuffled};
use std::hint::black_box;

type Way = fn(&[u8], &mut [u8]);

const NAMES: [&str; 5] = ["proved", "plain loop", "c-blosc generic", "c-blosc SSE2", "c-blosc AVX2"];
const SIZES: [(&str, usize); 3] = [("4 KiB", 4 << 10), ("64 KiB", 64 << 10), ("16 MiB", 16 << 20)];
const ROUNDS: usize = 15;

/// A turn takes as many calls as this many bytes are.
const TURN: usize = 16 << 20;

fn proved_shuffle(block: &[u8], out: &mut [u8]) {
    hirqazhom::shuffle(block, out).expect("the lengths are right");
}

fn proved_unshuffle(block: &[u8], out: &mut [u8]) {
    hirqazhom::unshuffle(block, out).expect("the lengths are right");
}

fn plain_shuffle(block: &[u8], out: &mut [u8]) {
    let n = block.len() / 4;
    for i in 0..n {
        out[i] = block[4 * i];
        out[n + i] = block[4 * i + 1];
        out[2 * n + i] = block[4 * i + 2];
        out[3 * n + i] = block[4 * i + 3];
    }
}

fn plain_unshuffle(block: &[u8], out: &mut [u8]) {
    let n = block.len() / 4;
    for i in 0..n {
        out[4 * i] = block[i];
        out[4 * i + 1] = block[n + i];
        out[4 * i + 2] = block[2 * n + i];
        out[4 * i + 3] = block[3 * n + i];
    }
}

/// What c-blosc's archive has, with the bytes of a number first.
macro_rules! blosc {
    ($($way:ident $symbol:ident)*) => {
        extern "C" {
            $(fn $symbol(number: usize, len: usize, from: *const u8, to: *mut u8);)*
        }
        $(fn $way(block: &[u8], out: &mut [u8]) {
            assert_eq!(block.len(), out.len());
            // SAFETY: both have the length that is told.
            unsafe { $symbol(4, block.len(), block.as_ptr(), out.as_mut_ptr()) }
        })*
    };
}
blosc! {
    generic_shuffle blosc_internal_shuffle_generic
    generic_unshuffle blosc_internal_unshuffle_generic
    sse2_shuffle blosc_internal_shuffle_sse2
    sse2_unshuffle blosc_internal_unshuffle_sse2
    avx2_shuffle blosc_internal_shuffle_avx2
    avx2_unshuffle blosc_internal_unshuffle_avx2
}

/// The least time of a call, in seconds, of each way.
fn measure(ways: [Way; 5], block: &[u8]) -> [f64; 5] {
    let mut out = vec![0; block.len()];
    let calls = TURN / block.len();
    let mut least = [f64::MAX; 5];
    for _ in 0..ROUNDS {
        for (way, least) in ways.iter().zip(&mut least) {
            let start = Instant::now();
            for _ in 0..calls {
                way(black_box(block), black_box(&mut out));
            }
            *least = least.min(start.secs() / calls as f64);
        }
    }
    least
}

fn table(title: &str, ways: [Way; 5], judge: fn(&[u8]) -> Vec<u8>) {
    println!("\n### {title}\n\n| block | {} |\n|---|---|---|---|---|---|", NAMES.join(" | "));
    for (name, size) in SIZES {
        let mut r = Rng(size as u64);
        let block: Vec<u8> = (0..size).map(|_| r.below(256) as u8).collect();
        let want = judge(&block);
        for (way, name) in ways.iter().zip(NAMES) {
            let mut out = vec![0; size];
            way(&block, &mut out);
            assert!(out == want, "{name} differs");
        }
        let times = measure(ways, &block);
        let cells: Vec<String> = times.iter().map(|t| format!("{:.2} µs ({:.2})", t * 1e6, times[0] / t)).collect();
        println!("| {name} | {} |", cells.join(" | "));
    }
}

pub fn run() {
    assert!(is_x86_feature_detected!("avx2"));
    println!("CPU time of the thread, least of {ROUNDS} rounds; in brackets the proved one's time to it.");
    table("Shuffle", [proved_shuffle, plain_shuffle, generic_shuffle, sse2_shuffle, avx2_shuffle], shuffled);
    table("Unshuffle", [proved_unshuffle, plain_unshuffle, generic_unshuffle, sse2_unshuffle, avx2_unshuffle], unshuffled);
}
