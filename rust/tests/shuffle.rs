//! Shuffle and unshuffle, against a plain version of each.
mod common;
#[path = "random/rng.rs"]
#[allow(dead_code)]
mod rng;

use common::refusal;
use hirqazhom::{shuffle, unshuffle, Place, Refusal};
use rng::Rng;

/// What an output is filled with before a call.
const PATTERN: u8 = 0xa5;

type Call = fn(&[u8], &mut [u8]) -> Result<(), Refusal>;

/// Of how many numbers, and a place of the output: the place in the block of the byte that goes there.
type From = fn(usize, usize) -> usize;

const WAYS: [(Call, From); 2] = [(shuffle, |n, at| at % n * 4 + at / n), (unshuffle, |n, at| at % 4 * n + at / 4)];

fn random_block(r: &mut Rng, len: usize) -> Vec<u8> {
    (0..len).map(|_| r.below(256) as u8).collect()
}

/// What a call leaves in an output of so many places.
fn given(call: Call, block: &[u8], places: usize) -> (Result<(), Refusal>, Vec<u8>) {
    let mut output = vec![PATTERN; places];
    let answer = call(block, &mut output);
    (answer, output)
}

#[test]
fn every_byte_goes_to_its_place() {
    let mut r = Rng(1);
    for n in (0..300).chain([1024, 1 << 16]) {
        let block = random_block(&mut r, 4 * n);
        for (call, from) in WAYS {
            let want = (0..4 * n).map(|at| block[from(n, at)]).collect();
            assert_eq!(given(call, &block, 4 * n), (Ok(()), want), "{n} numbers");
        }
    }
}

#[test]
fn a_length_not_divisible_by_four_is_refused_by_20_and_the_output_unchanged() {
    for len in (1..=9).chain([4095, 4097]).filter(|len| len % 4 != 0) {
        for (call, _) in WAYS {
            assert_eq!(given(call, &vec![1; len], len), (Err(refusal(20, Place::Nowhere)), vec![PATTERN; len]), "{len} bytes");
        }
    }
}

#[test]
fn an_output_of_another_length_is_refused_by_20_and_unchanged() {
    for len in [0usize, 4, 8, 4096] {
        let others = [len.checked_sub(4), len.checked_sub(1), Some(len + 1), Some(len + 4)];
        for places in others.into_iter().flatten() {
            for (call, _) in WAYS {
                assert_eq!(given(call, &vec![1; len], places), (Err(refusal(20, Place::Nowhere)), vec![PATTERN; places]), "{len} bytes, {places} places");
            }
        }
    }
}

#[test]
fn either_way_after_the_other_restores_every_block() -> Result<(), Refusal> {
    let mut r = Rng(2);
    for _ in 0..2000 {
        let len = 4 * r.below(100);
        let block = random_block(&mut r, len);
        for (there, back) in [(shuffle as Call, unshuffle as Call), (unshuffle, shuffle)] {
            let (answer, middle) = given(there, &block, len);
            answer?;
            assert_eq!(given(back, &middle, len), (Ok(()), block.clone()));
        }
    }
    Ok(())
}

/// Numbers of one exponent: the bytes that hold it lie together.
#[test]
fn bytes_of_one_rank_lie_together() -> Result<(), Refusal> {
    let block: Vec<u8> = [-1.5f32, -1.25, -1.125, -1.0625].iter().flat_map(|x| x.to_le_bytes()).collect();
    let mut output = [0; 16];
    shuffle(&block, &mut output)?;
    assert_eq!(output, [0, 0, 0, 0, 0, 0, 0, 0, 0xc0, 0xa0, 0x90, 0x88, 0xbf, 0xbf, 0xbf, 0xbf]);
    Ok(())
}
