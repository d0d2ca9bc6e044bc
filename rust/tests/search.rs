//! The search, judged on readings that are lists of their own.
mod common;
#[path = "random/rng.rs"]
#[allow(dead_code)]
mod rng;

use common::refusal;
use hirqazhom::{find, Place};
use rng::Rng;

/// Writes the readings one behind another and asks for the word: the first that has it is given.
fn judge(word: i32, readings: &[Vec<i32>]) {
    let ends: Vec<u32> = readings
        .iter()
        .scan(0, |end, reading| {
            *end += reading.len() as u32;
            Some(*end)
        })
        .collect();
    let first = readings.iter().position(|reading| reading.contains(&word));
    assert_eq!(find(word, &ends, &readings.concat()), Ok(first), "{word} in readings that end at {ends:?}");
}

#[test]
fn every_list_of_up_to_four_short_readings() {
    let short: [&[i32]; 7] = [&[], &[7], &[8], &[7, 7], &[7, 8], &[8, 7], &[8, 8]];
    let mut lists: Vec<Vec<Vec<i32>>> = vec![Vec::new()];
    for _ in 0..4 {
        lists = lists.iter().flat_map(|list| short.iter().map(move |&last| [list.as_slice(), &[last.to_vec()]].concat())).collect();
        for list in &lists {
            [7, 8, 9].iter().for_each(|&word| judge(word, list));
        }
    }
    judge(7, &[]);
}

#[test]
fn long_lists() {
    let mut r = Rng(8);
    for _ in 0..200 {
        let most = r.pick(&[2, 12, 120]);
        let readings: Vec<Vec<i32>> = (0..r.below(2_000)).map(|_| (0..r.below(most)).map(|_| r.below(1_000) as i32 - 500).collect()).collect();
        for word in [r.below(1_000) as i32 - 500, 0, 1_000, i32::MIN, i32::MAX] {
            judge(word, &readings);
        }
    }
}

#[test]
fn the_least_and_the_largest_word() {
    judge(i32::MIN, &[vec![], vec![0, i32::MAX], vec![i32::MIN], vec![i32::MIN]]);
    judge(i32::MAX, &[vec![i32::MIN, -1], vec![i32::MAX], vec![], vec![i32::MAX]]);
}

#[test]
fn a_wrong_end_behind_a_hit_is_refused() {
    for ends in [[1, 0], [1, 3], [1, u32::MAX]] {
        assert_eq!(find(7, &ends, &[7, 7]), Err(refusal(11, Place::Nowhere)), "{ends:?}");
    }
}
