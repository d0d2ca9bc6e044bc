//! The README's recorded call: two paths tie to the last bit, and the written rule decides.
mod common;
use common::{decoder, recorded_graph, segment, told, RECORDED};
use hirqazhom::{find, Decoder, Refusal};

fn heard() -> Result<Decoder, Refusal> {
    let mut d = decoder(recorded_graph());
    for frame in &RECORDED {
        d.frame(frame)?;
    }
    Ok(d)
}

#[test]
fn the_words_come_with_their_frames() -> Result<(), Refusal> {
    let d = heard()?;
    let path = d.best_path(true)?.expect("a token is active");
    assert_eq!((path.words, path.frames), (vec![2, 3], vec![2, 5]));
    assert_eq!((d.frames_decoded(), d.final_relative_cost()), (8, 0.0));
    Ok(())
}

#[test]
fn the_segments_run_from_silence_to_carrier_two() -> Result<(), Refusal> {
    let path = heard()?.best_path(true)?.expect("a token is active");
    assert_eq!(path.segments, [segment(1, 0, 2), segment(2, 2, 5), segment(3, 5, 8)]);
    Ok(())
}

#[test]
fn three_hearings_are_one_to_the_bit() -> Result<(), Refusal> {
    let mut d = heard()?;
    let first = told(&mut d);
    for _ in 0..2 {
        d.start()?;
        assert_eq!((d.frames_decoded(), d.num_active(), d.final_relative_cost()), (0, 1, f32::INFINITY));
        for frame in &RECORDED {
            d.frame(frame)?;
        }
        assert_eq!(told(&mut d), first);
    }
    Ok(())
}

#[test]
fn the_two_carriers_tie_and_carrier_two_comes_first() -> Result<(), Refusal> {
    let mut d = heard()?;
    let paths = d.alternatives(true, 64)?;
    let words: Vec<&[i32]> = paths.iter().map(|p| p.words.as_slice()).collect();
    assert_eq!(words, [[2, 3], [2, 4]]);
    assert_eq!(paths[0].cost.to_bits(), paths[1].cost.to_bits());
    assert_eq!(paths[1].segments[2], segment(4, 5, 8));
    assert_eq!(d.best_path(true)?.as_ref(), Some(&paths[0]));
    Ok(())
}

#[test]
fn a_word_is_found_in_the_reading_list() -> Result<(), Refusal> {
    let readings = heard()?.reading_list(true, 2, 2)?;
    let words: Vec<i32> = readings.iter().flat_map(|r| r.words.clone()).collect();
    let ends: Vec<u32> = (1..=readings.len()).map(|n| readings[..n].iter().map(|r| r.words.len() as u32).sum()).collect();
    assert_eq!((words.as_slice(), ends.as_slice()), ([2, 3, 2, 4].as_slice(), [2, 4].as_slice()));
    assert_eq!((find(3, &ends, &words)?, find(4, &ends, &words)?), (Some(0), Some(1)));
    assert_eq!(find(2, &ends, &words)?, Some(0), "both have it, and the first is given");
    assert_eq!(find(9, &ends, &words)?, None);
    Ok(())
}
