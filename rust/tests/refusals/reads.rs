//! 6, 11 and 15: the reads and the search. They have no place.
use crate::common::{decoder, recorded_graph, refusal, two_words, RECORDED};
use hirqazhom::{find, Decoder, KeptStores, Output, Place, Places, Refusal};

/// The recorded call, with two alternatives of two words and three segments each.
fn recorded() -> Result<Decoder, Refusal> {
    let mut d = decoder(recorded_graph());
    for frame in &RECORDED {
        d.frame(frame)?;
    }
    Ok(d)
}

/// Word 5, and beside it word 6 by a join.
fn joined() -> Result<Decoder, Refusal> {
    let mut d = decoder(two_words());
    d.set_keep(Some(0.0))?;
    d.frame(&[0.0])?;
    Ok(d)
}

fn by(number: u32) -> Refusal {
    refusal(number, Place::Nowhere)
}

/// The places with one taken away, wherever there is one.
fn one_less(p: Places) -> Vec<Places> {
    let all = [
        p.entries.checked_sub(1).map(|entries| Places { entries, ..p }),
        p.words.checked_sub(1).map(|words| Places { words, ..p }),
        p.frames.checked_sub(1).map(|frames| Places { frames, ..p }),
        p.segments.checked_sub(1).map(|segments| Places { segments, ..p }),
    ];
    all.into_iter().flatten().collect()
}

/// Accepted with just these places, refused by 11 with one less anywhere. Gives the output that was enough.
fn just_enough<T>(p: Places, mut read: impl FnMut(&mut Output) -> Result<T, Refusal>) -> Result<Output, Refusal> {
    for less in one_less(p) {
        assert_eq!(read(&mut Output::new(less)).err(), Some(by(11)), "{less:?}");
    }
    let mut out = Output::new(p);
    read(&mut out)?;
    Ok(out)
}

#[test]
fn by_6_where_too_many_are_asked_for() -> Result<(), Refusal> {
    let mut d = joined()?;
    for n in [65, usize::MAX] {
        assert_eq!(d.alternatives(false, n), Err(by(6)));
        assert_eq!(d.reading_list(false, n, 64), Err(by(6)));
        assert_eq!(d.reading_list(false, 64, n), Err(by(6)));
    }
    assert_eq!(d.alternatives(false, 64)?.len(), 1);
    assert_eq!(d.reading_list(false, 64, 64)?.len(), 2);
    Ok(())
}

#[test]
fn by_11_where_a_best_path_finds_too_little_output() -> Result<(), Refusal> {
    let d = recorded()?;
    let mut out = just_enough(Places::new(0, 2, 3), |out| d.best_path_into(true, out))?;
    assert_eq!(d.best_path_into(true, &mut out)?, d.best_path(true)?);
    Ok(())
}

#[test]
fn by_11_where_alternatives_find_too_little_output() -> Result<(), Refusal> {
    let mut d = recorded()?;
    just_enough(Places::new(1, 2, 3), |out| d.alternatives_into(true, 1, out))?;
    let out = just_enough(Places::new(2, 4, 6), |out| d.alternatives_into(true, 64, out))?;
    assert_eq!(out.paths(), d.alternatives(true, 64)?);
    Ok(())
}

#[test]
fn by_11_where_a_reading_list_finds_too_little_output() -> Result<(), Refusal> {
    let mut d = joined()?;
    let mut kept = KeptStores::of(&d, 2);
    // All readings have their words; those that are traced have frames and segments too.
    for max in [0, 1, 2] {
        let p = Places { entries: 2, words: 2, frames: max, segments: max };
        let out = just_enough(p, |out| d.reading_list_into(false, 2, max, &mut kept, out))?;
        assert_eq!(out.readings(), d.reading_list(false, 2, max)?);
    }
    Ok(())
}

#[test]
fn by_15_where_a_reading_list_finds_too_few_places_for_joins() -> Result<(), Refusal> {
    let mut d = joined()?;
    let mut list = |entries, kept, listed| {
        let mut out = Output::new(Places::new(2, 2, 2));
        d.reading_list_into(false, listed, 2, &mut KeptStores::new(entries, kept), &mut out)
    };
    // The join's list has its own way and the kept one, and the second is a kept reading.
    for (entries, kept) in [(0, 0), (2, 0), (1, 1), (0, 1)] {
        assert_eq!(list(entries, kept, 2), Err(by(15)), "{entries} and {kept}");
    }
    assert_eq!(list(2, 1, 2), Ok(2));
    assert_eq!(list(0, 0, 0), Ok(1));
    d.set_keep(None)?;
    assert_eq!(d.reading_list_into(false, 2, 2, &mut KeptStores::new(0, 0), &mut Output::new(Places::new(1, 1, 1))), Ok(1));
    Ok(())
}

#[test]
fn counts_then_joins_then_output() -> Result<(), Refusal> {
    let mut d = joined()?;
    let (mut none, mut no_output) = (KeptStores::new(0, 0), Output::new(Places::new(0, 0, 0)));
    assert_eq!(d.alternatives_into(false, 65, &mut no_output), Err(by(6)));
    assert_eq!(d.reading_list_into(false, 65, 2, &mut none, &mut no_output), Err(by(6)));
    assert_eq!(d.reading_list_into(false, 2, 2, &mut none, &mut no_output), Err(by(15)));
    assert_eq!(d.reading_list_into(false, 2, 2, &mut KeptStores::new(2, 1), &mut no_output), Err(by(11)));
    Ok(())
}

#[test]
fn by_11_where_ends_fall_or_pass_the_words() {
    for ends in [&[2, 1][..], &[3], &[0, 3], &[u32::MAX]] {
        assert_eq!(find(5, ends, &[5, 6]), Err(by(11)), "{ends:?}");
    }
    assert_eq!(find(5, &[1, 1, 2], &[5, 6]), Ok(Some(0)));
    assert_eq!(find(6, &[1, 1, 2], &[5, 6]), Ok(Some(2)));
    assert_eq!(find(6, &[1], &[5, 6]), Ok(None));
    assert_eq!(find(5, &[], &[]), Ok(None));
}
