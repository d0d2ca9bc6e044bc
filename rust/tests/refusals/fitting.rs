//! 6, 13 and 14: a fitting, a start and a keep margin.
use crate::common::{decoder, fit, refusal, tables, two_words, BELOW, CONFIG, HUGE};
use hirqazhom::{Config, Decoder, Fitted, Graph, Lengths, Place, Refusal, Tables};

const NOT_FAIR: [f32; 6] = [f32::NAN, f32::INFINITY, f32::NEG_INFINITY, HUGE, -1.0, f32::from_bits(0x8000_0001)];
const FAIR: [f32; 4] = [0.0, -0.0, 1.0, BELOW];

/// From state 0 an epsilon arc with word 5 to state 1, and one with word 6 that costs as much; from there one to state 2.
fn epsilons() -> Tables {
    tables(&[0.0; 3], &[(0, 0, 5, 1.0, 1), (0, 0, 6, 1.0, 1), (1, 0, 0, 1.0, 2)])
}

/// Why there is no decoder.
fn unfit(f: Fitted) -> Option<Refusal> {
    match f {
        Fitted::Unfit(why) => Some(why),
        _ => None,
    }
}

/// The decoder whose own start was refused, and why.
fn not_started(f: Fitted) -> (Decoder, Refusal) {
    match f {
        Fitted::Refused(d, why) => (d, why),
        Fitted::Done(_) => panic!("the start is accepted"),
        Fitted::Unfit(why) => panic!("{why}"),
    }
}

#[test]
fn by_6_where_a_setting_is_out_of_range() {
    let judged = |config| unfit(fit(two_words(), config, 10, 10));
    for x in NOT_FAIR {
        assert_eq!(judged(Config { beam: x, ..CONFIG }), Some(refusal(6, Place::Nowhere)), "beam {x}");
        assert_eq!(judged(Config { beam_delta: x, ..CONFIG }), Some(refusal(6, Place::Nowhere)), "beam_delta {x}");
    }
    for x in FAIR {
        assert_eq!(judged(Config { beam: x, beam_delta: x, ..CONFIG }), None, "{x}");
    }
    for (max_active, min_active) in [(0, 0), (2, 2), (1, 2), (0, u32::MAX), (u32::MAX, u32::MAX)] {
        assert_eq!(judged(Config { max_active, min_active, ..CONFIG }), Some(refusal(6, Place::Nowhere)), "{max_active} and {min_active}");
    }
    for (max_active, min_active) in [(1, 0), (2, 1), (u32::MAX, u32::MAX - 1)] {
        assert_eq!(judged(Config { max_active, min_active, ..CONFIG }), None, "{max_active} and {min_active}");
    }
}

#[test]
fn by_6_where_a_store_does_not_fit() -> Result<(), Refusal> {
    let graph = std::sync::Arc::new(Graph::new(two_words())?);
    let judged = |states, records| unfit(Decoder::fit(graph.clone(), CONFIG, Lengths { states, records, queue: 0 }));
    assert_eq!(judged(0, 10), Some(refusal(6, Place::Nowhere)));
    assert_eq!(judged(1, 10), Some(refusal(6, Place::Nowhere)));
    assert_eq!(judged(2, 1_048_577), Some(refusal(6, Place::Nowhere)));
    assert_eq!(judged(2, 1_048_576), None);
    assert_eq!(judged(3, 0), None);
    Ok(())
}

#[test]
fn by_6_where_a_margin_is_out_of_range() -> Result<(), Refusal> {
    let mut d = decoder(two_words());
    for x in NOT_FAIR {
        assert_eq!(d.set_keep(Some(x)), Err(refusal(6, Place::Nowhere)), "{x}");
    }
    for x in FAIR {
        d.set_keep(Some(x))?;
    }
    d.set_keep(None)
}

#[test]
fn by_13_where_a_start_wants_a_record() -> Result<(), Refusal> {
    let full = refusal(13, Place::Nowhere);
    let (mut d, why) = not_started(fit(epsilons(), CONFIG, 0, 10));
    assert_eq!((why, d.start()), (full, Err(full)));

    // Without a margin one record is enough; with one the second word wants a join beside it.
    let mut d = fit(epsilons(), CONFIG, 1, 10).started()?;
    d.set_keep(Some(0.0))?;
    assert_eq!(d.start(), Err(full));
    let mut d = fit(epsilons(), CONFIG, 2, 10).started()?;
    d.set_keep(Some(0.0))?;
    d.start()
}

#[test]
fn by_14_where_a_start_finds_the_queue_full() -> Result<(), Refusal> {
    let full = refusal(14, Place::Nowhere);
    let (mut d, why) = not_started(fit(epsilons(), CONFIG, 10, 0));
    assert_eq!((why, d.start()), (full, Err(full)));

    // Without a margin one place is enough; with one the join puts state 1 on the queue once more.
    let mut d = fit(epsilons(), CONFIG, 10, 1).started()?;
    d.set_keep(Some(0.0))?;
    assert_eq!(d.start(), Err(full));
    let mut d = fit(epsilons(), CONFIG, 10, 2).started()?;
    d.set_keep(Some(0.0))?;
    d.start()
}

#[test]
fn settings_then_the_start_and_there_record_join_and_push() -> Result<(), Refusal> {
    // The second arc wants a record and a second place of the queue.
    let fork = || tables(&[0.0; 3], &[(0, 0, 0, 1.0, 1), (0, 0, 5, 1.0, 2)]);
    assert_eq!(unfit(fit(fork(), Config { beam: -1.0, ..CONFIG }, 0, 0)), Some(refusal(6, Place::Nowhere)));
    assert_eq!(not_started(fit(fork(), CONFIG, 0, 1)).1, refusal(13, Place::Nowhere));
    assert_eq!(not_started(fit(fork(), CONFIG, 1, 1)).1, refusal(14, Place::Nowhere));
    fit(fork(), CONFIG, 1, 2).started()?;

    // The second arc wants a join and a second place of the queue.
    let mut d = fit(epsilons(), CONFIG, 1, 1).started()?;
    d.set_keep(Some(0.0))?;
    assert_eq!(d.start(), Err(refusal(13, Place::Nowhere)));
    Ok(())
}
