//! A refused call changes no later answer, and a refused read no output.
mod common;
use common::{decoder, fit, recorded_graph, segment, tables, told, two_words, CONFIG, HUGE, NOT_FINAL, RECORDED};
use hirqazhom::{Decoder, Fitted, KeptStores, Output, Places, Refusal, SilenceWeighting, Tables};

/// 2^99.
const HALF: f32 = HUGE / 2.0;

/// Words, epsilon arcs and joins; each state has an arc of label 3 that no usual frame lets pass.
fn graph() -> Tables {
    let from_0 = [(0, 1, 5, 1.0, 1), (0, 1, 6, 1.0, 1), (0, 2, 0, 0.5, 0), (0, 3, 0, HALF, 0)];
    let from_1 = [(1, 0, 7, 0.25, 2), (1, 1, 0, 0.5, 1), (1, 3, 0, HALF, 1)];
    let from_2 = [(2, 2, 8, 0.0, 0), (2, 1, 0, 0.25, 2), (2, 3, 0, HALF, 2)];
    tables(&[NOT_FINAL, 0.5, 0.0], &[&from_0[..], &from_1, &from_2].concat())
}

enum Step {
    Start,
    Keep(Option<f32>),
    Frame([f32; 3]),
}
use Step::{Frame, Keep, Start};

const STEPS: [Step; 12] = [
    Frame([-1.0, -1.0, 0.0]),
    Keep(Some(2.0)),
    Frame([-0.5, -2.0, 0.0]),
    Frame([-1.0, -0.5, 0.0]),
    Frame([-1.0, -1.0, 0.0]),
    Keep(Some(0.5)),
    Start,
    Frame([0.0, -0.0, 0.0]),
    Frame([-0.25, -0.5, 0.0]),
    Keep(None),
    Frame([-3.0, -0.5, 0.0]),
    Frame([-0.5, -0.5, 0.0]),
];

fn go(d: &mut Decoder, step: &Step) -> Result<(), Refusal> {
    match step {
        Start => d.start(),
        Keep(margin) => d.set_keep(*margin),
        Frame(loglikes) => d.frame(loglikes),
    }
}

/// Frames, a margin and reads that are always refused, by their numbers.
fn refuse(d: &mut Decoder) {
    let nothing = &mut Output::new(Places::new(0, 0, 0));
    let refused = [
        (8, d.frame(&[0.0, 0.0])),
        (9, d.frame(&[0.0, f32::NAN, 0.0])),
        (12, d.frame(&[0.0, 0.0, -1.5 * HALF])),
        (6, d.set_keep(Some(-1.0))),
        (6, d.alternatives(true, 65).map(drop)),
        (6, d.reading_list(true, 65, 1).map(drop)),
        (11, d.alternatives_into(true, 2, nothing).map(drop)),
        (11, d.reading_list_into(false, 0, 2, &mut KeptStores::new(0, 0), nothing).map(drop)),
    ];
    for (number, answer) in refused {
        assert_eq!(answer.map_err(|why| why.number), Err(number));
    }
}

/// Reads that are refused where there is a segment or a join. Gives the numbers.
fn refuse_some(d: &mut Decoder) -> [Option<u32>; 2] {
    let nothing = &mut Output::new(Places::new(0, 0, 0));
    let best = d.best_path_into(false, nothing).err();
    let list = d.reading_list_into(false, 5, 1, &mut KeptStores::new(0, 0), &mut Output::new(Places::new(64, 64, 64))).err();
    [best, list].map(|why| why.map(|r| r.number))
}

#[test]
fn every_answer_is_as_without_the_refused_calls() -> Result<(), Refusal> {
    let (mut plain, mut disturbed) = (decoder(graph()), decoder(graph()));
    let mut met = Vec::new();
    for step in &STEPS {
        refuse(&mut disturbed);
        met.extend(refuse_some(&mut disturbed).into_iter().flatten());
        go(&mut plain, step)?;
        go(&mut disturbed, step)?;
        assert_eq!(told(&mut disturbed), told(&mut plain));
    }
    assert!(met.contains(&11) && met.contains(&15), "{met:?}");
    Ok(())
}

#[test]
fn a_frame_that_a_full_store_refuses_was_not_sent() -> Result<(), Refusal> {
    // Label 2 wants a record for its word, and a place of the queue for the epsilon arc behind it.
    let t = || tables(&[0.0; 3], &[(0, 1, 0, 0.5, 0), (0, 2, 7, 0.0, 1), (1, 0, 0, 0.0, 2)]);
    for (number, records, queue) in [(13, 1, 10), (14, 10, 0)] {
        let mut plain = fit(t(), CONFIG, records, queue).started()?;
        let mut disturbed = fit(t(), CONFIG, records, queue).started()?;
        for _ in 0..5 {
            plain.frame(&[-1.0, -90.0])?;
            disturbed.frame(&[-1.0, -90.0])?;
            assert_eq!(disturbed.frame(&[-1.0, 0.0]).map_err(|why| why.number), Err(number));
            assert_eq!(told(&mut disturbed), told(&mut plain));
        }
    }
    Ok(())
}

/// No tokens and no frames.
fn is_bare(d: &mut Decoder) -> Result<bool, Refusal> {
    let nothing_read = d.best_path(true)?.is_none() && d.alternatives(true, 64)?.is_empty() && d.reading_list(false, 64, 64)?.is_empty();
    Ok(nothing_read && d.frames_decoded() == 0 && d.num_active() == 0 && d.final_relative_cost() == f32::INFINITY)
}

/// Two epsilon arcs of one cost into state 1, which has another one and goes on by label 1.
fn epsilons() -> Tables {
    tables(&[0.0; 3], &[(0, 0, 5, 1.0, 1), (0, 0, 6, 1.0, 1), (1, 0, 0, 1.0, 2), (1, 1, 0, 0.0, 1)])
}

#[test]
fn after_a_refused_fitting_frames_are_counted_and_nothing_is_heard() -> Result<(), Refusal> {
    for (number, records, queue) in [(13, 0, 10), (14, 10, 0)] {
        let Fitted::Refused(mut d, why) = fit(epsilons(), CONFIG, records, queue) else { panic!("the start is accepted") };
        assert_eq!(why.number, number);
        assert!(is_bare(&mut d)?);
        for n in 1..=3 {
            d.frame(&[0.0])?;
            assert_eq!((d.frames_decoded(), d.num_active(), d.best_path(false)?), (n, 0, None));
        }
        assert_eq!(d.start().map_err(|why| why.number), Err(number));
        assert!(is_bare(&mut d)?);
    }
    let mut d = fit(epsilons(), CONFIG, 10, 10).started()?;
    d.frame(&[0.0])?;
    assert_eq!(d.best_path(false)?.map(|p| p.words), Some(vec![5]));
    Ok(())
}

#[test]
fn after_a_refused_start_the_margin_stays() -> Result<(), Refusal> {
    // Enough for a start without a margin. With one there is a join, which wants a record and puts state 1 on the queue once more.
    for (number, records, queue) in [(13, 1, 10), (14, 10, 1)] {
        let mut d = fit(epsilons(), CONFIG, records, queue).started()?;
        let before = told(&mut d);
        d.set_keep(Some(0.0))?;
        for n in 1..=3 {
            assert_eq!(d.start().map_err(|why| why.number), Err(number));
            assert!(is_bare(&mut d)?);
            (0..n).try_for_each(|_| d.frame(&[0.0]))?;
            assert_eq!((d.frames_decoded(), d.num_active()), (n, 0));
        }
        d.set_keep(None)?;
        d.start()?;
        assert_eq!(told(&mut d), before);
    }
    Ok(())
}

/// Reads that are refused by 6 and 15, and by 11 since the recorded call has more to tell than the output holds.
fn refuse_reads(d: &mut Decoder, out: &mut Output) -> Result<(), Refusal> {
    let mut more = decoder(recorded_graph());
    RECORDED.iter().try_for_each(|frame| more.frame(frame))?;
    let kept = &mut KeptStores::new(0, 0);
    let refused = [
        (6, d.alternatives_into(false, 65, out)),
        (6, d.reading_list_into(false, 65, 2, kept, out)),
        (15, d.reading_list_into(false, 2, 2, kept, out)),
        (11, more.best_path_into(true, out).map(|_| 0)),
        (11, more.alternatives_into(true, 2, out)),
        (11, more.reading_list_into(true, 2, 2, kept, out)),
    ];
    for (number, answer) in refused {
        assert_eq!(answer.map_err(|why| why.number), Err(number));
    }
    Ok(())
}

#[test]
fn an_output_is_as_it_was_after_a_refused_read() -> Result<(), Refusal> {
    let mut d = decoder(two_words());
    d.set_keep(Some(0.0))?;
    d.frame(&[0.0])?;
    let mut out = Output::new(Places::new(2, 2, 2));

    d.alternatives_into(false, 2, &mut out)?;
    let paths = out.paths();
    assert_eq!((paths.len(), out.readings().len()), (1, 0));
    refuse_reads(&mut d, &mut out)?;
    assert_eq!((out.paths(), out.readings().len()), (paths, 0));

    let mut kept = KeptStores::of(&d, 2);
    d.reading_list_into(false, 2, 2, &mut kept, &mut out)?;
    let readings = out.readings();
    assert_eq!((readings.len(), out.paths().len()), (2, 0));
    refuse_reads(&mut d, &mut out)?;
    assert_eq!((out.readings(), out.paths().len()), (readings, 0));
    Ok(())
}

#[test]
fn a_refused_silence_call_leaves_the_state() -> Result<(), Refusal> {
    let new = || SilenceWeighting::new(&[1], 0.25, 3, 300);
    let (mut plain, mut disturbed) = (new()?, new()?);
    for n in [2, 7, 150, 149, 300] {
        let segments = [segment(1, 0, n / 2), segment(2, n / 2, n)];
        let refused = [
            disturbed.compute_current_traceback(&segments, 301),
            disturbed.compute_current_traceback(&[segment(2, 3, 2)], n),
            disturbed.get_delta_weights(1000, 0, 2000).map(drop),
            disturbed.get_delta_weights(6, 0, 2).map(drop),
        ];
        assert_eq!(refused.map(|answer| answer.map_err(|why| why.number)), [Err(10), Err(10), Err(10), Err(11)]);
        assert_eq!(disturbed.frames(), plain.frames());
        for s in [&mut plain, &mut disturbed] {
            s.compute_current_traceback(&segments, n)?;
        }
        let ready = u64::from(3 * n);
        assert_eq!(disturbed.get_delta_weights(ready, 0, 900)?, plain.get_delta_weights(ready, 0, 900)?);
    }
    Ok(())
}
