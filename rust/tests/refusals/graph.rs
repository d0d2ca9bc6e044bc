//! 1 to 5: the graph.
use crate::common::{refusal, tables, BELOW, HUGE, NOT_FINAL};
use hirqazhom::{Graph, Place, Refusal, Tables, NO_STATE};

/// What makes a bad graph of a good one.
type Spoil = fn(&mut Tables);

const FIRST: Place = Place::Arc { state: 0, arc: 0 };
const EPSILON: Place = Place::Arc { state: 1, arc: 0 };
const LAST: Place = Place::Arc { state: 1, arc: 2 };

/// Two states. 0 has an emitting arc, 1 an epsilon arc and two emitting ones.
fn good() -> Tables {
    tables(&[0.0, NOT_FINAL], &[(0, 1, 7, 0.5, 1), (1, 0, 0, 0.25, 0), (1, 1, 0, 0.5, 0), (1, 2, 0, 0.5, 1)])
}

fn built(spoil: Spoil) -> Result<(), Refusal> {
    let mut t = good();
    spoil(&mut t);
    Graph::new(t).map(drop)
}

fn all_refused(number: u32, cases: &[(&str, Place, Spoil)]) {
    for (name, place, spoil) in cases {
        assert_eq!(built(*spoil), Err(refusal(number, *place)), "{name}");
    }
}

fn all_accepted(cases: &[(&str, Spoil)]) {
    for (name, spoil) in cases {
        assert_eq!(built(*spoil), Ok(()), "{name}");
    }
}

/// So many states without arcs.
fn bare(t: &mut Tables, states: usize) {
    *t = tables(&vec![NOT_FINAL; states], &[]);
}

/// One state with so many arcs.
fn bushy(t: &mut Tables, arcs: usize) {
    *t = tables(&[0.0], &vec![(0, 1, 0, 0.0, 0); arcs]);
}

#[test]
fn by_1_where_the_slices_do_not_fit_together() {
    all_refused(
        1,
        &[
            ("no offsets", Place::Nowhere, |t| t.offsets.clear()),
            ("an offset too few", Place::Nowhere, |t| t.offsets = vec![0, 4]),
            ("an offset too many", Place::Nowhere, |t| t.offsets = vec![0, 1, 4, 4]),
            ("offsets that do not begin at 0", Place::Nowhere, |t| t.offsets = vec![1, 1, 4]),
            ("offsets that fall", Place::Nowhere, |t| t.offsets = vec![0, 5, 4]),
            ("offsets that end before the arcs do", Place::Nowhere, |t| t.offsets = vec![0, 1, 3]),
            ("offsets that pass the arcs", Place::Nowhere, |t| t.offsets = vec![0, 1, 5]),
            ("a final weight too many", Place::Nowhere, |t| t.finals.push(0.0)),
            ("a label too few", Place::Nowhere, |t| t.ilabels.truncate(3)),
            ("a word too few", Place::Nowhere, |t| t.olabels.truncate(3)),
            ("a weight too many", Place::Nowhere, |t| t.weights.push(0.0)),
            ("a target too few", Place::Nowhere, |t| t.nextstates.truncate(3)),
        ],
    );
}

#[test]
fn by_1_where_there_is_too_much() {
    all_refused(
        1,
        &[
            ("65,536 states", Place::Nowhere, |t| bare(t, 65_536)),
            ("1,048,577 arcs", Place::Nowhere, |t| bushy(t, 1_048_577)),
            ("65,538 entries of pdfs", Place::Nowhere, |t| t.tid2pdf.resize(65_538, 0)),
            ("65,538 entries of phones", Place::Nowhere, |t| t.tid2phone.resize(65_538, 1)),
        ],
    );
    all_accepted(&[
        ("65,535 states", |t| bare(t, 65_535)),
        ("1,048,576 arcs", |t| bushy(t, 1_048_576)),
        ("65,537 entries of pdfs", |t| t.tid2pdf.resize(65_537, 0)),
        ("65,537 entries of phones", |t| t.tid2phone.resize(65_537, 1)),
    ]);
}

#[test]
fn by_2_where_there_is_no_such_state() {
    all_refused(
        2,
        &[
            ("a start past the states", Place::Nowhere, |t| t.start = 2),
            ("a start just below NO_STATE", Place::Nowhere, |t| t.start = NO_STATE - 1),
            ("a first target past the states", FIRST, |t| t.nextstates[0] = 2),
            ("a last target that is NO_STATE", LAST, |t| t.nextstates[3] = NO_STATE),
        ],
    );
    all_accepted(&[("a start that is the last state", |t| t.start = 1), ("no start", |t| t.start = NO_STATE)]);
}

#[test]
fn by_3_where_a_label_has_no_pdf() {
    all_refused(
        3,
        &[
            ("a label below 0", FIRST, |t| t.ilabels[0] = -1),
            ("the least label", FIRST, |t| t.ilabels[0] = i32::MIN),
            ("a label past both tables", LAST, |t| t.ilabels[3] = 3),
            ("the largest label", LAST, |t| t.ilabels[3] = i32::MAX),
            ("a label past the pdfs", LAST, |t| t.tid2pdf.truncate(2)),
            ("a label past the phones", LAST, |t| t.tid2phone.truncate(2)),
            ("a pdf below 0", FIRST, |t| t.tid2pdf[1] = -1),
            ("a pdf past the last", FIRST, |t| t.tid2pdf[1] = 2),
            ("no pdfs at all", FIRST, |t| t.pdfs = 0),
        ],
    );
    all_accepted(&[("an unused label without a pdf", |t| t.tid2pdf.push(-7)), ("tables that differ in length", |t| t.tid2phone.push(3))]);
}

#[test]
fn by_4_where_a_used_label_has_no_phone() {
    all_refused(4, &[("phone 0", FIRST, |t| t.tid2phone[1] = 0), ("a phone below 0", LAST, |t| t.tid2phone[2] = -1)]);
    all_accepted(&[("an unused label without a phone", |t| t.tid2phone.push(-1))]);
}

#[test]
fn by_5_where_an_arc_has_no_such_weight() {
    all_refused(
        5,
        &[
            ("NaN", FIRST, |t| t.weights[0] = f32::NAN),
            ("infinite", LAST, |t| t.weights[3] = f32::INFINITY),
            ("infinite below", LAST, |t| t.weights[3] = f32::NEG_INFINITY),
            ("2^100", FIRST, |t| t.weights[0] = HUGE),
            ("-2^100", FIRST, |t| t.weights[0] = -HUGE),
            ("an epsilon arc below 0", EPSILON, |t| t.weights[1] = -f32::from_bits(1)),
            ("an epsilon arc of NaN", EPSILON, |t| t.weights[1] = f32::NAN),
        ],
    );
    all_accepted(&[
        ("just below 2^100", |t| t.weights[0] = BELOW),
        ("just above -2^100", |t| t.weights[0] = -BELOW),
        ("an epsilon arc just below 2^100", |t| t.weights[1] = BELOW),
        ("an epsilon arc of -0", |t| t.weights[1] = -0.0),
    ]);
}

#[test]
fn by_5_where_a_state_has_no_such_final_weight() {
    all_refused(
        5,
        &[
            ("NaN", Place::State(0), |t| t.finals[0] = f32::NAN),
            ("infinite below", Place::State(1), |t| t.finals[1] = f32::NEG_INFINITY),
            ("2^100", Place::State(1), |t| t.finals[1] = HUGE),
            ("-2^100", Place::State(1), |t| t.finals[1] = -HUGE),
        ],
    );
    all_accepted(&[
        ("no final state", |t| t.finals = vec![NOT_FINAL; 2]),
        ("just below 2^100", |t| t.finals[1] = BELOW),
        ("just above -2^100", |t| t.finals[1] = -BELOW),
    ]);
}

#[test]
fn shape_then_start_then_arcs_in_order_then_final_weights() {
    let spoilt = |number, place, spoil: Spoil| assert_eq!(built(spoil), Err(refusal(number, place)));
    spoilt(1, Place::Nowhere, |t| (t.start, t.offsets) = (9, vec![]));
    spoilt(2, Place::Nowhere, |t| (t.start, t.ilabels[0]) = (9, -1));
    spoilt(5, FIRST, |t| (t.weights[0], t.nextstates[1]) = (f32::NAN, 9));
    spoilt(2, FIRST, |t| (t.nextstates[0], t.ilabels[0]) = (9, -1));
    spoilt(3, FIRST, |t| (t.tid2pdf[1], t.tid2phone[1]) = (-1, 0));
    spoilt(4, FIRST, |t| (t.tid2phone[1], t.weights[0]) = (0, f32::NAN));
    spoilt(5, LAST, |t| (t.weights[3], t.finals[0]) = (f32::NAN, f32::NAN));
}
