//! Every refusal from the smallest input that shows it, with its place, and what lies just beside it accepted.
#[path = "../common/mod.rs"]
mod common;
mod fitting;
mod frames;
mod graph;
mod reads;
mod silence;

use common::refusal;
use hirqazhom::Place;

#[test]
fn a_refusal_says_its_number_and_its_place() {
    let texts = [
        (refusal(7, Place::Nowhere), "refused by number 7"),
        (refusal(2, Place::Arc { state: 4, arc: 1 }), "refused by number 2 at arc 1 of state 4"),
        (refusal(5, Place::State(3)), "refused by number 5 at state 3"),
        (refusal(8, Place::Frames(0)), "refused by number 8, frames decoded: 0"),
    ];
    for (why, text) in texts {
        assert_eq!(why.to_string(), text);
    }
}
