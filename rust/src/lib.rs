//! A safe wrapper of the proved decoder (`crates/hirqazhom`). It owns the graph and the stores, so that nobody else can write them between two calls: that is all that the
//! proofs ask of a caller. `docs/MANUAL.md` says what the calls do and what each refusal means.
//!
//! The library does not call back, keeps nothing between calls, and has no other state than what is lent to it. Nothing here panics, whatever it is given: what cannot be
//! done is refused by a number, and so is what there is no memory for, but for the vectors of an answer.
//!
//! ```
//! use hirqazhom::{Config, Decoder, Graph, Lengths, Tables};
//!
//! // One state that stays with itself: each frame is heard as word 7.
//! let graph = Graph::new(Tables {
//!     offsets: vec![0, 1],
//!     ilabels: vec![1],
//!     olabels: vec![7],
//!     weights: vec![0.5],
//!     nextstates: vec![0],
//!     finals: vec![0.0],
//!     tid2pdf: vec![-1, 0],
//!     tid2phone: vec![0, 1],
//!     start: 0,
//!     pdfs: 1,
//! })?;
//! let lengths = Lengths::of(&graph, 64);
//! let config = Config { beam: 8.0, max_active: 100, min_active: 0, beam_delta: 0.5 };
//! let mut decoder = Decoder::fit(graph.into(), config, lengths).started()?;
//!
//! decoder.frame(&[-1.0])?;
//! decoder.frame(&[-2.0])?;
//! let path = decoder.best_path(true)?.expect("a token is active");
//! assert_eq!((path.words, path.frames), (vec![7, 7], vec![0, 1]));
//!
//! // A frame that is not as long as there are pdfs is refused by 8, and changes no later answer.
//! let why = decoder.frame(&[]).unwrap_err();
//! assert_eq!((why.number, why.place), (8, hirqazhom::Place::Frames(2)));
//! assert_eq!(decoder.frames_decoded(), 2);
//! # Ok::<(), hirqazhom::Refusal>(())
//! ```
#![deny(missing_docs)]
mod ffi;

/// Calls an entry point: `w` lends a slice that is written, `r` one that is read, `v` passes a value.
macro_rules! call {
    ($f:ident [$($args:tt)*]) => {
        // SAFETY: a slice's pointer and length come from one live slice, and those that are written are all different.
        unsafe { crate::ffi::$f($($args)*) }
    };
    ($f:ident [$($args:tt)*] w $x:expr, $($rest:tt)*) => { call!($f [$($args)* $x.as_mut_ptr(), $x.len(),] $($rest)*) };
    ($f:ident [$($args:tt)*] r $x:expr, $($rest:tt)*) => { call!($f [$($args)* $x.as_ptr(), $x.len(),] $($rest)*) };
    ($f:ident [$($args:tt)*] v $x:expr, $($rest:tt)*) => { call!($f [$($args)* $x,] $($rest)*) };
}

/// Numbers that are 0 where all their bits are.
trait Number: Copy {}
impl Number for u8 {}
impl Number for u32 {}
impl Number for i32 {}
impl Number for u64 {}
impl Number for f32 {}

/// So many times `each` zeros, or none where there is no memory for them: what needs them is then refused by its number.
fn zeros<T: Number>(each: usize, places: usize) -> Vec<T> {
    let n = each.saturating_mul(places);
    match std::alloc::Layout::array::<T>(n) {
        Ok(layout) if n > 0 => {
            // SAFETY: the layout is that of n numbers and not empty.
            let start = unsafe { std::alloc::alloc_zeroed(layout) }.cast::<T>();
            if start.is_null() {
                return Vec::new();
            }
            // SAFETY: n numbers whose bits are all 0, allocated with the layout by which a vector frees them.
            unsafe { Vec::from_raw_parts(start, n, n) }
        }
        _ => Vec::new(),
    }
}

mod courses;
mod decoder;
mod graph;
mod reads;
mod refusal;
mod shuffle;
mod silence;

pub use courses::{course, Course};
pub use decoder::{Decoder, Fitted, Lengths};
pub use ffi::constants::{self, NO_STATE};
pub use ffi::Config;
pub use graph::{Graph, Tables};
pub use reads::{find, KeptStores, Output, Path, Places, Reading, Segment, Token};
pub use refusal::{NoLine, Place, Refusal};
pub use shuffle::{shuffle, unshuffle};
pub use silence::{trailing_silence_frames, SilenceWeighting};
