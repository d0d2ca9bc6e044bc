//! What the library has for C, as Rust sees it. Written by tools/declare.py from crates/hirqazhom/src/lib.rt: change it there.
use std::mem::{offset_of, size_of};

/// The refusals' numbers, the limits, and the places of a verdict.
pub mod constants {
    /// Of the graph builder: its counts, its offsets or the lengths of its slices.
    pub const BAD_SHAPE: u32 = 1;

    /// A start or an arc's target that is no state.
    pub const NO_SUCH_STATE: u32 = 2;

    /// An input label below 0, past a table, or with a pdf out of range.
    pub const BAD_LABEL: u32 = 3;

    /// A used label whose phone is below 1.
    pub const BAD_PHONE: u32 = 4;

    /// An arc weight or a final weight.
    pub const BAD_WEIGHT: u32 = 5;

    /// Settings or lent stores of a fitting, a keep margin, or the counts asked of a read.
    pub const BAD_SETTING: u32 = 6;

    /// Settings of the silence weighting.
    pub const BAD_SILENCE_SETTING: u32 = 7;

    /// A frame that is not as long as there are pdfs.
    pub const BAD_FRAME_LENGTH: u32 = 8;

    /// A log-likelihood that is not finite, or of magnitude 2^100 or more.
    pub const BAD_LOGLIKE: u32 = 9;

    /// A frame after the last, or a silence call that needs, names or brings too many.
    pub const TOO_MANY_FRAMES: u32 = 10;

    /// An output slice shorter than the whole answer, or a reading list brought to the search whose parts fall or overrun its words.
    pub const TOO_SHORT: u32 = 11;

    /// A total or a graph sum of magnitude 2^100 or more.
    pub const SUM_TOO_LARGE: u32 = 12;

    /// Live records fill the store.
    pub const RECORDS_FULL: u32 = 13;

    /// The epsilon queue is full.
    pub const QUEUE_FULL: u32 = 14;

    /// The lists below joins, or the kept readings, have more entries than their store.
    pub const LISTS_FULL: u32 = 15;

    /// An output slice shorter than a refusal's line.
    pub const LINE_TOO_LONG: u32 = 16;

    /// A block to shuffle or unshuffle whose length is not divisible by four, or an output of another length.
    pub const BAD_BLOCK: u32 = 20;

    /// Courses, or the frames in which they are knitted, outside their range, or a frame above its limit.
    pub const BAD_COURSE: u32 = 22;

    /// The states of a graph.
    pub const MAX_STATES: usize = 65_535;

    /// The arcs of a graph.
    pub const MAX_ARCS: usize = 1_048_576;

    /// The entries of a transition table: 65,536 ids, which count from 1, and entry 0.
    pub const MAX_TRANSITIONS: usize = 65_537;

    /// The places for records.
    pub const MAX_RECORDS: usize = 1_048_576;

    /// The paths or readings of one read.
    pub const MAX_LISTED: usize = 64;

    /// The frames since a start.
    pub const MAX_FRAMES: u32 = 65_536;

    /// The courses, and the frames in which they are knitted, of a frame's course.
    pub const MAX_COURSES: u32 = 65_535;

    /// The decoder frames of a silence call.
    pub const MAX_SILENCE_FRAMES: usize = 65_536;

    /// The segments of a silence call.
    pub const MAX_SEGMENTS: usize = 65_536;

    /// The input frames in a decoder frame.
    pub const MAX_SUBSAMPLING: u32 = 16;

    /// The ready and the first frame that a silence call names.
    pub const MAX_FRAME_NAMED: u64 = 4_294_967_296;

    /// The bytes of a refusal's line.
    pub const MAX_LINE: usize = 96;

    /// The start of a graph that has none.
    pub const NO_STATE: u32 = 4_294_967_295;

    /// A place of a refusal that has none.
    pub const NOWHERE: u32 = 0;

    /// The place is an arc.
    pub const AT_ARC: u32 = 1;

    /// The place is a state.
    pub const AT_STATE: u32 = 2;

    /// The place is the frames decoded.
    pub const AT_FRAMES: u32 = 3;
}

/// Whether a call was refused, by which number and where.
#[repr(C)]
#[derive(Clone, Copy, Debug, Default, PartialEq)]
pub struct Verdict {
    /// 0, or the refusal's
    pub number: u32,
    /// which of the four places
    pub place: u32,
    /// the state, or the frames decoded
    pub at: u32,
    /// counted within its state
    pub arc: u32,
}

/// The settings: the Rust's `DecoderConfig`.
#[repr(C)]
#[derive(Clone, Copy, Debug, Default, PartialEq)]
pub struct Config {
    /// a token dearer than the best by more than this is not followed, unless a count says otherwise
    pub beam: f32,
    /// where more tokens than this are within the beam, the cutoff is the cost of this number, from 0 and cheapest first
    pub max_active: u32,
    /// where at most this many are, the cutoff rises to the cost of this number
    pub min_active: u32,
    /// what is added to the cutoff's distance from the best where a count made the cutoff
    pub beam_delta: f32,
}

/// What is known of an accepted graph beside its slices: the counts of states and arcs, the start, and the count of pdfs.
#[repr(C)]
#[derive(Clone, Copy, Debug, Default, PartialEq)]
pub struct GraphCounts {
    pub states: u32,
    pub arcs: u32,
    pub start: u32,
    pub pdfs: u32,
}

/// What the decoder holds beside the lent stores: the graph's counts, the settings, the places for records, the keep margin if there is one, which table the
/// next pass writes (the other one is the finished one), the frames decoded, the latest seq and the records in use.
#[repr(C)]
#[derive(Clone, Copy, Debug, Default, PartialEq)]
pub struct Value {
    pub graph: GraphCounts,
    pub config: Config,
    pub cap: u32,
    pub keeps: bool,
    pub margin: f32,
    pub side: u32,
    pub frames: u32,
    pub seq: u32,
    pub used: u32,
}

/// Whether there is a decoder, and if so, the answer of its own start; else why not, and a decoder of zeros.
#[repr(C)]
#[derive(Clone, Copy, Debug, Default, PartialEq)]
pub struct Fitting {
    pub fitted: bool,
    pub decoder: Value,
    pub verdict: Verdict,
}

/// The decoder to go on with, refused or not.
#[repr(C)]
#[derive(Clone, Copy, Debug, Default, PartialEq)]
pub struct Answer {
    pub decoder: Value,
    pub verdict: Verdict,
}

/// A best path's counts and cost. `found` is false where no token counts; then, and after a refusal, the rest is 0.
#[repr(C)]
#[derive(Clone, Copy, Debug, Default, PartialEq)]
pub struct Path {
    pub number: u32,
    pub found: bool,
    pub words: u32,
    pub segments: u32,
    pub cost: f32,
}

/// How many paths, readings or frames; 0 after a refusal.
#[repr(C)]
#[derive(Clone, Copy, Debug, Default, PartialEq)]
pub struct Count {
    pub number: u32,
    pub count: u64,
}

/// The state of the silence weights. A call takes it and gives the next one back.
#[repr(C)]
#[derive(Clone, Copy, Debug, Default, PartialEq)]
pub struct SilenceState {
    /// the weight of silence
    pub weight: f32,
    /// input frames in a decoder frame
    pub subsampling: u32,
    /// the length of the frame list
    pub frames: u32,
}

/// The next silence state, and how many differences were written. After a refusal all is 0: go on with the state that there was.
#[repr(C)]
#[derive(Clone, Copy, Debug, Default, PartialEq)]
pub struct Silence {
    pub state: SilenceState,
    pub number: u32,
    pub count: u64,
}

/// A reading's index, from 0. `found` is false where no reading has the word.
#[repr(C)]
#[derive(Clone, Copy, Debug, Default, PartialEq)]
pub struct Index {
    pub number: u32,
    pub found: bool,
    pub index: u64,
}

/// The course at a frame, and the remainder. Both are 0 after a refusal.
#[repr(C)]
#[derive(Clone, Copy, Debug, Default, PartialEq)]
pub struct CourseAt {
    pub number: u32,
    pub course: u32,
    pub remainder: u32,
}

// Sizes and offsets are those of the library.
const _: () = {
    assert!(size_of::<Verdict>() == 16);
    assert!(offset_of!(Verdict, number) == 0);
    assert!(offset_of!(Verdict, place) == 4);
    assert!(offset_of!(Verdict, at) == 8);
    assert!(offset_of!(Verdict, arc) == 12);
    assert!(size_of::<Config>() == 16);
    assert!(offset_of!(Config, beam) == 0);
    assert!(offset_of!(Config, max_active) == 4);
    assert!(offset_of!(Config, min_active) == 8);
    assert!(offset_of!(Config, beam_delta) == 12);
    assert!(size_of::<GraphCounts>() == 16);
    assert!(offset_of!(GraphCounts, states) == 0);
    assert!(offset_of!(GraphCounts, arcs) == 4);
    assert!(offset_of!(GraphCounts, start) == 8);
    assert!(offset_of!(GraphCounts, pdfs) == 12);
    assert!(size_of::<Value>() == 60);
    assert!(offset_of!(Value, graph) == 0);
    assert!(offset_of!(Value, config) == 16);
    assert!(offset_of!(Value, cap) == 32);
    assert!(offset_of!(Value, keeps) == 36);
    assert!(offset_of!(Value, margin) == 40);
    assert!(offset_of!(Value, side) == 44);
    assert!(offset_of!(Value, frames) == 48);
    assert!(offset_of!(Value, seq) == 52);
    assert!(offset_of!(Value, used) == 56);
    assert!(size_of::<Fitting>() == 80);
    assert!(offset_of!(Fitting, fitted) == 0);
    assert!(offset_of!(Fitting, decoder) == 4);
    assert!(offset_of!(Fitting, verdict) == 64);
    assert!(size_of::<Answer>() == 76);
    assert!(offset_of!(Answer, decoder) == 0);
    assert!(offset_of!(Answer, verdict) == 60);
    assert!(size_of::<Path>() == 20);
    assert!(offset_of!(Path, number) == 0);
    assert!(offset_of!(Path, found) == 4);
    assert!(offset_of!(Path, words) == 8);
    assert!(offset_of!(Path, segments) == 12);
    assert!(offset_of!(Path, cost) == 16);
    assert!(size_of::<Count>() == 16);
    assert!(offset_of!(Count, number) == 0);
    assert!(offset_of!(Count, count) == 8);
    assert!(size_of::<SilenceState>() == 12);
    assert!(offset_of!(SilenceState, weight) == 0);
    assert!(offset_of!(SilenceState, subsampling) == 4);
    assert!(offset_of!(SilenceState, frames) == 8);
    assert!(size_of::<Silence>() == 24);
    assert!(offset_of!(Silence, state) == 0);
    assert!(offset_of!(Silence, number) == 12);
    assert!(offset_of!(Silence, count) == 16);
    assert!(size_of::<Index>() == 16);
    assert!(offset_of!(Index, number) == 0);
    assert!(offset_of!(Index, found) == 4);
    assert!(offset_of!(Index, index) == 8);
    assert!(size_of::<CourseAt>() == 12);
    assert!(offset_of!(CourseAt, number) == 0);
    assert!(offset_of!(CourseAt, course) == 4);
    assert!(offset_of!(CourseAt, remainder) == 8);
};

extern "C" {
    /// Whether a graph is accepted: refused by 1 to 5, with the arc or the state.
    pub fn hirqazhom_build(
        offsets: *const u32,
        offsets_len: usize,
        ilabels: *const i32,
        ilabels_len: usize,
        olabels: *const i32,
        olabels_len: usize,
        weights: *const f32,
        weights_len: usize,
        nextstates: *const u32,
        nextstates_len: usize,
        finals: *const f32,
        finals_len: usize,
        tid2pdf: *const i32,
        tid2pdf_len: usize,
        tid2phone: *const i32,
        tid2phone_len: usize,
        start: u32,
        pdfs: u32,
    ) -> Verdict;
    /// A new decoder over the lent stores, without margin, after its start. Slices that are only read and are no part of the graph are lent for their lengths.
    /// Refused by 1 to 6: no decoder, and nothing is changed. By 13 or 14: a decoder without tokens.
    pub fn hirqazhom_fit(
        tokens: *mut u32,
        tokens_len: usize,
        sums: *mut f32,
        sums_len: usize,
        records: *mut u32,
        records_len: usize,
        labels: *mut i32,
        labels_len: usize,
        gaps: *mut f32,
        gaps_len: usize,
        queue: *mut u32,
        queue_len: usize,
        scratch: *const f32,
        scratch_len: usize,
        keys: *const u64,
        keys_len: usize,
        places: *const u32,
        places_len: usize,
        own: *const u32,
        own_len: usize,
        heads: *const u32,
        heads_len: usize,
        list: *const u32,
        list_len: usize,
        lists: *const u32,
        lists_len: usize,
        route: *const u32,
        route_len: usize,
        history_keys: *const u64,
        history_keys_len: usize,
        history_skips: *const u32,
        history_skips_len: usize,
        kept_hashes: *const u64,
        kept_hashes_len: usize,
        kept_links: *const u32,
        kept_links_len: usize,
        kept_sums: *const f32,
        kept_sums_len: usize,
        order: *const u32,
        order_len: usize,
        eps: *mut u8,
        eps_len: usize,
        offsets: *const u32,
        offsets_len: usize,
        ilabels: *const i32,
        ilabels_len: usize,
        olabels: *const i32,
        olabels_len: usize,
        weights: *const f32,
        weights_len: usize,
        nextstates: *const u32,
        nextstates_len: usize,
        finals: *const f32,
        finals_len: usize,
        tid2pdf: *const i32,
        tid2pdf_len: usize,
        tid2phone: *const i32,
        tid2phone_len: usize,
        start: u32,
        pdfs: u32,
        config: Config,
    ) -> Fitting;
    /// Drops all tokens and records: zero frames, and the same margin. Refused by 13 or 14: so too, but without a token.
    pub fn hirqazhom_start(
        tokens: *mut u32,
        tokens_len: usize,
        sums: *mut f32,
        sums_len: usize,
        records: *mut u32,
        records_len: usize,
        labels: *mut i32,
        labels_len: usize,
        gaps: *mut f32,
        gaps_len: usize,
        queue: *mut u32,
        queue_len: usize,
        eps: *const u8,
        eps_len: usize,
        offsets: *const u32,
        offsets_len: usize,
        ilabels: *const i32,
        ilabels_len: usize,
        olabels: *const i32,
        olabels_len: usize,
        weights: *const f32,
        weights_len: usize,
        nextstates: *const u32,
        nextstates_len: usize,
        tid2pdf: *const i32,
        tid2pdf_len: usize,
        tid2phone: *const i32,
        tid2phone_len: usize,
        decoder: Value,
    ) -> Answer;
    /// One frame, with a log-likelihood for each pdf. Refused by 8 to 10: nothing is changed. By 12 to 14: no later answer is.
    pub fn hirqazhom_frame(
        tokens: *mut u32,
        tokens_len: usize,
        sums: *mut f32,
        sums_len: usize,
        records: *mut u32,
        records_len: usize,
        labels: *mut i32,
        labels_len: usize,
        gaps: *mut f32,
        gaps_len: usize,
        queue: *mut u32,
        queue_len: usize,
        scratch: *mut f32,
        scratch_len: usize,
        eps: *const u8,
        eps_len: usize,
        offsets: *const u32,
        offsets_len: usize,
        ilabels: *const i32,
        ilabels_len: usize,
        olabels: *const i32,
        olabels_len: usize,
        weights: *const f32,
        weights_len: usize,
        nextstates: *const u32,
        nextstates_len: usize,
        tid2pdf: *const i32,
        tid2pdf_len: usize,
        tid2phone: *const i32,
        tid2phone_len: usize,
        loglikes: *const f32,
        loglikes_len: usize,
        decoder: Value,
    ) -> Answer;
    /// The keep margin, or none. Refused by 6: the same decoder.
    pub fn hirqazhom_set_keep(decoder: Value, keeps: bool, margin: f32) -> Answer;
    /// Frames since the start.
    pub fn hirqazhom_frames_decoded(decoder: Value) -> u32;
    /// How many tokens are active.
    pub fn hirqazhom_num_active(tokens: *const u32, tokens_len: usize, decoder: Value) -> u32;
    /// The least sum of cost and final weight, less the least cost; infinite where no active state is final.
    pub fn hirqazhom_final_relative_cost(
        tokens: *const u32,
        tokens_len: usize,
        sums: *const f32,
        sums_len: usize,
        finals: *const f32,
        finals_len: usize,
        decoder: Value,
    ) -> f32;
    /// The best path: words, a frame for each, and segments of three numbers: phone, start, end. Refused by 11: nothing is written.
    pub fn hirqazhom_best_path(
        tokens: *const u32,
        tokens_len: usize,
        sums: *const f32,
        sums_len: usize,
        records: *const u32,
        records_len: usize,
        labels: *const i32,
        labels_len: usize,
        finals: *const f32,
        finals_len: usize,
        decoder: Value,
        use_final: bool,
        words: *mut i32,
        words_len: usize,
        frames: *mut u32,
        frames_len: usize,
        segments: *mut u32,
        segments_len: usize,
    ) -> Path;
    /// The best path of each word list, best first, at most `max`. The words of path i end before `ends[2i]`, its segments before `ends[2i + 1]`; it costs `costs[i]`.
    /// Refused by 6: nothing is written. By 11: nothing but scratch.
    pub fn hirqazhom_alternatives(
        tokens: *const u32,
        tokens_len: usize,
        sums: *const f32,
        sums_len: usize,
        records: *const u32,
        records_len: usize,
        labels: *const i32,
        labels_len: usize,
        finals: *const f32,
        finals_len: usize,
        decoder: Value,
        use_final: bool,
        max: usize,
        keys: *mut u64,
        keys_len: usize,
        places: *mut u32,
        places_len: usize,
        own: *mut u32,
        own_len: usize,
        history_keys: *mut u64,
        history_keys_len: usize,
        history_skips: *mut u32,
        history_skips_len: usize,
        words: *mut i32,
        words_len: usize,
        frames: *mut u32,
        frames_len: usize,
        segments: *mut u32,
        segments_len: usize,
        ends: *mut u32,
        ends_len: usize,
        costs: *mut f32,
        costs_len: usize,
    ) -> Count;
    /// The reading list, the first `max` of it with frames and segments. Of reading i from `numbers[5i]` on: where its words and its segments end, how many kept histories
    /// it takes, its token's phone and seq; from `costs[4i]` on: rank, cost, its token's cost and graph sum. Refused by 6: nothing is written. By 15 or 11: nothing but scratch.
    pub fn hirqazhom_reading_list(
        tokens: *const u32,
        tokens_len: usize,
        sums: *const f32,
        sums_len: usize,
        records: *const u32,
        records_len: usize,
        labels: *const i32,
        labels_len: usize,
        gaps: *const f32,
        gaps_len: usize,
        finals: *const f32,
        finals_len: usize,
        decoder: Value,
        use_final: bool,
        listed: usize,
        max: usize,
        keys: *mut u64,
        keys_len: usize,
        places: *mut u32,
        places_len: usize,
        own: *mut u32,
        own_len: usize,
        heads: *mut u32,
        heads_len: usize,
        list: *mut u32,
        list_len: usize,
        lists: *mut u32,
        lists_len: usize,
        route: *mut u32,
        route_len: usize,
        history_keys: *mut u64,
        history_keys_len: usize,
        history_skips: *mut u32,
        history_skips_len: usize,
        entry_hashes: *mut u64,
        entry_hashes_len: usize,
        entry_nexts: *mut u32,
        entry_nexts_len: usize,
        entry_sums: *mut f32,
        entry_sums_len: usize,
        kept_hashes: *mut u64,
        kept_hashes_len: usize,
        kept_links: *mut u32,
        kept_links_len: usize,
        kept_sums: *mut f32,
        kept_sums_len: usize,
        order: *mut u32,
        order_len: usize,
        words: *mut i32,
        words_len: usize,
        frames: *mut u32,
        frames_len: usize,
        segments: *mut u32,
        segments_len: usize,
        numbers: *mut u64,
        numbers_len: usize,
        costs: *mut f32,
        costs_len: usize,
    ) -> Count;
    /// A silence state with no frames. Refused by 7.
    pub fn hirqazhom_silence_new(weight: f32, subsampling: u32) -> Silence;
    /// Whether the weighting makes a difference.
    pub fn hirqazhom_silence_active(state: SilenceState, silence_phones: *const i32, silence_phones_len: usize) -> bool;
    /// Records what the best path's segments say of the decoded frames, one place of `status` and `weights` each. Refused by 7 or 10: nothing is written.
    pub fn hirqazhom_silence_traceback(
        state: SilenceState,
        silence_phones: *const i32,
        silence_phones_len: usize,
        phones: *const i32,
        phones_len: usize,
        starts: *const u32,
        starts_len: usize,
        ends: *const u32,
        ends_len: usize,
        num_frames_decoded: u32,
        status: *mut u32,
        status_len: usize,
        weights: *mut f32,
        weights_len: usize,
    ) -> Silence;
    /// The differences of the frames' weights, and the frames. Refused by 7, 10 or 11: nothing is written.
    pub fn hirqazhom_silence_deltas(
        state: SilenceState,
        num_frames_ready: u64,
        first_decoder_frame: u64,
        status: *mut u32,
        status_len: usize,
        weights: *mut f32,
        weights_len: usize,
        frames: *mut u64,
        frames_len: usize,
        deltas: *mut f32,
        deltas_len: usize,
    ) -> Silence;
    /// How many frames the silence at the end has. Refused by 10.
    pub fn hirqazhom_trailing_silence_frames(
        silence_phones: *const i32,
        silence_phones_len: usize,
        phones: *const i32,
        phones_len: usize,
        starts: *const u32,
        starts_len: usize,
        ends: *const u32,
        ends_len: usize,
    ) -> Count;
    /// The first reading that has the word, counted from 0. The words of reading i end before `ends[i]`. Refused by 11 where ends fall or pass the words.
    pub fn hirqazhom_find(word: i32, ends: *const u32, ends_len: usize, words: *const i32, words_len: usize) -> Index;
    /// The bytes of a block of four-byte numbers by their place in the number: all first bytes, then all second, third and fourth. Gives 0; or 20, and the output
    /// is unchanged, where the length is not divisible by four or the output has another.
    pub fn hirqazhom_shuffle(block: *const u8, block_len: usize, output: *mut u8, output_len: usize) -> u32;
    /// The way back, refused likewise. Either way after the other restores every block.
    pub fn hirqazhom_unshuffle(block: *const u8, block_len: usize, output: *mut u8, output_len: usize) -> u32;
    /// The course on the needles at a frame, where `courses` are knitted in `frames`: the whole part of frame * courses / frames, and the remainder. Refused by 22 where
    /// `courses` or `frames` is outside 1 to 65,535, or the frame above 65,536.
    pub fn hirqazhom_course(frame: u32, courses: u32, frames: u32) -> CourseAt;
    /// Writes the line of a refusal, for a fitter to read: its number, its name and its place. Gives its length, at most 96; what lies behind it is unchanged. Refused by 16
    /// where the slice is shorter than the line: nothing is written. A verdict with number 0, or with a place that its number cannot have, has the empty line.
    pub fn hirqazhom_write_line(verdict: Verdict, line: *mut u8, line_len: usize) -> Count;
    /// The refusal whose line the bytes are; number 0 where they are no refusal's.
    pub fn hirqazhom_read_line(bytes: *const u8, bytes_len: usize) -> Verdict;
}
