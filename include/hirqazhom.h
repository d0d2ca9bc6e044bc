/* The proved decoder, for C99 and C++17 on x86-64 Linux. `docs/MANUAL.md` says what to lend and what each refusal means; `examples/` has two whole programs.

   A board uses the second part: one struct for a decoder, and functions over it. The first part are the library's own calls, which the second is written with.
   There a slice is a pointer and its length in elements. A pointer to const is read, or lent for its length alone; any other is written, and what a call writes overlaps
   with nothing else that it is lent. Each call gets the decoder's value and the stores that the last one left; only `hirqazhom_build`, `_fit`, `_set_keep`,
   `_frames_decoded`, the silence calls, `_find`, `_shuffle`, `_unshuffle` and `_course` take anything, and the other calls check nothing of this. */
#ifndef HIRQAZHOM_H
#define HIRQAZHOM_H

#include <math.h>
#include <stdbool.h>
#include <stddef.h>
#include <stdint.h>

#ifdef __cplusplus
extern "C" {
#endif

/* Does not compile where `holds` is false; a typedef, since C99 has no static assertion. */
#define HIRQAZHOM_ASSERT(name, holds) typedef char hirqazhom_assert_##name[(holds) ? 1 : -1]

/* ---- written by tools/declare.py from crates/hirqazhom/src/lib.rt: change it there ---- */

/* Of the graph builder: its counts, its offsets or the lengths of its slices. */
#define HIRQAZHOM_BAD_SHAPE 1u

/* A start or an arc's target that is no state. */
#define HIRQAZHOM_NO_SUCH_STATE 2u

/* An input label below 0, past a table, or with a pdf out of range. */
#define HIRQAZHOM_BAD_LABEL 3u

/* A used label whose phone is below 1. */
#define HIRQAZHOM_BAD_PHONE 4u

/* An arc weight or a final weight. */
#define HIRQAZHOM_BAD_WEIGHT 5u

/* Settings or lent stores of a fitting, a keep margin, or the counts asked of a read. */
#define HIRQAZHOM_BAD_SETTING 6u

/* Settings of the silence weighting. */
#define HIRQAZHOM_BAD_SILENCE_SETTING 7u

/* A frame that is not as long as there are pdfs. */
#define HIRQAZHOM_BAD_FRAME_LENGTH 8u

/* A log-likelihood that is not finite, or of magnitude 2^100 or more. */
#define HIRQAZHOM_BAD_LOGLIKE 9u

/* A frame after the last, or a silence call that needs, names or brings too many. */
#define HIRQAZHOM_TOO_MANY_FRAMES 10u

/* An output slice shorter than the whole answer, or a reading list brought to the search whose parts fall or overrun its words. */
#define HIRQAZHOM_TOO_SHORT 11u

/* A total or a graph sum of magnitude 2^100 or more. */
#define HIRQAZHOM_SUM_TOO_LARGE 12u

/* Live records fill the store. */
#define HIRQAZHOM_RECORDS_FULL 13u

/* The epsilon queue is full. */
#define HIRQAZHOM_QUEUE_FULL 14u

/* The lists below joins, or the kept readings, have more entries than their store. */
#define HIRQAZHOM_LISTS_FULL 15u

/* An output slice shorter than a refusal's line. */
#define HIRQAZHOM_LINE_TOO_LONG 16u

/* A block to shuffle or unshuffle whose length is not divisible by four, or an output of another length. */
#define HIRQAZHOM_BAD_BLOCK 20u

/* Courses, or the frames in which they are knitted, outside their range, or a frame above its limit. */
#define HIRQAZHOM_BAD_COURSE 22u

/* The states of a graph. */
#define HIRQAZHOM_MAX_STATES 65535u

/* The arcs of a graph. */
#define HIRQAZHOM_MAX_ARCS 1048576u

/* The entries of a transition table: 65,536 ids, which count from 1, and entry 0. */
#define HIRQAZHOM_MAX_TRANSITIONS 65537u

/* The places for records. */
#define HIRQAZHOM_MAX_RECORDS 1048576u

/* The paths or readings of one read. */
#define HIRQAZHOM_MAX_LISTED 64u

/* The frames since a start. */
#define HIRQAZHOM_MAX_FRAMES 65536u

/* The courses, and the frames in which they are knitted, of a frame's course. */
#define HIRQAZHOM_MAX_COURSES 65535u

/* The decoder frames of a silence call. */
#define HIRQAZHOM_MAX_SILENCE_FRAMES 65536u

/* The segments of a silence call. */
#define HIRQAZHOM_MAX_SEGMENTS 65536u

/* The input frames in a decoder frame. */
#define HIRQAZHOM_MAX_SUBSAMPLING 16u

/* The ready and the first frame that a silence call names. */
#define HIRQAZHOM_MAX_FRAME_NAMED 4294967296u

/* The bytes of a refusal's line. */
#define HIRQAZHOM_MAX_LINE 96u

/* The start of a graph that has none. */
#define HIRQAZHOM_NO_STATE 4294967295u

/* A place of a refusal that has none. */
#define HIRQAZHOM_NOWHERE 0u

/* The place is an arc. */
#define HIRQAZHOM_AT_ARC 1u

/* The place is a state. */
#define HIRQAZHOM_AT_STATE 2u

/* The place is the frames decoded. */
#define HIRQAZHOM_AT_FRAMES 3u

/* Whether a call was refused, by which number and where. */
struct hirqazhom_verdict {
    /* 0, or the refusal's */
    uint32_t number;
    /* which of the four places */
    uint32_t place;
    /* the state, or the frames decoded */
    uint32_t at;
    /* counted within its state */
    uint32_t arc;
};

/* The settings: the Rust's `DecoderConfig`. */
struct hirqazhom_config {
    /* a token dearer than the best by more than this is not followed, unless a count says otherwise */
    float beam;
    /* where more tokens than this are within the beam, the cutoff is the cost of this number, from 0 and cheapest first */
    uint32_t max_active;
    /* where at most this many are, the cutoff rises to the cost of this number */
    uint32_t min_active;
    /* what is added to the cutoff's distance from the best where a count made the cutoff */
    float beam_delta;
};

/* What is known of an accepted graph beside its slices: the counts of states and arcs, the start, and the count of pdfs. */
struct hirqazhom_graph_counts {
    uint32_t states;
    uint32_t arcs;
    uint32_t start;
    uint32_t pdfs;
};

/* What the decoder holds beside the lent stores: the graph's counts, the settings, the places for records, the keep margin if there is one, which table the
   next pass writes (the other one is the finished one), the frames decoded, the latest seq and the records in use. */
struct hirqazhom_value {
    struct hirqazhom_graph_counts graph;
    struct hirqazhom_config config;
    uint32_t cap;
    bool keeps;
    float margin;
    uint32_t side;
    uint32_t frames;
    uint32_t seq;
    uint32_t used;
};

/* Whether there is a decoder, and if so, the answer of its own start; else why not, and a decoder of zeros. */
struct hirqazhom_fitting {
    bool fitted;
    struct hirqazhom_value decoder;
    struct hirqazhom_verdict verdict;
};

/* The decoder to go on with, refused or not. */
struct hirqazhom_answer {
    struct hirqazhom_value decoder;
    struct hirqazhom_verdict verdict;
};

/* A best path's counts and cost. `found` is false where no token counts; then, and after a refusal, the rest is 0. */
struct hirqazhom_path {
    uint32_t number;
    bool found;
    uint32_t words;
    uint32_t segments;
    float cost;
};

/* How many paths, readings or frames; 0 after a refusal. */
struct hirqazhom_count {
    uint32_t number;
    uint64_t count;
};

/* The state of the silence weights. A call takes it and gives the next one back. */
struct hirqazhom_silence_state {
    /* the weight of silence */
    float weight;
    /* input frames in a decoder frame */
    uint32_t subsampling;
    /* the length of the frame list */
    uint32_t frames;
};

/* The next silence state, and how many differences were written. After a refusal all is 0: go on with the state that there was. */
struct hirqazhom_silence {
    struct hirqazhom_silence_state state;
    uint32_t number;
    uint64_t count;
};

/* A reading's index, from 0. `found` is false where no reading has the word. */
struct hirqazhom_index {
    uint32_t number;
    bool found;
    uint64_t index;
};

/* The course at a frame, and the remainder. Both are 0 after a refusal. */
struct hirqazhom_course_at {
    uint32_t number;
    uint32_t course;
    uint32_t remainder;
};

/* Sizes and offsets are those of the library. */
HIRQAZHOM_ASSERT(verdict, sizeof(struct hirqazhom_verdict) == 16
    && offsetof(struct hirqazhom_verdict, number) == 0
    && offsetof(struct hirqazhom_verdict, place) == 4
    && offsetof(struct hirqazhom_verdict, at) == 8
    && offsetof(struct hirqazhom_verdict, arc) == 12);
HIRQAZHOM_ASSERT(config, sizeof(struct hirqazhom_config) == 16
    && offsetof(struct hirqazhom_config, beam) == 0
    && offsetof(struct hirqazhom_config, max_active) == 4
    && offsetof(struct hirqazhom_config, min_active) == 8
    && offsetof(struct hirqazhom_config, beam_delta) == 12);
HIRQAZHOM_ASSERT(graph_counts, sizeof(struct hirqazhom_graph_counts) == 16
    && offsetof(struct hirqazhom_graph_counts, states) == 0
    && offsetof(struct hirqazhom_graph_counts, arcs) == 4
    && offsetof(struct hirqazhom_graph_counts, start) == 8
    && offsetof(struct hirqazhom_graph_counts, pdfs) == 12);
HIRQAZHOM_ASSERT(value, sizeof(struct hirqazhom_value) == 60
    && offsetof(struct hirqazhom_value, graph) == 0
    && offsetof(struct hirqazhom_value, config) == 16
    && offsetof(struct hirqazhom_value, cap) == 32
    && offsetof(struct hirqazhom_value, keeps) == 36
    && offsetof(struct hirqazhom_value, margin) == 40
    && offsetof(struct hirqazhom_value, side) == 44
    && offsetof(struct hirqazhom_value, frames) == 48
    && offsetof(struct hirqazhom_value, seq) == 52
    && offsetof(struct hirqazhom_value, used) == 56);
HIRQAZHOM_ASSERT(fitting, sizeof(struct hirqazhom_fitting) == 80
    && offsetof(struct hirqazhom_fitting, fitted) == 0
    && offsetof(struct hirqazhom_fitting, decoder) == 4
    && offsetof(struct hirqazhom_fitting, verdict) == 64);
HIRQAZHOM_ASSERT(answer, sizeof(struct hirqazhom_answer) == 76
    && offsetof(struct hirqazhom_answer, decoder) == 0
    && offsetof(struct hirqazhom_answer, verdict) == 60);
HIRQAZHOM_ASSERT(path, sizeof(struct hirqazhom_path) == 20
    && offsetof(struct hirqazhom_path, number) == 0
    && offsetof(struct hirqazhom_path, found) == 4
    && offsetof(struct hirqazhom_path, words) == 8
    && offsetof(struct hirqazhom_path, segments) == 12
    && offsetof(struct hirqazhom_path, cost) == 16);
HIRQAZHOM_ASSERT(count, sizeof(struct hirqazhom_count) == 16
    && offsetof(struct hirqazhom_count, number) == 0
    && offsetof(struct hirqazhom_count, count) == 8);
HIRQAZHOM_ASSERT(silence_state, sizeof(struct hirqazhom_silence_state) == 12
    && offsetof(struct hirqazhom_silence_state, weight) == 0
    && offsetof(struct hirqazhom_silence_state, subsampling) == 4
    && offsetof(struct hirqazhom_silence_state, frames) == 8);
HIRQAZHOM_ASSERT(silence, sizeof(struct hirqazhom_silence) == 24
    && offsetof(struct hirqazhom_silence, state) == 0
    && offsetof(struct hirqazhom_silence, number) == 12
    && offsetof(struct hirqazhom_silence, count) == 16);
HIRQAZHOM_ASSERT(index, sizeof(struct hirqazhom_index) == 16
    && offsetof(struct hirqazhom_index, number) == 0
    && offsetof(struct hirqazhom_index, found) == 4
    && offsetof(struct hirqazhom_index, index) == 8);
HIRQAZHOM_ASSERT(course_at, sizeof(struct hirqazhom_course_at) == 12
    && offsetof(struct hirqazhom_course_at, number) == 0
    && offsetof(struct hirqazhom_course_at, course) == 4
    && offsetof(struct hirqazhom_course_at, remainder) == 8);

/* Whether a graph is accepted: refused by 1 to 5, with the arc or the state. */
struct hirqazhom_verdict hirqazhom_build(
    const uint32_t *offsets, size_t offsets_len,
    const int32_t *ilabels, size_t ilabels_len,
    const int32_t *olabels, size_t olabels_len,
    const float *weights, size_t weights_len,
    const uint32_t *nextstates, size_t nextstates_len,
    const float *finals, size_t finals_len,
    const int32_t *tid2pdf, size_t tid2pdf_len,
    const int32_t *tid2phone, size_t tid2phone_len,
    uint32_t start,
    uint32_t pdfs);

/* A new decoder over the lent stores, without margin, after its start. Slices that are only read and are no part of the graph are lent for their lengths.
   Refused by 1 to 6: no decoder, and nothing is changed. By 13 or 14: a decoder without tokens. */
struct hirqazhom_fitting hirqazhom_fit(
    uint32_t *tokens, size_t tokens_len,
    float *sums, size_t sums_len,
    uint32_t *records, size_t records_len,
    int32_t *labels, size_t labels_len,
    float *gaps, size_t gaps_len,
    uint32_t *queue, size_t queue_len,
    const float *scratch, size_t scratch_len,
    const uint64_t *keys, size_t keys_len,
    const uint32_t *places, size_t places_len,
    const uint32_t *own, size_t own_len,
    const uint32_t *heads, size_t heads_len,
    const uint32_t *list, size_t list_len,
    const uint32_t *lists, size_t lists_len,
    const uint32_t *route, size_t route_len,
    const uint64_t *history_keys, size_t history_keys_len,
    const uint32_t *history_skips, size_t history_skips_len,
    const uint64_t *kept_hashes, size_t kept_hashes_len,
    const uint32_t *kept_links, size_t kept_links_len,
    const float *kept_sums, size_t kept_sums_len,
    const uint32_t *order, size_t order_len,
    uint8_t *eps, size_t eps_len,
    const uint32_t *offsets, size_t offsets_len,
    const int32_t *ilabels, size_t ilabels_len,
    const int32_t *olabels, size_t olabels_len,
    const float *weights, size_t weights_len,
    const uint32_t *nextstates, size_t nextstates_len,
    const float *finals, size_t finals_len,
    const int32_t *tid2pdf, size_t tid2pdf_len,
    const int32_t *tid2phone, size_t tid2phone_len,
    uint32_t start,
    uint32_t pdfs,
    struct hirqazhom_config config);

/* Drops all tokens and records: zero frames, and the same margin. Refused by 13 or 14: so too, but without a token. */
struct hirqazhom_answer hirqazhom_start(
    uint32_t *tokens, size_t tokens_len,
    float *sums, size_t sums_len,
    uint32_t *records, size_t records_len,
    int32_t *labels, size_t labels_len,
    float *gaps, size_t gaps_len,
    uint32_t *queue, size_t queue_len,
    const uint8_t *eps, size_t eps_len,
    const uint32_t *offsets, size_t offsets_len,
    const int32_t *ilabels, size_t ilabels_len,
    const int32_t *olabels, size_t olabels_len,
    const float *weights, size_t weights_len,
    const uint32_t *nextstates, size_t nextstates_len,
    const int32_t *tid2pdf, size_t tid2pdf_len,
    const int32_t *tid2phone, size_t tid2phone_len,
    struct hirqazhom_value decoder);

/* One frame, with a log-likelihood for each pdf. Refused by 8 to 10: nothing is changed. By 12 to 14: no later answer is. */
struct hirqazhom_answer hirqazhom_frame(
    uint32_t *tokens, size_t tokens_len,
    float *sums, size_t sums_len,
    uint32_t *records, size_t records_len,
    int32_t *labels, size_t labels_len,
    float *gaps, size_t gaps_len,
    uint32_t *queue, size_t queue_len,
    float *scratch, size_t scratch_len,
    const uint8_t *eps, size_t eps_len,
    const uint32_t *offsets, size_t offsets_len,
    const int32_t *ilabels, size_t ilabels_len,
    const int32_t *olabels, size_t olabels_len,
    const float *weights, size_t weights_len,
    const uint32_t *nextstates, size_t nextstates_len,
    const int32_t *tid2pdf, size_t tid2pdf_len,
    const int32_t *tid2phone, size_t tid2phone_len,
    const float *loglikes, size_t loglikes_len,
    struct hirqazhom_value decoder);

/* The keep margin, or none. Refused by 6: the same decoder. */
struct hirqazhom_answer hirqazhom_set_keep(struct hirqazhom_value decoder, bool keeps, float margin);

/* Frames since the start. */
uint32_t hirqazhom_frames_decoded(struct hirqazhom_value decoder);

/* How many tokens are active. */
uint32_t hirqazhom_num_active(const uint32_t *tokens, size_t tokens_len, struct hirqazhom_value decoder);

/* The least sum of cost and final weight, less the least cost; infinite where no active state is final. */
float hirqazhom_final_relative_cost(
    const uint32_t *tokens, size_t tokens_len,
    const float *sums, size_t sums_len,
    const float *finals, size_t finals_len,
    struct hirqazhom_value decoder);

/* The best path: words, a frame for each, and segments of three numbers: phone, start, end. Refused by 11: nothing is written. */
struct hirqazhom_path hirqazhom_best_path(
    const uint32_t *tokens, size_t tokens_len,
    const float *sums, size_t sums_len,
    const uint32_t *records, size_t records_len,
    const int32_t *labels, size_t labels_len,
    const float *finals, size_t finals_len,
    struct hirqazhom_value decoder,
    bool use_final,
    int32_t *words, size_t words_len,
    uint32_t *frames, size_t frames_len,
    uint32_t *segments, size_t segments_len);

/* The best path of each word list, best first, at most `max`. The words of path i end before `ends[2i]`, its segments before `ends[2i + 1]`; it costs `costs[i]`.
   Refused by 6: nothing is written. By 11: nothing but scratch. */
struct hirqazhom_count hirqazhom_alternatives(
    const uint32_t *tokens, size_t tokens_len,
    const float *sums, size_t sums_len,
    const uint32_t *records, size_t records_len,
    const int32_t *labels, size_t labels_len,
    const float *finals, size_t finals_len,
    struct hirqazhom_value decoder,
    bool use_final,
    size_t max,
    uint64_t *keys, size_t keys_len,
    uint32_t *places, size_t places_len,
    uint32_t *own, size_t own_len,
    uint64_t *history_keys, size_t history_keys_len,
    uint32_t *history_skips, size_t history_skips_len,
    int32_t *words, size_t words_len,
    uint32_t *frames, size_t frames_len,
    uint32_t *segments, size_t segments_len,
    uint32_t *ends, size_t ends_len,
    float *costs, size_t costs_len);

/* The reading list, the first `max` of it with frames and segments. Of reading i from `numbers[5i]` on: where its words and its segments end, how many kept histories
   it takes, its token's phone and seq; from `costs[4i]` on: rank, cost, its token's cost and graph sum. Refused by 6: nothing is written. By 15 or 11: nothing but scratch. */
struct hirqazhom_count hirqazhom_reading_list(
    const uint32_t *tokens, size_t tokens_len,
    const float *sums, size_t sums_len,
    const uint32_t *records, size_t records_len,
    const int32_t *labels, size_t labels_len,
    const float *gaps, size_t gaps_len,
    const float *finals, size_t finals_len,
    struct hirqazhom_value decoder,
    bool use_final,
    size_t listed,
    size_t max,
    uint64_t *keys, size_t keys_len,
    uint32_t *places, size_t places_len,
    uint32_t *own, size_t own_len,
    uint32_t *heads, size_t heads_len,
    uint32_t *list, size_t list_len,
    uint32_t *lists, size_t lists_len,
    uint32_t *route, size_t route_len,
    uint64_t *history_keys, size_t history_keys_len,
    uint32_t *history_skips, size_t history_skips_len,
    uint64_t *entry_hashes, size_t entry_hashes_len,
    uint32_t *entry_nexts, size_t entry_nexts_len,
    float *entry_sums, size_t entry_sums_len,
    uint64_t *kept_hashes, size_t kept_hashes_len,
    uint32_t *kept_links, size_t kept_links_len,
    float *kept_sums, size_t kept_sums_len,
    uint32_t *order, size_t order_len,
    int32_t *words, size_t words_len,
    uint32_t *frames, size_t frames_len,
    uint32_t *segments, size_t segments_len,
    uint64_t *numbers, size_t numbers_len,
    float *costs, size_t costs_len);

/* A silence state with no frames. Refused by 7. */
struct hirqazhom_silence hirqazhom_silence_new(float weight, uint32_t subsampling);

/* Whether the weighting makes a difference. */
bool hirqazhom_silence_active(
    struct hirqazhom_silence_state state,
    const int32_t *silence_phones, size_t silence_phones_len);

/* Records what the best path's segments say of the decoded frames, one place of `status` and `weights` each. Refused by 7 or 10: nothing is written. */
struct hirqazhom_silence hirqazhom_silence_traceback(
    struct hirqazhom_silence_state state,
    const int32_t *silence_phones, size_t silence_phones_len,
    const int32_t *phones, size_t phones_len,
    const uint32_t *starts, size_t starts_len,
    const uint32_t *ends, size_t ends_len,
    uint32_t num_frames_decoded,
    uint32_t *status, size_t status_len,
    float *weights, size_t weights_len);

/* The differences of the frames' weights, and the frames. Refused by 7, 10 or 11: nothing is written. */
struct hirqazhom_silence hirqazhom_silence_deltas(
    struct hirqazhom_silence_state state,
    uint64_t num_frames_ready,
    uint64_t first_decoder_frame,
    uint32_t *status, size_t status_len,
    float *weights, size_t weights_len,
    uint64_t *frames, size_t frames_len,
    float *deltas, size_t deltas_len);

/* How many frames the silence at the end has. Refused by 10. */
struct hirqazhom_count hirqazhom_trailing_silence_frames(
    const int32_t *silence_phones, size_t silence_phones_len,
    const int32_t *phones, size_t phones_len,
    const uint32_t *starts, size_t starts_len,
    const uint32_t *ends, size_t ends_len);

/* The first reading that has the word, counted from 0. The words of reading i end before `ends[i]`. Refused by 11 where ends fall or pass the words. */
struct hirqazhom_index hirqazhom_find(
    int32_t word,
    const uint32_t *ends, size_t ends_len,
    const int32_t *words, size_t words_len);

/* The bytes of a block of four-byte numbers by their place in the number: all first bytes, then all second, third and fourth. Gives 0; or 20, and the output
   is unchanged, where the length is not divisible by four or the output has another. */
uint32_t hirqazhom_shuffle(const uint8_t *block, size_t block_len, uint8_t *output, size_t output_len);

/* The way back, refused likewise. Either way after the other restores every block. */
uint32_t hirqazhom_unshuffle(const uint8_t *block, size_t block_len, uint8_t *output, size_t output_len);

/* The course on the needles at a frame, where `courses` are knitted in `frames`: the whole part of frame * courses / frames, and the remainder. Refused by 22 where
   `courses` or `frames` is outside 1 to 65,535, or the frame above 65,536. */
struct hirqazhom_course_at hirqazhom_course(uint32_t frame, uint32_t courses, uint32_t frames);

/* Writes the line of a refusal, for a fitter to read: its number, its name and its place. Gives its length, at most 96; what lies behind it is unchanged. Refused by 16
   where the slice is shorter than the line: nothing is written. A verdict with number 0, or with a place that its number cannot have, has the empty line. */
struct hirqazhom_count hirqazhom_write_line(struct hirqazhom_verdict verdict, uint8_t *line, size_t line_len);

/* The refusal whose line the bytes are; number 0 where they are no refusal's. */
struct hirqazhom_verdict hirqazhom_read_line(const uint8_t *bytes, size_t bytes_len);

/* ---- end of what tools/declare.py writes ---- */

/* ---- one struct for a decoder, over the calls above ----
   Nothing is allocated, and nothing is kept but in the structs and blocks that the caller brings. A decoder, with its block and its output, is used by one thread at a
   time. A graph is only read: any number of decoders and threads may share one. Of a decoder that is not fitted every call is refused by 6, HIRQAZHOM_BAD_SETTING, and
   does nothing. */

/* A graph in the caller's slices. They stay where they are, unchanged, as long as a decoder is used on them. */
struct hirqazhom_graph {
    size_t states;
    size_t arcs;
    size_t transitions;         /* entries of either transition table; entry 0 is not used */
    uint32_t start;             /* a state, or HIRQAZHOM_NO_STATE */
    uint32_t pdfs;              /* log-likelihoods of a frame */
    const uint32_t *offsets;    /* states + 1: where each state's arcs begin, and the number of arcs */
    const int32_t *ilabels;     /* arcs: a transition id, or 0 on an epsilon arc */
    const int32_t *olabels;     /* arcs: a word, or 0 */
    const float *weights;       /* arcs */
    const uint32_t *nextstates; /* arcs */
    const float *finals;        /* states: infinite where a state is not final */
    const int32_t *tid2pdf;     /* transitions */
    const int32_t *tid2phone;   /* transitions */
};

/* How much a decoder has places for; docs/MANUAL.md has sizes that suffice. */
struct hirqazhom_sizes {
    size_t states;  /* as many as the graph has, or more */
    size_t records; /* about twice the live ones that you expect, at most HIRQAZHOM_MAX_RECORDS */
    size_t queue;   /* of epsilon arcs; none without such arcs */
    size_t entries; /* of reading lists: below joins; none without a margin */
    size_t kept;    /* of reading lists: kept readings; none without a margin */
};

/* How much output has places for: paths or readings, and over all of them words and segments. */
struct hirqazhom_places {
    size_t paths;
    size_t words;
    size_t segments;
};

/* The address of a block is a multiple of this: malloc's are, and those of arrays of uint64_t. */
#define HIRQAZHOM_ALIGNMENT 8u

/* The bytes of a decoder's block. A constant where the sizes are. */
#define HIRQAZHOM_BYTES(states, records, queue, entries, kept)                                                                   \
    (77 * (size_t)(states) + 84 * (size_t)(records) + 4 * (size_t)(queue) + 28 * (size_t)(entries) + 40 * (size_t)(kept)         \
     + (8 * (size_t)(kept) > 8 * (size_t)(states) ? 8 * (size_t)(kept) - 8 * (size_t)(states) : 0))

/* The bytes of an output's block. A constant where the places are. */
#define HIRQAZHOM_OUTPUT_BYTES(paths, words, segments) (64 * (size_t)(paths) + 8 * (size_t)(words) + 12 * (size_t)(segments))

/* A pointer and its length in elements. */
struct hirqazhom_u8s {
    uint8_t *at;
    size_t len;
};
struct hirqazhom_u32s {
    uint32_t *at;
    size_t len;
};
struct hirqazhom_i32s {
    int32_t *at;
    size_t len;
};
struct hirqazhom_f32s {
    float *at;
    size_t len;
};
struct hirqazhom_u64s {
    uint64_t *at;
    size_t len;
};

/* A decoder with its graph and stores. Read what you like; only the functions below write it. Used by one thread at a time. */
struct hirqazhom_decoder {
    bool fitted;
    struct hirqazhom_value value;
    struct hirqazhom_graph graph;
    struct hirqazhom_u32s tokens, records, queue, places, own, heads, list, lists, route, history_skips, entry_nexts, kept_links, order;
    struct hirqazhom_i32s labels;
    struct hirqazhom_f32s sums, gaps, scratch, entry_sums, kept_sums;
    struct hirqazhom_u64s keys, history_keys, entry_hashes, kept_hashes;
    struct hirqazhom_u8s eps;
};

/* What a read writes. */
struct hirqazhom_output {
    struct hirqazhom_i32s words;
    struct hirqazhom_u32s frames;   /* one for each word */
    struct hirqazhom_u32s segments; /* three numbers for each: phone, start, end; the end is not in it */
    struct hirqazhom_u32s ends;     /* of alternatives */
    struct hirqazhom_u64s numbers;  /* of readings */
    struct hirqazhom_f32s costs;
};

/* A path or a reading within an output, good until the next read writes there. */
struct hirqazhom_entry {
    const int32_t *words;
    const uint32_t *frames;   /* one for each word; null of a reading that has none */
    size_t num_words;
    const uint32_t *segments; /* as in the output; none of a reading without frames */
    size_t num_segments;
    float cost;
};

/* What a listed reading has beside its words: its rank, the kept histories on its way, and the token that it ends in. */
struct hirqazhom_reading {
    struct hirqazhom_entry entry;
    float rank;
    uint64_t kept;
    float token_cost;
    float token_graph;
    int32_t token_phone;
    uint32_t token_seq;
};

/* ---- blocks */

/* The bytes of a decoder's block; SIZE_MAX where a size is so large that no block has them. */
static inline size_t hirqazhom_decoder_bytes(struct hirqazhom_sizes n)
{
    if ((n.states | n.records | n.queue | n.entries | n.kept) > UINT32_MAX)
        return SIZE_MAX;
    return HIRQAZHOM_BYTES(n.states, n.records, n.queue, n.entries, n.kept);
}

/* The bytes of an output's block; SIZE_MAX where a number is so large that no block has them. */
static inline size_t hirqazhom_output_bytes(struct hirqazhom_places n)
{
    if ((n.paths | n.words | n.segments) > UINT32_MAX)
        return SIZE_MAX;
    return HIRQAZHOM_OUTPUT_BYTES(n.paths, n.words, n.segments);
}

/* Whether a block of so many bytes has those that are wanted, and is aligned. */
static inline bool hirqazhom_block_fits(const void *block, size_t bytes, size_t wanted)
{
    return block != NULL && (uintptr_t)block % HIRQAZHOM_ALIGNMENT == 0 && wanted != SIZE_MAX && bytes >= wanted;
}

/* The next elements of a block. */
static inline struct hirqazhom_u64s hirqazhom_next_u64s(unsigned char **rest, size_t len)
{
    struct hirqazhom_u64s s = {(uint64_t *)(void *)*rest, len};
    *rest += 8 * len;
    return s;
}

static inline struct hirqazhom_u32s hirqazhom_next_u32s(unsigned char **rest, size_t len)
{
    struct hirqazhom_u32s s = {(uint32_t *)(void *)*rest, len};
    *rest += 4 * len;
    return s;
}

static inline struct hirqazhom_i32s hirqazhom_next_i32s(unsigned char **rest, size_t len)
{
    struct hirqazhom_i32s s = {(int32_t *)(void *)*rest, len};
    *rest += 4 * len;
    return s;
}

static inline struct hirqazhom_f32s hirqazhom_next_f32s(unsigned char **rest, size_t len)
{
    struct hirqazhom_f32s s = {(float *)(void *)*rest, len};
    *rest += 4 * len;
    return s;
}

/* Makes a decoder that is not fitted yet, with all its slices in one block, which is the decoder's from then on. False, and nothing is done, where the block is null,
   not aligned, or shorter than `hirqazhom_decoder_bytes`. The largest elements come first, so that all are aligned. By one thread. */
static inline bool hirqazhom_decoder_carve(struct hirqazhom_decoder *d, struct hirqazhom_sizes n, void *block, size_t bytes)
{
    if (!hirqazhom_block_fits(block, bytes, hirqazhom_decoder_bytes(n)))
        return false;
    unsigned char *rest = (unsigned char *)block;
    d->fitted = false;
    d->keys = hirqazhom_next_u64s(&rest, n.kept > n.states ? n.kept : n.states);
    d->history_keys = hirqazhom_next_u64s(&rest, 2 * n.records);
    d->entry_hashes = hirqazhom_next_u64s(&rest, n.entries);
    d->kept_hashes = hirqazhom_next_u64s(&rest, n.kept);
    d->tokens = hirqazhom_next_u32s(&rest, 8 * n.states);
    d->places = hirqazhom_next_u32s(&rest, n.states);
    d->own = hirqazhom_next_u32s(&rest, n.states);
    d->heads = hirqazhom_next_u32s(&rest, n.states);
    d->list = hirqazhom_next_u32s(&rest, n.states + n.kept);
    d->records = hirqazhom_next_u32s(&rest, 8 * n.records);
    d->lists = hirqazhom_next_u32s(&rest, 2 * n.records);
    d->route = hirqazhom_next_u32s(&rest, n.records);
    d->history_skips = hirqazhom_next_u32s(&rest, 2 * n.records);
    d->queue = hirqazhom_next_u32s(&rest, n.queue);
    d->entry_nexts = hirqazhom_next_u32s(&rest, 3 * n.entries);
    d->kept_links = hirqazhom_next_u32s(&rest, 4 * n.kept);
    d->order = hirqazhom_next_u32s(&rest, n.kept);
    d->labels = hirqazhom_next_i32s(&rest, 2 * n.records);
    d->sums = hirqazhom_next_f32s(&rest, 4 * n.states);
    d->scratch = hirqazhom_next_f32s(&rest, n.states);
    d->gaps = hirqazhom_next_f32s(&rest, 2 * n.records);
    d->entry_sums = hirqazhom_next_f32s(&rest, 2 * n.entries);
    d->kept_sums = hirqazhom_next_f32s(&rest, 2 * n.kept);
    d->eps.at = rest;
    d->eps.len = n.states;
    return true;
}

/* Makes an output with all its slices in one block. False as with a decoder's block. By one thread. */
static inline bool hirqazhom_output_carve(struct hirqazhom_output *out, struct hirqazhom_places n, void *block, size_t bytes)
{
    if (!hirqazhom_block_fits(block, bytes, hirqazhom_output_bytes(n)))
        return false;
    unsigned char *rest = (unsigned char *)block;
    out->numbers = hirqazhom_next_u64s(&rest, 5 * n.paths);
    out->words = hirqazhom_next_i32s(&rest, n.words);
    out->frames = hirqazhom_next_u32s(&rest, n.words);
    out->segments = hirqazhom_next_u32s(&rest, 3 * n.segments);
    out->ends = hirqazhom_next_u32s(&rest, 2 * n.paths);
    out->costs = hirqazhom_next_f32s(&rest, 4 * n.paths);
    return true;
}

/* ---- calls that change a decoder */

/* The answer of a call on a decoder that is not fitted. */
static inline struct hirqazhom_verdict hirqazhom_unfitted(void)
{
    struct hirqazhom_verdict v = {HIRQAZHOM_BAD_SETTING, HIRQAZHOM_NOWHERE, 0, 0};
    return v;
}

/* Whether a graph is accepted. Lends the graph, which is only read. Refused by 1 to 5, with the arc or the state; nothing is changed. By any number of threads. */
static inline struct hirqazhom_verdict hirqazhom_graph_check(const struct hirqazhom_graph *g)
{
    return hirqazhom_build(
        g->offsets, g->states + 1, g->ilabels, g->arcs, g->olabels, g->arcs, g->weights, g->arcs, g->nextstates, g->arcs, g->finals, g->states,
        g->tid2pdf, g->transitions, g->tid2phone, g->transitions, g->start, g->pdfs);
}

/* gcc takes every pointer to const for one that is read; what a fitting is lent for its length alone holds nothing yet. */
#if defined(__GNUC__) && !defined(__clang__)
#pragma GCC diagnostic push
#pragma GCC diagnostic ignored "-Wmaybe-uninitialized"
#endif

/* Fits a carved decoder to a graph, without margin, and starts it. Lends the graph, which is only read and may be shared, and the decoder's whole block.
   Refused by 1 to 6: nothing is changed, and a decoder that was fitted before goes on with its graph. By 13 or 14: fitted, without a token.
   By one thread at a time. */
static inline struct hirqazhom_verdict hirqazhom_decoder_fit(struct hirqazhom_decoder *d, const struct hirqazhom_graph *g, struct hirqazhom_config config)
{
    struct hirqazhom_fitting f = hirqazhom_fit(
        d->tokens.at, d->tokens.len, d->sums.at, d->sums.len, d->records.at, d->records.len, d->labels.at, d->labels.len, d->gaps.at, d->gaps.len,
        d->queue.at, d->queue.len, d->scratch.at, d->scratch.len, d->keys.at, d->keys.len, d->places.at, d->places.len, d->own.at, d->own.len,
        d->heads.at, d->heads.len, d->list.at, d->list.len, d->lists.at, d->lists.len, d->route.at, d->route.len, d->history_keys.at, d->history_keys.len,
        d->history_skips.at, d->history_skips.len, d->kept_hashes.at, d->kept_hashes.len, d->kept_links.at, d->kept_links.len,
        d->kept_sums.at, d->kept_sums.len, d->order.at, d->order.len, d->eps.at, d->eps.len, g->offsets, g->states + 1, g->ilabels, g->arcs,
        g->olabels, g->arcs, g->weights, g->arcs, g->nextstates, g->arcs, g->finals, g->states, g->tid2pdf, g->transitions,
        g->tid2phone, g->transitions, g->start, g->pdfs, config);
    if (f.fitted) {
        d->fitted = true;
        d->graph = *g;
        d->value = f.decoder;
    }
    return f.verdict;
}

#if defined(__GNUC__) && !defined(__clang__)
#pragma GCC diagnostic pop
#endif

/* Drops all tokens and records: zero frames, and the same margin. Lends stores, queue and graph. Refused by 13 or 14: so too, but without a token, and nothing is heard
   until a start is accepted. By one thread at a time. */
static inline struct hirqazhom_verdict hirqazhom_decoder_start(struct hirqazhom_decoder *d)
{
    const struct hirqazhom_graph *g = &d->graph;
    if (!d->fitted)
        return hirqazhom_unfitted();
    struct hirqazhom_answer a = hirqazhom_start(
        d->tokens.at, d->tokens.len, d->sums.at, d->sums.len, d->records.at, d->records.len, d->labels.at, d->labels.len, d->gaps.at, d->gaps.len,
        d->queue.at, d->queue.len, d->eps.at, d->eps.len, g->offsets, g->states + 1, g->ilabels, g->arcs, g->olabels, g->arcs,
        g->weights, g->arcs, g->nextstates, g->arcs, g->tid2pdf, g->transitions, g->tid2phone, g->transitions, d->value);
    d->value = a.decoder;
    return a.verdict;
}

/* One frame of `len` log-likelihoods, one for each pdf. Lends these, which are only read, stores, queue, scratch and graph. Refused by 8 to 10: nothing is changed.
   By 12 to 14: no later answer is. By one thread at a time. */
static inline struct hirqazhom_verdict hirqazhom_decoder_frame(struct hirqazhom_decoder *d, const float *loglikes, size_t len)
{
    const struct hirqazhom_graph *g = &d->graph;
    if (!d->fitted)
        return hirqazhom_unfitted();
    struct hirqazhom_answer a = hirqazhom_frame(
        d->tokens.at, d->tokens.len, d->sums.at, d->sums.len, d->records.at, d->records.len, d->labels.at, d->labels.len, d->gaps.at, d->gaps.len,
        d->queue.at, d->queue.len, d->scratch.at, d->scratch.len, d->eps.at, d->eps.len, g->offsets, g->states + 1, g->ilabels, g->arcs,
        g->olabels, g->arcs, g->weights, g->arcs, g->nextstates, g->arcs, g->tid2pdf, g->transitions, g->tid2phone, g->transitions,
        loglikes, len, d->value);
    d->value = a.decoder;
    return a.verdict;
}

/* The keep margin, or none. Lends nothing. Refused by 6: nothing is changed. By one thread at a time. */
static inline struct hirqazhom_verdict hirqazhom_decoder_set_keep(struct hirqazhom_decoder *d, bool keeps, float margin)
{
    if (!d->fitted)
        return hirqazhom_unfitted();
    struct hirqazhom_answer a = hirqazhom_set_keep(d->value, keeps, margin);
    d->value = a.decoder;
    return a.verdict;
}

/* ---- reads: they change no later answer */

/* Frames since the start. Lends nothing, is never refused; 0 where nothing is fitted. By one thread at a time. */
static inline uint32_t hirqazhom_decoder_frames_decoded(const struct hirqazhom_decoder *d)
{
    return d->fitted ? hirqazhom_frames_decoded(d->value) : 0;
}

/* How many tokens are active. Lends the tokens, is never refused; 0 where nothing is fitted. By one thread at a time. */
static inline uint32_t hirqazhom_decoder_num_active(const struct hirqazhom_decoder *d)
{
    return d->fitted ? hirqazhom_num_active(d->tokens.at, d->tokens.len, d->value) : 0;
}

/* The least sum of cost and final weight, less the least cost; infinite where no active state is final, or nothing is fitted. Lends tokens and final weights, is never
   refused. By one thread at a time. */
static inline float hirqazhom_decoder_final_relative_cost(const struct hirqazhom_decoder *d)
{
    if (!d->fitted)
        return INFINITY;
    return hirqazhom_final_relative_cost(d->tokens.at, d->tokens.len, d->sums.at, d->sums.len, d->graph.finals, d->graph.states, d->value);
}

/* The best path, into the output's words, frames and segments. Lends these, stores and final weights. Refused by 11 where one of the three is too short: nothing is
   written. By one thread at a time. */
static inline struct hirqazhom_path hirqazhom_decoder_best_path(const struct hirqazhom_decoder *d, bool use_final, struct hirqazhom_output *out)
{
    if (!d->fitted) {
        struct hirqazhom_path none = {HIRQAZHOM_BAD_SETTING, false, 0, 0, 0};
        return none;
    }
    return hirqazhom_best_path(
        d->tokens.at, d->tokens.len, d->sums.at, d->sums.len, d->records.at, d->records.len, d->labels.at, d->labels.len, d->graph.finals, d->graph.states,
        d->value, use_final, out->words.at, out->words.len, out->frames.at, out->frames.len, out->segments.at, out->segments.len);
}

/* The best path of each word list, best first, at most `max`; `hirqazhom_output_alternative` gives each. Lends the output, stores, scratch and final weights. Refused by
   6 for a `max` above 64 and by 11 for output that is too short: the output is unchanged. By one thread at a time. */
static inline struct hirqazhom_count hirqazhom_decoder_alternatives(struct hirqazhom_decoder *d, bool use_final, size_t max, struct hirqazhom_output *out)
{
    if (!d->fitted) {
        struct hirqazhom_count none = {HIRQAZHOM_BAD_SETTING, 0};
        return none;
    }
    return hirqazhom_alternatives(
        d->tokens.at, d->tokens.len, d->sums.at, d->sums.len, d->records.at, d->records.len, d->labels.at, d->labels.len, d->graph.finals, d->graph.states,
        d->value, use_final, max, d->keys.at, d->keys.len, d->places.at, d->places.len, d->own.at, d->own.len, d->history_keys.at, d->history_keys.len,
        d->history_skips.at, d->history_skips.len, out->words.at, out->words.len, out->frames.at, out->frames.len, out->segments.at, out->segments.len,
        out->ends.at, out->ends.len, out->costs.at, out->costs.len);
}

/* The reading list, the first `max` of it with frames and segments; `hirqazhom_output_reading` gives each. Lends the output, stores, scratch and final weights. Refused
   by 6 for a `listed` or `max` above 64, by 15 for too few entries or kept readings, by 11 for output that is too short: the output is unchanged. By one thread at a
   time. */
static inline struct hirqazhom_count hirqazhom_decoder_reading_list(
    struct hirqazhom_decoder *d, bool use_final, size_t listed, size_t max, struct hirqazhom_output *out)
{
    if (!d->fitted) {
        struct hirqazhom_count none = {HIRQAZHOM_BAD_SETTING, 0};
        return none;
    }
    return hirqazhom_reading_list(
        d->tokens.at, d->tokens.len, d->sums.at, d->sums.len, d->records.at, d->records.len, d->labels.at, d->labels.len, d->gaps.at, d->gaps.len,
        d->graph.finals, d->graph.states, d->value, use_final, listed, max, d->keys.at, d->keys.len, d->places.at, d->places.len, d->own.at, d->own.len,
        d->heads.at, d->heads.len, d->list.at, d->list.len, d->lists.at, d->lists.len, d->route.at, d->route.len, d->history_keys.at, d->history_keys.len,
        d->history_skips.at, d->history_skips.len, d->entry_hashes.at, d->entry_hashes.len, d->entry_nexts.at, d->entry_nexts.len,
        d->entry_sums.at, d->entry_sums.len, d->kept_hashes.at, d->kept_hashes.len, d->kept_links.at, d->kept_links.len, d->kept_sums.at, d->kept_sums.len,
        d->order.at, d->order.len, out->words.at, out->words.len, out->frames.at, out->frames.len, out->segments.at, out->segments.len,
        out->numbers.at, out->numbers.len, out->costs.at, out->costs.len);
}

/* ---- what a read has written */

/* The words and segments of an output between two ends, and the words' frames where there are any. */
static inline struct hirqazhom_entry hirqazhom_output_entry(
    const struct hirqazhom_output *out, size_t words, size_t words_end, bool has_frames, size_t segments, size_t segments_end, float cost)
{
    const uint32_t *frames = has_frames ? out->frames.at + words : NULL;
    struct hirqazhom_entry e = {out->words.at + words, frames, words_end - words, out->segments.at + 3 * segments, segments_end - segments, cost};
    return e;
}

/* The best path that a read wrote, by its answer; empty where it was refused or found none. Only reads the output. */
static inline struct hirqazhom_entry hirqazhom_output_path(const struct hirqazhom_output *out, struct hirqazhom_path path)
{
    return hirqazhom_output_entry(out, 0, path.words, true, 0, path.segments, path.cost);
}

/* Alternative i of those that the last read counted. Only reads the output. */
static inline struct hirqazhom_entry hirqazhom_output_alternative(const struct hirqazhom_output *out, size_t i)
{
    const uint32_t *ends = out->ends.at + 2 * i;
    return hirqazhom_output_entry(out, i == 0 ? 0 : ends[-2], ends[0], true, i == 0 ? 0 : ends[-1], ends[1], out->costs.at[i]);
}

/* Reading i of those that the last read counted, of which the first `max` have frames and segments. Only reads the output. */
static inline struct hirqazhom_reading hirqazhom_output_reading(const struct hirqazhom_output *out, size_t i, size_t max)
{
    const uint64_t *n = out->numbers.at + 5 * i;
    const float *c = out->costs.at + 4 * i;
    size_t words = i == 0 ? 0 : (size_t)n[-5], segments = i == 0 ? 0 : (size_t)n[-4];
    struct hirqazhom_entry e = hirqazhom_output_entry(out, words, (size_t)n[0], i < max, segments, (size_t)n[1], c[1]);
    struct hirqazhom_reading r = {e, c[0], n[2], c[2], c[3], (int32_t)(uint32_t)n[3], (uint32_t)n[4]};
    return r;
}

#ifdef __cplusplus
}
#endif

#endif
