/* Checks what the board's part of the header does beside the library's calls: blocks and how they are carved, decoders that are not fitted or whose next fitting is
   refused, a graph without states, and the places of refusals. Prints the line of each check that fails, and how many held. */
#include "../examples/recorded_call.h"
#include <stdio.h>
#include <string.h>

enum { RECORDS = 32, ENTRIES = 64, KEPT = 12, PATHS = 4, WORDS = 64, SEGMENTS = 64, MARGIN = 10, HALF = FRAMES / 2 };

/* What memory is filled with that is to stay as it is; as a bool it is true. */
enum { PATTERN = 1 };

static const struct hirqazhom_sizes sizes = {STATES, RECORDS, 0, ENTRIES, KEPT};
static const struct hirqazhom_places places = {PATHS, WORDS, SEGMENTS};

/* A decoder for the recorded call and an output, each with its block. */
struct rig {
    struct hirqazhom_decoder d;
    struct hirqazhom_output out;
    uint64_t stores[HIRQAZHOM_BYTES(STATES, RECORDS, 0, ENTRIES, KEPT) / 8 + 1];
    uint64_t answers[HIRQAZHOM_OUTPUT_BYTES(PATHS, WORDS, SEGMENTS) / 8 + 1];
};

/* A block for any of the sizes below, and for an address 4 off. */
static uint64_t block[HIRQAZHOM_BYTES(STATES, RECORDS, 0, ENTRIES, KEPT) / 8 + 2];

static unsigned passed, failed;

static void count(bool holds, const char *check, int line)
{
    if (holds) {
        passed++;
    } else {
        failed++;
        printf("line %d failed: %s\n", line, check);
    }
}

#define CHECK(holds) count(holds, #holds, __LINE__)

static bool filled(const void *memory, size_t bytes)
{
    const unsigned char *at = (const unsigned char *)memory;
    while (bytes > 0 && at[bytes - 1] == PATTERN)
        bytes--;
    return bytes == 0;
}

static bool is(struct hirqazhom_verdict v, uint32_t number, uint32_t place, uint32_t at, uint32_t arc)
{
    return v.number == number && v.place == place && v.at == at && v.arc == arc;
}

/* Refused by 6, which has no place. */
static bool bad_setting(struct hirqazhom_verdict v)
{
    return is(v, HIRQAZHOM_BAD_SETTING, HIRQAZHOM_NOWHERE, 0, 0);
}

/* ---- blocks */

/* A slice: the elements that it has and should have, and the bytes of one. */
struct part {
    const void *at;
    size_t len;
    size_t wanted;
    size_t element;
};

/* From the block's first byte to its last each part begins where the one before ends, so that no two overlap. */
static void check_parts(const struct part *parts, size_t n, size_t bytes)
{
    const unsigned char *end = (const unsigned char *)block;
    for (size_t i = 0; i < n; i++) {
        CHECK(parts[i].at == (const void *)end);
        CHECK((uintptr_t)parts[i].at % parts[i].element == 0);
        CHECK(parts[i].len == parts[i].wanted);
        end += parts[i].wanted * parts[i].element;
    }
    CHECK(end == (const unsigned char *)block + bytes);
}

/* Lengths are those of the manual's table. */
static void check_decoder_parts(const struct hirqazhom_decoder *d, struct hirqazhom_sizes n)
{
    const struct part parts[] = {
        {d->keys.at, d->keys.len, n.states > n.kept ? n.states : n.kept, 8},
        {d->history_keys.at, d->history_keys.len, 2 * n.records, 8},
        {d->entry_hashes.at, d->entry_hashes.len, n.entries, 8},
        {d->kept_hashes.at, d->kept_hashes.len, n.kept, 8},
        {d->tokens.at, d->tokens.len, 8 * n.states, 4},
        {d->places.at, d->places.len, n.states, 4},
        {d->own.at, d->own.len, n.states, 4},
        {d->heads.at, d->heads.len, n.states, 4},
        {d->list.at, d->list.len, n.states + n.kept, 4},
        {d->records.at, d->records.len, 8 * n.records, 4},
        {d->lists.at, d->lists.len, 2 * n.records, 4},
        {d->route.at, d->route.len, n.records, 4},
        {d->history_skips.at, d->history_skips.len, 2 * n.records, 4},
        {d->queue.at, d->queue.len, n.queue, 4},
        {d->entry_nexts.at, d->entry_nexts.len, 3 * n.entries, 4},
        {d->kept_links.at, d->kept_links.len, 4 * n.kept, 4},
        {d->order.at, d->order.len, n.kept, 4},
        {d->labels.at, d->labels.len, 2 * n.records, 4},
        {d->sums.at, d->sums.len, 4 * n.states, 4},
        {d->scratch.at, d->scratch.len, n.states, 4},
        {d->gaps.at, d->gaps.len, 2 * n.records, 4},
        {d->entry_sums.at, d->entry_sums.len, 2 * n.entries, 4},
        {d->kept_sums.at, d->kept_sums.len, 2 * n.kept, 4},
        {d->eps.at, d->eps.len, n.states, 1},
    };
    check_parts(parts, sizeof parts / sizeof parts[0], hirqazhom_decoder_bytes(n));
}

static void check_output_parts(const struct hirqazhom_output *out, struct hirqazhom_places n)
{
    const struct part parts[] = {
        {out->numbers.at, out->numbers.len, 5 * n.paths, 8},
        {out->words.at, out->words.len, n.words, 4},
        {out->frames.at, out->frames.len, n.words, 4},
        {out->segments.at, out->segments.len, 3 * n.segments, 4},
        {out->ends.at, out->ends.len, 2 * n.paths, 4},
        {out->costs.at, out->costs.len, 4 * n.paths, 4},
    };
    check_parts(parts, sizeof parts / sizeof parts[0], hirqazhom_output_bytes(n));
}

/* Kept readings fewer and more than states, and nothing at all, for which any block is enough. */
static void decoder_blocks(void)
{
    static const struct hirqazhom_sizes cases[] = {{4, 32, 0, 64, 12}, {7, 5, 3, 9, 2}, {2, 5, 3, 9, 7}, {3, 3, 3, 3, 3}, {1, 0, 0, 0, 0}, {0, 0, 0, 0, 0}};
    for (size_t i = 0; i < sizeof cases / sizeof cases[0]; i++) {
        struct hirqazhom_sizes n = cases[i];
        struct hirqazhom_decoder d;
        memset(&d, PATTERN, sizeof d);
        CHECK(hirqazhom_decoder_bytes(n) == HIRQAZHOM_BYTES(n.states, n.records, n.queue, n.entries, n.kept));
        CHECK(hirqazhom_decoder_carve(&d, n, block, hirqazhom_decoder_bytes(n)));
        CHECK(!d.fitted);
        check_decoder_parts(&d, n);
    }
    CHECK(HIRQAZHOM_BYTES(0, 0, 0, 0, 0) == 0);
}

static void output_blocks(void)
{
    static const struct hirqazhom_places cases[] = {{4, 64, 64}, {3, 5, 7}, {0, 3, 0}, {0, 0, 0}};
    for (size_t i = 0; i < sizeof cases / sizeof cases[0]; i++) {
        struct hirqazhom_places n = cases[i];
        struct hirqazhom_output out;
        memset(&out, PATTERN, sizeof out);
        CHECK(hirqazhom_output_bytes(n) == HIRQAZHOM_OUTPUT_BYTES(n.paths, n.words, n.segments));
        CHECK(hirqazhom_output_carve(&out, n, block, hirqazhom_output_bytes(n)));
        check_output_parts(&out, n);
    }
    CHECK(HIRQAZHOM_OUTPUT_BYTES(0, 0, 0) == 0);
}

/* A block a byte too short, none, and two that are not aligned. `carve` makes the struct at `made`, for which `bytes` are just enough. */
static void refused_blocks(bool (*carve)(void *made, void *at, size_t bytes), void *made, size_t made_bytes, size_t bytes)
{
    unsigned char *first = (unsigned char *)block;
    memset(made, PATTERN, made_bytes);
    CHECK(!carve(made, first, bytes - 1));
    CHECK(!carve(made, NULL, bytes));
    CHECK(!carve(made, first + 1, bytes));
    CHECK(!carve(made, first + 4, bytes));
    CHECK(filled(made, made_bytes));
    CHECK(carve(made, first, bytes));
}

static bool carve_decoder(void *made, void *at, size_t bytes)
{
    return hirqazhom_decoder_carve((struct hirqazhom_decoder *)made, sizes, at, bytes);
}

static bool carve_output(void *made, void *at, size_t bytes)
{
    return hirqazhom_output_carve((struct hirqazhom_output *)made, places, at, bytes);
}

static void all_refused_blocks(void)
{
    struct hirqazhom_decoder d;
    struct hirqazhom_output out;
    refused_blocks(carve_decoder, &d, sizeof d, hirqazhom_decoder_bytes(sizes));
    refused_blocks(carve_output, &out, sizeof out, hirqazhom_output_bytes(places));
}

/* Sizes that no block has, one at a time, and the largest that one may have. */
static void large_sizes(void)
{
    const size_t large = (size_t)UINT32_MAX + 1;
    const struct hirqazhom_sizes largest = {UINT32_MAX, UINT32_MAX, UINT32_MAX, UINT32_MAX, UINT32_MAX};
    const struct hirqazhom_sizes cases[] = {{large, 0, 0, 0, 0}, {0, large, 0, 0, 0}, {0, 0, large, 0, 0}, {0, 0, 0, large, 0}, {0, 0, 0, 0, large}};
    struct hirqazhom_decoder d;
    memset(&d, PATTERN, sizeof d);
    for (size_t i = 0; i < sizeof cases / sizeof cases[0]; i++) {
        CHECK(hirqazhom_decoder_bytes(cases[i]) == SIZE_MAX);
        CHECK(!hirqazhom_decoder_carve(&d, cases[i], block, SIZE_MAX));
    }
    CHECK(filled(&d, sizeof d));
    CHECK(hirqazhom_decoder_bytes(largest) != SIZE_MAX);
}

static void large_places(void)
{
    const size_t large = (size_t)UINT32_MAX + 1;
    const struct hirqazhom_places largest = {UINT32_MAX, UINT32_MAX, UINT32_MAX};
    const struct hirqazhom_places cases[] = {{large, 0, 0}, {0, large, 0}, {0, 0, large}};
    struct hirqazhom_output out;
    memset(&out, PATTERN, sizeof out);
    for (size_t i = 0; i < sizeof cases / sizeof cases[0]; i++) {
        CHECK(hirqazhom_output_bytes(cases[i]) == SIZE_MAX);
        CHECK(!hirqazhom_output_carve(&out, cases[i], block, SIZE_MAX));
    }
    CHECK(filled(&out, sizeof out));
    CHECK(hirqazhom_output_bytes(largest) != SIZE_MAX);
}

/* ---- decoders */

/* Carved, with filled blocks, so that it shows what is written there. */
static void carve_rig(struct rig *r)
{
    memset(r, PATTERN, sizeof *r);
    CHECK(hirqazhom_decoder_carve(&r->d, sizes, r->stores, sizeof r->stores));
    CHECK(hirqazhom_output_carve(&r->out, places, r->answers, sizeof r->answers));
}

/* Every call is refused by 6, or gives what there is without a token. */
static void unfitted_decoder(void)
{
    static struct rig r;
    carve_rig(&r);
    CHECK(bad_setting(hirqazhom_decoder_start(&r.d)));
    CHECK(bad_setting(hirqazhom_decoder_frame(&r.d, call[0], SOUNDS)));
    CHECK(bad_setting(hirqazhom_decoder_set_keep(&r.d, true, MARGIN)));
    CHECK(hirqazhom_decoder_frames_decoded(&r.d) == 0);
    CHECK(hirqazhom_decoder_num_active(&r.d) == 0);
    CHECK(hirqazhom_decoder_final_relative_cost(&r.d) == INFINITY);
    struct hirqazhom_path path = hirqazhom_decoder_best_path(&r.d, true, &r.out);
    CHECK(path.number == HIRQAZHOM_BAD_SETTING && !path.found && path.words == 0 && path.segments == 0 && path.cost == 0);
    struct hirqazhom_count n = hirqazhom_decoder_alternatives(&r.d, true, PATHS, &r.out);
    CHECK(n.number == HIRQAZHOM_BAD_SETTING && n.count == 0);
    n = hirqazhom_decoder_reading_list(&r.d, true, PATHS, PATHS, &r.out);
    CHECK(n.number == HIRQAZHOM_BAD_SETTING && n.count == 0);
    CHECK(!r.d.fitted);
    CHECK(filled(r.stores, sizeof r.stores));
    CHECK(filled(r.answers, sizeof r.answers));
}

static void hear(struct rig *r, int from, int to)
{
    for (int i = from; i < to; i++)
        CHECK(hirqazhom_decoder_frame(&r->d, call[i], SOUNDS).number == 0);
}

/* Fitted with a margin, after half of the call. */
static void begin(struct rig *r)
{
    carve_rig(r);
    CHECK(hirqazhom_decoder_fit(&r->d, &graph, config).number == 0);
    CHECK(hirqazhom_decoder_set_keep(&r->d, true, MARGIN).number == 0);
    hear(r, 0, HALF);
}

/* The graph of the call with the arc of state 3 to carrier two into no state. */
static struct hirqazhom_graph stray_graph(void)
{
    static const uint32_t stray[ARCS] = {0, 3, 1, 2, 3, STATES, 1};
    struct hirqazhom_graph g = graph;
    g.nextstates = stray;
    return g;
}

/* The graph of the call with a state more than a rig has places for. */
static struct hirqazhom_graph larger_graph(void)
{
    static const uint32_t more_offsets[STATES + 2] = {0, 2, 3, 4, ARCS, ARCS};
    static const float more_finals[STATES + 1] = {INFINITY, 0, 0, INFINITY, 0};
    struct hirqazhom_graph g = graph;
    g.states = STATES + 1;
    g.offsets = more_offsets;
    g.finals = more_finals;
    return g;
}

/* Both write the same bytes in each read: two words, alternatives and readings. */
static void check_same_reads(struct rig *a, struct rig *b)
{
    struct hirqazhom_path p = hirqazhom_decoder_best_path(&a->d, true, &a->out), q = hirqazhom_decoder_best_path(&b->d, true, &b->out);
    CHECK(p.number == 0 && p.found && p.words == 2);
    CHECK(q.number == 0 && q.found && q.words == p.words && q.segments == p.segments && q.cost == p.cost);
    CHECK(memcmp(a->answers, b->answers, sizeof a->answers) == 0);
    struct hirqazhom_count m = hirqazhom_decoder_alternatives(&a->d, true, PATHS, &a->out), n = hirqazhom_decoder_alternatives(&b->d, true, PATHS, &b->out);
    CHECK(m.number == 0 && m.count > 0 && n.number == 0 && n.count == m.count);
    CHECK(memcmp(a->answers, b->answers, sizeof a->answers) == 0);
    m = hirqazhom_decoder_reading_list(&a->d, true, PATHS, PATHS, &a->out);
    n = hirqazhom_decoder_reading_list(&b->d, true, PATHS, PATHS, &b->out);
    CHECK(m.number == 0 && m.count > 0 && n.number == 0 && n.count == m.count);
    CHECK(memcmp(a->answers, b->answers, sizeof a->answers) == 0);
}

/* After refused fittings a decoder goes on as one that was never asked. */
static void refused_fittings(void)
{
    static struct rig asked, spared;
    struct hirqazhom_graph stray = stray_graph(), larger = larger_graph();
    struct hirqazhom_config below = config;
    below.beam = -1;
    begin(&asked);
    begin(&spared);
    CHECK(bad_setting(hirqazhom_decoder_fit(&asked.d, &larger, config)));
    CHECK(bad_setting(hirqazhom_decoder_fit(&asked.d, &graph, below)));
    CHECK(is(hirqazhom_decoder_fit(&asked.d, &stray, config), HIRQAZHOM_NO_SUCH_STATE, HIRQAZHOM_AT_ARC, 3, 1));
    CHECK(asked.d.fitted && asked.d.graph.states == STATES);
    CHECK(memcmp(asked.stores, spared.stores, sizeof asked.stores) == 0);
    hear(&asked, HALF, FRAMES);
    hear(&spared, HALF, FRAMES);
    CHECK(hirqazhom_decoder_frames_decoded(&asked.d) == FRAMES);
    CHECK(hirqazhom_decoder_num_active(&asked.d) == hirqazhom_decoder_num_active(&spared.d));
    CHECK(hirqazhom_decoder_final_relative_cost(&asked.d) == hirqazhom_decoder_final_relative_cost(&spared.d));
    check_same_reads(&asked, &spared);
}

/* Without places for records the start is accepted, and the first frame wants one. */
static void no_records(void)
{
    const struct hirqazhom_sizes n = {STATES, 0, 0, 0, 0};
    struct hirqazhom_decoder d;
    CHECK(hirqazhom_decoder_carve(&d, n, block, hirqazhom_decoder_bytes(n)));
    CHECK(hirqazhom_decoder_fit(&d, &graph, config).number == 0);
    CHECK(hirqazhom_decoder_num_active(&d) == 1);
    CHECK(is(hirqazhom_decoder_frame(&d, call[0], SOUNDS), HIRQAZHOM_RECORDS_FULL, HIRQAZHOM_AT_FRAMES, 0, 0));
}

/* Its decoder and output have no places at all; it takes frames, and reads find nothing. */
static void graph_without_states(void)
{
    const struct hirqazhom_graph g = {0, 0, 0, HIRQAZHOM_NO_STATE, SOUNDS, offsets, ilabels, olabels, weights, nextstates, finals, tid2pdf, tid2phone};
    const struct hirqazhom_sizes no_sizes = {0, 0, 0, 0, 0};
    const struct hirqazhom_places no_places = {0, 0, 0};
    struct hirqazhom_decoder d;
    struct hirqazhom_output out;
    CHECK(hirqazhom_decoder_carve(&d, no_sizes, block, 0) && hirqazhom_output_carve(&out, no_places, block, 0));
    CHECK(hirqazhom_graph_check(&g).number == 0);
    CHECK(hirqazhom_decoder_fit(&d, &g, config).number == 0 && d.fitted);
    CHECK(hirqazhom_decoder_frame(&d, call[0], SOUNDS).number == 0);
    CHECK(hirqazhom_decoder_frames_decoded(&d) == 1);
    CHECK(hirqazhom_decoder_num_active(&d) == 0);
    CHECK(hirqazhom_decoder_final_relative_cost(&d) == INFINITY);
    struct hirqazhom_path path = hirqazhom_decoder_best_path(&d, true, &out);
    CHECK(path.number == 0 && !path.found);
    struct hirqazhom_count n = hirqazhom_decoder_alternatives(&d, true, PATHS, &out);
    CHECK(n.number == 0 && n.count == 0);
    n = hirqazhom_decoder_reading_list(&d, true, PATHS, PATHS, &out);
    CHECK(n.number == 0 && n.count == 0);
}

/* An arc, a state, and the frames decoded. */
static void places_of_refusals(void)
{
    static const float bad_finals[STATES] = {INFINITY, 0, NAN, INFINITY};
    static struct rig r;
    struct hirqazhom_graph stray = stray_graph(), g = graph;
    g.finals = bad_finals;
    CHECK(is(hirqazhom_graph_check(&graph), 0, HIRQAZHOM_NOWHERE, 0, 0));
    CHECK(is(hirqazhom_graph_check(&stray), HIRQAZHOM_NO_SUCH_STATE, HIRQAZHOM_AT_ARC, 3, 1));
    CHECK(is(hirqazhom_graph_check(&g), HIRQAZHOM_BAD_WEIGHT, HIRQAZHOM_AT_STATE, 2, 0));
    begin(&r);
    CHECK(is(hirqazhom_decoder_frame(&r.d, call[HALF], SOUNDS - 1), HIRQAZHOM_BAD_FRAME_LENGTH, HIRQAZHOM_AT_FRAMES, HALF, 0));
}

/* Writes the line of a verdict into as many bytes as the text has, reads it back, and finds no room in one byte less. */
static bool has_line(struct hirqazhom_verdict why, const char *text)
{
    uint8_t line[HIRQAZHOM_MAX_LINE];
    size_t len = strlen(text);
    struct hirqazhom_count n = hirqazhom_write_line(why, line, len);
    struct hirqazhom_count none = hirqazhom_write_line(why, line, len - 1);
    return n.number == 0 && n.count == len && memcmp(line, text, len) == 0 && none.number == HIRQAZHOM_LINE_TOO_LONG && none.count == 0
           && is(hirqazhom_read_line(line, len), why.number, why.place, why.at, why.arc);
}

/* A verdict without a line, with room for one. */
static bool has_none(struct hirqazhom_verdict why)
{
    uint8_t line[HIRQAZHOM_MAX_LINE];
    struct hirqazhom_count n = hirqazhom_write_line(why, line, sizeof line);
    return n.number == 0 && n.count == 0;
}

static void lines_of_refusals(void)
{
    struct hirqazhom_graph stray = stray_graph();
    struct hirqazhom_verdict accepted = hirqazhom_graph_check(&graph), plain = {HIRQAZHOM_BAD_SETTING, HIRQAZHOM_NOWHERE, 0, 0};
    struct hirqazhom_verdict no_place = {HIRQAZHOM_BAD_LABEL, HIRQAZHOM_NOWHERE, 0, 0}, other_place = {HIRQAZHOM_BAD_SETTING, HIRQAZHOM_AT_FRAMES + 1, 0, 0};
    CHECK(has_line(hirqazhom_graph_check(&stray), "refusal 2; start or arc target is no state; state 3; arc 1;"));
    CHECK(has_line(plain, "refusal 6; setting or store size out of range;"));
    CHECK(has_none(accepted) && has_none(no_place) && has_none(other_place));
    CHECK(is(hirqazhom_read_line((const uint8_t *)"", 0), 0, HIRQAZHOM_NOWHERE, 0, 0));
}

int main(void)
{
    decoder_blocks();
    output_blocks();
    all_refused_blocks();
    large_sizes();
    large_places();
    unfitted_decoder();
    refused_fittings();
    no_records();
    graph_without_states();
    places_of_refusals();
    lines_of_refusals();
    printf("%u passed, %u failed\n", passed, failed);
    return failed == 0 ? 0 : 1;
}
