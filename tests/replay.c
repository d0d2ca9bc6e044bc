/* Runs the calls of a script through the header and compares each answer with the answers file, word by word. `oracle/FORMAT.md` has the format of both.

       replay SCRIPT ANSWERS

   Says the first difference, by the number of its call, from 0. Decoder calls go through the board's part of the header. Each block or slice that is lent has memory of
   just its length, and stores are not zeroed, so that valgrind sees what the library reads or writes beside them. */
#include "hirqazhom.h"
#include <stdio.h>
#include <stdlib.h>
#include <string.h>

/* The calls, by the format's numbers. */
enum {
    GRAPH = 1, FIT, START, FRAME, KEEP, BEST, ALTERNATIVES, READINGS, RELATIVE, ACTIVE, FRAMES, SEARCH, SHUFFLE, UNSHUFFLE, COURSE, LINE, READ_LINE,
    SILENCE_NEW = 20, SILENCE_TRACEBACK, SILENCE_DELTAS, TRAILING, SILENCE_ACTIVE
};

/* The slices of a graph, in the order of its record. */
enum { FINALS, OFFSETS, ILABELS, OLABELS, WEIGHTS, NEXTSTATES, TID2PDF, TID2PHONE, TABLES };

/* The answer to a misshapen record, or to a call on a graph, decoder or silence state that is not there. */
#define FAULTY_SCRIPT UINT32_MAX

/* What is lent where a script sets no limit: more than the sample needs. An answer that needs more is refused by 11 or 15, and so differs. */
enum { ENTRIES_MOST = 1 << 16, KEPT_MOST = 1 << 16, READINGS_MOST = 1 << 11, WORDS_MOST = 1 << 15, SEGMENTS_MOST = 1 << 10, DELTAS_MOST = 1 << 20 };

/* What an output is filled with before a call. */
enum { PATTERN = 0xa5 };

/* Words of a file. */
struct slice {
    const uint32_t *at;
    size_t len;
};

struct record {
    uint32_t kind;
    struct slice words;
};

/* The words of an answer; `room` is how many have places. */
struct answer {
    uint32_t *words;
    size_t len;
    size_t room;
};

/* The silence phones, the state, and places for decoder frames; `status` is null where there is none of it. */
struct silence {
    struct hirqazhom_silence_state state;
    int32_t *phones;
    size_t num_phones;
    uint32_t *status;
    float *weights;
    size_t places;
};

/* What stays between calls. There is a graph where `graph.offsets` is not null, and a decoder where `stores` is not, which is its block. */
struct driver {
    size_t calls; /* done so far */
    struct answer answer;
    struct hirqazhom_graph graph;
    struct hirqazhom_decoder decoder;
    void *stores;
    struct silence silence;
};

/* An output and its block; one that is shuffled into is the block alone. */
struct lent {
    struct hirqazhom_output out;
    unsigned char *block;
    size_t bytes;
};

/* Segments in three slices. */
struct columns {
    int32_t *phones;
    uint32_t *starts;
    uint32_t *ends;
    size_t len;
};

/* ---- memory and words */

/* Memory that was asked for; without it the program ends. */
static void *given(void *memory)
{
    if (memory == NULL) {
        printf("no memory\n");
        exit(1);
    }
    return memory;
}

/* Just so many bytes, not zeroed. */
static void *lend(size_t bytes)
{
    return given(bytes == SIZE_MAX ? NULL : malloc(bytes));
}

/* The words in memory of their own. */
static void *copy_of(struct slice s)
{
    return memcpy(lend(4 * s.len), s.at, 4 * s.len);
}

/* Cuts the first `len` words off. False where there are fewer. */
static bool take(struct slice *rest, size_t len, struct slice *part)
{
    if (rest->len < len)
        return false;
    part->at = rest->at;
    part->len = len;
    rest->at += len;
    rest->len -= len;
    return true;
}

/* The same where the first word says how many come. */
static bool take_counted(struct slice *rest, struct slice *part)
{
    struct slice len;
    return take(rest, 1, &len) && take(rest, len.at[0], part);
}

static bool take_record(struct slice *rest, struct record *r)
{
    struct slice kind;
    if (!take(rest, 1, &kind) || !take_counted(rest, &r->words))
        return false;
    r->kind = kind.at[0];
    return true;
}

/* The limit in word i, but at most `most`, as where it is left off. */
static size_t limit(struct slice w, size_t i, size_t most)
{
    return i < w.len && w.at[i] < most ? w.at[i] : most;
}

static float float_of(uint32_t word)
{
    float x;
    memcpy(&x, &word, sizeof x);
    return x;
}

static uint64_t wide_of(const uint32_t *words)
{
    return words[0] | (uint64_t)words[1] << 32;
}

static void put(struct answer *a, uint32_t word)
{
    if (a->len == a->room) {
        a->room = 2 * a->room + 64;
        a->words = (uint32_t *)given(realloc(a->words, 4 * a->room));
    }
    a->words[a->len++] = word;
}

static void put_float(struct answer *a, float x)
{
    uint32_t word;
    memcpy(&word, &x, sizeof word);
    put(a, word);
}

static void put_wide(struct answer *a, uint64_t x)
{
    put(a, (uint32_t)x);
    put(a, (uint32_t)(x >> 32));
}

/* A number, and the words of its place. */
static void put_verdict(struct answer *a, struct hirqazhom_verdict v)
{
    put(a, v.number);
    if (v.place != HIRQAZHOM_NOWHERE)
        put(a, v.at);
    if (v.place == HIRQAZHOM_AT_ARC)
        put(a, v.arc);
}

/* Ends the program where a rule does not hold. */
static void must(const struct driver *s, bool holds, const char *rule)
{
    if (!holds) {
        printf("call %zu: not so: %s\n", s->calls, rule);
        exit(1);
    }
}

/* ---- graphs and fittings. Here and below a call is false where the script is faulty; then it has put nothing. */

static void free_graph(struct hirqazhom_graph *g)
{
    const void *tables[TABLES] = {g->finals, g->offsets, g->ilabels, g->olabels, g->weights, g->nextstates, g->tid2pdf, g->tid2phone};
    for (int i = 0; i < TABLES; i++)
        free((void *)tables[i]);
}

static bool take_tables(struct slice w, struct slice t[TABLES])
{
    for (int i = 0; i < TABLES; i++)
        if (!take_counted(&w, &t[i]))
            return false;
    return w.len == 0;
}

/* Copies of the record's slices. The transition tables may differ in length: no label of an accepted graph is past the shorter one. */
static struct hirqazhom_graph graph_of(struct slice head, const struct slice t[TABLES])
{
    struct hirqazhom_graph g;
    g.states = t[FINALS].len;
    g.arcs = t[ILABELS].len;
    g.transitions = t[TID2PDF].len < t[TID2PHONE].len ? t[TID2PDF].len : t[TID2PHONE].len;
    g.pdfs = head.at[0];
    g.start = head.at[1];
    g.finals = (const float *)copy_of(t[FINALS]);
    g.offsets = (const uint32_t *)copy_of(t[OFFSETS]);
    g.ilabels = (const int32_t *)copy_of(t[ILABELS]);
    g.olabels = (const int32_t *)copy_of(t[OLABELS]);
    g.weights = (const float *)copy_of(t[WEIGHTS]);
    g.nextstates = (const uint32_t *)copy_of(t[NEXTSTATES]);
    g.tid2pdf = (const int32_t *)copy_of(t[TID2PDF]);
    g.tid2phone = (const int32_t *)copy_of(t[TID2PHONE]);
    return g;
}

/* The library's own call judges, since a script may bring slices of lengths that a struct hirqazhom_graph cannot say. An accepted graph drops the decoder. */
static bool graph_call(struct driver *s, struct slice w)
{
    struct slice head, t[TABLES];
    if (!take(&w, 2, &head) || !take_tables(w, t))
        return false;
    struct hirqazhom_graph g = graph_of(head, t);
    struct hirqazhom_verdict v = hirqazhom_build(
        g.offsets, t[OFFSETS].len, g.ilabels, t[ILABELS].len, g.olabels, t[OLABELS].len, g.weights, t[WEIGHTS].len, g.nextstates, t[NEXTSTATES].len,
        g.finals, t[FINALS].len, g.tid2pdf, t[TID2PDF].len, g.tid2phone, t[TID2PHONE].len, g.start, g.pdfs);
    put_verdict(&s->answer, v);
    if (v.number != 0) {
        free_graph(&g);
        return true;
    }
    must(s, hirqazhom_graph_check(&g).number == 0, "the board's check accepts an accepted graph");
    free_graph(&s->graph);
    s->graph = g;
    free(s->stores);
    s->stores = NULL;
    return true;
}

/* The epsilon arcs of a state. */
static size_t epsilons_of(const struct hirqazhom_graph *g, size_t state)
{
    size_t n = 0;
    for (uint32_t a = g->offsets[state]; a < g->offsets[state + 1]; a++)
        n += g->ilabels[a] == 0;
    return n;
}

/* The queue that always suffices, by the manual. */
static size_t enough_queue(const struct hirqazhom_graph *g)
{
    size_t states = 0, arcs = 0;
    for (size_t i = 0; i < g->states; i++) {
        size_t n = epsilons_of(g, i);
        states += n > 0;
        arcs += n;
    }
    return states + (states + 1) * arcs;
}

/* The sizes that a script asks for, cut to what can matter: with more records than there may be, one more is refused as well. */
static struct hirqazhom_sizes sizes_of(const struct hirqazhom_graph *g, struct slice w)
{
    struct hirqazhom_sizes n;
    n.states = limit(w, 4, g->states);
    n.records = w.len > 5 ? limit(w, 5, HIRQAZHOM_MAX_RECORDS + 1) : HIRQAZHOM_MAX_RECORDS;
    n.queue = limit(w, 6, enough_queue(g));
    n.entries = limit(w, 7, ENTRIES_MOST);
    n.kept = limit(w, 8, KEPT_MOST);
    return n;
}

/* Fits a second decoder; it becomes the first where it is fitted. */
static bool fit_call(struct driver *s, struct slice w)
{
    if (w.len < 4 || w.len > 9 || s->graph.offsets == NULL)
        return false;
    struct hirqazhom_config config = {float_of(w.at[0]), w.at[1], w.at[2], float_of(w.at[3])};
    struct hirqazhom_sizes n = sizes_of(&s->graph, w);
    size_t bytes = hirqazhom_decoder_bytes(n);
    void *block = lend(bytes);
    struct hirqazhom_decoder next;
    must(s, hirqazhom_decoder_carve(&next, n, block, bytes), "a decoder's block of just its bytes is carved");
    put_verdict(&s->answer, hirqazhom_decoder_fit(&next, &s->graph, config));
    if (!next.fitted) {
        free(block);
        return true;
    }
    free(s->stores);
    s->stores = block;
    s->decoder = next;
    return true;
}

/* ---- reads */

static void put_words(struct answer *a, struct hirqazhom_entry e)
{
    put(a, (uint32_t)e.num_words);
    for (size_t i = 0; i < e.num_words; i++)
        put(a, (uint32_t)e.words[i]);
}

static void put_words_with_frames(struct answer *a, struct hirqazhom_entry e)
{
    put(a, (uint32_t)e.num_words);
    for (size_t i = 0; i < e.num_words; i++) {
        put(a, (uint32_t)e.words[i]);
        put(a, e.frames[i]);
    }
}

static void put_path(struct answer *a, struct hirqazhom_entry e)
{
    put_float(a, e.cost);
    put_words_with_frames(a, e);
    put(a, (uint32_t)e.num_segments);
    for (size_t i = 0; i < 3 * e.num_segments; i++)
        put(a, e.segments[i]);
}

static void put_reading(struct answer *a, struct hirqazhom_reading r)
{
    put_float(a, r.rank);
    put_float(a, r.entry.cost);
    put(a, (uint32_t)r.kept);
    put_float(a, r.token_cost);
    put_float(a, r.token_graph);
    put(a, (uint32_t)r.token_phone);
    put(a, r.token_seq);
    put_words(a, r.entry);
}

/* An output filled with the pattern. Its limits of words, frames and segments begin at word `first`. Words and frames are carved alike and then cut, since a script may
   set one lower than the other. */
static struct lent lend_output(const struct driver *s, struct slice w, size_t first, size_t paths)
{
    size_t words = limit(w, first, WORDS_MOST), frames = limit(w, first + 1, WORDS_MOST);
    struct hirqazhom_places n = {paths, words > frames ? words : frames, limit(w, first + 2, SEGMENTS_MOST)};
    struct lent l;
    l.bytes = hirqazhom_output_bytes(n);
    l.block = (unsigned char *)lend(l.bytes);
    memset(l.block, PATTERN, l.bytes);
    must(s, hirqazhom_output_carve(&l.out, n, l.block, l.bytes), "an output's block of just its bytes is carved");
    l.out.words.len = words;
    l.out.frames.len = frames;
    return l;
}

static bool untouched(const struct lent *l)
{
    size_t i = 0;
    while (i < l->bytes && l->block[i] == PATTERN)
        i++;
    return i == l->bytes;
}

/* Puts the number. True where it is a refusal's, which has written nothing. */
static bool refused(struct driver *s, const struct lent *l, uint32_t number)
{
    put(&s->answer, number);
    must(s, number == 0 || untouched(l), "a refused call leaves the output as it was");
    return number != 0;
}

static void best(struct driver *s, bool use_final, struct lent *l)
{
    struct hirqazhom_path p = hirqazhom_decoder_best_path(&s->decoder, use_final, &l->out);
    if (refused(s, l, p.number))
        return;
    put(&s->answer, p.found);
    if (p.found)
        put_path(&s->answer, hirqazhom_output_path(&l->out, p));
}

static void alternatives(struct driver *s, bool use_final, size_t max, struct lent *l)
{
    struct hirqazhom_count n = hirqazhom_decoder_alternatives(&s->decoder, use_final, max, &l->out);
    if (refused(s, l, n.number))
        return;
    put(&s->answer, (uint32_t)n.count);
    for (size_t i = 0; i < n.count; i++)
        put_path(&s->answer, hirqazhom_output_alternative(&l->out, i));
}

/* The paths of the traced readings, which are the first `max`. */
static void put_traced(struct driver *s, const struct hirqazhom_output *out, size_t count, size_t max)
{
    put(&s->answer, (uint32_t)(count < max ? count : max));
    for (size_t i = 0; i < count; i++) {
        struct hirqazhom_entry e = hirqazhom_output_reading(out, i, max).entry;
        if (i < max)
            put_path(&s->answer, e);
        else
            must(s, e.frames == NULL && e.num_segments == 0, "a reading that is not traced has neither frames nor segments");
    }
}

static void readings(struct driver *s, bool use_final, size_t listed, size_t max, struct lent *l)
{
    struct hirqazhom_count n = hirqazhom_decoder_reading_list(&s->decoder, use_final, listed, max, &l->out);
    if (refused(s, l, n.number))
        return;
    put(&s->answer, (uint32_t)n.count);
    for (size_t i = 0; i < n.count; i++)
        put_reading(&s->answer, hirqazhom_output_reading(&l->out, i, max));
    put_traced(s, &l->out, n.count, max);
}

/* A read's settings, then the limits of its output: paths, which a best path has not, words, frames and segments. */
static bool read_call(struct driver *s, uint32_t kind, struct slice w)
{
    size_t settings = kind == BEST ? 1 : kind == ALTERNATIVES ? 2 : 3;
    size_t first = kind == BEST ? settings : settings + 1;
    if (w.len < settings || w.len > first + 3 || w.at[0] > 1)
        return false;
    struct lent l = lend_output(s, w, first, kind == BEST ? 0 : limit(w, settings, READINGS_MOST));
    if (kind == BEST)
        best(s, w.at[0] == 1, &l);
    else if (kind == ALTERNATIVES)
        alternatives(s, w.at[0] == 1, w.at[1], &l);
    else
        readings(s, w.at[0] == 1, w.at[1], w.at[2], &l);
    free(l.block);
    return true;
}

/* ---- the other calls on a decoder */

static bool frame_call(struct driver *s, struct slice w)
{
    float *loglikes = (float *)copy_of(w);
    put_verdict(&s->answer, hirqazhom_decoder_frame(&s->decoder, loglikes, w.len));
    free(loglikes);
    return true;
}

/* A 0, or a 1 and the margin. */
static bool keep_call(struct driver *s, struct slice w)
{
    if (w.len < 1 || w.len > 2 || w.at[0] != w.len - 1)
        return false;
    bool keeps = w.at[0] == 1;
    put_verdict(&s->answer, hirqazhom_decoder_set_keep(&s->decoder, keeps, keeps ? float_of(w.at[1]) : 0));
    return true;
}

/* Calls that bring nothing. */
static bool plain_call(struct driver *s, uint32_t kind)
{
    struct answer *a = &s->answer;
    switch (kind) {
    case START:
        put_verdict(a, hirqazhom_decoder_start(&s->decoder));
        return true;
    case RELATIVE:
        put(a, 0);
        put_float(a, hirqazhom_decoder_final_relative_cost(&s->decoder));
        return true;
    case ACTIVE:
        put(a, 0);
        put(a, hirqazhom_decoder_num_active(&s->decoder));
        return true;
    case FRAMES:
        put(a, 0);
        put(a, hirqazhom_decoder_frames_decoded(&s->decoder));
        return true;
    default:
        return false;
    }
}

static bool decoder_call(struct driver *s, uint32_t kind, struct slice w)
{
    if (s->stores == NULL)
        return false;
    switch (kind) {
    case FRAME:
        return frame_call(s, w);
    case KEEP:
        return keep_call(s, w);
    case BEST:
    case ALTERNATIVES:
    case READINGS:
        return read_call(s, kind, w);
    default:
        return w.len == 0 && plain_call(s, kind);
    }
}

/* ---- search, shuffle, course, lines and silence, by the library's own calls */

static bool search_call(struct driver *s, struct slice w)
{
    struct slice word, e, x;
    if (!take(&w, 1, &word) || !take_counted(&w, &e) || !take_counted(&w, &x) || w.len != 0)
        return false;
    uint32_t *ends = (uint32_t *)copy_of(e);
    int32_t *words = (int32_t *)copy_of(x);
    struct hirqazhom_index hit = hirqazhom_find((int32_t)word.at[0], ends, e.len, words, x.len);
    put(&s->answer, hit.number);
    if (hit.number == 0)
        put(&s->answer, hit.found);
    if (hit.found)
        put(&s->answer, (uint32_t)hit.index);
    free(ends);
    free(words);
    return true;
}

/* The bytes of a block stand in its words as the words do in memory. */
static bool shuffle_call(struct driver *s, uint32_t kind, struct slice w)
{
    struct slice head;
    if (!take(&w, 2, &head) || w.len != ((size_t)head.at[1] + 3) / 4)
        return false;
    size_t len = head.at[1];
    uint8_t *block = (uint8_t *)memcpy(lend(len), w.at, len);
    struct lent l;
    l.bytes = head.at[0];
    l.block = (unsigned char *)memset(lend(l.bytes), PATTERN, l.bytes);
    uint32_t number = kind == SHUFFLE ? hirqazhom_shuffle(block, len, l.block, l.bytes) : hirqazhom_unshuffle(block, len, l.block, l.bytes);
    if (!refused(s, &l, number))
        for (size_t i = 0; i < l.bytes; i += 4) {
            uint32_t word;
            memcpy(&word, l.block + i, sizeof word);
            put(&s->answer, word);
        }
    free(block);
    free(l.block);
    return true;
}

static bool course_call(struct driver *s, struct slice w)
{
    if (w.len != 3)
        return false;
    struct hirqazhom_course_at c = hirqazhom_course(w.at[0], w.at[1], w.at[2]);
    put(&s->answer, c.number);
    if (c.number == 0) {
        put(&s->answer, c.course);
        put(&s->answer, c.remainder);
    }
    return true;
}

static bool line_call(struct driver *s, struct slice w)
{
    if (w.len != 5 || w.at[2] > HIRQAZHOM_AT_FRAMES)
        return false;
    struct hirqazhom_verdict why = {w.at[1], w.at[2], w.at[3], w.at[4]};
    struct lent l;
    l.bytes = w.at[0];
    l.block = (unsigned char *)memset(lend(l.bytes), PATTERN, l.bytes);
    struct hirqazhom_count n = hirqazhom_write_line(why, l.block, l.bytes);
    if (!refused(s, &l, n.number)) {
        put(&s->answer, (uint32_t)n.count);
        for (size_t i = 0; i < n.count; i += 4) {
            uint32_t word = 0;
            memcpy(&word, l.block + i, n.count - i < 4 ? n.count - i : 4);
            put(&s->answer, word);
        }
        struct lent behind = l;
        behind.block += n.count;
        behind.bytes -= n.count;
        must(s, untouched(&behind), "what lies behind a line is as it was");
    }
    free(l.block);
    return true;
}

static bool read_line_call(struct driver *s, struct slice w)
{
    struct slice head;
    if (!take(&w, 1, &head) || w.len != ((size_t)head.at[0] + 3) / 4)
        return false;
    size_t len = head.at[0];
    uint8_t *bytes = (uint8_t *)memcpy(lend(len), w.at, len);
    struct hirqazhom_verdict why = hirqazhom_read_line(bytes, len);
    put(&s->answer, 0);
    put(&s->answer, why.number != 0);
    if (why.number != 0) {
        put(&s->answer, why.number);
        put(&s->answer, why.place);
        put(&s->answer, why.at);
        put(&s->answer, why.arc);
    }
    free(bytes);
    return true;
}

static void free_silence(struct silence *q)
{
    free(q->phones);
    free(q->status);
    free(q->weights);
}

/* A refused one leaves the state that there is. */
static bool silence_new_call(struct driver *s, struct slice w)
{
    struct slice head, phones;
    if (!take(&w, 3, &head) || !take_counted(&w, &phones) || w.len != 0)
        return false;
    struct hirqazhom_silence made = hirqazhom_silence_new(float_of(head.at[0]), head.at[1]);
    put(&s->answer, made.number);
    if (made.number != 0)
        return true;
    size_t places = limit(head, 2, HIRQAZHOM_MAX_SILENCE_FRAMES);
    struct silence q = {made.state, (int32_t *)copy_of(phones), phones.len, (uint32_t *)lend(4 * places), (float *)lend(4 * places), places};
    free_silence(&s->silence);
    s->silence = q;
    return true;
}

/* Number `i` of each segment. */
static void *column_of(struct slice segments, size_t i)
{
    uint32_t *column = (uint32_t *)lend(4 * (segments.len / 3));
    for (size_t n = 0; n < segments.len / 3; n++)
        column[n] = segments.at[3 * n + i];
    return column;
}

static struct columns columns_of(struct slice segments)
{
    struct columns c = {(int32_t *)column_of(segments, 0), (uint32_t *)column_of(segments, 1), (uint32_t *)column_of(segments, 2), segments.len / 3};
    return c;
}

static void free_columns(struct columns *c)
{
    free(c->phones);
    free(c->starts);
    free(c->ends);
}

static bool traceback_call(struct driver *s, struct slice w)
{
    struct silence *q = &s->silence;
    struct slice decoded;
    if (!take(&w, 1, &decoded) || w.len % 3 != 0)
        return false;
    struct columns c = columns_of(w);
    struct hirqazhom_silence next = hirqazhom_silence_traceback(
        q->state, q->phones, q->num_phones, c.phones, c.len, c.starts, c.len, c.ends, c.len, decoded.at[0], q->status, q->places, q->weights, q->places);
    free_columns(&c);
    put(&s->answer, next.number);
    if (next.number != 0)
        return true;
    q->state = next.state;
    put(&s->answer, next.state.frames);
    return true;
}

static void put_deltas(struct answer *a, size_t count, const uint64_t *frames, const float *deltas)
{
    put(a, (uint32_t)count);
    for (size_t i = 0; i < count; i++) {
        put_wide(a, frames[i]);
        put_float(a, deltas[i]);
    }
}

static bool deltas_call(struct driver *s, struct slice w)
{
    struct silence *q = &s->silence;
    if (w.len < 4 || w.len > 5)
        return false;
    size_t places = limit(w, 4, DELTAS_MOST);
    uint64_t *frames = (uint64_t *)lend(8 * places);
    float *deltas = (float *)lend(4 * places);
    struct hirqazhom_silence next = hirqazhom_silence_deltas(
        q->state, wide_of(w.at), wide_of(w.at + 2), q->status, q->places, q->weights, q->places, frames, places, deltas, places);
    put(&s->answer, next.number);
    if (next.number == 0) {
        q->state = next.state;
        put_deltas(&s->answer, next.count, frames, deltas);
    }
    free(frames);
    free(deltas);
    return true;
}

static bool silence_call(struct driver *s, uint32_t kind, struct slice w)
{
    if (s->silence.status == NULL)
        return false;
    if (kind == SILENCE_TRACEBACK)
        return traceback_call(s, w);
    if (kind == SILENCE_DELTAS)
        return deltas_call(s, w);
    put(&s->answer, 0);
    put(&s->answer, hirqazhom_silence_active(s->silence.state, s->silence.phones, s->silence.num_phones));
    return true;
}

static bool trailing_call(struct driver *s, struct slice w)
{
    struct slice silence_phones;
    if (!take_counted(&w, &silence_phones) || w.len % 3 != 0)
        return false;
    int32_t *own = (int32_t *)copy_of(silence_phones);
    struct columns c = columns_of(w);
    struct hirqazhom_count n = hirqazhom_trailing_silence_frames(own, silence_phones.len, c.phones, c.len, c.starts, c.len, c.ends, c.len);
    free(own);
    free_columns(&c);
    put(&s->answer, n.number);
    if (n.number == 0)
        put_wide(&s->answer, n.count);
    return true;
}

/* ---- the replay */

static bool any_call(struct driver *s, uint32_t kind, struct slice w)
{
    switch (kind) {
    case GRAPH:
        return graph_call(s, w);
    case FIT:
        return fit_call(s, w);
    case SEARCH:
        return search_call(s, w);
    case SHUFFLE:
    case UNSHUFFLE:
        return shuffle_call(s, kind, w);
    case COURSE:
        return course_call(s, w);
    case LINE:
        return line_call(s, w);
    case READ_LINE:
        return read_line_call(s, w);
    case SILENCE_NEW:
        return silence_new_call(s, w);
    case SILENCE_TRACEBACK:
    case SILENCE_DELTAS:
    case SILENCE_ACTIVE:
        return silence_call(s, kind, w);
    case TRAILING:
        return trailing_call(s, w);
    default:
        return decoder_call(s, kind, w);
    }
}

/* Whether two answers are the same; else says where they differ first. */
static bool same(const struct driver *s, uint32_t kind, struct slice want, struct slice got)
{
    size_t i = 0;
    while (i < want.len && i < got.len && want.at[i] == got.at[i])
        i++;
    if (i == want.len && i == got.len)
        return true;
    if (i < want.len && i < got.len)
        printf("call %zu, kind %u, word %zu: wanted %u, got %u\n", s->calls, kind, i, want.at[i], got.at[i]);
    else
        printf("call %zu, kind %u: wanted %zu words, got %zu\n", s->calls, kind, want.len, got.len);
    return false;
}

/* Runs a call, and compares its answer. */
static bool right(struct driver *s, struct record call, struct record want)
{
    if (call.kind != want.kind) {
        printf("call %zu: wanted kind %u, got %u\n", s->calls, want.kind, call.kind);
        return false;
    }
    s->answer.len = 0;
    if (!any_call(s, call.kind, call.words))
        put(&s->answer, FAULTY_SCRIPT);
    struct slice got = {s->answer.words, s->answer.len};
    return same(s, call.kind, want.words, got);
}

/* Until one of the files ends; both must. */
static bool replay(struct driver *s, struct slice script, struct slice answers)
{
    for (; script.len > 0 && answers.len > 0; s->calls++) {
        struct record call, want;
        if (!take_record(&script, &call) || !take_record(&answers, &want)) {
            printf("call %zu: a record is cut off\n", s->calls);
            return false;
        }
        if (!right(s, call, want))
            return false;
    }
    if (script.len > 0 || answers.len > 0)
        printf("call %zu: the %s end before it\n", s->calls, script.len > 0 ? "answers" : "calls");
    return script.len == 0 && answers.len == 0;
}

/* The bytes of a file up to its end; 0 where it cannot be read. */
static size_t file_size(FILE *file)
{
    long end = file != NULL && fseek(file, 0, SEEK_END) == 0 ? ftell(file) : 0;
    return end > 0 && fseek(file, 0, SEEK_SET) == 0 ? (size_t)end : 0;
}

/* A file's words, whose bytes lie as this machine's; without any the program ends. */
static struct slice words_of(const char *path)
{
    FILE *file = fopen(path, "rb");
    size_t bytes = file_size(file);
    void *words = lend(bytes);
    if (bytes == 0 || bytes % 4 != 0 || fread(words, 1, bytes, file) != bytes) {
        printf("%s cannot be read as words of four bytes\n", path);
        exit(1);
    }
    fclose(file);
    struct slice s = {(const uint32_t *)words, bytes / 4};
    return s;
}

int main(int argc, char **argv)
{
    if (argc != 3) {
        printf("usage: replay SCRIPT ANSWERS\n");
        return 1;
    }
    static struct driver s; /* of zeros: nothing is there yet */
    struct slice script = words_of(argv[1]), answers = words_of(argv[2]);
    bool done = replay(&s, script, answers);
    if (done)
        printf("%s: %zu calls, no answer differs\n", argv[1], s.calls);
    free_graph(&s.graph);
    free(s.stores);
    free_silence(&s.silence);
    free(s.answer.words);
    free((void *)script.at);
    free((void *)answers.at);
    return done ? 0 : 1;
}
