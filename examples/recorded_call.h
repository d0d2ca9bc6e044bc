/* The recorded call of the README and its graph: a state for each sound, 0 silence, 1 carrier three, 2 carrier two, 3 dropped stitch. `crates/listen` has the arcs one by
   one. */
#include "hirqazhom.h"
#include <stdio.h>

enum { STATES = 4, ARCS = 7, SOUNDS = 4, FRAMES = 8 };

static const uint32_t offsets[STATES + 1] = {0, 2, 3, 4, 7};
static const int32_t ilabels[ARCS] = {1, 2, 4, 3, 2, 3, 4};
static const int32_t olabels[ARCS] = {0, 2, 0, 0, 0, 3, 4};
static const float weights[ARCS] = {0};
static const uint32_t nextstates[ARCS] = {0, 3, 1, 2, 3, 2, 1};
static const float finals[STATES] = {INFINITY, 0, 0, INFINITY};
static const int32_t tid2pdf[] = {-1, 0, 1, 2, 3};
static const int32_t tid2phone[] = {0, 1, 2, 3, 4};

static const struct hirqazhom_graph graph = {STATES, ARCS, 5, 0, SOUNDS, offsets, ilabels, olabels, weights, nextstates, finals, tid2pdf, tid2phone};

static const struct hirqazhom_config config = {8, 1000, 0, 0.5f};

/* Log-likelihoods of silence, dropped stitch, carrier two, carrier three. */
static const float call[FRAMES][SOUNDS] = {
    {-0.5f, -4, -6, -6}, {-0.5f, -3, -6, -6},    {-3, -0.5f, -4, -4},      {-4, -0.25f, -4, -4},
    {-5, -0.5f, -2, -2}, {-6, -3, -0.5f, -0.5f}, {-6, -4, -0.25f, -0.25f}, {-4, -4, -0.75f, -0.75f},
};

static const char *const names[] = {"", "", "dropped stitch", "carrier two", "carrier three"};

static inline void print_refusal(struct hirqazhom_verdict why)
{
    uint8_t line[HIRQAZHOM_MAX_LINE];
    struct hirqazhom_count n = hirqazhom_write_line(why, line, sizeof line);
    printf("%.*s\n", (int)n.count, (const char *)line);
}
