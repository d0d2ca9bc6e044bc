/* Two headsets on one machine: two decoders over one graph, the second a frame behind. Each has a part of one block to itself; in the end each lists what it heard, best
   first. */
#include "recorded_call.h"
#include <stdlib.h>

enum { DECODERS = 2, RECORDS = 32, MAX = 4 };

static int refused(struct hirqazhom_verdict why)
{
    print_refusal(why);
    return 1;
}

static int hear(struct hirqazhom_decoder *d, const float *frame)
{
    struct hirqazhom_verdict v = hirqazhom_decoder_frame(d, frame, SOUNDS);
    return v.number == 0 ? 0 : refused(v);
}

static int list(struct hirqazhom_decoder *d, struct hirqazhom_output *out)
{
    struct hirqazhom_count n = hirqazhom_decoder_alternatives(d, true, MAX, out);
    if (n.number != 0) {
        struct hirqazhom_verdict why = {n.number, HIRQAZHOM_NOWHERE, 0, 0};
        return refused(why);
    }
    for (size_t i = 0; i < n.count; i++) {
        struct hirqazhom_entry e = hirqazhom_output_alternative(out, i);
        printf("  cost %.2f:", e.cost);
        for (size_t w = 0; w < e.num_words; w++)
            printf(" %s%s", names[e.words[w]], w + 1 < e.num_words ? "," : "\n");
    }
    return 0;
}

static int run(struct hirqazhom_decoder d[DECODERS], struct hirqazhom_output *out)
{
    for (int i = 0; i < DECODERS; i++) {
        struct hirqazhom_verdict v = hirqazhom_decoder_fit(&d[i], &graph, config);
        if (v.number != 0)
            return refused(v);
    }
    for (int f = 0; f <= FRAMES; f++)
        if ((f < FRAMES && hear(&d[0], call[f]) != 0) || (f > 0 && hear(&d[1], call[f - 1]) != 0))
            return 1;
    for (int i = 0; i < DECODERS; i++) {
        printf("headset %d\n", i + 1);
        if (list(&d[i], out) != 0)
            return 1;
    }
    return 0;
}

int main(void)
{
    struct hirqazhom_sizes sizes = {STATES, RECORDS, 0, 0, 0};
    struct hirqazhom_places places = {MAX, MAX * RECORDS, MAX * FRAMES};
    size_t part = (hirqazhom_decoder_bytes(sizes) + HIRQAZHOM_ALIGNMENT - 1) / HIRQAZHOM_ALIGNMENT * HIRQAZHOM_ALIGNMENT;
    size_t out_part = hirqazhom_output_bytes(places);
    unsigned char *block = (unsigned char *)malloc(DECODERS * part + out_part);
    struct hirqazhom_decoder d[DECODERS];
    struct hirqazhom_output out;
    int status = 1;
    if (hirqazhom_decoder_carve(&d[0], sizes, block, part) && hirqazhom_decoder_carve(&d[1], sizes, block + part, part)
        && hirqazhom_output_carve(&out, places, block + DECODERS * part, out_part))
        status = run(d, &out);
    free(block);
    return status;
}
