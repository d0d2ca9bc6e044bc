/* Decodes the recorded call: words, their frames, and the course on the needles, of which the machine knits three in four frames. Two paths tie to the last bit; the same
   one is written each time. */
#include "recorded_call.h"

enum { RECORDS = 32, COURSES = 3, COURSE_FRAMES = 4 };

/* No arc is an epsilon arc, so there is no queue. A best path has at most a word for each record and a segment for each frame. */
static uint64_t stores[HIRQAZHOM_BYTES(STATES, RECORDS, 0, 0, 0) / 8 + 1];
static uint64_t answers[HIRQAZHOM_OUTPUT_BYTES(0, RECORDS, FRAMES) / 8 + 1];

int main(void)
{
    struct hirqazhom_decoder decoder;
    struct hirqazhom_output out;
    struct hirqazhom_sizes sizes = {STATES, RECORDS, 0, 0, 0};
    struct hirqazhom_places places = {0, RECORDS, FRAMES};
    if (!hirqazhom_decoder_carve(&decoder, sizes, stores, sizeof stores) || !hirqazhom_output_carve(&out, places, answers, sizeof answers))
        return 1;

    struct hirqazhom_verdict verdict = hirqazhom_decoder_fit(&decoder, &graph, config);
    for (int i = 0; verdict.number == 0 && i < FRAMES; i++)
        verdict = hirqazhom_decoder_frame(&decoder, call[i], SOUNDS);
    if (verdict.number != 0) {
        print_refusal(verdict);
        return 1;
    }

    struct hirqazhom_path path = hirqazhom_decoder_best_path(&decoder, true, &out);
    struct hirqazhom_entry heard = hirqazhom_output_path(&out, path);
    for (size_t i = 0; i < heard.num_words; i++) {
        uint32_t start = heard.frames[i];
        uint32_t end = i + 1 < heard.num_words ? heard.frames[i + 1] : hirqazhom_decoder_frames_decoded(&decoder);
        /* not refused: both numbers are in range, and so is the frame of every word */
        struct hirqazhom_course_at at = hirqazhom_course(start, COURSES, COURSE_FRAMES);
        printf("frames %u..%u  course %u  %s\n", start, end, at.course, names[heard.words[i]]);
    }
    return path.found ? 0 : 1;
}
