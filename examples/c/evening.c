/* Plans the worked evening of docs/rules/worked-evening.md, and performs the plan. */
#include <stdio.h>

#include "zomraey.h"

/* The file of docs/rules/rig-file.md: a lamp that is on, a day sky, four moves, and any scene with a dark sky wanted. */
static const uint8_t evening[89] = {
    0x01, 0x02, 0x04, 0x00, 0x0C, 0x00, 0x1E, 0x00, 0x22, 0x00, 0x59, 0x00, 0x02, 0x4C, 0x41, 0x4D,
    0x50, 0x20, 0x20, 0x20, 0x20, 0x03, 0x53, 0x4B, 0x59, 0x20, 0x20, 0x20, 0x20, 0x20, 0x01, 0x00,
    0x03, 0x04, 0x00, 0x01, 0x01, 0x00, 0x0F, 0x00, 0x00, 0x01, 0x00, 0x00, 0x01, 0x01, 0x01, 0x01,
    0x14, 0x00, 0x01, 0x00, 0x01, 0x01, 0x01, 0x1E, 0x00, 0x00, 0x01, 0x02, 0x01, 0x01, 0x01, 0x14,
    0x00, 0x01, 0x01, 0x01, 0x02, 0x01, 0x28, 0x00, 0x00, 0x01, 0x03, 0x01, 0x01, 0x01, 0x28, 0x00,
    0x01, 0x00, 0x01, 0x02, 0x01, 0x32, 0x00, 0x00, 0x01,
};

int main(void) {
    uint8_t sheet[16];
    uint8_t after[sizeof evening];
    struct zomraey_plan_answer plan = zomraey_plan(evening, sizeof evening, 512, sheet, sizeof sheet);
    if (plan.verdict != ZOMRAEY_WAY) {
        fprintf(stderr, "no way is answered: verdict %d, refusal %d\n", plan.verdict, plan.refusal);
        return 1;
    }
    printf("way %zu moves %llu tenths %llu rounds\n", plan.moves, (unsigned long long)plan.time, (unsigned long long)plan.rounds);
    for (size_t i = 0; i < plan.moves; i++) {
        printf("move %d\n", sheet[i]);
    }
    struct zomraey_file_answer done = zomraey_perform(evening, sizeof evening, sheet, plan.moves, after, sizeof after);
    if (done.ending != ZOMRAEY_WRITTEN) {
        fprintf(stderr, "the plan is not performed: ending %d, refusal %d\n", done.ending, done.refusal);
        return 1;
    }
    printf("performed in %llu tenths: lamp %d, sky %d\n", (unsigned long long)done.time, after[30], after[31]);
    return 0;
}
