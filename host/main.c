/* A host of the slot planner: plans a few sheets and compares their texts. */
#include "slot_planner.h"

#include <stdio.h>
#include <string.h>

#define UNTOUCHED 0xA5

/* Masks 01 01 01 01; jobs (number, ready, deadline, points) 1 (0, 2, 5),
 * 2 (0, 1, 4), 3 (1, 2, 3), 4 (1, 4, 2), 5 (0, 4, 1). */
static const uint8_t sample[] = {
    1, 0, 1,  1,
    2, 0, 4,  1, 1, 1, 1,
    3, 0, 10, 0, 1, 0, 0, 0, 2, 0, 0, 0, 5,
    3, 0, 10, 0, 2, 0, 0, 0, 1, 0, 0, 0, 4,
    3, 0, 10, 0, 3, 0, 1, 0, 2, 0, 0, 0, 3,
    3, 0, 10, 0, 4, 0, 1, 0, 4, 0, 0, 0, 2,
    3, 0, 10, 0, 5, 0, 0, 0, 4, 0, 0, 0, 1,
};

static const char sample_text[] = "1 1 0\n2 0 0\n3 - 0 2\n4 2 0\n5 3 0\n";

/* Plans a sheet into the first `room` bytes of a buffer. The text is due at its
 * front, or, where `text` is null, the answer for a buffer that is too short;
 * every other byte is due as it was. */
static int agrees(const char *name, const uint8_t *sheet, size_t len, size_t room, const char *text)
{
    uint8_t out[SLOT_PLANNER_TEXT_MAX + 1];
    uint8_t due[sizeof out];
    int64_t answer = SLOT_PLANNER_TOO_SHORT;
    memset(out, UNTOUCHED, sizeof out);
    memset(due, UNTOUCHED, sizeof due);
    if (text) {
        answer = (int64_t)strlen(text);
        memcpy(due, text, strlen(text));
    }
    int64_t got = plan_sheet(sheet, len, out, room);
    int same = got == answer && memcmp(out, due, sizeof out) == 0;
    printf("%s: %s\n", name, same ? "agrees" : "another text or answer");
    return same;
}

int main(void)
{
    const size_t long_enough = SLOT_PLANNER_TEXT_MAX;
    const size_t text_len = strlen(sample_text);
    int same = 1;
    same &= agrees("sample sheet", sample, sizeof sample, long_enough, sample_text);
    same &= agrees("cut inside its third job", sample, 40, long_enough, "refused 1 at 37\n");
    same &= agrees("cut behind its kind", sample, 4, long_enough, "refused 3 at 4\n");
    same &= agrees("no bytes", sample, 0, long_enough, "refused 3 at 0\n");
    same &= agrees("no jobs", sample, 11, long_enough, "");
    same &= agrees("buffer of the text's length", sample, sizeof sample, text_len, sample_text);
    same &= agrees("buffer one byte too short", sample, sizeof sample, text_len - 1, NULL);
    same &= agrees("buffer of no bytes", sample, sizeof sample, 0, NULL);
    return same ? 0 : 1;
}
