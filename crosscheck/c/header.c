/* Tries what anim.h holds besides the library's functions: limits, rooms, the report, which buffer is shown, and the texts. */
#include "anim.h"

#include <stdio.h>
#include <string.h>

#define COUNT(array) (sizeof(array) / sizeof((array)[0]))

/* Rooms are constants, so that arrays can have them. */
typedef uint8_t record_buffer[ANIM_RECORD_ROOM(ANIM_FRAME_BYTES(320, 200, 5))];
typedef uint8_t delta_buffer[ANIM_DELTA_ROOM(320, 200, 5)];

/* 44 is retired: it has no text of its own. */
static const uint64_t answers[] = {ANIM_OK, ANIM_END, 11, 12, 13, 14, 21, 22, 23, 24, 25, 31, 32,
                                   33, 34, 35, 36, 37, 41, 42, 43, 45, 51, 53, 61, 62};
static int failed = 0;

static void expect(int holds, const char *what) {
    if (!holds) {
        fprintf(stderr, "header: %s\n", what);
        failed = 1;
    }
}

static void numbers(void) {
    uint64_t width = 320, height = 200, planes = 5, frame = 40000;
    expect(ANIM_MAX_FILE + 1 == (uint64_t)1 << 31, "ANIM_MAX_FILE and 1 is 2147483648");
    expect(ANIM_MAP_BYTES == 256 * 3, "the map has 256 colours of three bytes");
    expect(ANIM_RECORD_ROOM(2) == 1555 && sizeof(record_buffer) == 81551, "record buffers for 2 and for 40000 bytes");
    expect(sizeof(delta_buffer) == 60464, "a delta buffer for 320 x 200 x 5");
    expect(ANIM_RECORD_ROOM(frame++) == 81551 && frame == 40001, "ANIM_RECORD_ROOM evaluates its argument once");
    expect(ANIM_DELTA_ROOM(width++, height++, planes++) == 60464, "ANIM_DELTA_ROOM of what is counted on");
    expect(width == 321 && height == 201 && planes == 6, "ANIM_DELTA_ROOM evaluates its arguments once");
}

/* The report's numbers, of eight bytes each, stand in their order. */
static void reports(void) {
    const anim_report report = {5, 3, 2, 10, 1};
    const uint64_t wanted[] = {5, 3, 2, 10, 1};
    expect(sizeof report == sizeof wanted && memcmp(&report, wanted, sizeof wanted) == 0, "a report is five numbers");
    expect(report.method == 5 && report.time == 3 && report.changed == 2, "a report's first three numbers");
    expect(report.record_length == 10 && report.ops == 1, "a report's last two numbers");
}

static void pictures(void) {
    const uint8_t a[2] = {1, 1}, b[2] = {2, 2};
    anim_state state = {16, 1, 1, 1, 12, 12};
    expect(anim_shown(&state, a, b) == a && anim_hidden(&state, a, b) == b, "frame 1 is shown in A");
    state.frame = 2;
    expect(anim_shown(&state, a, b) == b && anim_hidden(&state, a, b) == a, "frame 2 is shown in B");
}

/* Each answer has a text of its own, and every other number the same one. */
static void texts(void) {
    const char *other = anim_refusal_text(UINT64_MAX);
    uint64_t n;
    size_t k, known = 0;
    for (n = 0; n < 1000; n++)
        known += strcmp(anim_refusal_text(n), other) != 0;
    expect(known == COUNT(answers), "as many texts as answers");
    for (k = 0; k < COUNT(answers); k++) {
        expect(strcmp(anim_refusal_text(answers[k]), other) != 0, "an answer has a text");
        for (n = 0; n < k; n++)
            expect(strcmp(anim_refusal_text(answers[k]), anim_refusal_text(answers[n])) != 0, "two answers have two texts");
    }
}

int main(void) {
    numbers();
    reports();
    pictures();
    texts();
    return failed;
}
