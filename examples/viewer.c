/*
 * viewer.c: plays an ANIM file to its end and draws each frame as text, a character for each pixel, and
 * prints the colours that change with it.
 *
 *     tools/staticlib
 *     cc -I include examples/viewer.c target/staticlib/libanim.a -o viewer
 *     ./viewer samples/packed.anim
 *
 * Exit status: 0 if the file is played to its end; 1 if it is refused, at opening or at a later frame;
 * 2 if no file is named, or it can't be read or is longer than 16 MiB.
 */
#include "anim.h"

#include <stdio.h>
#include <string.h>

#define MAX_FILE (16u << 20) /* bytes; the library takes files of up to ANIM_MAX_FILE */

static uint8_t file[MAX_FILE + 1];
static uint8_t a[ANIM_MAX_FRAME_BYTES], b[ANIM_MAX_FRAME_BYTES], work[ANIM_MAX_FRAME_BYTES];
static uint8_t map[ANIM_MAP_BYTES], printed[ANIM_MAP_BYTES];
static uint8_t record[ANIM_RECORD_ROOM(ANIM_MAX_FRAME_BYTES)];

/* Reads the whole file and answers 1; where it can't, it tells why and answers 0. */
static int read_file(const char *name, size_t *length) {
    FILE *f = fopen(name, "rb");
    *length = f != NULL ? fread(file, 1, sizeof file, f) : 0;
    if (f == NULL || ferror(f)) {
        perror(name);
        return 0;
    }
    fclose(f);
    if (*length > MAX_FILE) {
        fprintf(stderr, "%s: longer than %u bytes\n", name, MAX_FILE);
        return 0;
    }
    return 1;
}

/* Prints each colour that isn't as it was printed last, at first zeros: its number, and red, green and blue. */
static void show_colours(void) {
    unsigned colour;
    for (colour = 0; colour < ANIM_MAP_BYTES / 3; colour++) {
        const uint8_t *now = map + 3 * colour;
        if (memcmp(now, printed + 3 * colour, 3) != 0)
            printf("colour %u %02x%02x%02x\n", colour, now[0], now[1], now[2]);
    }
    memcpy(printed, map, sizeof map);
}

/* Draws the shown frame: of each pixel the last hexadecimal digit of its colour's number. */
static void show(const anim_state *state, size_t frame_length) {
    const uint8_t *shown = anim_shown(state, a, b), *rows[ANIM_MAX_PLANES];
    uint64_t row, x, plane;
    printf("frame %u\n", (unsigned)state->frame);
    show_colours();
    for (row = 0; row < state->height; row++) {
        for (plane = 0; plane < state->planes; plane++)
            rows[plane] = shown + anim_row_place_typed(plane, row, state, a, b, frame_length);
        for (x = 0; x < state->width; x++) {
            unsigned colour = 0;
            for (plane = 0; plane < state->planes; plane++)
                colour |= (rows[plane][x / 8] >> (7 - x % 8) & 1u) << plane;
            putchar("0123456789abcdef"[colour % 16]);
        }
        putchar('\n');
    }
}

int main(int argc, char **argv) {
    anim_state state;
    anim_report report;
    uint64_t answer, frame_length = 0;
    size_t length;
    if (argc != 2) {
        fprintf(stderr, "usage: viewer FILE\n");
        return 2;
    }
    if (!read_file(argv[1], &length))
        return 2;
    answer = anim_frame_size_typed(file, length, &frame_length);
    if (answer == ANIM_OK)
        answer = anim_open_typed(file, length, &state, a, b, map, frame_length);
    while (answer == ANIM_OK) {
        show(&state, frame_length);
        answer = anim_step_on_typed(file, length, &state, a, b, map, work, frame_length, record, sizeof record, &report);
    }
    if (answer == ANIM_END)
        return 0;
    fprintf(stderr, "refused %u: %s\n", (unsigned)answer, anim_refusal_text(answer));
    return 1;
}
