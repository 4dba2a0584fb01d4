/* Plays a file to its end and back again, and checks that it comes back to frame 1. */
#include "anim.h"

#include <stdio.h>
#include <stdlib.h>
#include <string.h>

/* A record that is kept until its step is taken back. */
struct kept {
    uint8_t *bytes;
    size_t length;
    struct kept *before;
};

struct player {
    uint8_t *file, *a, *b, *map, *work, *record;
    size_t file_length, frame, room;
    anim_state state;
    anim_report report;
    struct kept *latest;
};

static void stop(const char *what) {
    fprintf(stderr, "play: %s\n", what);
    exit(1);
}

/* Memory of so many bytes, or of one byte if none are asked for. */
static uint8_t *memory(size_t length) {
    uint8_t *p = (uint8_t *)malloc(length > 0 ? length : 1);
    if (p == NULL)
        stop("no memory");
    return p;
}

static void read_file(struct player *p, const char *name) {
    FILE *f = fopen(name, "rb");
    long length = -1;
    if (f == NULL || fseek(f, 0, SEEK_END) != 0 || (length = ftell(f)) < 0 || fseek(f, 0, SEEK_SET) != 0)
        stop("the file can't be read");
    p->file_length = (size_t)length;
    p->file = memory(p->file_length);
    if (fread(p->file, 1, p->file_length, f) != p->file_length)
        stop("the file can't be read");
    fclose(f);
}

static uint64_t open_file(struct player *p) {
    uint64_t frame = 0;
    uint64_t answer = anim_frame_size_typed(p->file, p->file_length, &frame);
    p->frame = (size_t)frame;
    p->room = ANIM_RECORD_ROOM(p->frame);
    p->a = memory(p->frame);
    p->b = memory(p->frame);
    p->map = memory(ANIM_MAP_BYTES);
    p->work = memory(p->frame);
    p->record = memory(p->room);
    p->latest = NULL;
    if (answer != ANIM_OK)
        return answer;
    return anim_open_typed(p->file, p->file_length, &p->state, p->a, p->b, p->map, p->frame);
}

/* Lists of words have no ops that count, and columns have at most 255 each. */
static void check_ops(const struct player *p) {
    uint64_t columns = p->report.method < 5 ? 0 : ANIM_ROW_BYTES(p->state.width) / (p->report.method == 7 ? 2 : 1);
    if (p->report.ops > 255 * columns * p->state.planes)
        stop("too many ops");
}

/* Steps on and keeps the record in memory of its own length. */
static uint64_t step_on(struct player *p) {
    struct kept *k;
    uint64_t answer = anim_step_on_typed(p->file, p->file_length, &p->state, p->a, p->b, p->map, p->work, p->frame,
                                         p->record, p->room, &p->report);
    if (answer == ANIM_NO_ROOM)
        stop("a record has no room");
    if (answer != ANIM_OK)
        return answer;
    check_ops(p);
    k = (struct kept *)malloc(sizeof *k);
    if (k == NULL)
        stop("no memory");
    k->length = (size_t)p->report.record_length;
    k->bytes = memory(k->length);
    memcpy(k->bytes, p->record, k->length);
    k->before = p->latest;
    p->latest = k;
    return answer;
}

/* Takes the latest step back and gives its record up. */
static void step_back(struct player *p) {
    struct kept *k = p->latest;
    if (anim_step_back_typed(&p->state, p->a, p->b, p->map, p->frame, k->bytes, k->length) != ANIM_OK)
        stop("a step back is refused");
    p->latest = k->before;
    free(k->bytes);
    free(k);
}

/* Looks at the bytes of the map, asks for every row of the shown picture, and looks at its bytes. */
static unsigned look(const struct player *p) {
    const uint8_t *shown = anim_shown(&p->state, p->a, p->b);
    unsigned sum = 0;
    uint64_t plane, row, at, x;
    for (x = 0; x < ANIM_MAP_BYTES; x++)
        sum = sum * 31 + p->map[x];
    for (plane = 0; plane < p->state.planes; plane++)
        for (row = 0; row < p->state.height; row++) {
            if (anim_row_refusal_typed(plane, row, &p->state, p->a, p->b, p->frame) != ANIM_OK)
                stop("a row is refused");
            at = anim_row_place_typed(plane, row, &p->state, p->a, p->b, p->frame);
            for (x = 0; x < ANIM_ROW_BYTES(p->state.width); x++)
                sum = sum * 31 + shown[at + x];
        }
    return sum;
}

/* Writes the delta from the hidden frame to the shown one into memory of so many bytes, and gives the memory up unless it is kept. */
static uint64_t delta_in(const struct player *p, size_t room, uint64_t *length, uint8_t **kept) {
    uint8_t *out = memory(room);
    const anim_state *s = &p->state;
    uint64_t answer = anim_write_delta_typed(s->width, s->height, s->planes, anim_hidden(s, p->a, p->b),
                                             anim_shown(s, p->a, p->b), p->frame, out, room, length);
    if (kept != NULL)
        *kept = out;
    else
        free(out);
    return answer;
}

/* Writes the delta from the hidden frame to the shown one; it must have 64 bytes exactly if they are equal, and need just as many as it has. */
static void write_delta(const struct player *p) {
    size_t room = ANIM_DELTA_ROOM(p->state.width, p->state.height, p->state.planes);
    int equal = memcmp(p->a, p->b, p->frame) == 0;
    uint64_t length = 0, again = 0;
    uint8_t *out, *same;
    if (delta_in(p, room, &length, &out) != ANIM_OK || length > room)
        stop("a delta is refused");
    if (length < 64 || (length == 64) != equal)
        stop("a delta has a wrong length");
    if (delta_in(p, (size_t)length - 1, &again, NULL) != ANIM_NO_ROOM || again != 0)
        stop("a delta without room is written");
    if (delta_in(p, (size_t)length, &again, &same) != ANIM_OK || again != length || memcmp(out, same, (size_t)length) != 0)
        stop("a delta with just enough room is refused");
    free(out);
    free(same);
}

static void play(struct player *p) {
    anim_state first = p->state;
    unsigned looked = look(p), most = 0;
    uint8_t *a = memory(p->frame), *b = memory(p->frame), *map = memory(ANIM_MAP_BYTES);
    uint64_t answer;
    memcpy(a, p->a, p->frame);
    memcpy(b, p->b, p->frame);
    memcpy(map, p->map, ANIM_MAP_BYTES);
    while ((answer = step_on(p)) == ANIM_OK) {
        look(p);
        write_delta(p);
        most++;
    }
    while (p->latest != NULL)
        step_back(p);
    if (memcmp(&first, &p->state, sizeof first) != 0 || memcmp(a, p->a, p->frame) != 0 || memcmp(b, p->b, p->frame) != 0 ||
        memcmp(map, p->map, ANIM_MAP_BYTES) != 0 || look(p) != looked)
        stop("it doesn't come back to frame 1");
    free(a);
    free(b);
    free(map);
    printf("%u steps on and back, ", most);
    if (answer == ANIM_END)
        printf("end\n");
    else
        printf("refused %u\n", (unsigned)answer);
}

int main(int argc, char **argv) {
    struct player p;
    uint64_t answer;
    if (argc != 2)
        stop("name a file");
    read_file(&p, argv[1]);
    answer = open_file(&p);
    if (answer == ANIM_OK)
        play(&p);
    else
        printf("refused %u\n", (unsigned)answer);
    free(p.file);
    free(p.a);
    free(p.b);
    free(p.map);
    free(p.work);
    free(p.record);
    return 0;
}
