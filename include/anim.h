/*
 * anim.h: a proved reader of Amiga animations (IFF FORM ANIM files), for C and C++.
 *
 * It reads files whose first picture is an ILBM BODY, plain or packed by ByteRun1, or a delta, and
 * whose later frames are deltas, of method 2 (long delta), 3 (short delta), 5 (byte vertical) or 7
 * (short or long vertical), with the colours of their CMAPs. It plays them forward and, with the
 * records that it writes, back again, and it writes method 5 deltas.
 *
 *     tools/staticlib
 *     cc -I include examples/viewer.c target/staticlib/libanim.a -o viewer
 *
 * libanim.a is for x86-64 Linux. examples/viewer.c is a whole program that plays a file to its end;
 * crosscheck/c/play.c steps back too, and writes deltas.
 *
 * What holds for every function here
 *
 *   - It takes any bytes, any lengths and any numbers. Nothing has to be checked beforehand.
 *   - It ends, does nothing undefined, allocates nothing and keeps nothing between calls. It reads and
 *     writes only what it is lent, and only during the call.
 *   - Each buffer is a pointer and its length in bytes. A pointer must not be null, not even with a
 *     length of 0, and it must lead to that many bytes that may be read (and written, if it isn't
 *     const). A buffer that is written must not overlap another one of the same call. Buffers need
 *     no alignment.
 *   - Calls may run at the same time in several threads if no buffer that one of them writes overlaps a
 *     buffer of another. Two players may share one file, which is only read.
 *   - Its arguments stand in one order: numbers (sizes, plane, row); the file; the state; A, B, the map;
 *     the work buffer; the record or the output; the report or the length. Each function has a typed call
 *     at the end of this header, which takes an anim_state, an anim_report or a uint64_t by its address,
 *     the map without its length, and the length of A, B and the work buffer once.
 *   - Of several things that are wrong, the first in the order given here is answered.
 *   - A refused call changes nothing, with two exceptions: anim_open writes six zeros to the state,
 *     and a step on that is refused with ANIM_NO_ROOM leaves the frame in the work buffer.
 *
 * Frames and buffers
 *
 *   A row of a plane is B = 2 * ((width + 15) / 16) bytes, the leftmost pixel in the top bit of the
 *   first byte. A frame is planes * height * B bytes: plane 0 whole, then plane 1, rows from the top.
 *   320 x 200 in 5 planes: B is 40, a frame 5 * 200 * 40 = 40000 bytes. The longest frame, 1024 x
 *   1024 in 8 planes, is 1048576 bytes.
 *
 *   A player has two picture buffers, A and B, each exactly a frame long. Odd frames are shown in A,
 *   even ones in B; the other one is hidden and holds the frame before (frame 1 at frame 1). The work
 *   buffer is a third buffer of the same length.
 *
 *   The map is a buffer of exactly 768 bytes, 256 colours of three bytes each: red, green, blue, as CMAP
 *   has them. Colour n, the number that the planes' bits make up, stands at 3 * n; with 5 planes the
 *   pixels' colours are the first 32. Opening clears the map, so that colours which were never set are
 *   zeros. A frame's CMAP replaces as many of the first colours as it has and no others, and they hold
 *   for that frame and all after it until the next CMAP. A frame without a CMAP, or with one of no bytes,
 *   changes none. There is one map and not one for each picture: it has the colours of the shown frame.
 *
 *   Between calls the caller may read everything, and may write the work buffer, the report and any
 *   record buffer whose record isn't kept for stepping back. Whoever changes the file, A, B, the map, the
 *   state or a kept record in between gets pictures and colours built on what was written, or a refusal:
 *   still nothing undefined, but no longer the file's frames.
 */
#ifndef ANIM_H
#define ANIM_H

#include <stddef.h>
#include <stdint.h>

#ifdef __cplusplus
extern "C" {
#endif

/* The version of the interface. It grows by one with every landing that changes the interface. */
#define ANIM_VERSION 7

/* Limits. */
#define ANIM_MAX_WIDTH 1024                /* pixels */
#define ANIM_MAX_HEIGHT 1024               /* pixels */
#define ANIM_MAX_PLANES 8
#define ANIM_MAX_FRAME_NUMBER 1000000      /* the highest frame number */
#define ANIM_MAX_FRAME_BYTES 1048576       /* the longest frame: 1024 x 1024 in 8 planes */
#define ANIM_MAX_FILE UINT64_C(2147483647) /* the longest file, in bytes */

/* The map's length: 256 colours of three bytes. */
#define ANIM_MAP_BYTES 768

/* Answers that aren't refusals. */
#define ANIM_OK 0  /* opened, taken or written; the size is answered; the row is there */
#define ANIM_END 1 /* stepping on: no frame is left, nothing changed */

/* Refusals. 44, once a Uniq or Same of none, is retired: no call is refused with it, and it isn't used again. */
#define ANIM_OUTSIDE_LIMITS 11     /* a state or size outside the limits; a state, report, size or length lent with a wrong length */
#define ANIM_BUFFER_LENGTH 12      /* a picture or work buffer that isn't exactly a frame long; a map that isn't 768 bytes long */
#define ANIM_FILE_TOO_LONG 13      /* a file of more than 2147483647 bytes */
#define ANIM_NO_SUCH_ROW 14        /* no such plane or row */
#define ANIM_CHUNK_PAST_PARENT 21  /* under 12 bytes; a chunk passes its parent; FORM ANIM or a FORM directly in it under 4 bytes */
#define ANIM_NOT_FORM_ANIM 22      /* not a FORM ANIM */
#define ANIM_NO_PICTURE 23         /* no FORM ILBM, or the first lacks BMHD, or has neither BODY nor DLTA */
#define ANIM_BAD_BMHD 24           /* BMHD not 20 bytes, sizes outside the limits, masking 1, compression above 1 */
#define ANIM_BAD_BODY 25           /* BODY too short, or a run past its row */
#define ANIM_NO_DELTA 31           /* a later frame without ANHD or DLTA, or a first one with neither BODY nor ANHD */
#define ANIM_SHORT_ANHD 32         /* ANHD under 40 bytes */
#define ANIM_UNKNOWN_METHOD 33     /* a method that is none of 2, 3, 5 and 7 */
#define ANIM_UNKNOWN_INTERLEAVE 34 /* a later frame's interleave other than 0, 1 and 2 */
#define ANIM_UNKNOWN_OPTIONS 35    /* option bits: any for methods 2, 3 and 5, bits 1 to 31 for method 7 */
#define ANIM_ODD_LONG_COLUMNS 36   /* method 7 with long data, and B isn't a multiple of 4 */
#define ANIM_BAD_COLOURS 37        /* a CMAP whose length isn't a multiple of 3 or is above 768 */
#define ANIM_BAD_POINTER 41        /* DLTA under 64 bytes (methods 2 and 3: 32), or a pointer outside that to its length */
#define ANIM_DELTA_TOO_SHORT 42    /* an op count, op, offset, count, item or word past DLTA's end */
#define ANIM_OP_PAST_LAST_ROW 43   /* an op past the last row */
#define ANIM_WORD_PAST_PLANE 45    /* methods 2 and 3: a move or a word beyond the plane */
#define ANIM_NO_ROOM 51            /* a record or delta longer than its buffer */
#define ANIM_LAST_FRAME 53         /* stepping on from frame 1000000 */
#define ANIM_BAD_RECORD 61         /* a malformed record, bytes left over, or an old byte equal to the one it replaces */
#define ANIM_OTHER_RECORD 62       /* a record of a frame below 2 or not the state's, or of a place below 12 or not before the state's */

/*
 * Where a player stands. anim_open fills it; hand it to the other calls as anim_open or the last step
 * left it. It may be copied, kept and put back together with A, B and the map.
 *
 * It is handed over as its 48 bytes, each number with its low byte first, as on x86-64. It is lent as
 * (uint8_t *)&state, sizeof state, which the typed calls do: a struct of six uint64_t has no gaps, and
 * its bytes may be read and written through a uint8_t pointer.
 */
typedef struct anim_state {
    uint64_t width;  /* pixels, 1 to 1024 */
    uint64_t height; /* pixels, 1 to 1024 */
    uint64_t planes; /* 1 to 8 */
    uint64_t frame;  /* the shown frame, 1 to 1000000; odd ones are shown in A */
    uint64_t next;   /* where the file is read on, at least 12 */
    uint64_t end;    /* where FORM ANIM ends, from next to 2147483647 */
} anim_state;

/*
 * What a step on tells of the frame it reached; it is handed over as its 40 bytes, lent likewise. Every op
 * of every list that is read counts, once for each plane, so that there are at most 255 for each column of
 * each plane that is read.
 */
typedef struct anim_report {
    uint64_t method;        /* 2, 3, 5 or 7 */
    uint64_t time;          /* ANHD's relative time, in sixtieths of a second */
    uint64_t changed;       /* how many bytes of the hidden buffer changed; those of the map aren't counted */
    uint64_t record_length; /* how many bytes of the record buffer are this step's record */
    uint64_t ops;           /* methods 5 and 7: how many ops its lists have; methods 2 and 3: 0 */
} anim_report;

/* These don't compile where a struct has another size than the library reads and writes. */
typedef char anim_state_has_48_bytes[sizeof(anim_state) == 48 ? 1 : -1];
typedef char anim_report_has_40_bytes[sizeof(anim_report) == 40 ? 1 : -1];

/* Bytes of a row of a plane. Sizes within the limits fit in every type of 32 bits. */
#define ANIM_ROW_BYTES(width) (((width) + 15) / 16 * 2)

/* Bytes of a frame. 320 x 200 x 5: 40000. */
#define ANIM_FRAME_BYTES(width, height, planes) (ANIM_ROW_BYTES(width) * (height) * (planes))

/*
 * A record buffer's length that is enough for every step, for frames of so many bytes: twice the frame
 * and 12 bytes for the picture, and 1539 bytes for the map. It is proved that no step on with a record
 * buffer of this length, or a longer one, is refused with 51 (theorem never_51). 320 x 200 x 5:
 * 2 * 40000 + 12 + 1539 = 81551.
 *
 * A record is a frame number of at most three bytes, a place of at most five, and two lists of runs, of
 * the picture's changed bytes and of the map's. A list is the number of its runs, of at most three bytes
 * for a picture and two for the map, and for each run two numbers and the run's old bytes, in all at most
 * one byte more than twice the picture or the map. A shorter buffer does no harm: a step that has no room
 * is refused with 51 and changes nothing but the work buffer.
 */
#define ANIM_RECORD_ROOM(frame_bytes) (2 * (frame_bytes) + 12 + 1539)

/*
 * A delta buffer's length that is enough for every two pictures: 64 bytes of pointers, and for each
 * column of each plane 3/2 of the height, rounded down, and 2 bytes. This bound is proved (theorem
 * delta_fits). 320 x 200 x 5: 64 + 40 * 5 * (300 + 2) = 60464.
 *
 * A column is a count byte and its ops. A Skip costs a byte and goes down at least one row. Sames cost
 * fewer bytes than they have rows. A Uniq costs a byte more than it has rows, and unless it has 127 rows
 * or is the last op, one row or more of another op stands between it and the next: at most
 * (height + 1) / 2 Uniqs.
 */
#define ANIM_DELTA_ROOM(width, height, planes) (64 + ANIM_ROW_BYTES(width) * (planes) * ((height) * 3 / 2 + 2))

/* Which buffer is shown: A at odd frames, B at even ones. */
static inline const uint8_t *anim_shown(const anim_state *state, const uint8_t *a, const uint8_t *b) {
    return state->frame % 2 == 1 ? a : b;
}

/* Which buffer is hidden: the other one. The next step on puts its frame there. */
static inline const uint8_t *anim_hidden(const anim_state *state, const uint8_t *a, const uint8_t *b) {
    return state->frame % 2 == 1 ? b : a;
}

/* A refusal in a few words. ANIM_OK and ANIM_END have texts too, and so has every other number. */
static inline const char *anim_refusal_text(uint64_t answer) {
    switch (answer) {
    case ANIM_OK: return "not refused";
    case ANIM_END: return "no frame is left";
    case ANIM_OUTSIDE_LIMITS: return "a state or size is outside the limits, or lent with a wrong length";
    case ANIM_BUFFER_LENGTH: return "a picture or work buffer isn't a frame long, or the map isn't 768 bytes";
    case ANIM_FILE_TOO_LONG: return "the file is too long";
    case ANIM_NO_SUCH_ROW: return "no such plane or row";
    case ANIM_CHUNK_PAST_PARENT: return "a chunk passes its parent, or the file or a FORM is too short";
    case ANIM_NOT_FORM_ANIM: return "not a FORM ANIM";
    case ANIM_NO_PICTURE: return "no FORM ILBM, or the first lacks BMHD, or has neither BODY nor DLTA";
    case ANIM_BAD_BMHD: return "BMHD has a wrong length, size, masking or compression";
    case ANIM_BAD_BODY: return "BODY is too short, or a run passes its row";
    case ANIM_NO_DELTA: return "a frame lacks ANHD or DLTA";
    case ANIM_SHORT_ANHD: return "ANHD is too short";
    case ANIM_UNKNOWN_METHOD: return "the method is none of 2, 3, 5 and 7";
    case ANIM_UNKNOWN_INTERLEAVE: return "the interleave is none of 0, 1 and 2";
    case ANIM_UNKNOWN_OPTIONS: return "option bits that the method doesn't have";
    case ANIM_ODD_LONG_COLUMNS: return "method 7's long data, and a row isn't a multiple of 4 bytes";
    case ANIM_BAD_COLOURS: return "CMAP has a length that isn't a multiple of 3, or is above 768";
    case ANIM_BAD_POINTER: return "DLTA is too short for its pointers, or a pointer is bad";
    case ANIM_DELTA_TOO_SHORT: return "an op or its data passes DLTA's end";
    case ANIM_OP_PAST_LAST_ROW: return "an op passes the last row";
    case ANIM_WORD_PAST_PLANE: return "a move or a word goes beyond its plane";
    case ANIM_NO_ROOM: return "the record or delta is longer than its buffer";
    case ANIM_LAST_FRAME: return "no step goes on from frame 1000000";
    case ANIM_BAD_RECORD: return "the record is malformed, or doesn't fit the shown picture or the map";
    case ANIM_OTHER_RECORD: return "the record is of another step";
    default: return "no such answer";
    }
}

/*
 * Asks how long A, B and the work buffer must be for a file.
 *
 * file       the whole file; it is read and never changed.
 * size       the 8 bytes of a uint64_t.
 *
 * Answers ANIM_OK, or the first of these refusals:
 *   11  the size isn't 8 bytes long
 *   then 13, 21, 22, 23, 31 and 24, in anim_open's order; 12 and what follows it aren't asked
 *
 * Answered, the size is the bytes of a frame, 40000 for 320 x 200 in 5 planes. Refused, it is as it was.
 */
uint64_t anim_frame_size(const uint8_t *file, size_t file_length,
                         uint8_t *size, size_t size_length);

/*
 * Opens a file: A and B get its first picture, the map its colours, and the state gets frame 1. The first
 * picture is the BODY of the first FORM ILBM, or without one what its DLTA makes of an all-zero picture.
 * With a BODY neither ANHD nor DLTA is looked at.
 *
 * file       the whole file; it is read and never changed. FORM ANIM starts at its first byte, and
 *            bytes after the FORM's end aren't read.
 * state      the 48 bytes of an anim_state.
 * a, b       each exactly a frame long, as anim_frame_size answers. A wrong guess does no harm, it is
 *            refused with 12.
 * map        exactly 768 bytes, of any content.
 *
 * Answers ANIM_OK, or the first of these refusals:
 *   11  the state isn't 48 bytes long; then the state isn't written either
 *   13  the file is longer than 2147483647 bytes
 *   21  the file is shorter than 12 bytes
 *   22  it doesn't begin with FORM, or its type isn't ANIM
 *   21  FORM ANIM's length is below 4 or passes the file
 *   21  a chunk before the end of the first FORM ILBM passes its parent, its pad included, or a FORM
 *       directly in FORM ANIM is shorter than 4
 *   23  there is no FORM ILBM
 *   21  a chunk in the first FORM ILBM passes it; that frame is walked whole
 *   23  it lacks BMHD, or has neither BODY nor DLTA; the first chunk of each id counts
 *   31  it has neither BODY nor ANHD
 *   24  BMHD isn't 20 bytes long, has a width or height outside 1 to 1024 or planes outside 1 to 8,
 *       masking 1, or a compression above 1
 *   12  A or B isn't a frame long, or the map isn't 768 bytes long
 *   37  the length of CMAP isn't a multiple of 3 or is above 768
 *   25  BODY is too short, or a packed run passes its row
 *   or without a BODY, after 12
 *   32, 33, 35, 36, 37, 41, 42, 43, 45  as anim_step_on answers them, in its order; 34 isn't asked, since
 *       the first frame's interleave isn't looked at
 *
 * Opened, A and B both hold frame 1, and the map holds the colours of the frame's CMAP and zeros behind
 * them. Refused, A, B and the map are as they were and the state is six zeros, which every other call
 * refuses with 11.
 */
uint64_t anim_open(const uint8_t *file, size_t file_length,
                   uint8_t *state, size_t state_length,
                   uint8_t *a, size_t a_length,
                   uint8_t *b, size_t b_length,
                   uint8_t *map, size_t map_length);

/*
 * Steps on to the next frame.
 *
 * file       the file that was opened, whole and unchanged.
 * state      the 48 bytes of the anim_state.
 * a, b       the two picture buffers, each exactly a frame long.
 * map        the map, exactly 768 bytes.
 * work       exactly a frame long, of any content. The new frame is built here.
 * record     of any length; ANIM_RECORD_ROOM of a frame is always enough. Keep the first
 *            report.record_length bytes for as long as the step may be taken back.
 * report     the 40 bytes of an anim_report.
 *
 * Answers ANIM_OK if the step is taken, ANIM_END if no frame is left, or the first of these refusals:
 *   11  the state isn't 48 bytes long, or the report isn't 40
 *   11  the state is outside the limits (width, height, planes, frame), or not 12 <= next <= end <=
 *       2147483647, or the end place is past the file's length
 *   12  A, B or the work buffer isn't a frame long, or the map isn't 768 bytes long
 *   53  the state is at frame 1000000, a frame left or not
 *   21  a chunk from the next place to the end of the next FORM ILBM, or to the end place if there is
 *       none, passes its parent, or a FORM directly in FORM ANIM is shorter than 4
 *       (here ANIM_END is answered, if there is no FORM ILBM)
 *   21  a chunk in the frame passes it; the frame is walked whole
 *   31  the frame lacks ANHD or DLTA; the first chunk of each id counts
 *   32  ANHD is shorter than 40 bytes
 *   33  the method is none of 2, 3, 5 and 7
 *   34  the interleave is none of 0, 1 and 2
 *   35  option bits that the method doesn't have
 *   36  method 7 with long data, and B isn't a multiple of 4
 *   37  the length of CMAP isn't a multiple of 3 or is above 768; no CMAP is as one of no bytes
 *   41  DLTA is shorter than 64 bytes (methods 2 and 3: 32)
 *   then plane by plane
 *   41  a pointer that is read doesn't lead to 64 (methods 2 and 3: 32) .. DLTA's length
 *   42, 43  the first fault of a list of methods 5 and 7: for each column its op count past DLTA's
 *       end (42), and for each op its first byte past DLTA's end (42), the count byte of a Same likewise
 *       (42), an end past the last row (43), items past DLTA's end (42). A Uniq or Same of none (count
 *       0) isn't refused: it moves nothing, and the Same still takes its item
 *   42, 45  the first fault of a list of methods 2 and 3: for each op its offset past DLTA's end (42), a
 *       move beyond the plane (45), the count of a run past DLTA's end (42), the end of the run beyond
 *       the plane (45), words past DLTA's end (42). A run of none in the plane isn't refused
 *   51  the record is longer than its buffer
 *
 * The new frame is what its delta makes of the hidden picture (interleave 0 or 2: two frames back, for
 * frame 2 the first picture) or of the shown one (interleave 1: one frame back). The record is of the
 * hidden buffer before and after, whichever picture the frame is built on, and of the map before and
 * after.
 *
 * Taken: the hidden buffer and the work buffer hold the new frame, the shown buffer is as it was, the
 * frame's colours stand in the map, whose other colours stay, the state is at the next frame and past its
 * FORM, the report tells of it, and the record's bytes stand at the front of the record buffer, whose
 * other bytes stay. The hidden buffer is now the shown one.
 * End or refused: all is as it was, but that 51 leaves the new frame in the work buffer.
 */
uint64_t anim_step_on(const uint8_t *file, size_t file_length,
                      uint8_t *state, size_t state_length,
                      uint8_t *a, size_t a_length,
                      uint8_t *b, size_t b_length,
                      uint8_t *map, size_t map_length,
                      uint8_t *work, size_t work_length,
                      uint8_t *record, size_t record_length,
                      uint8_t *report, size_t report_length);

/*
 * Takes the latest step on back.
 *
 * state      the 48 bytes of the anim_state.
 * a, b       the two picture buffers, each exactly a frame long.
 * map        the map, exactly 768 bytes.
 * record     the record of the step that led to the shown frame, exactly as long as its report said.
 *
 * The file isn't needed. Steps are taken back latest first, so keep the records of steps on as a stack.
 *
 * Answers ANIM_OK if the step is taken back, or the first of these refusals:
 *   11  the state isn't 48 bytes long
 *   11  the state is outside the limits, or not 12 <= next <= end <= 2147483647
 *   12  A or B isn't a frame long, or the map isn't 768 bytes long
 *   61  the record is malformed for a frame of this length or for the map, has bytes left over, or has an
 *       old byte that equals the one it would replace in the shown picture or in the map
 *   62  the record's frame is below 2 or not the state's, or its place isn't in 12 .. next - 1
 *
 * Taken: the shown buffer and the map hold what they held before the step on, the other buffer is as it
 * was and is now the shown one, and the state is at the frame before, as it was then. Refused: all is as
 * it was. At frame 1 the answer is never ANIM_OK.
 */
uint64_t anim_step_back(uint8_t *state, size_t state_length,
                        uint8_t *a, size_t a_length,
                        uint8_t *b, size_t b_length,
                        uint8_t *map, size_t map_length,
                        const uint8_t *record, size_t record_length);

/*
 * Where a row of a plane of the shown picture stands: (plane * height + row) * B, in A if the frame
 * is odd and in B if it is even. The row is B bytes long. Planes and rows count from 0.
 *
 * Answers the place, or 0 if it is refused. Row 0 of plane 0 stands at 0 too: anim_row_refusal tells
 * the two apart. Nothing is changed.
 */
uint64_t anim_row_place(uint64_t plane, uint64_t row,
                        const uint8_t *state, size_t state_length,
                        const uint8_t *a, size_t a_length,
                        const uint8_t *b, size_t b_length);

/*
 * Whether such a row is there. Answers ANIM_OK, or the first of these refusals:
 *   11  the state isn't 48 bytes long
 *   11  the state is outside the limits, or not 12 <= next <= end <= 2147483647
 *   12  A or B isn't a frame long
 *   14  the plane isn't below the state's planes, or the row not below its height
 * Nothing is changed.
 */
uint64_t anim_row_refusal(uint64_t plane, uint64_t row,
                          const uint8_t *state, size_t state_length,
                          const uint8_t *a, size_t a_length,
                          const uint8_t *b, size_t b_length);

/*
 * Writes the contents of a DLTA of method 5 that turns the old picture into the new one.
 *
 * width, height, planes   the pictures' sizes.
 * old_frame, new_frame    each exactly a frame long.
 * out        of any length; ANIM_DELTA_ROOM of the sizes is always enough.
 * length     the 8 bytes of a uint64_t, which gets how many bytes of out are the delta.
 *
 * Answers ANIM_OK if it is written, or the first of these refusals:
 *   11  length isn't 8 bytes long
 *   11  a width or height outside 1 to 1024, or planes outside 1 to 8
 *   12  the old or the new picture isn't a frame long
 *   51  the delta is longer than out
 *
 * Written: the delta stands at the front of out, whose other bytes stay. Refused: all is as it was.
 * In a player that shows frame n, the old picture of frame n + 1 is the hidden one (anim_hidden), or
 * the shown one (anim_shown) if its interleave is to be 1.
 */
uint64_t anim_write_delta(uint64_t width, uint64_t height, uint64_t planes,
                          const uint8_t *old_frame, size_t old_length,
                          const uint8_t *new_frame, size_t new_length,
                          uint8_t *out, size_t out_length,
                          uint8_t *length, size_t length_length);

/*
 * Typed calls. Each makes the call of its name without _typed, in which the state, the report, the size
 * and the length have the right lengths, the map has ANIM_MAP_BYTES, and each picture and the work buffer
 * have frame_length bytes. Answers and refusals are that call's.
 */
static inline uint64_t anim_frame_size_typed(const uint8_t *file, size_t file_length, uint64_t *size) {
    return anim_frame_size(file, file_length, (uint8_t *)size, sizeof *size);
}

static inline uint64_t anim_open_typed(const uint8_t *file, size_t file_length, anim_state *state,
                                       uint8_t *a, uint8_t *b, uint8_t map[ANIM_MAP_BYTES], size_t frame_length) {
    return anim_open(file, file_length, (uint8_t *)state, sizeof *state, a, frame_length, b, frame_length,
                     map, ANIM_MAP_BYTES);
}

static inline uint64_t anim_step_on_typed(const uint8_t *file, size_t file_length, anim_state *state,
                                          uint8_t *a, uint8_t *b, uint8_t map[ANIM_MAP_BYTES],
                                          uint8_t *work, size_t frame_length,
                                          uint8_t *record, size_t record_length, anim_report *report) {
    return anim_step_on(file, file_length, (uint8_t *)state, sizeof *state, a, frame_length, b, frame_length,
                        map, ANIM_MAP_BYTES, work, frame_length, record, record_length, (uint8_t *)report, sizeof *report);
}

static inline uint64_t anim_step_back_typed(anim_state *state,
                                            uint8_t *a, uint8_t *b, uint8_t map[ANIM_MAP_BYTES], size_t frame_length,
                                            const uint8_t *record, size_t record_length) {
    return anim_step_back((uint8_t *)state, sizeof *state, a, frame_length, b, frame_length, map, ANIM_MAP_BYTES,
                          record, record_length);
}

static inline uint64_t anim_row_place_typed(uint64_t plane, uint64_t row, const anim_state *state,
                                            const uint8_t *a, const uint8_t *b, size_t frame_length) {
    return anim_row_place(plane, row, (const uint8_t *)state, sizeof *state, a, frame_length, b, frame_length);
}

static inline uint64_t anim_row_refusal_typed(uint64_t plane, uint64_t row, const anim_state *state,
                                              const uint8_t *a, const uint8_t *b, size_t frame_length) {
    return anim_row_refusal(plane, row, (const uint8_t *)state, sizeof *state, a, frame_length, b, frame_length);
}

static inline uint64_t anim_write_delta_typed(uint64_t width, uint64_t height, uint64_t planes,
                                              const uint8_t *old_frame, const uint8_t *new_frame, size_t frame_length,
                                              uint8_t *out, size_t out_length, uint64_t *length) {
    return anim_write_delta(width, height, planes, old_frame, frame_length, new_frame, frame_length,
                            out, out_length, (uint8_t *)length, sizeof *length);
}

#ifdef __cplusplus
}
#endif

#endif
