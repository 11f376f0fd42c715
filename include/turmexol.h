/* The calls of the static library libexports.a, for C and Rust. Each is proved to answer as the definitions
   of the crate that it names say; docs/STATEMENTS.md leads from document 01's sentences to them.

   What a call asks of its caller, and nothing checks:
   - A pointer has behind it as many entries as the length after it says, and is aligned as its type asks.
   - No pointer is NULL, also where the length is 0: then it is the address of anything of its type, and nothing is read or
     written there. (In the library as it is built today NULL with length 0 gives the same answers, but nothing promises that.)
   - What a call writes overlaps nothing else that it is handed: not question and out, and none of question, answers,
     *right and *counted. What it only reads may overlap: answers may stand in the question file, and a column be handed twice.
   - There is room on the stack, TURMEXOL_STACK bytes.
   A call allocates nothing, keeps no pointer and no state: threads may call at once, where none writes what another's call is handed. */
#ifndef TURMEXOL_H
#define TURMEXOL_H

#include <stddef.h>
#include <stdint.h>

#ifdef __cplusplus
extern "C" {
#endif

/* Why a call is refused: it returns minus the number, and of what it was handed nothing has changed. 6, 7 and 9 no call returns,
   but a line of a sheet may have them, and 8. */
enum turmexol_refusal {
    TURMEXOL_COLUMN_SIZE = 1,      /* a table column has 0 or over 32 entries (echo column: over 32) */
    TURMEXOL_COLUMNS_DIFFER = 2,   /* threshold, payload, capacity, frame-time columns differ in length */
    TURMEXOL_TABLE_VALUE = 3,      /* a table value outside its limits */
    TURMEXOL_FLOOR_COUNT = 4,      /* more floor rungs than rungs */
    TURMEXOL_EMPTY_FRONT = 5,      /* the front is empty */
    TURMEXOL_UNKNOWN_RUNG = 6,     /* a rung that is not in the table */
    TURMEXOL_TOO_MANY_FRAMES = 7,  /* over 256 frames */
    TURMEXOL_OUTSIDE_LIMITS = 8,   /* a reading, air, capacity, price, gap, burst count or argument outside its limits */
    TURMEXOL_TOO_MANY_BURSTS = 9,  /* over 32 burst counts */
    TURMEXOL_FILE_HEADER = 10,     /* question file under 8 or over 65,536 bytes, unknown air, over 1,000 events */
    TURMEXOL_FILE_PAIRS = 11,      /* pairs break their rule or run past the file */
    TURMEXOL_FILE_BODY = 12,       /* a body breaks its kind's form */
    TURMEXOL_SHEET_ROOM = 13,      /* the whole sheet is longer than out */
    TURMEXOL_ANSWER_COUNT = 14     /* answer count differs from event count */
};

/* The most that a question file may have. */
#define TURMEXOL_QUESTION_BYTES 65536
#define TURMEXOL_EVENTS 1000

/* No sheet is longer: that a call of paper_sheet with this room is never refused with 13 is part of what it promises (EnoughRoom
   of exports/specs/Room.antt). An event's line has its number, the choice, the tried rung, three flags and the LF, each behind
   a space but the first and the last: 13 bytes and the number's digits, as no rung on the two airs' fronts has over two digits,
   and a refused event's line is shorter. 1,000 lines have 13,000 such bytes, and the numbers 1 to 1,000 have 2,893 digits. */
#define TURMEXOL_SHEET_BYTES 15893

/* No call takes more of the stack, with all that it calls. Measured, on x86-64: bindings/c/stack.c saw 23,048 bytes at most, of
   paper_sheet, on the sample papers, and 33,544 on one of 303 events, one of them of 256 frames; in the machine code the frames
   along its deepest way down, which only a paper of over 250 events and over 128 frames in one of them takes, add up to as much. */
#define TURMEXOL_STACK 49152

/* The chance that a frame decodes (crate half). 0, and the chance in *p; or minus the number of the refusal
   (-8: an argument is outside its limits), and *p is left as it was. */
int64_t rate_decode_probability(double snr_db, double threshold_db, double slope_db, double *p);

/* The rungs worth offering (crate ladder). How many there are; they stand, ascending, in the first entries of *out, and 0
   past them. Or minus the number of the refusal (-1, -2, -3), and *out is left as it was. */
int64_t rate_usable_modes(const double *thresholds, size_t thresholds_len, const uint32_t *payload, size_t payload_len,
                          const double *frame_s, size_t frame_s_len, uint32_t (*out)[32]);

/* What table_for says of these columns (crate ladder): 0, or minus the number of the refusal (-1 to -5). The echo column has
   known_len entries: entry i is missing where known[i] is 0 or limits ends before it, else it is limits[i]. */
int64_t rate_table_refusal(const double *thresholds, size_t thresholds_len, const uint32_t *payload, size_t payload_len,
                           const uint32_t *capacity, size_t capacity_len, const double *frame_s, size_t frame_s_len,
                           uint32_t floor_modes, const uint8_t *known, size_t known_len, const double *limits, size_t limits_len);

/* The sheet of a question file (crate paper). Its length, and the sheet stands in the first bytes of out, with what lies
   past it left as it was; or minus the number of the refusal (-10 to -13), and out is left as it was. */
int64_t paper_sheet(const uint8_t *question, size_t len, uint8_t *out, size_t out_len);

/* Marks one answer byte an event (crate paper). 0, and how many are right and how many count in *right and *counted; or
   minus the number of the refusal (-10, -11, -12, -14), and both are left as they were. */
int64_t paper_mark(const uint8_t *question, size_t len, const uint8_t *answers, size_t answers_len, uint32_t *right, uint32_t *counted);

#ifdef __cplusplus
}
#endif

#endif
