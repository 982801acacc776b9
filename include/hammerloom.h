/* Hammerloom: checks a rule sheet of Boolean flags and runs a script of entries and questions over it.
 *
 * Two functions, for the two forms of sheets: narrow ones of up to 32 variables and 200 frames, and wide ones of up to
 * 64 variables and 3,000 frames. What belongs to wide sheets alone has WIDE in its name or stands in square brackets;
 * scripts are the same for both. Link target/staticlib/libhammerloom.a (x86-64-v2), which bin/archive builds. All
 * numbers of more than one byte are written highest byte first. "Bit k" of a word has the weight 2 to the k and belongs
 * to variable k. */
#ifndef HAMMERLOOM_H
#define HAMMERLOOM_H

#include <stddef.h>
#include <stdint.h>

#ifdef __cplusplus
extern "C" {
#endif

/* ---- Sizes ---- */

#define HAMMERLOOM_VARIABLES 32u           /* variables are 0 to 31 */
#define HAMMERLOOM_DESKS 8u                /* desks are 0 to 7 */
#define HAMMERLOOM_FRAME_BYTES 4u          /* a sheet frame, and a script line of either form: K A B C */
#define HAMMERLOOM_ANSWER_BYTES 6u         /* an answer: refusal number or 0, V, a word of four bytes */
#define HAMMERLOOM_MOST_SHEET_FRAMES 200u  /* a sheet has 1 to 200 frames, up to 800 bytes */
#define HAMMERLOOM_MOST_SCRIPT_LINES 1000u /* a script has 0 to 1,000 lines, 4,000 bytes, 6,000 [10,000] of answers */

#define HAMMERLOOM_WIDE_VARIABLES 64u           /* variables are 0 to 63 */
#define HAMMERLOOM_WIDE_FRAME_BYTES 7u          /* a sheet frame: K, and the fields A B C of two bytes each */
#define HAMMERLOOM_WIDE_ANSWER_BYTES 10u        /* an answer: refusal number or 0, V, a word of eight bytes */
#define HAMMERLOOM_WIDE_MOST_SHEET_FRAMES 3000u /* a sheet has 1 to 3,000 frames, up to 21,000 bytes */

/* The room that the answers of a script of so many bytes take. */
#define HAMMERLOOM_ANSWERS_LEN(script_len) ((script_len) / HAMMERLOOM_FRAME_BYTES * HAMMERLOOM_ANSWER_BYTES)
#define HAMMERLOOM_WIDE_ANSWERS_LEN(script_len) ((script_len) / HAMMERLOOM_FRAME_BYTES * HAMMERLOOM_WIDE_ANSWER_BYTES)

/* ---- Sheet frames, each four [seven] bytes of an initializer ----
 * Frames are numbered from 0; the last one is the sheet's formula. A frame names only frames before it, and may name
 * the same one twice. EXISTS and FORALL bind `count` variables (1 to 32 [64]) from `first` on, first + count <= 32
 * [64]. A variable is bound by at most one frame of the sheet. No variable that the sheet binds may be open in the last
 * frame. GAUGE is an INPUT whose variable is a gauge: open like any other, but not for ASK to choose. No variable is
 * named by both INPUT and GAUGE, and no frame binds a gauge, be these frames reached from the last one or not. */

#define HAMMERLOOM_NEVER 0x00, 0, 0, 0                                  /* false */
#define HAMMERLOOM_INPUT(variable) 0x01, (variable), 0, 0               /* the variable's value */
#define HAMMERLOOM_NOT(frame) 0x02, (frame), 0, 0
#define HAMMERLOOM_AND(left, right) 0x03, (left), (right), 0
#define HAMMERLOOM_OR(left, right) 0x04, (left), (right), 0
#define HAMMERLOOM_EXISTS(frame, first, count) 0x05, (frame), (first), (count)
#define HAMMERLOOM_FORALL(frame, first, count) 0x06, (frame), (first), (count)
#define HAMMERLOOM_GAUGE(variable) 0x07, (variable), 0, 0               /* the variable's value */

#define HAMMERLOOM_WIDE_FIELD(number) ((number) >> 8 & 0xFF), ((number)&0xFF) /* 0 to 65,535 */
#define HAMMERLOOM_WIDE_NEVER 0x00, 0, 0, 0, 0, 0, 0
#define HAMMERLOOM_WIDE_INPUT(variable) 0x01, HAMMERLOOM_WIDE_FIELD(variable), 0, 0, 0, 0
#define HAMMERLOOM_WIDE_NOT(frame) 0x02, HAMMERLOOM_WIDE_FIELD(frame), 0, 0, 0, 0
#define HAMMERLOOM_WIDE_AND(left, right) 0x03, HAMMERLOOM_WIDE_FIELD(left), HAMMERLOOM_WIDE_FIELD(right), 0, 0
#define HAMMERLOOM_WIDE_OR(left, right) 0x04, HAMMERLOOM_WIDE_FIELD(left), HAMMERLOOM_WIDE_FIELD(right), 0, 0
#define HAMMERLOOM_WIDE_EXISTS(frame, first, count) \
    0x05, HAMMERLOOM_WIDE_FIELD(frame), HAMMERLOOM_WIDE_FIELD(first), HAMMERLOOM_WIDE_FIELD(count)
#define HAMMERLOOM_WIDE_FORALL(frame, first, count) \
    0x06, HAMMERLOOM_WIDE_FIELD(frame), HAMMERLOOM_WIDE_FIELD(first), HAMMERLOOM_WIDE_FIELD(count)
#define HAMMERLOOM_WIDE_GAUGE(variable) 0x07, HAMMERLOOM_WIDE_FIELD(variable), 0, 0, 0, 0

/* ---- Script lines of both forms, each four bytes of an initializer ----
 * An entry keeps the desk that made it, which TAKE BACK and READ tell and no question depends on. */

#define HAMMERLOOM_ENTER_AT(desk, variable, value) 0x10, (variable), (value), (desk) /* V: entries standing; word: 0 */
#define HAMMERLOOM_ENTER(variable, value) HAMMERLOOM_ENTER_AT(0, variable, value)    /* where there is but one desk */
#define HAMMERLOOM_TAKE_BACK 0x11, 0, 0, 0         /* the latest entry; V: its variable; word: 256 * desk + value */
#define HAMMERLOOM_READ(place) 0x12, (place), 0, 0 /* place 0 is the oldest entry; V and word as for TAKE BACK */
#define HAMMERLOOM_ASK 0x13, 0, 0, 0               /* V: 1 yes, 0 no; word: a setting, on no of gauges alone */
#define HAMMERLOOM_WHY 0x14, 0, 0, 0               /* V: the verdict of ASK; word: the mask of the reason */

/* The parts of the word that tells an entry, of either form. */
#define HAMMERLOOM_ENTRY_DESK(word) ((unsigned)((uint32_t)(word) >> 8))
#define HAMMERLOOM_ENTRY_VALUE(word) ((unsigned)((uint32_t)(word)&0xFFu))

/* ASK: whatever the gauges are that are open and not entered, can the other open variables that are not entered be set
 * so that the sheet is true? The word of a yes is the smallest setting of all open variables that makes it true, with
 * those gauges at 0, the entered ones as entered and all other bits 0. The word of a no is the smallest setting of
 * those gauges for which it cannot be done, with all other bits 0, those of entered variables too.
 * WHY: variables that force the verdict of ASK whatever the others are, with their values in the word of ASK (yes) or
 * as entered (no); none of them can be left out. On a sheet with a GAUGE, reached or not, they are entered ones on yes
 * too, and the others are the other entered ones: these stay entered, with whatever values. */

/* ---- Refusals ---- */

/* Of a whole call, in the result. They are looked for in the order in which they stand here, frame by frame from 6 to
 * 10, and the first one found is told. (Numbers 1 and 29 are a text reader's, 18 and 19 are the QDIMACS reader's, 31 is
 * the converter's, and no call is refused by them.) */
enum hammerloom_refusal {
    HAMMERLOOM_ACCEPTED = 0,
    HAMMERLOOM_REFUSED_PART_FRAME = 2,    /* sheet empty, or sheet or script not of whole frames; place 0 */
    HAMMERLOOM_REFUSED_SHEET_LENGTH = 3,  /* more than 200 [3,000] sheet frames; place 0, told before the script's 2 */
    HAMMERLOOM_REFUSED_SCRIPT_LENGTH = 4, /* more than 1,000 script lines; place 0 */
    HAMMERLOOM_REFUSED_ANSWERS_ROOM = 5,  /* answers_len under 6 [10] times the script lines; place 0 */
    HAMMERLOOM_REFUSED_KIND = 6,          /* sheet kind above 07; place: the frame's number, as for those below */
    HAMMERLOOM_REFUSED_SPARE = 7,         /* spare byte not 0 */
    HAMMERLOOM_REFUSED_NAMED_FRAME = 8,   /* named frame not earlier */
    HAMMERLOOM_REFUSED_RANGE = 9,         /* variable above 31 [63], or a quantifier's range empty or past 31 [63] */
    HAMMERLOOM_REFUSED_TWO_KINDS = 22,    /* INPUT of a variable of an earlier GAUGE, or the other way round */
    HAMMERLOOM_REFUSED_BOUND_GAUGE = 23,  /* GAUGE of a variable that an earlier frame binds, or the other way round */
    HAMMERLOOM_REFUSED_BOUND_TWICE = 10,  /* variable bound by an earlier frame too */
    HAMMERLOOM_REFUSED_BOUND_OPEN = 11    /* bound variable open in the last frame; place: the last frame's number */
};

/* Of one line, in the first byte of its answer; V and the word are then 0, the entries stay, and the script goes on.
 * The first of these that applies is told, in the order in which they stand here. */
enum hammerloom_line_refusal {
    HAMMERLOOM_LINE_ACCEPTED = 0,
    HAMMERLOOM_LINE_REFUSED_FORM = 12,     /* kind not 10 to 14 hexadecimal, or its spare byte not 0; ENTER has none */
    HAMMERLOOM_LINE_REFUSED_NOT_OPEN = 13, /* ENTER: variable not open in the last frame */
    HAMMERLOOM_LINE_REFUSED_VALUE = 14,    /* ENTER: value above 1 */
    HAMMERLOOM_LINE_REFUSED_DESK = 24,     /* ENTER: desk above 7 */
    HAMMERLOOM_LINE_REFUSED_ENTERED = 15,  /* ENTER: variable already entered, by whichever desk */
    HAMMERLOOM_LINE_REFUSED_NO_ENTRY = 16, /* TAKE BACK: no entry stands */
    HAMMERLOOM_LINE_REFUSED_PLACE = 17     /* READ: no entry at that place */
};

/* The refusal number, one of enum hammerloom_refusal, and the place of a result, a frame's number and so below 200
 * [3,000]. */
#define HAMMERLOOM_REFUSAL(result) ((unsigned)((uint32_t)(result) >> 8))
#define HAMMERLOOM_PLACE(result) ((unsigned)((uint32_t)(result)&0xFFu))
#define HAMMERLOOM_WIDE_REFUSAL(result) ((unsigned)((uint32_t)(result) >> 16))
#define HAMMERLOOM_WIDE_PLACE(result) ((unsigned)((uint32_t)(result)&0xFFFFu))

/* The parts of the answer to a script line; lines are counted from 0. */
#define HAMMERLOOM_ANSWER(answers, line) ((answers) + (size_t)(line)*HAMMERLOOM_ANSWER_BYTES)
#define HAMMERLOOM_ANSWER_REFUSAL(answers, line) ((unsigned)HAMMERLOOM_ANSWER(answers, line)[0])
#define HAMMERLOOM_ANSWER_V(answers, line) ((unsigned)HAMMERLOOM_ANSWER(answers, line)[1])
#define HAMMERLOOM_ANSWER_WORD(answers, line)                                                                    \
    ((uint32_t)HAMMERLOOM_ANSWER(answers, line)[2] << 24 | (uint32_t)HAMMERLOOM_ANSWER(answers, line)[3] << 16 | \
     (uint32_t)HAMMERLOOM_ANSWER(answers, line)[4] << 8 | (uint32_t)HAMMERLOOM_ANSWER(answers, line)[5])

#define HAMMERLOOM_WIDE_ANSWER(answers, line) ((answers) + (size_t)(line)*HAMMERLOOM_WIDE_ANSWER_BYTES)
#define HAMMERLOOM_WIDE_ANSWER_REFUSAL(answers, line) ((unsigned)HAMMERLOOM_WIDE_ANSWER(answers, line)[0])
#define HAMMERLOOM_WIDE_ANSWER_V(answers, line) ((unsigned)HAMMERLOOM_WIDE_ANSWER(answers, line)[1])
#define HAMMERLOOM_WIDE_ANSWER_BYTE(answers, line, place) ((uint64_t)HAMMERLOOM_WIDE_ANSWER(answers, line)[place])
#define HAMMERLOOM_WIDE_ANSWER_WORD(answers, line)                                                               \
    (HAMMERLOOM_WIDE_ANSWER_BYTE(answers, line, 2) << 56 | HAMMERLOOM_WIDE_ANSWER_BYTE(answers, line, 3) << 48 | \
     HAMMERLOOM_WIDE_ANSWER_BYTE(answers, line, 4) << 40 | HAMMERLOOM_WIDE_ANSWER_BYTE(answers, line, 5) << 32 | \
     HAMMERLOOM_WIDE_ANSWER_BYTE(answers, line, 6) << 24 | HAMMERLOOM_WIDE_ANSWER_BYTE(answers, line, 7) << 16 | \
     HAMMERLOOM_WIDE_ANSWER_BYTE(answers, line, 8) << 8 | HAMMERLOOM_WIDE_ANSWER_BYTE(answers, line, 9))

/* ---- The calls ----
 * Checks a narrow sheet, runs the script over it from no entry, and returns 256 times the refusal number plus the
 * place; 0 when accepted.
 *
 * Accepted: the first HAMMERLOOM_ANSWERS_LEN(script_len) bytes of `answers` are the answers, in the script's order, and
 * all bytes behind them are as they were. Refused: all of `answers` is as it was. `sheet` and `script` are only read.
 *
 * A null pointer is allowed where the length is 0, and is taken as an empty buffer: an empty sheet is refused by 2, an
 * empty script has no answers. Any other pointer must have its length behind it. `answers` must not overlap `sheet` or
 * `script`; these two may overlap each other. No alignment is asked for.
 *
 * It is reentrant: it keeps nothing between calls and has no data of its own outside the call, so it may be called from
 * several threads at once, as long as nobody else writes a call's buffers meanwhile. It needs under 512 KiB of stack.
 * It always returns, but the time of a question may grow exponentially with the number of variables. */
uint32_t hammerloom_run(const uint8_t *sheet, size_t sheet_len, const uint8_t *script, size_t script_len,
                        uint8_t *answers, size_t answers_len);

/* The same for a wide sheet: it returns 65,536 times the refusal number plus the place, the answers take
 * HAMMERLOOM_WIDE_ANSWERS_LEN(script_len) bytes, and it needs under 2 MiB of stack. */
uint32_t hammerloom_run_wide(const uint8_t *sheet, size_t sheet_len, const uint8_t *script, size_t script_len,
                             uint8_t *answers, size_t answers_len);

#ifdef __cplusplus
}
#endif

#endif
