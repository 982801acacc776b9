/* Runs a sheet and a script through the interlock, prints the answers in words, then shows refused calls; and the same
 * for a wide sheet, and for gauges. */
#include <inttypes.h>
#include <stdio.h>
#include <string.h>

#include "hammerloom.h"

/* Variable 1, and some value of variable 2 that equals variable 0. Open: 0 and 1. */
static const uint8_t sheet[] = {
    HAMMERLOOM_INPUT(0),  HAMMERLOOM_INPUT(2),  HAMMERLOOM_AND(0, 1), /* 0, 1, 2: both set */
    HAMMERLOOM_NOT(0),    HAMMERLOOM_NOT(1),    HAMMERLOOM_AND(3, 4), /* 3, 4, 5: neither set */
    HAMMERLOOM_OR(2, 5),  HAMMERLOOM_EXISTS(6, 2, 1),                 /* 6, 7: equal, for some variable 2 */
    HAMMERLOOM_INPUT(1),  HAMMERLOOM_AND(7, 8),                       /* 8, 9: the formula */
};
static const uint8_t script[] = {
    HAMMERLOOM_ASK, HAMMERLOOM_WHY,       HAMMERLOOM_ENTER_AT(3, 1, 0), HAMMERLOOM_ASK,
    HAMMERLOOM_WHY, HAMMERLOOM_TAKE_BACK, HAMMERLOOM_READ(0),           HAMMERLOOM_ENTER(2, 1),
};
/* Variables 63 and 40, whatever variables 0 to 39 are. Open: 40 and 63. */
static const uint8_t wide_sheet[] = {
    HAMMERLOOM_WIDE_INPUT(63), HAMMERLOOM_WIDE_INPUT(40),       HAMMERLOOM_WIDE_INPUT(39),
    HAMMERLOOM_WIDE_NOT(2),    HAMMERLOOM_WIDE_OR(2, 3),        HAMMERLOOM_WIDE_AND(4, 1),
    HAMMERLOOM_WIDE_AND(5, 0), HAMMERLOOM_WIDE_FORALL(6, 0, 40),
};
static const uint8_t wide_script[] = {
    HAMMERLOOM_ASK, HAMMERLOOM_ENTER_AT(7, 63, 0), HAMMERLOOM_WHY, HAMMERLOOM_READ(0), HAMMERLOOM_ENTER(64, 1),
};
/* Variable 1, and not the gauge 0; then not the gauge 63. The gauges can always spoil it. */
static const uint8_t gauge_sheet[] = {
    HAMMERLOOM_GAUGE(0),
    HAMMERLOOM_NOT(0),
    HAMMERLOOM_INPUT(1),
    HAMMERLOOM_AND(1, 2),
};
static const uint8_t wide_gauge_sheet[] = {HAMMERLOOM_WIDE_GAUGE(63), HAMMERLOOM_WIDE_NOT(0)};
enum { FILL = 0xA5 };

static void print_answer(uint8_t kind, size_t line, unsigned refusal, unsigned v, uint64_t word, int digits) {
    printf("line %zu: ", line);
    if (refusal != HAMMERLOOM_LINE_ACCEPTED)
        printf("refused by %u\n", refusal);
    else if (kind == 0x10)
        printf("ENTER, entries standing: %u\n", v);
    else if (kind == 0x11 || kind == 0x12)
        printf("%s variable %u, value %u, entered at desk %u\n", kind == 0x11 ? "TAKE BACK" : "READ", v,
               HAMMERLOOM_ENTRY_VALUE(word), HAMMERLOOM_ENTRY_DESK(word));
    else
        printf("%s %s, %s %0*" PRIX64 "\n", kind == 0x13 ? "ASK" : "WHY", v ? "yes" : "no",
               kind == 0x13 ? "setting" : "reason", digits, word);
}

/* Whether all bytes from a place on are still the ones that were filled in. */
static const char *state(const uint8_t *bytes, size_t len) {
    for (size_t i = 0; i < len; i++)
        if (bytes[i] != FILL)
            return "CHANGED";
    return "untouched";
}

static int narrow(void) {
    static const uint8_t names_itself[] = {HAMMERLOOM_INPUT(0), HAMMERLOOM_NOT(1)};
    enum { LINES = sizeof script / HAMMERLOOM_FRAME_BYTES, NEEDED = HAMMERLOOM_ANSWERS_LEN(sizeof script) };
    uint8_t answers[NEEDED + 10];

    memset(answers, FILL, sizeof answers);
    uint32_t result = hammerloom_run(sheet, sizeof sheet, script, sizeof script, answers, sizeof answers);
    if (result != HAMMERLOOM_ACCEPTED) {
        printf("refused by %u at %u\n", HAMMERLOOM_REFUSAL(result), HAMMERLOOM_PLACE(result));
        return 1;
    }
    for (size_t line = 0; line < LINES; line++)
        print_answer(script[line * HAMMERLOOM_FRAME_BYTES], line, HAMMERLOOM_ANSWER_REFUSAL(answers, line),
                     HAMMERLOOM_ANSWER_V(answers, line), HAMMERLOOM_ANSWER_WORD(answers, line), 8);
    printf("bytes behind the answers: %s\n", state(answers + NEEDED, sizeof answers - NEEDED));

    memset(answers, FILL, sizeof answers);
    result = hammerloom_run(names_itself, sizeof names_itself, script, sizeof script, answers, sizeof answers);
    printf("a frame that names itself: refused by %u at frame %u, buffer %s\n", HAMMERLOOM_REFUSAL(result),
           HAMMERLOOM_PLACE(result), state(answers, sizeof answers));
    result = hammerloom_run(sheet, sizeof sheet, script, sizeof script, answers, NEEDED - 1);
    printf("one byte too little room: refused by %u, buffer %s\n", HAMMERLOOM_REFUSAL(result),
           state(answers, sizeof answers));
    return 0;
}

static int wide(void) {
    static const uint8_t names_itself[] = {HAMMERLOOM_WIDE_NOT(2999)};
    static uint8_t longest[HAMMERLOOM_WIDE_MOST_SHEET_FRAMES * HAMMERLOOM_WIDE_FRAME_BYTES]; /* all NEVER */
    enum { LINES = sizeof wide_script / HAMMERLOOM_FRAME_BYTES };
    enum { NEEDED = HAMMERLOOM_WIDE_ANSWERS_LEN(sizeof wide_script) };
    uint8_t answers[NEEDED + 10];

    memset(answers, FILL, sizeof answers);
    uint32_t result = hammerloom_run_wide(wide_sheet, sizeof wide_sheet, wide_script, sizeof wide_script, answers,
                                          sizeof answers);
    if (result != HAMMERLOOM_ACCEPTED) {
        printf("wide: refused by %u at %u\n", HAMMERLOOM_WIDE_REFUSAL(result), HAMMERLOOM_WIDE_PLACE(result));
        return 1;
    }
    printf("wide\n");
    for (size_t line = 0; line < LINES; line++)
        print_answer(wide_script[line * HAMMERLOOM_FRAME_BYTES], line, HAMMERLOOM_WIDE_ANSWER_REFUSAL(answers, line),
                     HAMMERLOOM_WIDE_ANSWER_V(answers, line), HAMMERLOOM_WIDE_ANSWER_WORD(answers, line), 16);
    printf("bytes behind the answers: %s\n", state(answers + NEEDED, sizeof answers - NEEDED));

    memset(answers, FILL, sizeof answers);
    memcpy(longest + sizeof longest - sizeof names_itself, names_itself, sizeof names_itself);
    result = hammerloom_run_wide(longest, sizeof longest, wide_script, sizeof wide_script, answers, sizeof answers);
    printf("a frame that names itself: refused by %u at frame %u, buffer %s\n", HAMMERLOOM_WIDE_REFUSAL(result),
           HAMMERLOOM_WIDE_PLACE(result), state(answers, sizeof answers));
    result = hammerloom_run_wide(wide_sheet, sizeof wide_sheet, wide_script, sizeof wide_script, answers, NEEDED - 1);
    printf("one byte too little room: refused by %u, buffer %s\n", HAMMERLOOM_WIDE_REFUSAL(result),
           state(answers, sizeof answers));
    return 0;
}

static int gauges(void) {
    static const uint8_t ask[] = {HAMMERLOOM_ASK};
    static const uint8_t two_kinds[] = {HAMMERLOOM_GAUGE(0), HAMMERLOOM_INPUT(0)};
    uint8_t answers[HAMMERLOOM_WIDE_ANSWER_BYTES];

    printf("gauges\n");
    uint32_t result = hammerloom_run(gauge_sheet, sizeof gauge_sheet, ask, sizeof ask, answers, sizeof answers);
    if (result != HAMMERLOOM_ACCEPTED)
        return 1;
    print_answer(ask[0], 0, HAMMERLOOM_ANSWER_REFUSAL(answers, 0), HAMMERLOOM_ANSWER_V(answers, 0),
                 HAMMERLOOM_ANSWER_WORD(answers, 0), 8);
    result = hammerloom_run_wide(wide_gauge_sheet, sizeof wide_gauge_sheet, ask, sizeof ask, answers, sizeof answers);
    if (result != HAMMERLOOM_ACCEPTED)
        return 1;
    print_answer(ask[0], 0, HAMMERLOOM_WIDE_ANSWER_REFUSAL(answers, 0), HAMMERLOOM_WIDE_ANSWER_V(answers, 0),
                 HAMMERLOOM_WIDE_ANSWER_WORD(answers, 0), 16);
    result = hammerloom_run(two_kinds, sizeof two_kinds, ask, sizeof ask, answers, sizeof answers);
    printf("a variable named by INPUT and by GAUGE: refused by %u at frame %u\n", HAMMERLOOM_REFUSAL(result),
           HAMMERLOOM_PLACE(result));
    return 0;
}

int main(void) {
    const int refused = narrow();
    const int refused_wide = wide();

    return gauges() || refused || refused_wide;
}
