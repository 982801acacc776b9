/* Sheets with as many frames as a form takes: the least stack of a call, found by calls in processes of their own, and its time. */
#include <pthread.h>
#include <stdio.h>
#include <string.h>
#include <sys/wait.h>
#include <time.h>
#include <unistd.h>

#include "hammerloom.h"

enum { KIB = 1024, LEAST = 64 * KIB, MOST = 8192 * KIB, STEP = 16 * KIB };
enum { INPUT = 1, NOT = 2, AND = 3, OR = 4, EXISTS = 5, FORALL = 6, GAUGE = 7 };

struct sheet {
    int wide;
    int gauged;
    unsigned frames;
    uint8_t bytes[HAMMERLOOM_WIDE_MOST_SHEET_FRAMES * HAMMERLOOM_WIDE_FRAME_BYTES];
};

static const uint8_t script[] = {HAMMERLOOM_ASK, HAMMERLOOM_WHY};
static struct sheet sheet;

static unsigned most_frames(void) { return sheet.wide ? HAMMERLOOM_WIDE_MOST_SHEET_FRAMES : HAMMERLOOM_MOST_SHEET_FRAMES; }
static unsigned variables(void) { return sheet.wide ? HAMMERLOOM_WIDE_VARIABLES : HAMMERLOOM_VARIABLES; }

/* Adds a frame, and tells its number. */
static unsigned add(unsigned k, unsigned a, unsigned b, unsigned c) {
    const uint8_t narrow[] = {k, a, b, c};
    const uint8_t wide[] = {k, HAMMERLOOM_WIDE_FIELD(a), HAMMERLOOM_WIDE_FIELD(b), HAMMERLOOM_WIDE_FIELD(c)};
    const size_t size = sheet.wide ? sizeof wide : sizeof narrow;

    memcpy(sheet.bytes + sheet.frames * size, sheet.wide ? wide : narrow, size);
    return sheet.frames++;
}

/* An open variable: on a sheet with gauges, those with even numbers are. */
static unsigned add_open(unsigned v) { return add(sheet.gauged && v % 2 == 0 ? GAUGE : INPUT, v, 0, 0); }

/* EXISTS 1 of 0 AND 1: no look at the parts decides it while 0 is set. */
static unsigned quantifier(void) {
    const unsigned both = add(AND, add_open(0), add(INPUT, 1, 0, 0), 0);
    return add(EXISTS, both, 1, 1);
}

static void gates_above(void) {
    unsigned last = quantifier();
    const unsigned input = add_open(3);
    while (sheet.frames < most_frames())
        last = add(AND, last, input, 0);
}

static void nots_above(void) {
    unsigned last = quantifier();
    while (sheet.frames < most_frames())
        last = add(NOT, last, 0, 0);
}

/* Every variable but two bound, EXISTS and FORALL in turn, each over an exclusive or; NOTs above. */
static void alternation(void) {
    unsigned inputs[HAMMERLOOM_WIDE_VARIABLES], last;
    inputs[0] = add_open(0);
    for (unsigned v = 1; v < variables(); v++)
        inputs[v] = add(INPUT, v, 0, 0);
    last = inputs[0];
    for (unsigned v = 1; v + 1 < variables() && sheet.frames + 8 < most_frames(); v++) {
        const unsigned left = add(AND, last, add(NOT, inputs[v], 0, 0), 0);
        const unsigned right = add(AND, add(NOT, last, 0, 0), inputs[v], 0);
        last = add(v % 2 ? EXISTS : FORALL, add(OR, left, right, 0), v, 1);
    }
    while (sheet.frames + 1 < most_frames())
        last = add(NOT, last, 0, 0);
    add(AND, last, inputs[variables() - 1], 0);
}

/* Every variable open: each with its neighbour, in turn. */
static void all_open(void) {
    unsigned last = 0;
    for (unsigned v = 0; v < variables(); v++)
        last = add_open(v);
    while (sheet.frames + 2 <= most_frames()) {
        const unsigned v = sheet.frames % variables();
        last = add(AND, last, add(OR, v, (v + 1) % variables(), 0), 0);
    }
}

static void *call(void *unused) {
    uint8_t answers[HAMMERLOOM_WIDE_ANSWERS_LEN(sizeof script)];
    uint32_t result = sheet.wide ? hammerloom_run_wide(sheet.bytes, sheet.frames * HAMMERLOOM_WIDE_FRAME_BYTES, script, sizeof script, answers, sizeof answers)
                                 : hammerloom_run(sheet.bytes, sheet.frames * HAMMERLOOM_FRAME_BYTES, script, sizeof script, answers, sizeof answers);
    (void)unused;
    return result == HAMMERLOOM_ACCEPTED ? NULL : &sheet;
}

/* Whether a call runs on a thread with so many bytes of stack. */
static int runs_on(size_t stack) {
    const pid_t child = fork();
    int status;
    if (child == 0) {
        pthread_attr_t attributes;
        pthread_t thread;
        void *refused = &sheet;
        pthread_attr_init(&attributes);
        pthread_attr_setstacksize(&attributes, stack);
        if (pthread_create(&thread, &attributes, call, NULL) == 0)
            pthread_join(thread, &refused);
        _exit(refused != NULL);
    }
    return waitpid(child, &status, 0) == child && WIFEXITED(status) && WEXITSTATUS(status) == 0;
}

static unsigned least_stack(void) {
    size_t low = LEAST, high = MOST;
    while (high - low > STEP) {
        const size_t middle = (low + high) / 2 / STEP * STEP;
        if (runs_on(middle))
            high = middle;
        else
            low = middle;
    }
    return high / KIB;
}

/* The quickest of some calls, in microseconds. */
static double microseconds(void) {
    double best = 1e9;
    for (int i = 0; i < 50; i++) {
        struct timespec from, to;
        clock_gettime(CLOCK_PROCESS_CPUTIME_ID, &from);
        if (call(NULL) != NULL)
            return -1;
        clock_gettime(CLOCK_PROCESS_CPUTIME_ID, &to);
        const double took = (to.tv_sec - from.tv_sec) * 1e6 + (to.tv_nsec - from.tv_nsec) / 1e3;
        best = took < best ? took : best;
    }
    return best;
}

int main(void) {
    static const struct {
        const char *name;
        void (*make)(void);
    } sheets[] = {{"gates above a quantifier", gates_above}, {"NOTs above a quantifier", nots_above}, {"alternation", alternation}, {"all variables open", all_open}};

    printf("| sheet | form | frames | stack, KiB | ASK and WHY, us |\n|---|---|---|---|---|\n");
    for (size_t i = 0; i < 2 * sizeof sheets / sizeof sheets[0]; i++)
        for (int wide = 0; wide < 2; wide++) {
            sheet.wide = wide;
            sheet.gauged = i % 2;
            sheet.frames = 0;
            sheets[i / 2].make();
            fflush(stdout);
            const unsigned stack = least_stack();
            printf("| %s%s | %s | %u | %u | %.0f |\n", sheets[i / 2].name, sheet.gauged ? ", gauges" : "", wide ? "wide" : "narrow", sheet.frames, stack, microseconds());
        }
    return 0;
}
