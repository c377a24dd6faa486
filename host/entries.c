/* The C entries as a program under test (differential/README.md, "Plugging a program in").
 *
 *     entries             tapes on standard input, each answered by a line and its bytes
 *     entries --delays    delay, multiplier and attempts in progress, 8 bytes each, low byte first; each answered by a line
 *
 * Each lent slice lies between guard bytes, and the tape is a copy. A guard or a tape that changed, a byte behind the answers that was
 * touched, a report of another length that was taken, or a returned status that isn't the report's ends the program with a word on
 * standard error, before its line: whoever compares misses the answer. */
#include <inttypes.h>
#include <stdio.h>
#include <stdlib.h>
#include <string.h>

#include "braidhatch.h"

enum { GUARD = 64, FILL = 0xa5, LONGEST_REPORT = 40 };

struct lent {
    uint8_t *block;
    uint8_t *bytes;
    size_t length;
};

static void fail(const char *what)
{
    fprintf(stderr, "entries: %s\n", what);
    exit(1);
}

/* A slice between its guards, all filled alike. */
static struct lent lend(size_t length)
{
    struct lent l;
    l.block = malloc(length + 2 * GUARD);
    if (l.block == NULL)
        fail("no memory");
    memset(l.block, FILL, length + 2 * GUARD);
    l.bytes = l.block + GUARD;
    l.length = length;
    return l;
}

/* Each byte is the one before it, and the first is as it was. */
static int filled(const uint8_t *bytes, size_t length)
{
    return length == 0 || (bytes[0] == FILL && memcmp(bytes, bytes + 1, length - 1) == 0);
}

static int guarded(struct lent l)
{
    return filled(l.block, GUARD) && filled(l.bytes + l.length, GUARD);
}

/* Every report length but the right one: 13, and no byte is touched. */
static void try_other_reports(struct lent tape, struct lent answers)
{
    struct lent report = lend(LONGEST_REPORT);
    for (size_t length = 0; length <= LONGEST_REPORT; length++) {
        if (length == BRAIDHATCH_REPORT_SIZE)
            continue;
        if (braidhatch_replay(tape.bytes, tape.length, answers.bytes, answers.length, report.bytes, length) != BRAIDHATCH_NO_ROOM)
            fail("a report of another length was taken");
        if (!filled(report.bytes, report.length) || !guarded(report))
            fail("a report of another length was written");
    }
    if (!filled(answers.bytes, answers.length) || !guarded(answers))
        fail("answers were written with a report of another length");
    free(report.block);
}

static void replay_one(struct lent tape, size_t room)
{
    struct lent answers = lend(room);
    struct lent report = lend(BRAIDHATCH_REPORT_SIZE);
    uint64_t status, written, check;

    try_other_reports(tape, answers);
    status = braidhatch_replay(tape.bytes, tape.length, answers.bytes, answers.length, report.bytes, report.length);
    check = braidhatch_tape_check(tape.bytes, tape.length);
    written = braidhatch_report_number(report.bytes, BRAIDHATCH_WRITTEN);
    if (!guarded(tape) || !guarded(answers) || !guarded(report))
        fail("a guard byte changed");
    if (status != braidhatch_report_number(report.bytes, BRAIDHATCH_STATUS))
        fail("the status returned isn't the report's");
    if (written > room || !filled(answers.bytes + written, room - written))
        fail("a byte behind the answers was touched");
    printf("%" PRIu64 " %" PRIu64 " %" PRIu64 " %" PRIu64 " %" PRIu64 "\n", status,
           braidhatch_report_number(report.bytes, BRAIDHATCH_PLACE), written,
           braidhatch_report_number(report.bytes, BRAIDHATCH_CALLS), check);
    fwrite(answers.bytes, 1, written, stdout);
    fflush(stdout);
    free(report.block);
    free(answers.block);
}

/* A number on standard input, 8 bytes, low byte first; false at the end. */
static int read_number(uint64_t *n)
{
    uint8_t bytes[8];
    if (fread(bytes, 1, 8, stdin) != 8)
        return 0;
    *n = braidhatch_report_number(bytes, 0);
    return 1;
}

static void replay_all(void)
{
    uint64_t length, room;
    while (read_number(&length) && read_number(&room)) {
        struct lent tape = lend(length);
        uint8_t *copy = malloc(length + 1);
        if (copy == NULL || fread(tape.bytes, 1, length, stdin) != length)
            fail("the tape ends early");
        memcpy(copy, tape.bytes, length);
        replay_one(tape, room < BRAIDHATCH_ANSWERS_SIZE(length) ? room : BRAIDHATCH_ANSWERS_SIZE(length));
        if (memcmp(copy, tape.bytes, length) != 0)
            fail("the tape was written");
        free(copy);
        free(tape.block);
    }
}

static void delay_all(void)
{
    uint64_t delay, multiplier, in_progress;
    while (read_number(&delay) && read_number(&multiplier) && read_number(&in_progress)) {
        printf("%" PRIu64 "\n", braidhatch_attempt_delay(delay, (uint32_t)multiplier, in_progress));
        fflush(stdout);
    }
}

/* Slices without bytes: NULL, and a pointer to nowhere. */
static void try_empty(void)
{
    uint8_t report[BRAIDHATCH_REPORT_SIZE];
    uint8_t *nowhere = (uint8_t *)(uintptr_t)1;
    if (braidhatch_tape_check(NULL, 0) != BRAIDHATCH_CUT || braidhatch_tape_check(nowhere, 0) != BRAIDHATCH_CUT)
        fail("tape check of no bytes");
    if (braidhatch_replay(NULL, 0, NULL, 0, report, sizeof report) != BRAIDHATCH_CUT)
        fail("replay of no bytes");
    if (braidhatch_replay(nowhere, 0, nowhere, 0, report, sizeof report) != BRAIDHATCH_CUT)
        fail("replay of no bytes, nowhere");
    if (braidhatch_replay(NULL, 0, NULL, 0, NULL, 0) != BRAIDHATCH_NO_ROOM)
        fail("replay with no report");
}

int main(int argc, char **argv)
{
    try_empty();
    if (argc == 2 && strcmp(argv[1], "--delays") == 0)
        delay_all();
    else
        replay_all();
    return 0;
}
