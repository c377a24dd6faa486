/* A small host: replays the tape in a file and prints every answer, then the four numbers of the report.
 *
 *     race TAPE
 *
 * A shell's own host does the same with each answer that it is given, but acts on it: it asks the name server, sets the timer, opens the
 * connection. The exit status is 0 if the whole tape was replayed, 1 if it stopped, 2 if the file can't be read. */
#include <inttypes.h>
#include <stdio.h>
#include <stdlib.h>

#include "braidhatch.h"

/* Answers that are being read: the bytes from `at` on are still to come. The library wrote them, so they are sound. */
struct answers {
    const uint8_t *bytes;
    size_t at;
};

static uint64_t read_number(struct answers *a)
{
    uint64_t n = 0;
    unsigned shift = 0;
    uint8_t group;
    do {
        group = a->bytes[a->at++];
        n |= (uint64_t)(group & 127) << shift;
        shift += 7;
    } while (group & 128);
    return n;
}

static void print_text(struct answers *a, uint64_t length)
{
    while (length--)
        putchar(a->bytes[a->at++]);
}

static void print_hex(struct answers *a, uint64_t length)
{
    while (length--)
        printf("%02x", a->bytes[a->at++]);
}

static void print_query(struct answers *a)
{
    static const char *const types[] = { "HTTPS", "AAAA", "A" };
    uint64_t id = read_number(a);
    uint64_t type = read_number(a);
    uint64_t stale = read_number(a);
    printf("query %" PRIu64 ": %s%s of ", id, types[type], stale ? ", stale allowed," : "");
    print_text(a, read_number(a));
}

static void print_target(struct answers *a)
{
    uint64_t scope;
    switch (read_number(a)) {
    case 0:
        for (int i = 0; i < 4; i++)
            printf(i ? ".%d" : "%d", a->bytes[a->at++]);
        break;
    case 1:
        putchar('[');
        for (int i = 0; i < 8; i++) {
            printf(i ? ":%x" : "%x", a->bytes[a->at] << 8 | a->bytes[a->at + 1]);
            a->at += 2;
        }
        scope = read_number(a);
        if (scope)
            printf("%%%" PRIu64, scope);
        putchar(']');
        break;
    default:
        print_text(a, read_number(a));
    }
    printf(" port %" PRIu64, read_number(a));
}

static void print_attempt(struct answers *a)
{
    static const char *const ranks[] = { "H3", "H2 or H1", "H2", "H1" };
    uint64_t id = read_number(a);
    uint64_t retry = read_number(a);
    uint64_t rank = read_number(a);
    uint64_t ech;
    printf("attempt %" PRIu64 "%s: %s to ", id, retry ? " (ECH retry)" : "", ranks[rank]);
    print_target(a);
    ech = read_number(a);
    if (ech) {
        printf(", ECH ");
        print_hex(a, ech - 1);
    }
}

static void print_answer(struct answers *a)
{
    uint64_t n;
    switch (read_number(a)) {
    case BRAIDHATCH_WAITING:
        printf("waiting");
        break;
    case BRAIDHATCH_QUERY:
        print_query(a);
        break;
    case BRAIDHATCH_TIMER:
        printf("timer %" PRIu64 " ns", read_number(a));
        break;
    case BRAIDHATCH_ATTEMPT:
        print_attempt(a);
        break;
    case BRAIDHATCH_CANCEL:
        printf("cancel %" PRIu64, read_number(a));
        break;
    case BRAIDHATCH_SUCCEEDED:
        printf("succeeded");
        break;
    case BRAIDHATCH_FAILED:
        printf("failed: %s", read_number(a) ? "connection" : "DNS");
        break;
    case BRAIDHATCH_FULL:
        printf("full: %s", read_number(a) ? "attempts" : "queries");
        break;
    case BRAIDHATCH_INPUT:
        n = read_number(a);
        if (n == BRAIDHATCH_ACCEPTED)
            printf("input accepted");
        else
            printf("input refused: %" PRIu64, n);
        break;
    }
    putchar('\n');
}

/* The file's bytes, to be freed, or NULL. */
static uint8_t *read_file(const char *path, size_t *length)
{
    uint8_t *bytes = NULL;
    size_t room = 0;
    FILE *file = fopen(path, "rb");
    *length = 0;
    if (file == NULL)
        return NULL;
    do {
        room = room ? 2 * room : 65536;
        uint8_t *more = realloc(bytes, room);
        if (more == NULL)
            break;
        bytes = more;
        *length += fread(bytes + *length, 1, room - *length, file);
    } while (*length == room);
    if (ferror(file) || !feof(file)) {
        free(bytes);
        bytes = NULL;
    }
    fclose(file);
    return bytes;
}

int main(int argc, char **argv)
{
    uint8_t report[BRAIDHATCH_REPORT_SIZE];
    uint8_t *tape, *answers;
    size_t tape_len, answers_len;
    uint64_t status, written;

    if (argc != 2) {
        fprintf(stderr, "usage: race TAPE\n");
        return 2;
    }
    tape = read_file(argv[1], &tape_len);
    answers_len = BRAIDHATCH_ANSWERS_SIZE(tape_len);
    answers = malloc(answers_len ? answers_len : 1);
    if (tape == NULL || answers == NULL) {
        perror(argv[1]);
        return 2;
    }
    status = braidhatch_replay(tape, tape_len, answers, answers_len, report, sizeof report);
    written = braidhatch_report_number(report, BRAIDHATCH_WRITTEN);
    for (struct answers a = { answers, 0 }; a.at < written;)
        print_answer(&a);
    printf("status %" PRIu64 ", place %" PRIu64 ", %" PRIu64 " bytes, %" PRIu64 " calls\n",
           status, braidhatch_report_number(report, BRAIDHATCH_PLACE), written,
           braidhatch_report_number(report, BRAIDHATCH_CALLS));
    free(answers);
    free(tape);
    return status == BRAIDHATCH_ACCEPTED ? 0 : 1;
}
