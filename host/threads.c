/* Two threads replay different tapes at once: threads ROUNDS TAPE..
 *
 * Every tape is replayed first by one thread alone. Then two threads replay them all, the second from the last to the first, round after
 * round; each time the status, the report and every byte of the answer buffer must be the same. */
#define _GNU_SOURCE /* pthread_barrier_t */
#include <pthread.h>
#include <stdio.h>
#include <stdlib.h>
#include <string.h>

#include "braidhatch.h"

enum { ROOM = 1 << 19, FILL = 0xa5 };

struct outcome {
    uint64_t status;
    uint8_t report[BRAIDHATCH_REPORT_SIZE];
    uint8_t *answers;
};

struct tape {
    uint8_t *bytes;
    size_t length;
    struct outcome alone;
};

static struct tape *tapes;
static int tape_count;
static long rounds;
static pthread_barrier_t start;

static void *room(size_t size)
{
    void *bytes = malloc(size);
    if (bytes == NULL) {
        fprintf(stderr, "threads: no memory\n");
        exit(1);
    }
    return bytes;
}

static void replay(const struct tape *t, struct outcome *o)
{
    memset(o->answers, FILL, ROOM);
    o->status = braidhatch_replay(t->bytes, t->length, o->answers, ROOM, o->report, sizeof o->report);
}

static int same(const struct outcome *a, const struct outcome *b)
{
    return a->status == b->status && memcmp(a->report, b->report, sizeof a->report) == 0 && memcmp(a->answers, b->answers, ROOM) == 0;
}

/* Gives NULL, or the tape that had another outcome. */
static void *run(void *backwards)
{
    struct outcome o;
    void *wrong = NULL;
    o.answers = room(ROOM);
    pthread_barrier_wait(&start);
    for (long n = 0; n < rounds; n++)
        for (int i = 0; i < tape_count; i++) {
            struct tape *t = &tapes[backwards ? tape_count - 1 - i : i];
            replay(t, &o);
            if (!same(&o, &t->alone))
                wrong = t;
        }
    free(o.answers);
    return wrong;
}

static void read_tape(const char *path, struct tape *t)
{
    FILE *file = fopen(path, "rb");
    if (file == NULL) {
        perror(path);
        exit(1);
    }
    t->bytes = room(1 << 20);
    t->length = fread(t->bytes, 1, 1 << 20, file);
    t->alone.answers = room(ROOM);
    fclose(file);
    replay(t, &t->alone);
}

int main(int argc, char **argv)
{
    pthread_t first, second;
    void *wrong_first, *wrong_second;
    if (argc < 4) {
        fprintf(stderr, "usage: threads ROUNDS TAPE TAPE..\n");
        return 2;
    }
    rounds = atol(argv[1]);
    tape_count = argc - 2;
    tapes = room((size_t)argc * sizeof *tapes);
    for (int i = 0; i < tape_count; i++)
        read_tape(argv[i + 2], &tapes[i]);
    pthread_barrier_init(&start, NULL, 2);
    if (pthread_create(&first, NULL, run, NULL) != 0 || pthread_create(&second, NULL, run, tapes) != 0) {
        fprintf(stderr, "threads: no thread\n");
        return 1;
    }
    pthread_join(first, &wrong_first);
    pthread_join(second, &wrong_second);
    if (wrong_first || wrong_second) {
        printf("threads: another outcome than alone\n");
        return 1;
    }
    printf("threads: two at once, %ld rounds of %d tapes, every byte the same\n", rounds, tape_count);
    return 0;
}
