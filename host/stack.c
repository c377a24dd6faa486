/* How much stack each entry takes: stack TAPE..
 *
 * A child process calls the entry on every tape, in a thread whose stack lies above a wide stretch that can't be touched. The stack shrinks
 * until the child falls, or until the C library takes it for too small; the least that was enough is printed. What the thread itself takes
 * is in it, and what a thread takes that calls nothing is printed too. */
#define _GNU_SOURCE /* pthread_attr_setstack, MAP_ANONYMOUS */
#include <pthread.h>
#include <stdio.h>
#include <stdlib.h>
#include <sys/mman.h>
#include <sys/resource.h>
#include <sys/wait.h>
#include <unistd.h>

#include "braidhatch.h"

enum { PAGE = 4096, UNTOUCHABLE = 16 << 20, LARGEST = 8 << 20, ROOM = 1 << 20 };

struct tape {
    uint8_t *bytes;
    size_t length;
};

static struct tape *tapes;
static int tape_count;
static uint8_t answers[ROOM];
static uint8_t report[BRAIDHATCH_REPORT_SIZE];

static void call_nothing(void) {}

static void call_attempt_delay(void)
{
    for (uint64_t n = 0; n < 64; n++)
        braidhatch_attempt_delay(UINT64_MAX, (uint32_t)n, n);
}

static void call_tape_check(void)
{
    for (int i = 0; i < tape_count; i++)
        braidhatch_tape_check(tapes[i].bytes, tapes[i].length);
}

static void call_replay(void)
{
    for (int i = 0; i < tape_count; i++)
        braidhatch_replay(tapes[i].bytes, tapes[i].length, answers, sizeof answers, report, sizeof report);
}

static void (*entry)(void);

static void *called(void *unused)
{
    entry();
    return unused;
}

/* In the child: the entry on a stack of so many bytes. */
static void run_on(size_t size)
{
    pthread_attr_t attributes;
    pthread_t thread;
    uint8_t *low = mmap(NULL, UNTOUCHABLE + size, PROT_NONE, MAP_PRIVATE | MAP_ANONYMOUS, -1, 0);
    struct rlimit no_core = { 0, 0 };
    setrlimit(RLIMIT_CORE, &no_core);
    if (low == MAP_FAILED || mprotect(low + UNTOUCHABLE, size, PROT_READ | PROT_WRITE) != 0)
        _exit(2);
    if (pthread_attr_init(&attributes) != 0 || pthread_attr_setstack(&attributes, low + UNTOUCHABLE, size) != 0
        || pthread_create(&thread, &attributes, called, NULL) != 0)
        _exit(1);
    pthread_join(thread, NULL);
    _exit(0);
}

static int enough(size_t size)
{
    int status;
    pid_t child = fork();
    if (child == 0)
        run_on(size);
    if (child < 0 || waitpid(child, &status, 0) != child || (WIFEXITED(status) && WEXITSTATUS(status) == 2)) {
        fprintf(stderr, "stack: no child, or no memory for it\n");
        exit(1);
    }
    return WIFEXITED(status) && WEXITSTATUS(status) == 0;
}

/* The least stack, in whole pages, on which the entry returns. */
static size_t least(void (*tried)(void))
{
    size_t low = 0, high = LARGEST;
    entry = tried;
    if (!enough(high)) {
        fprintf(stderr, "stack: %d bytes aren't enough\n", LARGEST);
        exit(1);
    }
    while (low + PAGE < high) {
        size_t middle = (low + high) / 2 / PAGE * PAGE;
        if (enough(middle))
            high = middle;
        else
            low = middle;
    }
    return high;
}

static struct tape read_tape(const char *path)
{
    struct tape t = { malloc(1 << 20), 0 };
    FILE *file = fopen(path, "rb");
    if (file == NULL || t.bytes == NULL) {
        perror(path);
        exit(1);
    }
    t.length = fread(t.bytes, 1, 1 << 20, file);
    fclose(file);
    return t;
}

int main(int argc, char **argv)
{
    tape_count = argc - 1;
    tapes = calloc((size_t)argc, sizeof *tapes);
    for (int i = 0; i < tape_count; i++)
        tapes[i] = read_tape(argv[i + 1]);
    printf("nothing %zu\n", least(call_nothing));
    printf("attempt_delay %zu\n", least(call_attempt_delay));
    printf("tape_check %zu\n", least(call_tape_check));
    printf("replay %zu\n", least(call_replay));
    return 0;
}
