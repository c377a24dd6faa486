/* A fuzzer's target: the C entries, in programs of their own (host/entries.c), against the model (differential/linked) in this process.
 *
 * Two bytes choose the size of the answer buffer, the rest is the tape; three numbers of 8 bytes from its front are asked for a delay too.
 * ENTRIES in the environment says how the program is run. Whatever it says otherwise than the model, and its end, stops the fuzzer. */
#define _POSIX_C_SOURCE 200809L
#include <inttypes.h>
#include <signal.h>
#include <stdio.h>
#include <stdlib.h>
#include <string.h>
#include <unistd.h>

enum { ROOM = 1 << 20 };

/* differential/linked */
uint64_t model_attempt_delay(uint64_t delay, uint32_t multiplier, uint64_t in_progress);
uint64_t model_tape_check(const uint8_t *tape, size_t tape_len);
void model_replay(const uint8_t *tape, size_t tape_len, uint8_t *answers, size_t answers_len, uint64_t *four);

struct child {
    FILE *in, *out;
};

static struct child replays, delays;
static uint64_t runs, bytes;
static uint8_t expected[ROOM], found[ROOM];

static void wrong(const char *what)
{
    fprintf(stderr, "fuzz: %s\n", what);
    abort();
}

/* ENTRIES, with a word behind it. */
static struct child start(const char *word)
{
    struct child c;
    int in[2], out[2];
    char command[4096];
    snprintf(command, sizeof command, "exec %s %s", getenv("ENTRIES"), word);
    if (pipe(in) != 0 || pipe(out) != 0)
        wrong("no pipe");
    if (fork() == 0) {
        dup2(in[0], 0);
        dup2(out[1], 1);
        close(in[0]), close(in[1]), close(out[0]), close(out[1]);
        execl("/bin/sh", "sh", "-c", command, (char *)NULL);
        _exit(127);
    }
    close(in[0]), close(out[1]);
    c.in = fdopen(in[1], "wb");
    c.out = fdopen(out[0], "rb");
    return c;
}

static void send_number(struct child c, uint64_t n)
{
    for (int k = 0; k < 8; k++, n >>= 8)
        putc((int)(n & 255), c.in);
}

static uint64_t number_at(const uint8_t *data)
{
    uint64_t n = 0;
    for (int k = 7; k >= 0; k--)
        n = n << 8 | data[k];
    return n;
}

static void try_tape(const uint8_t *tape, size_t length, size_t room)
{
    uint64_t four[4], said[5];
    send_number(replays, length);
    send_number(replays, room);
    if (fwrite(tape, 1, length, replays.in) != length || fflush(replays.in) != 0)
        wrong("the program ended");
    model_replay(tape, length, expected, room, four);
    for (int i = 0; i < 5; i++)
        if (fscanf(replays.out, "%" SCNu64, &said[i]) != 1)
            wrong("the program ended");
    if (getc(replays.out) != '\n')
        wrong("no end of its line");
    if (memcmp(four, said, sizeof four) != 0)
        wrong("the four numbers differ");
    if (said[4] != model_tape_check(tape, length))
        wrong("tape check differs");
    if (fread(found, 1, four[2], replays.out) != four[2] || memcmp(expected, found, four[2]) != 0)
        wrong("the answers differ");
}

static void try_delay(uint64_t delay, uint64_t multiplier, uint64_t in_progress)
{
    uint64_t said = 0;
    send_number(delays, delay);
    send_number(delays, multiplier);
    send_number(delays, in_progress);
    if (fflush(delays.in) != 0 || fscanf(delays.out, "%" SCNu64, &said) != 1)
        wrong("the program ended");
    if (said != model_attempt_delay(delay, (uint32_t)multiplier, in_progress))
        wrong("the attempt delay differs");
}

/* libFuzzer's alarm, by which it looks for a run that hangs, isn't to cut a read short. */
static void restart_reads(void)
{
    struct sigaction action;
    if (sigaction(SIGALRM, NULL, &action) == 0) {
        action.sa_flags |= SA_RESTART;
        sigaction(SIGALRM, &action, NULL);
    }
}

static void say(void)
{
    fprintf(stderr, "fuzz: %" PRIu64 " runs, %" PRIu64 " bytes of tapes\n", runs, bytes);
}

int LLVMFuzzerTestOneInput(const uint8_t *data, size_t size);

int LLVMFuzzerTestOneInput(const uint8_t *data, size_t size)
{
    size_t room;
    if (size < 2)
        return 0;
    if (replays.in == NULL) {
        replays = start("");
        delays = start("--delays");
        restart_reads();
        atexit(say);
    }
    room = (size_t)data[0] << 8 | data[1];
    try_tape(data + 2, size - 2, room == 65535 ? ROOM : room);
    if (size >= 26)
        try_delay(number_at(data + 2), number_at(data + 10), number_at(data + 18) % 64);
    runs++;
    bytes += size - 2;
    return 0;
}
