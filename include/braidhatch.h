/* Braidhatch: the racing core of Happy Eyeballs version 3, proved to meet its contracts. Link libbraidhatch.a (x86-64-v2, System V ABI).
 *
 * The three entries take numbers and byte slices, a slice being a pointer and a length. They do no I/O, use no heap and no writable data,
 * and depend on nothing but their arguments: any number of threads may call them at once. Of the C library they need memcpy and the like.
 *
 * What a caller must keep to, since nothing checks it:
 *   - each slice is valid: so many bytes that may be read, and written where the entry writes;
 *   - the slices of one call don't overlap;
 *   - a pointer may be NULL, or point anywhere, only where its length is 0;
 *   - there is so much stack as BRAIDHATCH_STACK_SIZE says.
 * Whatever the bytes of a tape are, an entry then returns, with what is said below. */
#ifndef BRAIDHATCH_H
#define BRAIDHATCH_H

#include <stddef.h>
#include <stdint.h>

#ifdef __cplusplus
extern "C" {
#endif

/* Rises when an entry, a number below, or the bytes of tapes or answers change. */
#define BRAIDHATCH_VERSION 1

/* What tape check and replay return, and what an answer of the kind BRAIDHATCH_INPUT carries. */
enum {
    BRAIDHATCH_ACCEPTED = 0,
    BRAIDHATCH_CUT = 1,              /* the bytes stop before a field is whole */
    BRAIDHATCH_BAD_NUMBER = 2,       /* a number in a longer form than it needs, or past 64 bits */
    BRAIDHATCH_OUT_OF_RANGE = 3,     /* a kind, a flag or a plain number beyond its range; a frame longer than 4,096 bytes */
    BRAIDHATCH_BAD_NAME = 4,         /* an empty name, or one that isn't a host's */
    BRAIDHATCH_TOO_MANY = 5,         /* more items or bytes than there is room for */
    BRAIDHATCH_TRAILING = 6,         /* something follows the last field */
    BRAIDHATCH_UNKNOWN_ID = 7,       /* an answer to no query, or a result of no attempt */
    BRAIDHATCH_ALREADY_ANSWERED = 8, /* a second answer to a query */
    BRAIDHATCH_WRONG_TYPE = 9,       /* an answer of another type than was asked for */
    BRAIDHATCH_STALE_REFRESH = 10,   /* the answer to a refresh says that it is stale */
    BRAIDHATCH_ECH_NOT_SENT = 11,    /* an ECH retry though the attempt carried no ECH bytes */
    BRAIDHATCH_ALREADY_ENDED = 12,   /* a second result of an attempt */
    BRAIDHATCH_NO_ROOM = 13          /* the slice lent for answers is too short, or the report has another size */
};

/* The kind of an answer is its first number; what follows it is said beside. A number is a row of groups of seven bits, the lowest first,
 * each in a byte whose highest bit says that one more follows. */
enum {
    BRAIDHATCH_WAITING = 0,   /* nothing to do */
    BRAIDHATCH_QUERY = 1,     /* id; type: 0 HTTPS, 1 AAAA, 2 A; 1 if stale is allowed; length, name */
    BRAIDHATCH_TIMER = 2,     /* nanoseconds */
    BRAIDHATCH_ATTEMPT = 3,   /* id; 1 for an ECH retry; rank: 0 H3, 1 H2 or H1, 2 H2, 3 H1; target; ECH: 0 none, else length + 1, bytes.
                                 Target: kind 0 with an IPv4 address, kind 1 with an IPv6 address and its scope, or kind 2 with the
                                 length of a name and the name; then the port */
    BRAIDHATCH_CANCEL = 4,    /* id */
    BRAIDHATCH_SUCCEEDED = 5, /* the race is won */
    BRAIDHATCH_FAILED = 6,    /* 0 DNS, 1 connection */
    BRAIDHATCH_FULL = 7,      /* no room for another: 0 query, 1 attempt */
    BRAIDHATCH_INPUT = 8      /* an input was accepted, 0, or refused: the number */
};

/* The four numbers of a report, in their order, 8 bytes each, the lowest byte first. */
enum {
    BRAIDHATCH_STATUS = 0,  /* as returned */
    BRAIDHATCH_PLACE = 1,   /* where the stopped record begins on the tape, or the tape's length */
    BRAIDHATCH_WRITTEN = 2, /* bytes of answers written */
    BRAIDHATCH_CALLS = 3    /* calls answered */
};
#define BRAIDHATCH_REPORT_SIZE 32

/* The size of an answer buffer that is never too short for a tape of so many bytes (proved; a tape below 2^62 bytes). */
#define BRAIDHATCH_ANSWERS_SIZE(tape_len) (4 * (size_t)(tape_len) + 74290)

/* A stack on which every entry returns, in bytes, with room to spare. Measured, not proved, by a thread whose stack shrinks until it falls:
 * the deepest replay took a thread of 102,400 bytes, tape check and attempt delay the smallest there is, of 16,384. */
#define BRAIDHATCH_STACK_SIZE 262144

/* The wait before another attempt, in the unit of `delay`: the delay times the multiplier to the power of in_progress - 1, or of 0 if none
 * is in progress. The power is at most 2^32-1 and the wait at most 2^64-1: they stay there and never wrap. The multiplier 0 is taken for 1.
 */
uint64_t braidhatch_attempt_delay(uint64_t delay, uint32_t multiplier, uint64_t in_progress);

/* Reads the tape; writes nothing. Returns the number, 1 to 6, of its first fault in a frame or a body, or 0. It runs no machine, so what
 * the numbers 7 to 12 say isn't looked for. */
uint64_t braidhatch_tape_check(const uint8_t *tape, size_t tape_len);

/* Replays the tape: makes the machine of its configuration and takes event after event, each answered in turn.
 *
 * Reads the tape. Writes the answers one after the other at the front of `answers`, each whole or not at all, and no byte behind them;
 * then the four numbers into `report`. Returns the status: 0 at the tape's end; 1 to 6 for a configuration that is refused; 1, 2 or 3 for a
 * frame that can't be read; 13 where the next answer doesn't fit. What was answered before the stop stands. An event that is refused inside
 * a sound frame is answered with BRAIDHATCH_INPUT and its number, and replay goes on.
 *
 * If report_len isn't BRAIDHATCH_REPORT_SIZE it returns 13, and neither `answers` nor `report` is written. */
uint64_t braidhatch_replay(const uint8_t *tape, size_t tape_len, uint8_t *answers, size_t answers_len, uint8_t *report,
                           size_t report_len);

/* One of the four numbers of a report. */
static inline uint64_t braidhatch_report_number(const uint8_t *report, int which)
{
    uint64_t n = 0;
    int k;
    for (k = 7; k >= 0; k--)
        n = n << 8 | report[8 * which + k];
    return n;
}

#ifdef __cplusplus
}
#endif

#endif
