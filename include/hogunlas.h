/*
 * Hogunlas: judge a station program, run it step by step, print it line by line. What the calls
 * answer is fixed by the standard, docs/STANDARD.md.
 *
 * The calls are those of libhogunlas.a, which `.ci/build` makes of proved code. They keep nothing
 * between calls, ask for no memory, and may be made from several threads at once.
 *
 * The file. Every call takes the whole file as bytes, and any bytes whatever: what is no accepted
 * file is refused.
 *
 * The buffer. Every call lays its answer over the front of a buffer that the caller lends. The
 * bytes past the answer are kept; after a refusal all bytes are. A longer buffer than needed is
 * fine, and the limits below are always enough.
 *
 * The result. `refusal` is 0 for an answer, and then `detail` is 0. Otherwise it is the number of
 * the refusal, `detail` says where or how much (see below), and the other numbers are 0.
 *
 * What the caller owes. A pointer is not null, also where its length is 0; as many bytes as its
 * length says can be read there, and in the buffer written; the buffer overlaps no other
 * argument; and no other thread writes to any of them during the call.
 */
#ifndef HOGUNLAS_H
#define HOGUNLAS_H

#include <stddef.h>
#include <stdint.h>

#ifdef __cplusplus
extern "C" {
#endif

/* The version of the standard. (HOGUNLAS_VERSION is a refusal: the version of a file.) */
#define HOGUNLAS_STANDARD_MAJOR 1
#define HOGUNLAS_STANDARD_MINOR 4

/* The limits. */
#define HOGUNLAS_MAX_FILE 33173  /* bytes of the largest file that is not refused */
#define HOGUNLAS_MAX_THREADS 8   /* threads that a file may have; run answers counts of so many */
#define HOGUNLAS_MAX_REPORT 8200 /* bytes of the longest report */
#define HOGUNLAS_MAX_LIST 65536  /* entries of the longest list */
#define HOGUNLAS_MAX_STATE 544   /* bytes of the longest end state */
#define HOGUNLAS_LINE_BUFFER 48  /* bytes that hogunlas_line needs, whatever the line */

/*
 * The refusals, and what their detail is. An offset counts the file's bytes from 0; the first
 * offence decides. 1 to 8 come before 9 to 13 and 18, and these before 14 to 17.
 */
enum {
    HOGUNLAS_ANSWERED = 0,

    /* The sender of the file: every call. */
    HOGUNLAS_BYTES_MISSING = 1,   /* of a field or section; the file's length */
    HOGUNLAS_VERSION = 2,         /* the version is not 1; offset 0 */
    HOGUNLAS_COUNT = 3,           /* too many locks or threads, or no thread; the count's offset */
    HOGUNLAS_SECTION_LENGTH = 4,  /* no multiple of its records, or too large; its offset */
    HOGUNLAS_BYTES_LEFT_OVER = 5, /* after the last thread; the first one's offset */
    HOGUNLAS_RECORD = 6,          /* a variable's kind or g; the record's offset */
    HOGUNLAS_INSTRUCTION = 7,     /* an op or a field; the instruction's offset */
    HOGUNLAS_NESTING = 8,         /* the instruction's offset, or the section's end */

    /* The program's writer: every call. */
    HOGUNLAS_ACCESS = 9,            /* of a variable against the discipline; its offset */
    HOGUNLAS_TAKE_OF_HELD = 10,     /* of a lock in the set; its offset */
    HOGUNLAS_GIVE_OF_NOT_HELD = 11, /* of a lock not in the set; its offset */
    HOGUNLAS_SETS_DIFFER = 12,      /* the END's or AGAIN's offset, or the section's end */
    HOGUNLAS_BLOCK_IS_T = 13,       /* the offset of the block's END */
    HOGUNLAS_FALSE_STATEMENT = 18,  /* of a block's atomicity; the offset of the block's END */

    /* The caller. */
    HOGUNLAS_LIST_TOO_LONG = 14,    /* run; 65,536 */
    HOGUNLAS_THREAD_NUMBER = 15,    /* run: too large; its first index in the list */
    HOGUNLAS_BUFFER_TOO_SHORT = 16, /* every call; the bytes needed */
    HOGUNLAS_NO_SUCH_LINE = 17      /* line; the number of lines */
};

/* ---- judge ------------------------------------------------------------------------------- */

/* What judge answers: the report's length. */
typedef struct {
    uint32_t refusal;
    uint64_t detail;
    uint64_t length;
} hogunlas_judged;

/*
 * Judges a file. Refusals: 1 to 13 and 18, then 16.
 *
 * The report has, for each thread, a byte for each instruction (the whole construct's at its
 * opener, 0 at ELSE, AGAIN and END), then a byte for the thread's whole code:
 * B 1 (both mover), L 2 (left mover), R 3 (right mover), A 4 (atomic), T 5 (none of these).
 *
 * An ATOMIC's field a of 1 to 4 states the byte that the report has for it, and 0 states nothing.
 * A false statement is refused (18); a field above 4 is a 7.
 */
hogunlas_judged hogunlas_judge(const uint8_t *file, size_t file_length,
                               uint8_t *report, size_t report_length);

/* ---- run --------------------------------------------------------------------------------- */

/* A thread's counts: how many of the list's entries for it moved, waited and were idle. */
typedef struct {
    uint64_t moved;
    uint64_t waiting;
    uint64_t idle;
} hogunlas_counts;

/*
 * What run answers: the counts of each thread, by thread number. Those of a thread that the file
 * does not have are 0. A thread's three counts sum to how often the list names it, and all together
 * sum to the list's length.
 */
typedef struct {
    uint32_t refusal;
    uint64_t detail;
    hogunlas_counts threads[HOGUNLAS_MAX_THREADS];
} hogunlas_ran;

/*
 * Runs an accepted file from the start; each byte of the list is a step of the thread that it
 * numbers. Refusals: 1 to 13 and 18, then 14, then 15, then 16.
 *
 * The end state has, numbers big-endian: 4 bytes for each variable; 1 byte for each lock (0 free,
 * or the holder's thread number plus 1); and for each thread 2 bytes for its place and 4 for each
 * of its eight registers.
 *
 * The name. A program compiled against the header of standard 1.0 or 1.1 calls hogunlas_run,
 * which is no longer there: it does not link. Its struct is shorter, with the three counts of all
 * threads together; under the old name it would link, and the call would write past that struct.
 */
hogunlas_ran hogunlas_run_by_thread(const uint8_t *file, size_t file_length,
                                    const uint8_t *list, size_t list_length,
                                    uint8_t *state, size_t state_length);

/* ---- line -------------------------------------------------------------------------------- */

/* What line answers: the line's length. */
typedef struct {
    uint32_t refusal;
    uint64_t detail;
    uint64_t length;
} hogunlas_printed;

/*
 * Prints line i of an accepted file's printout, counted from 0. Refusals: 1 to 13 and 18, then 17,
 * then 16 for a buffer of less than 48 bytes.
 *
 * The text ends with its newline; no null character follows it.
 */
hogunlas_printed hogunlas_line(const uint8_t *file, size_t file_length, uint64_t i,
                               uint8_t *text, size_t text_length);

#ifdef __cplusplus
}
#endif

#endif
