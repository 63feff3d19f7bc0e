/*
 * The calls from C, on the standard's example file and, for run, on one with two threads. Prints
 * what they answer and ends with 0, or says what is wrong and ends with 1.
 *
 *     cc -I../include c/example.c ../target/staticlib/libhogunlas.a
 */
#include <stdio.h>
#include <string.h>

#include "hogunlas.h"

/* One lock, one thread, one variable v0 guarded by k0: TAKE k0, READ r2 v0, GIVE k0. */
static const uint8_t example[] = {
    0x01, 0x01, 0x01, 0x00, 0x06, 0x00, 0x00, 0x00, 0x00, 0x00, 0x05, 0x00, 0x0C,
    0x20, 0x00, 0x00, 0x00, 0x10, 0x02, 0x00, 0x00, 0x21, 0x00, 0x00, 0x00,
};

/* The same with READ put before TAKE. */
static const uint8_t unguarded[] = {
    0x01, 0x01, 0x01, 0x00, 0x06, 0x00, 0x00, 0x00, 0x00, 0x00, 0x05, 0x00, 0x0C,
    0x10, 0x02, 0x00, 0x00, 0x20, 0x00, 0x00, 0x00, 0x21, 0x00, 0x00, 0x00,
};

/* One thread, ATOMIC 1 and END: a block that is B. Field a of the ATOMIC states A, 4. */
static const uint8_t overstated[] = {
    0x01, 0x00, 0x01, 0x00, 0x00, 0x00, 0x08, 0x34, 0x04, 0x00, 0x01, 0x35, 0x00, 0x00, 0x00,
};

/* One lock, two threads, no variable; each thread: TAKE k0, GIVE k0. */
static const uint8_t two_threads[] = {
    0x01, 0x01, 0x02, 0x00, 0x00, 0x00, 0x08, 0x20, 0x00, 0x00, 0x00, 0x21, 0x00,
    0x00, 0x00, 0x00, 0x08, 0x20, 0x00, 0x00, 0x00, 0x21, 0x00, 0x00, 0x00,
};

static int wrong(const char *what)
{
    printf("wrong: %s\n", what);
    return 1;
}

/* Whether all bytes from `first` on still hold the 0xA5 that the buffer was filled with. */
static int kept(const uint8_t *buffer, size_t first, size_t length)
{
    for (size_t at = first; at < length; at++) {
        if (buffer[at] != 0xA5)
            return 0;
    }
    return 1;
}

static int try_judge(void)
{
    static const uint8_t wanted[] = {3, 1, 2, 4}; /* R, B, L, and A for the whole */
    uint8_t report[HOGUNLAS_MAX_REPORT];
    memset(report, 0xA5, sizeof report);

    hogunlas_judged judged = hogunlas_judge(example, sizeof example, report, 3);
    if (judged.refusal != HOGUNLAS_BUFFER_TOO_SHORT || judged.detail != 4 || judged.length != 0)
        return wrong("a buffer of 3 bytes is 16 at 4");
    if (!kept(report, 0, sizeof report))
        return wrong("a refusal keeps the buffer");

    judged = hogunlas_judge(unguarded, sizeof unguarded, report, sizeof report);
    if (judged.refusal != HOGUNLAS_ACCESS || judged.detail != 13 || judged.length != 0)
        return wrong("READ before TAKE is 9 at 13");

    judged = hogunlas_judge(overstated, sizeof overstated, report, sizeof report);
    if (judged.refusal != HOGUNLAS_FALSE_STATEMENT || judged.detail != 11 || judged.length != 0)
        return wrong("a block of B that states A is 18 at its END");

    judged = hogunlas_judge(example, 0, report, sizeof report);
    if (judged.refusal != HOGUNLAS_BYTES_MISSING || judged.detail != 0 || judged.length != 0)
        return wrong("an empty file is 1 at 0");

    judged = hogunlas_judge(example, sizeof example, report, sizeof report);
    if (judged.refusal != HOGUNLAS_ANSWERED || judged.detail != 0 || judged.length != 4)
        return wrong("the report has 4 bytes");
    if (memcmp(report, wanted, sizeof wanted) != 0)
        return wrong("the report is R B L A");
    if (!kept(report, sizeof wanted, sizeof report))
        return wrong("an answer keeps the later bytes");
    printf("judge: report %u %u %u %u\n", report[0], report[1], report[2], report[3]);
    return 0;
}

/* Whether a thread has these counts. */
static int counted(hogunlas_counts counts, uint64_t moved, uint64_t waiting, uint64_t idle)
{
    return counts.moved == moved && counts.waiting == waiting && counts.idle == idle;
}

/* Whether the counts of all threads from `first` on are 0. */
static int none_from(const hogunlas_ran *ran, size_t first)
{
    for (size_t t = first; t < HOGUNLAS_MAX_THREADS; t++) {
        if (!counted(ran->threads[t], 0, 0, 0))
            return 0;
    }
    return 1;
}

/* How many entries are counted in all. */
static uint64_t sum(const hogunlas_ran *ran)
{
    uint64_t entries = 0;
    for (size_t t = 0; t < HOGUNLAS_MAX_THREADS; t++)
        entries += ran->threads[t].moved + ran->threads[t].waiting + ran->threads[t].idle;
    return entries;
}

static int try_run_refused(void)
{
    static const uint8_t list[] = {0, 0, 0, 0};
    static const uint8_t stranger[] = {0, 1};
    uint8_t state[HOGUNLAS_MAX_STATE];
    memset(state, 0xA5, sizeof state);

    hogunlas_ran ran = hogunlas_run_by_thread(example, sizeof example, stranger, sizeof stranger,
                                              state, 0);
    if (ran.refusal != HOGUNLAS_THREAD_NUMBER || ran.detail != 1 || !none_from(&ran, 0))
        return wrong("a thread number too large is 15 at its index");
    ran = hogunlas_run_by_thread(example, sizeof example, list, sizeof list, state, 38);
    if (ran.refusal != HOGUNLAS_BUFFER_TOO_SHORT || ran.detail != 39 || !none_from(&ran, 0))
        return wrong("a buffer of 38 bytes is 16 at 39");
    if (!kept(state, 0, sizeof state))
        return wrong("a refusal keeps the buffer");
    return 0;
}

static int try_run(void)
{
    static const uint8_t list[] = {0, 0, 0, 0};
    /* v0, k0, place 3, r0, r1, r2; the other registers are 0 */
    static const uint8_t wanted[39] = {0, 0, 0, 5, 0, 0, 3, 0, 0, 0, 0, 0, 0, 0, 0, 0, 0, 0, 5};
    uint8_t state[HOGUNLAS_MAX_STATE];
    memset(state, 0xA5, sizeof state);

    hogunlas_ran ran = hogunlas_run_by_thread(example, sizeof example, list, sizeof list,
                                              state, sizeof state);
    if (ran.refusal != HOGUNLAS_ANSWERED || ran.detail != 0)
        return wrong("the example runs");
    if (!counted(ran.threads[0], 3, 0, 1) || !none_from(&ran, 1))
        return wrong("moved 3, waiting 0, idle 1, and no other thread");
    if (memcmp(state, wanted, sizeof wanted) != 0)
        return wrong("the end state");
    if (!kept(state, sizeof wanted, sizeof state))
        return wrong("an answer keeps the later bytes");
    return 0;
}

/*
 * Prints a table of the file's threads: byte 2 of a file is their number. A count is at most a
 * list's length, so an int holds it.
 */
static void print_threads(const uint8_t *file, const hogunlas_ran *ran)
{
    printf("run:\nthread  moved  waiting  idle\n");
    for (int t = 0; t < file[2]; t++) {
        const hogunlas_counts *counts = &ran->threads[t];
        printf("%6d %6d %8d %5d\n", t, (int)counts->moved, (int)counts->waiting,
               (int)counts->idle);
    }
}

static int try_run_by_thread(void)
{
    static const uint8_t list[] = {0, 1, 0, 1};
    uint8_t state[HOGUNLAS_MAX_STATE];

    hogunlas_ran ran = hogunlas_run_by_thread(two_threads, sizeof two_threads, list, sizeof list,
                                              state, sizeof state);
    if (ran.refusal != HOGUNLAS_ANSWERED || ran.detail != 0)
        return wrong("two threads run");
    if (!counted(ran.threads[0], 2, 0, 0))
        return wrong("thread 0 takes the lock and gives it");
    if (!counted(ran.threads[1], 1, 1, 0))
        return wrong("thread 1 waits for the lock, then takes it");
    if (!none_from(&ran, two_threads[2]))
        return wrong("a thread that the file does not have counts 0");
    if (sum(&ran) != sizeof list)
        return wrong("all counts sum to the list's length");
    print_threads(two_threads, &ran);
    return 0;
}

static int try_line(void)
{
    uint8_t text[HOGUNLAS_LINE_BUFFER];
    memset(text, 0xA5, sizeof text);

    hogunlas_printed printed = hogunlas_line(example, sizeof example, 10, text, 0);
    if (printed.refusal != HOGUNLAS_NO_SUCH_LINE || printed.detail != 10)
        return wrong("line 10 is 17 at 10");
    printed = hogunlas_line(example, sizeof example, 0, text, 47);
    if (printed.refusal != HOGUNLAS_BUFFER_TOO_SHORT || printed.detail != 48)
        return wrong("a buffer of 47 bytes is 16 at 48");
    if (!kept(text, 0, sizeof text))
        return wrong("a refusal keeps the buffer");

    for (uint64_t i = 0; i < 10; i++) {
        memset(text, 0xA5, sizeof text);
        printed = hogunlas_line(example, sizeof example, i, text, sizeof text);
        if (printed.refusal != HOGUNLAS_ANSWERED || printed.detail != 0)
            return wrong("the example is printed");
        if (printed.length > sizeof text || !kept(text, (size_t)printed.length, sizeof text))
            return wrong("an answer keeps the later bytes");
        fwrite(text, 1, (size_t)printed.length, stdout);
    }
    return 0;
}

int main(void)
{
    if (try_judge() != 0)
        return 1;
    if (try_run_refused() != 0)
        return 1;
    if (try_run() != 0)
        return 1;
    if (try_run_by_thread() != 0)
        return 1;
    if (try_line() != 0)
        return 1;
    return 0;
}
