/* How many bytes of stack each call takes: the call runs on a thread whose stack was filled with one byte, and afterwards the lowest
 * byte that has changed is looked for. Every call is made at each state of a run of table B, the depth on lines of sixteen functions,
 * open and closed, the tidy table on such a line and on B with dead code, the completion of such a line, of B, and of B with a block that
 * is not reached or a spawn call that is missing, a run of beats with eight threads, listings of eight threads, each the child of the one
 * before, and with too little room too, and the most that it took is printed. MOST, and MOST_COMPLETE where 16,384 bytes are written
 * beforehand, are what docs/USING.md says; a call that takes more fails, and so does one that seems to take nothing. */
#define _POSIX_C_SOURCE 200809L
#include <pthread.h>
#include <stdio.h>
#include <stdlib.h>
#include <string.h>

#include "brief_b.h"
#include "line.h"
#include "longest.h"
#include "mezdaulk.h"
#include "spawner.h"
#include "table_b.h"

#define MOST 12288
#define MOST_COMPLETE 25600
#define STACK (256 * 1024)
#define PAINT 0xA5

static int32_t pool[MEZDAULK_POOL_WORDS];
static const struct mezdaulk_choice run[] = {{MEZDAULK_STEP, 0}, {MEZDAULK_PROMOTE, 0}, {MEZDAULK_STEP, 0},
                                             {MEZDAULK_STEP, 1}, {MEZDAULK_STEP, 0},    {MEZDAULK_STEP, 0}};
enum { RUN = sizeof run / sizeof run[0] };

/* How much of the run is made. */
static size_t at;

static uint64_t call_read(void) {
    return mezdaulk_read(table_b, sizeof table_b - (at & 1));
}

static uint64_t call_check(void) {
    return mezdaulk_check(table_b, sizeof table_b - (at & 1));
}

static uint64_t call_depth(void) {
    static uint8_t table[LINE_ROOM];
    const size_t bytes = line(table, LINE_FUNCTIONS, at & 1);
    return mezdaulk_depth(table, bytes);
}

static uint64_t call_tidy(void) {
    static uint8_t table[LINE_ROOM];
    static uint8_t out[LINE_ROOM];
    const size_t bytes = line(table, LINE_FUNCTIONS, 1);
    return at & 1 ? mezdaulk_tidy(untidy_b, sizeof untidy_b, out, sizeof out) : mezdaulk_tidy(table, bytes, out, bytes);
}

static uint64_t call_complete(void) {
    static uint8_t table[LINE_ROOM];
    static uint8_t out[MEZDAULK_OUTPUT_BYTES];
    static uint32_t scratch[MEZDAULK_SCRATCH_WORDS];
    size_t bytes = sizeof brief_b;
    memcpy(table, brief_b, sizeof brief_b);
    if (at % 4 == 0) {
        bytes = brief_line(table, LINE_FUNCTIONS);
    } else if (at % 4 == 1) {
        table[21] = 2; /* both sides of the spoin */
    } else if (at % 4 == 2) {
        table[16] = 1; /* the spork's spawn call */
    }
    return mezdaulk_complete(table, bytes, out, sizeof out, scratch, MEZDAULK_SCRATCH_WORDS);
}

static uint64_t call_start(void) {
    return mezdaulk_start(table_b, sizeof table_b, pool, MEZDAULK_POOL_WORDS);
}

static uint64_t call_choose(void) {
    return mezdaulk_choose(table_b, sizeof table_b, pool, MEZDAULK_POOL_WORDS, run[at].kind, run[at].thread);
}

static uint64_t call_which(void) {
    return mezdaulk_which(table_b, sizeof table_b, pool, MEZDAULK_POOL_WORDS);
}

static uint64_t call_values(void) {
    int32_t values[4];
    return mezdaulk_values(table_b, sizeof table_b, pool, MEZDAULK_POOL_WORDS, values);
}

static uint64_t call_schedule(void) {
    uint64_t made;
    return mezdaulk_schedule(table_b, sizeof table_b, pool, MEZDAULK_POOL_WORDS, run + at, RUN - at, &made);
}

/* A step earns more tokens than there can be threads. */
static uint64_t call_beat(void) {
    return mezdaulk_beat(table_b, sizeof table_b, pool, MEZDAULK_POOL_WORDS, run[at].thread, 1, 255);
}

static uint64_t call_run(void) {
    static const uint32_t threads[] = {0, 1, 0, 0};
    static int32_t own[MEZDAULK_POOL_WORDS];
    uint64_t made[2];
    if (at & 1) {
        return mezdaulk_run(table_b, sizeof table_b, pool, MEZDAULK_POOL_WORDS, 1, 255, threads, 4, made);
    }
    mezdaulk_start(spawner, sizeof spawner, own, MEZDAULK_POOL_WORDS);
    return mezdaulk_run(spawner, sizeof spawner, own, MEZDAULK_POOL_WORDS, 1, 1, spawner_threads, SPAWNER_THREADS, made);
}

/* A listing of the longest lines, of the run's pool, and of either with no room. */
static uint64_t list(uint64_t (*listing)(const uint8_t *, size_t, const int32_t *, size_t, uint8_t *, size_t)) {
    static uint8_t table[LONGEST_BYTES];
    static int32_t own[MEZDAULK_POOL_WORDS];
    static uint8_t out[MEZDAULK_LISTING_BYTES];
    const size_t room = at & 2 ? 0 : sizeof out;
    longest_table(table);
    longest_pool(own);
    return at & 1 ? listing(table_b, sizeof table_b, pool, MEZDAULK_POOL_WORDS, out, room)
                  : listing(table, sizeof table, own, MEZDAULK_POOL_WORDS, out, room);
}

static uint64_t call_operator(void) {
    return list(mezdaulk_operator);
}

static uint64_t call_customer(void) {
    return list(mezdaulk_customer);
}

struct job {
    const char *name;
    uint64_t (*call)(void);
    size_t most;
    const unsigned char *stack;
    size_t taken;
};

/* Runs the call, and looks how far below this frame the stack was written. */
static void *measure(void *given) {
    struct job *job = given;
    const unsigned char *here = __builtin_frame_address(0);
    const unsigned char *low = job->stack;
    volatile uint64_t answer = job->call();
    (void)answer;
    while (*low == PAINT) {
        low++;
    }
    job->taken = (size_t)(here - low);
    return NULL;
}

static void must(int failed, const char *what) {
    if (failed) {
        fprintf(stderr, "stack: %s failed\n", what);
        exit(2);
    }
}

/* The call on a fresh stack, with the pool as the run has left it. */
static size_t taken(struct job *job) {
    static _Alignas(4096) unsigned char stack[STACK];
    pthread_attr_t attributes;
    pthread_t thread;
    size_t k;
    memset(stack, PAINT, STACK);
    job->stack = stack;
    mezdaulk_start(table_b, sizeof table_b, pool, MEZDAULK_POOL_WORDS);
    for (k = 0; k < at; k++) {
        mezdaulk_choose(table_b, sizeof table_b, pool, MEZDAULK_POOL_WORDS, run[k].kind, run[k].thread);
    }
    must(pthread_attr_init(&attributes), "pthread_attr_init");
    must(pthread_attr_setstack(&attributes, stack, STACK), "pthread_attr_setstack");
    must(pthread_create(&thread, &attributes, measure, job), "pthread_create");
    must(pthread_join(thread, NULL), "pthread_join");
    pthread_attr_destroy(&attributes);
    return job->taken;
}

int main(void) {
    struct job jobs[] = {
        {"read", call_read, MOST, NULL, 0},     {"check", call_check, MOST, NULL, 0},
        {"depth", call_depth, MOST, NULL, 0},   {"tidy", call_tidy, MOST, NULL, 0},
        {"start", call_start, MOST, NULL, 0},   {"choose", call_choose, MOST, NULL, 0},
        {"which", call_which, MOST, NULL, 0},   {"values", call_values, MOST, NULL, 0},
        {"schedule", call_schedule, MOST, NULL, 0}, {"beat", call_beat, MOST, NULL, 0},
        {"run", call_run, MOST, NULL, 0},       {"operator", call_operator, MOST, NULL, 0},
        {"customer", call_customer, MOST, NULL, 0}, {"complete", call_complete, MOST_COMPLETE, NULL, 0},
    };
    int passed = 0, failed = 0;
    size_t k;
    for (k = 0; k < sizeof jobs / sizeof jobs[0]; k++) {
        size_t most = 0;
        for (at = 0; at < RUN; at++) {
            size_t here = taken(&jobs[k]);
            most = here > most ? here : most;
        }
        printf("mezdaulk_%s: %zu bytes of stack\n", jobs[k].name, most);
        if (0 < most && most <= jobs[k].most) {
            passed++;
        } else {
            failed++;
        }
    }
    printf("stack: %d passed, %d failed\n", passed, failed);
    return failed != 0;
}
