/* Pools with their two listings: choices are made from a fresh pool, and then temporaries of threads' first frames are bound. */
#include <stddef.h>
#include <stdint.h>
#include <stdio.h>

#include "longest.h"
#include "mezdaulk.h"

struct bound {
    unsigned thread, temporary;
    int32_t value;
};

struct listed {
    struct mezdaulk_choice choices[16];
    size_t choice_count;
    struct bound bound[6];
    size_t bound_count;
    const char *operators, *customers;
};

#define LISTED_STEP(thread) {MEZDAULK_STEP, thread}
#define LISTED_PROMOTE(thread) {MEZDAULK_PROMOTE, thread}

/* B: fresh, with its call promoted and the child ended, and joined. */
static const struct listed b_listed[] = {
    {{LISTED_STEP(0)}, 0, {{0, 0, 0}}, 0, "0 1 0 0 0 0 0\n", "0 1 0 0 0 0 0\n"},
    {{LISTED_STEP(0), LISTED_PROMOTE(0), LISTED_STEP(1)}, 3, {{0, 0, 0}}, 0,
     "0 1 0 1 0 1 1\n"
     " 1 1 1 0 1 0 0\n",
     "0 1 0 1 0 1 1\n"
     " 1 1 1 0 1 0 0 0 7\n"},
    {{LISTED_STEP(0), LISTED_PROMOTE(0), LISTED_STEP(1), LISTED_STEP(0)}, 4, {{0, 0, 0}}, 0,
     "0 1 0 3 0 0 0\n",
     "0 1 0 3 0 0 0 0 7\n"},
};

/* B that is not accepted: its main is stuck behind its spork, and is listed like any other. */
static const struct listed stuck_listed[] = {
    {{LISTED_STEP(0)}, 1, {{0, 0, 0}}, 0, "0 1 0 1 0 1 0\n", "0 1 0 1 0 1 0\n"},
};

/* The spawner: eight threads, each the child of the one before; the last has the greatest value in its last temporary. */
static const struct listed spawner_listed[] = {
    {{LISTED_STEP(0), LISTED_PROMOTE(0), LISTED_STEP(1), LISTED_PROMOTE(1), LISTED_STEP(2), LISTED_PROMOTE(2), LISTED_STEP(3),
      LISTED_PROMOTE(3), LISTED_STEP(4), LISTED_PROMOTE(4), LISTED_STEP(5), LISTED_PROMOTE(5), LISTED_STEP(6), LISTED_PROMOTE(6),
      LISTED_STEP(7)}, 15, {{7, 15, INT32_MAX}}, 1,
     "0 1 0 1 0 1 1\n"
     " 1 1 0 1 0 1 1\n"
     "  2 1 0 1 0 1 1\n"
     "   3 1 0 1 0 1 1\n"
     "    4 1 0 1 0 1 1\n"
     "     5 1 0 1 0 1 1\n"
     "      6 1 0 1 0 1 1\n"
     "       7 1 0 1 0 1 0\n",
     "0 1 0 1 0 1 1\n"
     " 1 1 0 1 0 1 1\n"
     "  2 1 0 1 0 1 1\n"
     "   3 1 0 1 0 1 1\n"
     "    4 1 0 1 0 1 1\n"
     "     5 1 0 1 0 1 1\n"
     "      6 1 0 1 0 1 1\n"
     "       7 1 0 1 0 1 0 15 2147483647\n"},
};

/* A main that calls itself, in its eighth frame: what is bound in its first is not shown. */
static const struct listed deep_listed[] = {
    {{LISTED_STEP(0), LISTED_STEP(0), LISTED_STEP(0), LISTED_STEP(0), LISTED_STEP(0), LISTED_STEP(0), LISTED_STEP(0)}, 7,
     {{0, 3, 33}}, 1, "0 8 0 0 0 0 0\n", "0 8 0 0 0 0 0\n"},
};

/* A main that opens two calls of itself, one in the other. */
static const uint8_t twice[] = {
    0x00, 0x00, 0x00, 0x37, 0x01, 0x01, 0x00, 0x00, 0x05, 0x01, 0x00, 0x00, 0x00, 0x00, 0x00, 0x00, 0x00, 0x04, 0x01,
    0x00, 0x00, 0x00, 0x00, 0x01, 0x00, 0x00, 0x04, 0x02, 0x00, 0x00, 0x00, 0x00, 0x02, 0x00, 0x00, 0x00, 0x05, 0x03,
    0x03, 0x00, 0x00, 0x00, 0x01, 0x00, 0x00, 0x05, 0x04, 0x04, 0x00, 0x00, 0x00, 0x00, 0x00, 0x03, 0x00,
};

/* Six threads of it: main's newer child has two children, and its older one has one. */
static const struct listed twice_listed[] = {
    {{LISTED_STEP(0), LISTED_STEP(0), LISTED_PROMOTE(0), LISTED_PROMOTE(0), LISTED_STEP(1), LISTED_STEP(1), LISTED_PROMOTE(1),
      LISTED_PROMOTE(1), LISTED_STEP(3), LISTED_STEP(4), LISTED_PROMOTE(4), LISTED_STEP(5), LISTED_STEP(5)}, 13,
     {{0, 0, -1}, {3, 9, INT32_MAX}, {3, 10, INT32_MIN}, {3, 15, 0}, {5, 1, 100}, {5, 2, -99}}, 6,
     "0 1 0 2 0 2 2\n"
     " 1 1 0 2 0 2 2\n"
     "  2 1 0 0 0 0 0\n"
     "  3 1 0 1 0 1 0\n"
     " 4 1 0 1 0 1 1\n"
     "  5 1 0 2 0 2 0\n",
     "0 1 0 2 0 2 2 0 -1\n"
     " 1 1 0 2 0 2 2\n"
     "  2 1 0 0 0 0 0\n"
     "  3 1 0 1 0 1 0 9 2147483647 10 -2147483648 15 0\n"
     " 4 1 0 1 0 1 1\n"
     "  5 1 0 2 0 2 0 1 100 2 -99\n"},
};

/* Makes the pool of a row, and tells how many of its choices were made. */
static size_t listed_pool(const uint8_t *table, size_t bytes, const struct listed *row, int32_t pool[MEZDAULK_POOL_WORDS]) {
    uint64_t made = 0;
    size_t k;
    mezdaulk_start(table, bytes, pool, MEZDAULK_POOL_WORDS);
    mezdaulk_schedule(table, bytes, pool, MEZDAULK_POOL_WORDS, row->choices, row->choice_count, &made);
    for (k = 0; k < row->bound_count; k++) {
        const size_t at = frame_start(row->bound[k].thread, 0);
        pool[at + 3] |= (int32_t)1 << row->bound[k].temporary;
        pool[at + 10 + row->bound[k].temporary] = row->bound[k].value;
    }
    return (size_t)made;
}

/* The listings of the longest lines. */
static void longest_listing(int customers, char out[MEZDAULK_LISTING_BYTES + 1]) {
    char *at = out;
    int i, k;
    for (i = 0; i < 8; i++) {
        at += sprintf(at, "%*s%d 1 15 10 10 1 %d", i, "", i, i < 7);
        for (k = 0; customers && k < 16; k++) {
            at += sprintf(at, " %d -2147483648", k);
        }
        at += sprintf(at, "\n");
    }
}
