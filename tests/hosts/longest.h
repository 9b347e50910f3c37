/* A pool whose listings have the longest lines. */
#include <stddef.h>
#include <stdint.h>
#include <string.h>

#include "mezdaulk.h"

/* Where frame j of thread i begins. */
static size_t frame_start(size_t i, size_t j) {
    return 4 + 211 * i + 26 * j;
}

/* Sixteen functions, of which the last has eleven blocks, of which the last has ten statements; and a spawn call of itself. */
enum { LONGEST_BYTES = 6 + 15 * 11 + 4 + 2 + 10 * 7 + 5 + 10 * 7 + 2 };

static void longest_table(uint8_t table[LONGEST_BYTES]) {
    static const uint8_t header[] = {0, 0, LONGEST_BYTES >> 8, LONGEST_BYTES & 255, 1, 16};
    static const uint8_t function[] = {0, 0, 1, 0, 0, 0, 0, 0, 0, 3, 0};
    static const uint8_t last[] = {0, 0, 11, 1, 15, 0};
    static const uint8_t block[] = {0, 0, 0, 0, 0, 3, 0};
    static const uint8_t head[] = {0, 0, 0, 0, 10};
    static const uint8_t statement[] = {0, 0, 0, 0, 0, 0, 0};
    uint8_t *at = table;
    int k;
    memcpy(at, header, sizeof header);
    at += sizeof header;
    for (k = 0; k < 15; k++, at += sizeof function) {
        memcpy(at, function, sizeof function);
    }
    memcpy(at, last, sizeof last);
    at += sizeof last;
    for (k = 0; k < 10; k++, at += sizeof block) {
        memcpy(at, block, sizeof block);
    }
    memcpy(at, head, sizeof head);
    at += sizeof head;
    for (k = 0; k < 10; k++, at += sizeof statement) {
        memcpy(at, statement, sizeof statement);
    }
    memcpy(at, block + 5, 2);
}

/* Eight threads of it, each the child of the one before, whose lines are as long as lines can be so deep: everything is bound, to the
 * value with the most digits. */
static void longest_pool(int32_t pool[MEZDAULK_POOL_WORDS]) {
    size_t i, k;
    memset(pool, 0, MEZDAULK_POOL_WORDS * sizeof(int32_t));
    pool[0] = 8;
    for (i = 0; i < 8; i++) {
        int32_t *frame = pool + frame_start(i, 0);
        pool[1 + 211 * i] = 1;
        frame[0] = 15;
        frame[1] = 10;
        frame[2] = 10;
        frame[3] = 0xFFFF;
        frame[4] = 1;
        frame[5] = i < 7;
        for (k = 0; k < 16; k++) {
            frame[10 + k] = INT32_MIN;
        }
    }
}
