/* Tables that work out one sum of two values: in a statement whose value main returns, or in an if, whose blocks are there or missing;
 * and one negation in a statement. */
#include <stdint.h>
#include <string.h>

#include "mezdaulk.h"

/* A sum and whether it fits in 32 bits. */
struct summed {
    int32_t m, n;
    int fits;
};

static const struct summed summed[] = {
    {INT32_MAX, 0, 1},          {INT32_MAX, 1, 0},  {INT32_MAX, -1, 1}, {INT32_MAX, INT32_MAX, 0}, {INT32_MAX - 1, 1, 1},
    {INT32_MAX - 1, 2, 0},      {1, INT32_MAX, 0},  {INT32_MIN, 0, 1},  {INT32_MIN, -1, 0},        {INT32_MIN, 1, 1},
    {INT32_MIN, INT32_MIN, 0},  {-1, INT32_MIN, 0}, {2, 3, 1},          {INT32_MIN + 1, -1, 1},    {INT32_MIN + 1, -2, 0},
    {INT32_MAX, INT32_MIN, 1},
};

/* Negations likewise; n has no part in them. */
static const struct summed negated[] = {{INT32_MIN, 0, 0}, {INT32_MIN + 1, 0, 1}, {INT32_MAX, 0, 1}, {0, 0, 1}};

#define NEGATIONS (sizeof negated / sizeof negated[0])
#define SUMS (sizeof summed / sizeof summed[0])

/* The most bytes that such a table has. */
#define SUM_ROOM 64

static void put_value(uint8_t *at, int32_t value) {
    const uint32_t bits = (uint32_t)value;
    at[0] = (uint8_t)(bits >> 24);
    at[1] = (uint8_t)(bits >> 16);
    at[2] = (uint8_t)(bits >> 8);
    at[3] = (uint8_t)bits;
}

/* Main sets temporary 0 to the sum and returns it. */
static size_t adding(uint8_t *table, int32_t m, int32_t n) {
    static const uint8_t code[] = {0, 0, 0, 30, 1, 1, 0, 1, 1, 0, 0, 0, 0, 0, 1, 0, 2, 0, 0, 0, 0, 0, 0, 0, 0, 0, 0, 3, 1, 0};
    memcpy(table, code, sizeof code);
    put_value(table + 18, m);
    put_value(table + 23, n);
    return sizeof code;
}

/* Main sets temporary 0 to the negation and returns it. */
static size_t negating(uint8_t *table, int32_t m) {
    static const uint8_t code[] = {0, 0, 0, 25, 1, 1, 0, 1, 1, 0, 0, 0, 0, 0, 1, 0, 1, 0, 0, 0, 0, 0, 3, 1, 0};
    memcpy(table, code, sizeof code);
    put_value(table + 18, m);
    return sizeof code;
}

/* Main goes by the sum to blocks 1 and 2, which are there and return nothing, or are missing. */
static size_t deciding(uint8_t *table, int32_t m, int32_t n, int missing) {
    static const uint8_t code[] = {0, 0, 0, 0, 1, 1, 0, 0, 3, 0, 0, 0, 0, 0, 0, 1, 2, 0, 0, 0, 0, 0, 0, 0, 0, 0, 0, 1, 2};
    static const uint8_t ends[] = {0, 0, 0, 0, 0, 3, 0, 0, 0, 0, 0, 0, 3, 0};
    size_t length = sizeof code;
    memcpy(table, code, length);
    if (missing) {
        table[8] = 1;
    } else {
        memcpy(table + length, ends, sizeof ends);
        length += sizeof ends;
    }
    table[3] = (uint8_t)length;
    put_value(table + 18, m);
    put_value(table + 23, n);
    return length;
}
