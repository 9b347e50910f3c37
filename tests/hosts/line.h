/* A line of 1 to 16 functions without values: each but the last calls the next. Where it is closed, the last calls the first. */
#include <stddef.h>
#include <stdint.h>
#include <string.h>

#define LINE_FUNCTIONS 16
#define LINE_ROOM (6 + 20 * LINE_FUNCTIONS)

/* Writes the table and gives its length. */
static size_t line(uint8_t table[LINE_ROOM], unsigned functions, int closed) {
    static const uint8_t calls[] = {0, 0, 2, 0, 0, 0, 0, 0, 0, 2, 0, 0, 1, 0, 0, 0, 0, 0, 3, 0};
    static const uint8_t returns[] = {0, 0, 1, 0, 0, 0, 0, 0, 0, 3, 0};
    size_t bytes = 6;
    unsigned f;
    for (f = 0; f < functions; f++) {
        if (f + 1 < functions || closed) {
            memcpy(table + bytes, calls, sizeof calls);
            table[bytes + 10] = (uint8_t)((f + 1) % functions);
            bytes += sizeof calls;
        } else {
            memcpy(table + bytes, returns, sizeof returns);
            bytes += sizeof returns;
        }
    }
    table[0] = 0;
    table[1] = 0;
    table[2] = (uint8_t)(bytes >> 8);
    table[3] = (uint8_t)bytes;
    table[4] = 1;
    table[5] = (uint8_t)functions;
    return bytes;
}

/* Writes an open line in version 2, and gives its length. */
static size_t brief_line(uint8_t table[LINE_ROOM], unsigned functions) {
    static const uint8_t calls[] = {0, 0, 2, 0, 0, 0, 2, 0, 0, 1, 0, 0, 3, 0};
    static const uint8_t returns[] = {0, 0, 1, 0, 0, 0, 3, 0};
    size_t bytes = 6;
    unsigned f;
    for (f = 1; f < functions; f++) {
        memcpy(table + bytes, calls, sizeof calls);
        table[bytes + 7] = (uint8_t)f;
        bytes += sizeof calls;
    }
    memcpy(table + bytes, returns, sizeof returns);
    bytes += sizeof returns;
    table[0] = 0;
    table[1] = 0;
    table[2] = (uint8_t)(bytes >> 8);
    table[3] = (uint8_t)bytes;
    table[4] = 2;
    table[5] = (uint8_t)functions;
    return bytes;
}
