/* Runs along which it is asked which thread can step: after each choice, which is made by the rule, the answer that is due. */
#include <stdint.h>

#include "mezdaulk.h"

struct asked {
    struct mezdaulk_choice choice;
    uint32_t rule, which;
};

/* B with a statement before its spoin: once the spork is promoted both threads can step, then main waits (17), and at last it has ended. */
static const uint8_t busy_b[] = {
    0x00, 0x00, 0x00, 0x4F, 0x01, 0x02, 0x00, 0x01, 0x04, 0x01, 0x01, 0x00, 0x00, 0x00, 0x00, 0x00, 0x00, 0x04, 0x01, 0x00,
    0x00, 0x00, 0x00, 0x01, 0x00, 0x01, 0x00, 0x00, 0x00, 0x00, 0x00, 0x00, 0x00, 0x05, 0x02, 0x03, 0x00, 0x00, 0x00, 0x00,
    0x01, 0x00, 0x00, 0x00, 0x00, 0x00, 0x00, 0x01, 0x03, 0x01, 0x00, 0x01, 0x00, 0x00, 0x00, 0x00, 0x00, 0x03, 0x01, 0x00,
    0x00, 0x01, 0x01, 0x00, 0x00, 0x00, 0x00, 0x00, 0x01, 0x00, 0x00, 0x00, 0x00, 0x00, 0x00, 0x07, 0x03, 0x01, 0x00,
};

static const struct asked busy_asked[] = {
    {{MEZDAULK_STEP, 0}, MEZDAULK_RULE_SPORK, 0}, {{MEZDAULK_PROMOTE, 0}, MEZDAULK_RULE_PROMOTE, 0},
    {{MEZDAULK_STEP, 0}, MEZDAULK_RULE_STMT, 1},  {{MEZDAULK_STEP, 1}, MEZDAULK_RULE_STMT, 0},
    {{MEZDAULK_STEP, 0}, MEZDAULK_RULE_PROM, MEZDAULK_NO_THREAD},
};

/* B with a goto to a block that is missing in place of its spoin, which is not accepted: main is stuck behind its spork (19). */
static const uint8_t stuck_b[] = {
    0x00, 0x00, 0x00, 0x48, 0x01, 0x02, 0x00, 0x01, 0x04, 0x01, 0x01, 0x00, 0x00, 0x00, 0x00, 0x00, 0x00, 0x04,
    0x01, 0x00, 0x00, 0x00, 0x00, 0x01, 0x00, 0x00, 0x00, 0x09, 0x00, 0x00, 0x00, 0x00, 0x00, 0x01, 0x00, 0x00,
    0x00, 0x00, 0x00, 0x00, 0x01, 0x03, 0x01, 0x00, 0x01, 0x00, 0x00, 0x00, 0x00, 0x00, 0x03, 0x01, 0x00, 0x00,
    0x01, 0x01, 0x00, 0x00, 0x00, 0x00, 0x00, 0x01, 0x00, 0x00, 0x00, 0x00, 0x00, 0x00, 0x07, 0x03, 0x01, 0x00,
};

static const struct asked stuck_asked[] = {
    {{MEZDAULK_STEP, 0}, MEZDAULK_RULE_SPORK, MEZDAULK_NO_THREAD},
    {{MEZDAULK_PROMOTE, 0}, MEZDAULK_RULE_PROMOTE, 1},
    {{MEZDAULK_STEP, 1}, MEZDAULK_RULE_STMT, MEZDAULK_NO_THREAD},
};

/* The spawner: each thread waits for the next, and the last alone can step, until it has ended and its parent joins it. */
static const struct asked spawner_asked[] = {
    {{MEZDAULK_STEP, 0}, MEZDAULK_RULE_SPORK, 0}, {{MEZDAULK_PROMOTE, 0}, MEZDAULK_RULE_PROMOTE, 1},
    {{MEZDAULK_STEP, 1}, MEZDAULK_RULE_SPORK, 1}, {{MEZDAULK_PROMOTE, 1}, MEZDAULK_RULE_PROMOTE, 2},
    {{MEZDAULK_STEP, 2}, MEZDAULK_RULE_SPORK, 2}, {{MEZDAULK_PROMOTE, 2}, MEZDAULK_RULE_PROMOTE, 3},
    {{MEZDAULK_STEP, 3}, MEZDAULK_RULE_SPORK, 3}, {{MEZDAULK_PROMOTE, 3}, MEZDAULK_RULE_PROMOTE, 4},
    {{MEZDAULK_STEP, 4}, MEZDAULK_RULE_SPORK, 4}, {{MEZDAULK_PROMOTE, 4}, MEZDAULK_RULE_PROMOTE, 5},
    {{MEZDAULK_STEP, 5}, MEZDAULK_RULE_SPORK, 5}, {{MEZDAULK_PROMOTE, 5}, MEZDAULK_RULE_PROMOTE, 6},
    {{MEZDAULK_STEP, 6}, MEZDAULK_RULE_SPORK, 6}, {{MEZDAULK_PROMOTE, 6}, MEZDAULK_RULE_PROMOTE, 7},
    {{MEZDAULK_STEP, 7}, MEZDAULK_RULE_SPORK, 7}, {{MEZDAULK_STEP, 7}, MEZDAULK_RULE_UNPR, 6},
    {{MEZDAULK_STEP, 6}, MEZDAULK_RULE_PROM, 5},  {{MEZDAULK_STEP, 5}, MEZDAULK_RULE_PROM, 4},
    {{MEZDAULK_STEP, 4}, MEZDAULK_RULE_PROM, 3},  {{MEZDAULK_STEP, 3}, MEZDAULK_RULE_PROM, 2},
    {{MEZDAULK_STEP, 2}, MEZDAULK_RULE_PROM, 1},  {{MEZDAULK_STEP, 1}, MEZDAULK_RULE_PROM, 0},
    {{MEZDAULK_STEP, 0}, MEZDAULK_RULE_PROM, MEZDAULK_NO_THREAD},
};

/* A main that calls itself: at its eighth frame it gets 18. */
static const struct asked deep_asked[] = {
    {{MEZDAULK_STEP, 0}, MEZDAULK_RULE_CALL, 0}, {{MEZDAULK_STEP, 0}, MEZDAULK_RULE_CALL, 0},
    {{MEZDAULK_STEP, 0}, MEZDAULK_RULE_CALL, 0}, {{MEZDAULK_STEP, 0}, MEZDAULK_RULE_CALL, 0},
    {{MEZDAULK_STEP, 0}, MEZDAULK_RULE_CALL, 0}, {{MEZDAULK_STEP, 0}, MEZDAULK_RULE_CALL, 0},
    {{MEZDAULK_STEP, 0}, MEZDAULK_RULE_CALL, MEZDAULK_NO_THREAD},
};

/* B with the statement 2147483647 + 1 before its spoin: main overflows behind its spork (29), and its child can be promoted and ends. */
static const uint8_t over_b[] = {
    0x00, 0x00, 0x00, 0x54, 0x01, 0x02, 0x00, 0x01, 0x04, 0x01, 0x01, 0x00, 0x00, 0x00, 0x00, 0x00, 0x00, 0x04, 0x01, 0x00,
    0x00, 0x00, 0x00, 0x01, 0x00, 0x01, 0x00, 0x02, 0x00, 0x7F, 0xFF, 0xFF, 0xFF, 0x00, 0x00, 0x00, 0x00, 0x01, 0x05, 0x02,
    0x03, 0x00, 0x00, 0x00, 0x00, 0x01, 0x00, 0x00, 0x00, 0x00, 0x00, 0x00, 0x01, 0x03, 0x01, 0x00, 0x01, 0x00, 0x00, 0x00,
    0x00, 0x00, 0x03, 0x01, 0x00, 0x00, 0x01, 0x01, 0x00, 0x00, 0x00, 0x00, 0x00, 0x01, 0x00, 0x00, 0x00, 0x00, 0x00, 0x00,
    0x07, 0x03, 0x01, 0x00,
};

static const struct asked over_asked[] = {
    {{MEZDAULK_STEP, 0}, MEZDAULK_RULE_SPORK, MEZDAULK_NO_THREAD},
    {{MEZDAULK_PROMOTE, 0}, MEZDAULK_RULE_PROMOTE, 1},
    {{MEZDAULK_STEP, 1}, MEZDAULK_RULE_STMT, MEZDAULK_NO_THREAD},
};
