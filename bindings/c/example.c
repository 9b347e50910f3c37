/* Checks table B of document 01, writes it afresh, completes it from what has no scopes and nestings, and runs it, by beats, by the
 * first thread that can step and by choices: the spork's call is promoted and joined, and main returns 7. On the way its pool is listed
 * for an operator and for a customer, and its child is given a sum that overflows. Each answer is printed and held to what it must be;
 * the status is 1 if one is another. */
#include <inttypes.h>
#include <stdio.h>
#include <string.h>

#include "mezdaulk.h"

static const uint8_t table[] = {
    0x00, 0x00, 0x00, 0x48, 0x01, 0x02, 0x00, 0x01, 0x04, 0x01, 0x01, 0x00, 0x00, 0x00, 0x00, 0x00, 0x00, 0x04,
    0x01, 0x00, 0x00, 0x00, 0x00, 0x01, 0x00, 0x00, 0x05, 0x02, 0x03, 0x00, 0x00, 0x00, 0x00, 0x01, 0x00, 0x00,
    0x00, 0x00, 0x00, 0x00, 0x01, 0x03, 0x01, 0x00, 0x01, 0x00, 0x00, 0x00, 0x00, 0x00, 0x03, 0x01, 0x00, 0x00,
    0x01, 0x01, 0x00, 0x00, 0x00, 0x00, 0x00, 0x01, 0x00, 0x00, 0x00, 0x00, 0x00, 0x00, 0x07, 0x03, 0x01, 0x00,
};

/* B in version 2. */
static const uint8_t brief[] = {
    0x00, 0x00, 0x00, 0x38, 0x02, 0x02, 0x00, 0x01, 0x04, 0x01, 0x01, 0x00, 0x00, 0x00, 0x04, 0x01, 0x00, 0x00, 0x00,
    0x05, 0x02, 0x03, 0x00, 0x01, 0x00, 0x00, 0x00, 0x00, 0x00, 0x00, 0x01, 0x03, 0x01, 0x00, 0x01, 0x00, 0x00, 0x03,
    0x01, 0x00, 0x00, 0x01, 0x01, 0x00, 0x00, 0x01, 0x00, 0x00, 0x00, 0x00, 0x00, 0x00, 0x07, 0x03, 0x01, 0x00,
};

/* B with a statement before its spoin. */
static const uint8_t busy[] = {
    0x00, 0x00, 0x00, 0x4F, 0x01, 0x02, 0x00, 0x01, 0x04, 0x01, 0x01, 0x00, 0x00, 0x00, 0x00, 0x00, 0x00, 0x04, 0x01, 0x00,
    0x00, 0x00, 0x00, 0x01, 0x00, 0x01, 0x00, 0x00, 0x00, 0x00, 0x00, 0x00, 0x00, 0x05, 0x02, 0x03, 0x00, 0x00, 0x00, 0x00,
    0x01, 0x00, 0x00, 0x00, 0x00, 0x00, 0x00, 0x01, 0x03, 0x01, 0x00, 0x01, 0x00, 0x00, 0x00, 0x00, 0x00, 0x03, 0x01, 0x00,
    0x00, 0x01, 0x01, 0x00, 0x00, 0x00, 0x00, 0x00, 0x01, 0x00, 0x00, 0x00, 0x00, 0x00, 0x00, 0x07, 0x03, 0x01, 0x00,
};

static int wrong = 0;

static void hold(const char *what, int64_t found, int64_t due) {
    if (found != due) {
        printf("  %s is %" PRId64 " and must be %" PRId64 "\n", what, found, due);
        wrong = 1;
    }
}

/* An answer that is given, with its value. */
static void given(const char *call, uint64_t answer, uint32_t value) {
    printf("%s: given %" PRIu32 "\n", call, MEZDAULK_VALUE(answer));
    hold("given", MEZDAULK_GIVEN(answer), 1);
    hold("the value", MEZDAULK_VALUE(answer), value);
}

/* A refusal, with its number. */
static void refused(const char *call, uint64_t answer, unsigned number) {
    printf("%s: refused %u\n", call, MEZDAULK_NUMBER(answer));
    hold("given", MEZDAULK_GIVEN(answer), 0);
    hold("the number", MEZDAULK_NUMBER(answer), number);
}

static void four(const int32_t found[4], int32_t first) {
    hold("the first value", found[0], first);
    for (int k = 1; k < 4; k++) {
        hold("a value that is not given", found[k], -1);
    }
}

/* B is completed from version 2, which every other call refuses; a damaged one is refused with its place. */
static void complete(void) {
    static uint8_t out[MEZDAULK_OUTPUT_BYTES];
    static uint32_t scratch[MEZDAULK_SCRATCH_WORDS];
    uint8_t damaged[sizeof brief];
    uint64_t answer;
    size_t k;
    refused("check of version 2", mezdaulk_check(brief, sizeof brief), MEZDAULK_REFUSED_VERSION);
    answer = mezdaulk_complete(brief, sizeof brief, out, sizeof out, scratch, MEZDAULK_SCRATCH_WORDS - 1);
    refused("complete with too few words", answer, MEZDAULK_REFUSED_LENT);
    answer = mezdaulk_complete(brief, sizeof brief, out, sizeof out, scratch, MEZDAULK_SCRATCH_WORDS);
    given("complete", answer, (uint32_t)sizeof table);
    hold("the completed table, which is B,", memcmp(out, table, sizeof table), 0);
    for (k = sizeof table; k < sizeof out; k++) {
        hold("a byte behind it", out[k], 0);
    }
    memcpy(damaged, brief, sizeof brief);
    damaged[21] = 2; /* both sides of the spoin */
    answer = mezdaulk_complete(damaged, sizeof damaged, out, sizeof out, scratch, MEZDAULK_SCRATCH_WORDS);
    refused("complete with a block that is not reached", answer, MEZDAULK_REFUSED_UNREACHED);
    hold("the function", MEZDAULK_FUNCTION(answer), 0);
    hold("the block", MEZDAULK_BLOCK(answer), 3);
}

/* B is run by beats, with a token for every step: the first pays for the promotion, and the join brings the child's. */
static void beats(void) {
    static int32_t pool[MEZDAULK_POOL_WORDS];
    const size_t words = MEZDAULK_POOL_WORDS;
    const uint32_t threads[] = {1, 0, 0};
    int32_t values[4] = {-1, -1, -1, -1};
    uint64_t made[2] = {99, 99};
    uint64_t answer;
    given("start", mezdaulk_start(table, sizeof table, pool, words), 0);
    refused("beat 0 with no steps for a token", mezdaulk_beat(table, sizeof table, pool, words, 0, 0, 1), MEZDAULK_REFUSED_PACE);
    answer = mezdaulk_beat(table, sizeof table, pool, words, 0, 1, 1);
    given("beat 0", answer, MEZDAULK_RULE_SPORK + 256);
    hold("the rule", MEZDAULK_RULE(answer), MEZDAULK_RULE_SPORK);
    hold("the promotions", MEZDAULK_PROMOTIONS(answer), 1);
    answer = mezdaulk_run(table, sizeof table, pool, words, 1, 1, threads, 3, made);
    refused("beats 1, 0, 0", answer, MEZDAULK_REFUSED_ENDED);
    hold("the steps made", (int64_t)made[0], 2);
    hold("the promotions made", (int64_t)made[1], 0);
    hold("main's tokens", pool[3], 2);
    given("values", mezdaulk_values(table, sizeof table, pool, words, values), 1);
    four(values, 7);
}

/* A step that was made: its thread and its rule. */
struct step {
    uint32_t thread, rule;
};

/* Steps of the first thread that can step, until there is none or so many are made; tells how many were. */
static size_t by_first(const uint8_t *code, size_t bytes, int32_t *pool, struct step *steps, size_t most) {
    size_t made;
    for (made = 0; made < most; made++) {
        const uint64_t first = mezdaulk_which(code, bytes, pool, MEZDAULK_POOL_WORDS);
        const uint32_t thread = MEZDAULK_VALUE(first);
        if (!MEZDAULK_GIVEN(first) || thread == MEZDAULK_NO_THREAD) {
            break;
        }
        steps[made].thread = thread;
        steps[made].rule = MEZDAULK_VALUE(mezdaulk_choose(code, bytes, pool, MEZDAULK_POOL_WORDS, MEZDAULK_STEP, thread));
    }
    return made;
}

/* A pool with a promoted child is run by the first, and a second time in two parts: the same steps, words and result. */
static void same_order(const uint8_t *code, size_t bytes, const struct step *due, size_t count) {
    static int32_t whole[MEZDAULK_POOL_WORDS], parts[MEZDAULK_POOL_WORDS];
    const struct mezdaulk_choice choices[] = {{MEZDAULK_STEP, 0}, {MEZDAULK_PROMOTE, 0}};
    const size_t words = MEZDAULK_POOL_WORDS;
    struct step steps[4] = {{0, 0}}, same[4] = {{0, 0}};
    int32_t values[4] = {-1, -1, -1, -1};
    uint64_t made;
    size_t k;
    given("start", mezdaulk_start(code, bytes, whole, words), 0);
    given("step 0, promote 0", mezdaulk_schedule(code, bytes, whole, words, choices, 2, &made), 0);
    memcpy(parts, whole, sizeof whole);
    hold("the steps by the first", (int64_t)by_first(code, bytes, whole, steps, 4), (int64_t)count);
    hold("one step by the first", (int64_t)by_first(code, bytes, parts, same, 1), 1);
    hold("the steps after it", (int64_t)by_first(code, bytes, parts, same + 1, 3), (int64_t)count - 1);
    for (k = 0; k < count; k++) {
        printf("by the first: step %" PRIu32 " made rule %" PRIu32 "\n", steps[k].thread, steps[k].rule);
        hold("its thread", steps[k].thread, due[k].thread);
        hold("its rule", steps[k].rule, due[k].rule);
        hold("its thread in two parts", same[k].thread, due[k].thread);
        hold("its rule in two parts", same[k].rule, due[k].rule);
    }
    hold("the words in two parts", memcmp(parts, whole, sizeof whole), 0);
    given("values", mezdaulk_values(code, bytes, whole, words, values), 1);
    four(values, 7);
}

/* In B main waits for its child; in the other table both can step. */
static void orders(void) {
    const struct step due[] = {{0, MEZDAULK_RULE_STMT}, {1, MEZDAULK_RULE_STMT}, {0, MEZDAULK_RULE_PROM}};
    same_order(table, sizeof table, due + 1, 2);
    same_order(busy, sizeof busy, due, 3);
}

/* A call that lists a pool. */
typedef uint64_t listing(const uint8_t *, size_t, const int32_t *, size_t, uint8_t *, size_t);

/* A listing of a pool of B is these bytes: an output that is one byte shorter is refused, and stays; behind the listing it stays too. */
static void lists(const char *whose, listing *call, const int32_t *pool, const char *due) {
    uint8_t out[MEZDAULK_LISTING_BYTES], kept[MEZDAULK_LISTING_BYTES];
    const size_t words = MEZDAULK_POOL_WORDS, length = strlen(due);
    memset(out, '.', sizeof out);
    memcpy(kept, out, sizeof out);
    refused("a listing with too little room", call(table, sizeof table, pool, words, out, length - 1), MEZDAULK_REFUSED_LISTING);
    hold("the output", memcmp(out, kept, sizeof out), 0);
    given(whose, call(table, sizeof table, pool, words, out, sizeof out), (uint32_t)length);
    fwrite(out, 1, length, stdout);
    hold("the listing", memcmp(out, due, length), 0);
    hold("the output behind it", memcmp(out + length, kept + length, sizeof out - length), 0);
}

/* B's child has ended with a value: the customer sees it, and the operator sees the same whatever it is. */
static void listings(void) {
    static int32_t pool[MEZDAULK_POOL_WORDS];
    const struct mezdaulk_choice choices[] = {{MEZDAULK_STEP, 0}, {MEZDAULK_PROMOTE, 0}, {MEZDAULK_STEP, 1}};
    const char *operators = "0 1 0 1 0 1 1\n 1 1 1 0 1 0 0\n";
    uint64_t made;
    given("start", mezdaulk_start(table, sizeof table, pool, MEZDAULK_POOL_WORDS), 0);
    given("step 0, promote 0, step 1", mezdaulk_schedule(table, sizeof table, pool, MEZDAULK_POOL_WORDS, choices, 3, &made), 0);
    lists("the operator's listing", mezdaulk_operator, pool, operators);
    lists("the customer's listing", mezdaulk_customer, pool, "0 1 0 1 0 1 1\n 1 1 1 0 1 0 0 0 7\n");
    pool[225] = INT32_MIN; /* temporary 0 of thread 1 */
    lists("the operator's listing", mezdaulk_operator, pool, operators);
    lists("the customer's listing", mezdaulk_customer, pool, "0 1 0 1 0 1 1\n 1 1 1 0 1 0 0 0 -2147483648\n");
}

/* The number for which a thread keeps the pool standing where none can step: 18 or 29; 0 if no thread does. */
static unsigned standing(const uint8_t *code, size_t bytes, int32_t *pool, uint32_t *thread) {
    for (*thread = 0; *thread < MEZDAULK_NO_THREAD; ++*thread) {
        const uint64_t step = mezdaulk_choose(code, bytes, pool, MEZDAULK_POOL_WORDS, MEZDAULK_STEP, *thread);
        const unsigned number = MEZDAULK_GIVEN(step) ? 0 : MEZDAULK_NUMBER(step);
        if (number == MEZDAULK_REFUSED_FRAMES || number == MEZDAULK_REFUSED_OVERFLOW) {
            return number;
        }
    }
    return 0;
}

/* B, whose child works out 2147483647 + 1 in place of 7: the child overflows, and main waits for it. */
static void overflows(void) {
    static const uint8_t sum[] = {2, 0, 0x7F, 0xFF, 0xFF, 0xFF, 0, 0, 0, 0, 1, 3, 1, 0};
    static int32_t pool[MEZDAULK_POOL_WORDS], before[MEZDAULK_POOL_WORDS];
    const struct mezdaulk_choice choices[] = {{MEZDAULK_STEP, 0}, {MEZDAULK_PROMOTE, 0}, {MEZDAULK_STEP, 1}};
    const size_t words = MEZDAULK_POOL_WORDS, same = 63, bytes = same + sizeof sum;
    uint8_t code[sizeof table + sizeof sum];
    int32_t values[4] = {-1, -1, -1, -1};
    uint64_t made = 99;
    uint32_t thread;
    memcpy(code, table, same);
    memcpy(code + same, sum, sizeof sum);
    code[3] = (uint8_t)bytes;
    given("check of a table that overflows", mezdaulk_check(code, bytes), 0);
    given("start", mezdaulk_start(code, bytes, pool, words), 0);
    refused("step 0, promote 0, step 1", mezdaulk_schedule(code, bytes, pool, words, choices, 3, &made), MEZDAULK_REFUSED_OVERFLOW);
    hold("the number made", (int64_t)made, 2);
    memcpy(before, pool, sizeof before);
    refused("step 0", mezdaulk_choose(code, bytes, pool, words, MEZDAULK_STEP, 0), MEZDAULK_REFUSED_WAITS);
    refused("beat 1", mezdaulk_beat(code, bytes, pool, words, 1, 1, 1), MEZDAULK_REFUSED_OVERFLOW);
    given("which", mezdaulk_which(code, bytes, pool, words), MEZDAULK_NO_THREAD);
    given("values", mezdaulk_values(code, bytes, pool, words, values), MEZDAULK_OPEN);
    four(values, -1);
    hold("the number of the standing", standing(code, bytes, pool, &thread), MEZDAULK_REFUSED_OVERFLOW);
    hold("its thread", thread, 1);
    hold("the words", memcmp(pool, before, sizeof before), 0);
}

int main(void) {
    static int32_t pool[MEZDAULK_POOL_WORDS];
    uint8_t damaged[sizeof table];
    uint8_t tidy[sizeof table];
    const size_t bytes = sizeof table;
    const size_t words = MEZDAULK_POOL_WORDS;
    const struct mezdaulk_choice choices[] = {{MEZDAULK_STEP, 1}, {MEZDAULK_STEP, 0}, {MEZDAULK_STEP, 0}};
    int32_t values[4] = {-1, -1, -1, -1};
    uint64_t made = 99;
    uint64_t answer;

    memcpy(damaged, table, bytes);
    damaged[5] = 0;
    answer = mezdaulk_read(damaged, bytes);
    refused("read with no function", answer, MEZDAULK_REFUSED_FORM);
    hold("the place", MEZDAULK_PLACE(answer), 5);
    given("read", mezdaulk_read(table, bytes), 0);
    given("check", mezdaulk_check(table, bytes), 0);
    given("depth", mezdaulk_depth(table, bytes), 1);
    refused("tidy with too little room", mezdaulk_tidy(table, bytes, tidy, bytes - 1), MEZDAULK_REFUSED_ROOM);
    given("tidy", mezdaulk_tidy(table, bytes, tidy, sizeof tidy), (uint32_t)bytes);
    hold("the tidy table, which B is already,", memcmp(tidy, table, bytes), 0);
    complete();
    beats();
    orders();
    listings();
    overflows();

    refused("start with no words", mezdaulk_start(table, bytes, NULL, 0), MEZDAULK_REFUSED_WORDS);
    given("start", mezdaulk_start(table, bytes, pool, words), 0);
    given("which", mezdaulk_which(table, bytes, pool, words), 0);
    given("values", mezdaulk_values(table, bytes, pool, words, values), MEZDAULK_OPEN);
    four(values, -1);

    given("step 0", mezdaulk_choose(table, bytes, pool, words, MEZDAULK_STEP, 0), MEZDAULK_RULE_SPORK);
    given("promote 0", mezdaulk_choose(table, bytes, pool, words, MEZDAULK_PROMOTE, 0), MEZDAULK_RULE_PROMOTE);
    refused("step 0", mezdaulk_choose(table, bytes, pool, words, MEZDAULK_STEP, 0), MEZDAULK_REFUSED_WAITS);
    given("which", mezdaulk_which(table, bytes, pool, words), 1);

    answer = mezdaulk_schedule(table, bytes, pool, words, choices, 3, &made);
    refused("step 1, step 0, step 0", answer, MEZDAULK_REFUSED_ENDED);
    hold("the number made", (int64_t)made, 2);
    given("which", mezdaulk_which(table, bytes, pool, words), MEZDAULK_NO_THREAD);
    given("values", mezdaulk_values(table, bytes, pool, words, values), 1);
    four(values, 7);
    printf("result %" PRId32 "\n", values[0]);
    return wrong;
}
