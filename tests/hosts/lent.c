/* What the header says of lent memory, tried on the archive. Pointers with a count of 0 are NULL, or point nowhere; and everything that
 * is lent stands directly before or behind a page that can be neither read nor written, so that a touch outside of it ends the program.
 * The last line is 'lent: N passed, M failed'. */
#define _DEFAULT_SOURCE
#include <stdio.h>
#include <stdlib.h>
#include <string.h>
#include <sys/mman.h>
#include <unistd.h>

#include "asked.h"
#include "brief_b.h"
#include "line.h"
#include "listed.h"
#include "mezdaulk.h"
#include "overflow.h"
#include "spawner.h"
#include "table_b.h"

#define REFUSED(number) ((uint64_t)(number))
#define GIVEN(value) ((UINT64_C(1) << 32) + (value))

static int passed, failed;

static void hold(const char *what, uint64_t found, uint64_t due) {
    if (found == due) {
        passed++;
    } else {
        failed++;
        printf("%s: %#llx, and %#llx is due\n", what, (unsigned long long)found, (unsigned long long)due);
    }
}

/* Memory between two pages that cannot be touched. */
struct fenced {
    unsigned char *first;
    size_t room;
};

enum side { BEHIND_A_FENCE, BEFORE_A_FENCE, SIDES };

static struct fenced fenced(size_t bytes) {
    const size_t page = (size_t)sysconf(_SC_PAGESIZE);
    struct fenced fence;
    unsigned char *all;
    fence.room = (bytes + page - 1) / page * page;
    all = mmap(NULL, fence.room + 2 * page, PROT_READ | PROT_WRITE, MAP_PRIVATE | MAP_ANONYMOUS, -1, 0);
    if (all == MAP_FAILED || mprotect(all, page, PROT_NONE) || mprotect(all + page + fence.room, page, PROT_NONE)) {
        perror("lent");
        exit(2);
    }
    fence.first = all + page;
    return fence;
}

/* The place of so many bytes, at one of the fences; they hold these bytes, where there are any. */
static void *place(struct fenced fence, enum side side, const void *content, size_t bytes) {
    unsigned char *at = side == BEFORE_A_FENCE ? fence.first + fence.room - bytes : fence.first;
    if (content != NULL) {
        memcpy(at, content, bytes);
    }
    return at;
}

/* A pointer with its count: something, or nothing at all. */
static const uint8_t *table;
static size_t bytes;
static int32_t *pool;
static size_t words;
static const struct mezdaulk_choice *choices;
static size_t count;
static const uint32_t *threads;
static size_t thread_count;
static uint8_t *out;
static size_t room;
static const uint8_t *brief;
static size_t brief_bytes;
static uint32_t *scratch;
static size_t scratch_words;

/* What a call on the table, on the table and the output, on the table and the pool, and on all three answers where it is refused for them;
 * or what is due otherwise. */
static uint64_t of_table(uint64_t due) {
    return bytes == 0 ? REFUSED(MEZDAULK_REFUSED_SIZE) : due;
}

static uint64_t of_output(uint64_t due) {
    return of_table(room == 0 ? REFUSED(MEZDAULK_REFUSED_ROOM) : due);
}

static uint64_t of_pool(uint64_t due) {
    return of_table(words == 0 ? REFUSED(MEZDAULK_REFUSED_WORDS) : due);
}

static uint64_t of_listing(uint64_t due) {
    return of_pool(room == 0 ? REFUSED(MEZDAULK_REFUSED_LISTING) : due);
}

/* Every call, with what is lent now; a pool that is there is fresh, and so is it afterwards. */
static void every_call(void) {
    int32_t values[4] = {-1, -1, -1, -1};
    uint64_t made = 99;
    uint64_t ran[2] = {99, 99};
    const int all = bytes != 0 && words != 0;
    hold("read", mezdaulk_read(table, bytes), of_table(GIVEN(0)));
    hold("check", mezdaulk_check(table, bytes), of_table(GIVEN(0)));
    hold("depth", mezdaulk_depth(table, bytes), of_table(GIVEN(1)));
    hold("tidy", mezdaulk_tidy(table, bytes, out, room), of_output(GIVEN(sizeof table_b)));
    hold("start", mezdaulk_start(table, bytes, pool, words), of_pool(GIVEN(0)));
    hold("which", mezdaulk_which(table, bytes, pool, words), of_pool(GIVEN(0)));
    hold("values", mezdaulk_values(table, bytes, pool, words, values), of_pool(GIVEN(MEZDAULK_OPEN)));
    hold("a value", (uint64_t)values[0], (uint64_t)-1);
    hold("operator", mezdaulk_operator(table, bytes, pool, words, out, room), of_listing(GIVEN(14)));
    hold("customer", mezdaulk_customer(table, bytes, pool, words, out, room), of_listing(GIVEN(14)));
    hold("schedule", mezdaulk_schedule(table, bytes, pool, words, choices, count, &made), of_pool(GIVEN(0)));
    hold("made", made, all ? count : 0);
    hold("start again", mezdaulk_start(table, bytes, pool, words), of_pool(GIVEN(0)));
    hold("choose", mezdaulk_choose(table, bytes, pool, words, MEZDAULK_STEP, 0), of_pool(GIVEN(MEZDAULK_RULE_SPORK)));
    hold("start once more", mezdaulk_start(table, bytes, pool, words), of_pool(GIVEN(0)));
    hold("run with no pace", mezdaulk_run(table, bytes, pool, words, 0, 1, threads, thread_count, ran),
         of_pool(REFUSED(MEZDAULK_REFUSED_PACE)));
    hold("steps of no pace", ran[0], 0);
    hold("promotions of no pace", ran[1], 0);
    ran[0] = ran[1] = 99;
    hold("run", mezdaulk_run(table, bytes, pool, words, 1, 1, threads, thread_count, ran), of_pool(GIVEN(0)));
    hold("steps", ran[0], all ? thread_count : 0);
    hold("promotions", ran[1], all && thread_count > 0 ? 1 : 0);
    hold("start at last", mezdaulk_start(table, bytes, pool, words), of_pool(GIVEN(0)));
    hold("beat", mezdaulk_beat(table, bytes, pool, words, 0, 1, 1), of_pool(GIVEN(MEZDAULK_RULE_SPORK + 256)));
}

/* All combinations of something and nothing, where nothing is this address. */
static void nothing_at(uintptr_t address) {
    static int32_t some_pool[MEZDAULK_POOL_WORDS];
    static const struct mezdaulk_choice some_choices[] = {{MEZDAULK_STEP, 0}, {MEZDAULK_PROMOTE, 0}};
    static const uint32_t some_threads[] = {0, 1};
    static uint8_t some_output[sizeof table_b];
    int which;
    for (which = 0; which < 32; which++) {
        const int has_table = which & 1, has_pool = which & 2, has_choices = which & 4, has_output = which & 8, has_threads = which & 16;
        table = has_table ? table_b : (const uint8_t *)address;
        bytes = has_table ? sizeof table_b : 0;
        pool = has_pool ? some_pool : (int32_t *)address;
        words = has_pool ? MEZDAULK_POOL_WORDS : 0;
        choices = has_choices ? some_choices : (const struct mezdaulk_choice *)address;
        count = has_choices ? 2 : 0;
        out = has_output ? some_output : (uint8_t *)address;
        room = has_output ? sizeof some_output : 0;
        threads = has_threads ? some_threads : (const uint32_t *)address;
        thread_count = has_threads ? 2 : 0;
        every_call();
    }
}

/* The completion, with what is lent now. */
static void completion(void) {
    const int right = room == MEZDAULK_OUTPUT_BYTES && scratch_words >= MEZDAULK_SCRATCH_WORDS;
    const uint64_t answer = mezdaulk_complete(brief, brief_bytes, out, room, scratch, scratch_words);
    if (brief_bytes == 0) {
        hold("complete", answer, REFUSED(MEZDAULK_REFUSED_SIZE));
    } else {
        hold("complete", answer, right ? GIVEN(sizeof table_b) : REFUSED(MEZDAULK_REFUSED_LENT));
    }
}

/* The same for a completion. */
static void nothing_to_complete_at(uintptr_t address) {
    static uint8_t some_output[MEZDAULK_OUTPUT_BYTES];
    static uint32_t some_scratch[MEZDAULK_SCRATCH_WORDS];
    int which;
    for (which = 0; which < 8; which++) {
        const int has_table = which & 1, has_output = which & 2, has_scratch = which & 4;
        brief = has_table ? brief_b : (const uint8_t *)address;
        brief_bytes = has_table ? sizeof brief_b : 0;
        out = has_output ? some_output : (uint8_t *)address;
        room = has_output ? sizeof some_output : 0;
        scratch = has_scratch ? some_scratch : (uint32_t *)address;
        scratch_words = has_scratch ? MEZDAULK_SCRATCH_WORDS : 0;
        completion();
    }
}

/* A run of B with all that is lent at fences: promoted and joined, with the result 7. */
static void run_fenced(enum side side) {
    static const struct mezdaulk_choice run[] = {
        {MEZDAULK_STEP, 0}, {MEZDAULK_PROMOTE, 0}, {MEZDAULK_STEP, 1}, {MEZDAULK_STEP, 0}, {MEZDAULK_STEP, 0}};
    const size_t pool_bytes = MEZDAULK_POOL_WORDS * sizeof(int32_t);
    const uint8_t *t = place(fenced(sizeof table_b), side, table_b, sizeof table_b);
    int32_t *p = place(fenced(pool_bytes), side, NULL, pool_bytes);
    const struct mezdaulk_choice *c = place(fenced(sizeof run), side, run, sizeof run);
    int32_t *v = place(fenced(4 * sizeof(int32_t)), side, NULL, 4 * sizeof(int32_t));
    uint64_t *made = place(fenced(sizeof *made), side, NULL, sizeof *made);
    hold("check", mezdaulk_check(t, sizeof table_b), GIVEN(0));
    hold("depth", mezdaulk_depth(t, sizeof table_b), GIVEN(1));
    hold("start", mezdaulk_start(t, sizeof table_b, p, MEZDAULK_POOL_WORDS), GIVEN(0));
    hold("which", mezdaulk_which(t, sizeof table_b, p, MEZDAULK_POOL_WORDS), GIVEN(0));
    hold("schedule", mezdaulk_schedule(t, sizeof table_b, p, MEZDAULK_POOL_WORDS, c, 5, made), REFUSED(MEZDAULK_REFUSED_ENDED));
    hold("made", *made, 4);
    hold("values", mezdaulk_values(t, sizeof table_b, p, MEZDAULK_POOL_WORDS, v), GIVEN(1));
    hold("result", (uint64_t)v[0], 7);
    hold("choose", mezdaulk_choose(t, sizeof table_b, p, MEZDAULK_POOL_WORDS, MEZDAULK_STEP, 0), REFUSED(MEZDAULK_REFUSED_ENDED));
    hold("one word less", mezdaulk_which(t, sizeof table_b, p, MEZDAULK_POOL_WORDS - 1), REFUSED(MEZDAULK_REFUSED_WORDS));
}

/* A table tidied into outputs at fences: no byte, one less than the tidy table has, as many, and more. What is not written stays. */
static void tidy_fenced(enum side side, const uint8_t *given, size_t length, const uint8_t *tidy, size_t due) {
    const size_t rooms[] = {0, 1, due - 1, due, due + 1, due + 100};
    const struct fenced fence = fenced(due + 100);
    const uint8_t *t = place(fenced(length), side, given, length);
    size_t k;
    for (k = 0; k < sizeof rooms / sizeof rooms[0]; k++) {
        uint8_t *o = place(fence, side, NULL, rooms[k]);
        size_t written = 0, left;
        memset(fence.first, 0xA5, fence.room);
        if (rooms[k] < due) {
            hold("tidy with too little room", mezdaulk_tidy(t, length, o, rooms[k]), REFUSED(MEZDAULK_REFUSED_ROOM));
        } else {
            hold("tidy", mezdaulk_tidy(t, length, o, rooms[k]), GIVEN(due));
            hold("the tidy table", (uint64_t)(memcmp(o, tidy, due) != 0), 0);
            written = due;
        }
        for (left = 0; left < fence.room; left++) {
            const unsigned char *at = fence.first + left;
            if (*at != 0xA5 && (at < o || o + written <= at)) {
                break;
            }
        }
        hold("the output past it", left, fence.room);
        hold("the table", (uint64_t)(memcmp(t, given, length) != 0), 0);
    }
}

/* So many of the bytes have another value than this, from the first on. */
static size_t others(const unsigned char *first, size_t count, unsigned char value) {
    size_t k, found = 0;
    for (k = 0; k < count; k++) {
        found += first[k] != value;
    }
    return found;
}

/* Memory at a fence, the room around it filled with one byte. */
struct lent {
    struct fenced fence;
    unsigned char *at;
    size_t bytes;
};

static struct lent lend(enum side side, const void *content, size_t bytes) {
    struct lent lent;
    lent.fence = fenced(bytes);
    lent.bytes = bytes;
    memset(lent.fence.first, 0xA5, lent.fence.room);
    lent.at = place(lent.fence, side, content, bytes);
    return lent;
}

/* The room beside it has the byte still. */
static void kept_beside(const char *what, struct lent lent) {
    const size_t before = (size_t)(lent.at - lent.fence.first);
    const size_t behind = lent.fence.room - before - lent.bytes;
    hold(what, others(lent.fence.first, before, 0xA5) + others(lent.at + lent.bytes, behind, 0xA5), 0);
}

/* Eight threads by one run with all that is lent at fences, so that nothing is behind the last, and the same by single beats: their steps
 * and promotions, what main holds at last, and words that are as they were where a call is refused. Lists of no thread, too. */
static void beats_fenced(enum side side) {
    const size_t pool_bytes = MEZDAULK_POOL_WORDS * sizeof(int32_t);
    const struct lent lent_table = lend(side, spawner, sizeof spawner), lent_pool = lend(side, NULL, pool_bytes);
    const struct lent lent_threads = lend(side, spawner_threads, sizeof spawner_threads), no_threads = lend(side, NULL, 0);
    const struct lent lent_made = lend(side, NULL, 2 * sizeof(uint64_t));
    const uint8_t *t = lent_table.at;
    const uint32_t *list = (const uint32_t *)(const void *)lent_threads.at;
    const uint32_t *empty = (const uint32_t *)(const void *)no_threads.at;
    int32_t *p = (int32_t *)(void *)lent_pool.at;
    uint64_t *made = (uint64_t *)(void *)lent_made.at;
    static int32_t before[MEZDAULK_POOL_WORDS];
    const size_t n = MEZDAULK_POOL_WORDS;
    uint64_t promotions = 0;
    size_t k;
    hold("start", mezdaulk_start(t, sizeof spawner, p, n), GIVEN(0));
    hold("run", mezdaulk_run(t, sizeof spawner, p, n, 1, 1, list, SPAWNER_THREADS, made), REFUSED(MEZDAULK_REFUSED_ENDED));
    hold("steps", made[0], SPAWNER_STEPS);
    hold("promotions", made[1], SPAWNER_PROMOTIONS);
    hold("threads left", (uint64_t)p[0], 1);
    hold("main's work", (uint64_t)p[2], 0);
    hold("main's tokens", (uint64_t)p[3], SPAWNER_STEPS - SPAWNER_PROMOTIONS);
    memcpy(before, p, pool_bytes);
    hold("a run of no thread", mezdaulk_run(t, sizeof spawner, p, n, 1, 1, empty, 0, made), GIVEN(0));
    hold("steps of no thread", made[0], 0);
    hold("promotions of no thread", made[1], 0);
    made[0] = made[1] = 99;
    hold("a run of too few words", mezdaulk_run(t, sizeof spawner, p, n - 1, 1, 1, list, SPAWNER_THREADS, made),
         REFUSED(MEZDAULK_REFUSED_WORDS));
    hold("steps of too few words", made[0], 0);
    hold("promotions of too few words", made[1], 0);
    hold("a beat of too few words", mezdaulk_beat(t, sizeof spawner, p, n - 1, 0, 1, 1), REFUSED(MEZDAULK_REFUSED_WORDS));
    hold("a beat of no pace", mezdaulk_beat(t, sizeof spawner, p, n, 8, 1, 256), REFUSED(MEZDAULK_REFUSED_PACE));
    hold("a beat of no thread", mezdaulk_beat(t, sizeof spawner, p, n, UINT32_MAX, 65535, 255), REFUSED(MEZDAULK_REFUSED_THREAD));
    hold("the words", (uint64_t)(memcmp(p, before, pool_bytes) != 0), 0);
    hold("start again", mezdaulk_start(t, sizeof spawner, p, n), GIVEN(0));
    for (k = 0; k < SPAWNER_STEPS; k++) {
        const uint64_t answer = mezdaulk_beat(t, sizeof spawner, p, n, spawner_threads[k], 1, 1);
        hold("beat", (uint64_t)MEZDAULK_GIVEN(answer), 1);
        promotions += MEZDAULK_PROMOTIONS(answer);
    }
    hold("promotions of the beats", promotions, SPAWNER_PROMOTIONS);
    hold("the words of the beats", (uint64_t)(memcmp(p, before, pool_bytes) != 0), 0);
    hold("the table", (uint64_t)(memcmp(t, spawner, sizeof spawner) != 0), 0);
    hold("the threads", (uint64_t)(memcmp(list, spawner_threads, sizeof spawner_threads) != 0), 0);
    kept_beside("beside the pool", lent_pool);
    kept_beside("beside the threads", lent_threads);
    kept_beside("beside the numbers made", lent_made);
}

/* The first thread whose step is made in a copy of the pool, of all that there may be. */
static uint32_t first_made(const uint8_t *t, size_t length, const int32_t *p) {
    static int32_t copy[MEZDAULK_POOL_WORDS];
    uint32_t thread;
    for (thread = 0; thread < MEZDAULK_NO_THREAD; thread++) {
        memcpy(copy, p, sizeof copy);
        if (MEZDAULK_GIVEN(mezdaulk_choose(t, length, copy, MEZDAULK_POOL_WORDS, MEZDAULK_STEP, thread))) {
            break;
        }
    }
    return thread;
}

/* Which thread can step, asked along a run with table and pool at fences: the lowest-numbered, and no word is changed. */
static void which_fenced(enum side side, const uint8_t *code, size_t length, const struct asked *asked, size_t rows) {
    static int32_t before[MEZDAULK_POOL_WORDS];
    const struct lent lent_table = lend(side, code, length), lent_pool = lend(side, NULL, sizeof before);
    const uint8_t *t = lent_table.at;
    int32_t *p = (int32_t *)(void *)lent_pool.at;
    const size_t n = MEZDAULK_POOL_WORDS;
    size_t k;
    hold("start", mezdaulk_start(t, length, p, n), GIVEN(0));
    hold("which of a fresh pool", mezdaulk_which(t, length, p, n), GIVEN(0));
    for (k = 0; k < rows; k++) {
        hold("a choice that is made", mezdaulk_choose(t, length, p, n, asked[k].choice.kind, asked[k].choice.thread), GIVEN(asked[k].rule));
        memcpy(before, p, sizeof before);
        hold("the first thread that can step", mezdaulk_which(t, length, p, n), GIVEN(asked[k].which));
        hold("the first by single steps", first_made(t, length, p), asked[k].which);
        hold("the words", (uint64_t)(memcmp(p, before, sizeof before) != 0), 0);
    }
    hold("the table", (uint64_t)(memcmp(t, code, length) != 0), 0);
    kept_beside("beside the table", lent_table);
    kept_beside("beside the pool", lent_pool);
}

/* Where several can step, one waits, one is stuck, one overflows, each of eight is the only one, none has a frame left, and none is
 * left. */
static void whiches(enum side side) {
    uint8_t deep[LINE_ROOM];
    const size_t length = line(deep, 1, 1);
    which_fenced(side, busy_b, sizeof busy_b, busy_asked, sizeof busy_asked / sizeof busy_asked[0]);
    which_fenced(side, stuck_b, sizeof stuck_b, stuck_asked, sizeof stuck_asked / sizeof stuck_asked[0]);
    which_fenced(side, over_b, sizeof over_b, over_asked, sizeof over_asked / sizeof over_asked[0]);
    which_fenced(side, spawner, sizeof spawner, spawner_asked, sizeof spawner_asked / sizeof spawner_asked[0]);
    which_fenced(side, deep, length, deep_asked, sizeof deep_asked / sizeof deep_asked[0]);
}

/* One step that works out a sum, with all that is lent at fences: as a choice, a schedule of two, a beat and a run of two. A step that
 * is refused changes no word, and counts in no number made. */
static void sum_fenced(enum side side, const uint8_t *code, size_t length, uint64_t due) {
    static const struct mezdaulk_choice steps[] = {{MEZDAULK_STEP, 0}, {MEZDAULK_STEP, 0}};
    static const uint32_t beats[] = {0, 0};
    static int32_t fresh[MEZDAULK_POOL_WORDS];
    const struct lent lent_table = lend(side, code, length), lent_pool = lend(side, NULL, sizeof fresh);
    const struct lent lent_steps = lend(side, steps, sizeof steps), lent_beats = lend(side, beats, sizeof beats);
    const struct lent lent_made = lend(side, NULL, 2 * sizeof(uint64_t));
    const struct mezdaulk_choice *choices_lent = (const struct mezdaulk_choice *)(const void *)lent_steps.at;
    const uint32_t *threads_lent = (const uint32_t *)(const void *)lent_beats.at;
    const uint8_t *t = lent_table.at;
    int32_t *p = (int32_t *)(void *)lent_pool.at;
    uint64_t *made = (uint64_t *)(void *)lent_made.at;
    const size_t n = MEZDAULK_POOL_WORDS;
    const int fits = MEZDAULK_GIVEN(due);
    const uint64_t then = fits ? REFUSED(MEZDAULK_REFUSED_ENDED) : due;
    hold("start", mezdaulk_start(t, length, p, n), GIVEN(0));
    memcpy(fresh, p, sizeof fresh);
    hold("which of a sum", mezdaulk_which(t, length, p, n), GIVEN(fits ? 0 : MEZDAULK_NO_THREAD));
    hold("no kind before a sum", mezdaulk_choose(t, length, p, n, 2, 0), REFUSED(MEZDAULK_REFUSED_KIND));
    hold("no thread before a sum", mezdaulk_choose(t, length, p, n, MEZDAULK_STEP, 1), REFUSED(MEZDAULK_REFUSED_THREAD));
    hold("a promotion at a sum", mezdaulk_choose(t, length, p, n, MEZDAULK_PROMOTE, 0), REFUSED(MEZDAULK_REFUSED_PROMOTED));
    hold("a step of a sum", mezdaulk_choose(t, length, p, n, MEZDAULK_STEP, 0), due);
    hold("the words of a sum", (uint64_t)(memcmp(p, fresh, sizeof fresh) == 0), (uint64_t)!fits);
    memcpy(p, fresh, sizeof fresh);
    made[0] = made[1] = 99;
    hold("a schedule of a sum", mezdaulk_schedule(t, length, p, n, choices_lent, 2, made), then);
    hold("choices made of a sum", made[0], (uint64_t)fits);
    hold("the words of its schedule", (uint64_t)(memcmp(p, fresh, sizeof fresh) == 0), (uint64_t)!fits);
    memcpy(p, fresh, sizeof fresh);
    hold("a beat of a sum", mezdaulk_beat(t, length, p, n, 0, 1, 1), due);
    hold("the words of its beat", (uint64_t)(memcmp(p, fresh, sizeof fresh) == 0), (uint64_t)!fits);
    hold("a beat of no pace at a sum", mezdaulk_beat(t, length, p, n, 0, 0, 1), REFUSED(MEZDAULK_REFUSED_PACE));
    memcpy(p, fresh, sizeof fresh);
    made[0] = made[1] = 99;
    hold("a run of a sum", mezdaulk_run(t, length, p, n, 1, 1, threads_lent, 2, made), then);
    hold("steps of a sum", made[0], (uint64_t)fits);
    hold("promotions of a sum", made[1], 0);
    hold("the words of its run", (uint64_t)(memcmp(p, fresh, sizeof fresh) == 0), (uint64_t)!fits);
    hold("the table", (uint64_t)(memcmp(t, code, length) != 0), 0);
    kept_beside("beside the table", lent_table);
    kept_beside("beside the pool", lent_pool);
    kept_beside("beside the choices", lent_steps);
    kept_beside("beside the threads", lent_beats);
    kept_beside("beside the numbers made", lent_made);
}

/* Sums at both ends of 32 bits and beyond them, in a statement, in an if, and in an if whose blocks are missing; and negations. */
static void sums(enum side side) {
    uint8_t code[SUM_ROOM];
    size_t k;
    for (k = 0; k < SUMS; k++) {
        const struct summed s = summed[k];
        const uint64_t over = REFUSED(MEZDAULK_REFUSED_OVERFLOW);
        const size_t statement = adding(code, s.m, s.n);
        sum_fenced(side, code, statement, s.fits ? GIVEN(MEZDAULK_RULE_STMT) : over);
        sum_fenced(side, code, deciding(code, s.m, s.n, 0), s.fits ? GIVEN(MEZDAULK_RULE_THEN) : over);
        sum_fenced(side, code, deciding(code, s.m, s.n, 1), s.fits ? REFUSED(MEZDAULK_REFUSED_STUCK) : over);
    }
    for (k = 0; k < NEGATIONS; k++) {
        const struct summed s = negated[k];
        const size_t statement = negating(code, s.m);
        sum_fenced(side, code, statement, s.fits ? GIVEN(MEZDAULK_RULE_STMT) : REFUSED(MEZDAULK_REFUSED_OVERFLOW));
    }
}

/* A call that lists a pool. */
typedef uint64_t listing(const uint8_t *, size_t, const int32_t *, size_t, uint8_t *, size_t);

/* A listing with table, pool and output at fences: no byte, one less than the listing has, as many, and more. What is not written stays. */
static void listing_fenced(enum side side, listing *call, const uint8_t *code, size_t length, const int32_t *content, const char *text) {
    const size_t n = MEZDAULK_POOL_WORDS, pool_bytes = n * sizeof(int32_t), due = strlen(text);
    const size_t rooms[] = {0, 1, due - 1, due, due + 1, MEZDAULK_LISTING_BYTES};
    const struct fenced fence = fenced(MEZDAULK_LISTING_BYTES);
    const struct lent lent_table = lend(side, code, length), lent_pool = lend(side, content, pool_bytes);
    const uint8_t *t = lent_table.at;
    const int32_t *p = (const int32_t *)(const void *)lent_pool.at;
    size_t k;
    for (k = 0; k < sizeof rooms / sizeof rooms[0]; k++) {
        uint8_t *o = place(fence, side, NULL, rooms[k]);
        const size_t written = rooms[k] < due ? 0 : due;
        memset(fence.first, 0xA5, fence.room);
        hold("a listing", call(t, length, p, n, o, rooms[k]), written == 0 ? REFUSED(MEZDAULK_REFUSED_LISTING) : GIVEN(due));
        hold("its bytes", (uint64_t)(memcmp(o, text, written) != 0), 0);
        hold("the output past it", others(fence.first, fence.room, 0xA5), written);
    }
    hold("a listing into nothing", call(t, length, p, n, NULL, 0), REFUSED(MEZDAULK_REFUSED_LISTING));
    hold("a listing of too few words", call(t, length, p, n - 1, NULL, 0), REFUSED(MEZDAULK_REFUSED_WORDS));
    hold("the table", (uint64_t)(memcmp(t, code, length) != 0), 0);
    hold("the words", (uint64_t)(memcmp(p, content, pool_bytes) != 0), 0);
    kept_beside("beside the table", lent_table);
    kept_beside("beside the pool", lent_pool);
}

/* Gives every bound temporary of every frame another value. */
static void other_values(int32_t p[MEZDAULK_POOL_WORDS]) {
    size_t i, j, k;
    for (i = 0; i < (size_t)p[0]; i++) {
        for (j = 0; j < (size_t)p[1 + 211 * i]; j++) {
            int32_t *frame = p + frame_start(i, j);
            for (k = 0; k < 16; k++) {
                frame[10 + k] = frame[3] >> k & 1 ? ~frame[10 + k] : 0;
            }
        }
    }
}

/* Both listings of a pool; the operator's is the same with other values. Words that are no pool are refused whatever the output is. */
static void listings_fenced(enum side side, const uint8_t *code, size_t length, int32_t *content, const char *operators,
                            const char *customers) {
    listing_fenced(side, mezdaulk_operator, code, length, content, operators);
    listing_fenced(side, mezdaulk_customer, code, length, content, customers);
    other_values(content);
    listing_fenced(side, mezdaulk_operator, code, length, content, operators);
    content[0] = 0;
    hold("operator of no pool", mezdaulk_operator(code, length, content, MEZDAULK_POOL_WORDS, NULL, 0), REFUSED(MEZDAULK_REFUSED_POOL));
    hold("customer of no pool", mezdaulk_customer(code, length, content, MEZDAULK_POOL_WORDS, NULL, 0), REFUSED(MEZDAULK_REFUSED_POOL));
}

/* The rows of a table. */
static void listed_fenced(enum side side, const uint8_t *code, size_t length, const struct listed *rows, size_t row_count) {
    static int32_t content[MEZDAULK_POOL_WORDS];
    size_t k;
    for (k = 0; k < row_count; k++) {
        hold("choices made", listed_pool(code, length, &rows[k], content), rows[k].choice_count);
        listings_fenced(side, code, length, content, rows[k].operators, rows[k].customers);
    }
}

/* Of one thread and of eight, with one frame and with eight, of a tree, of a table that is not accepted, and the longest that there are. */
static void listings(enum side side) {
    static int32_t content[MEZDAULK_POOL_WORDS];
    static char operators[MEZDAULK_LISTING_BYTES + 1], customers[MEZDAULK_LISTING_BYTES + 1];
    uint8_t deep[LINE_ROOM], longest[LONGEST_BYTES];
    const size_t length = line(deep, 1, 1);
    listed_fenced(side, table_b, sizeof table_b, b_listed, sizeof b_listed / sizeof b_listed[0]);
    listed_fenced(side, stuck_b, sizeof stuck_b, stuck_listed, 1);
    listed_fenced(side, spawner, sizeof spawner, spawner_listed, 1);
    listed_fenced(side, deep, length, deep_listed, 1);
    listed_fenced(side, twice, sizeof twice, twice_listed, 1);
    longest_table(longest);
    longest_pool(content);
    longest_listing(0, operators);
    longest_listing(1, customers);
    hold("an operator's longest line", strlen(strstr(operators, "       7")), 24);
    hold("a customer's longest line", strlen(strstr(customers, "       7")), 254);
    listings_fenced(side, longest, sizeof longest, content, operators, customers);
}

/* B completed with outputs and scratches at fences, of the right lengths and of others. What is not written stays. */
static void complete_fenced(enum side side) {
    const size_t rooms[] = {0, MEZDAULK_OUTPUT_BYTES - 1, MEZDAULK_OUTPUT_BYTES, MEZDAULK_OUTPUT_BYTES + 1};
    const size_t counts[] = {0, MEZDAULK_SCRATCH_WORDS - 1, MEZDAULK_SCRATCH_WORDS, MEZDAULK_SCRATCH_WORDS + 1};
    const size_t used = MEZDAULK_SCRATCH_WORDS * sizeof(uint32_t);
    size_t i, k;
    brief = place(fenced(sizeof brief_b), side, brief_b, sizeof brief_b);
    brief_bytes = sizeof brief_b;
    for (i = 0; i < sizeof rooms / sizeof rooms[0]; i++) {
        const struct fenced bytes_fence = fenced(rooms[i]);
        for (k = 0; k < sizeof counts / sizeof counts[0]; k++) {
            const struct fenced words_fence = fenced(counts[k] * sizeof(uint32_t));
            size_t written = 0, cleared = 0;
            room = rooms[i];
            scratch_words = counts[k];
            memset(bytes_fence.first, 0xA5, bytes_fence.room);
            memset(words_fence.first, 0xA5, words_fence.room);
            out = place(bytes_fence, side, NULL, room);
            scratch = place(words_fence, side, NULL, counts[k] * sizeof(uint32_t));
            completion();
            if (room == MEZDAULK_OUTPUT_BYTES && scratch_words >= MEZDAULK_SCRATCH_WORDS) {
                hold("the completed table", (uint64_t)(memcmp(out, table_b, sizeof table_b) != 0), 0);
                hold("what is behind it", others(out + sizeof table_b, room - sizeof table_b, 0), 0);
                hold("the scratch", others((unsigned char *)scratch, used, 0), 0);
                written = room;
                cleared = used;
            }
            hold("the output and its room", others(bytes_fence.first, bytes_fence.room, 0xA5),
                 written == 0 ? 0 : others(out, written, 0xA5));
            hold("the scratch and its room", others(words_fence.first, words_fence.room, 0xA5), cleared);
            hold("the table", (uint64_t)(memcmp(brief, brief_b, sizeof brief_b) != 0), 0);
        }
    }
}

/* B completed at 25 and 26: the scratch is cleared, and the output stays. */
static void not_completed_fenced(enum side side) {
    static const struct {
        size_t at;
        uint8_t byte;
        uint64_t due;
    } damages[] = {{21, 2, MEZDAULK_REFUSED_UNREACHED + 256 * 3}, {16, 1, MEZDAULK_REFUSED_IMPOSSIBLE + 256 * MEZDAULK_NOWHERE}};
    const size_t used = MEZDAULK_SCRATCH_WORDS * sizeof(uint32_t);
    const struct fenced bytes_fence = fenced(MEZDAULK_OUTPUT_BYTES), words_fence = fenced(used);
    uint8_t *o = place(bytes_fence, side, NULL, MEZDAULK_OUTPUT_BYTES);
    uint32_t *s = place(words_fence, side, NULL, used);
    size_t k;
    for (k = 0; k < 2; k++) {
        uint8_t damaged[sizeof brief_b];
        const uint8_t *t;
        memcpy(damaged, brief_b, sizeof brief_b);
        damaged[damages[k].at] = damages[k].byte;
        t = place(fenced(sizeof damaged), side, damaged, sizeof damaged);
        memset(bytes_fence.first, 0xA5, bytes_fence.room);
        memset(words_fence.first, 0xA5, words_fence.room);
        hold("a completion that is refused", mezdaulk_complete(t, sizeof damaged, o, MEZDAULK_OUTPUT_BYTES, s, MEZDAULK_SCRATCH_WORDS),
             damages[k].due);
        hold("the output", others(bytes_fence.first, bytes_fence.room, 0xA5), 0);
        hold("the scratch", others((unsigned char *)s, used, 0), 0);
    }
}

/* Every beginning of B in version 2, likewise. */
static void brief_beginnings(enum side side) {
    const struct fenced fence = fenced(sizeof brief_b);
    uint8_t cut[sizeof brief_b];
    size_t length;
    memcpy(cut, brief_b, sizeof brief_b);
    for (length = 0; length < sizeof brief_b; length++) {
        const uint64_t due = length < 6 ? REFUSED(MEZDAULK_REFUSED_SIZE) : REFUSED(MEZDAULK_REFUSED_FORM) + 256 * length;
        const uint8_t *t;
        cut[3] = (uint8_t)length;
        t = place(fence, side, cut, length);
        hold("complete of a beginning", mezdaulk_complete(t, length, NULL, 0, NULL, 0), due);
        hold("check of a beginning in version 2", mezdaulk_check(t, length),
             length < 6 ? REFUSED(MEZDAULK_REFUSED_SIZE) : REFUSED(MEZDAULK_REFUSED_VERSION));
    }
}

/* Every line of functions, completed from version 2 at a fence. */
static void brief_lines(enum side side) {
    const struct fenced fence = fenced(LINE_ROOM);
    static uint8_t completed[MEZDAULK_OUTPUT_BYTES];
    static uint32_t words_of_it[MEZDAULK_SCRATCH_WORDS];
    uint8_t cells[LINE_ROOM], full[LINE_ROOM];
    unsigned functions;
    for (functions = 1; functions <= LINE_FUNCTIONS; functions++) {
        const size_t due = line(full, functions, 0), short_of = brief_line(cells, functions);
        const uint8_t *t = place(fence, side, cells, short_of);
        hold("completion of a line", mezdaulk_complete(t, short_of, completed, sizeof completed, words_of_it, MEZDAULK_SCRATCH_WORDS),
             GIVEN(due));
        hold("the completed line", (uint64_t)(memcmp(completed, full, due) != 0), 0);
    }
}

/* Every beginning of B, with its own length in the length field: a byte is missing, behind the fence. */
static void beginnings(enum side side) {
    const struct fenced fence = fenced(sizeof table_b);
    uint8_t cut[sizeof table_b];
    size_t length;
    memcpy(cut, table_b, sizeof table_b);
    for (length = 0; length < sizeof table_b; length++) {
        const uint64_t due = length < 6 ? REFUSED(MEZDAULK_REFUSED_SIZE) : REFUSED(MEZDAULK_REFUSED_FORM) + 256 * length;
        const uint8_t *t;
        cut[3] = (uint8_t)length;
        t = place(fence, side, cut, length);
        hold("read of a beginning", mezdaulk_read(t, length), due);
        hold("check of a beginning", mezdaulk_check(t, length), due);
        hold("depth of a beginning", mezdaulk_depth(t, length), due);
        hold("tidy of a beginning", mezdaulk_tidy(t, length, NULL, 0), due);
        hold("operator of a beginning", mezdaulk_operator(t, length, NULL, 0, NULL, 0), due);
        hold("customer of a beginning", mezdaulk_customer(t, length, NULL, 0, NULL, 0), due);
    }
}

/* The depth of every line of functions, open and closed, at a fence; and each is its own tidy table. */
static void lines(enum side side) {
    const struct fenced fence = fenced(LINE_ROOM);
    uint8_t cells[LINE_ROOM];
    unsigned functions;
    for (functions = 1; functions <= LINE_FUNCTIONS; functions++) {
        const size_t open = line(cells, functions, 0);
        size_t closed;
        hold("depth of a line", mezdaulk_depth(place(fence, side, cells, open), open), GIVEN(functions));
        closed = line(cells, functions, 1);
        hold("depth of a closed line", mezdaulk_depth(place(fence, side, cells, closed), closed), REFUSED(MEZDAULK_REFUSED_CYCLE));
        tidy_fenced(side, cells, closed, cells, closed);
    }
}

int main(void) {
    int side;
    nothing_at(0);
    nothing_at(1);
    nothing_to_complete_at(0);
    nothing_to_complete_at(1);
    for (side = 0; side < SIDES; side++) {
        run_fenced((enum side)side);
        beats_fenced((enum side)side);
        whiches((enum side)side);
        sums((enum side)side);
        listings((enum side)side);
        tidy_fenced((enum side)side, table_b, sizeof table_b, table_b, sizeof table_b);
        tidy_fenced((enum side)side, untidy_b, sizeof untidy_b, table_b, sizeof table_b);
        beginnings((enum side)side);
        lines((enum side)side);
        complete_fenced((enum side)side);
        not_completed_fenced((enum side)side);
        brief_beginnings((enum side)side);
        brief_lines((enum side)side);
    }
    printf("lent: %d passed, %d failed\n", passed, failed);
    return failed != 0;
}
