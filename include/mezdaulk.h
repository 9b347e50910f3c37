/* Mezdaulk: Spork IR tables checked, and the pool that runs them.
 *
 * Every call answers a uint64_t. With bit 32 set the call is given, and its value stands in the low 32 bits. Otherwise it is
 * refused: the number stands in bits 0 to 7; for 3 the offset of the first bad byte in bits 8 to 31; for 4 to 11, 25 and 26 the
 * block in bits 8 to 15 (255 for main's fault, a spawn call or a whole function) and the function in bits 16 to 23. The macros below
 * read such an answer; each evaluates its argument once.
 *
 * A table is any bytes and a pool any words: nothing outside the lent memory is read or written, and every call returns. Tables,
 * schedules, lists of threads and pools that are only asked about or listed are never written. No call keeps anything: calls on different
 * pools may run at the same time; two calls on one pool may not, if either of them writes it. Lent regions that a call writes must not
 * overlap others of the same call.
 *
 * A pointer with a count beside it (table, pool, choices, threads, out, scratch) must be valid for that many items and aligned for their
 * type. With a count of 0 it may be anything, NULL too. values and made have no count and must be valid in every call.
 */
#ifndef MEZDAULK_H
#define MEZDAULK_H

#include <stddef.h>
#include <stdint.h>

#ifdef __cplusplus
extern "C" {
#endif

/* The version of this header and its library. */
#define MEZDAULK_VERSION_MAJOR 0
#define MEZDAULK_VERSION_MINOR 1
#define MEZDAULK_VERSION_PATCH 0
#define MEZDAULK_VERSION "0.1.0"

/* A pool's length in words. */
#define MEZDAULK_POOL_WORDS 1689

/* The length of the output of mezdaulk_complete in bytes, and the least length of its scratch in words. */
#define MEZDAULK_OUTPUT_BYTES 16384
#define MEZDAULK_SCRATCH_WORDS 1024

/* An output of so many bytes has room for every listing, the operator's and the customer's. */
#define MEZDAULK_LISTING_BYTES 4096

/* An answer is given (1), or it is a refusal (0). */
#define MEZDAULK_GIVEN(answer) ((int)(((uint64_t)(answer) >> 32) & 1u))

/* The value of a given answer. */
#define MEZDAULK_VALUE(answer) ((uint32_t)((uint64_t)(answer) & 0xFFFFFFFFu))

/* The number of a refusal, 1 to 29; the place of a 3; the function and the block of 4 to 11, 25 and 26. */
#define MEZDAULK_NUMBER(answer) ((unsigned)((uint64_t)(answer) & 0xFFu))
#define MEZDAULK_PLACE(answer) ((unsigned)(((uint64_t)(answer) >> 8) & 0xFFFFFFu))
#define MEZDAULK_BLOCK(answer) ((unsigned)(((uint64_t)(answer) >> 8) & 0xFFu))
#define MEZDAULK_FUNCTION(answer) ((unsigned)(((uint64_t)(answer) >> 16) & 0xFFu))

/* The parts of the value of mezdaulk_beat: the rule of its step, and how many promotions it made. */
#define MEZDAULK_RULE(answer) ((unsigned)((uint64_t)(answer) & 0xFFu))
#define MEZDAULK_PROMOTIONS(answer) ((unsigned)(((uint64_t)(answer) >> 8) & 0xFFFFFFu))

/* The block of a fault that lies in none: main's, a spawn call's, or a whole function's. */
#define MEZDAULK_NOWHERE 255u

/* The kinds of a choice. */
#define MEZDAULK_STEP 0u
#define MEZDAULK_PROMOTE 1u

/* The value of mezdaulk_which where no thread can step, and of mezdaulk_values while main's values are open. */
#define MEZDAULK_NO_THREAD 8u
#define MEZDAULK_OPEN 255u

/* The numbers of refusals: of the table, */
#define MEZDAULK_REFUSED_SIZE 1u      /* the table has under 6 bytes or over 16,384 (12,800 to complete), or another length field */
#define MEZDAULK_REFUSED_VERSION 2u   /* the table's version is not 1 (2 to complete) */
#define MEZDAULK_REFUSED_FORM 3u      /* a byte of the table is out of range, missing or left over */
/* of the check, */
#define MEZDAULK_REFUSED_MAIN 4u      /* main has parameters */
#define MEZDAULK_REFUSED_ENTRY 5u     /* an entry block has parameters, a nesting, or another scope than its function's parameters */
#define MEZDAULK_REFUSED_MISSING 6u   /* a function, block or spawn call that is named does not exist */
#define MEZDAULK_REFUSED_TWICE 7u     /* a temporary is bound twice */
#define MEZDAULK_REFUSED_UNBOUND 8u   /* a temporary is used that is not bound there */
#define MEZDAULK_REFUSED_COUNT 9u     /* a number of arguments or values is not the number taken */
#define MEZDAULK_REFUSED_SCOPE 10u    /* a scope or a nesting asks for a temporary that is not there */
#define MEZDAULK_REFUSED_NESTING 11u  /* a nesting is not the one required */
/* of the pool, */
#define MEZDAULK_REFUSED_WORDS 12u    /* the pool has not 1,689 words */
#define MEZDAULK_REFUSED_POOL 13u     /* the words are no pool of this table */
/* of a choice, */
#define MEZDAULK_REFUSED_KIND 14u     /* the kind is neither 0 nor 1 */
#define MEZDAULK_REFUSED_THREAD 15u   /* there is no such thread */
#define MEZDAULK_REFUSED_ENDED 16u    /* the thread has ended */
#define MEZDAULK_REFUSED_WAITS 17u    /* the thread waits for its newest child to end */
#define MEZDAULK_REFUSED_FRAMES 18u   /* the thread is at a call, and all eight frames are in use */
#define MEZDAULK_REFUSED_STUCK 19u    /* the thread is stuck: no rule applies */
#define MEZDAULK_REFUSED_PROMOTED 20u /* the thread has nothing to promote */
#define MEZDAULK_REFUSED_THREADS 21u  /* there is something to promote, but eight threads are there already */
/* of the depth, */
#define MEZDAULK_REFUSED_CYCLE 22u    /* some function reaches itself by calls */
/* of the tidy table, */
#define MEZDAULK_REFUSED_ROOM 23u     /* the output is shorter than the tidy table */
/* of a completion, */
#define MEZDAULK_REFUSED_LENT 24u       /* the scratch has fewer than 1,024 words, or the output has not 16,384 bytes */
#define MEZDAULK_REFUSED_UNREACHED 25u  /* no transfer from its function's entry reaches a block */
#define MEZDAULK_REFUSED_IMPOSSIBLE 26u /* no scopes and nestings make a function well formed */
/* of a beat, */
#define MEZDAULK_REFUSED_PACE 27u /* N is not 1 to 65,535, or C not 1 to 255 */
/* of a listing, */
#define MEZDAULK_REFUSED_LISTING 28u /* the output is shorter than the listing */
/* and of a step. */
#define MEZDAULK_REFUSED_OVERFLOW 29u /* the thread's next sum or negation does not fit in 32 bits */

/* The rules that a choice makes: 1 to 9 by a step, 10 by a promotion. */
#define MEZDAULK_RULE_STMT 1u     /* a statement */
#define MEZDAULK_RULE_GOTO 2u     /* a goto */
#define MEZDAULK_RULE_THEN 3u     /* an if, to its first block */
#define MEZDAULK_RULE_ELSE 4u     /* an if, to its second block */
#define MEZDAULK_RULE_CALL 5u     /* a call */
#define MEZDAULK_RULE_RETURN 6u   /* a return */
#define MEZDAULK_RULE_SPORK 7u    /* a spork */
#define MEZDAULK_RULE_UNPR 8u     /* a spoin, unpromoted */
#define MEZDAULK_RULE_PROM 9u     /* a spoin, promoted: the join, which removes the ended child */
#define MEZDAULK_RULE_PROMOTE 10u /* a promotion, which puts the child directly after its parent */

/* A choice of a schedule: a kind and a thread, counted from 0. */
struct mezdaulk_choice {
    uint32_t kind;
    uint32_t thread;
};

/* Does the table read? Given: 0. Refused: 1 to 3. */
uint64_t mezdaulk_read(const uint8_t *table, size_t bytes);

/* Is the table well formed? Given: 0, and then no list of choices ever jams a pool started from it: main has returned, or some thread
 * can step, or a step of some thread gets 18 or 29, and no choice gets 19. Refused: 1 to 11, the first fault in order. */
uint64_t mezdaulk_check(const uint8_t *table, size_t bytes);

/* How many frames can a chain of calls need? Given: the depth of a table that the check accepts, 1 to 16: the most over every
 * function as the first and the calls of all blocks, reached or not; a spawn call adds nothing. Where it is at most 8, no thread of a
 * pool started from the table ever has more frames than that, no choice gets 18, and main has returned, or some thread can step, or a
 * step of some thread gets 29. Refused: 1 to 11 as by the check; 22 where some function reaches itself by calls. */
uint64_t mezdaulk_depth(const uint8_t *table, size_t bytes);

/* Writes a table that the check accepts afresh, tidy, at the start of out, which has room for so many bytes. Main and each entry keep
 * their numbers; the other functions, blocks and spawn calls get theirs by first mention, what is never mentioned goes, and
 * temporaries stay. Given: the length of the tidy table, which is never more than bytes; out behind it is as it was. The tidy table is
 * accepted, and its own tidy table; put to pools started from either table, every list of choices gets the same answers. Refused: 1 to
 * 11 as by the check; 23 where room is less than that length; out is then as it was. table and out must not overlap. */
uint64_t mezdaulk_tidy(const uint8_t *table, size_t bytes, uint8_t *out, size_t room);

/* Completes a table of version 2, which has neither the scope nor the nesting of any block, and at most 12,800 bytes: writes it as a
 * table of version 1 with the smallest scopes that there are at the start of out, which has 16,384 bytes, and 0 behind it. Every block
 * must be reached by transfers from its function's entry, and some scopes and nestings must pass the check. scratch has 1,024 words or
 * more, whatever they hold. Given: the length of the completed table; the check accepts it, and the scopes of every other table that
 * differs from it in scopes and nestings alone and is accepted contain its own. Refused: 1 to 3 and 24, and out and scratch are then as
 * they were; 25 for the lowest function and block that is not reached, and 26 for the lowest function, with block 255, that no scopes
 * and nestings make pass, and out is then as it was. Where it is given or 25 or 26, the first 1,024 words of scratch are 0 afterwards;
 * further ones are as they were. table, out and scratch must not overlap. Every other call gives a table of version 2 its 2. */
uint64_t mezdaulk_complete(const uint8_t *table, size_t bytes, uint8_t *out, size_t room, uint32_t *scratch, size_t words);

/* Makes 1,689 words, whatever they hold, a fresh pool of a table that reads. Given: 0. Refused: 1 to 3, 12; the words are then
 * as they were. */
uint64_t mezdaulk_start(const uint8_t *table, size_t bytes, int32_t *pool, size_t words);

/* One choice, made in place. Given: the rule, 1 to 10. Refused: 1 to 3, 12 to 21; a step also 29, where its statement or its if works out
 * a sum or a negation that does not fit in 32 bits, with its operands bound; the words are then as they were. A choice leaves the work
 * and the tokens of every thread that stays: a child begins with none, and those of a child that is joined go with it. */
uint64_t mezdaulk_choose(const uint8_t *table, size_t bytes, int32_t *pool, size_t words, uint32_t kind, uint32_t thread);

/* Which thread can step? Given: the lowest-numbered thread whose step makes a rule, or MEZDAULK_NO_THREAD exactly if there is none. Two
 * runs of plain steps, each of the thread that it names, with one table and from equal words, make the same rules and leave the same
 * words, as far as both go. Where it is none of a pool started from a table that the check accepts, main has returned or a step of some
 * thread gets 18 or 29. Refused: 1 to 3, 12, 13. */
uint64_t mezdaulk_which(const uint8_t *table, size_t bytes, const int32_t *pool, size_t words);

/* Main's values. Given: how many there are, 0 to 4, and that many of values are written; or MEZDAULK_OPEN while main has not
 * ended, and nothing is written. Refused: 1 to 3, 12, 13, and nothing is written. */
uint64_t mezdaulk_values(const uint8_t *table, size_t bytes, const int32_t *pool, size_t words, int32_t values[4]);

/* A list of choices, made in place up to the first refusal. Given: 0, if there is none. Refused: 1 to 3, 12, 13 before any
 * choice, or the refusal of the first refused choice, 14 to 21 or 29. made is written either way: how many choices were made;
 * what they did stays in the pool. */
uint64_t mezdaulk_schedule(const uint8_t *table, size_t bytes, int32_t *pool, size_t words,
                           const struct mezdaulk_choice *choices, size_t count, uint64_t *made);

/* One beat, made in place: a step of a thread that earns and spends tokens, c of them for every n steps. Where the step is made, the
 * tokens of the child that it joined come to the thread. Its work grows by 1, and where that is n or more it returns to 0 and c tokens
 * come; what would be above 2,000,000,000 is dropped. Then, as long as the thread has a token and a promotion of it would be made, that
 * is made for one token, and half of those left, rounded down, go to the child. Given: the rule of the step, 1 to 9, and 256 times the
 * number of promotions, 0 to 7, which MEZDAULK_RULE and MEZDAULK_PROMOTIONS read. Refused: 1 to 3, 12, 13, 27, and 15 to 19 or 29 as
 * a step is; the words are then as they were. */
uint64_t mezdaulk_beat(const uint8_t *table, size_t bytes, int32_t *pool, size_t words, uint32_t thread, uint32_t n, uint32_t c);

/* A run: a beat of each thread of a list, all with one n and one c, made in place up to the first refusal. Given: 0, if there is none.
 * Refused: 1 to 3, 12, 13, 27 before any beat, also where the list is empty, or the refusal of the first refused beat, 15 to 19 or 29.
 * made is written either way: how many steps were made, and how many promotions; what they did stays in the pool. In a run from a fresh
 * pool made[1] times n is at most c times made[0]. */
uint64_t mezdaulk_run(const uint8_t *table, size_t bytes, int32_t *pool, size_t words, uint32_t n, uint32_t c,
                      const uint32_t *threads, size_t count, uint64_t made[2]);

/* Where has the job got to? Writes the operator's listing of a pool at the start of out, which has room for so many bytes. A thread's
 * lines are its own and then those of its children, newest first, each child one space deeper than its parent; so the threads come in the
 * order of their numbers. A line is seven numbers in decimal with one space between two, and a newline byte: the thread, how many frames
 * it has, and of its newest frame the function, the block, the statements done, the open spawn calls, and how many of these are promoted.
 * Given: the length of the listing; out behind it is as it was. The job's values have no part in it, which is proved: two pools that
 * agree in all words but the sixteen values of each frame, both of them pools of the table, give, with outputs equally long, the same
 * bytes, the same length and the same refusals. Refused: 1 to 3, 12, 13; 28 where room is less than that length; out is then as it was.
 * out must not overlap table and pool. */
uint64_t mezdaulk_operator(const uint8_t *table, size_t bytes, const int32_t *pool, size_t words, uint8_t *out, size_t room);

/* The same for the customer, whose lines have the numbers too: behind the seven each has the newest frame's bound temporaries, ascending,
 * each with its value behind it, in decimal and with a minus sign where it is negative, one space before each number. Given and refused
 * as the operator's, 28 by the length of this listing. */
uint64_t mezdaulk_customer(const uint8_t *table, size_t bytes, const int32_t *pool, size_t words, uint8_t *out, size_t room);

#ifdef __cplusplus
}
#endif

#endif
