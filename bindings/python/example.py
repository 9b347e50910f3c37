#!/usr/bin/env python3
"""Checks table B of document 01, writes it afresh, completes it from what has no scopes and nestings, and runs it, by beats, by the
first thread that can step and by choices, through the shared object: the spork's call is promoted and joined, and main returns 7. On the
way its pool is listed for an operator and for a customer, and its child is given a sum that overflows.

example.py [LIBRARY]; without it MEZDAULK_LIBRARY is taken, or target/make/libmezdaulk.so of this repository, which make builds. Each
answer is printed and held to what it must be; the status is 1 if one is another.
"""
import ctypes
import os
import pathlib
import sys

# The header's names.
POOL_WORDS = 1689
OUTPUT_BYTES, SCRATCH_WORDS = 16384, 1024
LISTING_BYTES = 4096
NOWHERE = 255
STEP, PROMOTE = 0, 1
NO_THREAD = 8
OPEN = 255
REFUSED_VERSION, REFUSED_FORM, REFUSED_WORDS, REFUSED_ENDED, REFUSED_WAITS, REFUSED_FRAMES, REFUSED_ROOM = 2, 3, 12, 16, 17, 18, 23
REFUSED_LENT, REFUSED_UNREACHED, REFUSED_IMPOSSIBLE, REFUSED_PACE, REFUSED_LISTING, REFUSED_OVERFLOW = 24, 25, 26, 27, 28, 29
RULE_STMT, RULE_SPORK, RULE_PROM, RULE_PROMOTE = 1, 7, 9, 10


def GIVEN(answer):
    return answer >> 32 & 1


def VALUE(answer):
    return answer & 0xFFFFFFFF


def NUMBER(answer):
    return answer & 0xFF


def PLACE(answer):
    return answer >> 8 & 0xFFFFFF


def BLOCK(answer):
    return answer >> 8 & 0xFF


def FUNCTION(answer):
    return answer >> 16 & 0xFF


def RULE(answer):
    return answer & 0xFF


def PROMOTIONS(answer):
    return answer >> 8 & 0xFFFFFF


class Choice(ctypes.Structure):
    """A choice of a schedule: a kind and a thread, counted from 0."""

    _fields_ = [("kind", ctypes.c_uint32), ("thread", ctypes.c_uint32)]


Values = ctypes.c_int32 * 4
TABLE = [ctypes.POINTER(ctypes.c_uint8), ctypes.c_size_t]
SCRATCH = [ctypes.POINTER(ctypes.c_uint32), ctypes.c_size_t]
THREADS = SCRATCH
POOL = [ctypes.POINTER(ctypes.c_int32), ctypes.c_size_t]
CHOICES = [ctypes.POINTER(Choice), ctypes.c_size_t]

# The calls, with the types of their parameters; each answers a uint64_t.
CALLS = {
    "mezdaulk_read": TABLE,
    "mezdaulk_check": TABLE,
    "mezdaulk_depth": TABLE,
    "mezdaulk_tidy": TABLE + TABLE,
    "mezdaulk_complete": TABLE + TABLE + SCRATCH,
    "mezdaulk_start": TABLE + POOL,
    "mezdaulk_choose": TABLE + POOL + [ctypes.c_uint32, ctypes.c_uint32],
    "mezdaulk_which": TABLE + POOL,
    "mezdaulk_values": TABLE + POOL + [ctypes.POINTER(ctypes.c_int32)],
    "mezdaulk_schedule": TABLE + POOL + CHOICES + [ctypes.POINTER(ctypes.c_uint64)],
    "mezdaulk_beat": TABLE + POOL + [ctypes.c_uint32] * 3,
    "mezdaulk_run": TABLE + POOL + [ctypes.c_uint32] * 2 + THREADS + [ctypes.POINTER(ctypes.c_uint64)],
    "mezdaulk_operator": TABLE + POOL + TABLE,
    "mezdaulk_customer": TABLE + POOL + TABLE,
}

TABLE_B = bytes.fromhex(
    "00000048 01 02 00010401 01 00"
    "00 0000 00 00 04 01 00"
    "00 0000 01 00 00 05 02 03"
    "00 0000 00 01 00 00 00 00000001 03 01 00"
    "01 00 0000 00 00 03 01 00"
    "00 01 01 00"
    "00 0000 00 01 00 00 00 00000007 03 01 00"
)

# The same without scopes and nestings, in version 2.
BRIEF_B = bytes.fromhex(
    "00000038 02 02 00010401 01 00"
    "00 00 04 01 00"
    "00 00 05 02 03"
    "00 01 00 00 00 00000001 03 01 00"
    "01 00 00 03 01 00"
    "00 01 01 00"
    "00 01 00 00 00 00000007 03 01 00"
)


def library(path):
    """The shared object, with its calls declared."""
    lib = ctypes.CDLL(path)
    for name, parameters in CALLS.items():
        call = getattr(lib, name)
        call.argtypes = parameters
        call.restype = ctypes.c_uint64
    return lib


def lent(table):
    """A table's bytes as two arguments."""
    return (ctypes.c_uint8 * len(table)).from_buffer_copy(table), len(table)


class Held:
    """Answers held to what they must be."""

    wrong = 0

    def hold(self, what, found, due):
        if found != due:
            print(f"  {what} is {found} and must be {due}")
            self.wrong += 1

    def given(self, call, answer, value):
        print(f"{call}: given {VALUE(answer)}")
        self.hold("given", GIVEN(answer), 1)
        self.hold("the value", VALUE(answer), value)

    def refused(self, call, answer, number):
        print(f"{call}: refused {NUMBER(answer)}")
        self.hold("given", GIVEN(answer), 0)
        self.hold("the number", NUMBER(answer), number)


def judge(lib, held):
    """The table is read, checked and asked for its depth; a damaged one is refused with its place."""
    damaged = bytearray(TABLE_B)
    damaged[5] = 0
    answer = lib.mezdaulk_read(*lent(damaged))
    held.refused("read with no function", answer, REFUSED_FORM)
    held.hold("the place", PLACE(answer), 5)
    held.given("read", lib.mezdaulk_read(*lent(TABLE_B)), 0)
    held.given("check", lib.mezdaulk_check(*lent(TABLE_B)), 0)
    held.given("depth", lib.mezdaulk_depth(*lent(TABLE_B)), 1)


def tidy(lib, held):
    """B is tidy; the same job with a dead block between its blocks has B as its tidy table."""
    untidy = bytearray(TABLE_B)
    untidy[8] += 1
    untidy[27:29] = 3, 4
    untidy[29:29] = bytes.fromhex("00 0000 00 00 00 02 00")
    untidy[3] = len(untidy)
    for table in (TABLE_B, untidy):
        out = (ctypes.c_uint8 * len(table))()
        room = len(TABLE_B)
        held.refused("tidy with too little room", lib.mezdaulk_tidy(*lent(table), out, room - 1), REFUSED_ROOM)
        held.hold("the output", bytes(out), bytes(len(table)))
        held.given("tidy", lib.mezdaulk_tidy(*lent(table), out, len(out)), room)
        held.hold("the tidy table", bytes(out[:room]), TABLE_B)


def complete(lib, held):
    """B is completed from version 2, which every other call refuses; what cannot be completed is refused with its place."""
    out = (ctypes.c_uint8 * OUTPUT_BYTES)(*[9] * OUTPUT_BYTES)
    scratch = (ctypes.c_uint32 * SCRATCH_WORDS)(*[9] * SCRATCH_WORDS)
    held.refused("check of version 2", lib.mezdaulk_check(*lent(BRIEF_B)), REFUSED_VERSION)
    answer = lib.mezdaulk_complete(*lent(BRIEF_B), out, len(out) - 1, scratch, len(scratch))
    held.refused("complete with another output", answer, REFUSED_LENT)
    for at, byte, number, block in ((21, 2, REFUSED_UNREACHED, 3), (16, 1, REFUSED_IMPOSSIBLE, NOWHERE)):
        damaged = bytearray(BRIEF_B)
        damaged[at] = byte
        answer = lib.mezdaulk_complete(*lent(damaged), out, len(out), scratch, len(scratch))
        held.refused("complete of a damaged table", answer, number)
        held.hold("the place", (FUNCTION(answer), BLOCK(answer)), (0, block))
        held.hold("the output", bytes(out), bytes([9] * OUTPUT_BYTES))
    answer = lib.mezdaulk_complete(*lent(BRIEF_B), out, len(out), scratch, len(scratch))
    held.given("complete", answer, len(TABLE_B))
    held.hold("the output", bytes(out), TABLE_B + bytes(OUTPUT_BYTES - len(TABLE_B)))
    held.hold("the scratch", list(scratch), [0] * SCRATCH_WORDS)


def beats(lib, held):
    """A pool is run by beats, with three tokens for every step: one pays for the promotion, one goes with the child and comes back."""
    table = lent(TABLE_B)
    pool = (ctypes.c_int32 * POOL_WORDS)(), POOL_WORDS
    values = Values(-1, -1, -1, -1)
    held.given("start", lib.mezdaulk_start(*table, *pool), 0)
    held.refused("beat 0 with 256 tokens for every step", lib.mezdaulk_beat(*table, *pool, 0, 1, 256), REFUSED_PACE)
    for thread, rule, promotions, work_and_tokens in ((0, RULE_SPORK, 1, [0, 1]), (1, RULE_STMT, 0, [0, 4]), (0, RULE_PROM, 0, [0, 8])):
        answer = lib.mezdaulk_beat(*table, *pool, thread, 1, 3)
        held.given(f"beat {thread}", answer, rule + 256 * promotions)
        held.hold("the rule and the promotions", (RULE(answer), PROMOTIONS(answer)), (rule, promotions))
        held.hold("work and tokens", pool[0][2 + 211 * thread:4 + 211 * thread], work_and_tokens)
    held.given("values", lib.mezdaulk_values(*table, *pool, values), 1)
    held.hold("the values", list(values), [7, -1, -1, -1])

    held.given("start", lib.mezdaulk_start(*table, *pool), 0)
    threads = (ctypes.c_uint32 * 4)(0, 1, 0, 0)
    made = (ctypes.c_uint64 * 2)(99, 99)
    held.refused("beats 0, 1, 0, 0", lib.mezdaulk_run(*table, *pool, 1, 3, threads, len(threads), made), REFUSED_ENDED)
    held.hold("the steps and promotions made", list(made), [3, 1])


def steps_by_first(lib, table, pool, most=None):
    """Steps of the first thread that can step, until there is none or so many are made: each thread with its rule, in order."""
    made = []
    while most is None or len(made) < most:
        first = lib.mezdaulk_which(*table, *pool)
        if not GIVEN(first):
            raise ValueError(f"which: refused {NUMBER(first)}")
        if VALUE(first) == NO_THREAD:
            break
        step = lib.mezdaulk_choose(*table, *pool, STEP, VALUE(first))
        assert GIVEN(step), "a step of the thread that can step is never refused"
        made.append((VALUE(first), VALUE(step)))
    return made


def by_first(lib, held):
    """Pools with a promoted child are run by the first thread that can step: of B, where main waits for it, and of B with a statement
    before its spoin, where both can step. Twice, the second time in two parts, and once more as one schedule."""
    busy = bytearray(TABLE_B)
    busy[25:26] = bytes.fromhex("01 00 00 00 00000000")
    busy[3] = len(busy)
    waits = [(1, RULE_STMT), (0, RULE_PROM)]
    for code, due in ((TABLE_B, waits), (busy, [(0, RULE_STMT)] + waits)):
        table = lent(code)
        whole, parts, replayed = (((ctypes.c_int32 * POOL_WORDS)(), POOL_WORDS) for _ in range(3))
        for pool in (whole, parts, replayed):
            held.given("start", lib.mezdaulk_start(*table, *pool), 0)
            held.given("step 0", lib.mezdaulk_choose(*table, *pool, STEP, 0), RULE_SPORK)
            held.given("promote 0", lib.mezdaulk_choose(*table, *pool, PROMOTE, 0), RULE_PROMOTE)
        steps = steps_by_first(lib, table, whole)
        print(f"steps by the first: {steps}")
        held.hold("the steps by the first", steps, due)
        begun = steps_by_first(lib, table, parts, 1)
        held.hold("one step by the first", begun, steps[:1])
        held.hold("the steps in two parts", begun + steps_by_first(lib, table, parts), steps)
        held.hold("the words in two parts", list(parts[0]), list(whole[0]))
        choices = (Choice * len(steps))(*((STEP, thread) for thread, _ in steps))
        made = ctypes.c_uint64(99)
        held.given("the steps as a schedule", lib.mezdaulk_schedule(*table, *replayed, choices, len(choices), ctypes.byref(made)), 0)
        held.hold("the words of the schedule", list(replayed[0]), list(whole[0]))
        values = Values(-1, -1, -1, -1)
        held.given("values", lib.mezdaulk_values(*table, *whole, values), 1)
        held.hold("the values", list(values), [7, -1, -1, -1])


def listings(lib, held):
    """B's child has ended with a value: the customer sees it, and the operator sees the same whatever it is. An output that is one byte
    shorter than the listing is refused, and stays; behind the listing it stays too."""
    table = lent(TABLE_B)
    pool = (ctypes.c_int32 * POOL_WORDS)(), POOL_WORDS
    held.given("start", lib.mezdaulk_start(*table, *pool), 0)
    for kind, thread, rule in ((STEP, 0, RULE_SPORK), (PROMOTE, 0, RULE_PROMOTE), (STEP, 1, RULE_STMT)):
        held.given("a choice", lib.mezdaulk_choose(*table, *pool, kind, thread), rule)
    operators = "0 1 0 1 0 1 1\n 1 1 1 0 1 0 0\n"
    for value in (7, -2147483648):
        pool[0][225] = value  # temporary 0 of thread 1
        customers = f"0 1 0 1 0 1 1\n 1 1 1 0 1 0 0 0 {value}\n"
        for whose, call, due in (("operator", lib.mezdaulk_operator, operators), ("customer", lib.mezdaulk_customer, customers)):
            fresh = b"." * LISTING_BYTES
            out = (ctypes.c_uint8 * LISTING_BYTES).from_buffer_copy(fresh)
            held.refused(f"the {whose}'s listing with too little room", call(*table, *pool, out, len(due) - 1), REFUSED_LISTING)
            held.hold("the output", bytes(out), fresh)
            held.given(f"the {whose}'s listing", call(*table, *pool, out, len(out)), len(due))
            print(bytes(out[:len(due)]).decode(), end="")
            held.hold("the output", bytes(out), due.encode() + fresh[len(due):])


def standing(lib, table, pool):
    """Where no thread can step and main has not returned: the threads whose step gets 18 or 29, each with that number."""
    steps = ((thread, lib.mezdaulk_choose(*table, *pool, STEP, thread)) for thread in range(NO_THREAD))
    return [(thread, NUMBER(step)) for thread, step in steps if NUMBER(step) in (REFUSED_FRAMES, REFUSED_OVERFLOW)]


def overflows(lib, held):
    """B, whose child works out 2147483647 + 1 in place of 7: the child overflows, and main waits for it."""
    code = bytearray(TABLE_B)
    code[63:69] = bytes.fromhex("02 00 7FFFFFFF 00 00000001")
    code[3] = len(code)
    table = lent(code)
    pool = (ctypes.c_int32 * POOL_WORDS)(), POOL_WORDS
    held.given("check of a table that overflows", lib.mezdaulk_check(*table), 0)
    held.given("start", lib.mezdaulk_start(*table, *pool), 0)
    choices = (Choice * 3)((STEP, 0), (PROMOTE, 0), (STEP, 1))
    made = ctypes.c_uint64(99)
    answer = lib.mezdaulk_schedule(*table, *pool, choices, len(choices), ctypes.byref(made))
    held.refused("step 0, promote 0, step 1", answer, REFUSED_OVERFLOW)
    held.hold("the number made", made.value, 2)
    before = list(pool[0])
    held.refused("step 0", lib.mezdaulk_choose(*table, *pool, STEP, 0), REFUSED_WAITS)
    held.refused("beat 1", lib.mezdaulk_beat(*table, *pool, 1, 1, 1), REFUSED_OVERFLOW)
    held.given("which", lib.mezdaulk_which(*table, *pool), NO_THREAD)
    held.given("values", lib.mezdaulk_values(*table, *pool, Values(-1, -1, -1, -1)), OPEN)
    held.hold("what keeps the pool standing", standing(lib, table, pool), [(1, REFUSED_OVERFLOW)])
    held.hold("the words", list(pool[0]), before)


def run(lib, held):
    """A pool is started and run to its result."""
    table = lent(TABLE_B)
    pool = (ctypes.c_int32 * POOL_WORDS)(), POOL_WORDS
    values = Values(-1, -1, -1, -1)
    held.refused("start with no words", lib.mezdaulk_start(*table, None, 0), REFUSED_WORDS)
    held.given("start", lib.mezdaulk_start(*table, *pool), 0)
    held.given("which", lib.mezdaulk_which(*table, *pool), 0)
    held.given("values", lib.mezdaulk_values(*table, *pool, values), OPEN)
    held.given("step 0", lib.mezdaulk_choose(*table, *pool, STEP, 0), RULE_SPORK)
    held.given("promote 0", lib.mezdaulk_choose(*table, *pool, PROMOTE, 0), RULE_PROMOTE)
    held.refused("step 0", lib.mezdaulk_choose(*table, *pool, STEP, 0), REFUSED_WAITS)
    held.given("which", lib.mezdaulk_which(*table, *pool), 1)

    choices = (Choice * 3)((STEP, 1), (STEP, 0), (STEP, 0))
    made = ctypes.c_uint64(99)
    answer = lib.mezdaulk_schedule(*table, *pool, choices, len(choices), ctypes.byref(made))
    held.refused("step 1, step 0, step 0", answer, REFUSED_ENDED)
    held.hold("the number made", made.value, 2)
    held.given("which", lib.mezdaulk_which(*table, *pool), NO_THREAD)
    held.given("values", lib.mezdaulk_values(*table, *pool, values), 1)
    held.hold("the values", list(values), [7, -1, -1, -1])
    print(f"result {values[0]}")


def main():
    built = pathlib.Path(__file__).resolve().parents[2] / "target/make/libmezdaulk.so"
    path = sys.argv[1] if len(sys.argv) > 1 else os.environ.get("MEZDAULK_LIBRARY", str(built))
    held = Held()
    lib = library(path)
    judge(lib, held)
    tidy(lib, held)
    complete(lib, held)
    beats(lib, held)
    by_first(lib, held)
    listings(lib, held)
    overflows(lib, held)
    run(lib, held)
    return 1 if held.wrong else 0


if __name__ == "__main__":
    sys.exit(main())
