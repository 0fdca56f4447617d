/*
 * Replays sequences of calls, which the model's programs `sequences`, `lists`, `pairs` and `points` write, and compares
 * every answer, state, memory and scratch with the model's, bit for bit. Reads them from standard input;
 * model/src/sequences/stream.rs describes their form.
 *
 * Memory, state, step count, load lists, scratch and breakpoints each stand between pages that no access may touch:
 * every sequence is played twice, once with its first bytes right after such a page, once with its last bytes right
 * before one. The bytes that share their pages are filled and must stay as they are. So an access beside them is
 * caught, in code without a sanitizer too. Two equal lists are lent as two the first time, as one and the same the
 * second time; no breakpoints by a pointer to such a page the first time, by a null pointer the second time.
 *
 * Besides it is checked that a refused call changes neither state nor memory, that a run is as many steps and is held
 * where they come to a breakpoint and nowhere else, that lists and breakpoints stay as they are, and that the helpers
 * of midesk.h read and write the whole state.
 *
 * Exit status: 0 all equal, 1 something differs, 2 the input cannot be used.
 */
#define _DEFAULT_SOURCE
#include <signal.h>
#include <stdio.h>
#include <stdlib.h>
#include <string.h>
#include <unistd.h>

#include "guards.h"
#include "midesk.h"

#define STATE MIDESK_STATE_BYTES
#define LONGEST ((size_t)MIDESK_MAX_MEMORY + PAGE)
#define LONGEST_LIST ((size_t)1 << 20)
#define MOST_POINTS 70 /* the most breakpoints in the input */
#define SECONDS 20 /* a sequence that takes longer hangs */
#define SHOWN 5    /* differences that are printed */
#define LIST_BROKEN 17u   /* the refusal of a list that is cut short or has bytes after its end */
#define MANY_POINTS 20u   /* the refusal of too many breakpoints */
#define SCRATCH_SHORT 22u /* the refusal of a scratch that is shorter than the memory */

/* ---- What is being done, for the messages. */

static unsigned long now_sequence, now_act;
static const char *now_call = "nothing";
static char now_family[256];
static const char *now_place = "";
static int first_time; /* the first of the two times that a sequence is played, whose calls are counted */
static unsigned long differ; /* sequences that differ */

static void bad_input(const char *what)
{
    fprintf(stderr, "compare: cannot use the input: %s (sequence %lu, act %lu)\n", what, now_sequence, now_act);
    exit(2);
}

/* ---- Buffers between guards. */

static struct buffer memory = {"memory", NULL, 0, 0, NULL, 0};
static struct buffer state = {"state", NULL, 0, 0, NULL, 0};
static struct buffer count = {"step count", NULL, 0, 0, NULL, 0};
static struct buffer list = {"list", NULL, 0, 0, NULL, 0};
static struct buffer second = {"second list", NULL, 0, 0, NULL, 0};
static struct buffer scratch = {"scratch", NULL, 0, 0, NULL, 0};
static struct buffer points = {"breakpoints", NULL, 0, 0, NULL, 0};
static struct buffer *const buffers[] = {&memory, &state, &count, &list, &second, &scratch, &points};
#define BUFFERS (sizeof buffers / sizeof buffers[0])

static void say_and_leave(const char *what)
{
    char line[512];
    int n = snprintf(line, sizeof line, "compare: sequence %lu (%s), act %lu (%s), %s: %s\n", now_sequence, now_family,
                     now_act, now_call, now_place, what);
    if (n > 0 && write(STDERR_FILENO, line, (size_t)n < sizeof line ? (size_t)n : sizeof line - 1) < 0)
        _exit(1);
    _exit(1);
}

static void on_touch(int number, siginfo_t *info, void *context)
{
    char where[128] = "an address of none of the buffers";
    const uint8_t *touched = (const uint8_t *)info->si_addr;
    size_t i = 0;
    (void)number;
    (void)context;
    while (i < BUFFERS && !say_where(where, sizeof where, buffers[i], touched))
        i++;
    strcat(where, " was touched");
    say_and_leave(where);
}

static void on_alarm(int number)
{
    (void)number;
    say_and_leave("no answer; the call hangs");
}

/* ---- The input. */

/* The acts, by their numbers in the input: four calls, then what the caller does itself, then three calls more. */
enum act { FRESH, STEP, RUN, REQUEST, PUT_STATE, PUT_MEMORY, PUT_LENGTH, LOAD, LOAD_BOTH, RUN_TO, ACTS };

static const char *const act_names[ACTS] = {"fresh",
                                            "step",
                                            "run",
                                            "request",
                                            "the caller's state",
                                            "the caller's memory",
                                            "the caller's length",
                                            "load",
                                            "load_both",
                                            "run_to"};

struct reader {
    const uint8_t *at, *end;
};

static const uint8_t *take(struct reader *r, size_t n)
{
    const uint8_t *p = r->at;
    if ((size_t)(r->end - r->at) < n)
        bad_input("a sequence is shorter than its contents");
    r->at += n;
    return p;
}

static uint32_t take_u32(struct reader *r)
{
    return midesk_word(take(r, 4), 0);
}

static uint64_t take_u64(struct reader *r)
{
    uint64_t high = take_u32(r);
    return high << 32 | take_u32(r);
}

static void get(void *to, size_t n)
{
    if (n != 0 && fread(to, 1, n, stdin) != n)
        bad_input(ferror(stdin) ? "it cannot be read" : "it is cut short");
}

/* Makes the changes in bytes[0 .. len]. */
static void change(struct reader *r, uint8_t *bytes, size_t len)
{
    uint32_t places = take_u32(r), i;
    for (i = 0; i < places; i++) {
        size_t at = take_u32(r), n = take_u32(r);
        if (at > len || n > len - at || n == 0)
            bad_input("a change lies past the memory");
        memcpy(bytes + at, take(r, n), n);
    }
}

/* ---- Comparing. */

static uint8_t *expected; /* the model's memory */
static uint8_t *after;    /* the memory after a run */
static uint8_t *noted;    /* the scratch as it must be */
static uint8_t given[MOST_POINTS * sizeof(midesk_breakpoint)]; /* the breakpoints as they must stay */
static unsigned long calls, loads, both, runs, run_steps, runs_to, held, refused;

static int fail(const char *what, const char *detail)
{
    if (differ < SHOWN)
        fprintf(stderr, "compare: sequence %lu (%s), act %lu (%s), %s: %s%s\n", now_sequence, now_family, now_act,
                now_call, now_place, what, detail);
    return 0;
}

static int same_number(const char *what, uint64_t have, uint64_t want)
{
    char detail[96];
    if (have == want)
        return 1;
    snprintf(detail, sizeof detail, " is %llXh, the model's %llXh", (unsigned long long)have, (unsigned long long)want);
    return fail(what, detail);
}

static int same_bytes(const char *what, const uint8_t *have, const uint8_t *want, size_t n)
{
    char detail[96];
    size_t i = 0;
    if (n == 0 || memcmp(have, want, n) == 0)
        return 1;
    while (have[i] == want[i])
        i++;
    snprintf(detail, sizeof detail, ": byte %lu is %02Xh, not %02Xh", (unsigned long)i, have[i], want[i]);
    return fail(what, detail);
}

static int all_kept(void)
{
    size_t i;
    for (i = 0; i < BUFFERS; i++)
        if (!kept(buffers[i]))
            return fail("a byte was written beside the ", buffers[i]->name);
    return 1;
}

static uint64_t get_count(void)
{
    uint64_t n;
    memcpy(&n, count.at, sizeof n);
    return n;
}

static uint32_t call_run(uint64_t n)
{
    return midesk_run(memory.at, memory.len, state.at, n, (uint64_t *)(void *)count.at);
}

/* No breakpoints are lent by a null pointer the second time. */
static uint64_t call_run_to(uint64_t n)
{
    const void *lent = points.len == 0 && !first_time ? NULL : points.at;
    return midesk_run_to(memory.at, memory.len, state.at, n, (const midesk_breakpoint *)lent,
                         points.len / sizeof(midesk_breakpoint), (uint64_t *)(void *)count.at);
}

/* The answer of midesk_step and midesk_run_to to what this number refuses. */
static uint64_t refused_by(uint32_t number)
{
    return (uint64_t)MIDESK_REFUSED << 32 | number;
}

/* Whether a breakpoint holds the desk before its next step, and if so which. */
static int is_held(size_t *which)
{
    const midesk_breakpoint *lent = (const midesk_breakpoint *)(const void *)points.at;
    const size_t n = points.len / sizeof *lent;
    const uint32_t status = midesk_word(state.at, MIDESK_STATUS);
    const unsigned level = (status & MIDESK_LEVEL) / 16;
    if ((status & MIDESK_KERNEL) == 0 && midesk_pending(state.at) >> (level + 1) != 0)
        return 0;
    for (*which = 0; *which < n; ++*which)
        if (lent[*which].armed && lent[*which].r15 == midesk_register(state.at, MIDESK_PC))
            return 1;
    return 0;
}

/* Whether a run of n steps with this answer ends after so many, of which the last answered `last`. */
static int ends(uint64_t n, uint64_t answer, uint64_t made, uint64_t last)
{
    const int stopped = made != 0 && midesk_kind(last) == MIDESK_STOPPED;
    size_t which;
    switch (midesk_kind(answer)) {
    case MIDESK_ENDED: return made == n || (made < n && stopped);
    case MIDESK_HELD: return made != 0 && made < n && !stopped && is_held(&which) && which == midesk_number(answer);
    default: return made == 0;
    }
}

/* Makes the steps of a run one by one, from `before` and the memory `expected`, and compares with what the run left.
   The answer is in the form of midesk_run_to's; a run of midesk_run has no breakpoints. */
static int run_as_steps(uint64_t n, uint64_t answer, uint64_t made, const uint8_t before[STATE])
{
    uint8_t left[STATE];
    uint64_t i, a = 0;
    size_t which;
    int ok = 1;
    memcpy(left, state.at, STATE);
    memcpy(state.at, before, STATE);
    if (memory.len != 0) {
        memcpy(after, memory.at, memory.len);
        memcpy(memory.at, expected, memory.len);
    }
    if (midesk_kind(answer) == MIDESK_REFUSED && midesk_number(answer) != MANY_POINTS)
        ok = same_number("a step instead of the refused run", midesk_step(memory.at, memory.len, state.at), answer);
    for (i = 0; ok && i < made; i++) {
        if (i != 0 && is_held(&which))
            ok = fail("the run", " goes on at a breakpoint");
        a = midesk_step(memory.at, memory.len, state.at);
        if (midesk_kind(a) == MIDESK_REFUSED || (midesk_kind(a) == MIDESK_STOPPED && i + 1 < made))
            ok = fail("a step of the run", " is refused or stops before the run's end");
    }
    if (ok && !ends(n, answer, made, a))
        ok = fail("the run's end", " is not where its steps end");
    if (first_time)
        run_steps += (unsigned long)made;
    return ok && same_bytes("state of the steps against that of the run", state.at, left, STATE)
        && same_bytes("memory of the steps against that of the run", memory.at, after, memory.len);
}

static uint32_t call_load_both(void)
{
    const int equal = list.len == second.len && (list.len == 0 || memcmp(list.at, second.at, list.len) == 0);
    return midesk_load_both(memory.at, memory.len, list.at, list.len, equal && !first_time ? list.at : second.at,
                            second.len, scratch.at, scratch.len);
}

/* What is expected of the scratch after a call is read here. */
static void expect_scratch(struct reader *r)
{
    switch (*take(r, 1)) {
    case 0: break;
    case 1: memset(noted, 0, scratch.len); break;
    default: bad_input("a scratch is neither as it was nor all zeros");
    }
}

/* Makes one call and compares. Its arguments are read already; `bytes` are the lists of a load as they must stay. What
 * is expected of the call is read here. */
static int call(struct reader *r, unsigned act, const uint32_t words[3], uint64_t n, const uint8_t *const bytes[2])
{
    uint8_t before[STATE];
    const uint8_t *want_state;
    const int has_kind = act == STEP || act == RUN_TO, is_run = act == RUN || act == RUN_TO;
    uint64_t answer = 0, want, made = 0, want_made = 0;
    int ok, is_refused;
    memcpy(before, state.at, STATE);
    memset(count.at, FILL, sizeof made);
    switch (act) {
    case FRESH: answer = midesk_fresh(memory.at, memory.len, words[0], words[1], words[2], state.at); break;
    case STEP: answer = midesk_step(memory.at, memory.len, state.at); break;
    case RUN:
        answer = call_run(n);
        made = get_count();
        break;
    case LOAD: answer = midesk_load(memory.at, memory.len, list.at, list.len); break;
    case LOAD_BOTH: answer = call_load_both(); break;
    case RUN_TO:
        answer = call_run_to(n);
        made = get_count();
        break;
    default: answer = midesk_request(state.at, words[0]); break;
    }
    want = has_kind ? take_u64(r) : take_u32(r);
    if (is_run)
        want_made = take_u64(r);
    if (act == LOAD_BOTH)
        expect_scratch(r);
    want_state = take(r, STATE);
    is_refused = has_kind ? midesk_kind(answer) == MIDESK_REFUSED : answer != MIDESK_OK;
    if (first_time) {
        calls++;
        refused += (unsigned long)is_refused;
        runs += (unsigned long)is_run;
        loads += act == LOAD;
        both += act == LOAD_BOTH;
        runs_to += act == RUN_TO;
        held += act == RUN_TO && midesk_kind(answer) == MIDESK_HELD;
    }
    ok = same_number("the answer", answer, want) && same_number("the step count", made, want_made)
        && (act == FRESH || !is_refused || same_bytes("state of a refused call", state.at, before, STATE))
        && same_bytes("state", state.at, want_state, STATE) && all_kept()
        && ((act != LOAD && act != LOAD_BOTH) || same_bytes("the list after its load", list.at, bytes[0], list.len))
        && (act != LOAD_BOTH
            || (same_bytes("the second list after its load", second.at, bytes[1], second.len)
                && same_bytes("the scratch", scratch.at, noted, scratch.len)))
        && same_bytes("the breakpoints after the run", points.at, given, points.len);
    if (ok && (is_refused || act == FRESH || act == REQUEST))
        ok = same_bytes("memory of a call that leaves it alone", memory.at, expected, memory.len);
    if (ok && is_run)
        ok = run_as_steps(n, act == RUN && is_refused ? refused_by((uint32_t)answer) : answer, made, before);
    change(r, expected, memory.len);
    return ok && same_bytes("memory", memory.at, expected, memory.len) && all_kept();
}

/* Writes every value of the state into another with the helpers of midesk.h. */
static int helpers(void)
{
    static const size_t words[] = {MIDESK_STATUS,       MIDESK_MAP_BASE,      MIDESK_MAP_LENGTH,
                                   MIDESK_SYSTEM_BLOCK, MIDESK_CONTROL_BLOCK, MIDESK_MARK};
    uint8_t copy[STATE];
    size_t i;
    unsigned k;
    memset(copy, FILL, sizeof copy);
    for (k = 0; k < 16; k++)
        midesk_set_register(copy, k, midesk_register(state.at, k));
    for (i = 0; i < sizeof words / sizeof words[0]; i++)
        midesk_set_word(copy, words[i], midesk_word(state.at, words[i]));
    midesk_set_pending(copy, midesk_pending(state.at));
    if (midesk_running(state.at) != (midesk_mark(state.at) == 0xFFFFFFFFu))
        return fail("midesk_running", " is wrong");
    return same_bytes("state as the helpers copy it", copy, state.at, STATE);
}

/* Gives the memory the bytes that are expected. */
static void fill_memory(void)
{
    if (memory.len != 0)
        memcpy(memory.at, expected, memory.len);
}

/* Lends a memory of this length from here on: cut, or longer by zeros. */
static void lend(size_t len, int high)
{
    if (len > LONGEST)
        bad_input("a memory length is too great");
    if (len > memory.len)
        memset(expected + memory.len, 0, len - memory.len);
    place(&memory, len, high);
    fill_memory();
}

/* The changes that the caller makes in the memory. */
static void change_memory(struct reader *r)
{
    change(r, expected, memory.len);
    fill_memory();
}

/* Lends a list of exactly its bytes from here on; gives them as they are in the input. */
static const uint8_t *take_list(struct reader *r, struct buffer *b, int high)
{
    size_t len = take_u32(r);
    const uint8_t *bytes = take(r, len);
    if (len > LONGEST_LIST)
        bad_input("a list is too long");
    place(b, len, high);
    if (len != 0)
        memcpy(b->at, bytes, len);
    return bytes;
}

/* Lends a scratch from here on. */
static void take_scratch(struct reader *r, int high)
{
    size_t len = take_u32(r), i;
    unsigned byte = *take(r, 1), add = *take(r, 1);
    if (len > LONGEST)
        bad_input("a scratch is too long");
    place(&scratch, len, high);
    for (i = 0; i < len; i++) {
        noted[i] = (uint8_t)byte;
        byte += add;
    }
    if (len != 0)
        memcpy(scratch.at, noted, len);
}

/* Lends so many breakpoints from here on, those of the input. */
static void take_points(struct reader *r, size_t n, int high)
{
    midesk_breakpoint *lent;
    size_t i;
    if (n > MOST_POINTS)
        bad_input("there are too many breakpoints");
    place(&points, n * sizeof *lent, high);
    lent = (midesk_breakpoint *)(void *)points.at;
    for (i = 0; i < n; i++) {
        memset(&lent[i], FILL, sizeof *lent); /* also the bytes that mean nothing */
        lent[i].r15 = take_u32(r);
        lent[i].armed = *take(r, 1) != 0;
        memcpy(given + i * sizeof *lent, &lent[i], sizeof *lent);
    }
}

/* Lays state and step count at this end. Nothing else is lent yet, but for the memory. */
static void begin(int high)
{
    now_place = high ? "at the upper guard" : "at the lower guard";
    place(&state, STATE, high);
    place(&count, sizeof(uint64_t), high);
    place(&list, 0, high);
    place(&second, 0, high);
    place(&scratch, 0, high);
    place(&points, 0, high);
}

static int play(struct reader r, int high)
{
    uint32_t acts, i;
    first_time = !high;
    now_act = 0;
    now_call = "start";
    begin(high);
    memory.len = 0;
    lend(take_u32(&r), high);
    change_memory(&r);
    memcpy(state.at, take(&r, STATE), STATE);
    acts = take_u32(&r);
    for (i = 0; i < acts; i++) {
        unsigned act = *take(&r, 1);
        uint32_t words[3] = {0, 0, 0};
        uint64_t n = 0;
        const uint8_t *bytes[2] = {NULL, NULL};
        int k;
        now_act = i;
        now_call = act < ACTS ? act_names[act] : "?";
        switch (act) {
        case FRESH:
            for (k = 0; k < 3; k++)
                words[k] = take_u32(&r);
            break;
        case STEP: break;
        case RUN:
            n = take_u64(&r);
            place(&points, 0, high);
            break;
        case REQUEST: words[0] = take_u32(&r); break;
        case PUT_STATE: memcpy(state.at, take(&r, STATE), STATE); break;
        case PUT_MEMORY: change_memory(&r); break;
        case PUT_LENGTH: lend(take_u32(&r), high); break;
        case LOAD: bytes[0] = take_list(&r, &list, high); break;
        case LOAD_BOTH:
            bytes[0] = take_list(&r, &list, high);
            bytes[1] = take_list(&r, &second, high);
            take_scratch(&r, high);
            break;
        case RUN_TO:
            n = take_u64(&r);
            take_points(&r, take_u32(&r), high);
            break;
        default: bad_input("an act of no kind");
        }
        if ((act <= REQUEST || act >= LOAD) && !call(&r, act, words, n, bytes))
            return 0;
        if (!helpers())
            return 0;
    }
    if (r.at != r.end)
        bad_input("a sequence is longer than its contents");
    return 1;
}

/* A null pointer with length 0: as a memory number 1, as a list number 17, as a scratch number 22. No breakpoints are
   lent by it in `play`. */
static int null_memory(int high)
{
    static const uint8_t none[512], end[1];
    uint8_t zero[STATE], any[STATE], least[512] = {0}, lent[512] = {0};
    uint64_t a;
    size_t i;
    int ok;
    now_call = "calls with a null pointer";
    begin(high);
    place(&memory, 0, high);
    for (i = 0; i < STATE; i++)
        any[i] = (uint8_t)(3 * i + 1);
    memset(zero, 0, STATE);
    midesk_set_word(zero, MIDESK_MARK, MIDESK_REFUSED_LENGTH);
    memcpy(state.at, any, STATE);
    ok = same_number("fresh", midesk_fresh(NULL, 0, 0, 0, 0, state.at), MIDESK_REFUSED_LENGTH)
        && same_bytes("state of fresh", state.at, zero, STATE);
    memcpy(state.at, any, STATE);
    ok = ok && same_number("step", midesk_step(NULL, 0, state.at), refused_by(MIDESK_REFUSED_LENGTH));
    for (i = 0; ok && i < 3; i++) {
        uint64_t *steps = (uint64_t *)(void *)count.at;
        memset(count.at, FILL, sizeof a);
        a = midesk_run(NULL, 0, state.at, (uint64_t)i, steps);
        ok = same_number("run", a, MIDESK_REFUSED_LENGTH) && same_number("steps of run", get_count(), 0);
        memset(count.at, FILL, sizeof a);
        a = midesk_run_to(NULL, 0, state.at, (uint64_t)i, NULL, 0, steps);
        ok = ok && same_number("run_to", a, refused_by(MIDESK_REFUSED_LENGTH))
            && same_number("steps of run_to", get_count(), 0);
    }
    ok = ok && same_number("load into it", midesk_load(NULL, 0, end, sizeof end), MIDESK_REFUSED_LENGTH)
        && same_number("load of it", midesk_load(least, sizeof least, NULL, 0), LIST_BROKEN)
        && same_number("load of it into it", midesk_load(NULL, 0, NULL, 0), MIDESK_REFUSED_LENGTH)
        && same_bytes("memory of those loads", least, none, sizeof least);
    a = midesk_load_both(NULL, 0, end, 1, end, 1, lent, 512);
    ok = ok && same_number("load_both into it", a, MIDESK_REFUSED_LENGTH);
    a = midesk_load_both(NULL, 0, NULL, 0, NULL, 0, NULL, 0);
    ok = ok && same_number("load_both of nothing else", a, MIDESK_REFUSED_LENGTH)
        && same_number("load_both of it first", midesk_load_both(least, 512, NULL, 0, end, 1, lent, 512), LIST_BROKEN)
        && same_number("load_both of it second", midesk_load_both(least, 512, end, 1, NULL, 0, lent, 512), LIST_BROKEN)
        && same_number("load_both in it", midesk_load_both(least, 512, end, 1, end, 1, NULL, 0), SCRATCH_SHORT)
        && same_bytes("memory of those calls", least, none, sizeof least)
        && same_bytes("scratch of those calls", lent, none, sizeof lent);
    return ok && same_bytes("state", state.at, any, STATE) && all_kept();
}

/* Lengths, and a count of breakpoints, that would be allowed if only their low 32 bits counted. */
static int long_memory(void)
{
    static const size_t lengths[] = {((size_t)1 << 32) + 1024, ((size_t)1 << 32) + 512, (size_t)1 << 32};
    const size_t many = ((size_t)1 << 32) + 1, room = many * sizeof(midesk_breakpoint);
    uint8_t fresh[STATE], zero[STATE], least[512] = {0}, lent[512] = {0};
    const int how = MAP_PRIVATE | MAP_ANONYMOUS | MAP_NORESERVE;
    void *pages = mmap(NULL, room, PROT_READ | PROT_WRITE, how, -1, 0);
    uint8_t *mem = (uint8_t *)pages;
    uint64_t *steps;
    uint64_t a;
    size_t i;
    int ok = 1;
    if (pages == MAP_FAILED) {
        fprintf(stderr, "compare: 32 GiB cannot be reserved; lengths of more than 4 GiB are left out\n");
        return 1;
    }
    now_call = "calls with more than 4 GiB";
    begin(1);
    steps = (uint64_t *)(void *)count.at;
    memset(zero, 0, STATE);
    midesk_set_word(zero, MIDESK_MARK, MIDESK_REFUSED_LENGTH);
    ok = same_number("fresh", midesk_fresh(least, sizeof least, 0, 256, 0, fresh), MIDESK_OK);
    for (i = 0; ok && i < sizeof lengths / sizeof lengths[0]; i++) {
        ok = same_number("fresh", midesk_fresh(mem, lengths[i], 0, 256, 0, state.at), MIDESK_REFUSED_LENGTH)
            && same_bytes("state of fresh", state.at, zero, STATE);
        memcpy(state.at, fresh, STATE);
        a = midesk_step(mem, lengths[i], state.at);
        ok = ok && same_number("step", a, refused_by(MIDESK_REFUSED_LENGTH));
        a = midesk_run(mem, lengths[i], state.at, 1, steps);
        ok = ok && same_number("run", a, MIDESK_REFUSED_LENGTH) && same_number("steps of run", get_count(), 0);
        a = midesk_run_to(mem, lengths[i], state.at, 1, NULL, 0, steps);
        ok = ok && same_number("run_to", a, refused_by(MIDESK_REFUSED_LENGTH))
            && same_number("steps of run_to", get_count(), 0) && same_bytes("state", state.at, fresh, STATE)
            && same_number("load", midesk_load(mem, lengths[i], least, 1), MIDESK_REFUSED_LENGTH)
            && same_number("load_both", midesk_load_both(mem, lengths[i], least, 1, least, 1, lent, sizeof lent),
                           MIDESK_REFUSED_LENGTH);
    }
    /* A list whose first byte is its end, followed by 4 GiB. */
    i = lengths[2] + 1;
    ok = ok && same_number("load of 4 GiB", midesk_load(least, 512, mem, i), LIST_BROKEN)
        && same_number("4 GiB as first list", midesk_load_both(least, 512, mem, i, mem, 1, lent, 512), LIST_BROKEN)
        && same_number("4 GiB as second list", midesk_load_both(least, 512, mem, 1, mem, i, lent, 512), LIST_BROKEN);
    a = midesk_run_to(least, 512, state.at, 1, (const midesk_breakpoint *)pages, many, steps);
    ok = ok && same_number("run_to with 2^32 + 1 breakpoints", a, refused_by(MANY_POINTS))
        && same_number("steps of run_to", get_count(), 0) && same_bytes("state", state.at, fresh, STATE);
    munmap(pages, room);
    return ok && all_kept();
}

static void catch_signals(void)
{
    struct sigaction s;
    memset(&s, 0, sizeof s);
    sigemptyset(&s.sa_mask);
    s.sa_sigaction = on_touch;
    s.sa_flags = SA_SIGINFO;
    sigaction(SIGSEGV, &s, NULL);
    sigaction(SIGBUS, &s, NULL);
    s.sa_flags = 0;
    s.sa_handler = on_alarm;
    sigaction(SIGALRM, &s, NULL);
}

int main(void)
{
    uint8_t head[12], end[4], word[4];
    uint8_t *bytes = NULL;
    size_t room = 0;
    uint32_t sequences, i;
    int high;
    if ((size_t)sysconf(_SC_PAGESIZE) != PAGE) {
        fprintf(stderr, "compare: pages of 4096 bytes are needed\n");
        return 2;
    }
    expected = (uint8_t *)malloc(LONGEST);
    after = (uint8_t *)malloc(LONGEST);
    noted = (uint8_t *)malloc(LONGEST);
    if (expected == NULL || after == NULL || noted == NULL) {
        perror("compare: malloc");
        return 2;
    }
    reserve(&memory, LONGEST);
    reserve(&state, STATE);
    reserve(&count, sizeof(uint64_t));
    reserve(&list, LONGEST_LIST);
    reserve(&second, LONGEST_LIST);
    reserve(&scratch, LONGEST);
    reserve(&points, sizeof given);
    catch_signals();
    strcpy(now_family, "lengths");
    for (high = 0; high < 2; high++)
        differ += !null_memory(high);
    differ += !long_memory();
    get(head, sizeof head);
    if (memcmp(head, "MISEQ001", 8) != 0)
        bad_input("it does not begin with MISEQ001");
    sequences = midesk_word(head, 8);
    for (i = 0; i < sequences; i++) {
        struct reader r;
        size_t length, name;
        int ok = 1;
        now_sequence = i;
        now_act = 0;
        get(word, 4);
        length = midesk_word(word, 0);
        if (length > room) {
            free(bytes);
            room = 2 * length;
            bytes = (uint8_t *)malloc(room);
            if (bytes == NULL)
                bad_input("a sequence is too long");
        }
        get(bytes, length);
        r.at = bytes;
        r.end = bytes + length;
        name = *take(&r, 1);
        memset(now_family, 0, sizeof now_family);
        memcpy(now_family, take(&r, name), name);
        alarm(SECONDS);
        for (high = 0; ok && high < 2; high++)
            ok = play(r, high);
        differ += !ok;
    }
    alarm(0);
    get(end, sizeof end);
    if (memcmp(end, "END.", 4) != 0)
        bad_input("it does not end with END.");
    if (getchar() != EOF)
        bad_input("it goes on after its end");
    printf("%lu sequences, %lu calls at each guard, %lu of them loads, %lu loads of two lists, %lu runs to breakpoints "
           "(%lu held), %lu refused, %lu runs also made as %lu steps: %lu differ\n",
           (unsigned long)sequences, calls, loads, both, runs_to, held, refused, runs, run_steps, differ);
    free(bytes);
    free(expected);
    free(after);
    free(noted);
    return differ == 0 ? 0 : 1;
}
