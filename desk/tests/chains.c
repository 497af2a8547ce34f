/*
 * Random sound tables, each twice: with every chain rising, and with at least one that does not rise.
 *
 * No answer here depends on the order: every question but the pair question, which pairs.c tries, gives the same answer and the same list
 * or page on both, and leaves the order as it is, and so does a refused change, also one whose list is a byte too short. The first accepted
 * arrival, closing or levelling puts every chain in order, whether a job moved or not: the two tables are then equal, and equal to one
 * written by hand from benches, jobs and holders alone, and the lists of moved jobs are the same. A second change keeps the order. Chains
 * are walked here, word by word; whether they rise is asked of no call.
 *
 * Arguments: the seed, the number of tables.
 */
#include "calls.h"
#include "jobboard.h"
#include "support.h"

#include <inttypes.h>
#include <stdio.h>
#include <stdlib.h>
#include <string.h>

/* The changes; a levelling by its allowance, or on a board that is level already. */
enum change { TAKE_IN, CLOSE, LEVEL_NONE, LEVEL_ONE, LEVEL_ALL, LEVEL_AGAIN, CHANGES };

/* The first change of a table, in turn. Arrivals and closings are what boards are for. */
static const enum change turns[] = {TAKE_IN, CLOSE, LEVEL_NONE, TAKE_IN, CLOSE, LEVEL_ONE, TAKE_IN, CLOSE, LEVEL_ALL, LEVEL_AGAIN};
#define TURNS (sizeof turns / sizeof turns[0])

/* A board with its chains rising, and the same in another order. */
struct pair {
    struct table rising, shuffled;
};

static uint64_t seed;
static uint32_t tables;          /* made up to now */
static uint32_t made[CHANGES];   /* how often each was the first change of a table */
static uint32_t handed[CHANGES]; /* how often that arrival or closing handed jobs along */

static void stop(const struct call *call, const char *what)
{
    char text[DESCRIPTION];
    describe_call(call, text);
    fail("chains: seed %" PRIu64 ", table %u: %s: %s", seed, (unsigned)tables, text, what);
}

static bool same_bytes(const struct table *t, const struct table *u)
{
    return t->length == u->length && memcmp(t->bytes, u->bytes, sizeof t->bytes) == 0;
}

/* ---- Boards ---- */

/* Gives the place of the word that names the job behind this one. */
static size_t next_of(const struct table *t, uint32_t job)
{
    return record_of(t->bytes, job) + 3;
}

/* Tells whether a bench holds two jobs, so that its chain can be in another order. */
static bool holds_two(const struct table *t, uint32_t bench)
{
    uint32_t job = word_at(t->bytes, 3 + bench);
    return job != 0 && word_at(t->bytes, next_of(t, job)) != 0;
}

/* Tells whether the board can be shuffled, and the change made on it; a levelling by allowance only where there is a path to turn. */
static bool suits(const struct table *t, struct random *r, enum change change)
{
    uint32_t level, benches = word_at(t->bytes, 0), bench = 1;
    while (bench <= benches && !holds_two(t, bench))
        bench++;
    if (bench > benches)
        return false;
    if (change == TAKE_IN)
        return pick_job(t, r, false) != 0;
    if (change == CLOSE || change == LEVEL_AGAIN)
        return true;
    return jobboard_level_check(t->bytes, t->length, &level) == JOBBOARD_OK && level == 0;
}

/* Draws a board that suits the change, its chains rising. Some that get an arrival or a closing are level, as boards in use are. */
static void draw_board(struct table *t, struct random *r, enum change change)
{
    uint32_t paths, level;
    bool levelled = change == LEVEL_AGAIN || ((change == TAKE_IN || change == CLOSE) && random_below(r, 3) == 0);
    for (int tries = 0; tries < 1000; tries++) {
        make_board(t, r);
        make_chains(t, NULL);
        if (levelled) {
            jobboard_levelling(t->bytes, t->length, JOBBOARD_ENOUGH_PATHS, &paths, &level);
            make_chains(t, NULL);
        }
        if (suits(t, r, change))
            return;
    }
    fail("chains: seed %" PRIu64 ", table %u: none of 1000 boards suits change %d", seed, (unsigned)tables, (int)change);
}

/* Makes two neighbours on a chain change places. All others stay in order, so that whoever looks at a few jobs sees nothing. */
static void swap_neighbours(struct table *t, struct random *r)
{
    uint32_t benches = word_at(t->bytes, 0), bench = random_within(r, 1, benches);
    while (!holds_two(t, bench))
        bench = bench % benches + 1;
    size_t place = 3 + bench;
    uint32_t one = word_at(t->bytes, place), two = word_at(t->bytes, next_of(t, one)), behind = word_at(t->bytes, next_of(t, two));
    while (behind != 0 && random_below(r, 6) != 0) {
        place = next_of(t, one);
        one = two;
        two = behind;
        behind = word_at(t->bytes, next_of(t, two));
    }
    put_word(t->bytes, place, two);
    put_word(t->bytes, next_of(t, two), one);
    put_word(t->bytes, next_of(t, one), behind);
}

static void draw_pair(struct pair *p, struct random *r, enum change change)
{
    draw_board(&p->rising, r, change);
    p->shuffled = p->rising;
    if (random_below(r, 3) == 0)
        swap_neighbours(&p->shuffled, r);
    else
        do
            make_chains(&p->shuffled, r);
        while (chains_rise(p->shuffled.bytes));
    if (!chains_rise(p->rising.bytes) || chains_rise(p->shuffled.bytes))
        fail("chains: seed %" PRIu64 ", table %u: not made as meant", seed, (unsigned)tables);
}

/* ---- Calls that change no byte ---- */

/* Makes a call on both tables, with a list or a page of its length for each. Expects this return, and the same answer and lent bytes. */
static struct answer call_both(struct pair *p, struct call call, uint32_t returned)
{
    static uint8_t lent[2][JOBBOARD_MOST_PAGE_BYTES];
    memset(lent[0], UNWRITTEN, call.lent_bytes);
    memset(lent[1], UNWRITTEN, call.lent_bytes);
    call.lent = lent[0];
    struct answer a = make_call(&call, p->rising.bytes, p->rising.length);
    call.lent = lent[1];
    struct answer b = make_call(&call, p->shuffled.bytes, p->shuffled.length);
    if (a.returned != returned || b.returned != returned)
        stop(&call, "another return than expected");
    if (!same_answer(a, b))
        stop(&call, "another answer where the chains do not rise");
    if (memcmp(lent[0], lent[1], call.lent_bytes) != 0)
        stop(&call, "another list or page where the chains do not rise");
    return a;
}

/* Does the same with a question or a change that is refused, and expects both tables as they were. */
static struct answer call_unchanging(struct pair *p, struct call call, uint32_t returned)
{
    static struct pair before;
    before = *p;
    struct answer a = call_both(p, call, returned);
    if (!same_bytes(&p->rising, &before.rising) || !same_bytes(&p->shuffled, &before.shuffled))
        stop(&call, "a question or a refused change changed the table");
    return a;
}

static struct answer ask(struct pair *p, enum kind kind, uint32_t number, size_t lent_bytes, uint32_t returned)
{
    return call_unchanging(p, (struct call){kind, {number, 0, 0}, NULL, lent_bytes}, returned);
}

/* Asks every question but the pair question, of few benches and heights where there are many, and some so that they are refused. */
static void ask_all(struct pair *p, struct random *r)
{
    uint32_t benches = word_at(p->rising.bytes, 0), jobs = word_at(p->rising.bytes, 1), step = 1 + benches / 8;
    size_t page = JOBBOARD_SHEET_LINE_BYTES * (size_t)(benches + jobs / 12);
    ask(p, CHECK, 0, 0, JOBBOARD_OK);
    ask(p, LEVEL_CHECK, 0, 0, JOBBOARD_OK);
    uint32_t most = ask(p, HEAVIEST, 0, 0, JOBBOARD_OK).values[0];
    for (uint32_t bench = random_within(r, 1, step); bench <= benches; bench += step)
        ask(p, LOAD, bench, 0, JOBBOARD_OK);
    ask(p, LOAD, benches + 1, 0, JOBBOARD_BENCH_NUMBER);
    for (uint32_t height = 1; height <= most; height += 1 + most / 8)
        ask(p, TIGHT_SET, height, 2 * (size_t)benches, JOBBOARD_OK);
    ask(p, TIGHT_SET, most, 1, JOBBOARD_LIST_TOO_SHORT);
    ask(p, TIGHT_SET, most + 1, 2 * (size_t)benches, JOBBOARD_HEIGHT);
    uint32_t length = ask(p, SHEET, 0, page, JOBBOARD_OK).values[0];
    ask(p, SHEET, 0, length - 1, JOBBOARD_PAGE_TOO_SHORT);
}

/* Makes a change that must be refused with this number; chains that do not rise stay as they are. */
static void expect_refused(struct table *t, struct call call, uint32_t number)
{
    static struct table before;
    before = *t;
    struct answer a = make_call(&call, t->bytes, t->length);
    if (a.returned != number)
        stop(&call, "another return than the refusal expected");
    if (!same_bytes(t, &before))
        stop(&call, "a refused change changed the table");
}

/* Makes each change so that it is refused; a levelling by a word 3 that is not 0, for only its form can refuse it. */
static void refuse_all(struct table *t, struct random *r)
{
    uint32_t benches = word_at(t->bytes, 0), jobs = word_at(t->bytes, 1);
    uint32_t standing = pick_job(t, r, true), missing = pick_job(t, r, false);
    expect_refused(t, (struct call){BLANK, {benches + 1, jobs, 0}, NULL, 0}, JOBBOARD_SIZES);
    expect_refused(t, (struct call){ARRIVAL, {standing, 1, 2}, NULL, 0}, JOBBOARD_ALREADY_STANDING);
    expect_refused(t, (struct call){ARRIVAL, {jobs + 1, 1, 2}, NULL, 0}, JOBBOARD_JOB_NUMBER);
    expect_refused(t, (struct call){CLOSING, {0, 0, 0}, NULL, 0}, JOBBOARD_JOB_NUMBER);
    if (missing != 0) {
        expect_refused(t, (struct call){ARRIVAL, {missing, 1, 1}, NULL, 0}, JOBBOARD_BENCH_NUMBER);
        expect_refused(t, (struct call){CLOSING, {missing, 0, 0}, NULL, 0}, JOBBOARD_NOT_STANDING);
    }
    put_word(t->bytes, 3, 1);
    expect_refused(t, (struct call){LEVELLING, {0, 0, 0}, NULL, 0}, JOBBOARD_UNSOUND);
    expect_refused(t, (struct call){LEVELLING, {JOBBOARD_ENOUGH_PATHS, 0, 0}, NULL, 0}, JOBBOARD_UNSOUND);
    put_word(t->bytes, 3, 0);
}

/* ---- Changes ---- */

/* Writes a table anew, by hand, from the sizes of another and the names and holder of each of its jobs. */
static void write_anew(struct table *anew, const struct table *t)
{
    make_empty(anew, word_at(t->bytes, 0), word_at(t->bytes, 1));
    for (uint32_t job = 1; job <= word_at(t->bytes, 1); job++) {
        size_t record = record_of(t->bytes, job);
        make_stand(anew, job, word_at(t->bytes, record), word_at(t->bytes, record + 1), word_at(t->bytes, record + 2));
    }
    make_chains(anew, NULL);
}

/* Chooses the call of a change. An arrival names the benches of a standing job, rather than two that may hold nothing. */
static struct call call_of(const struct table *t, struct random *r, enum change change)
{
    static const uint32_t any[] = {0, 1, JOBBOARD_ENOUGH_PATHS, UINT32_MAX};
    uint32_t standing = pick_job(t, r, true), first = word_at(t->bytes, record_of(t->bytes, standing));
    uint32_t second = word_at(t->bytes, record_of(t->bytes, standing) + 1);
    switch (change) {
    case TAKE_IN:
        return (struct call){ARRIVAL, {pick_job(t, r, false), first, second}, NULL, JOBBOARD_MOST_LIST_BYTES};
    case CLOSE:
        return (struct call){CLOSING, {standing, 0, 0}, NULL, JOBBOARD_MOST_LIST_BYTES};
    case LEVEL_NONE:
        return (struct call){LEVELLING, {0, 0, 0}, NULL, 0};
    case LEVEL_ONE:
        return (struct call){LEVELLING, {1, 0, 0}, NULL, 0};
    case LEVEL_ALL:
        return (struct call){LEVELLING, {JOBBOARD_ENOUGH_PATHS, 0, 0}, NULL, 0};
    default:
        return (struct call){LEVELLING, {any[random_below(r, 4)], 0, 0}, NULL, 0};
    }
}

/* Lends an arrival or a closing that moves jobs a byte too little: both tables stay in their order. */
static void refuse_short(struct pair *p, struct call call)
{
    static struct pair copy;
    if (!lists_moved(call.kind))
        return;
    copy = *p;
    size_t need = bytes_written(call.kind, call_both(&copy, call, JOBBOARD_OK));
    if (need == 0)
        return;
    call.lent_bytes = need - 1;
    call_unchanging(p, call, JOBBOARD_LIST_TOO_SHORT);
}

/* Makes an accepted change on both tables. They are equal then, and each byte is the one that benches, jobs and holders give. */
static struct answer change_both(struct pair *p, const struct call *call)
{
    static struct table before, anew;
    before = p->rising;
    struct answer a = call_both(p, *call, JOBBOARD_OK);
    if (jobboard_check(p->shuffled.bytes, p->shuffled.length) != JOBBOARD_OK)
        stop(call, "the table is not sound after it");
    if (!chains_rise(p->rising.bytes) || !chains_rise(p->shuffled.bytes))
        stop(call, "a chain does not rise after it");
    if (!same_bytes(&p->rising, &p->shuffled))
        stop(call, "the two tables are not the same afterwards");
    write_anew(&anew, &p->shuffled);
    if (!same_bytes(&anew, &p->shuffled))
        stop(call, "another table than benches, jobs and holders give");
    if (call->kind == LEVELLING && a.values[0] == 0 && !same_bytes(&p->shuffled, &before))
        stop(call, "no path was turned, and a job has other names or another holder");
    return a;
}

/* Expects of a levelling the paths and the end that its allowance and the board give, and counts the change. */
static void count(enum change change, const struct call *call, struct answer a)
{
    uint32_t paths = a.values[0], level = a.values[1];
    if ((change == LEVEL_NONE && (paths != 0 || level != 0)) || (change == LEVEL_ONE && paths != 1) ||
        (change == LEVEL_ALL && (paths == 0 || level != 1)) || (change == LEVEL_AGAIN && (paths != 0 || level != 1)))
        stop(call, "another number of paths, or another end, than its allowance and the board give");
    made[change]++;
    handed[change] += jobs_moved(call->kind, a) > 0;
}

/* Chooses a change of another kind than the one before. */
static enum change another(const struct table *t, struct random *r, enum change change)
{
    bool coin = random_below(r, 2) == 0;
    if (change == TAKE_IN)
        return coin ? CLOSE : LEVEL_ONE;
    if (change == CLOSE)
        return coin ? TAKE_IN : LEVEL_ONE;
    return coin && pick_job(t, r, false) != 0 ? TAKE_IN : CLOSE;
}

static void run_table(struct random *r, enum change first)
{
    static struct pair p;
    tables++;
    draw_pair(&p, r, first);
    ask_all(&p, r);
    refuse_all(&p.shuffled, r);
    struct call call = call_of(&p.rising, r, first);
    refuse_short(&p, call);
    count(first, &call, change_both(&p, &call));
    call = call_of(&p.rising, r, another(&p.rising, r, first));
    change_both(&p, &call);
}

/* Expects enough of each change, and of arrivals and closings that hand jobs along, to say something; nothing of few tables. */
static void expect_enough(void)
{
    uint32_t least = tables < 1000 ? 0 : tables / 20;
    for (int change = 0; change < CHANGES; change++)
        if (made[change] < least)
            fail("chains: change %d was made only %u times", change, (unsigned)made[change]);
    if (handed[TAKE_IN] < least || handed[CLOSE] < least)
        fail("chains: only %u arrivals and %u closings handed jobs along", (unsigned)handed[TAKE_IN], (unsigned)handed[CLOSE]);
}

int main(int argc, char **argv)
{
    seed = seed_of(argc, argv, 20260103);
    uint32_t wanted = argc > 2 ? (uint32_t)strtoul(argv[2], NULL, 10) : 10000;
    struct random r = {seed};
    while (tables < wanted)
        run_table(&r, turns[tables % TURNS]);
    expect_enough();
    printf("chains: %u tables with shuffled chains, same answers and lists; every chain in order after %u arrivals (%u handed jobs along), "
           "%u closings (%u) and levellings: %u with allowance 0, %u with 1, %u to the end, %u on level boards\n",
           (unsigned)tables, (unsigned)made[TAKE_IN], (unsigned)handed[TAKE_IN], (unsigned)made[CLOSE], (unsigned)handed[CLOSE],
           (unsigned)made[LEVEL_NONE], (unsigned)made[LEVEL_ONE], (unsigned)made[LEVEL_ALL], (unsigned)made[LEVEL_AGAIN]);
    return 0;
}
