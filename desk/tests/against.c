/*
 * Random calls through the archive and through reference.c, on copies of the same table, list and page: answers, tables, lists and pages
 * must be the same, byte by byte, and a page read back by columns must name each job's holder. Boards are mostly small, now and then 500
 * benches and 4,000 jobs; level and not; some tables are damaged, some lengths wrong, some numbers out of range.
 *
 * Every byte of a changed table is fixed: the reference keeps no chain of the table it is lent, and writes all of them anew, rising, from
 * benches, jobs and holders alone. Half the boards start with chains in a random order, so that accepted arrivals, closings and levellings
 * meet chains that do not rise; each must have met some.
 *
 * Arrivals and closings list the jobs that they move. They are lent lists of just the length that they need, of one byte less, of odd
 * lengths, longer ones and none, on boards in use, on copies with chains in a random order, and on damaged ones; each end must have come
 * often on chains of either kind. Bytes behind a list or a page are compared too, or there are none.
 *
 * A pair question reads two chains of a table that it does not check. Between the other calls it is asked of copies: as they are, with
 * chains in a random order, and damaged anywhere or just where it reads. Each of its answers and refusals must have come often.
 *
 * Arguments: the seed, the number of calls.
 */
#include "calls.h"
#include "jobboard.h"
#include "reference.h"
#include "support.h"

#include <inttypes.h>
#include <stdio.h>
#include <stdlib.h>
#include <string.h>

static uint64_t seed;
static uint32_t calls_made;
static uint32_t returned[12];     /* how often each number was */
static uint32_t accepted[KINDS];  /* how often each call was accepted */
static uint32_t handed;           /* arrivals and closings that handed jobs along */
static uint32_t unordered[KINDS]; /* how often an accepted arrival, closing, levelling or pair question met chains that did not all rise */
static uint32_t pairs[12];        /* how often a pair question returned each number */
static uint32_t found;            /* pair questions that were answered with a job */

/* How an arrival or a closing ends by its list: accepted without one, or with one for some jobs; refused. */
enum list_end { NONE_LENT, EXACT, ODD, LONGER, TOO_SHORT, LIST_ENDS };
static uint32_t lists[2][2][LIST_ENDS]; /* of arrivals and of closings, on chains that all rise and on others */

/*
 * Picks a number of 1 to `most`, now and then one out of range: 0, the next ones, one that fits after a cut to 16
 * bits, the greatest.
 */
static uint32_t random_number(struct random *r, uint32_t most)
{
    uint32_t number = random_within(r, 1, most);
    switch (random_below(r, 40)) {
    case 0:
        return 0;
    case 1:
        return most + random_within(r, 1, 2);
    case 2:
        return number + 65536 * random_within(r, 1, 65535);
    case 3:
        return UINT32_MAX - random_below(r, 2);
    default:
        return number;
    }
}

/* Picks an allowance; few level a large table to its end, which takes the reference seconds. */
static uint32_t random_allowance(struct random *r, uint32_t benches)
{
    uint32_t few = random_below(r, benches <= 30 ? 6 : 60);
    return few == 5 ? UINT32_MAX - random_below(r, 3) : few % 5;
}

/* Picks a job number of any kind; three times out of four one that stands, or one that does not. */
static uint32_t random_job(struct random *r, const struct table *t, bool stands)
{
    uint32_t job = random_below(r, 4) > 0 ? pick_job(t, r, stands) : 0;
    return job != 0 ? job : random_number(r, word_at(t->bytes, 1));
}

/* Picks a bench number of any kind, rather a heavy bench than a light one: from there jobs are handed along. */
static uint32_t random_bench(struct random *r, const struct table *t)
{
    uint32_t benches = word_at(t->bytes, 0), best = random_number(r, benches), most = 0, load;
    for (int tries = 0; tries < 4; tries++) {
        uint32_t bench = random_within(r, 1, benches);
        if (best <= benches && jobboard_load(t->bytes, t->length, bench, &load) == JOBBOARD_OK && load > most) {
            best = bench;
            most = load;
        }
    }
    return best;
}

/* Picks a page's length: that of the sheet, one less, none, a longer one or any. */
static size_t random_page(struct random *r, const struct table *t)
{
    static uint8_t page[JOBBOARD_MOST_PAGE_BYTES];
    static struct table copy;
    copy = *t;
    struct answer a = reference_call(&(struct call){SHEET, {0, 0, 0}, page, sizeof page}, copy.bytes, copy.length);
    switch (random_below(r, 6)) {
    case 0:
        return a.values[0] - 1;
    case 1:
        return 0;
    case 2:
        return a.values[0] + random_within(r, 1, 200);
    case 3:
        return random_below(r, JOBBOARD_MOST_PAGE_BYTES + 1);
    default:
        return a.values[0];
    }
}

/* Picks the length of an arrival's or closing's list: often that of its words, one byte less or more, none, a longer one or any. */
static size_t random_list(struct random *r, const struct call *call, const struct table *t)
{
    static uint8_t list[JOBBOARD_MOST_LIST_BYTES];
    static struct table copy;
    copy = *t;
    struct call longest = *call;
    longest.lent = list;
    longest.lent_bytes = sizeof list;
    size_t need = bytes_written(call->kind, reference_call(&longest, copy.bytes, copy.length));
    switch (random_below(r, 9)) {
    case 0:
    case 1:
        return need > 0 ? need - 1 : 1;
    case 2:
        return 0;
    case 3:
        return need + 1;
    case 4:
        return need + random_within(r, 2, 40);
    case 5:
        return random_below(r, JOBBOARD_MOST_LIST_BYTES + 1);
    default:
        return need;
    }
}

/* Picks the numbers of a call, and the length of what it is lent. */
static struct call random_call(struct random *r, const struct table *t, enum kind kind)
{
    uint32_t benches = word_at(t->bytes, 0), jobs = word_at(t->bytes, 1);
    struct call call = {kind, {0, 0, 0}, NULL, 0};
    if (call.kind == BLANK) {
        call.numbers[0] = random_number(r, benches);
        call.numbers[1] = random_number(r, jobs);
    } else if (call.kind == LEVELLING) {
        call.numbers[0] = random_allowance(r, benches);
    } else if (call.kind == LOAD) {
        call.numbers[0] = random_number(r, benches);
    } else if (call.kind == TIGHT_SET) {
        call.numbers[0] = random_number(r, 1 + jobs / benches);
        call.lent_bytes = random_below(r, 3) == 0 ? random_below(r, 2 * benches + 2) : 2 * benches + random_below(r, 4);
    } else if (call.kind == SHEET) {
        call.lent_bytes = random_page(r, t);
    } else if (lists_moved(call.kind)) {
        call.numbers[0] = random_job(r, t, call.kind == CLOSING);
        call.numbers[1] = random_bench(r, t);
        call.numbers[2] = random_bench(r, t);
        call.lent_bytes = random_list(r, &call, t);
    }
    return call;
}

static enum kind random_kind(struct random *r)
{
    /* Arrivals and closings are what boards are for. */
    static const enum kind often[] = {ARRIVAL, ARRIVAL,  ARRIVAL,   CLOSING,   CLOSING, CLOSING, LEVEL_CHECK,
                                      LOAD,    HEAVIEST, TIGHT_SET, TIGHT_SET, CHECK,   SHEET};
    if (random_below(r, 20) == 0)
        return random_below(r, 4) == 0 ? BLANK : LEVELLING;
    return often[random_below(r, 13)];
}

/* Writes into a word of a record a number that just fits there, or just does not. */
static void damage_record(struct table *t, struct random *r, uint32_t benches, uint32_t jobs)
{
    uint32_t job = random_within(r, 1, jobs);
    const uint32_t numbers[] = {0, 1, 2, 3, benches, benches + 1, job, jobs, jobs + 1};
    size_t i = 4 + benches + 4 * (size_t)(job - 1) + random_below(r, 4);
    put_word(t->bytes, i, numbers[random_below(r, 9)]);
}

/* Changes a few words or bits, or the length. */
static void damage(struct table *t, struct random *r)
{
    uint32_t words = (uint32_t)t->length / 2, benches = word_at(t->bytes, 0), jobs = word_at(t->bytes, 1);
    for (uint32_t times = random_within(r, 1, 3); times > 0; times--) {
        /* Sizes, counts and chain heads are few words, and worth as many tries as all records. */
        size_t i = random_below(r, random_below(r, 2) == 0 ? 4 + benches : words);
        switch (random_below(r, 6)) {
        case 0:
            t->bytes[2 * i] ^= (uint8_t)(1u << random_below(r, 8));
            break;
        case 1:
            put_word(t->bytes, i, random_below(r, jobs + 2));
            break;
        case 2: /* a word from elsewhere: a chain that meets another, or itself */
            put_word(t->bytes, i, word_at(t->bytes, random_below(r, words)));
            break;
        case 3:
            t->length = random_below(r, (uint32_t)t->length + 8);
            return;
        default:
            damage_record(t, r, benches, jobs);
        }
    }
}

/* Picks the benches of a pair question, in either order: those of a standing job, a heavy bench and any, or one bench twice. */
static void random_pair(struct random *r, const struct table *t, uint32_t pair[2])
{
    uint32_t kind = random_below(r, 12), job = pick_job(t, r, true), turned = random_below(r, 2);
    pair[turned] = random_bench(r, t);
    pair[1 - turned] = kind == 0 ? pair[turned] : random_number(r, word_at(t->bytes, 0));
    if (job != 0 && kind > 5) {
        pair[turned] = word_at(t->bytes, record_of(t->bytes, job));
        pair[1 - turned] = word_at(t->bytes, record_of(t->bytes, job) + 1);
    }
}

/*
 * Writes a number that just fits, or just does not, where a pair question reads: into a record on the chain of one of
 * its benches, or into the word that leads to it. The table is sound.
 */
static void damage_walk(struct table *t, struct random *r, const uint32_t pair[2])
{
    uint32_t benches = word_at(t->bytes, 0), jobs = word_at(t->bytes, 1), bench = pair[random_below(r, 2)], before = 0;
    if (bench < 1 || bench > benches)
        return;
    size_t place = 3 + bench;
    uint32_t job = word_at(t->bytes, place);
    while (job != 0 && random_below(r, 3) > 0) {
        before = job;
        place = record_of(t->bytes, job) + 3;
        job = word_at(t->bytes, place);
    }
    if (job != 0 && random_below(r, 2) == 0)
        place = record_of(t->bytes, job) + random_below(r, 3);
    const uint32_t numbers[] = {0, 1, 2, 3, pair[0], pair[1], benches, benches + 1, before, before + 1, jobs, jobs + 1, 65535};
    put_word(t->bytes, place, numbers[random_below(r, 13)]);
}

static void stop(const struct call *call, struct answer a, struct answer b, const char *what)
{
    char text[DESCRIPTION], first[DESCRIPTION], second[DESCRIPTION];
    describe_call(call, text);
    describe_answer(a, first);
    describe_answer(b, second);
    fail("against: seed %" PRIu64 ", call %u: %s: %s: archive %s, reference %s", seed, (unsigned)calls_made, text, what, first, second);
}

/* Tells whether a call leaves all chains in order, or reads them in the order they have. */
static bool order_matters(enum kind kind)
{
    return lists_moved(kind) || kind == LEVELLING || kind == BETWEEN;
}

/* Counts how an arrival or a closing ended by its list; `before` is its table as it was. */
static void count_list(const struct call *call, struct answer a, const uint8_t *before)
{
    size_t need = bytes_written(call->kind, a);
    if (!lists_moved(call->kind) || (a.returned != JOBBOARD_OK && a.returned != JOBBOARD_LIST_TOO_SHORT))
        return;
    uint32_t *ends = lists[call->kind == CLOSING][!chains_rise(before)];
    ends[TOO_SHORT] += a.returned == JOBBOARD_LIST_TOO_SHORT;
    ends[NONE_LENT] += a.returned == JOBBOARD_OK && call->lent_bytes == 0;
    ends[EXACT] += need > 0 && call->lent_bytes == need;
    ends[ODD] += need > 0 && call->lent_bytes % 2 == 1;
    ends[LONGER] += need > 0 && call->lent_bytes > need;
}

/* Counts a call; `before` is its table as it was. */
static void count(const struct call *call, struct answer a, const uint8_t *before)
{
    returned[a.returned]++;
    pairs[a.returned] += call->kind == BETWEEN;
    count_list(call, a, before);
    if (a.returned != JOBBOARD_OK)
        return;
    accepted[call->kind]++;
    handed += jobs_moved(call->kind, a) > 0;
    found += call->kind == BETWEEN && a.values[0] != 0;
    if (order_matters(call->kind))
        unordered[call->kind] += !chains_rise(before);
}

/*
 * Makes one call through both, on copies of exactly the lent length; t is what the archive left. Every other time there are bytes behind
 * the list or the page, which must stay as they are; else the sanitizer watches its end.
 */
static void compare(struct call call, struct table *t)
{
    size_t behind = calls_made++ % 2 == 0 ? 0 : 64, room = call.lent_bytes + behind;
    uint8_t *lent[2], *table = copy_of(t->bytes, t->length), *other = copy_of(t->bytes, t->length);
    for (int i = 0; i < 2; i++) {
        lent[i] = memory(room);
        memset(lent[i], UNWRITTEN, room);
    }
    call.lent = lent[0];
    struct answer a = make_call(&call, table, t->length);
    call.lent = lent[1];
    struct answer b = reference_call(&call, other, t->length);
    if (!same_answer(a, b))
        stop(&call, a, b, "other answer");
    if (memcmp(table, other, t->length) != 0)
        stop(&call, a, b, "other table");
    if (memcmp(lent[0], lent[1], room) != 0)
        stop(&call, a, b, call.kind == SHEET ? "other page" : "other list");
    call.lent = lent[0];
    if (!rest_unwritten(&call, a, behind))
        stop(&call, a, b, "the list or the page was written beyond what it may");
    if (call.kind == SHEET && a.returned == JOBBOARD_OK && !sheet_names_holders(lent[0], a.values[0], table))
        stop(&call, a, b, "the page read back has other holders than the table");
    count(&call, a, t->bytes);
    memcpy(t->bytes, table, t->length);
    free(table);
    free(other);
    free(lent[0]);
    free(lent[1]);
}

/* Asks a pair question of a copy, its chains as they are or in a random order, and sometimes damaged. */
static void compare_pair(struct random *r, const struct table *t)
{
    static struct table copy;
    struct call call = {BETWEEN, {0, 0, 0}, NULL, 0};
    uint32_t kind = random_below(r, 8);
    random_pair(r, t, call.numbers);
    copy = *t;
    if (random_below(r, 2) == 0)
        make_chains(&copy, r);
    if (kind < 3)
        damage_walk(&copy, r, call.numbers);
    if (kind == 3)
        damage(&copy, r);
    compare(call, &copy);
}

/* Takes a job in or closes one on a copy with chains in a random order, sometimes damaged: a board in use is in order from its first change. */
static void compare_shuffled(struct random *r, const struct table *t)
{
    static struct table copy;
    struct call call = random_call(r, t, random_below(r, 2) == 0 ? ARRIVAL : CLOSING);
    copy = *t;
    make_chains(&copy, r);
    if (random_below(r, 8) == 0)
        damage(&copy, r);
    compare(call, &copy);
}

/* Makes calls on a board, one after the other, some on a damaged copy; pair questions and changes of shuffled copies between them. */
static void run_board(struct random *r, uint32_t calls)
{
    static struct table t, damaged;
    make_board(&t, r);
    make_chains(&t, random_below(r, 2) == 0 ? NULL : r);
    if (random_below(r, 3) == 0 && word_at(t.bytes, 0) < 100)
        compare((struct call){LEVELLING, {UINT32_MAX, 0, 0}, NULL, 0}, &t);
    for (; calls > 0; calls--) {
        struct call call = random_call(r, &t, random_kind(r));
        damaged = t;
        if (random_below(r, 8) == 0) {
            damage(&damaged, r);
            compare(call, &damaged);
        } else {
            compare(call, &t);
        }
        if (random_below(r, 4) == 0)
            compare_pair(r, &t);
        if (random_below(r, 4) == 0)
            compare_shuffled(r, &t);
    }
}

/* Levels the largest table, its holders by chance, to the end. */
static void level_largest(struct random *r)
{
    static struct table t;
    make_empty(&t, JOBBOARD_MOST_BENCHES, JOBBOARD_MOST_JOBS);
    for (uint32_t j = 1; j <= JOBBOARD_MOST_JOBS; j++) {
        uint32_t first = random_within(r, 1, JOBBOARD_MOST_BENCHES - 1);
        uint32_t second = random_within(r, first + 1, JOBBOARD_MOST_BENCHES);
        make_stand(&t, j, first, second, random_within(r, 1, 2));
    }
    make_chains(&t, r);
    compare((struct call){LEVELLING, {JOBBOARD_ENOUGH_PATHS, 0, 0}, NULL, 0}, &t);
}

/* Expects enough pair questions with each end to say something; nothing of few calls. */
static void expect_pairs_met(void)
{
    uint32_t least = calls_made < 10000 ? 0 : calls_made / 500;
    if (found < least || accepted[BETWEEN] - found < least)
        fail("against: only %u pair questions found a job, and %u none", (unsigned)found, (unsigned)(accepted[BETWEEN] - found));
    if (pairs[JOBBOARD_SIZES] < least || pairs[JOBBOARD_BENCH_NUMBER] < least || pairs[JOBBOARD_UNSOUND] < least)
        fail("against: only %u, %u and %u pair questions were refused with 1, 4 and 2", (unsigned)pairs[JOBBOARD_SIZES],
             (unsigned)pairs[JOBBOARD_BENCH_NUMBER], (unsigned)pairs[JOBBOARD_UNSOUND]);
}

/* Expects enough arrivals and closings that ended each way by their list, on chains of either kind; nothing of few calls. */
static void expect_lists_met(void)
{
    uint32_t least = calls_made < 10000 ? 0 : calls_made / 1000;
    for (int kind = 0; kind < 2; kind++)
        for (int order = 0; order < 2; order++)
            for (int end = 0; end < LIST_ENDS; end++)
                if (lists[kind][order][end] < least)
                    fail("against: only %u %s on %s chains ended the way %d by their list", (unsigned)lists[kind][order][end],
                         kind == 0 ? "arrivals" : "closings", order == 0 ? "rising" : "other", end);
}

/* Adds up the arrivals and closings that ended so by their list. */
static unsigned ended(enum list_end end)
{
    return lists[0][0][end] + lists[0][1][end] + lists[1][0][end] + lists[1][1][end];
}

/* Expects that each refusal was met, each call accepted, and each one accepted to which the order matters on chains that did not rise. */
static void expect_all_met(void)
{
    for (int n = 1; n <= 11; n++)
        if (returned[n] == 0 && n != JOBBOARD_COUNT_FULL && n != JOBBOARD_UNREADABLE)
            fail("against: no call was refused with %d", n);
    for (int kind = 0; kind < KINDS; kind++) {
        if (accepted[kind] == 0)
            fail("against: no call of kind %d was accepted", kind);
        if (unordered[kind] == 0 && order_matters((enum kind)kind))
            fail("against: no call of kind %d was accepted on chains that did not rise", kind);
    }
}

int main(int argc, char **argv)
{
    seed = seed_of(argc, argv, 20260101);
    uint32_t calls = argc > 2 ? (uint32_t)strtoul(argv[2], NULL, 10) : 160000;
    struct random r = {seed};
    while (calls_made + 1 < calls)
        run_board(&r, random_within(&r, 5, 60));
    level_largest(&r);
    expect_all_met();
    expect_lists_met();
    expect_pairs_met();
    printf("against: %u calls, same answers, tables, lists and pages; %u handed jobs along; %u pages read back; ", (unsigned)calls_made,
           (unsigned)handed, (unsigned)accepted[SHEET]);
    printf("%u arrivals, %u closings and %u levellings met chains that did not rise; refused", (unsigned)unordered[ARRIVAL],
           (unsigned)unordered[CLOSING], (unsigned)unordered[LEVELLING]);
    for (int n = 1; n <= 11; n++)
        if (n != JOBBOARD_COUNT_FULL && n != JOBBOARD_UNREADABLE)
            printf("%s %u with %d", n == 1 ? "" : ",", (unsigned)returned[n], n);
    printf("\nagainst: lists of moved jobs: %u of just their length, %u longer, %u odd, %u too short, and %u arrivals and closings without one",
           ended(EXACT), ended(LONGER), ended(ODD), ended(TOO_SHORT), ended(NONE_LENT));
    printf("\nagainst: pair questions among them: %u found a job and %u none, %u of these on chains that did not rise; ", (unsigned)found,
           (unsigned)(accepted[BETWEEN] - found), (unsigned)unordered[BETWEEN]);
    printf("refused %u with 1, %u with 4, %u with 2\n", (unsigned)pairs[JOBBOARD_SIZES], (unsigned)pairs[JOBBOARD_BENCH_NUMBER],
           (unsigned)pairs[JOBBOARD_UNSOUND]);
    return 0;
}
