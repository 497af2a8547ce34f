/*
 * The pair question: which job stands between two benches? Its rules as little tables first, each with the exact answer; then random ones:
 *
 * - sound, with every chain rising: the answer is that of reading everything;
 * - sound, with chains in a random order: where it is answered no more records are read than the two loads added, a job that is given
 *   names both benches, and none is given only where none does;
 * - damaged where the question reads.
 *
 * On each the answer is that of a simulation here, which first lists the numbers to be read on a chain, then tests them one by one, and
 * notes the words that the question may look at. Whatever the other words are, or words 2 and 3, the answer stays the same.
 *
 * Arguments: the seed, the number of random tables.
 */
#include "calls.h"
#include "jobboard.h"
#include "support.h"

#include <inttypes.h>
#include <stdio.h>
#include <stdlib.h>
#include <string.h>

static unsigned asked;

/* Asks of a copy of exactly the table's length. No byte of it may change. */
static struct answer ask(const struct table *t, uint32_t first, uint32_t second)
{
    uint8_t *copy = copy_of(t->bytes, t->length);
    struct answer a = make_call(&(struct call){BETWEEN, {first, second, 0}, NULL, 0}, copy, t->length);
    if (memcmp(copy, t->bytes, t->length) != 0)
        fail("pairs: benches %u and %u: the question changed the table", (unsigned)first, (unsigned)second);
    free(copy);
    asked++;
    return a;
}

static struct answer refused(uint32_t number)
{
    return (struct answer){number, {UNSET, UNSET, UNSET}};
}

static struct answer given(uint32_t job, uint32_t records)
{
    return (struct answer){JOBBOARD_OK, {job, records, UNSET}};
}

/* ---- Little tables ---- */

static const char *rule; /* the one being tried */

static void expect(const struct table *t, uint32_t first, uint32_t second, struct answer want)
{
    char got[DESCRIPTION], wanted[DESCRIPTION];
    struct answer a = ask(t, first, second);
    describe_answer(a, got);
    describe_answer(want, wanted);
    if (!same_answer(a, want))
        fail("pairs: %s: benches %u and %u give %s, expected %s", rule, (unsigned)first, (unsigned)second, got, wanted);
}

/* A list for put_chain. */
#define CHAIN(...) ((const uint32_t[]){__VA_ARGS__, 0})

/* Chains a bench's jobs in this order, up to a 0 or a number above J. */
static void put_chain(struct table *t, uint32_t bench, const uint32_t *list)
{
    size_t place = 3 + bench;
    for (;; list++) {
        put_word(t->bytes, place, *list);
        if (*list == 0 || *list > word_at(t->bytes, 1))
            return;
        place = record_of(t->bytes, *list) + 3;
    }
}

/*
 * Makes four benches and six jobs. Bench 1 holds 2 and 5, of which 5 stands between 1 and 2; bench 2 holds 1 and 6; all
 * others name bench 3, which holds 4. Job 3 does not stand.
 */
static void make_little(struct table *t)
{
    make_empty(t, 4, 6);
    make_stand(t, 1, 2, 3, 1);
    make_stand(t, 2, 1, 3, 1);
    make_stand(t, 4, 4, 3, 2);
    make_stand(t, 5, 2, 1, 2);
    make_stand(t, 6, 3, 2, 2);
    make_chains(t, NULL);
}

static void ends(struct table *t)
{
    rule = "nothing to read";
    make_empty(t, 4, 6);
    expect(t, 1, 2, given(0, 0));
    rule = "a match counts as read, and the second chain ends at a number above it";
    make_little(t);
    expect(t, 1, 2, given(5, 3)); /* 2, 5; 1 */
    rule = "without a first match the second chain is read up to a match";
    expect(t, 2, 1, given(5, 4)); /* 1, 6; 2, 5 */
    rule = "a match that the bench asked for second holds, alone";
    expect(t, 4, 3, given(4, 1));
    expect(t, 3, 4, given(4, 1));
    rule = "without a match both chains are read to their ends";
    expect(t, 1, 4, given(0, 2));
    expect(t, 4, 1, given(0, 2));
    put_word(t->bytes, record_of(t->bytes, 5), 4);
    expect(t, 1, 2, given(0, 4));
    rule = "the lower of two matches";
    make_empty(t, 2, 3);
    make_stand(t, 2, 1, 2, 2);
    make_stand(t, 3, 1, 2, 1);
    make_chains(t, NULL);
    expect(t, 1, 2, given(2, 2)); /* 3; 2 */
    expect(t, 2, 1, given(2, 1)); /* 2; 3 is above it */
}

static void limits(struct table *t)
{
    rule = "a number above the first match ends the second chain before its range is tested";
    make_empty(t, 3, 3);
    make_stand(t, 2, 1, 2, 1);
    put_chain(t, 1, CHAIN(2));
    put_chain(t, 2, CHAIN(9));
    expect(t, 1, 2, given(2, 1));
    put_chain(t, 2, CHAIN(65535));
    expect(t, 1, 2, given(2, 1));
    rule = "without a first match the range is tested";
    expect(t, 2, 1, refused(JOBBOARD_UNSOUND));
    expect(t, 3, 2, refused(JOBBOARD_UNSOUND));
    rule = "the same behind a record that is read";
    make_stand(t, 1, 2, 3, 1);
    put_chain(t, 2, CHAIN(1, 9));
    expect(t, 1, 2, given(2, 2));
    expect(t, 2, 1, refused(JOBBOARD_UNSOUND));
    rule = "a record above the first match is not read";
    put_chain(t, 2, CHAIN(3));
    expect(t, 1, 2, given(2, 1));
    expect(t, 2, 1, refused(JOBBOARD_UNSOUND));
    rule = "the first match, met again, is read, and another bench holds it";
    put_chain(t, 2, CHAIN(2));
    expect(t, 1, 2, refused(JOBBOARD_UNSOUND));
    put_chain(t, 2, CHAIN(1, 2));
    expect(t, 1, 2, refused(JOBBOARD_UNSOUND));
}

static void rising(struct table *t)
{
    rule = "the numbers need not rise from one chain to the other";
    make_little(t);
    expect(t, 1, 2, given(5, 3)); /* 2, 5; 1 */
    expect(t, 3, 1, given(2, 2)); /* 4; 2 */
    rule = "a sound table is refused where the numbers do not rise";
    put_chain(t, 2, CHAIN(6, 1));
    expect(t, 2, 1, refused(JOBBOARD_UNSOUND));
    rule = "and not where that is not seen";
    expect(t, 1, 2, given(5, 2)); /* 2, 5; 6 is above it, and 1 behind it is not read */
    expect(t, 2, 3, given(6, 2)); /* 6; 4. Job 1 is lower, behind job 6 */
    expect(t, 3, 2, given(6, 2)); /* 4; 6 */
    rule = "a second chain that does not rise below the first match";
    make_little(t);
    make_stand(t, 3, 2, 4, 1);
    put_chain(t, 2, CHAIN(3, 1, 6));
    expect(t, 1, 2, refused(JOBBOARD_UNSOUND));
    rule = "a chain that returns to itself";
    put_word(t->bytes, record_of(t->bytes, 4) + 3, 4);
    expect(t, 3, 1, refused(JOBBOARD_UNSOUND));
    expect(t, 1, 3, given(2, 1)); /* 2; 4 is above it */
    expect(t, 3, 4, given(4, 1)); /* what follows a match is not looked at */
    put_chain(t, 2, CHAIN(1, 3, 6));
    put_word(t->bytes, record_of(t->bytes, 6) + 3, 3);
    expect(t, 2, 1, refused(JOBBOARD_UNSOUND));
    expect(t, 1, 2, given(5, 4)); /* 2, 5; 1, 3; 6 is above 5 */
}

/* Writes one word into job 2's record, which is the first on bench 1's chain and matches with bench 3, and expects it refused. */
static void expect_unread(struct table *t, size_t place, uint32_t word)
{
    make_little(t);
    put_word(t->bytes, record_of(t->bytes, 2) + place, word);
    expect(t, 1, 2, refused(JOBBOARD_UNSOUND)); /* on the first chain */
    expect(t, 2, 1, refused(JOBBOARD_UNSOUND)); /* on the second */
    expect(t, 1, 3, refused(JOBBOARD_UNSOUND));
    expect(t, 2, 3, given(1, 1)); /* not read */
}

static void records(struct table *t)
{
    rule = "a record names two different benches of 1 to B";
    expect_unread(t, 0, 0);
    expect_unread(t, 0, 3);
    expect_unread(t, 0, 5);
    expect_unread(t, 1, 0);
    expect_unread(t, 1, 1);
    expect_unread(t, 1, 5);
    expect_unread(t, 1, 65535);
    rule = "the bench whose chain is read is the holder";
    expect_unread(t, 0, 2);
    expect_unread(t, 0, 4);
    expect_unread(t, 2, 0);
    expect_unread(t, 2, 2);
    expect_unread(t, 2, 3);
    expect_unread(t, 2, 65535);
    rule = "an empty record";
    make_little(t);
    put_chain(t, 4, CHAIN(3));
    expect(t, 4, 2, refused(JOBBOARD_UNSOUND));
    expect(t, 2, 4, refused(JOBBOARD_UNSOUND));
    rule = "job J, and J + 1";
    make_stand(t, 6, 4, 3, 1);
    put_chain(t, 4, CHAIN(6));
    expect(t, 4, 1, given(0, 3));
    put_chain(t, 4, CHAIN(7));
    expect(t, 4, 1, refused(JOBBOARD_UNSOUND));
}

/* Damages all that a question of benches 1 and 2 does not look at. */
static void elsewhere(struct table *t)
{
    rule = "words 2 and 3";
    make_little(t);
    put_word(t->bytes, 2, 65535);
    put_word(t->bytes, 3, 1);
    expect(t, 1, 2, given(5, 3));
    rule = "chains of other benches, and records that are not read";
    for (uint32_t bench = 3; bench <= 4; bench++)
        put_word(t->bytes, 3 + bench, 65535);
    for (uint32_t job = 3; job <= 6; job++)
        for (size_t place = 0; place < 4 && job != 5; place++)
            put_word(t->bytes, record_of(t->bytes, job) + place, 65535);
    expect(t, 1, 2, given(5, 3));
    rule = "what follows a match";
    put_word(t->bytes, record_of(t->bytes, 5) + 3, 65535);
    expect(t, 1, 2, given(5, 3));
    put_word(t->bytes, record_of(t->bytes, 5) + 3, 5);
    expect(t, 1, 2, given(5, 3));
}

static void refusals(struct table *t)
{
    const uint32_t none[] = {0, 5, 65536 + 1, UINT32_MAX};
    make_little(t);
    put_chain(t, 1, CHAIN(65535));
    rule = "a bench not of 1 to B comes before a record that may not be read";
    for (int i = 0; i < 4; i++) {
        expect(t, none[i], 1, refused(JOBBOARD_BENCH_NUMBER));
        expect(t, 1, none[i], refused(JOBBOARD_BENCH_NUMBER));
    }
    rule = "and so do equal benches";
    expect(t, 1, 1, refused(JOBBOARD_BENCH_NUMBER));
    expect(t, 2, 2, refused(JOBBOARD_BENCH_NUMBER));
    expect(t, 1, 2, refused(JOBBOARD_UNSOUND));
    rule = "sizes come first";
    t->length++;
    expect(t, 0, 0, refused(JOBBOARD_SIZES));
    expect(t, 1, 2, refused(JOBBOARD_SIZES));
    t->length -= 3;
    expect(t, 1, 1, refused(JOBBOARD_SIZES));
    expect(t, 1, 2, refused(JOBBOARD_SIZES));
    rule = "one bench";
    make_empty(t, 1, 6);
    expect(t, 1, 1, refused(JOBBOARD_BENCH_NUMBER));
    expect(t, 1, 2, refused(JOBBOARD_BENCH_NUMBER));
}

/* Makes benches 1 and 500 hold 2,000 jobs each; only the last, if any, names both. */
static void largest(struct table *t)
{
    rule = "the longest chains";
    make_empty(t, 500, 4000);
    for (uint32_t job = 1; job <= 4000; job++)
        make_stand(t, job, 250, job % 2 == 0 ? 500 : 1, 2);
    make_chains(t, NULL);
    expect(t, 1, 500, given(0, 4000));
    expect(t, 500, 1, given(0, 4000));
    expect(t, 500, 2, given(0, 2000));
    expect(t, 250, 1, given(1, 1));
    make_stand(t, 4000, 1, 500, 2);
    expect(t, 1, 500, given(4000, 4000));
    expect(t, 500, 1, given(4000, 4000));
}

/* ---- A simulation ---- */

/* What the question may look at, and what it must answer. */
struct sight {
    struct answer answer;
    bool seen[JOBBOARD_MOST_TABLE_BYTES / 2]; /* each word */
};

/* The numbers on a chain that are to be read. */
struct list {
    uint32_t count;
    uint32_t jobs[JOBBOARD_MOST_JOBS + 1];
};

static bool names_both(const uint8_t *table, uint32_t job, const uint32_t pair[2])
{
    size_t record = record_of(table, job);
    uint32_t a = word_at(table, record), b = word_at(table, record + 1);
    return (a == pair[0] && b == pair[1]) || (a == pair[1] && b == pair[0]);
}

/*
 * Lists the numbers to be read on a bench's chain: up to a match, to one above the limit, which is left out, or to the
 * end. A number above J also ends the list; of J + 1 numbers one does not rise.
 */
static void list_chain(const uint8_t *table, uint32_t bench, const uint32_t pair[2], uint32_t limit, struct list *list)
{
    uint32_t jobs = word_at(table, 1), job = word_at(table, 3 + bench);
    list->count = 0;
    while (job != 0 && job <= limit && list->count <= jobs) {
        list->jobs[list->count++] = job;
        job = job > jobs || names_both(table, job, pair) ? 0 : word_at(table, record_of(table, job) + 3);
    }
}

/* Tells whether a record names two different benches of 1 to B, and this one holds it. */
static bool is_held(const uint8_t *table, uint32_t job, uint32_t bench)
{
    size_t record = record_of(table, job);
    uint32_t benches = word_at(table, 0), a = word_at(table, record), b = word_at(table, record + 1), holder = word_at(table, record + 2);
    bool names = a != b && a >= 1 && b >= 1 && a <= benches && b <= benches;
    return names && (holder == 1 ? a : holder == 2 ? b : 0) == bench;
}

/* Tests the listed numbers and the records that they lead to; false at the first that may not be read. */
static bool test_list(const uint8_t *table, uint32_t bench, const struct list *list, struct sight *s)
{
    for (uint32_t i = 0; i < list->count; i++) {
        uint32_t job = list->jobs[i];
        if (job > word_at(table, 1) || (i > 0 && job <= list->jobs[i - 1]))
            return false;
        for (size_t place = 0; place < 4; place++)
            s->seen[record_of(table, job) + place] = true;
        if (!is_held(table, job, bench))
            return false;
    }
    return true;
}

/* Simulates the question; the sizes fit, and the benches are two of 1 to B. */
static void look(const struct table *t, const uint32_t pair[2], struct sight *s)
{
    static struct list list;
    uint32_t records = 0, job = 0;
    memset(s, 0, sizeof *s);
    s->answer = refused(JOBBOARD_UNSOUND);
    s->seen[0] = s->seen[1] = s->seen[3 + pair[0]] = s->seen[3 + pair[1]] = true;
    for (int i = 0; i < 2; i++) {
        list_chain(t->bytes, pair[i], pair, job == 0 ? UINT32_MAX : job, &list);
        if (!test_list(t->bytes, pair[i], &list, s))
            return;
        records += list.count;
        if (list.count > 0 && names_both(t->bytes, list.jobs[list.count - 1], pair))
            job = list.jobs[list.count - 1];
    }
    s->answer = given(job, records);
}

/* ---- Random tables ---- */

static uint64_t seed;
static uint32_t tables;                            /* made up to now */
static uint32_t found[2], none[2], turned_away[2]; /* on sound tables, with chains rising and in a random order */
static uint32_t higher;                            /* jobs found in a random order that are not the lowest that names both */
static uint32_t damaged_answered, damaged_refused; /* on tables damaged where the question reads */
static uint64_t changed;                           /* words that it may not look at */

static void stop(const uint32_t pair[2], struct answer a, const char *what)
{
    char got[DESCRIPTION];
    describe_answer(a, got);
    fail("pairs: seed %" PRIu64 ", table %u: benches %u and %u give %s: %s", seed, (unsigned)tables, (unsigned)pair[0],
         (unsigned)pair[1], got, what);
}

/* Reads all records of a sound table for the lowest job that names both benches, 0 for none, and the benches' loads. */
static uint32_t read_everything(const struct table *t, const uint32_t pair[2], uint32_t *loads)
{
    uint32_t lowest = 0;
    *loads = 0;
    for (uint32_t job = word_at(t->bytes, 1); job >= 1; job--) {
        if (names_both(t->bytes, job, pair))
            lowest = job;
        *loads += is_held(t->bytes, job, pair[0]) || is_held(t->bytes, job, pair[1]);
    }
    return lowest;
}

/* Expects of an answer on a sound table what the order of its chains allows. */
static void examine(const struct table *t, const uint32_t pair[2], struct answer a, bool rises)
{
    uint32_t loads, lowest = read_everything(t, pair, &loads), job = a.values[0], records = a.values[1];
    turned_away[!rises] += a.returned != JOBBOARD_OK;
    if (rises && (a.returned != JOBBOARD_OK || job != lowest))
        stop(pair, a, "not the answer of reading everything, and all chains rise");
    if (a.returned == JOBBOARD_UNSOUND)
        return;
    if (a.returned != JOBBOARD_OK || records > loads)
        stop(pair, a, "refused with another number, or more records read than the two loads added");
    if ((job == 0) != (lowest == 0) || (job != 0 && !names_both(t->bytes, job, pair)))
        stop(pair, a, "no job, and one names both, or a job that does not");
    found[!rises] += job != 0;
    none[!rises] += job == 0;
    higher += job > lowest;
}

/* Picks two benches: half the time those of a standing job, in either order. */
static void choose_pair(const struct table *t, struct random *r, uint32_t pair[2])
{
    uint32_t benches = word_at(t->bytes, 0), job = random_below(r, 2) == 0 ? pick_job(t, r, true) : 0, turned = random_below(r, 2);
    pair[0] = random_within(r, 1, benches);
    pair[1] = (pair[0] - 1 + random_within(r, 1, benches - 1)) % benches + 1;
    if (job != 0) {
        pair[turned] = word_at(t->bytes, record_of(t->bytes, job));
        pair[1 - turned] = word_at(t->bytes, record_of(t->bytes, job) + 1);
    }
}

/* Changes words that were looked at, but for the sizes, to small numbers. */
static void damage(struct table *t, const struct sight *s, struct random *r)
{
    size_t words = t->length / 2, i = random_below(r, (uint32_t)words);
    uint32_t benches = word_at(t->bytes, 0), jobs = word_at(t->bytes, 1);
    for (uint32_t times = random_within(r, 1, 3); times > 0; times--) {
        do
            i = i + 1 < words ? i + 1 : 4;
        while (i < 4 || !s->seen[i]);
        put_word(t->bytes, i, random_below(r, random_below(r, 2) == 0 ? benches + 2 : jobs + 2));
    }
}

/* Changes words that may not be looked at: every one, one in about ten, or only words 2 and 3. */
static void change_others(struct table *t, const struct sight *s, struct random *r, int way)
{
    uint32_t jobs = word_at(t->bytes, 1);
    for (size_t i = 2; i < (way == 2 ? 4 : t->length / 2); i += way == 1 ? random_within(r, 1, 19) : 1) {
        if (s->seen[i])
            continue;
        put_word(t->bytes, i, random_below(r, 2) == 0 ? random_below(r, jobs + 2) : random_below(r, 65536));
        changed++;
    }
}

/* Expects the simulation's answer, also with other words where the question may not look. */
static struct answer expect_seen(const struct table *t, const uint32_t pair[2], struct random *r, struct sight *s)
{
    static struct table other;
    look(t, pair, s);
    struct answer a = ask(t, pair[0], pair[1]);
    if (!same_answer(a, s->answer))
        stop(pair, a, "the simulation has another answer");
    for (int way = 0; way < 3; way++) {
        other = *t;
        change_others(&other, s, r, way);
        if (!same_answer(ask(&other, pair[0], pair[1]), a))
            stop(pair, a, "and something else with other words where it may not look");
    }
    return a;
}

static void run_table(struct random *r)
{
    static struct table t, damaged;
    static struct sight s;
    uint32_t pair[2];
    bool rises = tables++ % 2 == 0;
    do
        make_board(&t, r);
    while (word_at(t.bytes, 0) < 2);
    make_chains(&t, rises ? NULL : r);
    for (int times = 0; times < 3; times++) {
        choose_pair(&t, r, pair);
        examine(&t, pair, expect_seen(&t, pair, r, &s), rises);
        damaged = t;
        damage(&damaged, &s, r);
        bool answered = expect_seen(&damaged, pair, r, &s).returned == JOBBOARD_OK;
        damaged_answered += answered;
        damaged_refused += !answered;
    }
}

/* Expects enough of each end to say something; nothing of few tables. */
static void expect_enough(void)
{
    const uint32_t counts[] = {found[0], none[0], found[1], none[1], turned_away[1], higher, damaged_answered, damaged_refused};
    for (size_t i = 0; i < sizeof counts / sizeof counts[0]; i++)
        if (tables >= 1000 && counts[i] < tables / 50)
            fail("pairs: only %u tables for count %zu", (unsigned)counts[i], i);
}

int main(int argc, char **argv)
{
    static struct table t;
    seed = seed_of(argc, argv, 20260104);
    uint32_t wanted = argc > 2 ? (uint32_t)strtoul(argv[2], NULL, 10) : 10000;
    struct random r = {seed};
    ends(&t);
    limits(&t);
    rising(&t);
    records(&t);
    elsewhere(&t);
    refusals(&t);
    largest(&t);
    printf("pairs: the rules tried by hand: %u questions, all as expected\n", asked);
    while (tables < wanted)
        run_table(&r);
    expect_enough();
    printf("pairs: %u tables: chains rising: %u jobs and %u none, as reading everything gives; in a random order: %u jobs (%u not the lowest), "
           "%u none, %u refused; damaged: %u answered, %u refused; ",
           (unsigned)tables, (unsigned)found[0], (unsigned)none[0], (unsigned)found[1], (unsigned)higher, (unsigned)none[1],
           (unsigned)turned_away[1], (unsigned)damaged_answered, (unsigned)damaged_refused);
    printf("%" PRIu64 " words changed elsewhere, same answers\n", changed);
    return 0;
}
