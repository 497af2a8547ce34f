/* The scope's boards tried by hand, each through the C calls: answers, refusals, and that a refused call leaves every byte. */
#include "calls.h"
#include "jobboard.h"
#include "support.h"

#include <stdio.h>
#include <string.h>

static const char *board; /* the one being tried */
static unsigned calls;

/* The list that arrivals and closings are lent; moved.c looks at what they write into it. */
static uint8_t moves[JOBBOARD_MOST_LIST_BYTES];

/* Makes a call and expects this answer. A refused call and a question must leave every byte of the table, a refused change of its list. */
static void expect(struct table *t, struct call call, struct answer want)
{
    static struct table before;
    char wanted[DESCRIPTION], got[DESCRIPTION], text[DESCRIPTION];
    before = *t;
    memset(moves, UNWRITTEN, sizeof moves);
    struct answer a = make_call(&call, t->bytes, t->length);
    describe_call(&call, text);
    describe_answer(a, got);
    describe_answer(want, wanted);
    if (!same_answer(a, want))
        fail("boards: %s: %s gives %s, expected %s", board, text, got, wanted);
    bool keeps = a.returned != JOBBOARD_OK || !changes_table(call.kind);
    if (keeps && memcmp(before.bytes, t->bytes, sizeof before.bytes) != 0)
        fail("boards: %s: %s gives %s and changed the table", board, text, got);
    if (lists_moved(call.kind) && !rest_unwritten(&call, a, 0))
        fail("boards: %s: %s gives %s and wrote more of its list than it may", board, text, got);
    calls++;
}

static struct answer refused(uint32_t number)
{
    return (struct answer){number, {UNSET, UNSET, UNSET}};
}

static struct answer accepted(void)
{
    return refused(JOBBOARD_OK);
}

static struct answer one(uint32_t a)
{
    return (struct answer){JOBBOARD_OK, {a, UNSET, UNSET}};
}

static struct answer two(uint32_t a, uint32_t b)
{
    return (struct answer){JOBBOARD_OK, {a, b, UNSET}};
}

static struct answer three(uint32_t a, uint32_t b, uint32_t c)
{
    return (struct answer){JOBBOARD_OK, {a, b, c}};
}

static struct call question(enum kind kind, uint32_t number)
{
    return (struct call){kind, {number, 0, 0}, NULL, 0};
}

static struct call arrival(uint32_t job, uint32_t first, uint32_t second)
{
    return (struct call){ARRIVAL, {job, first, second}, moves, sizeof moves};
}

static struct call closing(uint32_t job)
{
    return (struct call){CLOSING, {job, 0, 0}, moves, sizeof moves};
}

/* Blanks `length` bytes that held something else; where that is accepted they must be as blanking leaves them. */
static void blank(struct table *t, size_t length, uint32_t benches, uint32_t jobs, struct answer want)
{
    static struct table empty;
    memset(t->bytes, 0x5c, sizeof t->bytes);
    t->length = length;
    expect(t, (struct call){BLANK, {benches, jobs, 0}, NULL, 0}, want);
    if (want.returned != JOBBOARD_OK)
        return;
    make_empty(&empty, benches, jobs);
    if (memcmp(t->bytes, empty.bytes, length) != 0 || t->bytes[length] != 0x5c)
        fail("boards: %s: blanking %u benches and %u jobs left other bytes", board, (unsigned)benches, (unsigned)jobs);
    expect(t, question(CHECK, 0), accepted());
}

static void blank_fitting(struct table *t, uint32_t benches, uint32_t jobs)
{
    blank(t, JOBBOARD_TABLE_BYTES(benches, jobs), benches, jobs, accepted());
}

/* Expects `set`, of `benches` words, as the tight set; a list of that length is enough, and one byte less is not. */
static void expect_set(struct table *t, uint32_t height, const uint32_t *set, uint32_t benches, uint32_t jobs)
{
    uint8_t list[JOBBOARD_MOST_LIST_BYTES + 2];
    memset(list, UNWRITTEN, sizeof list);
    struct call call = {TIGHT_SET, {height, 0, 0}, list, 2 * (size_t)benches - 1};
    expect(t, call, refused(JOBBOARD_LIST_TOO_SHORT));
    if (!rest_unwritten(&call, refused(JOBBOARD_LIST_TOO_SHORT), 3))
        fail("boards: %s: a refused tight set wrote its list", board);
    call.lent_bytes++;
    expect(t, call, two(benches, jobs));
    for (uint32_t i = 0; i < benches; i++)
        if (word_at(list, i) != set[i])
            fail("boards: %s: bench %u of the tight set is %u", board, (unsigned)i + 1, (unsigned)word_at(list, i));
    if (!rest_unwritten(&call, two(benches, jobs), 2))
        fail("boards: %s: the list beyond the set was written", board);
}

static void expect_loads(struct table *t, const uint32_t *loads, uint32_t benches)
{
    for (uint32_t b = 1; b <= benches; b++)
        expect(t, question(LOAD, b), one(loads[b - 1]));
}

static void smallest_and_largest(struct table *t)
{
    board = "blank, 1 bench and 1 job";
    blank(t, 18, 1, 1, accepted());
    blank(t, 17, 1, 1, refused(JOBBOARD_SIZES));
    blank(t, 19, 1, 1, refused(JOBBOARD_SIZES));
    board = "500 benches and 4,000 jobs";
    blank(t, 33008, 500, 4000, accepted());
    blank(t, JOBBOARD_TABLE_BYTES(501, 4000), 501, 4000, refused(JOBBOARD_SIZES));
    blank(t, JOBBOARD_TABLE_BYTES(500, 4001), 500, 4001, refused(JOBBOARD_SIZES));
    blank(t, JOBBOARD_TABLE_BYTES(500, 0), 500, 0, refused(JOBBOARD_SIZES));
    blank(t, JOBBOARD_TABLE_BYTES(0, 4000), 0, 4000, refused(JOBBOARD_SIZES));
}

static void job_and_bench_numbers(struct table *t)
{
    board = "job numbers";
    blank_fitting(t, 3, 4);
    expect(t, arrival(0, 1, 2), refused(JOBBOARD_JOB_NUMBER));
    expect(t, arrival(5, 1, 2), refused(JOBBOARD_JOB_NUMBER));
    expect(t, closing(0), refused(JOBBOARD_JOB_NUMBER));
    expect(t, closing(5), refused(JOBBOARD_JOB_NUMBER));
    expect(t, arrival(4, 1, 2), three(1, 1, 0));
    board = "benches 2 and 2";
    expect(t, arrival(3, 2, 2), refused(JOBBOARD_BENCH_NUMBER));
    expect(t, arrival(4, 2, 2), refused(JOBBOARD_BENCH_NUMBER));
    expect(t, arrival(4, 1, 2), refused(JOBBOARD_ALREADY_STANDING));
}

static void counter_run(struct table *t)
{
    const uint32_t set[] = {1, 2, 3};
    board = "the counter's run";
    blank_fitting(t, 3, 4);
    expect(t, arrival(1, 1, 2), three(1, 1, 0));
    expect(t, arrival(2, 2, 3), three(2, 2, 0));
    expect(t, arrival(3, 1, 2), three(1, 3, 2));
    expect_set(t, 1, set, 3, 3);
    expect(t, closing(2), two(3, 0));
    expect(t, closing(2), refused(JOBBOARD_NOT_STANDING));
}

/* Expects this holder word of a job. */
static void expect_holder(const struct table *t, uint32_t job, uint32_t holder)
{
    uint32_t word = word_at(t->bytes, record_of(t->bytes, job) + 2);
    if (word != holder)
        fail("boards: %s: holder of job %u is %u, expected %u", board, (unsigned)job, (unsigned)word, (unsigned)holder);
}

static void three_on_the_same_benches(struct table *t)
{
    const uint32_t set[] = {1, 2};
    board = "three jobs on benches 1 and 2";
    blank_fitting(t, 2, 3);
    expect(t, arrival(1, 1, 2), three(1, 1, 0));
    expect(t, arrival(2, 1, 2), three(2, 2, 0));
    expect(t, arrival(3, 1, 2), three(1, 1, 0));
    expect_holder(t, 1, 1);
    expect_holder(t, 2, 2);
    expect_holder(t, 3, 1);
    expect_set(t, 2, set, 2, 3);
    expect(t, closing(2), two(1, 1));
    expect_holder(t, 1, 2);
    expect_holder(t, 3, 1);
}

static void star(struct table *t)
{
    const uint32_t loads[] = {1, 0, 1, 1, 1};
    board = "1 and 2, 1 and 3, 1 and 4, 1 and 5";
    blank_fitting(t, 5, 4);
    expect(t, arrival(1, 1, 2), three(1, 1, 0));
    expect(t, arrival(2, 1, 3), three(3, 3, 0));
    expect(t, arrival(3, 1, 4), three(4, 4, 0));
    expect(t, arrival(4, 1, 5), three(5, 5, 0));
    expect_loads(t, loads, 5);
}

static void three_on_one_bench(struct table *t)
{
    board = "bench 1 holds three jobs, all naming 1 and 2";
    make_empty(t, 2, 3);
    for (uint32_t job = 1; job <= 3; job++)
        make_stand(t, job, 1, 2, 1);
    make_chains(t, NULL);
    expect(t, question(LEVEL_CHECK, 0), one(0));
    expect(t, question(LEVELLING, 0), two(0, 0));
    expect(t, question(LEVELLING, 1), two(1, 1));
    expect(t, question(LEVEL_CHECK, 0), one(1));
    expect(t, question(HEAVIEST, 0), one(2));
}

static void no_jobs(struct table *t)
{
    uint8_t list[4];
    board = "no jobs";
    blank_fitting(t, 2, 3);
    expect(t, question(HEAVIEST, 0), one(0));
    expect(t, (struct call){TIGHT_SET, {0, 0, 0}, list, sizeof list}, refused(JOBBOARD_HEIGHT));
    expect(t, (struct call){TIGHT_SET, {1, 0, 0}, list, sizeof list}, refused(JOBBOARD_HEIGHT));
    expect(t, question(LEVEL_CHECK, 0), one(1));
}

/* Takes in one job for each pair of five benches, in a random order. */
static void all_pairs(struct table *t, struct random *r)
{
    const uint32_t loads[] = {2, 2, 2, 2, 2};
    uint32_t pairs[10][2];
    uint32_t left = 0;
    board = "one job for each pair of five benches";
    for (uint32_t a = 1; a <= 5; a++)
        for (uint32_t b = a + 1; b <= 5; b++, left++) {
            uint32_t turned = random_below(r, 2);
            pairs[left][turned] = a;
            pairs[left][1 - turned] = b;
        }
    blank_fitting(t, 5, 10);
    for (; left > 0; left--) {
        uint32_t i = random_below(r, left);
        struct call call = arrival(left, pairs[i][0], pairs[i][1]);
        if (make_call(&call, t->bytes, t->length).returned != JOBBOARD_OK)
            fail("boards: %s: arrival refused", board);
        calls++;
        memcpy(pairs[i], pairs[left - 1], sizeof pairs[i]);
    }
    expect_loads(t, loads, 5);
}

int main(int argc, char **argv)
{
    static struct table t;
    struct random r = {seed_of(argc, argv, 1)};
    smallest_and_largest(&t);
    job_and_bench_numbers(&t);
    counter_run(&t);
    three_on_the_same_benches(&t);
    star(&t);
    three_on_one_bench(&t);
    no_jobs(&t);
    for (int i = 0; i < 2000; i++)
        all_pairs(&t, &r);
    printf("boards: the boards tried by hand, 2000 arrival orders of the last: %u calls, all as expected\n", calls);
    return 0;
}
