/*
 * NULL where a length is 0: the table of each of the eleven calls, the list of a tight set, an arrival or a closing, a sheet's page. Each
 * is refused as a length of 0 is; only an arrival or a closing that moves no job needs no list, and is accepted.
 */
#include "calls.h"
#include "jobboard.h"
#include "support.h"

#include <stdio.h>
#include <string.h>

static unsigned calls;

static void expect(const struct call *call, uint8_t *table, size_t bytes, struct answer want)
{
    char text[DESCRIPTION], got[DESCRIPTION], wanted[DESCRIPTION];
    struct answer a = make_call(call, table, bytes);
    describe_call(call, text);
    describe_answer(a, got);
    describe_answer(want, wanted);
    if (!same_answer(a, want))
        fail("null: %s on a table of %zu bytes gives %s, expected %s", text, bytes, got, wanted);
    calls++;
}

/* Gives the answer of a refused call, whose results stay unset. */
static struct answer refused(uint32_t number)
{
    return (struct answer){number, {UNSET, UNSET, UNSET}};
}

/* Lends no table to a call, and beside it four bytes, or none. */
static void without_table(enum kind kind, uint32_t number)
{
    uint8_t lent[4];
    struct call call = {kind, {number, number, number}, NULL, 0};
    expect(&call, NULL, 0, refused(JOBBOARD_SIZES));
    memset(lent, UNWRITTEN, sizeof lent);
    call.lent = lent;
    call.lent_bytes = sizeof lent;
    expect(&call, NULL, 0, refused(JOBBOARD_SIZES));
    if (!rest_unwritten(&call, refused(JOBBOARD_SIZES), 0))
        fail("null: a refused call wrote its list or its page");
}

/* Lends a table and nothing else; a refused call must leave it as it is. */
static void with_table_alone(struct table *t, struct call call, uint32_t number)
{
    static struct table before;
    before = *t;
    expect(&call, t->bytes, t->length, refused(number));
    if (memcmp(before.bytes, t->bytes, sizeof before.bytes) != 0)
        fail("null: a refused call changed the table");
}

static void without_list(struct table *t, uint32_t height, uint32_t number)
{
    with_table_alone(t, (struct call){TIGHT_SET, {height, 0, 0}, NULL, 0}, number);
}

static void without_page(struct table *t, uint32_t number)
{
    with_table_alone(t, (struct call){SHEET, {0, 0, 0}, NULL, 0}, number);
}

/* Tries every refusal of a tight set. None is accepted without a list, as a set has at least one bench. */
static void lists(struct table *t)
{
    make_empty(t, 2, 3);
    without_list(t, 0, JOBBOARD_HEIGHT);
    without_list(t, 1, JOBBOARD_HEIGHT);
    for (uint32_t job = 1; job <= 3; job++)
        make_stand(t, job, 1, 2, 1 + job % 2);
    make_chains(t, NULL);
    without_list(t, 0, JOBBOARD_HEIGHT);
    without_list(t, 1, JOBBOARD_LIST_TOO_SHORT);
    without_list(t, 2, JOBBOARD_LIST_TOO_SHORT);
    without_list(t, 3, JOBBOARD_HEIGHT);
    put_word(t->bytes, 3, 1);
    without_list(t, 1, JOBBOARD_UNSOUND);
    t->length--;
    without_list(t, 1, JOBBOARD_SIZES);
}

/* Tries every refusal of a sheet. None is accepted without a page, as a sheet has at least one line. */
static void pages(struct table *t)
{
    make_empty(t, 1, 1);
    without_page(t, JOBBOARD_PAGE_TOO_SHORT);
    put_word(t->bytes, 3, 1);
    without_page(t, JOBBOARD_UNSOUND);
    t->length--;
    without_page(t, JOBBOARD_SIZES);
}

static void arrive(struct table *t, uint32_t job, uint32_t first, uint32_t second, uint32_t number)
{
    with_table_alone(t, (struct call){ARRIVAL, {job, first, second}, NULL, 0}, number);
}

static void close_job(struct table *t, uint32_t job, uint32_t number)
{
    with_table_alone(t, (struct call){CLOSING, {job, 0, 0}, NULL, 0}, number);
}

/* Tries every refusal of an arrival and of a closing: on bench 1 of three are two jobs for bench 2, on bench 2 is one for bench 3. */
static void moves(struct table *t)
{
    make_empty(t, 3, 6);
    make_stand(t, 1, 1, 2, 1);
    make_stand(t, 2, 1, 2, 1);
    make_stand(t, 3, 2, 3, 1);
    make_chains(t, NULL);
    arrive(t, 7, 1, 2, JOBBOARD_JOB_NUMBER);
    arrive(t, 4, 1, 1, JOBBOARD_BENCH_NUMBER);
    arrive(t, 1, 1, 2, JOBBOARD_ALREADY_STANDING);
    arrive(t, 4, 2, 1, JOBBOARD_LIST_TOO_SHORT); /* bench 2 would have two, bench 3 none */
    close_job(t, 0, JOBBOARD_JOB_NUMBER);
    close_job(t, 4, JOBBOARD_NOT_STANDING);
    close_job(t, 3, JOBBOARD_LIST_TOO_SHORT); /* bench 1 has two, bench 2 would have none */
    expect(&(struct call){ARRIVAL, {5, 2, 3}, NULL, 0}, t->bytes, t->length, (struct answer){JOBBOARD_OK, {3, 3, 0}});
    expect(&(struct call){CLOSING, {1, 0, 0}, NULL, 0}, t->bytes, t->length, (struct answer){JOBBOARD_OK, {1, 0, UNSET}});
    put_word(t->bytes, 3, 1);
    arrive(t, 4, 2, 1, JOBBOARD_UNSOUND);
    close_job(t, 3, JOBBOARD_UNSOUND);
    t->length--;
    arrive(t, 4, 2, 1, JOBBOARD_SIZES);
    close_job(t, 3, JOBBOARD_SIZES);
}

int main(void)
{
    static struct table t;
    const uint32_t numbers[] = {0, 1, 0xffffffff};
    for (int kind = 0; kind < KINDS; kind++)
        for (int i = 0; i < 3; i++)
            without_table((enum kind)kind, numbers[i]);
    lists(&t);
    pages(&t);
    moves(&t);
    printf("null: no table for the eleven calls, no list for a tight set, an arrival and a closing, no page for a sheet: %u calls, "
           "all answered as expected\n",
           calls);
    return 0;
}
