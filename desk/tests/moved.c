/*
 * The jobs that an arrival or a closing moves, listed in path order. First boards worked out by hand: each list word by word, lent in many
 * lengths. A list of one byte too few is refused with 8, and then table, list and results are as they were.
 *
 * Then random boards, with the list held against the table before and after, as a porter sees it: just the listed jobs changed holder, and
 * each leaves the bench that the one before it came to. An arrival's first leaves the bench that holds the new job and its last comes to the
 * bench whose load rose; a closing's first leaves the bench whose load fell and its last comes to the bench that held the closed job.
 *
 * Arguments: the seed, the number of random boards.
 */
#include "calls.h"
#include "jobboard.h"
#include "support.h"

#include <inttypes.h>
#include <stdio.h>
#include <stdlib.h>
#include <string.h>

static const char *board; /* the one being tried */
static unsigned calls;

/* The list that is lent, with some bytes behind the longest. */
static uint8_t list[JOBBOARD_MOST_LIST_BYTES + 100];

static void stop(const struct call *call, struct answer a, const char *what)
{
    char text[DESCRIPTION], got[DESCRIPTION];
    describe_call(call, text);
    describe_answer(a, got);
    fail("moved: %s: %s gives %s: %s", board, text, got, what);
}

/* Makes the call with a list of this length. A refused call leaves every byte of table and list, an accepted one the rest of the list. */
static struct answer lend(struct table *t, struct call *call, size_t list_bytes)
{
    static struct table before;
    before = *t;
    memset(list, UNWRITTEN, sizeof list);
    call->lent = list;
    call->lent_bytes = list_bytes;
    struct answer a = make_call(call, t->bytes, t->length);
    if (a.returned != JOBBOARD_OK && memcmp(before.bytes, t->bytes, sizeof before.bytes) != 0)
        stop(call, a, "refused, and it changed the table");
    if (!rest_unwritten(call, a, sizeof list - list_bytes))
        stop(call, a, "more of the list was written than the moved jobs");
    calls++;
    return a;
}

static struct answer refused(uint32_t number)
{
    return (struct answer){number, {UNSET, UNSET, UNSET}};
}

/* Expects the refusal, with the results as they were. */
static void expect_refused(struct table *t, struct call call, size_t list_bytes, uint32_t number)
{
    struct answer a = lend(t, &call, list_bytes);
    if (!same_answer(a, refused(number)))
        stop(&call, a, "another answer than the refusal expected");
}

/* ---- Boards worked out by hand ---- */

static struct call arrival(uint32_t job, uint32_t first, uint32_t second)
{
    return (struct call){ARRIVAL, {job, first, second}, NULL, 0};
}

static struct call closing(uint32_t job)
{
    return (struct call){CLOSING, {job, 0, 0}, NULL, 0};
}

static struct answer arrived(uint32_t holder, uint32_t rose, uint32_t moved)
{
    return (struct answer){JOBBOARD_OK, {holder, rose, moved}};
}

static struct answer closed(uint32_t fell, uint32_t moved)
{
    return (struct answer){JOBBOARD_OK, {fell, moved, UNSET}};
}

/* Expects this answer and these jobs, in this order, with a list of this length. */
static void expect_listed(struct table *t, struct call call, size_t list_bytes, struct answer want, const uint32_t *jobs)
{
    struct answer a = lend(t, &call, list_bytes);
    if (!same_answer(a, want))
        stop(&call, a, "another answer than expected");
    for (uint32_t i = 0; i < jobs_moved(call.kind, want); i++)
        if (word_at(list, i) != jobs[i])
            fail("moved: %s: job %u of the list is %u, expected %u", board, (unsigned)i + 1, (unsigned)word_at(list, i), (unsigned)jobs[i]);
}

/*
 * Lends the call lists that are too short, down to none, and each is refused; then lists that are just long enough or longer, of odd and
 * even length, each on a copy, and all leave the same table. That table is t afterwards.
 */
static void expect_moves(struct table *t, struct call call, struct answer want, const uint32_t *jobs)
{
    static struct table left[6];
    size_t need = bytes_written(call.kind, want);
    const size_t less[] = {need - 1, need - 2, need / 2, 1, 0};
    const size_t more[] = {need, need + 1, need + 2, need + 3, JOBBOARD_MOST_LIST_BYTES - 1, JOBBOARD_MOST_LIST_BYTES};
    for (size_t i = 0; need > 0 && i < 5; i++)
        expect_refused(t, call, less[i], JOBBOARD_LIST_TOO_SHORT);
    for (size_t i = 0; i < 6; i++) {
        left[i] = *t;
        expect_listed(&left[i], call, more[i], want, jobs);
        if (memcmp(left[i].bytes, left[0].bytes, sizeof left[i].bytes) != 0)
            stop(&call, want, "another table with a longer list");
    }
    *t = left[0];
}

/* A list for expect_moves. */
#define JOBS(...) ((const uint32_t[]){__VA_ARGS__})

/* Expects that no job moves; then there need be no list. */
static void expect_none(struct table *t, struct call call, struct answer want)
{
    static struct table copy;
    copy = *t;
    struct answer a = make_call(&call, copy.bytes, copy.length);
    if (call.lent != NULL || !same_answer(a, want))
        stop(&call, a, "another answer than expected, without a list");
    expect_moves(t, call, want, NULL);
}

static void scope_boards(struct table *t)
{
    board = "the counter's run";
    make_empty(t, 3, 4);
    expect_none(t, arrival(1, 1, 2), arrived(1, 1, 0));
    expect_none(t, arrival(2, 2, 3), arrived(2, 2, 0));
    expect_moves(t, arrival(3, 1, 2), arrived(1, 3, 2), JOBS(1, 2));
    expect_none(t, closing(2), closed(3, 0));
    board = "three jobs on benches 1 and 2";
    make_empty(t, 2, 3);
    expect_none(t, arrival(1, 1, 2), arrived(1, 1, 0));
    expect_none(t, arrival(2, 1, 2), arrived(2, 2, 0));
    expect_none(t, arrival(3, 1, 2), arrived(1, 1, 0));
    expect_moves(t, closing(2), closed(1, 1), JOBS(1));
}

/* Takes in a job that is handed along itself: bench 1 has two jobs then, only the new one leads from there to bench 2, and job 1 to bench 3. */
static void new_job_left_out(struct table *t)
{
    board = "the new job moves too";
    make_empty(t, 4, 5);
    expect_none(t, arrival(1, 2, 3), arrived(2, 2, 0));
    expect_none(t, arrival(2, 1, 4), arrived(1, 1, 0));
    expect_none(t, arrival(3, 4, 1), arrived(4, 4, 0));
    expect_moves(t, arrival(5, 1, 2), arrived(2, 3, 1), JOBS(1));
}

/*
 * Makes benches 1 to n a row: bench k below n holds job n - k, which names k and k + 1. On the way from bench 1 to bench n the job numbers
 * fall, from n - 1 to 1.
 */
static void make_row(struct table *t, uint32_t n)
{
    make_empty(t, n, n + 2);
    for (uint32_t k = 1; k < n; k++)
        make_stand(t, n - k, k, k + 1, 1);
}

/* Hands n - 1 jobs along, the most that n benches allow: by an arrival at bench 1, by a closing at bench n. */
static void long_paths(struct table *t, uint32_t n, struct random *r)
{
    uint32_t falling[JOBBOARD_MOST_BENCHES], rising[JOBBOARD_MOST_BENCHES];
    for (uint32_t i = 0; i + 1 < n; i++) {
        falling[i] = n - 1 - i;
        rising[i] = i + 1;
    }
    board = "a path along all benches, job numbers falling";
    make_row(t, n);
    make_chains(t, r);
    expect_moves(t, arrival(n, 1, 2), arrived(1, n, n - 1), falling);
    make_row(t, n);
    make_stand(t, n, 1, 2, 1);
    make_stand(t, n + 1, n, 1, 1);
    make_chains(t, r);
    expect_moves(t, closing(n + 1), closed(1, n - 1), falling);
    board = "a path along all benches, job numbers rising";
    make_empty(t, n, n);
    for (uint32_t k = 1; k < n; k++)
        expect_none(t, arrival(k, k, k + 1), arrived(k, k, 0));
    expect_moves(t, arrival(n, 1, 2), arrived(1, n, n - 1), rising);
}

/* Makes a row with a second job on bench 1: the arrival of job 5 and the closing of job 1 move three jobs each. */
static void make_waiting(struct table *t)
{
    make_row(t, 5);
    make_stand(t, 6, 1, 2, 1);
    make_chains(t, NULL);
}

/* Expects each other refusal before 8, whatever the list; none writes it. */
static void refusals(struct table *t)
{
    const size_t lengths[] = {0, 1, 5, 6, 7, JOBBOARD_MOST_LIST_BYTES};
    board = "every refusal";
    for (int i = 0; i < 6; i++) {
        size_t bytes = lengths[i];
        make_waiting(t);
        expect_refused(t, arrival(0, 1, 2), bytes, JOBBOARD_JOB_NUMBER);
        expect_refused(t, arrival(8, 1, 2), bytes, JOBBOARD_JOB_NUMBER);
        expect_refused(t, arrival(5, 2, 2), bytes, JOBBOARD_BENCH_NUMBER);
        expect_refused(t, arrival(5, 1, 6), bytes, JOBBOARD_BENCH_NUMBER);
        expect_refused(t, arrival(4, 1, 2), bytes, JOBBOARD_ALREADY_STANDING);
        expect_refused(t, closing(0), bytes, JOBBOARD_JOB_NUMBER);
        expect_refused(t, closing(8), bytes, JOBBOARD_JOB_NUMBER);
        expect_refused(t, closing(5), bytes, JOBBOARD_NOT_STANDING);
        put_word(t->bytes, 3, 1);
        expect_refused(t, arrival(5, 1, 2), bytes, JOBBOARD_UNSOUND);
        expect_refused(t, closing(1), bytes, JOBBOARD_UNSOUND);
        t->length--;
        expect_refused(t, arrival(5, 1, 2), bytes, JOBBOARD_SIZES);
        expect_refused(t, closing(1), bytes, JOBBOARD_SIZES);
    }
    make_waiting(t);
    expect_refused(t, arrival(5, 1, 2), 5, JOBBOARD_LIST_TOO_SHORT);
    expect_refused(t, closing(1), 5, JOBBOARD_LIST_TOO_SHORT);
}

/* ---- Random boards ---- */

static uint64_t seed;
static uint32_t boards_made;
static uint32_t moves[2];  /* arrivals and closings that moved jobs */
static uint32_t longest;   /* the most jobs that one of them moved */
static uint32_t left_out;  /* arrivals whose own job moved too, and is not listed */
static uint32_t unordered; /* boards whose chains did not all rise */

/* Follows the list from bench `from`: each job leaves the bench where the one before it came, and none is come to twice. Gives the last. */
static uint32_t carry(const struct call *call, struct answer a, const struct table *before, const struct table *after, uint32_t from)
{
    bool met[JOBBOARD_MOST_BENCHES + 1] = {false};
    met[from] = true;
    for (uint32_t i = 0; i < jobs_moved(call->kind, a); i++) {
        uint32_t job = word_at(list, i);
        if (job < 1 || job > word_at(before->bytes, 1) || job == call->numbers[0])
            stop(call, a, "the list names the new or closed job, or a number that is none");
        if (holder_of(before->bytes, job) != from)
            stop(call, a, "a listed job does not leave the bench where the one before it came");
        from = holder_of(after->bytes, job);
        if (from == 0 || met[from])
            stop(call, a, "a listed job is lost, or comes to a bench for the second time");
        met[from] = true;
    }
    return from;
}

/* Counts the jobs, but for the new or closed one, that another bench holds afterwards. */
static uint32_t changed(const struct call *call, const struct table *before, const struct table *after)
{
    uint32_t count = 0;
    for (uint32_t job = 1; job <= word_at(before->bytes, 1); job++)
        count += job != call->numbers[0] && holder_of(before->bytes, job) != holder_of(after->bytes, job);
    return count;
}

/* Expects of an accepted change that the listed jobs, and no others, moved, and along one path. */
static void examine(const struct call *call, struct answer a, const struct table *before, const struct table *after)
{
    bool arrives = call->kind == ARRIVAL;
    uint32_t end = arrives ? a.values[1] : holder_of(before->bytes, call->numbers[0]);
    if (carry(call, a, before, after, a.values[0]) != end)
        stop(call, a, "the last listed job does not come to the end of the path");
    if (changed(call, before, after) != jobs_moved(call->kind, a))
        stop(call, a, "other jobs changed holder than those listed");
    if (arrives && holder_of(after->bytes, call->numbers[0]) != a.values[0])
        stop(call, a, "the new job has another holder");
}

/* Tells whether the bench that got the new job handed it along: the lighter of the two, or the first-named, does not hold it. */
static bool handed_along(const struct call *call, struct answer a, const struct table *before)
{
    uint32_t first, second;
    if (jobboard_load(before->bytes, before->length, call->numbers[1], &first) != JOBBOARD_OK ||
        jobboard_load(before->bytes, before->length, call->numbers[2], &second) != JOBBOARD_OK)
        stop(call, a, "the loads before it cannot be asked");
    return a.values[0] != (second < first ? call->numbers[2] : call->numbers[1]);
}

/* Makes the change with the longest list; then, where jobs moved, with one that is a byte too short, and with one that is just enough. */
static void run_change(const struct table *before, struct call call)
{
    static struct table after, again;
    after = again = *before;
    struct answer a = lend(&after, &call, JOBBOARD_MOST_LIST_BYTES);
    if (a.returned != JOBBOARD_OK)
        stop(&call, a, "refused");
    examine(&call, a, before, &after);
    uint32_t moved = jobs_moved(call.kind, a);
    left_out += call.kind == ARRIVAL && moved > 0 && handed_along(&call, a, before);
    if (moved == 0)
        return;
    moves[call.kind == CLOSING]++;
    longest = moved > longest ? moved : longest;
    expect_refused(&again, call, 2 * (size_t)moved - 1, JOBBOARD_LIST_TOO_SHORT);
    if (!same_answer(lend(&again, &call, 2 * (size_t)moved), a) || memcmp(again.bytes, after.bytes, sizeof after.bytes) != 0)
        stop(&call, a, "something else with a list of just its length");
}

/* Draws a board with a standing job and a free number; a third of them are levelled, as boards in use are. */
static void draw_board(struct table *t, struct random *r)
{
    uint32_t paths, level;
    do {
        make_board(t, r);
        make_chains(t, NULL);
    } while (pick_job(t, r, true) == 0 || pick_job(t, r, false) == 0);
    if (random_below(r, 3) == 0 && jobboard_levelling(t->bytes, t->length, JOBBOARD_ENOUGH_PATHS, &paths, &level) != JOBBOARD_OK)
        fail("moved: seed %" PRIu64 ", board %u: levelling refused", seed, (unsigned)boards_made);
    if (random_below(r, 2) == 0)
        make_chains(t, r);
}

/* Takes a job in, which names the benches of a standing one in either order, and closes one, each on the board as it was drawn. */
static void run_board(struct random *r)
{
    static struct table t;
    static char name[80];
    boards_made++;
    snprintf(name, sizeof name, "seed %" PRIu64 ", board %u", seed, (unsigned)boards_made);
    board = name;
    draw_board(&t, r);
    unordered += !chains_rise(t.bytes);
    size_t record = record_of(t.bytes, pick_job(&t, r, true));
    uint32_t turned = random_below(r, 2);
    run_change(&t, arrival(pick_job(&t, r, false), word_at(t.bytes, record + turned), word_at(t.bytes, record + 1 - turned)));
    run_change(&t, closing(pick_job(&t, r, true)));
}

/* Expects enough moves, arrivals whose own job is left out, and chains in any order, to say something; nothing of few boards. */
static void expect_enough(void)
{
    uint32_t least = boards_made < 1000 ? 0 : boards_made / 100;
    const uint32_t counts[] = {moves[0], moves[1], left_out, unordered};
    for (size_t i = 0; i < sizeof counts / sizeof counts[0]; i++)
        if (counts[i] < least)
            fail("moved: only %u boards for count %zu", (unsigned)counts[i], i);
}

int main(int argc, char **argv)
{
    static struct table t;
    const uint32_t rows[] = {3, 4, 17, 130, JOBBOARD_MOST_BENCHES};
    seed = seed_of(argc, argv, 20260105);
    uint32_t wanted = argc > 2 ? (uint32_t)strtoul(argv[2], NULL, 10) : 10000;
    struct random r = {seed};
    scope_boards(&t);
    new_job_left_out(&t);
    for (size_t i = 0; i < sizeof rows / sizeof rows[0]; i++) {
        long_paths(&t, rows[i], NULL);
        long_paths(&t, rows[i], &r);
    }
    refusals(&t);
    printf("moved: boards tried by hand: %u calls, every list as expected, a byte too few refused and nothing changed\n", calls);
    while (boards_made < wanted)
        run_board(&r);
    expect_enough();
    printf("moved: %u boards, %u with chains that do not rise: %u arrivals and %u closings moved the jobs that they list, and along one path, "
           "at most %u; %u arrivals left out their own job\n",
           (unsigned)boards_made, (unsigned)unordered, (unsigned)moves[0], (unsigned)moves[1], (unsigned)longest, (unsigned)left_out);
    return 0;
}
