/*
 * Random calls on random bytes and lengths. The lent table, and the list or a sheet's page, end at closed memory, which may not be touched,
 * or begin right behind it, or are allocated at exactly their length for the sanitizer; bytes beside them are watched. After each call:
 * what it returned is 0 or one of its own refusals; a refused call changed no lent byte and no result; a question changed no byte of the
 * table; nothing was touched beside what was lent.
 *
 * Then as many pair questions, as these read tables that nobody checked: among others tables whose sizes fit, with chains to walk along
 * and with random words. Then half as many arrivals and closings, most on sound boards that are not level, so that jobs move and are
 * listed, and the list ends at closed memory.
 *
 * Arguments: the seed, the number of calls and of pair questions.
 */
#define _DEFAULT_SOURCE /* MAP_ANONYMOUS */

#include "calls.h"
#include "jobboard.h"
#include "support.h"

#include <inttypes.h>
#include <signal.h>
#include <stdio.h>
#include <stdlib.h>
#include <string.h>
#include <sys/mman.h>
#include <unistd.h>

#define BESIDE 0x5c
#define WATCHED 64
#define LONGEST_LIST 1002
#define LONGEST_PAGE (JOBBOARD_MOST_PAGE_BYTES + 3)

static uint64_t seed;
static volatile uint32_t calls_made;
static uint32_t accepted;
static uint32_t listed, too_short; /* arrivals and closings that listed moved jobs, and that were lent too short a list for them */
static uint32_t pairs[12]; /* how often a pair question returned each number */
static uint32_t found;     /* pair questions that were answered with a job */

static void say_where(void)
{
    char text[120];
    int length = snprintf(text, sizeof text, "FAILED: random_bytes: seed %" PRIu64 ", call %u touched memory that was not lent\n", seed,
                          (unsigned)calls_made);
    if (write(STDERR_FILENO, text, (size_t)length) < 0)
        _exit(2);
}

/* Ends the test where the processor stops at closed memory. */
static void on_fault(int number)
{
    (void)number;
    say_where();
    _exit(1);
}

/* Says where: AddressSanitizer calls this before it reports an error and ends the program. */
void __asan_on_error(void);
void __asan_on_error(void)
{
    say_where();
}

/* Room for the longest loan, with closed memory on both sides. */
struct room {
    uint8_t *begin;
    size_t length;
};

static struct room make_room(size_t longest)
{
    size_t closed = (size_t)sysconf(_SC_PAGESIZE);
    struct room room = {NULL, (longest + 2 * WATCHED + closed - 1) / closed * closed};
    void *all = mmap(NULL, room.length + 2 * closed, PROT_READ | PROT_WRITE, MAP_PRIVATE | MAP_ANONYMOUS, -1, 0);
    if (all == MAP_FAILED)
        fail("random_bytes: no memory");
    room.begin = (uint8_t *)all + closed;
    if (mprotect(all, closed, PROT_NONE) != 0 || mprotect(room.begin + room.length, closed, PROT_NONE) != 0)
        fail("random_bytes: memory cannot be closed");
    return room;
}

/* Bytes lent to a call: where they are, and what they were. */
struct loan {
    enum { ENDS_AT_CLOSED, BEGINS_BEHIND_CLOSED, ALLOCATED } place;
    const struct room *room;
    uint8_t *bytes, *before;
    size_t length;
};

/* Takes over `before`, which has exactly the loan's length. */
static struct loan lend(struct random *r, const struct room *room, uint8_t *before, size_t length)
{
    struct loan loan = {random_below(r, 3), room, NULL, before, length};
    if (loan.place == ALLOCATED) {
        loan.bytes = copy_of(before, length);
        return loan;
    }
    loan.bytes = loan.place == ENDS_AT_CLOSED ? room->begin + room->length - length : room->begin;
    memcpy(loan.bytes, before, length);
    if (loan.place == ENDS_AT_CLOSED)
        memset(loan.bytes - WATCHED, BESIDE, WATCHED);
    else
        memset(loan.bytes + length, BESIDE, WATCHED);
    return loan;
}

static bool beside_untouched(const struct loan *loan)
{
    const uint8_t *watched = loan->place == ENDS_AT_CLOSED ? loan->bytes - WATCHED : loan->bytes + loan->length;
    for (int i = 0; loan->place != ALLOCATED && i < WATCHED; i++)
        if (watched[i] != BESIDE)
            return false;
    return true;
}

static bool unchanged(const struct loan *loan)
{
    return memcmp(loan->bytes, loan->before, loan->length) == 0;
}

static void give_back(struct loan *loan)
{
    if (loan->place == ALLOCATED)
        free(loan->bytes);
    free(loan->before);
}

/* ---- What is lent ---- */

/* Writes zeros, noise, or mostly zeros and small numbers, as tables have them. */
static void fill(struct random *r, uint8_t *bytes, size_t length)
{
    uint32_t kind = random_below(r, 3);
    memset(bytes, 0, length);
    for (size_t i = 0; kind == 1 && i < length; i++)
        bytes[i] = (uint8_t)random_next(r);
    for (size_t i = 0; kind == 2 && i < length; i += random_within(r, 1, 8))
        bytes[i] = (uint8_t)random_below(r, 6);
}

static void choose_sizes(struct random *r, uint32_t *benches, uint32_t *jobs)
{
    bool large = random_below(r, 50) == 0;
    *benches = large ? JOBBOARD_MOST_BENCHES : random_within(r, 1, 20);
    *jobs = large ? JOBBOARD_MOST_JOBS : random_within(r, 1, 40);
}

/* Makes a table with some arrivals; it may be damaged afterwards. */
static uint8_t *worn_table(struct random *r, size_t *length)
{
    uint32_t benches, jobs, holder, rose, moved;
    uint8_t list[JOBBOARD_MOST_LIST_BYTES];
    choose_sizes(r, &benches, &jobs);
    *length = JOBBOARD_TABLE_BYTES(benches, jobs);
    uint8_t *table = memory(*length);
    if (jobboard_blank(table, *length, benches, jobs) != JOBBOARD_OK)
        fail("random_bytes: blanking refused");
    for (uint32_t times = random_below(r, 30); times > 0; times--) {
        uint32_t job = random_within(r, 1, jobs), first = random_within(r, 1, benches), second = random_within(r, 1, benches);
        jobboard_arrival(table, *length, job, first, second, list, sizeof list, &holder, &rose, &moved);
    }
    for (uint32_t times = random_below(r, 2) == 0 ? 0 : random_within(r, 1, 4); times > 0; times--) {
        size_t i = random_below(r, (uint32_t)*length);
        table[i] = (uint8_t)random_next(r);
    }
    return table;
}

/* Makes random bytes; the sizes' words may be right. */
static uint8_t *noise(struct random *r, size_t *length)
{
    uint32_t benches, jobs;
    choose_sizes(r, &benches, &jobs);
    bool fits = random_below(r, 2) == 0;
    *length = fits ? JOBBOARD_TABLE_BYTES(benches, jobs) : random_below(r, 3) == 0 ? random_below(r, 12) : random_below(r, 600);
    uint8_t *table = memory(*length);
    fill(r, table, *length);
    if (*length >= 4 && (fits || random_below(r, 2) == 0)) {
        put_word(table, 0, benches);
        put_word(table, 1, jobs);
    }
    return table;
}

static uint8_t *random_table(struct random *r, size_t *length)
{
    uint8_t *table = random_below(r, 3) > 0 ? worn_table(r, length) : noise(r, length);
    if (random_below(r, 12) > 0)
        return table;
    /* Cut short, also to nothing. */
    *length = random_below(r, (uint32_t)*length + 1);
    uint8_t *cut = copy_of(table, *length);
    free(table);
    return cut;
}

/* Makes a board whose chains rise or do not. */
static void make_sound(struct table *t, struct random *r)
{
    make_board(t, r);
    make_chains(t, random_below(r, 2) == 0 ? NULL : r);
}

static uint8_t *sound_table(struct random *r, size_t *length)
{
    static struct table t;
    make_sound(&t, r);
    *length = t.length;
    return copy_of(t.bytes, t.length);
}

/* Makes such a board, and puts random words into it: in every place behind the sizes, in some, few or hardly any. */
static uint8_t *loose_table(struct random *r, size_t *length)
{
    static const uint32_t apart[] = {1, 6, 40, 4000};
    static struct table t;
    make_sound(&t, r);
    uint32_t jobs = word_at(t.bytes, 1), step = 2 * apart[random_below(r, 4)] - 1;
    for (size_t i = 1 + random_within(r, 1, step); i < t.length / 2; i += random_within(r, 1, step))
        put_word(t.bytes, i, random_below(r, 4) == 0 ? random_below(r, 65536) : random_below(r, random_below(r, 2) == 0 ? 4 : jobs + 2));
    *length = t.length;
    return copy_of(t.bytes, t.length);
}

/* Picks the length of a page: often about a line for each bench that the table names, as most sheets have. */
static size_t random_page(struct random *r, const uint8_t *table, size_t length)
{
    size_t lines = length >= 2 ? word_at(table, 0) + random_below(r, 3) : 0;
    if (lines == 0 || lines > JOBBOARD_MOST_BENCHES || random_below(r, 4) == 0)
        return random_below(r, LONGEST_PAGE + 1);
    return JOBBOARD_SHEET_LINE_BYTES * lines + random_below(r, 3) - 1;
}

static uint32_t random_number(struct random *r)
{
    static const uint32_t edges[] = {0,    1,     2,     499,   500,        501,        3999,           4000,
                                     4001, 65535, 65536, 65537, 0x7fffffff, 0x80000000, UINT32_MAX - 1, UINT32_MAX};
    uint32_t kind = random_below(r, 8);
    if (kind == 0)
        return edges[random_below(r, sizeof edges / sizeof edges[0])];
    return kind == 1 ? (uint32_t)random_next(r) : random_within(r, 0, kind == 2 ? 45 : 8);
}

/* ---- One call ---- */

static void stop(const struct call *call, struct answer a, const char *what)
{
    char text[DESCRIPTION], got[DESCRIPTION];
    describe_call(call, text);
    describe_answer(a, got);
    fail("random_bytes: seed %" PRIu64 ", call %u: %s gives %s and %s", seed, (unsigned)calls_made, text, got, what);
}

static void examine(const struct call *call, struct answer a, const struct loan *table, const struct loan *lent)
{
    bool refused = a.returned != JOBBOARD_OK;
    if (refused && !may_refuse(call->kind, a.returned))
        stop(call, a, "that is not one of its refusals");
    if ((refused || !changes_table(call->kind)) && !unchanged(table))
        stop(call, a, "changed the table");
    size_t written = bytes_written(call->kind, a);
    if (written > lent->length || memcmp(lent->bytes + written, lent->before + written, lent->length - written) != 0)
        stop(call, a, "changed the list or the page beyond what it may");
    if (!refused && changes_table(call->kind) && jobboard_check(table->bytes, table->length) != JOBBOARD_OK)
        stop(call, a, "left a table that is not sound");
    if (!beside_untouched(table) || !beside_untouched(lent))
        stop(call, a, "wrote beside what was lent");
    accepted += !refused;
    listed += jobs_moved(call->kind, a) > 0;
    too_short += lists_moved(call->kind) && a.returned == JOBBOARD_LIST_TOO_SHORT;
    pairs[a.returned] += call->kind == BETWEEN;
    found += call->kind == BETWEEN && !refused && a.values[0] != 0;
}

/* Lends a list, or the page of a sheet. An arrival or a closing mostly moves few jobs. */
static struct loan lend_beside(struct random *r, const struct room *room, enum kind kind, const struct loan *table)
{
    bool few = random_below(r, 3) < (lists_moved(kind) ? 2 : 1);
    size_t length = few ? random_below(r, 8) : random_below(r, LONGEST_LIST + 1);
    if (kind == SHEET && random_below(r, 8) > 0)
        length = random_page(r, table->bytes, table->length);
    uint8_t *before = memory(length);
    fill(r, before, length);
    return lend(r, room, before, length);
}

/* Chooses a call's numbers: any, or for a blanking the sizes that the table names, for a pair question two different benches of it. */
static void choose_numbers(struct random *r, struct call *call, const uint8_t *table, size_t length)
{
    for (int i = 0; i < 3; i++)
        call->numbers[i] = random_number(r);
    if (call->kind == BLANK && length >= 4 && random_below(r, 2) == 0) {
        call->numbers[0] = word_at(table, 0);
        call->numbers[1] = word_at(table, 1);
    }
    uint32_t benches = length >= 2 ? word_at(table, 0) : 0;
    if (call->kind == BETWEEN && benches >= 2 && random_below(r, 4) > 0) {
        call->numbers[0] = random_within(r, 1, benches);
        call->numbers[1] = (call->numbers[0] - 1 + random_within(r, 1, benches - 1)) % benches + 1;
    }
}

/* Chooses the numbers of an arrival or a closing on a sound table: any job, and the benches that some job names. */
static void choose_job(struct random *r, struct call *call, const uint8_t *table)
{
    uint32_t jobs = word_at(table, 1);
    size_t record = record_of(table, random_within(r, 1, jobs));
    call->numbers[0] = random_within(r, 1, jobs);
    call->numbers[1] = word_at(table, record);
    call->numbers[2] = word_at(table, record + 1);
}

static void run_call(struct random *r, const struct room *table_room, const struct room *lent_room, enum kind kind)
{
    size_t table_bytes;
    bool loose = kind == BETWEEN && random_below(r, 2) == 0, sound = lists_moved(kind) && random_below(r, 4) > 0;
    uint8_t *before = loose ? loose_table(r, &table_bytes) : sound ? sound_table(r, &table_bytes) : random_table(r, &table_bytes);
    struct call call = {kind, {0, 0, 0}, NULL, 0};
    struct loan table = lend(r, table_room, before, table_bytes);
    struct loan lent = lend_beside(r, lent_room, call.kind, &table);
    call.lent = lent.bytes;
    call.lent_bytes = lent.length;
    choose_numbers(r, &call, table.bytes, table_bytes);
    if (sound)
        choose_job(r, &call, table.bytes);
    calls_made++;
    examine(&call, make_call(&call, table.bytes, table_bytes), &table, &lent);
    give_back(&table);
    give_back(&lent);
}

/* Expects enough calls accepted, enough pair questions with each end, and enough lists written and too short, to say something. */
static void expect_enough(uint32_t calls, uint32_t accepted_first)
{
    if (accepted_first < calls / 10)
        fail("random_bytes: only %u calls were accepted", (unsigned)accepted_first);
    if (listed < calls / 50 || too_short < calls / 200)
        fail("random_bytes: only %u lists of moved jobs were written, and %u too short", (unsigned)listed, (unsigned)too_short);
    const uint32_t ends[] = {found, pairs[JOBBOARD_OK] - found, pairs[JOBBOARD_SIZES], pairs[JOBBOARD_BENCH_NUMBER], pairs[JOBBOARD_UNSOUND]};
    for (int i = 0; i < 5; i++)
        if (ends[i] < calls / 20)
            fail("random_bytes: only %u pair questions for count %d", (unsigned)ends[i], i);
}

int main(int argc, char **argv)
{
    seed = seed_of(argc, argv, 20260102);
    uint32_t calls = argc > 2 ? (uint32_t)strtoul(argv[2], NULL, 10) : 100000;
    struct random r = {seed};
    struct room table_room = make_room(JOBBOARD_MOST_TABLE_BYTES), lent_room = make_room(LONGEST_PAGE);
    signal(SIGSEGV, on_fault);
    signal(SIGBUS, on_fault);
    while (calls_made < calls)
        run_call(&r, &table_room, &lent_room, (enum kind)random_below(&r, KINDS));
    uint32_t accepted_first = accepted;
    while (calls_made < 2 * calls)
        run_call(&r, &table_room, &lent_room, BETWEEN);
    while (calls_made < 2 * calls + calls / 2)
        run_call(&r, &table_room, &lent_room, random_below(&r, 2) == 0 ? ARRIVAL : CLOSING);
    expect_enough(calls, accepted_first);
    printf("random_bytes: %u calls on random bytes and lengths, %u accepted; only what was lent was touched, and only by accepted changes\n",
           (unsigned)calls, (unsigned)accepted_first);
    printf("random_bytes: %u pair questions besides; of all %u found a job and %u none, refused %u with 1, %u with 4, %u with 2\n",
           (unsigned)calls, (unsigned)found, (unsigned)(pairs[JOBBOARD_OK] - found), (unsigned)pairs[JOBBOARD_SIZES],
           (unsigned)pairs[JOBBOARD_BENCH_NUMBER], (unsigned)pairs[JOBBOARD_UNSOUND]);
    printf("random_bytes: %u arrivals and closings besides; of all %u listed moved jobs, %u were refused for too short a list\n",
           (unsigned)(calls / 2), (unsigned)listed, (unsigned)too_short);
    return 0;
}
