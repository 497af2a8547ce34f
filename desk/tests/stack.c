/*
 * How much stack the calls need. Each call runs in a thread of its own whose stack is filled with a pattern; the deepest byte that is no
 * longer the pattern shows the need. The boards are the largest tables in the shapes that go deepest. The need must be below the
 * header's JOBBOARD_STACK_BYTES.
 */
#define _DEFAULT_SOURCE /* MAP_ANONYMOUS */

#include "calls.h"
#include "jobboard.h"
#include "support.h"

#include <pthread.h>
#include <stdio.h>
#include <string.h>
#include <sys/mman.h>

#define STACK ((size_t)4 << 20)
#define B JOBBOARD_MOST_BENCHES
#define J JOBBOARD_MOST_JOBS

struct run {
    struct call call;
    struct table *table;
    struct answer answer;
    uintptr_t top; /* an address in the frame that makes the call */
};

static void *run_call(void *argument)
{
    struct run *run = argument;
    volatile uint8_t here = 0;
    run->top = (uintptr_t)&here;
    run->answer = make_call(&run->call, run->table->bytes, run->table->length);
    return NULL;
}

/* Measures the stack that one run uses, with this pattern. */
static size_t need_with(struct run *run, int pattern, uint8_t *stack)
{
    pthread_t thread;
    pthread_attr_t attributes;
    memset(stack, pattern, STACK);
    if (pthread_attr_init(&attributes) != 0 || pthread_attr_setstack(&attributes, stack, STACK) != 0 ||
        pthread_create(&thread, &attributes, run_call, run) != 0 || pthread_join(thread, NULL) != 0)
        fail("stack: no thread");
    pthread_attr_destroy(&attributes);
    size_t deepest = 0;
    while (stack[deepest] == pattern)
        deepest++;
    return (size_t)(run->top - (uintptr_t)(stack + deepest));
}

/* Measures with a second pattern too, so that a byte that happens to be the first is seen. */
static size_t need_of(struct call call, const struct table *board, uint8_t *stack, struct answer *answer)
{
    static struct table copies[2];
    struct run run = {.call = call};
    size_t needs[2];
    for (int i = 0; i < 2; i++) {
        copies[i] = *board;
        run.table = &copies[i];
        needs[i] = need_with(&run, i == 0 ? 0x5c : 0xc9, stack);
        if (run.answer.returned != JOBBOARD_OK)
            fail("stack: a call was refused with %u", (unsigned)run.answer.returned);
    }
    *answer = run.answer;
    return needs[0] > needs[1] ? needs[0] : needs[1];
}

/* ---- Boards ---- */

/* Gives bench 1 all jobs, whose other benches are the others in turn. */
static void heap(struct table *t)
{
    for (uint32_t j = 1; j <= J; j++)
        make_stand(t, j, 1, 2 + j % (B - 1), 1);
}

/* Gives each bench but the last a job that leads to the next: the visits of a tight set go through all benches. */
static void path(struct table *t)
{
    for (uint32_t b = 1; b < B; b++)
        make_stand(t, b, b, b + 1, 1);
}

/* Does the same with the benches the other way round. */
static void path_back(struct table *t)
{
    for (uint32_t b = 1; b < B; b++)
        make_stand(t, b, b, b + 1, 2);
}

/* Gives each bench seven jobs that lead back, then one that leads on: a long walk along a chain before each visit. */
static void ladder(struct table *t)
{
    for (uint32_t b = 1; b < B; b++) {
        for (uint32_t k = 1; k <= 7; k++)
            make_stand(t, 8 * (b - 1) + k, b, b == 1 ? B : b - 1, 1);
        make_stand(t, 8 * b, b, b + 1, 1);
    }
}

/* Makes 3,502 jobs lead from bench 1 to bench 2, and the last of its chain to a path through all others. */
static void long_chain(struct table *t)
{
    for (uint32_t j = 1; j <= 3502; j++)
        make_stand(t, j, 1, 2, 1);
    make_stand(t, 3503, 1, 3, 1);
    for (uint32_t b = 3; b < B; b++)
        make_stand(t, 3501 + b, b, b + 1, 1);
}

/* Makes a path from bench 1, which has two jobs more, to bench B: closing bench B's own job hands 499 along. */
static void path_to_close(struct table *t)
{
    path(t);
    make_stand(t, B, B, 1, 1);
    make_stand(t, B + 1, 1, 2, 1);
    make_stand(t, B + 2, 1, 2, 1);
}

static void scattered(struct table *t)
{
    struct random r = {7};
    for (uint32_t j = 1; j < J; j++) {
        uint32_t first = random_within(&r, 1, B);
        uint32_t second = (first - 1 + random_within(&r, 1, B - 1)) % B + 1;
        make_stand(t, j, first, second, random_within(&r, 1, 2));
    }
}

/* ---- All calls on all boards ---- */

static size_t greatest;
static const char *greatest_call;
static unsigned runs;
static uint32_t most_moved[2]; /* by an arrival, by a closing */

static void measure(const char *name, struct call call, const struct table *t, uint8_t *stack)
{
    struct answer a;
    size_t need = need_of(call, t, stack, &a);
    runs++;
    uint32_t *most = &most_moved[call.kind == CLOSING], moved = jobs_moved(call.kind, a);
    *most = moved > *most ? moved : *most;
    if (need >= JOBBOARD_STACK_BYTES)
        fail("stack: %s needs %zu bytes, the header promises less than %d", name, need, JOBBOARD_STACK_BYTES);
    if (need > greatest) {
        greatest = need;
        greatest_call = name;
    }
}

static bool stands(const struct table *t, uint32_t job)
{
    return word_at(t->bytes, 4 + B + 4 * (size_t)(job - 1)) != 0;
}

/* Measures closing a few of the standing jobs, and arrival of one that is not, at both ends of the paths. */
static void measure_changes(const struct table *t, uint8_t *stack)
{
    static uint8_t list[JOBBOARD_MOST_LIST_BYTES];
    uint32_t free_job = J;
    for (uint32_t job = 1; job <= J; job += 499)
        if (stands(t, job))
            measure("closing", (struct call){CLOSING, {job, 0, 0}, list, sizeof list}, t, stack);
    if (stands(t, B))
        measure("closing", (struct call){CLOSING, {B, 0, 0}, list, sizeof list}, t, stack);
    while (free_job > 0 && stands(t, free_job))
        free_job--;
    if (free_job == 0)
        return;
    measure("arrival", (struct call){ARRIVAL, {free_job, 1, 2}, list, sizeof list}, t, stack);
    measure("arrival", (struct call){ARRIVAL, {free_job, B, B - 1}, list, sizeof list}, t, stack);
}

static void measure_board(const struct table *t, uint8_t *stack)
{
    static uint8_t list[JOBBOARD_MOST_LIST_BYTES], page[JOBBOARD_MOST_PAGE_BYTES];
    uint32_t most = 0;
    measure("form check", (struct call){CHECK, {0, 0, 0}, NULL, 0}, t, stack);
    measure("level check", (struct call){LEVEL_CHECK, {0, 0, 0}, NULL, 0}, t, stack);
    measure("load", (struct call){LOAD, {1, 0, 0}, NULL, 0}, t, stack);
    measure("heaviest load", (struct call){HEAVIEST, {0, 0, 0}, NULL, 0}, t, stack);
    measure("blanking", (struct call){BLANK, {B, J, 0}, NULL, 0}, t, stack);
    measure("levelling", (struct call){LEVELLING, {JOBBOARD_ENOUGH_PATHS, 0, 0}, NULL, 0}, t, stack);
    measure("sheet", (struct call){SHEET, {0, 0, 0}, page, sizeof page}, t, stack);
    measure("pair question", (struct call){BETWEEN, {1, B, 0}, NULL, 0}, t, stack);
    measure_changes(t, stack);
    if (jobboard_heaviest(t->bytes, t->length, &most) != JOBBOARD_OK)
        fail("stack: a board is not sound");
    for (uint32_t height = 1; height <= most; height += 1 + most / 8)
        measure("tight set", (struct call){TIGHT_SET, {height, 0, 0}, list, sizeof list}, t, stack);
}

int main(void)
{
    static void (*const boards[])(struct table *) = {heap, path, path_back, ladder, long_chain, path_to_close, scattered};
    static struct table t;
    void *stack = mmap(NULL, STACK, PROT_READ | PROT_WRITE, MAP_PRIVATE | MAP_ANONYMOUS, -1, 0);
    if (stack == MAP_FAILED)
        fail("stack: no memory");
    for (size_t i = 0; i < sizeof boards / sizeof boards[0]; i++) {
        make_empty(&t, B, J);
        boards[i](&t);
        make_chains(&t, NULL);
        measure_board(&t, stack);
    }
    if (most_moved[0] != B - 1 || most_moved[1] != B - 1)
        fail("stack: the longest paths were not met: %u and %u jobs moved", (unsigned)most_moved[0], (unsigned)most_moved[1]);
    printf("stack: %u runs on the largest tables, greatest need %zu bytes (%s), below %d\n", runs, greatest, greatest_call,
           JOBBOARD_STACK_BYTES);
    return 0;
}
