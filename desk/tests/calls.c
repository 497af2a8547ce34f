#include "calls.h"

#include "jobboard.h"
#include "support.h"

#include <stdio.h>
#include <string.h>

#define MOST_REFUSALS 6

/*
 * How many numbers a call takes and how many results it gives, whether it changes tables, what it is lent beside the table, and its
 * refusals in the header's order.
 */
static const struct {
    const char *name;
    int numbers;
    int results;
    bool changes;
    const char *lent;                 /* NULL for nothing */
    uint32_t refusals[MOST_REFUSALS]; /* 0 after the last */
} shapes[KINDS] = {
    [BLANK] = {"blank", 2, 0, true, NULL, {JOBBOARD_SIZES}},
    [CHECK] = {"check", 0, 0, false, NULL, {JOBBOARD_SIZES, JOBBOARD_UNSOUND}},
    [ARRIVAL] = {"arrival", 3, 3, true, "list",
                 {JOBBOARD_SIZES, JOBBOARD_UNSOUND, JOBBOARD_JOB_NUMBER, JOBBOARD_BENCH_NUMBER, JOBBOARD_ALREADY_STANDING,
                  JOBBOARD_LIST_TOO_SHORT}},
    [CLOSING] = {"closing", 1, 2, true, "list",
                 {JOBBOARD_SIZES, JOBBOARD_UNSOUND, JOBBOARD_JOB_NUMBER, JOBBOARD_NOT_STANDING, JOBBOARD_LIST_TOO_SHORT}},
    [LEVELLING] = {"levelling", 1, 2, true, NULL, {JOBBOARD_SIZES, JOBBOARD_UNSOUND}},
    [LEVEL_CHECK] = {"level_check", 0, 1, false, NULL, {JOBBOARD_SIZES, JOBBOARD_UNSOUND}},
    [LOAD] = {"load", 1, 1, false, NULL, {JOBBOARD_SIZES, JOBBOARD_UNSOUND, JOBBOARD_BENCH_NUMBER}},
    [HEAVIEST] = {"heaviest", 0, 1, false, NULL, {JOBBOARD_SIZES, JOBBOARD_UNSOUND}},
    [TIGHT_SET] = {"tight_set", 1, 2, false, "list", {JOBBOARD_SIZES, JOBBOARD_UNSOUND, JOBBOARD_HEIGHT, JOBBOARD_LIST_TOO_SHORT}},
    [SHEET] = {"sheet", 0, 1, false, "page", {JOBBOARD_SIZES, JOBBOARD_UNSOUND, JOBBOARD_PAGE_TOO_SHORT}},
    [BETWEEN] = {"between", 2, 2, false, NULL, {JOBBOARD_SIZES, JOBBOARD_BENCH_NUMBER, JOBBOARD_UNSOUND}},
};

static uint32_t pass_on(const struct call *call, uint8_t *table, size_t bytes, uint32_t *v)
{
    const uint32_t *n = call->numbers;
    switch (call->kind) {
    case BLANK:
        return jobboard_blank(table, bytes, n[0], n[1]);
    case CHECK:
        return jobboard_check(table, bytes);
    case ARRIVAL:
        return jobboard_arrival(table, bytes, n[0], n[1], n[2], call->lent, call->lent_bytes, &v[0], &v[1], &v[2]);
    case CLOSING:
        return jobboard_closing(table, bytes, n[0], call->lent, call->lent_bytes, &v[0], &v[1]);
    case LEVELLING:
        return jobboard_levelling(table, bytes, n[0], &v[0], &v[1]);
    case LEVEL_CHECK:
        return jobboard_level_check(table, bytes, &v[0]);
    case LOAD:
        return jobboard_load(table, bytes, n[0], &v[0]);
    case HEAVIEST:
        return jobboard_heaviest(table, bytes, &v[0]);
    case TIGHT_SET:
        return jobboard_tight_set(table, bytes, n[0], call->lent, call->lent_bytes, &v[0], &v[1]);
    case SHEET:
        return jobboard_sheet(table, bytes, call->lent, call->lent_bytes, &v[0]);
    case BETWEEN:
        return jobboard_between(table, bytes, n[0], n[1], &v[0], &v[1]);
    default:
        fail("no such call: %d", (int)call->kind);
    }
}

struct answer make_call(const struct call *call, uint8_t *table, size_t bytes)
{
    /* One number on each side of the results shows a call that writes beside them. */
    uint32_t lent[5] = {UNSET, UNSET, UNSET, UNSET, UNSET};
    struct answer a;
    a.returned = pass_on(call, table, bytes, lent + 1);
    memcpy(a.values, lent + 1, sizeof a.values);
    if (lent[0] != UNSET || lent[4] != UNSET)
        fail("%s wrote beside its results", shapes[call->kind].name);
    for (int i = 0; i < 3; i++)
        if ((a.returned == JOBBOARD_OK && i < shapes[call->kind].results) == (a.values[i] == UNSET))
            fail("%s returned %u and result %d is %u", shapes[call->kind].name, (unsigned)a.returned, i, (unsigned)a.values[i]);
    return a;
}

bool same_answer(struct answer a, struct answer b)
{
    return a.returned == b.returned && memcmp(a.values, b.values, sizeof a.values) == 0;
}

bool changes_table(enum kind kind)
{
    return shapes[kind].changes;
}

bool lists_moved(enum kind kind)
{
    return kind == ARRIVAL || kind == CLOSING;
}

uint32_t jobs_moved(enum kind kind, struct answer a)
{
    if (a.returned != JOBBOARD_OK || !lists_moved(kind))
        return 0;
    return a.values[shapes[kind].results - 1];
}

size_t bytes_written(enum kind kind, struct answer a)
{
    if (a.returned != JOBBOARD_OK)
        return 0;
    return kind == TIGHT_SET ? 2 * (size_t)a.values[0] : kind == SHEET ? a.values[0] : 2 * (size_t)jobs_moved(kind, a);
}

bool rest_unwritten(const struct call *call, struct answer a, size_t behind)
{
    size_t written = bytes_written(call->kind, a);
    for (size_t i = written; i < call->lent_bytes + behind; i++)
        if (call->lent[i] != UNWRITTEN)
            return false;
    return written <= call->lent_bytes;
}

bool may_refuse(enum kind kind, uint32_t number)
{
    for (int i = 0; i < MOST_REFUSALS; i++)
        if (number != JOBBOARD_OK && shapes[kind].refusals[i] == number)
            return true;
    return false;
}

void describe_call(const struct call *call, char text[DESCRIPTION])
{
    int used = snprintf(text, DESCRIPTION, "%s", shapes[call->kind].name);
    for (int i = 0; i < shapes[call->kind].numbers; i++)
        used += snprintf(text + used, DESCRIPTION - (size_t)used, " %u", (unsigned)call->numbers[i]);
    if (shapes[call->kind].lent != NULL)
        snprintf(text + used, DESCRIPTION - (size_t)used, " (%s of %zu bytes)", shapes[call->kind].lent, call->lent_bytes);
}

void describe_answer(struct answer a, char text[DESCRIPTION])
{
    int used = snprintf(text, DESCRIPTION, "%u:", (unsigned)a.returned);
    for (int i = 0; i < 3 && a.values[i] != UNSET; i++)
        used += snprintf(text + used, DESCRIPTION - (size_t)used, " %u", (unsigned)a.values[i]);
}
