#include "commands.h"

#include "jobboard.h"
#include "layout.h"

#include <stdarg.h>
#include <stdio.h>
#include <string.h>

static void say(struct report *report, const char *format, ...)
{
    va_list rest;
    size_t room = sizeof report->text - report->used;
    va_start(rest, format);
    int length = vsnprintf(report->text + report->used, room, format, rest);
    va_end(rest);
    if (length > 0)
        report->used += (size_t)length < room ? (size_t)length : room - 1;
}

/* Says "no jobs", "1 job", "2 jobs". */
static void say_count(struct report *report, uint32_t n, const char *one, const char *many)
{
    if (n == 0)
        say(report, "no %s", many);
    else
        say(report, "%u %s", (unsigned)n, n == 1 ? one : many);
}

/* Reads word i of a list that a call has written. */
static uint32_t listed(const uint8_t *list, uint32_t i)
{
    return list[2 * i] + 256u * list[2 * i + 1];
}

/* Says that a job has left the other bench that it names: somebody has to carry it. */
static void say_carried(struct report *report, const uint8_t *table, uint32_t job)
{
    say(report, "Job %u moves from bench %u to bench %u.\n", (unsigned)job, (unsigned)table_other(table, job),
        (unsigned)table_holder(table, job));
}

/* Says "job 1 moves.", "jobs 1, 2 move.", or for none the given words; then from where to where, in the order of the list. */
static void say_moved(struct report *report, const uint8_t *table, const uint8_t *list, uint32_t moved, const char *none)
{
    say(report, "%s", moved == 0 ? none : moved == 1 ? "job" : "jobs");
    for (uint32_t i = 0; i < moved; i++)
        say(report, "%s%u", i == 0 ? " " : ", ", (unsigned)listed(list, i));
    say(report, "%s.\n", moved == 0 ? "" : moved == 1 ? " moves" : " move");
    for (uint32_t i = 0; i < moved; i++)
        say_carried(report, table, listed(list, i));
}

static uint32_t run_new(uint8_t *table, size_t length, const struct numbers *n, struct report *report)
{
    uint32_t refusal = jobboard_blank(table, length, n->at[0], n->at[1]);
    if (refusal == JOBBOARD_OK)
        say(report, "The board is new: benches 1 to %u, jobs 1 to %u.\n", (unsigned)n->at[0], (unsigned)n->at[1]);
    return refusal;
}

static uint32_t run_take(uint8_t *table, size_t length, const struct numbers *n, struct report *report)
{
    uint8_t list[JOBBOARD_MOST_LIST_BYTES];
    uint32_t holder, rose, moved;
    uint32_t refusal = jobboard_arrival(table, length, n->at[0], n->at[1], n->at[2], list, sizeof list, &holder, &rose, &moved);
    if (refusal != JOBBOARD_OK)
        return refusal;
    say(report, "Job %u goes to bench %u. Bench %u has one job more; ", (unsigned)n->at[0], (unsigned)holder, (unsigned)rose);
    say_moved(report, table, list, moved, "no other jobs move");
    return refusal;
}

static uint32_t run_close(uint8_t *table, size_t length, const struct numbers *n, struct report *report)
{
    uint8_t list[JOBBOARD_MOST_LIST_BYTES];
    uint32_t fell, moved;
    uint32_t refusal = jobboard_closing(table, length, n->at[0], list, sizeof list, &fell, &moved);
    if (refusal != JOBBOARD_OK)
        return refusal;
    say(report, "Job %u is closed. Bench %u has one job less; ", (unsigned)n->at[0], (unsigned)fell);
    say_moved(report, table, list, moved, "no jobs move");
    return refusal;
}

static uint32_t run_level(uint8_t *table, size_t length, const struct numbers *n, struct report *report)
{
    static uint8_t before[JOBBOARD_MOST_TABLE_BYTES];
    uint32_t paths, level;
    memcpy(before, table, length < sizeof before ? length : sizeof before); /* a longer table is refused */
    uint32_t refusal = jobboard_levelling(table, length, n->count == 0 ? JOBBOARD_ENOUGH_PATHS : n->at[0], &paths, &level);
    if (refusal != JOBBOARD_OK)
        return refusal;
    say(report, "The board is %s; ", level == 1 ? "level" : "not level yet");
    say_count(report, paths, "path", "paths");
    say(report, " turned.\n");
    for (uint32_t job = 1; job <= table_jobs(table); job++)
        if (table_holder(before, job) != table_holder(table, job))
            say_carried(report, table, job);
    return refusal;
}

static uint32_t run_level_check(uint8_t *table, size_t length, const struct numbers *n, struct report *report)
{
    uint32_t level;
    (void)n;
    uint32_t refusal = jobboard_level_check(table, length, &level);
    if (refusal == JOBBOARD_OK)
        say(report, "The board is %s.\n", level == 1 ? "level" : "not level");
    return refusal;
}

static uint32_t run_load(uint8_t *table, size_t length, const struct numbers *n, struct report *report)
{
    uint32_t load;
    uint32_t refusal = jobboard_load(table, length, n->at[0], &load);
    if (refusal != JOBBOARD_OK)
        return refusal;
    say(report, "Bench %u holds ", (unsigned)n->at[0]);
    say_count(report, load, "job", "jobs");
    say(report, ".\n");
    return refusal;
}

static uint32_t run_heaviest(uint8_t *table, size_t length, const struct numbers *n, struct report *report)
{
    uint32_t load;
    (void)n;
    uint32_t refusal = jobboard_heaviest(table, length, &load);
    if (refusal != JOBBOARD_OK)
        return refusal;
    say(report, "The heaviest bench holds ");
    say_count(report, load, "job", "jobs");
    say(report, ".\n");
    return refusal;
}

static uint32_t run_tight(uint8_t *table, size_t length, const struct numbers *n, struct report *report)
{
    uint8_t list[JOBBOARD_MOST_LIST_BYTES];
    uint32_t benches, jobs;
    uint32_t refusal = jobboard_tight_set(table, length, n->at[0], list, sizeof list, &benches, &jobs);
    if (refusal != JOBBOARD_OK)
        return refusal;
    say(report, "Tight at height %u: ", (unsigned)n->at[0]);
    say_count(report, benches, "bench", "benches");
    say(report, " with ");
    say_count(report, jobs, "job", "jobs");
    say(report, " among themselves:");
    for (uint32_t i = 0; i < benches; i++)
        say(report, " %u", (unsigned)listed(list, i));
    say(report, "\n");
    /* More jobs than one less on every bench: on a level board always so. */
    if (jobs > (n->at[0] - 1) * benches)
        say(report, "However these jobs are shared, one of these benches holds %u or more.\n", (unsigned)n->at[0]);
    return refusal;
}

static uint32_t run_check(uint8_t *table, size_t length, const struct numbers *n, struct report *report)
{
    (void)n;
    uint32_t refusal = jobboard_check(table, length);
    if (refusal != JOBBOARD_OK)
        return refusal;
    say(report, "The board is sound: benches 1 to %u, jobs 1 to %u, ", (unsigned)table_benches(table), (unsigned)table_jobs(table));
    say_count(report, table_standing(table), "job", "jobs");
    say(report, " standing.\n");
    return refusal;
}

static void say_bench(struct report *report, const uint8_t *table, uint32_t bench, uint32_t load)
{
    say(report, "Bench %u holds ", (unsigned)bench);
    say_count(report, load, "job", "jobs");
    say(report, load == 0 ? "." : ":");
    for (uint32_t job = 1; job <= table_jobs(table); job++)
        if (table_holder(table, job) == bench)
            say(report, " %u", (unsigned)job);
    say(report, "\n");
}

static uint32_t run_show(uint8_t *table, size_t length, const struct numbers *n, struct report *report)
{
    uint32_t load;
    uint32_t refusal = jobboard_check(table, length);
    if (refusal != JOBBOARD_OK)
        return refusal;
    uint32_t first = n->count == 0 ? 1 : n->at[0];
    uint32_t last = n->count == 0 ? table_benches(table) : n->at[0];
    for (uint32_t bench = first; refusal == JOBBOARD_OK && bench <= last; bench++) {
        refusal = jobboard_load(table, length, bench, &load);
        if (refusal == JOBBOARD_OK)
            say_bench(report, table, bench, load);
    }
    return refusal;
}

/* Writes the sheet as it is: it is text already. */
static uint32_t run_sheet(uint8_t *table, size_t length, const struct numbers *n, struct report *report)
{
    uint32_t sheet;
    (void)n;
    uint8_t *page = (uint8_t *)report->text + report->used;
    uint32_t refusal = jobboard_sheet(table, length, page, sizeof report->text - report->used, &sheet);
    if (refusal == JOBBOARD_OK)
        report->used += sheet;
    return refusal;
}

static uint32_t run_between(uint8_t *table, size_t length, const struct numbers *n, struct report *report)
{
    uint32_t job, records;
    uint32_t refusal = jobboard_between(table, length, n->at[0], n->at[1], &job, &records);
    if (refusal != JOBBOARD_OK)
        return refusal;
    if (job == 0)
        say(report, "No job stands between benches %u and %u; ", (unsigned)n->at[0], (unsigned)n->at[1]);
    else
        say(report, "Job %u stands between benches %u and %u; ", (unsigned)job, (unsigned)n->at[0], (unsigned)n->at[1]);
    say_count(report, records, "record", "records");
    say(report, " read.\n");
    return refusal;
}

/* What refusal 2 of `between` means: it reads chains of a table that is not checked first, and a sound one may have them in another order. */
static const char damaged_or_unordered[] = "a record on these benches' chains is damaged or out of order; "
                                           "`check` tells whether the board is sound, and `level 0` puts a sound one in order";

const char *refusal_words(const struct command *command, uint32_t refusal)
{
    switch (refusal) {
    case JOBBOARD_SIZES:
        return "byte length odd or below 8, benches not 1 to 500, jobs not 1 to 4000, or length not that of so many benches and jobs";
    case JOBBOARD_UNSOUND:
        return command->run == run_between ? damaged_or_unordered : "sizes fit, table not sound";
    case JOBBOARD_JOB_NUMBER:
        return "job number not one of the board's";
    case JOBBOARD_BENCH_NUMBER:
        return "bench not one of the board's, or both benches the same";
    case JOBBOARD_ALREADY_STANDING:
        return "arrival of a standing job";
    case JOBBOARD_NOT_STANDING:
        return "closing of a job not standing";
    case JOBBOARD_HEIGHT:
        return "height 0, or above the heaviest load";
    case JOBBOARD_LIST_TOO_SHORT:
        return "list shorter than the words of the set, or of the moved jobs";
    case JOBBOARD_PAGE_TOO_SHORT:
        return "page shorter than the sheet";
    default:
        return "unknown refusal";
    }
}

static const struct command commands[] = {
    {"new", 2, 2, CREATES, run_new, "new BENCHES JOBS      make the file, with a board without jobs; a file that exists is left alone"},
    {"renew", 2, 2, CREATES_ANEW, run_new, "renew BENCHES JOBS    the same, in place of the file if there is one: what it held is lost"},
    {"take", 3, 3, CHANGES, run_take, "take JOB BENCH BENCH  a job arrives that either bench can do; says which others to carry, and where"},
    {"close", 1, 1, CHANGES, run_close, "close JOB             a job is done; says which jobs to carry, and where"},
    {"load", 1, 1, ASKS, run_load, "load BENCH            how many jobs a bench holds"},
    {"heaviest", 0, 0, ASKS, run_heaviest, "heaviest              how many the heaviest bench holds"},
    {"between", 2, 2, ASKS, run_between, "between BENCH BENCH   the lowest job that names both benches, in a file that is in order (see level)"},
    {"tight", 1, 1, ASKS, run_tight, "tight HEIGHT          the benches that keep each other at that height"},
    {"show", 0, 1, ASKS, run_show, "show [BENCH]          the jobs of each bench, or of one"},
    {"sheet", 0, 0, ASKS, run_sheet, "sheet                 the wall sheet, to print and pin up: bench, load and jobs in columns"},
    {"check", 0, 0, ASKS, run_check, "check                 whether the board is sound"},
    {"level-check", 0, 0, ASKS, run_level_check, "level-check           whether the board is level: nothing to hand along for the better"},
    {"level", 0, 1, CHANGES, run_level, "level [PATHS]         hand jobs along until the board is level, or so many paths; 0 only orders the file"},
};

static const size_t count = sizeof commands / sizeof commands[0];

const struct command *command_of(const char *word)
{
    for (size_t i = 0; i < count; i++)
        if (strcmp(commands[i].word, word) == 0)
            return &commands[i];
    return NULL;
}

void say_help(struct report *report)
{
    say(report, "desk FILE COMMAND   does one command on the board that FILE keeps\n"
                "desk FILE           reads commands from standard input, one a line\n\n");
    for (size_t i = 0; i < count; i++)
        say(report, "  %s\n", commands[i].help);
    say(report, "  help                  this page\n\n"
                "Ends with 0 if all was done, 1 if the board refused, 2 if a command was not understood, 3 if FILE cannot be used\n"
                "or an answer not written; of several commands the greatest counts.\n");
}
