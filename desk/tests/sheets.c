/*
 * Wall sheets tried by hand: each page byte by byte, on pages of many lengths and with chains in any order, and read back by columns.
 * A refused call leaves every byte of the page, and every call every byte of the table.
 *
 * Argument: the header, which shows a sheet.
 */
#include "calls.h"
#include "jobboard.h"
#include "support.h"

#include <stdio.h>
#include <string.h>

static const char *board; /* the one being tried */
static unsigned calls;

/* The page that is lent, with some bytes behind the longest. */
static uint8_t page[JOBBOARD_MOST_PAGE_BYTES + 100];

/* The sheet that is expected. */
static char sheet[JOBBOARD_MOST_PAGE_BYTES + 1];
static size_t length;

static void begin_sheet(const char *name)
{
    board = name;
    length = 0;
}

/* Adds a line: the text, blanks up to 68 characters, and a line feed. */
static void add_line(const char *text)
{
    length += (size_t)snprintf(sheet + length, sizeof sheet - length, "%-68s\n", text);
    if (length >= sizeof sheet)
        fail("sheets: %s: the expected sheet is longer than any", board);
}

/* Asks for the sheet on a page of this length and expects this answer. Bytes that an accepted call need not write stay UNWRITTEN. */
static void expect(struct table *t, size_t page_bytes, struct answer want)
{
    static struct table before;
    char got[DESCRIPTION], wanted[DESCRIPTION];
    before = *t;
    memset(page, UNWRITTEN, sizeof page);
    struct call call = {SHEET, {0, 0, 0}, page, page_bytes};
    struct answer a = make_call(&call, t->bytes, t->length);
    describe_answer(a, got);
    describe_answer(want, wanted);
    if (!same_answer(a, want))
        fail("sheets: %s: a page of %zu bytes gives %s, expected %s", board, page_bytes, got, wanted);
    if (memcmp(before.bytes, t->bytes, sizeof before.bytes) != 0)
        fail("sheets: %s: a page of %zu bytes gives %s and changed the table", board, page_bytes, got);
    if (!rest_unwritten(&call, a, sizeof page - page_bytes))
        fail("sheets: %s: a page of %zu bytes gives %s and wrote more of it than the sheet", board, page_bytes, got);
    calls++;
}

static void expect_refused(struct table *t, size_t page_bytes, uint32_t number)
{
    expect(t, page_bytes, (struct answer){number, {UNSET, UNSET, UNSET}});
}

static void expect_written(struct table *t, size_t page_bytes)
{
    expect(t, page_bytes, (struct answer){JOBBOARD_OK, {(uint32_t)length, UNSET, UNSET}});
    if (memcmp(page, sheet, length) != 0)
        fail("sheets: %s: another sheet:\n%.*sexpected:\n%s", board, (int)length, (const char *)page, sheet);
    if (!sheet_names_holders(page, length, t->bytes))
        fail("sheets: %s: the sheet read back has other holders than the table", board);
}

/* Expects the sheet wherever the page is long enough, exactly or by a little, of odd and even length. */
static void expect_sheet(struct table *t)
{
    const size_t less[] = {0, 1, 68, length / 2, length - 2, length - 1};
    const size_t more[] = {0, 1, 2, 68, 69};
    for (size_t i = 0; i < sizeof less / sizeof less[0]; i++)
        expect_refused(t, less[i], JOBBOARD_PAGE_TOO_SHORT);
    for (size_t i = 0; i < sizeof more / sizeof more[0]; i++)
        expect_written(t, length + more[i]);
}

/* Turns every chain round: one that rises falls afterwards. */
static void turn_chains(struct table *t)
{
    uint32_t benches = word_at(t->bytes, 0);
    for (uint32_t b = 1; b <= benches; b++) {
        uint32_t turned = 0, job = word_at(t->bytes, 3 + b);
        while (job != 0) {
            size_t next = record_of(t->bytes, job) + 3;
            uint32_t behind = word_at(t->bytes, next);
            put_word(t->bytes, next, turned);
            turned = job;
            job = behind;
        }
        put_word(t->bytes, 3 + b, turned);
    }
}

/* Expects the same sheet with chains that rise, that fall, and in random orders. */
static void expect_sheet_in_any_order(struct table *t)
{
    struct random r = {11};
    make_chains(t, NULL);
    expect_sheet(t);
    turn_chains(t);
    expect_sheet(t);
    for (int times = 0; times < 3; times++) {
        make_chains(t, &r);
        expect_sheet(t);
    }
}

static void without_jobs(struct table *t)
{
    begin_sheet("one bench, no jobs");
    make_empty(t, 1, 4000);
    add_line("  1    0");
    expect_sheet(t);
    begin_sheet("three benches, no jobs");
    make_empty(t, 3, 1);
    add_line("  1    0");
    add_line("  2    0");
    add_line("  3    0");
    expect_sheet(t);
}

static void twelve_and_thirteen(struct table *t)
{
    begin_sheet("twelve jobs on bench 1, thirteen on bench 2, none on bench 3");
    make_empty(t, 4, 1000);
    for (uint32_t job = 1; job <= 25; job++)
        make_stand(t, job, 1 + job % 2, 3, 1);
    make_stand(t, 1000, 3, 4, 2);
    add_line("  1   12    2    4    6    8   10   12   14   16   18   20   22   24");
    add_line("  2   13    1    3    5    7    9   11   13   15   17   19   21   23");
    add_line("           25");
    add_line("  3    0");
    add_line("  4    1 1000");
    expect_sheet_in_any_order(t);
}

static void two_lines_and_three(struct table *t)
{
    begin_sheet("twenty-four jobs on bench 1, twenty-five on bench 2");
    make_empty(t, 2, 4000);
    for (uint32_t job = 1; job <= 48; job++)
        make_stand(t, job, 1, 2, 2 - job % 2);
    make_stand(t, 4000, 2, 1, 1);
    add_line("  1   24    1    3    5    7    9   11   13   15   17   19   21   23");
    add_line("           25   27   29   31   33   35   37   39   41   43   45   47");
    add_line("  2   25    2    4    6    8   10   12   14   16   18   20   22   24");
    add_line("           26   28   30   32   34   36   38   40   42   44   46   48");
    add_line("         4000");
    expect_sheet_in_any_order(t);
}

/* Adds the lines that the header shows between bars. */
static void add_header_lines(const char *header)
{
    static const char before[] = " *     |";
    char line[300];
    FILE *file = fopen(header, "r");
    if (file == NULL)
        fail("sheets: cannot open %s", header);
    while (fgets(line, sizeof line, file) != NULL) {
        char *text = line + strlen(before), *end = strrchr(line, '|');
        if (strncmp(line, before, strlen(before)) != 0)
            continue;
        if (end != text + JOBBOARD_SHEET_LINE_BYTES - 1)
            fail("sheets: %s shows a line that has not 68 characters: %s", header, line);
        *end = 0;
        add_line(text);
    }
    fclose(file);
}

static void header_example(struct table *t, const char *header)
{
    const uint32_t first[] = {1, 2, 3, 5, 8, 13, 21, 34, 55, 89, 144, 233, 377, 4000};
    begin_sheet("the header's example");
    make_empty(t, 3, 4000);
    for (size_t i = 0; i < sizeof first / sizeof first[0]; i++)
        make_stand(t, first[i], 2, 1, 2);
    make_stand(t, 4, 3, 1, 1);
    make_stand(t, 6, 2, 3, 2);
    add_header_lines(header);
    expect_sheet_in_any_order(t);
}

/* Adds the lines of a bench that holds jobs 1 to 4,000. */
static void add_all_jobs(uint32_t bench)
{
    char line[100];
    for (uint32_t job = 1; job <= 4000;) {
        int used = job == 1 ? snprintf(line, sizeof line, "%3u 4000", (unsigned)bench) : snprintf(line, sizeof line, "        ");
        for (int places = 0; places < 12 && job <= 4000; places++)
            used += snprintf(line + used, sizeof line - (size_t)used, "%5u", (unsigned)job++);
        add_line(line);
    }
}

/* Makes one of 500 benches hold 4,000 jobs and the others none: the longest sheet that there is. */
static void longest(struct table *t, uint32_t heavy)
{
    char line[100];
    begin_sheet("one bench with 4,000 jobs, 499 without");
    make_empty(t, 500, 4000);
    for (uint32_t job = 1; job <= 4000; job++)
        make_stand(t, job, heavy, job % 500 + 1 == heavy ? 250 : job % 500 + 1, 1);
    for (uint32_t b = 1; b <= 500; b++) {
        snprintf(line, sizeof line, "%3u    0", (unsigned)b);
        if (b == heavy)
            add_all_jobs(b);
        else
            add_line(line);
    }
    if (length != 57477 || length != JOBBOARD_MOST_PAGE_BYTES)
        fail("sheets: %s: %zu bytes expected, the header has %zu", board, length, JOBBOARD_MOST_PAGE_BYTES);
    expect_sheet_in_any_order(t);
}

/* Writes `text` on the expected sheet of this table, and expects that reading it back tells the difference. */
static void expect_misread(const struct table *t, size_t line, size_t column, const char *text)
{
    memcpy(page, sheet, length);
    memcpy(page + JOBBOARD_SHEET_LINE_BYTES * (line - 1) + column - 1, text, strlen(text));
    if (sheet_names_holders(page, length, t->bytes))
        fail("sheets: %s: \"%s\" in line %zu is not noticed when the sheet is read back", board, text, line);
}

/* Reads wrong sheets of the header's example, which is the last one tried: the reader must not take them for right. */
static void misread(const struct table *t)
{
    expect_misread(t, 4, 14, "     "); /* job 6 is missing */
    expect_misread(t, 4, 14, "    7"); /* another is there in its place */
    expect_misread(t, 4, 14, "    4"); /* job 4 is there twice */
    expect_misread(t, 4, 19, "    7"); /* a job that is not standing */
    expect_misread(t, 4, 14, "   6 "); /* not right-aligned */
    expect_misread(t, 4, 3, " ");      /* bench 3 is not named: its jobs are read as bench 2's */
    expect_misread(t, 2, 3, "2");      /* bench 1's second line is bench 2's */
    expect_misread(t, 1, 69, " ");     /* no line feed */
    expect_misread(t, 2, 9, "  378");  /* a wrong digit */
}

/* Expects the lower refusal where two apply, whatever the page. */
static void refusals(struct table *t)
{
    begin_sheet("a table that is not sound");
    make_empty(t, 2, 3);
    put_word(t->bytes, 3, 1);
    expect_refused(t, JOBBOARD_MOST_PAGE_BYTES, JOBBOARD_UNSOUND);
    expect_refused(t, 137, JOBBOARD_UNSOUND);
    expect_refused(t, 0, JOBBOARD_UNSOUND);
    board = "a table of another length";
    t->length++;
    expect_refused(t, JOBBOARD_MOST_PAGE_BYTES, JOBBOARD_SIZES);
    expect_refused(t, 137, JOBBOARD_SIZES);
    t->length = 0;
    expect_refused(t, 0, JOBBOARD_SIZES);
}

int main(int argc, char **argv)
{
    static struct table t;
    if (argc != 2)
        fail("sheets: one argument: the header");
    without_jobs(&t);
    twelve_and_thirteen(&t);
    two_lines_and_three(&t);
    header_example(&t, argv[1]);
    misread(&t);
    longest(&t, 1);
    longest(&t, 500);
    refusals(&t);
    printf("sheets: wall sheets tried by hand: %u calls, every page as expected and read back\n", calls);
    return 0;
}
