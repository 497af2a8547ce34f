/*
 * Tables, and what another implementation of the papers answered on them: those of crates/test_table_files/data/base with data/index and
 * data/calls, from before the change requests, and those of crates/test_table_files/data/requests with data/requests/index and
 * data/requests/calls, from the newest request.
 *
 * `index` has for each table its form check, level check, heaviest load and a hash of its loads; `calls` has calls, each on a fresh copy,
 * with the answer and hashes. The first is of the whole table, and it is compared with that of the bytes as the call leaves them:
 * nothing is put in order here. From request 02 on an accepted arrival, closing or levelling leaves every chain rising, so every byte is
 * compared, in the older files too; a refused call and a load leave the bytes as they were. The second hash is of the same table with
 * chain heads and next words zero, and only says which part differs. For a tight set both are of its list; for a wall sheet they are of
 * the table and of the page; for an arrival or a closing of request 04 of the table and of the list of moved jobs; for a pair question
 * and for a heaviest load of request 05 there is the first alone. List and page are filled with a5 before. Arrivals and closings of the
 * older files have no list, and get one that is long enough. The heaviest load of request 05 comes with the number of benches counted,
 * which the C call does not tell: here it is left out, and crates/test_table_files compares it.
 *
 * Arguments: the folder of tables and the folder of index and calls, from before the change requests; the same two of the newest request.
 */
#include "calls.h"
#include "jobboard.h"
#include "support.h"

#include <inttypes.h>
#include <stdio.h>
#include <stdlib.h>
#include <string.h>

#define LINE 200

/* A table as it is in its file. */
struct file {
    char name[LINE];
    uint8_t bytes[JOBBOARD_MOST_TABLE_BYTES + 1024];
    size_t length;
};

static FILE *open_in(const char *folder, const char *name)
{
    char path[1000];
    if (snprintf(path, sizeof path, "%s/%s", folder, name) >= (int)sizeof path)
        fail("vectors: name too long: %s/%s", folder, name);
    FILE *file = fopen(path, "rb");
    if (file == NULL)
        fail("vectors: cannot open %s", path);
    return file;
}

static void read_table(struct file *f, const char *folder, const char *name)
{
    FILE *file = open_in(folder, name);
    f->length = fread(f->bytes, 1, sizeof f->bytes, file);
    if (f->length == sizeof f->bytes || ferror(file))
        fail("vectors: %s: cannot be read, or too long", name);
    fclose(file);
    snprintf(f->name, sizeof f->name, "%s", name);
}

/* Makes a call on a fresh copy of the table; the copy is the caller's. */
static struct answer on_copy(const struct file *f, const struct call *call, uint8_t **left)
{
    *left = copy_of(f->bytes, f->length);
    return make_call(call, *left, f->length);
}

static struct answer ask(const struct file *f, enum kind kind, uint32_t number)
{
    struct call call = {kind, {number, 0, 0}, NULL, 0};
    uint8_t *left;
    struct answer a = on_copy(f, &call, &left);
    if (memcmp(left, f->bytes, f->length) != 0)
        fail("vectors: %s: a question changed the table", f->name);
    free(left);
    return a;
}

/* Hashes the loads of all benches, as words. */
static uint64_t loads_hash(const struct file *f)
{
    uint8_t loads[2 * JOBBOARD_MOST_BENCHES];
    uint32_t benches = word_at(f->bytes, 0);
    for (uint32_t b = 1; b <= benches; b++) {
        struct answer a = ask(f, LOAD, b);
        if (a.returned != JOBBOARD_OK)
            fail("vectors: %s: load of bench %u gives %u", f->name, (unsigned)b, (unsigned)a.returned);
        put_word(loads, b - 1, a.values[0]);
    }
    return hash_of(loads, 2 * (size_t)benches);
}

/* Writes the row of `index` that the calls give, without the file's name. */
static void row_of(const struct file *f, char row[LINE])
{
    struct answer form = ask(f, CHECK, 0), level = ask(f, LEVEL_CHECK, 0), heaviest = ask(f, HEAVIEST, 0);
    if (form.returned == JOBBOARD_OK)
        snprintf(row, LINE, "sound %s H%u %016" PRIx64, level.values[0] == 1 ? "yes" : "no", (unsigned)heaviest.values[0], loads_hash(f));
    else
        snprintf(row, LINE, "%u %u %u %u", (unsigned)form.returned, (unsigned)level.returned, (unsigned)heaviest.returned,
                 (unsigned)ask(f, LOAD, 1).returned);
}

static unsigned run_index(const char *tables, const char *data)
{
    static struct file f;
    char line[LINE], row[LINE];
    unsigned rows = 0;
    FILE *index = open_in(data, "index");
    while (fgets(line, sizeof line, index) != NULL) {
        line[strcspn(line, "\n")] = 0;
        char *want = strchr(line, ' ');
        if (want == NULL)
            fail("vectors: index: line %u not understood: %s", rows + 1, line);
        *want++ = 0;
        read_table(&f, tables, line);
        row_of(&f, row);
        if (strcmp(row, want) != 0)
            fail("vectors: index: %s gives \"%s\", expected \"%s\"", line, row, want);
        rows++;
    }
    fclose(index);
    return rows;
}

/* What the hashes of a call are of: the table, also without its chains; what is lent; both. */
enum hashes { TABLE_TWICE, TABLE_ONCE, LENT_TWICE, TABLE_AND_LENT };

/* The words of `calls`, and how many numbers follow. */
struct form {
    const char *word;
    enum kind kind;
    int numbers;
    bool lends;        /* the last number is the length of a list or a page */
    bool count_untold; /* the answer ends with a count that the C call does not tell */
    enum hashes hashes;
};

static const struct form forms[] = {
    {"A", ARRIVAL, 3, false, false, TABLE_TWICE},
    {"D", CLOSING, 1, false, false, TABLE_TWICE},
    {"arrival", ARRIVAL, 4, true, false, TABLE_AND_LENT},
    {"closing", CLOSING, 2, true, false, TABLE_AND_LENT},
    {"L", LEVELLING, 1, false, false, TABLE_TWICE},
    {"S", TIGHT_SET, 2, true, false, LENT_TWICE},
    {"O", LOAD, 1, false, false, TABLE_TWICE},
    {"sheet", SHEET, 1, true, false, TABLE_AND_LENT},
    {"pair", BETWEEN, 2, false, false, TABLE_ONCE},
    {"counted", HEAVIEST, 0, false, true, TABLE_ONCE},
};

/* Reads a call, such as "A 27 19 2". An arrival or a closing that names no list gets the longest one. */
static const struct form *read_call(const char *text, struct call *call)
{
    char word[LINE];
    unsigned n[4] = {0, 0, 0, 0};
    int numbers = sscanf(text, "%199s %u %u %u %u", word, &n[0], &n[1], &n[2], &n[3]) - 1;
    const struct form *form = forms, *end = forms + sizeof forms / sizeof forms[0];
    while (form < end && (strcmp(form->word, word) != 0 || form->numbers != numbers))
        form++;
    if (form == end)
        fail("vectors: calls: call not understood: %s", text);
    *call = (struct call){form->kind, {n[0], n[1], n[2]}, NULL, 0};
    call->lent_bytes = form->lends ? n[numbers - 1] : lists_moved(form->kind) ? JOBBOARD_MOST_LIST_BYTES : 0;
    call->lent = memory(call->lent_bytes);
    memset(call->lent, UNWRITTEN, call->lent_bytes);
    return form;
}

/* Writes the answer in the file's words: "19 19 0", "3 level", "none 21", "R 2". */
static void answer_words(enum kind kind, struct answer a, char text[LINE])
{
    const uint32_t *v = a.values;
    if (a.returned != JOBBOARD_OK)
        snprintf(text, LINE, "R %u", (unsigned)a.returned);
    else if (kind == ARRIVAL)
        snprintf(text, LINE, "%u %u %u", (unsigned)v[0], (unsigned)v[1], (unsigned)v[2]);
    else if (kind == LEVELLING)
        snprintf(text, LINE, "%u %s", (unsigned)v[0], v[1] == 1 ? "level" : "stopped");
    else if (kind == LOAD || kind == HEAVIEST || kind == SHEET)
        snprintf(text, LINE, "%u", (unsigned)v[0]);
    else if (kind == BETWEEN && v[0] == 0)
        snprintf(text, LINE, "none %u", (unsigned)v[1]);
    else
        snprintf(text, LINE, "%u %u", (unsigned)v[0], (unsigned)v[1]);
}

/* Zeroes chain heads and next words; a table whose sizes do not fit stays as it is. */
static void forget_chains(uint8_t *table, size_t length)
{
    if (jobboard_check(table, length) == JOBBOARD_SIZES)
        return;
    uint32_t benches = word_at(table, 0), jobs = word_at(table, 1);
    for (uint32_t b = 1; b <= benches; b++)
        put_word(table, 3 + b, 0);
    for (uint32_t j = 0; j < jobs; j++)
        put_word(table, 4 + benches + 4 * (size_t)j + 3, 0);
}

/* Writes what the call gives, in the words of `calls`: answer and hashes. Gives the call's form. */
static const struct form *run_call(const struct file *f, const char *text, char result[2 * LINE])
{
    char words[LINE];
    struct call call;
    const struct form *form = read_call(text, &call);
    uint8_t *left;
    struct answer a = on_copy(f, &call, &left);
    if (!changes_table(call.kind) && memcmp(left, f->bytes, f->length) != 0)
        fail("vectors: calls: %s %s changed the table", f->name, text);
    if (!rest_unwritten(&call, a, 0))
        fail("vectors: calls: %s %s wrote beyond its list or its page", f->name, text);
    answer_words(call.kind, a, words);
    uint64_t table = hash_of(left, f->length), lent = hash_of(call.lent, call.lent_bytes);
    forget_chains(left, f->length);
    uint64_t first = form->hashes == LENT_TWICE ? lent : table;
    uint64_t second = form->hashes == TABLE_TWICE ? hash_of(left, f->length) : lent;
    int used = snprintf(result, 2 * LINE, "%s %016" PRIx64, words, first);
    if (form->hashes != TABLE_ONCE)
        snprintf(result + used, 2 * LINE - (size_t)used, " %016" PRIx64, second);
    free(left);
    free(call.lent);
    return form;
}

/* Takes the count out of an expected answer, such as "9 47" and the hash. */
static void leave_out_count(char *want)
{
    char *count = strchr(want, ' ');
    char *hash = count == NULL ? NULL : strchr(count + 1, ' ');
    if (hash == NULL)
        fail("vectors: calls: expected answer without a count: %s", want);
    memmove(count, hash, strlen(hash) + 1);
}

/* Compares what the call gives with what is expected of C. */
static void compare_call(const struct file *f, const char *text, char *want)
{
    char result[2 * LINE];
    const struct form *form = run_call(f, text, result);
    if (form->count_untold)
        leave_out_count(want);
    if (strcmp(result, want) != 0)
        fail("vectors: calls: %s %s gives \"%s\", expected \"%s\"", f->name, text, result, want);
}

static unsigned run_calls(const char *tables, const char *data)
{
    static struct file f;
    char line[LINE];
    unsigned calls = 0;
    FILE *list = open_in(data, "calls");
    while (fgets(line, sizeof line, list) != NULL) {
        line[strcspn(line, "\n")] = 0;
        char *call = strchr(line, ' ');
        char *want = strstr(line, " = ");
        if (call == NULL || want == NULL || want < call)
            fail("vectors: calls: line %u not understood: %s", calls + 1, line);
        *call++ = 0;
        *want = 0;
        want += strlen(" = ");
        if (strcmp(f.name, line) != 0)
            read_table(&f, tables, line);
        compare_call(&f, call, want);
        calls++;
    }
    fclose(list);
    return calls;
}

/* Runs all of a folder; so many tables and calls must be there. */
static void run_all(const char *tables, const char *data, unsigned want_tables, unsigned want_calls)
{
    unsigned rows = run_index(tables, data), calls = run_calls(tables, data);
    if (rows != want_tables || calls != want_calls)
        fail("vectors: %s: %u tables and %u calls, expected %u and %u", data, rows, calls, want_tables, want_calls);
    printf("vectors: %u tables and %u calls, same answers, refusals and hashes\n", rows, calls);
}

int main(int argc, char **argv)
{
    if (argc != 5)
        fail("vectors: four arguments: the folder of tables, the folder of index and calls, and the same two of the newest request");
    run_all(argv[1], argv[2], 96, 720);
    run_all(argv[3], argv[4], 60, 882);
    return 0;
}
