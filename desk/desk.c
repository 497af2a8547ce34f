/*
 * The desk of a repair room. It keeps a board's table in a file between runs:
 *
 *     desk FILE COMMAND NUMBER...     one command
 *     desk FILE                       commands from standard input, one a line
 *
 * Answers go to standard output; what is refused or not understood to standard error. The file is replaced only after an accepted
 * change, whole, and an answer is given only when the change is on the disk.
 */
#include "board_file.h"
#include "commands.h"
#include "jobboard.h"

#include <ctype.h>
#include <errno.h>
#include <stdarg.h>
#include <stdio.h>
#include <string.h>

enum status { DONE = 0, REFUSED = 1, NOT_UNDERSTOOD = 2, NO_FILE = 3 };

#define MOST_WORDS (1 + MOST_NUMBERS + 1) /* one more, to see that there are too many */
#define LINE 200

/* Where complaints come from: the file, and the line if commands are read. */
static const char *file_name;
static unsigned line_number;

static void complain(const char *format, ...)
{
    va_list rest;
    fprintf(stderr, "desk: %s: ", file_name);
    if (line_number > 0)
        fprintf(stderr, "line %u: ", line_number);
    va_start(rest, format);
    vfprintf(stderr, format, rest);
    va_end(rest);
    fputc('\n', stderr);
}

/* Reads a number: digits only, and no more than 32 bits. */
static bool read_number(const char *word, uint32_t *number)
{
    uint64_t n = 0;
    for (const char *c = word; *c != 0; c++) {
        if (!isdigit((unsigned char)*c))
            return false;
        n = 10 * n + (uint64_t)(*c - '0');
        if (n > UINT32_MAX)
            return false;
    }
    *number = (uint32_t)n;
    return *word != 0;
}

static bool read_numbers(const struct command *command, char **words, int count, struct numbers *n)
{
    n->count = count;
    if (count < command->least || count > command->most) {
        complain("%s: wrong number of numbers: %s", command->word, command->help);
        return false;
    }
    for (int i = 0; i < count; i++)
        if (!read_number(words[i], &n->at[i])) {
            complain("%s: not a number of 0 to 4294967295: %s", command->word, words[i]);
            return false;
        }
    return true;
}

static enum status cannot(const char *what)
{
    complain("cannot %s the file: %s%s", what, strerror(errno), errno == EEXIST ? " (renew replaces it)" : "");
    return NO_FILE;
}

static enum status refuse(const struct command *command, uint32_t refusal)
{
    complain("refused (%u): %s", (unsigned)refusal, refusal_words(command, refusal));
    return REFUSED;
}

/* Asks or changes: reads the file's table, and replaces it after an accepted change. */
static enum status run_on_table(const struct command *command, struct board_file *f, const struct numbers *n, struct report *report)
{
    if (!file_read(f, command->use == CHANGES))
        return cannot("read");
    uint32_t refusal = command->run(f->table, f->length, n, report);
    if (refusal != JOBBOARD_OK)
        return refuse(command, refusal);
    if (command->use == ASKS)
        return DONE;
    return file_replace(f) ? DONE : cannot("replace");
}

/*
 * Makes a new table. It must not be longer than the memory for it, whatever numbers are given; the call refuses such
 * numbers.
 */
static enum status run_on_nothing(const struct command *command, struct board_file *f, const struct numbers *n, struct report *report)
{
    bool replaces = command->use == CREATES_ANEW && file_read(f, true);
    if (command->use == CREATES_ANEW && !replaces && errno != ENOENT)
        return cannot("read");
    size_t length = JOBBOARD_TABLE_BYTES(n->at[0], n->at[1]);
    f->length = length < sizeof f->table ? length : sizeof f->table;
    uint32_t refusal = command->run(f->table, f->length, n, report);
    if (refusal != JOBBOARD_OK)
        return refuse(command, refusal);
    return (replaces ? file_replace(f) : file_create(f)) ? DONE : cannot("make");
}

static enum status run_words(struct board_file *f, char **words, int count)
{
    static struct report report;
    struct numbers n;
    enum status status = DONE;
    report.used = 0;
    const struct command *command = command_of(words[0]);
    if (strcmp(words[0], "help") == 0) {
        say_help(&report);
    } else if (command == NULL) {
        complain("no such command: %s (help lists them)", words[0]);
        return NOT_UNDERSTOOD;
    } else if (!read_numbers(command, words + 1, count - 1, &n)) {
        return NOT_UNDERSTOOD;
    } else if (command->use == CREATES || command->use == CREATES_ANEW) {
        status = run_on_nothing(command, f, &n, &report);
    } else {
        status = run_on_table(command, f, &n, &report);
    }
    file_done(f);
    if (status == DONE)
        fwrite(report.text, 1, report.used, stdout);
    return status;
}

/* Splits a line at blanks. */
static int split(char *line, char **words)
{
    int count = 0;
    for (char *word = strtok(line, " \t\r\n"); word != NULL && count < MOST_WORDS; word = strtok(NULL, " \t\r\n"))
        words[count++] = word;
    return count;
}

/* Reads one line; *whole is false for one that is too long or has a zero byte. False where there is none. */
static bool read_line(char line[LINE], bool *whole)
{
    int c, length = 0;
    *whole = true;
    while ((c = getchar()) != EOF && c != '\n') {
        if (length == LINE - 1 || c == 0)
            *whole = false;
        else
            line[length++] = (char)c;
    }
    line[length] = 0;
    return c != EOF || length > 0;
}

/* Runs all lines; the worst of their statuses is the run's. */
static enum status run_lines(struct board_file *f)
{
    char line[LINE], *words[MOST_WORDS];
    enum status worst = DONE;
    for (bool whole; read_line(line, &whole);) {
        enum status status = DONE;
        line_number++;
        int count = whole ? split(line, words) : 0;
        if (!whole) {
            complain("line too long, or not text");
            status = NOT_UNDERSTOOD;
        } else if (count > 0) {
            status = run_words(f, words, count);
        }
        fflush(stdout);
        worst = status > worst ? status : worst;
    }
    return worst;
}

int main(int argc, char **argv)
{
    static struct board_file f;
    static struct report help;
    if (argc < 2 || (argc == 2 && (strcmp(argv[1], "help") == 0 || strcmp(argv[1], "--help") == 0))) {
        say_help(&help);
        fwrite(help.text, 1, help.used, argc < 2 ? stderr : stdout);
        return argc < 2 ? NOT_UNDERSTOOD : DONE;
    }
    file_name = f.name = argv[1];
    f.locked = -1;
    enum status status = argc == 2 ? run_lines(&f) : run_words(&f, argv + 2, argc - 2);
    bool lost = ferror(stdout) != 0;
    if (fclose(stdout) != 0 || lost) {
        complain("the answer cannot be written");
        return NO_FILE;
    }
    return (int)status;
}
