#include "support.h"

#include "jobboard.h"

#include <stdarg.h>
#include <stdio.h>
#include <stdlib.h>
#include <string.h>

void fail(const char *format, ...)
{
    va_list rest;
    va_start(rest, format);
    fputs("FAILED: ", stderr);
    vfprintf(stderr, format, rest);
    fputc('\n', stderr);
    va_end(rest);
    exit(1);
}

/* Draws by splitmix64. */
uint64_t random_next(struct random *r)
{
    uint64_t z = r->state += 0x9e3779b97f4a7c15u;
    z = (z ^ (z >> 30)) * 0xbf58476d1ce4e5b9u;
    z = (z ^ (z >> 27)) * 0x94d049bb133111ebu;
    return z ^ (z >> 31);
}

uint32_t random_below(struct random *r, uint32_t n)
{
    return (uint32_t)(random_next(r) % n);
}

uint32_t random_within(struct random *r, uint32_t least, uint32_t most)
{
    return least + random_below(r, most - least + 1);
}

uint64_t seed_of(int argc, char **argv, uint64_t seed)
{
    return argc > 1 ? strtoull(argv[1], NULL, 10) : seed;
}

uint64_t hash_of(const uint8_t *bytes, size_t length)
{
    uint64_t hash = 0xcbf29ce484222325u;
    for (size_t i = 0; i < length; i++)
        hash = (hash ^ bytes[i]) * 0x100000001b3u;
    return hash;
}

uint32_t word_at(const uint8_t *bytes, size_t i)
{
    return bytes[2 * i] + 256u * bytes[2 * i + 1];
}

void put_word(uint8_t *bytes, size_t i, uint32_t word)
{
    bytes[2 * i] = (uint8_t)(word % 256);
    bytes[2 * i + 1] = (uint8_t)(word / 256 % 256);
}

uint8_t *memory(size_t length)
{
    uint8_t *bytes = malloc(length);
    if (bytes == NULL && length == 0)
        bytes = malloc(1);
    if (bytes == NULL)
        fail("no memory for %zu bytes", length);
    return bytes;
}

uint8_t *copy_of(const uint8_t *bytes, size_t length)
{
    uint8_t *copy = memory(length);
    memcpy(copy, bytes, length);
    return copy;
}

void make_empty(struct table *t, uint32_t benches, uint32_t jobs)
{
    memset(t->bytes, 0, sizeof t->bytes);
    t->length = 2 * (4 + (size_t)benches + 4 * (size_t)jobs);
    put_word(t->bytes, 0, benches);
    put_word(t->bytes, 1, jobs);
}

size_t record_of(const uint8_t *table, uint32_t job)
{
    return 4 + word_at(table, 0) + 4 * ((size_t)job - 1);
}

uint32_t holder_of(const uint8_t *table, uint32_t job)
{
    size_t record = record_of(table, job);
    uint32_t holder = word_at(table, record + 2);
    return holder == 0 ? 0 : word_at(table, record + holder - 1);
}

void make_stand(struct table *t, uint32_t job, uint32_t first, uint32_t second, uint32_t holder)
{
    size_t record = record_of(t->bytes, job);
    put_word(t->bytes, record, first);
    put_word(t->bytes, record + 1, second);
    put_word(t->bytes, record + 2, holder);
}

/* Lists 1 to n, falling, so that each job put before the others of its chain leaves rising chains; or at random. */
static void order_jobs(uint32_t *jobs, uint32_t n, struct random *r)
{
    for (uint32_t i = 0; i < n; i++)
        jobs[i] = n - i;
    for (uint32_t i = n; r != NULL && i > 1; i--) {
        uint32_t other = random_below(r, i);
        uint32_t job = jobs[i - 1];
        jobs[i - 1] = jobs[other];
        jobs[other] = job;
    }
}

void make_chains(struct table *t, struct random *r)
{
    uint32_t order[4000];
    uint32_t n = word_at(t->bytes, 1);
    uint32_t standing = 0;
    order_jobs(order, n, r);
    for (uint32_t b = 1; b <= word_at(t->bytes, 0); b++)
        put_word(t->bytes, 3 + b, 0);
    for (uint32_t i = 0; i < n; i++) {
        size_t record = record_of(t->bytes, order[i]);
        uint32_t holder = word_at(t->bytes, record + 2);
        if (holder == 0)
            continue;
        size_t head = 3 + word_at(t->bytes, record + holder - 1);
        put_word(t->bytes, record + 3, word_at(t->bytes, head));
        put_word(t->bytes, head, order[i]);
        standing++;
    }
    put_word(t->bytes, 2, standing);
}

/* Chooses the sizes of a board. */
static void choose_sizes(struct random *r, uint32_t *benches, uint32_t *jobs)
{
    uint32_t kind = random_below(r, 1000);
    if (kind < 600) {
        *benches = random_within(r, 1, 6);
        *jobs = random_within(r, 1, 12);
    } else if (kind < 960) {
        *benches = random_within(r, 1, 30);
        *jobs = random_within(r, 1, 90);
    } else if (kind < 990) {
        *benches = random_within(r, 30, 150);
        *jobs = random_within(r, 90, 1200);
    } else {
        *benches = JOBBOARD_MOST_BENCHES;
        *jobs = JOBBOARD_MOST_JOBS;
    }
}

void make_board(struct table *t, struct random *r)
{
    uint32_t benches, jobs;
    choose_sizes(r, &benches, &jobs);
    make_empty(t, benches, jobs);
    if (benches == 1 || random_below(r, 8) == 0)
        return;
    uint32_t full = random_within(r, 1, 10), lean = random_below(r, 3), near = random_within(r, 1, benches - 1);
    for (uint32_t j = 1; j <= jobs; j++) {
        uint32_t first = random_within(r, 1, benches);
        uint32_t second = (first - 1 + random_within(r, 1, near)) % benches + 1;
        uint32_t holder = lean == 0 ? random_within(r, 1, 2) : (first < second) == (lean == 1) ? 1 : 2;
        if (random_below(r, 10) < full)
            make_stand(t, j, first, second, holder);
    }
}

uint32_t pick_job(const struct table *t, struct random *r, bool stands)
{
    uint32_t jobs = word_at(t->bytes, 1), start = random_below(r, jobs);
    for (uint32_t i = 0; i < jobs; i++) {
        uint32_t job = (start + i) % jobs + 1;
        if ((word_at(t->bytes, record_of(t->bytes, job)) != 0) == stands)
            return job;
    }
    return 0;
}

bool chains_rise(const uint8_t *table)
{
    uint32_t benches = word_at(table, 0), jobs = word_at(table, 1);
    for (uint32_t b = 1; b <= benches; b++) {
        uint32_t last = 0;
        for (uint32_t j = word_at(table, 3 + b); j != 0; j = word_at(table, record_of(table, j) + 3)) {
            if (j <= last || j > jobs)
                return false;
            last = j;
        }
    }
    return true;
}

/* Reads the number in some columns, blanks and then digits; 0 where all are blank. False for anything else. */
static bool read_columns(const uint8_t *columns, int width, uint32_t *number)
{
    int i = 0;
    *number = 0;
    while (i < width && columns[i] == ' ')
        i++;
    for (; i < width; i++) {
        if (columns[i] < '0' || columns[i] > '9')
            return false;
        *number = 10 * *number + (columns[i] - (uint32_t)'0');
    }
    return true;
}

/* Reads a line; holders[j] becomes the bench of each of its jobs. False where a job is on the page twice. */
static bool read_line(const uint8_t *line, uint32_t *bench, uint32_t holders[4001])
{
    uint32_t named, job;
    if (!read_columns(line, 3, &named) || line[68] != '\n')
        return false;
    if (named != 0)
        *bench = named;
    for (int column = 8; column < 68; column += 5) {
        if (!read_columns(line + column, 5, &job) || job > 4000 || (job != 0 && holders[job] != 0))
            return false;
        if (job != 0)
            holders[job] = *bench;
    }
    return true;
}

bool sheet_names_holders(const uint8_t *page, size_t length, const uint8_t *table)
{
    uint32_t holders[4001] = {0}, bench = 0, jobs = word_at(table, 1);
    if (length % 69 != 0)
        return false;
    for (size_t line = 0; line < length / 69; line++)
        if (!read_line(page + 69 * line, &bench, holders))
            return false;
    for (uint32_t job = 1; job <= 4000; job++)
        if (holders[job] != (job <= jobs ? holder_of(table, job) : 0))
            return false;
    return true;
}
