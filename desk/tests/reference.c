/*
 * The scope and its requests, sentence by sentence. On small boards the paths are listed one by one and compared as the rules say; on
 * larger ones distances take the place of the list, as a path of fewest jobs between two benches never has a bench twice.
 */
#include "reference.h"

#include <stdio.h>
#include <string.h>

enum { MOST_BENCHES = 500, MOST_JOBS = 4000 };

/* Boards up to these sizes are small. */
enum { FEW_BENCHES = 6, FEW_JOBS = 12 };

/* "each line 68 characters and a line feed", with "up to twelve jobs" */
enum { LINE_BYTES = 69, JOBS_A_LINE = 12 };

struct board {
    uint32_t benches, jobs;
    uint32_t first[MOST_JOBS + 1], second[MOST_JOBS + 1]; /* 0 for a job that is not standing */
    uint32_t holder[MOST_JOBS + 1];                       /* a bench, 0 for a job that is not standing */
    uint32_t loads[MOST_BENCHES + 1];
};

struct path {
    uint32_t first, last;
    uint32_t length; /* number of jobs; 0 for no path */
    uint32_t jobs[MOST_BENCHES];
};

/* ---- The table ---- */

static uint32_t word(const uint8_t *table, size_t i)
{
    return table[2 * i] | (uint32_t)table[2 * i + 1] << 8;
}

static void set_word(uint8_t *table, size_t i, uint32_t value)
{
    table[2 * i] = (uint8_t)(value & 0xff);
    table[2 * i + 1] = (uint8_t)(value >> 8);
}

static size_t record(uint32_t benches, uint32_t job)
{
    return 4 + (size_t)benches + 4 * (size_t)(job - 1);
}

/* Negates "byte length odd or below 8, B not 1 to 500, J not 1 to 4,000, or length not that of B and J". */
static bool fits(size_t bytes, uint32_t benches, uint32_t jobs)
{
    if (bytes % 2 == 1 || bytes < 8)
        return false;
    if (benches < 1 || benches > MOST_BENCHES || jobs < 1 || jobs > MOST_JOBS)
        return false;
    return bytes == 2 * (4 + (size_t)benches + 4 * (size_t)jobs);
}

static bool sizes_fit(const uint8_t *table, size_t bytes)
{
    return bytes >= 4 && fits(bytes, word(table, 0), word(table, 1));
}

static bool is_empty(const uint8_t *table, size_t r)
{
    return word(table, r) == 0 && word(table, r + 1) == 0 && word(table, r + 2) == 0 && word(table, r + 3) == 0;
}

/*
 * Tells whether "every standing job has two different benches of 1 to B and holder 1 or 2", and "word 2 is true and
 * word 3 is 0".
 */
static bool records_sound(const uint8_t *table)
{
    uint32_t benches = word(table, 0), standing = 0;
    for (uint32_t j = 1; j <= word(table, 1); j++) {
        size_t r = record(benches, j);
        uint32_t a = word(table, r), b = word(table, r + 1), holder = word(table, r + 2);
        if (is_empty(table, r))
            continue;
        if (a < 1 || a > benches || b < 1 || b > benches || a == b || holder < 1 || holder > 2)
            return false;
        standing++;
    }
    return word(table, 2) == standing && word(table, 3) == 0;
}

/*
 * Follows the chain of a bench; met[j] counts how often job j is on chains. False where an empty record, a number
 * above J or a job that another bench holds is met, or where the chain is longer than there are jobs: it then has one
 * twice.
 */
static bool chain_sound(const uint8_t *table, uint32_t bench, uint32_t *met)
{
    uint32_t benches = word(table, 0), jobs = word(table, 1), steps = 0;
    for (uint32_t j = word(table, 3 + (size_t)bench); j != 0; j = word(table, record(benches, j) + 3)) {
        if (j > jobs || ++steps > jobs)
            return false;
        size_t r = record(benches, j);
        if (is_empty(table, r) || word(table, r + word(table, r + 2) - 1) != bench)
            return false;
        met[j]++;
    }
    return true;
}

static bool is_sound(const uint8_t *table)
{
    uint32_t met[MOST_JOBS + 1] = {0};
    if (!records_sound(table))
        return false;
    for (uint32_t b = 1; b <= word(table, 0); b++)
        if (!chain_sound(table, b, met))
            return false;
    for (uint32_t j = 1; j <= word(table, 1); j++)
        if (!is_empty(table, record(word(table, 0), j)) && met[j] != 1)
            return false;
    return true;
}

static void read_board(struct board *s, const uint8_t *table)
{
    memset(s, 0, sizeof *s);
    s->benches = word(table, 0);
    s->jobs = word(table, 1);
    for (uint32_t j = 1; j <= s->jobs; j++) {
        size_t r = record(s->benches, j);
        if (is_empty(table, r))
            continue;
        s->first[j] = word(table, r);
        s->second[j] = word(table, r + 1);
        s->holder[j] = word(table, r + 2) == 1 ? s->first[j] : s->second[j];
        s->loads[s->holder[j]]++;
    }
}

/* Writes the table of a board, every chain rising. */
static void write_board(const struct board *s, uint8_t *table, size_t bytes)
{
    uint32_t standing = 0;
    memset(table, 0, bytes);
    for (uint32_t j = s->jobs; j >= 1; j--) {
        if (s->holder[j] == 0)
            continue;
        size_t r = record(s->benches, j), head = 3 + (size_t)s->holder[j];
        set_word(table, r, s->first[j]);
        set_word(table, r + 1, s->second[j]);
        set_word(table, r + 2, s->holder[j] == s->first[j] ? 1 : 2);
        set_word(table, r + 3, word(table, head));
        set_word(table, head, j);
        standing++;
    }
    set_word(table, 0, s->benches);
    set_word(table, 1, s->jobs);
    set_word(table, 2, standing);
}

/* ---- Paths ---- */

static uint32_t other_bench(const struct board *s, uint32_t job)
{
    return s->holder[job] == s->first[job] ? s->second[job] : s->first[job];
}

/* Decides by "It improves if its first bench has a load at least two above its last." */
static bool improves(const struct board *s, uint32_t first, uint32_t last)
{
    return s->loads[first] >= s->loads[last] + 2;
}

/* Follows "Turning a path hands each of its jobs to the other bench." */
static void turn(struct board *s, const struct path *p)
{
    for (uint32_t i = 0; i < p->length; i++) {
        uint32_t j = p->jobs[i], other = other_bench(s, j);
        s->loads[s->holder[j]]--;
        s->loads[other]++;
        s->holder[j] = other;
    }
}

/* Compares two lists of the same length by dictionary order. */
static bool list_before(const struct path *p, const struct path *q)
{
    for (uint32_t i = 0; i < p->length; i++)
        if (p->jobs[i] != q->jobs[i])
            return p->jobs[i] < q->jobs[i];
    return false;
}

/*
 * Compares by "lowest last load, then fewest jobs, then lowest last bench, then the list of job numbers that is first
 * in dictionary order".
 */
static bool arrival_before(const struct board *s, const struct path *p, const struct path *q)
{
    if (s->loads[p->last] != s->loads[q->last])
        return s->loads[p->last] < s->loads[q->last];
    if (p->length != q->length)
        return p->length < q->length;
    if (p->last != q->last)
        return p->last < q->last;
    return list_before(p, q);
}

/* Compares by "greatest first load, then fewest jobs, lowest first bench, first list". */
static bool closing_before(const struct board *s, const struct path *p, const struct path *q)
{
    if (s->loads[p->first] != s->loads[q->first])
        return s->loads[p->first] > s->loads[q->first];
    if (p->length != q->length)
        return p->length < q->length;
    if (p->first != q->first)
        return p->first < q->first;
    return list_before(p, q);
}

/* ---- Paths, listed ---- */

struct listing {
    const struct board *board;
    uint32_t end;  /* the bench where a closing's paths end; 0 for an arrival's, which end anywhere */
    bool on[MOST_BENCHES + 1];
    struct path path, best;
};

static void consider(struct listing *l)
{
    const struct board *s = l->board;
    if (!improves(s, l->path.first, l->path.last) || (l->end != 0 && l->path.last != l->end))
        return;
    bool before = l->end == 0 ? arrival_before(s, &l->path, &l->best) : closing_before(s, &l->path, &l->best);
    if (l->best.length == 0 || before)
        l->best = l->path;
}

/*
 * Extends by "A path goes from bench to bench, no bench twice; each step is by a job held by the bench it leaves, to
 * that job's other bench."
 */
static void extend(struct listing *l)
{
    uint32_t leaves = l->path.last;
    for (uint32_t j = 1; j <= l->board->jobs; j++) {
        if (l->board->holder[j] != leaves || l->on[other_bench(l->board, j)])
            continue;
        l->path.jobs[l->path.length++] = j;
        l->path.last = other_bench(l->board, j);
        l->on[l->path.last] = true;
        consider(l);
        extend(l);
        l->on[l->path.last] = false;
        l->path.length--;
        l->path.last = leaves;
    }
}

static void list_from(struct listing *l, uint32_t bench)
{
    l->path.first = l->path.last = bench;
    l->path.length = 0;
    l->on[bench] = true;
    extend(l);
    l->on[bench] = false;
}

/* ---- Paths, by distances ---- */

enum { FAR = MOST_BENCHES + 1 };

/* Finds the fewest jobs from each bench to this one, or from this one to each; FAR where there is no path. */
static void distances(const struct board *s, uint32_t bench, bool to_it, uint32_t *distance)
{
    bool grows = true;
    for (uint32_t b = 1; b <= s->benches; b++)
        distance[b] = FAR;
    distance[bench] = 0;
    for (uint32_t d = 0; grows; d++) {
        grows = false;
        for (uint32_t j = 1; j <= s->jobs; j++) {
            if (s->holder[j] == 0)
                continue;
            uint32_t near = to_it ? other_bench(s, j) : s->holder[j];
            uint32_t far = to_it ? s->holder[j] : other_bench(s, j);
            if (distance[near] == d && distance[far] == FAR) {
                distance[far] = d + 1;
                grows = true;
            }
        }
    }
}

/* Finds the path of fewest jobs whose list is first: at each bench the lowest job that leads nearer. */
static void first_list(const struct board *s, uint32_t first, uint32_t last, struct path *p)
{
    uint32_t distance[MOST_BENCHES + 1];
    uint32_t bench = first;
    distances(s, last, true, distance);
    p->first = first;
    p->last = last;
    p->length = 0;
    while (bench != last) {
        uint32_t j = 1;
        while (s->holder[j] != bench || distance[other_bench(s, j)] + 1 != distance[bench])
            j++;
        p->jobs[p->length++] = j;
        bench = other_bench(s, j);
    }
}

/* Tells whether bench b is a better end of an arrival's path than `best`, or start of a closing's. 0 is no bench. */
static bool better_bench(const struct board *s, const uint32_t *distance, bool arrives, uint32_t b, uint32_t best)
{
    if (best == 0)
        return true;
    if (s->loads[b] != s->loads[best])
        return arrives ? s->loads[b] < s->loads[best] : s->loads[b] > s->loads[best];
    return distance[b] < distance[best]; /* benches are tried rising, so the lowest stays */
}

static void find_path(const struct board *s, uint32_t bench, bool arrives, struct path *p)
{
    uint32_t distance[MOST_BENCHES + 1], best = 0;
    distances(s, bench, !arrives, distance);
    for (uint32_t b = 1; b <= s->benches; b++)
        if (distance[b] != FAR && (arrives ? improves(s, bench, b) : improves(s, b, bench)) &&
            better_bench(s, distance, arrives, b, best))
            best = b;
    p->length = 0;
    if (best != 0)
        first_list(s, arrives ? bench : best, arrives ? best : bench, p);
}

/* ---- Choice ---- */

static bool is_small(const struct board *s)
{
    return s->benches <= FEW_BENCHES && s->jobs <= FEW_JOBS;
}

/* Chooses, "of the improving paths from that bench, one"; length 0 if there is none. */
static void choose_from(const struct board *s, uint32_t bench, struct path *p)
{
    struct listing l = {.board = s};
    if (!is_small(s)) {
        find_path(s, bench, true, p);
        return;
    }
    list_from(&l, bench);
    *p = l.best;
}

/* Chooses, "Of the improving paths that end at the bench that held it, one"; length 0 if there is none. */
static void choose_to(const struct board *s, uint32_t bench, struct path *p)
{
    struct listing l = {.board = s, .end = bench};
    if (!is_small(s)) {
        find_path(s, bench, false, p);
        return;
    }
    for (uint32_t b = 1; b <= s->benches; b++)
        list_from(&l, b);
    *p = l.best;
}

static uint32_t heaviest(const struct board *s)
{
    uint32_t most = 0;
    for (uint32_t b = 1; b <= s->benches; b++)
        most = s->loads[b] > most ? s->loads[b] : most;
    return most;
}

/*
 * Chooses by "first bench of greatest load among those that start one, then lowest number, then the arrival's order";
 * length 0 for none.
 */
static void choose_any(const struct board *s, struct path *p)
{
    p->length = 0;
    for (uint32_t load = heaviest(s); load >= 1; load--)
        for (uint32_t b = 1; b <= s->benches; b++) {
            if (s->loads[b] != load)
                continue;
            choose_from(s, b, p);
            if (p->length != 0)
                return;
        }
}

/* ---- The calls ---- */

static struct answer refused(uint32_t number)
{
    return (struct answer){number, {UNSET, UNSET, UNSET}};
}

static bool is_within(uint32_t number, uint32_t most)
{
    return number >= 1 && number <= most;
}

static struct answer blank(const struct call *call, uint8_t *table, size_t bytes)
{
    if (!fits(bytes, call->numbers[0], call->numbers[1]))
        return refused(1);
    memset(table, 0, bytes);
    set_word(table, 0, call->numbers[0]);
    set_word(table, 1, call->numbers[1]);
    return refused(0);
}

/*
 * Passes on "those that changed holder, the new job left out", "as words into a lent list" and "in path order", and
 * counts them; a closing has no new job, 0. False where the list is "too short for the moves"; nothing is written then.
 */
static bool list_moves(const struct path *p, uint32_t new_job, const struct call *call, uint32_t *moved)
{
    *moved = 0;
    for (uint32_t i = 0; i < p->length; i++)
        *moved += p->jobs[i] != new_job;
    if (call->lent_bytes < 2 * (size_t)*moved)
        return false;
    for (uint32_t i = 0, place = 0; i < p->length; i++)
        if (p->jobs[i] != new_job)
            set_word(call->lent, place++, p->jobs[i]);
    return true;
}

static struct answer arrival(struct board *s, const struct call *call)
{
    uint32_t job = call->numbers[0], first = call->numbers[1], second = call->numbers[2], moved;
    struct path p;
    if (!is_within(job, s->jobs))
        return refused(3);
    if (!is_within(first, s->benches) || !is_within(second, s->benches) || first == second)
        return refused(4);
    if (s->holder[job] != 0)
        return refused(5);
    /* "The lighter named bench gets the job; if they are equal, the first-named." */
    uint32_t gets = s->loads[second] < s->loads[first] ? second : first;
    s->first[job] = first;
    s->second[job] = second;
    s->holder[job] = gets;
    s->loads[gets]++;
    choose_from(s, gets, &p);
    if (!list_moves(&p, job, call, &moved))
        return refused(8);
    turn(s, &p);
    return (struct answer){0, {s->holder[job], p.length == 0 ? gets : p.last, moved}};
}

static struct answer closing(struct board *s, const struct call *call)
{
    uint32_t job = call->numbers[0], moved;
    struct path p;
    if (!is_within(job, s->jobs))
        return refused(3);
    if (s->holder[job] == 0)
        return refused(6);
    uint32_t held = s->holder[job];
    s->loads[held]--;
    s->first[job] = s->second[job] = s->holder[job] = 0;
    choose_to(s, held, &p);
    if (!list_moves(&p, 0, call, &moved))
        return refused(8);
    turn(s, &p);
    return (struct answer){0, {p.length == 0 ? held : p.first, moved, UNSET}};
}

static struct answer levelling(struct board *s, uint32_t allowance)
{
    struct path p;
    uint32_t paths = 0;
    choose_any(s, &p);
    while (p.length != 0 && paths < allowance) {
        turn(s, &p);
        paths++;
        choose_any(s, &p);
    }
    return (struct answer){0, {paths, p.length == 0 ? 1 : 0, UNSET}};
}

static struct answer level_check(const struct board *s)
{
    struct path p;
    choose_any(s, &p);
    return (struct answer){0, {p.length == 0 ? 1 : 0, UNSET, UNSET}};
}

/*
 * Marks the set: "all benches with load h or more are in it", and a bench's jobs bring in their other benches, until
 * nothing new comes in.
 */
static void tight_benches(const struct board *s, uint32_t height, bool *in)
{
    bool grows = true;
    for (uint32_t b = 1; b <= s->benches; b++)
        in[b] = s->loads[b] >= height;
    while (grows) {
        grows = false;
        for (uint32_t j = 1; j <= s->jobs; j++)
            if (s->holder[j] != 0 && in[s->holder[j]] && !in[other_bench(s, j)])
                grows = in[other_bench(s, j)] = true;
    }
}

static struct answer tight_set(const struct board *s, const struct call *call)
{
    bool in[MOST_BENCHES + 1] = {false};
    uint32_t height = call->numbers[0], benches = 0, inside = 0;
    if (height == 0 || height > heaviest(s))
        return refused(7);
    tight_benches(s, height, in);
    for (uint32_t b = 1; b <= s->benches; b++)
        benches += in[b];
    if (call->lent_bytes < 2 * (size_t)benches)
        return refused(8);
    for (uint32_t b = 1, i = 0; b <= s->benches; b++)
        if (in[b])
            set_word(call->lent, i++, b);
    for (uint32_t j = 1; j <= s->jobs; j++)
        inside += s->holder[j] != 0 && in[s->first[j]] && in[s->second[j]];
    return (struct answer){0, {benches, inside, UNSET}};
}

/* Puts a number into columns, "right-aligned". */
static void put_number(uint8_t *columns, int width, uint32_t number)
{
    char text[16];
    snprintf(text, sizeof text, "%*u", width, (unsigned)number);
    memcpy(columns, text, (size_t)width);
}

/* Writes a sheet whose bench b begins in line lines[b]. Jobs come rising, each into the next place of its holder. */
static void write_sheet(const struct board *s, const size_t *lines, uint8_t *page)
{
    uint32_t written[MOST_BENCHES + 1] = {0};
    size_t length = LINE_BYTES * lines[s->benches + 1];
    for (size_t i = 0; i < length; i++)
        page[i] = i % LINE_BYTES == LINE_BYTES - 1 ? '\n' : ' ';
    for (uint32_t b = 1; b <= s->benches; b++) {
        put_number(page + LINE_BYTES * lines[b], 3, b);
        put_number(page + LINE_BYTES * lines[b] + 4, 4, s->loads[b]);
    }
    for (uint32_t j = 1; j <= s->jobs; j++) {
        if (s->holder[j] == 0)
            continue;
        uint32_t place = written[s->holder[j]]++;
        size_t line = lines[s->holder[j]] + place / JOBS_A_LINE;
        put_number(page + LINE_BYTES * line + 8 + 5 * (place % JOBS_A_LINE), 5, j);
    }
}

/* Gives each bench as many lines as it needs for "up to twelve jobs"; "A bench without jobs has one line." */
static struct answer sheet(const struct board *s, const struct call *call)
{
    size_t lines[MOST_BENCHES + 2] = {0};
    for (uint32_t b = 1; b <= s->benches; b++)
        lines[b + 1] = lines[b] + (s->loads[b] == 0 ? 1 : (s->loads[b] + JOBS_A_LINE - 1) / JOBS_A_LINE);
    size_t length = LINE_BYTES * lines[s->benches + 1];
    if (call->lent_bytes < length)
        return refused(11);
    write_sheet(s, lines, call->lent);
    return (struct answer){0, {(uint32_t)length, UNSET, UNSET}};
}

static struct answer load(const struct board *s, uint32_t bench)
{
    if (!is_within(bench, s->benches))
        return refused(4);
    return (struct answer){0, {s->loads[bench], UNSET, UNSET}};
}

/*
 * Tests a record to be read: "each must have a number of 1 to J above the one before, name two different benches of
 * 1 to B and have the walked one as holder".
 */
static bool may_be_read(const uint8_t *table, uint32_t walked, uint32_t before, uint32_t job)
{
    uint32_t benches = word(table, 0), jobs = word(table, 1);
    if (!is_within(job, jobs) || job <= before)
        return false;
    size_t r = record(benches, job);
    uint32_t a = word(table, r), b = word(table, r + 1), holder = word(table, r + 2);
    if (!is_within(a, benches) || !is_within(b, benches) || a == b)
        return false;
    return (holder == 1 && a == walked) || (holder == 2 && b == walked);
}

/*
 * Reads a bench's chain "up to a match, a number above the first match (that record is not read), or its end"; a first
 * match of 0 is none. Counts the records. False where one to be read may not be.
 */
static bool read_chain(const uint8_t *table, uint32_t walked, uint32_t other, uint32_t first_match, uint32_t *match, uint32_t *records)
{
    uint32_t before = 0, job = word(table, 3 + (size_t)walked);
    *match = 0;
    while (job != 0 && *match == 0 && (first_match == 0 || job <= first_match)) {
        if (!may_be_read(table, walked, before, job))
            return false;
        size_t r = record(word(table, 0), job);
        ++*records;
        if (word(table, r) == other || word(table, r + 1) == other)
            *match = job;
        before = job;
        job = word(table, r + 3);
    }
    return true;
}

/* Asks the words themselves, which nobody checked: "Only records to be read are tested [..], else 2, which here comes after 4." */
static struct answer between(const uint8_t *table, uint32_t first, uint32_t second)
{
    uint32_t benches = word(table, 0), first_match, second_match, records = 0;
    if (!is_within(first, benches) || !is_within(second, benches) || first == second)
        return refused(4);
    if (!read_chain(table, first, second, 0, &first_match, &records) ||
        !read_chain(table, second, first, first_match, &second_match, &records))
        return refused(2);
    /* "the lowest job number [..], or none" */
    uint32_t lowest = first_match == 0 || (second_match != 0 && second_match < first_match) ? second_match : first_match;
    return (struct answer){0, {lowest, records, UNSET}};
}

static struct answer on_board(struct board *s, const struct call *call)
{
    switch (call->kind) {
    case ARRIVAL:
        return arrival(s, call);
    case CLOSING:
        return closing(s, call);
    case LEVELLING:
        return levelling(s, call->numbers[0]);
    case LEVEL_CHECK:
        return level_check(s);
    case LOAD:
        return load(s, call->numbers[0]);
    case HEAVIEST:
        return (struct answer){0, {heaviest(s), UNSET, UNSET}};
    case TIGHT_SET:
        return tight_set(s, call);
    case SHEET:
        return sheet(s, call);
    default:
        return refused(0);
    }
}

struct answer reference_call(const struct call *call, uint8_t *table, size_t bytes)
{
    static struct board s;
    if (call->kind == BLANK)
        return blank(call, table, bytes);
    if (!sizes_fit(table, bytes))
        return refused(1);
    if (call->kind == BETWEEN)
        return between(table, call->numbers[0], call->numbers[1]);
    if (!is_sound(table))
        return refused(2);
    read_board(&s, table);
    struct answer a = on_board(&s, call);
    if (a.returned == 0 && (call->kind == ARRIVAL || call->kind == CLOSING || call->kind == LEVELLING))
        write_board(&s, table, bytes);
    return a;
}
