/*
 * The job board: repair jobs shared between benches, for C99 and C++. Link with libjobboard.a (x86-64), which `make -C desk` makes.
 *
 * A board lives in a table: bytes that the caller owns. Each job names two benches, and one of them holds it; a bench's load is the
 * number of jobs it holds. jobboard_blank makes a table, jobboard_arrival and jobboard_closing change its jobs and hand others along,
 * and the remaining calls ask, or level a table that came from elsewhere. On a level table (see jobboard_levelling) arrivals and
 * closings leave a level one, and the heaviest load is then the least that any sharing of the same jobs has. A blank table is level.
 *
 * WHAT A CALL RETURNS. JOBBOARD_OK (0), or the number of a refusal (below). Any bytes, any length and any numbers may be passed: each
 * is answered or refused. Each call lists its refusals in the order that counts: where several apply, the first of them is returned.
 * Results go through pointers to numbers, which are written and never read: they need no value before the call. A refused call changes
 * nothing: no byte of the table, the list or the page, and no result.
 *
 * MEMORY. All of it is the caller's. A call reads and writes only what it is lent, for as long as it runs; it allocates nothing and
 * keeps no pointer. For each call:
 * - `table` may be NULL where `table_bytes` is 0, `list` where `list_bytes` is 0, and `page` where `page_bytes` is 0; no other pointer may
 *   be NULL;
 * - `table` points to `table_bytes` bytes, `list` to `list_bytes` bytes, `page` to `page_bytes` bytes, at any alignment; each result is an
 *   aligned uint32_t of its own;
 * - table, list, page and results must not overlap one another.
 *
 * STACK. A call needs less than JOBBOARD_STACK_BYTES bytes of stack. The greatest need is about 43,000 bytes, of a tight set on a table of
 * 500 benches and 4,000 jobs (x86-64; each run of the tests measures it again).
 *
 * THREADS. There is no state between calls. Any number of threads may work on different tables at once, and may ask questions (those
 * with a const table) of the same one at once, each with its own list, page and results. While a call changes a table, no other call may
 * use that table: the caller's lock sees to it.
 *
 * FILES. A table is portable: its words have 16 bits, low byte first, on every machine. It may be written to a file as it is, and
 * read back anywhere; jobboard_check says whether what was read is a table still. Every call but jobboard_blank and jobboard_between
 * makes the same check, so none of them is misled by a damaged table. For B benches and J jobs the words are:
 *
 *     0, 1, 2, 3                   B; J; number of standing jobs; 0
 *     3 + b                        first job on the chain of bench b, 0 for none
 *     4 + B + 4 * (j - 1), ...     job j: first bench, second bench, holder (1 first-named, 2 second-named), next job on the chain
 *
 * A job that is not standing has four zero words, and next 0 ends a chain. A table is sound if its sizes fit, every standing job has
 * two different benches of 1 to B and holder 1 or 2, every standing job is on its holder's chain once and on no other, nothing else is
 * on a chain, word 2 is true and word 3 is 0.
 *
 * What a stored copy may be compared with. Every accepted arrival, closing or levelling leaves all chains in rising job number, whether a
 * job moved or not; a blank table has nothing on its chains. In such tables the sizes, the standing jobs, the benches that each names, in
 * their order, and its holder fix every byte: two of them agree in these exactly if they are the same bytes. So a stored copy may be
 * compared with any other such table, by memcmp, cmp or a hash.
 *
 * A table from elsewhere may have a chain in another order. It is as sound as in rising order, and answered alike by every call but
 * jobboard_between, to which the order counts. Questions and refused calls leave its order as it is; the first accepted arrival, closing or
 * levelling puts every chain in order. To do just that, before a comparison or for jobboard_between, and move no job, call
 * jobboard_levelling with allowance 0.
 *
 * VERSIONS. JOBBOARD_VERSION is the number of the newest request of document 02 that the calls take in; headers before version 4 have no
 * such number. The calls keep their names where their arguments change, so a program is to be compiled with the header of the archive
 * that it is linked with. What a version asks of a program that was written for the one before:
 *
 *     4    jobboard_arrival and jobboard_closing take `list` and `list_bytes`, in front of their results, and list there the jobs that
 *          moved; they may return JOBBOARD_LIST_TOO_SHORT. A program that needs no list lends one of JOBBOARD_MOST_LIST_BYTES all the
 *          same, since NULL and 0 are refused where a job moves. Nothing else changed: tables, results and the other calls are as before.
 *     5    Nothing. jobboard_heaviest gives the same load, and need not count every bench for it.
 */
#ifndef JOBBOARD_H
#define JOBBOARD_H

#include <stddef.h>
#include <stdint.h>

#ifdef __cplusplus
extern "C" {
#endif

/* The newest request that the calls take in (see VERSIONS). */
#define JOBBOARD_VERSION 5

/* Benches are numbered from 1 to at most this, and so are jobs. */
#define JOBBOARD_MOST_BENCHES 500
#define JOBBOARD_MOST_JOBS 4000

/* The length in bytes of a table for so many benches and jobs. */
#define JOBBOARD_TABLE_BYTES(benches, jobs) (2 * (4 + (size_t)(benches) + 4 * (size_t)(jobs)))

/* The length of the largest table: 33,008 bytes. */
#define JOBBOARD_MOST_TABLE_BYTES JOBBOARD_TABLE_BYTES(JOBBOARD_MOST_BENCHES, JOBBOARD_MOST_JOBS)

/* A list of this length is long enough for every tight set, and for the moved jobs of every arrival and closing: 1,000 bytes. */
#define JOBBOARD_MOST_LIST_BYTES (2 * (size_t)JOBBOARD_MOST_BENCHES)

/* A line of a wall sheet: 68 characters and a line feed. */
#define JOBBOARD_SHEET_LINE_BYTES 69

/* A page of this length is long enough for every wall sheet: 833 lines, 57,477 bytes. One bench with 4,000 jobs and 499 without need it. */
#define JOBBOARD_MOST_PAGE_BYTES (833 * (size_t)JOBBOARD_SHEET_LINE_BYTES)

/* More than the stack that any call needs. */
#define JOBBOARD_STACK_BYTES 65536

/* An allowance that is enough to level every table. */
#define JOBBOARD_ENOUGH_PATHS 7998000

/* What a call returns. B and J are the benches and jobs of the table, the numbers in its first two words; for blanking, those given. */
enum jobboard_refusal {
    JOBBOARD_OK = 0,               /* accepted */
    JOBBOARD_SIZES = 1,            /* length odd or below 8, B not 1 to 500, J not 1 to 4,000, or length not that of B and J */
    JOBBOARD_UNSOUND = 2,          /* sizes fit, table not sound; jobboard_between: a record to be read fails */
    JOBBOARD_JOB_NUMBER = 3,       /* job number not 1 to J */
    JOBBOARD_BENCH_NUMBER = 4,     /* bench not 1 to B, or both benches the same */
    JOBBOARD_ALREADY_STANDING = 5, /* arrival of a standing job */
    JOBBOARD_NOT_STANDING = 6,     /* closing of a job not standing */
    JOBBOARD_HEIGHT = 7,           /* height 0, or above the heaviest load */
    JOBBOARD_LIST_TOO_SHORT = 8,   /* list shorter than the words of the set, or of the moved jobs */
    JOBBOARD_COUNT_FULL = 9,       /* a tally's count would pass 4,294,967,295; no call here returns it */
    JOBBOARD_UNREADABLE = 10,      /* the counter program's: line not readable; no call here returns it */
    JOBBOARD_PAGE_TOO_SHORT = 11   /* page shorter than the wall sheet */
};

/*
 * Makes a table without jobs: `benches` and `jobs` go into its first two words, zero into all others. Old bytes are not looked at.
 * table_bytes must be JOBBOARD_TABLE_BYTES(benches, jobs).
 *
 * Refused: JOBBOARD_SIZES where benches are not 1 to 500, jobs not 1 to 4,000, or the length is another.
 */
uint32_t jobboard_blank(uint8_t *table, size_t table_bytes, uint32_t benches, uint32_t jobs);

/*
 * Form check: JOBBOARD_OK for a sound table, else its refusal. A table is unsound also where a chain returns to itself.
 *
 * Refused: JOBBOARD_SIZES, JOBBOARD_UNSOUND.
 */
uint32_t jobboard_check(const uint8_t *table, size_t table_bytes);

/*
 * Arrival of job `job`, which names the benches `first` and `second`. The lighter of them gets it (the first-named if they are equal),
 * and then jobs are handed along one path of benches, if there is one that leads to a bench with a load lower by two or more.
 *
 * The jobs that changed holder, the new one left out, are written as words (two bytes, low byte first) at the beginning of `list`, in path
 * order; the list beyond them is untouched. The first of them leaves *holder, each further one the bench that the one before it came to,
 * and the last comes to *rose.
 *
 * Results: *holder is the bench that holds the new job in the end, *rose the bench whose load rose (no other load changes), *moved the
 * number of jobs listed. The list must have at least 2 * *moved bytes, else the call is refused before anything is changed; its length
 * may be odd, and 0 where no job moves. At most B - 1 jobs move, so a list of JOBBOARD_MOST_LIST_BYTES is always long enough.
 * Refused: JOBBOARD_SIZES, JOBBOARD_UNSOUND, JOBBOARD_JOB_NUMBER, JOBBOARD_BENCH_NUMBER, JOBBOARD_ALREADY_STANDING,
 * JOBBOARD_LIST_TOO_SHORT.
 */
uint32_t jobboard_arrival(uint8_t *table, size_t table_bytes, uint32_t job, uint32_t first, uint32_t second, uint8_t *list,
                          size_t list_bytes, uint32_t *holder, uint32_t *rose, uint32_t *moved);

/*
 * Closing of the standing job `job`. Its record is emptied, and then jobs are handed along one path to the bench that held it, if there
 * is one from a bench with a load higher by two or more.
 *
 * The jobs that changed holder are written at the beginning of `list` as an arrival writes them, in path order: the first of them leaves
 * *fell, each further one the bench that the one before it came to, and the last comes to the bench that held the closed job.
 *
 * Results: *fell is the bench whose load fell (no other load changes), *moved the number of jobs listed. What length the list must have,
 * and what is always enough, is as for an arrival.
 * Refused: JOBBOARD_SIZES, JOBBOARD_UNSOUND, JOBBOARD_JOB_NUMBER, JOBBOARD_NOT_STANDING, JOBBOARD_LIST_TOO_SHORT.
 */
uint32_t jobboard_closing(uint8_t *table, size_t table_bytes, uint32_t job, uint8_t *list, size_t list_bytes, uint32_t *fell,
                          uint32_t *moved);

/*
 * Levelling. A path improves if jobs handed along it lead from a bench to one with a load lower by two or more; a table is level if
 * none does. Turns improving paths, one after the other, until none is left or `allowance` of them are turned. Any allowance may be
 * passed: with 0 no job changes holder and the chains are put in order (see FILES), and JOBBOARD_ENOUGH_PATHS or more always
 * ends level.
 *
 * Results: *paths is the number of paths turned, at most the allowance; *level is 1 for "level" (no improving path is left), 0 for
 * "stopped" (the allowance is used up and one is left). The jobs that moved are not listed.
 * Refused: JOBBOARD_SIZES, JOBBOARD_UNSOUND.
 */
uint32_t jobboard_levelling(uint8_t *table, size_t table_bytes, uint32_t allowance, uint32_t *paths, uint32_t *level);

/*
 * Level check. Result: *level is 1 for yes (also for a table without jobs), 0 for no.
 *
 * Refused: JOBBOARD_SIZES, JOBBOARD_UNSOUND.
 */
uint32_t jobboard_level_check(const uint8_t *table, size_t table_bytes, uint32_t *level);

/*
 * Load of a bench. Result: *load is the number of jobs that bench `bench` holds.
 *
 * Refused: JOBBOARD_SIZES, JOBBOARD_UNSOUND, JOBBOARD_BENCH_NUMBER.
 */
uint32_t jobboard_load(const uint8_t *table, size_t table_bytes, uint32_t bench, uint32_t *load);

/*
 * Heaviest load. Result: *load is the greatest load of all benches, 0 for a table without jobs. It may be asked for all day: the call
 * takes hardly longer than jobboard_check.
 *
 * Refused: JOBBOARD_SIZES, JOBBOARD_UNSOUND.
 */
uint32_t jobboard_heaviest(const uint8_t *table, size_t table_bytes, uint32_t *load);

/*
 * Tight set of a height. All benches with load `height` or more are in it, and with a bench the other bench of each job that it holds.
 * Its bench numbers are written, rising, as words (two bytes, low byte first) at the beginning of `list`; the list beyond them is
 * untouched. On a level table its jobs inside are more than (height - 1) times its benches, so that in any sharing one of these benches
 * holds `height` jobs or more.
 *
 * Results: *benches is the number of benches in the set, *jobs the number of jobs with both benches inside. The list must have at least
 * 2 * *benches bytes; its length may be odd.
 * Refused: JOBBOARD_SIZES, JOBBOARD_UNSOUND, JOBBOARD_HEIGHT, JOBBOARD_LIST_TOO_SHORT.
 */
uint32_t jobboard_tight_set(const uint8_t *table, size_t table_bytes, uint32_t height, uint8_t *list, size_t list_bytes,
                            uint32_t *benches, uint32_t *jobs);

/*
 * Wall sheet: the board as text to pin up, from which each job's bench can be read. It is written at the beginning of `page`; the page
 * beyond it is untouched. Every line has 68 characters and a line feed, JOBBOARD_SHEET_LINE_BYTES bytes; the characters are digits and
 * blanks. Its columns are, each number right-aligned:
 *
 *     1 to 3      the bench
 *     4           blank
 *     5 to 8      the bench's load
 *     9 to 68     up to twelve of its jobs, rising, in 5 columns each; the remainder blanks
 *
 * Benches rise from 1 to B. A bench with more than twelve jobs goes on in the next line, whose first 8 columns are blank; a bench without
 * jobs has one line. A sheet of bench 1 with 14 jobs, bench 2 without a job and bench 3 with two; the bars stand for its edges and are
 * not written:
 *
 *     |  1   14    1    2    3    5    8   13   21   34   55   89  144  233|
 *     |          377 4000                                                  |
 *     |  2    0                                                            |
 *     |  3    2    4    6                                                  |
 *
 * Result: *length is the sheet's length in bytes. The page must have at least so many; a page of JOBBOARD_MOST_PAGE_BYTES always has.
 * The length cannot be asked for with a page that is too short: a refused call gives no result. No zero byte is written behind the
 * text, which ends after *length bytes.
 * Refused: JOBBOARD_SIZES, JOBBOARD_UNSOUND, JOBBOARD_PAGE_TOO_SHORT.
 */
uint32_t jobboard_sheet(const uint8_t *table, size_t table_bytes, uint8_t *page, size_t page_bytes, uint32_t *length);

/*
 * Is there a job between these two benches? A quick answer for a table that nobody checked first: the form check is not made, and the
 * call takes as long as the records that it reads, however large J is. The chain of bench `first` is read up to a job that names both
 * benches, the first match, or to its end. Then the chain of bench `second` is read up to such a job, up to a number above the first match
 * (that record is not read), or to its end. The lower of the two jobs is the answer.
 *
 * Only records to be read are tested: each must have a number of 1 to J above the one before it on its chain, name two different benches
 * of 1 to B, and have the bench whose chain is read as holder. Nothing else of the table is looked at but its first two words and the two
 * benches' first jobs, so that damage elsewhere is not seen.
 *
 * On a sound table with all chains rising, as every accepted arrival, closing or levelling leaves it (see FILES), *job is the lowest job
 * that names both benches, as if all were read. On a sound table with a chain in another order it may be a higher one that names both, or
 * the call is refused with JOBBOARD_UNSOUND: put it in order first, by jobboard_levelling with allowance 0.
 *
 * Results: *job is the job, 0 for none; *records is the number of records read, that of a match included: on a sound table at most the
 * loads of the two benches added.
 * Refused: JOBBOARD_SIZES, JOBBOARD_BENCH_NUMBER, JOBBOARD_UNSOUND where a record to be read is not as said above, in this order.
 */
uint32_t jobboard_between(const uint8_t *table, size_t table_bytes, uint32_t first, uint32_t second, uint32_t *job, uint32_t *records);

#ifdef __cplusplus
}
#endif

#endif
