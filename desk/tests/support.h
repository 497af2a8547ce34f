/* What the tests share: failing, random numbers, words, tables made by hand and by chance, chains walked, and a wall sheet read back. */
#ifndef SUPPORT_H
#define SUPPORT_H

#include <stdbool.h>
#include <stddef.h>
#include <stdint.h>

/* Prints what differs, and ends the test. */
void fail(const char *format, ...)
#ifdef __GNUC__
    __attribute__((format(printf, 1, 2), noreturn))
#endif
    ;

/* Random numbers that are the same on every machine. */
struct random {
    uint64_t state;
};

uint64_t random_next(struct random *r);

/* Gives a number of 0 to n - 1; n is not 0. */
uint32_t random_below(struct random *r, uint32_t n);

/* Gives a number of `least` to `most`. */
uint32_t random_within(struct random *r, uint32_t least, uint32_t most);

/* Gives the seed that the command line names, else the given one. */
uint64_t seed_of(int argc, char **argv, uint64_t seed);

/* Hashes by FNV-1a, 64 bits. */
uint64_t hash_of(const uint8_t *bytes, size_t length);

/* Reads or writes word i: 16 bits, low byte first. */
uint32_t word_at(const uint8_t *bytes, size_t i);
void put_word(uint8_t *bytes, size_t i, uint32_t word);

/* Gives memory of exactly that length, never NULL; the test ends where there is none. */
uint8_t *memory(size_t length);
uint8_t *copy_of(const uint8_t *bytes, size_t length);

/* A table with room for a larger one behind it, so that a test can lend too much or too little of it. */
struct table {
    size_t length;
    uint8_t bytes[33008 + 64];
};

/* Writes an empty table by hand, without the calls that are tested. */
void make_empty(struct table *t, uint32_t benches, uint32_t jobs);

/* Makes job `job` stand; `holder` is 1 for the first-named bench and 2 for the second. Chains are made afterwards. */
void make_stand(struct table *t, uint32_t job, uint32_t first, uint32_t second, uint32_t holder);

/* Makes all chains and counts the standing jobs. Chains rise, or are in a random order if r is not NULL. */
void make_chains(struct table *t, struct random *r);

/*
 * Makes a board by chance: mostly small, now and then 500 benches and 4,000 jobs; without jobs, or with random ones and random holders
 * (heavy ones on few benches). Chains are made afterwards.
 */
void make_board(struct table *t, struct random *r);

/* Gives the place of the first word of a job's record; the holder is the third word, the next job on the chain the fourth. */
size_t record_of(const uint8_t *table, uint32_t job);

/* Gives the bench that holds a job of a sound table, 0 for a job that is not standing. */
uint32_t holder_of(const uint8_t *table, uint32_t job);

/* Picks a job that stands, or one that does not; 0 where there is none. */
uint32_t pick_job(const struct table *t, struct random *r, bool stands);

/*
 * Walks all chains, word by word, and tells whether every one rises. The sizes must fit; nothing else is asked of the table, as a walk
 * ends at the first number that does not rise or is above the greatest.
 */
bool chains_rise(const uint8_t *table);

/*
 * Reads a wall sheet by columns, as people do: the number in columns 1 to 3 is the bench of the line, or where they are blank the bench
 * of the line before, and the numbers in columns 9 to 68 are jobs that it holds. Tells whether each job of the sound table is there
 * exactly once where its record has it standing, with the record's holder, and nowhere else.
 */
bool sheet_names_holders(const uint8_t *page, size_t length, const uint8_t *table);

#endif
