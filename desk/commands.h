/* The desk's commands: each is a word and numbers, makes its call and says the answer in sentences. */
#ifndef COMMANDS_H
#define COMMANDS_H

#include <stdbool.h>
#include <stddef.h>
#include <stdint.h>

#define MOST_NUMBERS 3

/* What a command does to the board's file. */
enum file_use { ASKS, CHANGES, CREATES, CREATES_ANEW };

/*
 * The answer, in whole lines. The longest says of 4,000 jobs from which bench to which they move, a line of 44 bytes each; a sheet is
 * shorter (JOBBOARD_MOST_PAGE_BYTES).
 */
struct report {
    size_t used;
    char text[262144];
};

struct numbers {
    int count;
    uint32_t at[MOST_NUMBERS];
};

struct command {
    const char *word;
    int least, most; /* so many numbers follow */
    enum file_use use;
    uint32_t (*run)(uint8_t *table, size_t length, const struct numbers *n, struct report *report); /* gives 0 or the refusal's number */
    const char *help;
};

/* Finds the command of that word, NULL if there is none. */
const struct command *command_of(const char *word);

/* Lists all commands and what they do, for people. */
void say_help(struct report *report);

/* Tells what a refusal of this command means. */
const char *refusal_words(const struct command *command, uint32_t refusal);

#endif
