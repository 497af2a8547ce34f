/* The file that keeps a board's table between runs: the table's bytes and nothing else. */
#ifndef BOARD_FILE_H
#define BOARD_FILE_H

#include "jobboard.h"

#include <stdbool.h>

struct board_file {
    const char *name;
    int locked; /* the file, open and locked while it is to be changed; -1 otherwise */
    size_t length;
    uint8_t table[JOBBOARD_MOST_TABLE_BYTES + 1]; /* one byte more, so that a file that is too long is not taken for a table */
};

/*
 * Reads the file. For a change it is also locked, so that a second desk waits; file_done ends that. False, with
 * errno, where it cannot.
 */
bool file_read(struct board_file *f, bool for_change);

/* Replaces the locked file by the table: whatever happens meanwhile, it holds the old table or the new one, whole. */
bool file_replace(struct board_file *f);

/* Writes the table to a file that does not exist yet; EEXIST where it does. */
bool file_create(struct board_file *f);

void file_done(struct board_file *f);

#endif
