/* One shape for the eleven calls, so that a test can make any of them, compare its answer and look at what it left. */
#ifndef CALLS_H
#define CALLS_H

#include <stdbool.h>
#include <stddef.h>
#include <stdint.h>

/* Stands in a result before the call; no call gives it. */
#define UNSET 0xa5a5a5a5u

/* Stands in every byte of a list or a page before the call. */
#define UNWRITTEN 0xa5

enum kind { BLANK, CHECK, ARRIVAL, CLOSING, LEVELLING, LEVEL_CHECK, LOAD, HEAVIEST, TIGHT_SET, SHEET, BETWEEN, KINDS };

struct call {
    enum kind kind;
    uint32_t numbers[3]; /* in the order of the call's own */
    uint8_t *lent;       /* the list of a tight set, an arrival or a closing, a sheet's page; else not looked at */
    size_t lent_bytes;
};

struct answer {
    uint32_t returned;
    uint32_t values[3]; /* in the order of the call's results, UNSET where there is none */
};

/* Makes the call through the archive. */
struct answer make_call(const struct call *call, uint8_t *table, size_t bytes);

bool same_answer(struct answer a, struct answer b);

/* Tells whether this call changes tables; the others ask. */
bool changes_table(enum kind kind);

/* Tells whether this call lists the jobs that it moves: an arrival or a closing. */
bool lists_moved(enum kind kind);

/* Tells how many jobs an accepted arrival or closing has moved; 0 for a refusal and every other call. */
uint32_t jobs_moved(enum kind kind, struct answer a);

/* Tells how many bytes of what it was lent the call has written, by its answer. */
size_t bytes_written(enum kind kind, struct answer a);

/* Tells whether the lent bytes that the call has not written, and so many behind them, are still UNWRITTEN. */
bool rest_unwritten(const struct call *call, struct answer a, size_t behind);

/* Tells whether this number is among the refusals that the header lists for the call. */
bool may_refuse(enum kind kind, uint32_t number);

#define DESCRIPTION 80

/* Writes a call, such as "arrival 1 2 3". */
void describe_call(const struct call *call, char text[DESCRIPTION]);

/* Writes an answer, such as "0: 1 2 3". */
void describe_answer(struct answer a, char text[DESCRIPTION]);

#endif
