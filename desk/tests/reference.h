/* A second implementation of the scope, written from its text alone: simple, not fast. It shares no code with the archive. */
#ifndef REFERENCE_H
#define REFERENCE_H

#include "calls.h"

/* Makes the call. Accepted changes leave all chains rising. */
struct answer reference_call(const struct call *call, uint8_t *table, size_t bytes);

#endif
