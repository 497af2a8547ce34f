#include "layout.h"

#include <stddef.h>

static uint32_t word(const uint8_t *table, size_t i)
{
    return table[2 * i] + 256u * table[2 * i + 1];
}

uint32_t table_benches(const uint8_t *table)
{
    return word(table, 0);
}

uint32_t table_jobs(const uint8_t *table)
{
    return word(table, 1);
}

uint32_t table_standing(const uint8_t *table)
{
    return word(table, 2);
}

/* Gives the place of the first word of a job's record. */
static size_t record_of(const uint8_t *table, uint32_t job)
{
    return 4 + (size_t)table_benches(table) + 4 * ((size_t)job - 1);
}

uint32_t table_holder(const uint8_t *table, uint32_t job)
{
    size_t record = record_of(table, job);
    uint32_t holder = word(table, record + 2);
    return holder == 0 ? 0 : word(table, record + holder - 1);
}

uint32_t table_other(const uint8_t *table, uint32_t job)
{
    size_t record = record_of(table, job);
    return word(table, record + 2 - word(table, record + 2));
}
