/* The words of a sound table that the desk shows; include/jobboard.h has the layout. Nothing else in the program knows it. */
#ifndef LAYOUT_H
#define LAYOUT_H

#include <stdint.h>

uint32_t table_benches(const uint8_t *table);
uint32_t table_jobs(const uint8_t *table);
uint32_t table_standing(const uint8_t *table);

/* Reads the bench that holds a job of 1 to J, 0 if it is not standing. */
uint32_t table_holder(const uint8_t *table, uint32_t job);

/* Reads the other bench that a standing job names. */
uint32_t table_other(const uint8_t *table, uint32_t job);

#endif
