/* Stamps, which count 1/65536 seconds from 1970-01-01 UTC, as dates in the listing's form and back. */
#ifndef DATES_H
#define DATES_H

#include <stdbool.h>
#include <stdint.h>

/* Years go from -4457824 to 4461763. */
#define DATE_ROOM sizeof "-4457824-07-13T18:37:52Z"

/* Every stamp has a date: Gregorian, UTC, the fraction of a second left out. */
void date_of_stamp(int64_t stamp, char text[DATE_ROOM]);

/* The first stamp of a date's second. Only the form in which dates are printed is taken. */
bool stamp_of_date(const char *text, int64_t *stamp);

#endif
