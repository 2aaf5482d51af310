/*
 * Days are counted in years that begin in March: the leap day is then the last of its year, and a month's first day has a
 * formula. 400 years have the same number of days wherever they begin, so that only their number can be below 0.
 */
#include "dates.h"

#include <stdio.h>
#include <string.h>

#define TICKS_PER_SECOND 65536
#define SECONDS_PER_DAY 86400
#define DAYS_PER_400_YEARS 146097
#define DAYS_TO_1970 719468 /* from 0000-03-01 */

struct date {
    int64_t year;
    int month, day, hour, minute, second;
};

/* The quotient rounded down. */
static int64_t floor_quotient(int64_t number, int64_t divisor) {
    return number / divisor - (number % divisor < 0);
}

/* The days before a month of a year that begins in March, which is month 0. */
static int days_before(int month) {
    return (153 * month + 2) / 5;
}

/* The days before a year of the 400. */
static int days_before_year(int year) {
    return 365 * year + year / 4 - year / 100;
}

static int64_t day_number(int64_t year, int month, int day) {
    int64_t march_year = year - (month <= 2);
    int64_t cycle = floor_quotient(march_year, 400);
    int march_month = (month + 9) % 12;
    return cycle * DAYS_PER_400_YEARS + days_before_year((int)(march_year - cycle * 400)) + days_before(march_month) + day - 1
        - DAYS_TO_1970;
}

static void set_day(struct date *date, int64_t day_from_1970) {
    int64_t from_start = day_from_1970 + DAYS_TO_1970;
    int64_t cycle = floor_quotient(from_start, DAYS_PER_400_YEARS);
    int day = (int)(from_start - cycle * DAYS_PER_400_YEARS);
    /* Less the leap days before it every year has 365 days; the last leap day of all belongs to the last year. */
    int year = (day - day / 1460 + day / 36524 - day / (DAYS_PER_400_YEARS - 1)) / 365;
    int day_of_year = day - days_before_year(year);
    int march_month = (5 * day_of_year + 2) / 153;
    date->month = (march_month + 2) % 12 + 1;
    date->year = cycle * 400 + year + (date->month <= 2);
    date->day = day_of_year - days_before(march_month) + 1;
}

static void set_time(struct date *date, int second_of_day) {
    date->hour = second_of_day / 3600;
    date->minute = second_of_day / 60 % 60;
    date->second = second_of_day % 60;
}

/* At least so many digits, and what stands behind them; gives the place behind both. */
static char *put_digits(char *text, int64_t number, int digits) {
    if (number >= 10 || digits > 1)
        text = put_digits(text, number / 10, digits - 1);
    *text = (char)('0' + number % 10);
    return text + 1;
}

static char *put_number(char *text, int64_t number, int digits, char behind) {
    text = put_digits(text, number, digits);
    *text = behind;
    return text + 1;
}

void date_of_stamp(int64_t stamp, char text[DATE_ROOM]) {
    struct date date;
    int64_t seconds = floor_quotient(stamp, TICKS_PER_SECOND);
    int64_t day = floor_quotient(seconds, SECONDS_PER_DAY);
    set_day(&date, day);
    set_time(&date, (int)(seconds - day * SECONDS_PER_DAY));
    if (date.year < 0)
        *text++ = '-';
    text = put_number(text, date.year < 0 ? -date.year : date.year, 4, '-');
    text = put_number(text, date.month, 2, '-');
    text = put_number(text, date.day, 2, 'T');
    text = put_number(text, date.hour, 2, ':');
    text = put_number(text, date.minute, 2, ':');
    text = put_number(text, date.second, 2, 'Z');
    *text = '\0';
}

/* Fields of bounded length, so that nothing overflows. */
static bool read_fields(struct date *date, const char *text) {
    long long year;
    bool read = sscanf(text, "%8lld-%2d-%2dT%2d:%2d:%2dZ", &year, &date->month, &date->day, &date->hour, &date->minute,
                       &date->second) == 6;
    date->year = read ? year : 0;
    return read && date->month >= 1 && date->month <= 12;
}

/* What its stamp would not be printed as is no date: 30 February, an hour of 24, a leading zero too many, a year out of reach. */
bool stamp_of_date(const char *text, int64_t *stamp) {
    struct date date;
    char printed[DATE_ROOM];
    if (!read_fields(&date, text))
        return false;
    int64_t seconds = day_number(date.year, date.month, date.day) * SECONDS_PER_DAY + date.hour * 3600 + date.minute * 60
        + date.second;
    if (seconds < INT64_MIN / TICKS_PER_SECOND || seconds > INT64_MAX / TICKS_PER_SECOND)
        return false;
    *stamp = seconds * TICKS_PER_SECOND;
    date_of_stamp(*stamp, printed);
    return strcmp(printed, text) == 0;
}
