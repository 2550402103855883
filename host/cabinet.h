/* What a C program may ask of the cabinet: the check of one script line, and the comparison of two dates. */
#ifndef CABINET_H
#define CABINET_H

#include <stddef.h>
#include <stdint.h>

/* Whose forms a script has. */
enum { CABINET_TALLY = 1, CABINET_DATES = 2 };

/*
 * Checks one line of a sitting's script, given without the newline that ends it.
 *
 * Answers 0 if the line has one of the forms of the book's script, else the number of its first field, from 1, that is
 * missing, extra or unreadable; 1 for a line above 80 bytes, so that the first 81 bytes decide. A book other than 1 and
 * 2 has no form, and answers 1.
 *
 * The bytes may be any. The caller owes a pointer that is not null, also if size is 0, to size bytes that can be read
 * and that nothing writes during the call. The call changes and keeps nothing.
 */
uint32_t cabinet_check_line(uint32_t book, const uint8_t *line, size_t size);

/* What the comparison of two dates answers. */
enum { CABINET_NEITHER = 0, CABINET_FIRST = 1, CABINET_SECOND = 2, CABINET_NO_DATE = 3 };

/*
 * Compares two dates by year, month and day as written; 0-0-0 is blank and later than every other date.
 *
 * Answers 1 if the first is earlier, 2 if the second is, 0 if neither is. Answers 3 if a year is above 65,535, or a
 * month or a day above 255. Any other numbers are a date, lawful or not.
 */
uint32_t cabinet_compare_dates(uint32_t first_year, uint32_t first_month, uint32_t first_day,
                               uint32_t second_year, uint32_t second_month, uint32_t second_day);

#endif
