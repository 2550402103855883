/* Reads a script from standard input and says of each line whether its form is good; compares the dates that it is given. */
#include <stdbool.h>
#include <stdint.h>
#include <stdio.h>
#include <string.h>

#include "cabinet.h"

/* Of a line the first 81 bytes are kept, which tell a line above 80 bytes from any other. */
struct line {
    uint8_t bytes[81];
    size_t size;
};

/* Bytes of a line that are still to be cut; none are left once the last piece is cut off. */
struct rest {
    const uint8_t *bytes;
    size_t size;
    bool ended;
};

struct date {
    uint32_t year;
    uint32_t month;
    uint32_t day;
};

struct counts {
    unsigned long long good;
    unsigned long long bad;
    unsigned long long compared;
};

/* Reads the next line; false at the end. What follows the last newline is a line if it is not empty. */
static bool read_line(struct line *line)
{
    bool any = false;

    line->size = 0;
    for (;;) {
        int byte = getc(stdin);

        if (byte == EOF)
            return any;
        if (byte == '\n')
            return true;
        any = true;
        if (line->size < sizeof line->bytes)
            line->bytes[line->size++] = (uint8_t)byte;
    }
}

static struct rest all_of(const uint8_t *bytes, size_t size)
{
    struct rest rest = {bytes, size, false};

    return rest;
}

/* Cuts off the next piece, up to a separator or to the end; false if none is left. */
static bool cut(struct rest *rest, char separator, struct rest *piece)
{
    const uint8_t *end;

    if (rest->ended)
        return false;
    end = memchr(rest->bytes, separator, rest->size);
    if (end == NULL) {
        *piece = *rest;
        rest->ended = true;
    } else {
        *piece = all_of(rest->bytes, (size_t)(end - rest->bytes));
        rest->bytes += piece->size + 1;
        rest->size -= piece->size + 1;
    }
    return true;
}

/* One decimal digit or more, below 2^32. */
static bool read_number(struct rest text, uint32_t *number)
{
    uint64_t value = 0;
    size_t i;

    for (i = 0; i < text.size; i++) {
        if (text.bytes[i] < '0' || text.bytes[i] > '9')
            return false;
        value = value * 10 + (uint64_t)(text.bytes[i] - '0');
        if (value > UINT32_MAX)
            return false;
    }
    *number = (uint32_t)value;
    return text.size > 0;
}

static uint32_t compare(struct date first, struct date second)
{
    return cabinet_compare_dates(first.year, first.month, first.day, second.year, second.month, second.day);
}

/* The next field as three numbers parted by hyphens, which are a date. */
static bool read_date(struct rest *fields, struct date *date)
{
    struct rest field, year, month, day;

    return cut(fields, '\t', &field) && cut(&field, '-', &year) && cut(&field, '-', &month) && cut(&field, '-', &day)
        && field.ended && read_number(year, &date->year) && read_number(month, &date->month)
        && read_number(day, &date->day) && compare(*date, *date) != CABINET_NO_DATE;
}

/* Whether the line is the host's own: its first field is the word compare. */
static bool is_comparison(const struct line *line)
{
    struct rest fields = all_of(line->bytes, line->size);
    struct rest word;

    return line->size < sizeof line->bytes && cut(&fields, '\t', &word) && word.size == strlen("compare")
        && memcmp(word.bytes, "compare", word.size) == 0;
}

static void answer_bad(uint32_t field, struct counts *counts)
{
    printf("bad\t%lu\n", (unsigned long)field);
    counts->bad++;
}

/* Answers `compare` date date. */
static void answer_comparison(const struct line *line, struct counts *counts)
{
    struct rest fields = all_of(line->bytes, line->size);
    struct rest word;
    struct date first, second;
    uint32_t earlier;

    cut(&fields, '\t', &word);
    if (!read_date(&fields, &first)) {
        answer_bad(2, counts);
        return;
    }
    if (!read_date(&fields, &second)) {
        answer_bad(3, counts);
        return;
    }
    if (!fields.ended) {
        answer_bad(4, counts);
        return;
    }
    earlier = compare(first, second);
    printf("compare\t%s\n", earlier == CABINET_FIRST ? "first" : earlier == CABINET_SECOND ? "second" : "neither");
    counts->compared++;
}

static void answer(uint32_t book, const struct line *line, struct counts *counts)
{
    uint32_t field;

    if (is_comparison(line)) {
        answer_comparison(line, counts);
        return;
    }
    field = cabinet_check_line(book, line->bytes, line->size);
    if (field != 0) {
        answer_bad(field, counts);
        return;
    }
    printf("good\n");
    counts->good++;
}

int main(int count, char **arguments)
{
    struct counts counts = {0, 0, 0};
    struct line line;
    uint32_t book;

    if (count == 2 && strcmp(arguments[1], "tally") == 0) {
        book = CABINET_TALLY;
    } else if (count == 2 && strcmp(arguments[1], "dates") == 0) {
        book = CABINET_DATES;
    } else {
        fprintf(stderr, "usage: host tally|dates < SCRIPT\n");
        return 2;
    }
    while (read_line(&line))
        answer(book, &line, &counts);
    printf("Checked %llu lines against the %s script: %llu good, %llu bad, %llu with two dates compared.\n",
           counts.good + counts.bad + counts.compared, arguments[1], counts.good, counts.bad, counts.compared);
    if (ferror(stdin) || fflush(stdout) != 0 || ferror(stdout)) {
        fprintf(stderr, "host: input or output failed\n");
        return 1;
    }
    return 0;
}
