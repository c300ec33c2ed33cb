/* Runs a corridor through the library, part after part of its demand, shows what is on the road, and then two refusals.

       cc examples/corridor.c -Iinclude target/staticlib/libfigwimple.a -o corridor
       ./corridor examples/i210w

   The folder has cells.csv, state.csv and demand.csv as docs/RULES.md, "The text and the program", lays them down. The status is 0
   where the whole corridor was accepted, and 1 where a file was not, or could not be read. */

#include "figwimple.h"

#include <inttypes.h>
#include <stdbool.h>
#include <stdio.h>
#include <stdlib.h>

#define CELLS 512 /* the most that the library takes */
#define PART 360  /* demand rows for one call: an hour, where a period is 10 seconds; the library takes up to 4,096 */

/* How long the library's lists are for so many cells. */
#define TABLE_LENGTH(cells) (10 * (cells))
#define STATE_LENGTH(cells) (3 * (cells) + 1)
#define DEMAND_LENGTH(cells) (2 * (cells) + 1)
#define SHEET_LENGTH(cells) (4 * (cells) + 1)

/* The table has room for one cell more, so that a table that is too long comes to the library and is refused there. */
static uint32_t table[TABLE_LENGTH(CELLS + 1)], state[STATE_LENGTH(CELLS)];
static uint32_t demand[PART * DEMAND_LENGTH(CELLS)], sheet[SHEET_LENGTH(CELLS)];

/* What each number of a refusal says. */
static const char *const WRONG[] = {
    "accepted",
    "a list has the wrong length, or the table has not 1 to 512 cells",
    "a table number is outside its range",
    "w + x is over 65,536",
    "a ramp number is used again",
    "a state number is outside its range",
    "a demand is outside its range",
    "queue plus demand is over 1,000,000,000",
    "the pieces break the re-cut rules",
    "a setting or a sample is unusable",
    "the samples give no diagram",
    "a row value is not at least 1 and at most its limit",
};

static void say(const char *what, uint64_t word)
{
    if (figwimple_number(word) == 0)
        printf("%s: accepted\n", what);
    else
        printf("%s: refused with number %" PRIu32 " at place %" PRIu32 ": %s\n", what, figwimple_number(word),
               figwimple_place(word), WRONG[figwimple_number(word)]);
}

/* A file that is read record after record. */
struct text {
    char path[4096];
    FILE *file;
    uint64_t record; /* the one that is being read, from 1 */
};

/* Ends the program where a record is not as the rules ask. */
static void must(bool right, const struct text *text, const char *wrong)
{
    if (right)
        return;
    fprintf(stderr, "%s: record %" PRIu64 " %s\n", text->path, text->record, wrong);
    exit(1);
}

static void open_text(struct text *text, const char *folder, const char *name)
{
    int length = snprintf(text->path, sizeof text->path, "%s/%s", folder, name);
    if (length < 0 || (size_t)length >= sizeof text->path) {
        fprintf(stderr, "%s: the folder's name is too long\n", folder);
        exit(1);
    }
    text->record = 0;
    text->file = fopen(text->path, "rb");
    if (text->file == NULL) {
        perror(text->path);
        exit(1);
    }
}

/* The next byte, or EOF. A file that can't be read to its end, such as a folder, must not pass for a short one. */
static int next_byte(const struct text *text)
{
    int byte = getc(text->file);
    if (byte == EOF && ferror(text->file)) {
        perror(text->path);
        exit(1);
    }
    return byte;
}

/* Reads the next record, which must have so many fields, and answers whether there was one. What scanf would take as well (a sign,
   a space, a leading zero, a number too large, a record with a field too few) is a slip in the file, and ends the program. A
   record may have 16,384 bytes; one whose numbers the library accepts has fewer. */
static bool read_record(struct text *text, uint32_t *numbers, size_t fields)
{
    int byte = next_byte(text);
    text->record++;
    if (byte == EOF)
        return false;
    for (size_t field = 0; field < fields; field++) {
        uint64_t number = 0;
        int digits = 0;
        for (; byte >= '0' && byte <= '9'; byte = next_byte(text)) {
            must(digits != 1 || number != 0, text, "has a number with a leading zero");
            must(++digits <= 10, text, "has a number of more than 10 digits");
            number = 10 * number + (uint64_t)(byte - '0');
        }
        must(digits > 0, text, "has no digit where a number starts");
        must(number <= UINT32_MAX, text, "has a number over 4,294,967,295");
        numbers[field] = (uint32_t)number;
        if (field + 1 < fields) {
            must(byte == ',', text, "has too few fields, or no comma after a number");
            byte = next_byte(text);
        }
    }
    /* The last end may be missing. */
    must(byte == EOF || (byte == '\r' && next_byte(text) == '\n'), text, "has too many fields, or does not end in CR LF");
    return true;
}

/* One line on the state after so many periods and on the last one's sheet: vehicles are kept in thousandths. */
static void show(uint64_t periods, size_t cells)
{
    uint64_t road = 0, queues = state[0], congested = 0;
    for (size_t i = 0; i < cells; i++) {
        road += state[1 + i];
        queues += state[1 + cells + i];
        congested += sheet[1 + 3 * cells + i];
    }
    printf("after period %" PRIu64 ": %.3f vehicles on the road, %.3f in queues, %" PRIu64 " of %zu cells congested\n", periods,
           (double)road / 1000, (double)queues / 1000, congested, cells);
}

int main(int count, char **words)
{
    const char *folder = count > 1 ? words[1] : "examples/i210w";
    struct text text;
    size_t cells = 0, rows = 0;

    /* Of a table that is too long, all is read and one cell too many is kept. */
    open_text(&text, folder, "cells.csv");
    while (read_record(&text, table + TABLE_LENGTH(cells <= CELLS ? cells : CELLS), TABLE_LENGTH(1)))
        cells += cells <= CELLS;
    fclose(text.file);
    size_t table_length = TABLE_LENGTH(cells);
    uint64_t word = figwimple_accept_table(table, table_length);
    if (figwimple_number(word) == 1) { /* without a number of cells the other files have no lengths */
        say("the table", word);
        return 1;
    }
    size_t state_length = STATE_LENGTH(cells), demand_length = DEMAND_LENGTH(cells), sheet_length = SHEET_LENGTH(cells);

    open_text(&text, folder, "state.csv");
    must(read_record(&text, state, state_length), &text, "is missing");
    text.record++;
    must(next_byte(&text) == EOF, &text, "is one too many");
    fclose(text.file);
    word = figwimple_accept_state(table, table_length, state, state_length);
    say("table and state", word);
    if (figwimple_number(word) != 0)
        return 1;

    /* A run that is refused at a row has done the periods before it: the word's count says how many. */
    uint64_t periods = 0;
    open_text(&text, folder, "demand.csv");
    while (figwimple_number(word) == 0 && read_record(&text, demand, demand_length)) {
        for (rows = 1; rows < PART && read_record(&text, demand + rows * demand_length, demand_length);)
            rows++;
        word = figwimple_run(table, table_length, state, state_length, demand, rows * demand_length, sheet, sheet_length);
        periods += figwimple_count(word);
        if (figwimple_count(word) > 0)
            show(periods, cells);
    }
    fclose(text.file);
    say("the demand", word);
    printf("periods completed: %" PRIu64 "\n", periods);
    if (figwimple_number(word) != 0)
        return 1;

    /* The last part again, its last row with one more at the entry than a demand may be. */
    if (rows > 0) {
        demand[(rows - 1) * demand_length] = 1000001;
        word = figwimple_run(table, table_length, state, state_length, demand, rows * demand_length, sheet, sheet_length);
        say("the last part again, with a demand out of range in its last row", word);
        printf("periods completed: %" PRIu32 " of %zu\n", figwimple_count(word), rows);
    }
    table[TABLE_LENGTH(cells - 1)] = 65537;
    say("the table with v out of range in the last cell", figwimple_accept_table(table, table_length));
    return 0;
}
