/* Steps from a text through include/demnyaluz.h: whole, in pieces of several lengths, broken, and with memory that is refused. */
#include "demnyaluz.h"
#include <stdio.h>
#include <stdlib.h>
#include <string.h>

enum { TEXT_BYTES = 200000, ROWS_BYTES = 40000 };

static uint64_t words[DEMNYALUZ_STORE_WORDS];
static uint16_t strings[DEMNYALUZ_STRING_CELLS];
static uint64_t state[DEMNYALUZ_TEXT_STATE];
static uint8_t line[DEMNYALUZ_TEXT_LINE];
static uint8_t rows[DEMNYALUZ_TEXT_ROW + 1];
static uint64_t result[2];
static uint8_t all[ROWS_BYTES];
static size_t all_length;
static int checks;

static void must(bool holds, const char *what)
{
    if (!holds) {
        printf("not so: %s (taken %d, written %d)\n%.*s\n", what, (int)result[0], (int)result[1], (int)(all_length > 2000 ? 2000 : all_length), (const char *)all);
        exit(1);
    }
}

static void check(bool holds, const char *what)
{
    checks++;
    must(holds, what);
}

#define MEMORY words, DEMNYALUZ_STORE_WORDS, strings, DEMNYALUZ_STRING_CELLS, state, DEMNYALUZ_TEXT_STATE
#define LINE line, DEMNYALUZ_TEXT_LINE
#define ROWS rows, DEMNYALUZ_TEXT_ROW

static void start(void)
{
    memset(words, 0xff, sizeof words);
    memset(strings, 0xff, sizeof strings);
    memset(state, 0xff, sizeof state);
    memset(line, 0xff, sizeof line);
    all_length = 0;
    must(demnyaluz_text_start(MEMORY), "the start");
}

/* The rows that a call wrote, kept: whole lines within the row's length, the heading in front of row 0 or alone. */
static void keep(void)
{
    must(result[1] <= DEMNYALUZ_TEXT_ROW && all_length + result[1] <= ROWS_BYTES && rows[DEMNYALUZ_TEXT_ROW] == 0xee, "within the rows");
    must(result[1] == 0 || rows[result[1] - 1] == '\n', "whole lines");
    memcpy(all + all_length, rows, result[1]);
    all_length += result[1];
}

/* A piece is handed in until all of it, or nothing more, is taken. Answers how much was taken. */
static size_t feed(const uint8_t *piece, size_t length)
{
    size_t at = 0;
    do {
        memset(rows, 0xee, sizeof rows);
        must(demnyaluz_text_feed(MEMORY, LINE, piece + at, length - at, ROWS, result), "a piece");
        const uint8_t *end = memchr(piece + at, '\n', length - at);
        must(result[0] == 0 || result[0] == (end ? (size_t)(end - piece) + 1 - at : length - at), "taken up to a line feed, and no further");
        must(result[1] == 0 || (end && result[0] > 0), "a row only where a line ended");
        keep();
        at += result[0];
    } while (result[0] > 0 && at < length);
    return at;
}

static void end(void)
{
    memset(rows, 0xee, sizeof rows);
    must(demnyaluz_text_end(MEMORY, LINE, ROWS, result) && result[0] == 0, "the end");
    keep();
}

/* A whole text in pieces of a length. Answers how much of it was taken. */
static size_t run(const uint8_t *text, size_t length, size_t piece)
{
    size_t taken = 0;
    start();
    while (taken < length) {
        size_t size = length - taken < piece ? length - taken : piece;
        size_t some = feed(text + taken, size);
        taken += some;
        if (some < size)
            break;
    }
    end();
    return taken;
}

static bool is_all(const char *expected)
{
    return all_length == strlen(expected) && memcmp(all, expected, all_length) == 0;
}

#define NAMES "step object key value receiver descriptor sheet"
#define HEADING "line outcome number answers calls value\n"
#define MAKING "01 00 - 010000000000000000 - - -"
#define NULL_VALUE "010000000000000000"
#define VISITS "050000000000000000"
#define SEALED "0f01037011010000000000000000000000000000000000000000000000"

/* The sealed 70,000 in another order of the names: strings, broken lines, a trap that answers 4,464, keys, refusals. */
static const char sealed_text[] =
    "sheet step descriptor object key receiver value\n"
    "007600690073006900740073 0f - - - - -\n"
    "- 01 - 00 - - " NULL_VALUE "\n"
    "- 09 " SEALED " 00 " VISITS " - -\n"
    "\n"
    "00 02 - - - - 038000000000000000\n"
    "0101037011000000000000 0b - 01 " VISITS " 070100000000000000 -\n"
    "0101037011010000000000 0b - 01 " VISITS " - -\n"
    "- 0b - 01 " VISITS " - -\n"
    "- 08 - 01 " VISITS " - -\n"
    "- 08 - 00 060300000000000000 - -\n"
    "- 0e - 01 - - -\n"
    "- 01 - 00 - - " NULL_VALUE "\r\n"
    "- 0B - 00 - - -\n"
    "- 04 - 09 - - -\n"
    "- 0f - - - - -\n"
    "- 0f - 01 - - -\n"
    "01040500000000000000 0b - 01 " VISITS " - -\n"
    "0104050000000000000000 0b - 01 " VISITS " - -\n"
    "- 0e - 00 - - -";
static const char sealed_rows[] =
    HEADING
    "1 1 0 0 0 050000000000000000\n"
    "2 1 0 0 0 070000000000000000\n"
    "3 1 0 0 3 020100000000000000\n"
    "4 0 12 0 0 -\n"
    "5 1 0 0 0 070100000000000000\n"
    "6 2 17 1 2 -\n"
    "7 1 0 1 2 037011010000000000\n"
    "8 0 8 0 0 -\n"
    "9 1 0 0 2 " SEALED "\n"
    "10 1 0 0 1 -\n"
    "11 1 0 0 2 " VISITS "\n"
    "12 0 12 0 0 -\n"
    "13 0 12 0 0 -\n"
    "14 0 2 0 0 -\n"
    "15 1 0 0 0 050100000000000000\n"
    "16 0 1 0 0 -\n"
    "17 0 1 0 0 -\n"
    "18 3 0 1 1 050000000000000000\n"
    "19 1 0 0 1 " VISITS "\n";

static const size_t pieces[] = {1, 2, 3, 7, 4096, TEXT_BYTES};

static void run_pieces(const uint8_t *text, size_t length, size_t taken, const char *expected, const char *what)
{
    for (size_t i = 0; i < sizeof pieces / sizeof pieces[0]; i++)
        check(run(text, length, pieces[i]) == taken && is_all(expected), what);
}

static void run_text(const char *text, const char *expected, const char *what)
{
    run_pieces((const uint8_t *)text, strlen(text), strlen(text), expected, what);
}

/* A first line that is broken: what follows it is not taken. */
static void run_head(const char *first, const char *what)
{
    char text[200];
    int length = snprintf(text, sizeof text, "%s\n%s\n%s\n", first, NAMES, MAKING);
    run_pieces((const uint8_t *)text, (size_t)length, strlen(first) + 1, HEADING "0 0 12 0 0 -\n", what);
}

static uint8_t text[TEXT_BYTES];
static size_t text_length;

static void put(const char *words_of_line)
{
    memcpy(text + text_length, words_of_line, strlen(words_of_line));
    text_length += strlen(words_of_line);
}

static void put_value(struct demnyaluz_value value)
{
    uint8_t bytes[DEMNYALUZ_VALUE_BYTES];
    demnyaluz_write_value(bytes, value);
    for (size_t i = 0; i < sizeof bytes; i++) {
        char digits[3];
        snprintf(digits, sizeof digits, "%02x", bytes[i]);
        put(digits);
    }
}

/* A line of a length: a making with a sheet of zero bytes, which is no sheet and refused as 1 where the line is read. */
static void put_long(const char *begin, size_t length)
{
    put(begin);
    memset(text + text_length, '0', length - strlen(begin));
    text_length += length - strlen(begin);
    put("\n");
}

static void long_lines(void)
{
    text_length = 0;
    put(NAMES "\n");
    put_long("01 00 - " NULL_VALUE " - - ", DEMNYALUZ_TEXT_LINE - 1);
    put_long("01 - - " NULL_VALUE " - - ", DEMNYALUZ_TEXT_LINE);
    put_long("01 00 - " NULL_VALUE " - - ", DEMNYALUZ_TEXT_LINE + 1);
    put_long("01 - - " NULL_VALUE " - - ", DEMNYALUZ_TEXT_LINE + 2);
    put_long("", 5 * DEMNYALUZ_TEXT_LINE);
    put(MAKING "\n");
    text[text_length] = 0;
    run_text((const char *)text, HEADING "1 0 1 0 0 -\n2 0 1 0 0 -\n3 0 12 0 0 -\n4 0 12 0 0 -\n5 0 12 0 0 -\n6 1 0 0 0 070000000000000000\n",
             "lines of 16,383 to 16,386 characters, and a longer one");
    text_length = 0;
    put_long(NAMES " ", DEMNYALUZ_TEXT_LINE + 1);
    size_t first = text_length;
    put(NAMES "\n" MAKING "\n");
    run_pieces(text, text_length, first, HEADING "0 0 12 0 0 -\n", "a first line that is too long");
}

/* Memory before a call that must be refused, and after it. */
static struct {
    uint64_t words[DEMNYALUZ_STORE_WORDS];
    uint16_t strings[DEMNYALUZ_STRING_CELLS];
    uint64_t state[DEMNYALUZ_TEXT_STATE];
    uint8_t line[DEMNYALUZ_TEXT_LINE], rows[DEMNYALUZ_TEXT_ROW + 1];
} before;

static void remember(void)
{
    memset(rows, 0xee, sizeof rows);
    memcpy(before.words, words, sizeof words);
    memcpy(before.strings, strings, sizeof strings);
    memcpy(before.state, state, sizeof state);
    memcpy(before.line, line, sizeof line);
    memcpy(before.rows, rows, sizeof rows);
    result[0] = result[1] = 77;
}

static bool is_untouched(void)
{
    return memcmp(before.words, words, sizeof words) == 0 && memcmp(before.strings, strings, sizeof strings) == 0
        && memcmp(before.state, state, sizeof state) == 0 && memcmp(before.line, line, sizeof line) == 0 && memcmp(before.rows, rows, sizeof rows) == 0;
}

/* Both calls with these lengths are refused. */
static void refuse(size_t words_length, size_t strings_length, size_t state_length, size_t line_length, size_t rows_length, const char *what)
{
    const uint8_t piece[] = MAKING "\n";
    remember();
    check(!demnyaluz_text_feed(words, words_length, strings, strings_length, state, state_length, line, line_length, piece, sizeof piece - 1, rows,
                               rows_length, result),
          what);
    check(result[0] == 0 && result[1] == 0 && is_untouched(), what);
    remember();
    check(!demnyaluz_text_end(words, words_length, strings, strings_length, state, state_length, line, line_length, rows, rows_length, result), what);
    check(result[0] == 0 && result[1] == 0 && is_untouched(), what);
}

/* The store with one word that no store has. */
static void refuse_word(size_t at, uint64_t word, const char *what)
{
    const uint64_t kept = words[at];
    words[at] = word;
    refuse(DEMNYALUZ_STORE_WORDS, DEMNYALUZ_STRING_CELLS, DEMNYALUZ_TEXT_STATE, DEMNYALUZ_TEXT_LINE, DEMNYALUZ_TEXT_ROW, what);
    words[at] = kept;
}

static void refusals(void)
{
    const size_t w = DEMNYALUZ_STORE_WORDS, s = DEMNYALUZ_STRING_CELLS, t = DEMNYALUZ_TEXT_STATE, l = DEMNYALUZ_TEXT_LINE, r = DEMNYALUZ_TEXT_ROW;
    start();
    feed((const uint8_t *)sealed_text, 500);
    remember();
    check(!demnyaluz_text_start(words, w - 1, strings, s, state, t) && is_untouched(), "a start with a store too short");
    check(!demnyaluz_text_start(words, w, strings, s - 1, state, t) && is_untouched(), "a start with a table too short");
    check(!demnyaluz_text_start(words, w, strings, s, state, t - 1) && is_untouched(), "a start with a state too short");
    refuse(w - 1, s, t, l, r, "a store too short");
    refuse(w, s - 1, t, l, r, "a table too short");
    refuse(w, s, t - 1, l, r, "a state too short");
    refuse(w, s, t, l - 1, r, "a line too short");
    refuse(w, s, t, 0, r, "no line");
    refuse(w, s, t, l, r - 1, "rows too short");
    refuse(w, s, t, l, 0, "no rows");

    /* the text goes on as if none of these had been called */
    feed((const uint8_t *)sealed_text + 500, strlen(sealed_text) - 500);
    end();
    check(is_all(sealed_rows), "the text after refused calls");

    start();
    feed((const uint8_t *)sealed_text, 500);
    refuse_word(0, DEMNYALUZ_MAXIMUM_OBJECTS + 1, "a store of 33 objects");
    refuse_word(1, DEMNYALUZ_MAXIMUM_PROPERTIES + 1, "a store of 257 properties");
    refuse_word(3, words[3] | (uint64_t)1 << DEMNYALUZ_MAXIMUM_OBJECTS, "a 33rd live object");
    refuse_word(4, DEMNYALUZ_MAXIMUM_OBJECTS + 1, "a store of 33 released numbers");
    uint16_t entered = strings[0];
    strings[0] = DEMNYALUZ_MAXIMUM_STRINGS + 1;
    refuse(w, s, t, l, r, "a table of 257 strings");
    strings[0] = entered;
    uint64_t kept[DEMNYALUZ_TEXT_STATE];
    memcpy(kept, state, sizeof state);
    memset(state, 0xff, sizeof state);
    refuse(w, s, t, l, r, "a state of ones");
    memcpy(state, kept, sizeof state);
    feed((const uint8_t *)sealed_text + 500, strlen(sealed_text) - 500);
    end();
    check(is_all(sealed_rows), "the text after damage that was taken back");
}

int main(void)
{
    run_text(NAMES "\n" MAKING "\n", HEADING "1 1 0 0 0 070000000000000000\n", "a making");
    run_text(NAMES "\n" MAKING, HEADING "1 1 0 0 0 070000000000000000\n", "a making, its line feed missing");
    run_text(NAMES "\n" MAKING "\n\n", HEADING "1 1 0 0 0 070000000000000000\n2 0 12 0 0 -\n", "an empty line at the end");
    run_text(NAMES, HEADING, "the names alone");
    run_text(NAMES "\n", HEADING, "the names alone, with a line feed");
    run_text(sealed_text, sealed_rows, "the sealed 70,000");
    run_text(NAMES "\n14 00 - - - - -\n14 00 - - - - 000\n0f 01 - - - - 0061\n0f 01 - - - - 00\n0f - - - - - 006100\n",
             HEADING "1 0 1 0 0 -\n2 0 12 0 0 -\n3 0 1 0 0 -\n4 0 12 0 0 -\n5 0 12 0 0 -\n", "12 before 1");
    run_text(NAMES "\n" MAKING "\n0f - - - - - 0061\n0f - - - - - 0037\n09 00 050000000000000000 - - - -\n09 00 050100000000000000 - - - -\n0e 00 - - - - -\n",
             HEADING "1 1 0 0 0 070000000000000000\n2 1 0 0 0 050000000000000000\n3 1 0 0 0 050100000000000000\n4 1 0 0 3 020100000000000000\n"
                     "5 1 0 0 3 020100000000000000\n6 1 0 0 1 050100000000000000050000000000000000\n",
             "code units, high byte first: an index comes before a name");
    run_text(NAMES "\n" MAKING "\n13 00 - 030100000000000000 - - -\n12 00 - 030100000000000000 - - -\n13 00 - 030100000000000000 - - -\n"
                   "12 00 - 030200000000000000 - - -\n12 00 - - - - -\n",
             HEADING "1 1 0 0 0 070000000000000000\n2 1 0 0 1 020000000000000000\n3 1 0 0 2 020100000000000000\n4 1 0 0 2 020100000000000000\n"
                     "5 0 1 0 0 -\n6 0 3 0 0 -\n",
             "an object frozen");
    run_text(NAMES "\n10 00 - " NULL_VALUE " - - -\n01 00 - 080000000000000000 - - -\n10 - - 070100000000000000 - - -\n04 02 - - - - -\n04 01 - - - - -\n"
                   "02 00 - 030000000000000000 - - -\n10 00 - 080100000000000000 - - -\n10 00 - 080300000000000000 - - -\n10 01 - " NULL_VALUE " - - -\n",
             HEADING "1 1 0 0 0 080000000000000000\n2 1 0 0 0 070100000000000000\n3 1 0 0 0 080200000000000000\n4 1 0 0 1 070100000000000000\n"
                     "5 1 0 0 1 080000000000000000\n6 0 3 0 0 -\n7 0 3 0 0 -\n8 0 2 0 0 -\n9 0 1 0 0 -\n",
             "functions made, and a proxy over one");
    run_text(NAMES "\n11 00 - - - - -\n" MAKING "\n02 00 - 030000000000000000 - - -\n11 00 - - - - -\n11 01 - - - - 0101020100000000000000\n"
                   "11 01 - - - - -\n11 01 - - - - -\n11 00 - - - - 0101070100000000000000\n11 00 - " NULL_VALUE " - - -\n11 00 - - - - -\n"
                   "10 00 - " NULL_VALUE " - - -\n" MAKING "\n" MAKING "\n",
             HEADING "1 0 2 0 0 -\n2 1 0 0 0 070000000000000000\n3 1 0 0 0 070100000000000000\n4 0 14 0 0 -\n5 0 13 0 0 -\n"
                     "6 1 0 0 0 020100000000000000\n7 0 2 0 0 -\n8 0 2 0 0 -\n9 0 1 0 0 -\n10 1 0 0 0 020100000000000000\n"
                     "11 1 0 0 0 080100000000000000\n12 1 0 0 0 070000000000000000\n13 1 0 0 0 070200000000000000\n",
             "objects released, and their numbers taken again");
    run_text("", HEADING "0 0 12 0 0 -\n", "no input");
    run_text(NAMES " ", HEADING "0 0 12 0 0 -\n", "a broken first line, not ended");
    run_head("", "an empty first line");
    run_head("step object key value receiver descriptor", "six names");
    run_head(NAMES " sheet", "eight names");
    run_head("step object key value receiver descriptor step", "a name twice");
    run_head(NAMES "\r", "a carriage return behind the names");
    run_head(MAKING, "cells in place of the names");
    long_lines();

    /* a line of 256 keys is the longest row */
    start();
    const char *names = NAMES "\n" MAKING "\n02 00 - 030004000000000000 - - -\n";
    feed((const uint8_t *)names, strlen(names));
    text_length = 0;
    put("0e 01 - - - - 01030001");
    for (uint64_t i = 0; i < 256; i++)
        put_value(demnyaluz_make_value(DEMNYALUZ_KIND_SYMBOL, i));
    put("\n");
    size_t so_far = all_length;
    check(feed(text, text_length) == text_length && all_length - so_far == 10 + 256 * 18 + 1, "256 keys");
    check(memcmp(all + so_far, "3 1 0 1 3 ", 10) == 0 && memcmp(all + so_far + 10, text + 22, 256 * 18) == 0, "the 256 keys in their order");

    /* after the end nothing is taken, and a new start begins anew */
    end();
    so_far = all_length;
    check(feed((const uint8_t *)names, strlen(names)) == 0 && all_length == so_far, "a piece after the end");
    end();
    check(all_length == so_far, "a second end");
    start();
    check(feed((const uint8_t *)NAMES, 0) == 0 && all_length == 0, "an empty piece");
    check(feed((const uint8_t *)names, strlen(names)) == strlen(names), "a new text");
    check(is_all(HEADING "1 1 0 0 0 070000000000000000\n2 1 0 0 0 070100000000000000\n"), "its rows");

    refusals();
    printf("text: %d checks hold\n", checks);
    return 0;
}
