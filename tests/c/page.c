/*
 * Pages through include/demnyaluz.h: whole ones written out here, and the longest; then all that is refused. Each time all ten words of the report,
 * every byte of the output and after it, the store and the strings.
 */
#include "checked.h"
#include <string.h>

#define NAMES "key  ecw value or get       set               \n"

/* The output, with bytes after it that no page has. */
static uint8_t text[DEMNYALUZ_PAGE_BYTES + DEMNYALUZ_PAGE_LINE], text_before[sizeof text];

/* A page over lent memory, of which nothing may change. */
static void run_page_over(const uint64_t *store, size_t store_length, const uint16_t *table, size_t table_length, uint64_t object, size_t text_length)
{
    static uint64_t store_before[DEMNYALUZ_STORE_WORDS + 1];
    static uint16_t table_before[DEMNYALUZ_STRING_CELLS + 1];
    memcpy(store_before, store, store_length * sizeof *store);
    memcpy(table_before, table, table_length * sizeof *table);
    for (size_t i = 0; i < sizeof text; i++)
        text[i] = text_before[i] = (uint8_t)(128 + i % 101);
    memset(report_words, 0xff, sizeof report_words);
    demnyaluz_page(store, store_length, table, table_length, object, text, text_length, report_words);
    check(memcmp(store_before, store, store_length * sizeof *store) == 0, "the store stays");
    check(memcmp(table_before, table, table_length * sizeof *table) == 0, "the strings stay");
}

static void run_page(uint64_t object, size_t text_length)
{
    run_page_over(MEMORY, object, text_length);
}

static bool is_page(const char *expected)
{
    const size_t length = strlen(expected);
    const uint64_t expected_words[DEMNYALUZ_REPORT_WORDS] = {DEMNYALUZ_OUTCOME_RESULT, 0, 0, 0, DEMNYALUZ_FORM_PAGE, length};
    return memcmp(report_words, expected_words, sizeof report_words) == 0 && report().page_bytes == length && report().keys == 0
           && memcmp(text, expected, length) == 0 && memcmp(text + length, text_before + length, sizeof text - length) == 0;
}

static bool is_refused(uint64_t refusal)
{
    const uint64_t expected_words[DEMNYALUZ_REPORT_WORDS] = {DEMNYALUZ_OUTCOME_REFUSED, refusal};
    return memcmp(report_words, expected_words, sizeof report_words) == 0 && report().page_bytes == 0 && memcmp(text, text_before, sizeof text) == 0;
}

/* The page in the shortest output that holds it, in a longer one, and in one that is a byte too short. */
static void check_page(uint64_t object, const char *expected, const char *what)
{
    const size_t length = strlen(expected);
    run_page(object, length);
    check(is_page(expected), what);
    run_page(object, length + 1);
    check(is_page(expected), what);
    run_page(object, sizeof text);
    check(is_page(expected), what);
    run_page(object, length - 1);
    check(is_refused(DEMNYALUZ_REFUSAL_OUTPUT_TOO_SMALL), what);
}

static bool run(struct demnyaluz_step_parts parts)
{
    uint8_t step[DEMNYALUZ_STEP_BYTES];
    const uint8_t no_answers = 0;
    demnyaluz_write_step(step, &parts);
    demnyaluz_step(MEMORY, step, sizeof step, &no_answers, 1, output, sizeof output, report_words);
    return report().outcome == DEMNYALUZ_OUTCOME_RESULT;
}

/* A step whose result is a boolean. */
static bool run_boolean(struct demnyaluz_step_parts parts)
{
    return run(parts) && report().value.kind == DEMNYALUZ_KIND_BOOLEAN && report().value.payload == 1;
}

static void make(uint8_t code, uint8_t target, struct demnyaluz_value value, uint64_t number)
{
    check(run((struct demnyaluz_step_parts){.code = code, .object = target, .value = value}) && report().value.payload == number, "what is made");
}

static void enter(const char *characters, uint64_t number)
{
    uint16_t units[DEMNYALUZ_MAXIMUM_UNITS];
    const size_t length = strlen(characters);
    for (size_t i = 0; i < length; i++)
        units[i] = (uint8_t)characters[i];
    demnyaluz_enter_string(strings, DEMNYALUZ_STRING_CELLS, units, length, report_words);
    check(report().outcome == DEMNYALUZ_OUTCOME_RESULT && report().value.payload == number, "a string's number");
}

static struct demnyaluz_value value(uint8_t kind, uint64_t payload)
{
    return demnyaluz_make_value(kind, payload);
}

static struct demnyaluz_value string(uint64_t number)
{
    return value(DEMNYALUZ_KIND_STRING, number);
}

static struct demnyaluz_value symbol(uint64_t number)
{
    return value(DEMNYALUZ_KIND_SYMBOL, number);
}

static struct demnyaluz_value function(uint64_t number)
{
    return value(DEMNYALUZ_KIND_FUNCTION, number);
}

static const struct demnyaluz_value undefined = {DEMNYALUZ_KIND_UNDEFINED, 0}, null = {DEMNYALUZ_KIND_NULL, 0};

enum { E = DEMNYALUZ_FIELD_ENUMERABLE, C = DEMNYALUZ_FIELD_CONFIGURABLE, W = DEMNYALUZ_FIELD_WRITABLE };

static void define(uint8_t object, struct demnyaluz_value key, struct demnyaluz_descriptor descriptor)
{
    const struct demnyaluz_step_parts parts = {.code = DEMNYALUZ_CODE_DEFINE_OWN_PROPERTY, .object = object, .key = key, .descriptor = descriptor};
    check(run_boolean(parts), "a property is defined");
}

static void define_data(uint8_t object, struct demnyaluz_value key, int booleans, struct demnyaluz_value held)
{
    const struct demnyaluz_descriptor data = {.mask = E | C | W | DEMNYALUZ_FIELD_VALUE, .booleans = (uint8_t)booleans, .value = held};
    define(object, key, data);
}

static void define_accessor(uint8_t object, struct demnyaluz_value key, int booleans, struct demnyaluz_value get, struct demnyaluz_value set)
{
    const struct demnyaluz_descriptor accessor = {
        .mask = E | C | DEMNYALUZ_FIELD_GET | DEMNYALUZ_FIELD_SET,
        .booleans = (uint8_t)booleans,
        .get = get,
        .set = set,
    };
    define(object, key, accessor);
}

/* Eight strings; object 0, functions 1 and 2, a proxy of 0 and object 4, none with a property. */
static void make_all(void)
{
    static const char *const texts[] = {"visits", "10", "name", "2", "4294967295", "01", "4294967294", "last"};
    for (uint64_t number = 0; number < 8; number++)
        enter(texts[number], number);
    make(DEMNYALUZ_CODE_MAKE_OBJECT, 0, null, 0);
    make(DEMNYALUZ_CODE_MAKE_FUNCTION, 0, null, 1);
    make(DEMNYALUZ_CODE_MAKE_FUNCTION, 0, value(DEMNYALUZ_KIND_OBJECT, 0), 2);
    make(DEMNYALUZ_CODE_MAKE_PROXY, 0, demnyaluz_from_integer32(2047), 3);
    make(DEMNYALUZ_CODE_MAKE_OBJECT, 0, value(DEMNYALUZ_KIND_OBJECT, 0), 4);
}

static void pages(void)
{
    check_page(0, NAMES, "an object without properties");
    check_page(1, NAMES, "a function without properties");

    /* in an order that is not that of the page */
    define_data(0, symbol(12), 0, undefined);
    define_data(0, string(0), E, demnyaluz_from_integer32(70000));
    define_data(0, string(1), E | C | W, value(DEMNYALUZ_KIND_BOOLEAN, 1));
    define_accessor(0, string(2), C, function(1), undefined);
    define_accessor(0, symbol(3), E, undefined, function(2));
    define_data(0, string(3), W, demnyaluz_from_float64(-0.0));
    define_data(0, string(7), E | W, string(2));
    define_data(0, string(4), E | C, value(DEMNYALUZ_KIND_OBJECT, 4));
    define_accessor(0, string(5), E | C, function(2), function(1));
    define_data(0, string(6), C, null);
    define_data(0, symbol(255), C | W, demnyaluz_from_integer32(-2));
    check_page(0,
               NAMES
               "s003 ..w 040000000000000080                   \n" /* 2, 10 and 4294967294 are array indices */
               "s001 ecw 020100000000000000                   \n"
               "s006 .c. 010000000000000000                   \n"
               "s000 e.. 037011010000000000                   \n" /* 01 and 4294967295 are none */
               "s002 .c- 080100000000000000 000000000000000000\n"
               "s007 e.w 050200000000000000                   \n"
               "s004 ec. 070400000000000000                   \n"
               "s005 ec- 080200000000000000 080100000000000000\n"
               "y012 ... 000000000000000000                   \n"
               "y003 e.- 000000000000000000 080200000000000000\n"
               "y255 .cw 03feffffff00000000                   \n",
               "a page of all kinds of properties");

    define_data(1, string(7), E, function(1));
    define_data(1, symbol(0), 0, symbol(3));
    check_page(1,
               NAMES
               "s007 e.. 080100000000000000                   \n"
               "y000 ... 060300000000000000                   \n",
               "a function's page");
    check_page(2, NAMES, "what is inherited is not on a page");
    check_page(4, NAMES, "neither for an object");

    /* a property that was deleted comes back as the last of its kind */
    check(run_boolean((struct demnyaluz_step_parts){.code = DEMNYALUZ_CODE_DELETE, .object = 0, .key = string(2)}), "deleted");
    define_data(0, string(2), E, demnyaluz_from_integer32(4464));
    const struct demnyaluz_value level = demnyaluz_from_integer32(DEMNYALUZ_LEVEL_FROZEN);
    check(run_boolean((struct demnyaluz_step_parts){.code = DEMNYALUZ_CODE_SET_INTEGRITY_LEVEL, .value = level}), "frozen");
    static const char frozen[] = NAMES
        "s003 ... 040000000000000080                   \n"
        "s001 e.. 020100000000000000                   \n"
        "s006 ... 010000000000000000                   \n"
        "s000 e.. 037011010000000000                   \n"
        "s007 e.. 050200000000000000                   \n"
        "s004 e.. 070400000000000000                   \n"
        "s005 e.- 080200000000000000 080100000000000000\n"
        "s002 e.. 037011000000000000                   \n"
        "y012 ... 000000000000000000                   \n"
        "y003 e.- 000000000000000000 080200000000000000\n"
        "y255 ... 03feffffff00000000                   \n";
    check_page(0, frozen, "a frozen object");
    const struct demnyaluz_value receiver = value(DEMNYALUZ_KIND_OBJECT, 0);
    check(!run_boolean((struct demnyaluz_step_parts){.code = DEMNYALUZ_CODE_SET, .key = string(0), .value = null, .receiver = receiver}), "not set");
    check_page(0, frozen, "the same values on a later page");
}

/* Numbers that are refused, whatever the output is. */
static void refuse(uint64_t object, uint64_t refusal, const char *what)
{
    static const size_t lengths[] = {0, 46, 47, 12 * DEMNYALUZ_PAGE_LINE, sizeof text};
    for (size_t i = 0; i < sizeof lengths / sizeof lengths[0]; i++) {
        run_page(object, lengths[i]);
        check(is_refused(refusal), what);
    }
}

/* A store or table of another length, or that counts or marks more than it can hold: refused, whatever the object is. */
static void refuse_memory(void)
{
    static uint64_t store[DEMNYALUZ_STORE_WORDS + 1];
    static uint16_t table[DEMNYALUZ_STRING_CELLS + 1];
    static const size_t store_lengths[] = {0, 1, 2, DEMNYALUZ_STORE_WORDS - 1, DEMNYALUZ_STORE_WORDS + 1};
    static const size_t table_lengths[] = {0, 1, DEMNYALUZ_STRING_CELLS - 1, DEMNYALUZ_STRING_CELLS + 1};
    /* numbers in use, properties, the marks of live objects, released numbers */
    static const size_t counts[] = {0, 1, 3, 4};
    static const uint64_t too_many[] = {DEMNYALUZ_MAXIMUM_OBJECTS + 1, DEMNYALUZ_MAXIMUM_PROPERTIES + 1, (uint64_t)1 << DEMNYALUZ_MAXIMUM_OBJECTS,
                                        DEMNYALUZ_MAXIMUM_OBJECTS + 1};
    memcpy(store, words, sizeof words);
    memcpy(table, strings, sizeof strings);
    for (uint64_t object = 0; object < 6; object++) {
        for (size_t i = 0; i < 5; i++) {
            run_page_over(store, store_lengths[i], strings, DEMNYALUZ_STRING_CELLS, object, sizeof text);
            check(is_refused(DEMNYALUZ_REFUSAL_MALFORMED_RECORD), "a store of another length");
        }
        for (size_t i = 0; i < 4; i++) {
            run_page_over(words, DEMNYALUZ_STORE_WORDS, table, table_lengths[i], object, sizeof text);
            check(is_refused(DEMNYALUZ_REFUSAL_MALFORMED_RECORD), "a table of another length");
        }
        for (size_t i = 0; i < 4; i++) {
            store[counts[i]] = too_many[i];
            run_page_over(store, DEMNYALUZ_STORE_WORDS, strings, DEMNYALUZ_STRING_CELLS, object, sizeof text);
            check(is_refused(DEMNYALUZ_REFUSAL_MALFORMED_RECORD), "a count of too many");
            store[counts[i]] = UINT64_MAX;
            run_page_over(store, DEMNYALUZ_STORE_WORDS, strings, DEMNYALUZ_STRING_CELLS, object, 0);
            check(is_refused(DEMNYALUZ_REFUSAL_MALFORMED_RECORD), "the largest count, and no output");
            store[counts[i]] = words[counts[i]];
        }
        table[0] = DEMNYALUZ_MAXIMUM_STRINGS + 1;
        run_page_over(words, DEMNYALUZ_STORE_WORDS, table, DEMNYALUZ_STRING_CELLS, object, sizeof text);
        check(is_refused(DEMNYALUZ_REFUSAL_MALFORMED_RECORD), "a count of too many strings");
        table[0] = strings[0];
    }
}

static void refuse_all(void)
{
    /* some of them are 0 in their low bits, which is an object */
    static const uint64_t never_made[] = {5, 31, 32, 33, 64, 255, 256, 65536, (uint64_t)1 << 32, (uint64_t)1 << 63, UINT64_MAX};
    for (size_t i = 0; i < sizeof never_made / sizeof never_made[0]; i++)
        refuse(never_made[i], DEMNYALUZ_REFUSAL_OBJECT_NEVER_MADE, "a number that was never made");
    refuse(3, DEMNYALUZ_REFUSAL_UNUSABLE_PART, "a proxy");
    check(run_boolean((struct demnyaluz_step_parts){.code = DEMNYALUZ_CODE_REVOKE, .object = 3}), "revoked");
    refuse(3, DEMNYALUZ_REFUSAL_UNUSABLE_PART, "a revoked proxy");
    make(DEMNYALUZ_CODE_MAKE_OBJECT, 0, null, 5);
    run_page(5, sizeof text);
    check(is_page(NAMES), "an object more");
    check(run_boolean((struct demnyaluz_step_parts){.code = DEMNYALUZ_CODE_RELEASE, .object = 5}), "released");
    refuse(5, DEMNYALUZ_REFUSAL_OBJECT_NEVER_MADE, "a number that was released");
    for (size_t length = 0; length < 12 * DEMNYALUZ_PAGE_LINE; length++) {
        run_page(0, length);
        check(is_refused(DEMNYALUZ_REFUSAL_OUTPUT_TOO_SMALL), "each output that is too short");
    }
    refuse_memory();
}

/* Function 31 with all the properties that a store holds: array indices that were entered and defined from the last to the first, and symbols. */
static void longest(void)
{
    enum { INDICES = 128 };
    static char expected[DEMNYALUZ_PAGE_BYTES + 1];
    check(demnyaluz_empty_store(words, DEMNYALUZ_STORE_WORDS) && demnyaluz_empty_strings(strings, DEMNYALUZ_STRING_CELLS), "empty memory");
    refuse(0, DEMNYALUZ_REFUSAL_OBJECT_NEVER_MADE, "the page of no object");
    for (uint64_t number = 0; number < DEMNYALUZ_MAXIMUM_OBJECTS; number++)
        make(DEMNYALUZ_CODE_MAKE_FUNCTION, 0, null, number);
    for (unsigned i = INDICES; i < DEMNYALUZ_MAXIMUM_PROPERTIES; i++)
        define_data(31, symbol(i), E | C | W, demnyaluz_from_integer32((int32_t)i));
    for (unsigned i = 0; i < INDICES; i++) {
        char index[4];
        snprintf(index, sizeof index, "%u", INDICES - 1 - i);
        enter(index, i);
        define_data(31, string(i), E, demnyaluz_from_integer32((int32_t)i));
    }
    char *line = expected + sprintf(expected, "%s", NAMES);
    for (unsigned i = 0; i < INDICES; i++)
        line += sprintf(line, "s%03u e.. 03%02x00000000000000                   \n", INDICES - 1 - i, INDICES - 1 - i);
    for (unsigned i = INDICES; i < DEMNYALUZ_MAXIMUM_PROPERTIES; i++)
        line += sprintf(line, "y%03u ecw 03%02x00000000000000                   \n", i, i);
    check(line == expected + DEMNYALUZ_PAGE_BYTES, "257 lines");
    check_page(31, expected, "the longest page");
    check_page(30, NAMES, "and the shortest");
}

int main(void)
{
    check(sizeof NAMES - 1 == DEMNYALUZ_PAGE_LINE, "the names of the columns");
    make_all();
    pages();
    refuse_all();
    longest();
    printf("page: %d checks hold\n", checks);
    return 0;
}
