/*
 * Every function of include/demnyaluz.h with every choice of its slices of length 0: once with null pointers for them, once with pointers to the end
 * of a block, where valgrind notices every access. Both calls answer the same and leave the same in all that they are lent.
 */
#include "demnyaluz.h"
#include <stdio.h>
#include <stdlib.h>
#include <string.h>

/* All that is lent, and what is answered. */
struct memory {
    uint64_t words[DEMNYALUZ_STORE_WORDS];
    uint16_t strings[DEMNYALUZ_STRING_CELLS];
    uint8_t step[DEMNYALUZ_STEP_BYTES];
    uint8_t sheet[2 + DEMNYALUZ_VALUE_BYTES];
    uint8_t output[DEMNYALUZ_OUTPUT_BYTES];
    uint16_t units[6];
    uint8_t descriptor[DEMNYALUZ_DESCRIPTOR_BYTES];
    uint8_t current[DEMNYALUZ_DESCRIPTOR_BYTES];
    uint8_t message[DEMNYALUZ_LONGEST_MESSAGE];
    uint64_t state[DEMNYALUZ_TEXT_STATE];
    uint8_t line[DEMNYALUZ_TEXT_LINE];
    uint8_t piece[81];
    uint8_t rows[DEMNYALUZ_TEXT_ROW];
    uint64_t report[DEMNYALUZ_REPORT_WORDS];
    uint64_t test;
    uint64_t result[2];
    uint64_t answer;
};

/* What each call begins with, what it is lent, and what the call without null pointers left. */
static struct memory before, lent, after;

/* The slices that have length 0, a bit for each, whether their pointers are null, and where they point if not. */
static unsigned empty;
static bool is_null;
static void *past;
static int checks;

static void check(bool holds, const char *what)
{
    checks++;
    if (!holds) {
        printf("not so: %s, empty slices %#x\n", what, empty);
        exit(1);
    }
}

#define AT(number, slice) (empty & 1u << (number) ? (is_null ? NULL : past) : (slice))
#define LENGTH(number, slice) (empty & 1u << (number) ? 0 : sizeof(slice) / sizeof(slice)[0])
#define LEND(number, part) AT(number, lent.part), LENGTH(number, lent.part)

static size_t sheet_length;

static void step(void)
{
    demnyaluz_step(LEND(0, words), LEND(1, strings), LEND(2, step), AT(3, lent.sheet), LENGTH(3, lent.sheet) ? sheet_length : 0, LEND(4, output), lent.report);
}

static void enter_string(void)
{
    demnyaluz_enter_string(LEND(0, strings), LEND(1, units), lent.report);
}

static uint64_t object;

static void page(void)
{
    demnyaluz_page(LEND(0, words), LEND(1, strings), object, LEND(2, output), lent.report);
}

static void complete(void)
{
    demnyaluz_complete(LEND(0, words), LEND(1, strings), LEND(2, descriptor), lent.report);
}

static bool extensible;

static void validate(void)
{
    lent.answer = demnyaluz_validate(LEND(0, words), LEND(1, strings), extensible, LEND(2, descriptor), LEND(3, current), lent.report, &lent.test);
    const bool rejected = lent.report[DEMNYALUZ_REPORT_OUTCOME] == DEMNYALUZ_OUTCOME_RESULT && !lent.answer;
    check(lent.test == (rejected ? DEMNYALUZ_TEST_EXTENSIBLE : DEMNYALUZ_TEST_NONE), "the test is written");
}

static void merge(void)
{
    demnyaluz_merge(LEND(0, words), LEND(1, strings), LEND(2, current), LEND(3, descriptor), lent.report);
}

static uint64_t number;

static void message(void)
{
    lent.answer = demnyaluz_message(number, LEND(0, message));
}

static void empty_store(void)
{
    lent.answer = demnyaluz_empty_store(LEND(0, words));
}

static void empty_strings(void)
{
    lent.answer = demnyaluz_empty_strings(LEND(0, strings));
}

static void text_start(void)
{
    lent.answer = demnyaluz_text_start(LEND(0, words), LEND(1, strings), LEND(2, state));
}

static void text_feed(void)
{
    lent.answer = demnyaluz_text_feed(LEND(0, words), LEND(1, strings), LEND(2, state), LEND(3, line), LEND(4, piece), LEND(5, rows), lent.result);
}

static void text_end(void)
{
    lent.answer = demnyaluz_text_end(LEND(0, words), LEND(1, strings), LEND(2, state), LEND(3, line), LEND(4, rows), lent.result);
}

/* One call over `before`, with these slices empty; `lent` has what it left. */
static void run(void call(void), unsigned slices, bool null)
{
    empty = slices;
    is_null = null;
    memcpy(&lent, &before, sizeof lent);
    memset(lent.report, 0xee, sizeof lent.report);
    lent.test = UINT64_MAX;
    lent.answer = 0;
    call();
}

/* Each choice of a call's first slices. */
static void compare(void call(void), unsigned slices, const char *what)
{
    for (unsigned choice = 0; choice < 1u << slices; choice++) {
        run(call, choice, false);
        memcpy(&after, &lent, sizeof after);
        run(call, choice, true);
        check(memcmp(&after, &lent, sizeof lent) == 0, what);
    }
}

static bool is_result(void)
{
    return lent.report[DEMNYALUZ_REPORT_OUTCOME] == DEMNYALUZ_OUTCOME_RESULT;
}

static bool is_refused(uint64_t refusal)
{
    return lent.report[DEMNYALUZ_REPORT_OUTCOME] == DEMNYALUZ_OUTCOME_REFUSED && lent.report[DEMNYALUZ_REPORT_NUMBER] == refusal;
}

/* A call with no empty slice, whose memory is kept. */
static void keep(void call(void), const char *what)
{
    run(call, 0, false);
    check(is_result() || lent.answer, what);
    memcpy(&before, &lent, sizeof before);
}

#define SYMBOL {DEMNYALUZ_KIND_SYMBOL, 7}
#define SEALED {.mask = 15, .booleans = DEMNYALUZ_FIELD_ENUMERABLE, .value = {DEMNYALUZ_KIND_INTEGER32, 70000}}
#define GET_TRAP {DEMNYALUZ_KIND_INTEGER32, DEMNYALUZ_TRAP(DEMNYALUZ_CODE_GET)}

static const struct demnyaluz_descriptor sealed = SEALED;

/* Objects 0 and 1, a property of 0, 2, a proxy of 0 with a trap for [[Get]], and 3, a function; then a step of each code, and some on the function. */
static const struct demnyaluz_step_parts made[] = {
    {.code = DEMNYALUZ_CODE_MAKE_OBJECT, .value = {DEMNYALUZ_KIND_NULL, 0}},
    {.code = DEMNYALUZ_CODE_MAKE_OBJECT, .value = {DEMNYALUZ_KIND_NULL, 0}},
    {.code = DEMNYALUZ_CODE_DEFINE_OWN_PROPERTY, .key = SYMBOL, .descriptor = SEALED},
    {.code = DEMNYALUZ_CODE_MAKE_PROXY, .value = GET_TRAP},
    {.code = DEMNYALUZ_CODE_MAKE_FUNCTION, .value = {DEMNYALUZ_KIND_OBJECT, 0}},
};
static const struct demnyaluz_step_parts steps[] = {
    {.code = DEMNYALUZ_CODE_MAKE_OBJECT, .value = {DEMNYALUZ_KIND_OBJECT, 0}},
    {.code = DEMNYALUZ_CODE_MAKE_PROXY, .object = 1, .value = GET_TRAP},
    {.code = DEMNYALUZ_CODE_REVOKE, .object = 2},
    {.code = DEMNYALUZ_CODE_GET_PROTOTYPE_OF, .object = 2},
    {.code = DEMNYALUZ_CODE_SET_PROTOTYPE_OF, .object = 1, .value = {DEMNYALUZ_KIND_OBJECT, 0}},
    {.code = DEMNYALUZ_CODE_IS_EXTENSIBLE, .object = 2},
    {.code = DEMNYALUZ_CODE_PREVENT_EXTENSIONS, .object = 2},
    {.code = DEMNYALUZ_CODE_GET_OWN_PROPERTY, .object = 2, .key = SYMBOL},
    {.code = DEMNYALUZ_CODE_DEFINE_OWN_PROPERTY, .object = 1, .key = SYMBOL, .descriptor = SEALED},
    {.code = DEMNYALUZ_CODE_HAS_PROPERTY, .object = 2, .key = SYMBOL},
    {.code = DEMNYALUZ_CODE_GET, .object = 2, .key = SYMBOL, .receiver = {DEMNYALUZ_KIND_OBJECT, 2}},
    {.code = DEMNYALUZ_CODE_SET, .object = 1, .key = SYMBOL, .value = {DEMNYALUZ_KIND_NULL, 0}, .receiver = {DEMNYALUZ_KIND_OBJECT, 1}},
    {.code = DEMNYALUZ_CODE_DELETE, .object = 2, .key = SYMBOL},
    {.code = DEMNYALUZ_CODE_OWN_PROPERTY_KEYS, .object = 1},
    {.code = DEMNYALUZ_CODE_SET_INTEGRITY_LEVEL, .object = 2, .value = {DEMNYALUZ_KIND_INTEGER32, DEMNYALUZ_LEVEL_FROZEN}},
    {.code = DEMNYALUZ_CODE_TEST_INTEGRITY_LEVEL, .object = 2, .value = {DEMNYALUZ_KIND_INTEGER32, DEMNYALUZ_LEVEL_SEALED}},
    {.code = DEMNYALUZ_CODE_MAKE_FUNCTION, .value = {DEMNYALUZ_KIND_FUNCTION, 3}},
    {.code = DEMNYALUZ_CODE_MAKE_OBJECT, .value = {DEMNYALUZ_KIND_FUNCTION, 3}},
    {.code = DEMNYALUZ_CODE_SET, .object = 3, .key = {DEMNYALUZ_KIND_SYMBOL, 8}, .receiver = {DEMNYALUZ_KIND_FUNCTION, 3}},
    {.code = DEMNYALUZ_CODE_GET, .object = 3, .key = SYMBOL, .receiver = {DEMNYALUZ_KIND_FUNCTION, 3}},
    {.code = DEMNYALUZ_CODE_RELEASE, .object = 1},
    {.code = DEMNYALUZ_CODE_RELEASE, .object = 3},
    {.code = DEMNYALUZ_CODE_OWN_PROPERTY_KEYS, .object = 2}, /* one key: the output has no room */
};
enum { MADE = sizeof made / sizeof made[0], STEPS = sizeof steps / sizeof steps[0], OUTPUT = 1u << 4 };

/* The sheet has its one answer, or none. */
static void answer(bool one)
{
    before.sheet[0] = one;
    sheet_length = one ? sizeof before.sheet : 1;
}

static void prepare(void)
{
    static const char lines[] = "step object key value receiver descriptor sheet\n01 00 - 010000000000000000 - - -\n";
    static const uint16_t visits[] = {'v', 'i', 's', 'i', 't', 's'};
    memset(&before, 0xee, sizeof before);
    before.sheet[1] = DEMNYALUZ_ANSWER_VALUE;
    demnyaluz_write_value(before.sheet + 2, sealed.value);
    answer(false);
    memcpy(before.piece, lines, sizeof before.piece);
    memcpy(before.units, visits, sizeof before.units);
    demnyaluz_write_descriptor(before.descriptor, &sealed);
    demnyaluz_write_descriptor(before.current, &sealed);
    keep(text_start, "empty memory");
    for (size_t i = 0; i < MADE; i++) {
        demnyaluz_write_step(before.step, &made[i]);
        keep(step, "what is made");
    }
}

int main(void)
{
    uint64_t *block = malloc(sizeof *block);
    if (block == NULL)
        return 1;
    past = block + 1;
    prepare();
    for (size_t i = 0; i < STEPS; i++) {
        const bool asks = steps[i].code == DEMNYALUZ_CODE_GET && steps[i].object == 2;
        demnyaluz_write_step(before.step, &steps[i]);
        answer(asks);
        compare(step, 5, "a step");
        run(step, OUTPUT, true);
        check(i + 1 < STEPS ? is_result() : is_refused(DEMNYALUZ_REFUSAL_OUTPUT_TOO_SMALL), "a step without an output");
        answer(!asks);
        compare(step, 5, "a step with another sheet");
        run(step, OUTPUT, true);
        check(is_refused(asks ? DEMNYALUZ_REFUSAL_SHEET_SPENT : DEMNYALUZ_REFUSAL_UNREAD_ANSWERS), "a sheet that does not fit");
        check(memcmp(lent.words, before.words, sizeof lent.words) == 0, "a store that is left");
    }
    compare(enter_string, 2, "a string");
    run(enter_string, 1u << 1, true);
    check(is_result() && lent.report[DEMNYALUZ_REPORT_KIND] == DEMNYALUZ_KIND_STRING, "the empty string");
    static const uint64_t refusals[] = {DEMNYALUZ_REFUSAL_OUTPUT_TOO_SMALL, DEMNYALUZ_REFUSAL_OUTPUT_TOO_SMALL, DEMNYALUZ_REFUSAL_UNUSABLE_PART,
                                        DEMNYALUZ_REFUSAL_OUTPUT_TOO_SMALL, DEMNYALUZ_REFUSAL_OBJECT_NEVER_MADE};
    for (object = 0; object < sizeof refusals / sizeof refusals[0]; object++) {
        compare(page, 3, "a page");
        run(page, 1u << 2, true);
        check(is_refused(refusals[object]), "a page without an output");
    }
    compare(complete, 3, "completing");
    extensible = false;
    compare(validate, 4, "validating, not extensible");
    extensible = true;
    compare(validate, 4, "validating, extensible");
    run(validate, 1u << 3, true);
    check(is_result() && lent.answer && lent.report[DEMNYALUZ_REPORT_FORM] == DEMNYALUZ_FORM_PROPERTY, "validating over absence");
    compare(merge, 4, "merging");
    for (number = 0; number < 34; number++) {
        compare(message, 1, "a message");
        run(message, 1, true);
        check((lent.answer == 0) == (number == 0 || number == 33), "the length of a message");
    }
    compare(empty_store, 1, "an empty store");
    compare(empty_strings, 1, "an empty table");
    compare(text_start, 3, "a start");

    /* a text at its start, after the names, within a line, and ended */
    compare(text_feed, 6, "the first piece");
    compare(text_end, 5, "the end of no text");
    keep(text_feed, "the names");
    check(before.result[0] == 48 && before.result[1] > 0, "the names taken");
    memmove(before.piece, before.piece + 48, sizeof before.piece - 48);
    compare(text_feed, 6, "a piece after the names");
    run(text_feed, 1u << 4, true);
    check(lent.answer && lent.result[0] == 0 && lent.result[1] == 0, "an empty piece");
    before.piece[20] = '\n';
    memset(before.piece + 21, ' ', sizeof before.piece - 21);
    keep(text_feed, "a broken line");
    memset(before.piece, '0', sizeof before.piece);
    keep(text_feed, "a line begun");
    compare(text_feed, 6, "a piece within a line");
    compare(text_end, 5, "the end of a line begun");
    keep(text_end, "the end");
    compare(text_feed, 6, "a piece after the end");
    compare(text_end, 5, "a second end");
    free(block);
    printf("null: %d checks hold\n", checks);
    return 0;
}
