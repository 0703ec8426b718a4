/* The inline functions of include/demnyaluz.h, against bytes and bits written out here and against the library. It is C and C++ at once. */
#include "demnyaluz.h"
#include <stdio.h>
#include <stdlib.h>
#include <string.h>

static uint64_t words[DEMNYALUZ_STORE_WORDS];
static uint16_t strings[DEMNYALUZ_STRING_CELLS];
static uint8_t output[DEMNYALUZ_OUTPUT_BYTES];
static uint64_t report_words[DEMNYALUZ_REPORT_WORDS];
static int checks;

#define MEMORY words, DEMNYALUZ_STORE_WORDS, strings, DEMNYALUZ_STRING_CELLS

static void check(bool holds, const char *what)
{
    checks++;
    if (!holds) {
        printf("not so: %s\n", what);
        exit(1);
    }
}

static struct demnyaluz_step_parts no_parts(uint8_t code)
{
    struct demnyaluz_step_parts parts;
    memset(&parts, 0, sizeof parts);
    parts.code = code;
    return parts;
}

static struct demnyaluz_report run(struct demnyaluz_step_parts parts, const uint8_t *sheet, size_t sheet_length)
{
    uint8_t step[DEMNYALUZ_STEP_BYTES];
    demnyaluz_write_step(step, &parts);
    demnyaluz_step(MEMORY, step, sizeof step, sheet, sheet_length, output, sizeof output, report_words);
    return demnyaluz_read_report(report_words);
}

static struct demnyaluz_report run_alone(struct demnyaluz_step_parts parts)
{
    const uint8_t no_answers[1] = {0};
    return run(parts, no_answers, sizeof no_answers);
}

static bool is_same(struct demnyaluz_value a, struct demnyaluz_value b)
{
    return a.kind == b.kind && a.payload == b.payload;
}

static bool is_none(struct demnyaluz_value value)
{
    return value.kind == DEMNYALUZ_KIND_UNDEFINED && value.payload == 0;
}

static bool is_no_property(struct demnyaluz_property p)
{
    return !p.accessor && !p.writable && !p.enumerable && !p.configurable && is_none(p.value) && is_none(p.get) && is_none(p.set);
}

/* How many keys and how many bytes of a page there are. */
static bool is_counted(struct demnyaluz_report report, uint64_t keys, uint64_t page_bytes)
{
    return report.keys == keys && report.page_bytes == page_bytes;
}

/* Each byte of a step, all of them different. */
static void layouts(void)
{
    static const uint8_t expected[DEMNYALUZ_STEP_BYTES] = {
        9, 200,                                            /* code, object */
        5, 0x11, 0x12, 0x13, 0x14, 0x15, 0x16, 0x17, 0x18, /* key */
        6, 0x21, 0x22, 0x23, 0x24, 0x25, 0x26, 0x27, 0x28, /* value */
        7, 0x31, 0x32, 0x33, 0x34, 0x35, 0x36, 0x37, 0x38, /* receiver */
        63, 4,                                             /* mask, booleans */
        4, 0x41, 0x42, 0x43, 0x44, 0x45, 0x46, 0x47, 0x48, /* value */
        8, 0x51, 0x52, 0x53, 0x54, 0x55, 0x56, 0x57, 0x58, /* get */
        3, 0x61, 0x62, 0x63, 0x64, 0x65, 0x66, 0x67, 0x68, /* set */
    };
    struct demnyaluz_step_parts parts = no_parts(DEMNYALUZ_CODE_DEFINE_OWN_PROPERTY);
    uint8_t bytes[DEMNYALUZ_STEP_BYTES + 1];
    parts.object = 200;
    parts.key = demnyaluz_make_value(5, 0x1817161514131211u);
    parts.value = demnyaluz_make_value(6, 0x2827262524232221u);
    parts.receiver = demnyaluz_make_value(7, 0x3837363534333231u);
    parts.descriptor.mask = 63;
    parts.descriptor.booleans = 4;
    parts.descriptor.value = demnyaluz_make_value(4, 0x4847464544434241u);
    parts.descriptor.get = demnyaluz_make_value(8, 0x5857565554535251u);
    parts.descriptor.set = demnyaluz_make_value(3, 0x6867666564636261u);
    memset(bytes, 0xee, sizeof bytes);
    demnyaluz_write_step(bytes, &parts);
    check(memcmp(bytes, expected, sizeof expected) == 0 && bytes[DEMNYALUZ_STEP_BYTES] == 0xee, "the bytes of a step");
    memset(bytes, 0xee, sizeof bytes);
    demnyaluz_write_descriptor(bytes, &parts.descriptor);
    check(memcmp(bytes, expected + 29, DEMNYALUZ_DESCRIPTOR_BYTES) == 0 && bytes[DEMNYALUZ_DESCRIPTOR_BYTES] == 0xee, "the bytes of a descriptor");
    memset(bytes, 0xee, sizeof bytes);
    demnyaluz_write_value(bytes, parts.key);
    check(memcmp(bytes, expected + 2, DEMNYALUZ_VALUE_BYTES) == 0 && bytes[DEMNYALUZ_VALUE_BYTES] == 0xee, "the bytes of a value");
    check(is_same(demnyaluz_read_value(expected + DEMNYALUZ_STEP_KEY), parts.key), "the key at its offset");
    check(is_same(demnyaluz_read_value(expected + DEMNYALUZ_STEP_VALUE), parts.value), "the value at its offset");
    check(is_same(demnyaluz_read_value(expected + DEMNYALUZ_STEP_RECEIVER), parts.receiver), "the receiver at its offset");
    const uint8_t *descriptor = expected + DEMNYALUZ_STEP_DESCRIPTOR;
    check(descriptor[DEMNYALUZ_DESCRIPTOR_MASK] == 63 && descriptor[DEMNYALUZ_DESCRIPTOR_BOOLEANS] == 4, "mask and booleans at their offsets");
    check(is_same(demnyaluz_read_value(descriptor + DEMNYALUZ_DESCRIPTOR_VALUE), parts.descriptor.value), "a descriptor's value at its offset");
    check(is_same(demnyaluz_read_value(descriptor + DEMNYALUZ_DESCRIPTOR_GET), parts.descriptor.get), "its get at its offset");
    check(is_same(demnyaluz_read_value(descriptor + DEMNYALUZ_DESCRIPTOR_SET), parts.descriptor.set), "its set at its offset");
}

static void numbers(void)
{
    static const int32_t integers[] = {0, 1, -1, 4464, 70000, INT32_MAX, INT32_MIN};
    static const uint64_t payloads[] = {0, 1, 0xffffffffu, 4464, 70000, 0x7fffffffu, 0x80000000u};
    for (size_t i = 0; i < sizeof integers / sizeof integers[0]; i++) {
        const struct demnyaluz_value value = demnyaluz_from_integer32(integers[i]);
        check(is_same(value, demnyaluz_make_value(DEMNYALUZ_KIND_INTEGER32, payloads[i])), "an Integer32");
        check(demnyaluz_to_number(value) == (double)integers[i], "the Number of an Integer32");
    }
    check(is_same(demnyaluz_from_float64(-0.0), demnyaluz_make_value(DEMNYALUZ_KIND_FLOAT64, 0x8000000000000000u)), "a Float64, -0");
    check(is_same(demnyaluz_from_float64(70000.5), demnyaluz_make_value(DEMNYALUZ_KIND_FLOAT64, 0x40f1170800000000u)), "a Float64");
    check(demnyaluz_to_number(demnyaluz_from_float64(70000.5)) == 70000.5, "the Number of a Float64");
}

/* A property, defined on object 0 under a symbol of its own, is read back as it was defined, and its flags become the fields that it had. */
static void property(uint64_t symbol, bool accessor, bool writable, bool enumerable, bool configurable)
{
    struct demnyaluz_step_parts parts = no_parts(DEMNYALUZ_CODE_DEFINE_OWN_PROPERTY);
    uint8_t before[DEMNYALUZ_DESCRIPTOR_BYTES], after[DEMNYALUZ_DESCRIPTOR_BYTES];
    uint64_t kept[DEMNYALUZ_REPORT_WORDS];
    parts.key = demnyaluz_make_value(DEMNYALUZ_KIND_SYMBOL, symbol);
    parts.descriptor.mask = accessor ? 1 + 2 + 16 + 32 : 1 + 2 + 4 + 8;
    parts.descriptor.booleans = (uint8_t)((enumerable ? 1 : 0) + (configurable ? 2 : 0) + (writable ? 4 : 0));
    if (accessor) {
        parts.descriptor.get = demnyaluz_make_value(DEMNYALUZ_KIND_FUNCTION, 1);
        parts.descriptor.set = demnyaluz_make_value(DEMNYALUZ_KIND_FUNCTION, 2);
    } else {
        parts.descriptor.value = demnyaluz_from_integer32(-70000);
    }
    demnyaluz_write_descriptor(before, &parts.descriptor);
    struct demnyaluz_report report = run_alone(parts);
    check(report.outcome == DEMNYALUZ_OUTCOME_RESULT && report.value.kind == DEMNYALUZ_KIND_BOOLEAN && report.value.payload == 1, "a property defined");

    parts = no_parts(DEMNYALUZ_CODE_GET_OWN_PROPERTY);
    parts.key = demnyaluz_make_value(DEMNYALUZ_KIND_SYMBOL, symbol);
    report = run_alone(parts);
    const struct demnyaluz_property p = report.property;
    check(report.outcome == DEMNYALUZ_OUTCOME_RESULT && report.form == DEMNYALUZ_FORM_PROPERTY && report.calls == 1, "a property read");
    check(p.accessor == accessor && p.writable == writable && p.enumerable == enumerable && p.configurable == configurable, "its booleans");
    check(report_words[DEMNYALUZ_REPORT_DETAIL] == (accessor ? 1u : 0u) + (writable ? 2u : 0u) + (enumerable ? 4u : 0u) + (configurable ? 8u : 0u), "its flags");
    check(is_none(report.value) && is_counted(report, 0, 0), "nothing beside it");
    if (accessor)
        check(is_none(p.value) && p.get.kind == DEMNYALUZ_KIND_FUNCTION && p.get.payload == 1 && p.set.kind == DEMNYALUZ_KIND_FUNCTION && p.set.payload == 2,
              "its functions");
    else
        check(demnyaluz_to_number(p.value) == -70000 && is_none(p.get) && is_none(p.set), "its value");

    const struct demnyaluz_descriptor descriptor = demnyaluz_property_descriptor(p);
    demnyaluz_write_descriptor(after, &descriptor);
    check(memcmp(before, after, sizeof before) == 0, "its descriptor");
    memcpy(kept, report_words, sizeof kept);
    kept[DEMNYALUZ_REPORT_CALLS] = 0;
    demnyaluz_complete(MEMORY, after, sizeof after, report_words);
    check(memcmp(kept, report_words, sizeof kept) == 0, "its descriptor completed");
}

/* A report of each form, and that the others of its parts are zero. */
static void forms(void)
{
    struct demnyaluz_step_parts parts = no_parts(DEMNYALUZ_CODE_OWN_PROPERTY_KEYS);
    struct demnyaluz_report report = run_alone(parts);
    check(report.form == DEMNYALUZ_FORM_KEYS && is_counted(report, 12, 0) && is_none(report.value) && is_no_property(report.property), "keys");
    for (uint64_t i = 0; i < report.keys; i++)
        check(is_same(demnyaluz_read_value(output + DEMNYALUZ_VALUE_BYTES * i), demnyaluz_make_value(DEMNYALUZ_KIND_SYMBOL, i)), "a key");

    demnyaluz_page(MEMORY, 0, output, sizeof output, report_words);
    report = demnyaluz_read_report(report_words);
    check(report.outcome == DEMNYALUZ_OUTCOME_RESULT && report.number == 0 && report.answers == 0 && report.calls == 0, "a page");
    check(report.form == DEMNYALUZ_FORM_PAGE && is_counted(report, 0, 13 * 47) && is_none(report.value) && is_no_property(report.property), "its lines");

    parts = no_parts(DEMNYALUZ_CODE_GET_OWN_PROPERTY);
    parts.key = demnyaluz_make_value(DEMNYALUZ_KIND_SYMBOL, 99);
    report = run_alone(parts);
    check(report.form == DEMNYALUZ_FORM_ABSENT && is_counted(report, 0, 0) && is_none(report.value) && is_no_property(report.property), "absence");

    parts = no_parts(DEMNYALUZ_CODE_MAKE_PROXY);
    parts.value = demnyaluz_from_integer32(DEMNYALUZ_TRAP(DEMNYALUZ_CODE_GET));
    report = run_alone(parts);
    check(report.form == DEMNYALUZ_FORM_VALUE && report.value.kind == DEMNYALUZ_KIND_OBJECT && report.value.payload == 3, "a proxy");
    uint8_t sheet[2 + DEMNYALUZ_VALUE_BYTES] = {1, DEMNYALUZ_ANSWER_THROW};
    demnyaluz_write_value(sheet + 2, demnyaluz_from_integer32(-1));
    parts = no_parts(DEMNYALUZ_CODE_GET);
    parts.object = 3;
    parts.key = demnyaluz_make_value(DEMNYALUZ_KIND_SYMBOL, 0);
    report = run(parts, sheet, sizeof sheet);
    check(report.outcome == DEMNYALUZ_OUTCOME_THROWN && report.form == DEMNYALUZ_FORM_VALUE && report.answers == 1 && report.number == 0, "a throw");
    check(demnyaluz_to_number(report.value) == -1 && is_counted(report, 0, 0) && is_no_property(report.property), "what was thrown");
    sheet[1] = DEMNYALUZ_ANSWER_VALUE;
    report = run(parts, sheet, sizeof sheet);
    check(report.outcome == DEMNYALUZ_OUTCOME_TYPE_ERROR && report.number == DEMNYALUZ_MESSAGE_GOT_UNEXPECTED_DATA && report.answers == 1
              && report.calls == 2,
          "a TypeError");
    check(report.form == DEMNYALUZ_FORM_NOTHING && is_counted(report, 0, 0) && is_none(report.value) && is_no_property(report.property), "nothing else");
    report = run(parts, sheet, 0);
    check(report.outcome == DEMNYALUZ_OUTCOME_REFUSED && report.number == DEMNYALUZ_REFUSAL_MALFORMED_RECORD && report.answers == 0 && report.calls == 0,
          "a refusal");
}

/* Object 0, with the twelve properties, is sealed and then frozen: what its properties keep, and what the tests of a level answer. */
static void levels(void)
{
    static const int32_t numbers[] = {DEMNYALUZ_LEVEL_SEALED, DEMNYALUZ_LEVEL_FROZEN};
    for (size_t i = 0; i < 2; i++) {
        struct demnyaluz_step_parts parts = no_parts(DEMNYALUZ_CODE_TEST_INTEGRITY_LEVEL);
        parts.value = demnyaluz_from_integer32(numbers[i]);
        struct demnyaluz_report report = run_alone(parts);
        check(report.form == DEMNYALUZ_FORM_VALUE && is_same(report.value, demnyaluz_make_value(DEMNYALUZ_KIND_BOOLEAN, 0)), "a level not reached");
        parts.code = DEMNYALUZ_CODE_SET_INTEGRITY_LEVEL;
        report = run_alone(parts);
        check(report.outcome == DEMNYALUZ_OUTCOME_RESULT && report.answers == 0 && report.calls == 2 + 12 * (3 + (uint64_t)i), "a level set");
        check(report.form == DEMNYALUZ_FORM_VALUE && is_same(report.value, demnyaluz_make_value(DEMNYALUZ_KIND_BOOLEAN, 1)), "its answer");
        parts.code = DEMNYALUZ_CODE_TEST_INTEGRITY_LEVEL;
        report = run_alone(parts);
        check(is_same(report.value, demnyaluz_make_value(DEMNYALUZ_KIND_BOOLEAN, 1)) && report.calls == 14, "a level reached");
        for (uint64_t symbol = 0; symbol < 12; symbol++) {
            parts = no_parts(DEMNYALUZ_CODE_GET_OWN_PROPERTY);
            parts.key = demnyaluz_make_value(DEMNYALUZ_KIND_SYMBOL, symbol);
            const struct demnyaluz_property p = run_alone(parts).property;
            const bool accessor = symbol >= 8, writable = !accessor && (symbol & 4) && numbers[i] == DEMNYALUZ_LEVEL_SEALED;
            check(!p.configurable && p.accessor == accessor && p.writable == writable && p.enumerable == ((symbol & 2) != 0), "a property of its level");
        }
    }
}

int main(void)
{
    layouts();
    numbers();
    check(demnyaluz_empty_store(words, DEMNYALUZ_STORE_WORDS) && demnyaluz_empty_strings(strings, DEMNYALUZ_STRING_CELLS), "empty memory");
    struct demnyaluz_step_parts making = no_parts(DEMNYALUZ_CODE_MAKE_OBJECT);
    making.value = demnyaluz_make_value(DEMNYALUZ_KIND_NULL, 0);
    check(run_alone(making).outcome == DEMNYALUZ_OUTCOME_RESULT, "an object");
    making.code = DEMNYALUZ_CODE_MAKE_FUNCTION;
    for (uint64_t number = 1; number <= 2; number++) {
        const struct demnyaluz_report report = run_alone(making);
        check(report.outcome == DEMNYALUZ_OUTCOME_RESULT && report.form == DEMNYALUZ_FORM_VALUE && report.answers == 0 && report.calls == 0, "a function made");
        check(is_same(report.value, demnyaluz_make_value(DEMNYALUZ_KIND_FUNCTION, number)) && is_counted(report, 0, 0) && is_no_property(report.property),
              "its number among the objects");
    }
    uint64_t symbol = 0;
    for (int booleans = 0; booleans < 8; booleans++)
        property(symbol++, false, booleans & 4, booleans & 2, booleans & 1);
    for (int booleans = 0; booleans < 4; booleans++)
        property(symbol++, true, false, booleans & 2, booleans & 1);
    forms();
    levels();
    printf("records: %d checks hold\n", checks);
    return 0;
}
