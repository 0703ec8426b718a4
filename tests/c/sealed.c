/*
 * The sealed 70,000 through include/demnyaluz.h: a property that stays, a handler that answers 4,464 for it, and the other entries over it; then each
 * test of validation.
 */
#include "checked.h"
#include <string.h>

static void run(struct demnyaluz_step_parts parts, const uint8_t *sheet, size_t sheet_length)
{
    uint8_t step[DEMNYALUZ_STEP_BYTES];
    demnyaluz_write_step(step, &parts);
    demnyaluz_step(MEMORY, step, sizeof step, sheet, sheet_length, output, sizeof output, report_words);
}

static const uint8_t no_answers[1] = {0};

static void run_alone(struct demnyaluz_step_parts parts)
{
    run(parts, no_answers, sizeof no_answers);
}

static bool is_report(uint64_t outcome, uint64_t number, uint64_t answers, uint64_t calls)
{
    const struct demnyaluz_report r = report();
    return r.outcome == outcome && r.number == number && r.answers == answers && r.calls == calls;
}

static bool is_same(struct demnyaluz_value a, struct demnyaluz_value b)
{
    return a.kind == b.kind && a.payload == b.payload;
}

static bool is_value(uint8_t kind, uint64_t payload)
{
    return report().form == DEMNYALUZ_FORM_VALUE && is_same(report().value, demnyaluz_make_value(kind, payload));
}

/* Data that is not writable and not configurable, of an integer. */
static bool is_fixed(bool enumerable, int32_t integer)
{
    const struct demnyaluz_report r = report();
    return r.form == DEMNYALUZ_FORM_PROPERTY && !r.property.accessor && !r.property.writable && r.property.enumerable == enumerable
        && !r.property.configurable && is_same(r.property.value, demnyaluz_from_integer32(integer));
}

static uint64_t test;

/* What validation answers, over no property where current is null. The test is written whatever it was. */
static bool validate(bool extensible, const struct demnyaluz_descriptor *descriptor, const struct demnyaluz_descriptor *current)
{
    uint8_t bytes[DEMNYALUZ_DESCRIPTOR_BYTES], current_bytes[DEMNYALUZ_DESCRIPTOR_BYTES] = {0};
    demnyaluz_write_descriptor(bytes, descriptor);
    if (current != NULL)
        demnyaluz_write_descriptor(current_bytes, current);
    test = UINT64_MAX;
    return demnyaluz_validate(MEMORY, extensible, bytes, sizeof bytes, current != NULL ? current_bytes : NULL,
                              current != NULL ? sizeof current_bytes : 0, report_words, &test);
}

/* A refusal of a validation: it has no test. */
static bool is_refused(uint64_t refusal)
{
    return is_report(DEMNYALUZ_OUTCOME_REFUSED, refusal, 0, 0) && test == DEMNYALUZ_TEST_NONE;
}

static struct demnyaluz_value level(int32_t number)
{
    return demnyaluz_from_integer32(number);
}

/* Object 2 has the name and a symbol, both writable and configurable; 3 and 4 are proxies of it, 3 with a trap that answers for properties, 4 with one
   for definitions. */
static void freeze(struct demnyaluz_value name)
{
    const struct demnyaluz_value symbol = demnyaluz_make_value(DEMNYALUZ_KIND_SYMBOL, 5);
    const struct demnyaluz_descriptor open = {
        .mask = DEMNYALUZ_FIELD_ENUMERABLE | DEMNYALUZ_FIELD_CONFIGURABLE | DEMNYALUZ_FIELD_WRITABLE | DEMNYALUZ_FIELD_VALUE,
        .booleans = DEMNYALUZ_FIELD_ENUMERABLE | DEMNYALUZ_FIELD_CONFIGURABLE | DEMNYALUZ_FIELD_WRITABLE,
        .value = demnyaluz_from_integer32(70000),
    };
    const int32_t properties = DEMNYALUZ_TRAP(DEMNYALUZ_CODE_GET_OWN_PROPERTY), definitions = DEMNYALUZ_TRAP(DEMNYALUZ_CODE_DEFINE_OWN_PROPERTY);
    run_alone((struct demnyaluz_step_parts){.code = DEMNYALUZ_CODE_MAKE_OBJECT, .value = demnyaluz_make_value(DEMNYALUZ_KIND_NULL, 0)});
    check(is_value(DEMNYALUZ_KIND_OBJECT, 2), "object 2");
    run_alone((struct demnyaluz_step_parts){.code = DEMNYALUZ_CODE_DEFINE_OWN_PROPERTY, .object = 2, .key = name, .descriptor = open});
    run_alone((struct demnyaluz_step_parts){.code = DEMNYALUZ_CODE_DEFINE_OWN_PROPERTY, .object = 2, .key = symbol, .descriptor = open});
    run_alone((struct demnyaluz_step_parts){.code = DEMNYALUZ_CODE_MAKE_PROXY, .object = 2, .value = demnyaluz_from_integer32(properties)});
    run_alone((struct demnyaluz_step_parts){.code = DEMNYALUZ_CODE_MAKE_PROXY, .object = 2, .value = demnyaluz_from_integer32(definitions)});
    check(is_value(DEMNYALUZ_KIND_OBJECT, 4), "object 4");
    const struct demnyaluz_step_parts is_frozen = {
        .code = DEMNYALUZ_CODE_TEST_INTEGRITY_LEVEL, .object = 2, .value = level(DEMNYALUZ_LEVEL_FROZEN)};
    const struct demnyaluz_step_parts is_sealed = {
        .code = DEMNYALUZ_CODE_TEST_INTEGRITY_LEVEL, .object = 2, .value = level(DEMNYALUZ_LEVEL_SEALED)};
    run_alone(is_frozen);
    check(is_report(DEMNYALUZ_OUTCOME_RESULT, 0, 0, 1) && is_value(DEMNYALUZ_KIND_BOOLEAN, 0), "an extensible object is not frozen");

    /* the handler tells the first property and throws at the second: the first stays frozen; with no second answer nothing changes */
    struct demnyaluz_step_parts freeze = {.code = DEMNYALUZ_CODE_SET_INTEGRITY_LEVEL, .object = 3, .value = level(DEMNYALUZ_LEVEL_FROZEN)};
    uint8_t told[2 + DEMNYALUZ_DESCRIPTOR_BYTES + 1 + DEMNYALUZ_VALUE_BYTES] = {1, DEMNYALUZ_ANSWER_DESCRIPTOR};
    demnyaluz_write_descriptor(told + 2, &open);
    static uint64_t before[DEMNYALUZ_STORE_WORDS];
    memcpy(before, words, sizeof before);
    run(freeze, told, 2 + DEMNYALUZ_DESCRIPTOR_BYTES);
    check(is_report(DEMNYALUZ_OUTCOME_REFUSED, DEMNYALUZ_REFUSAL_SHEET_SPENT, 0, 0), "a freezing without a second answer");
    check(memcmp(before, words, sizeof before) == 0, "a refusal in its midst changes nothing");
    told[0] = 2;
    told[2 + DEMNYALUZ_DESCRIPTOR_BYTES] = DEMNYALUZ_ANSWER_THROW;
    demnyaluz_write_value(told + 3 + DEMNYALUZ_DESCRIPTOR_BYTES, demnyaluz_from_integer32(4464));
    run(freeze, told, sizeof told);
    check(is_report(DEMNYALUZ_OUTCOME_THROWN, 0, 2, 12) && is_value(DEMNYALUZ_KIND_INTEGER32, 4464), "a freezing whose second answer throws");
    run_alone((struct demnyaluz_step_parts){.code = DEMNYALUZ_CODE_GET_OWN_PROPERTY, .object = 2, .key = name});
    check(is_fixed(true, 70000), "the first property stays frozen");
    run_alone((struct demnyaluz_step_parts){.code = DEMNYALUZ_CODE_GET_OWN_PROPERTY, .object = 2, .key = symbol});
    check(report().property.writable && report().property.configurable, "the second is as it was");
    run_alone((struct demnyaluz_step_parts){.code = DEMNYALUZ_CODE_IS_EXTENSIBLE, .object = 2});
    check(is_value(DEMNYALUZ_KIND_BOOLEAN, 0), "the object stays non-extensible");

    /* the other handler accepts what is frozen already and rejects the symbol */
    uint8_t rejecting[1 + 2 * (1 + DEMNYALUZ_VALUE_BYTES)] = {2, DEMNYALUZ_ANSWER_VALUE};
    demnyaluz_write_value(rejecting + 2, demnyaluz_make_value(DEMNYALUZ_KIND_BOOLEAN, 1));
    rejecting[2 + DEMNYALUZ_VALUE_BYTES] = DEMNYALUZ_ANSWER_VALUE;
    demnyaluz_write_value(rejecting + 3 + DEMNYALUZ_VALUE_BYTES, demnyaluz_make_value(DEMNYALUZ_KIND_BOOLEAN, 0));
    freeze.object = 4;
    run(freeze, rejecting, sizeof rejecting);
    check(is_report(DEMNYALUZ_OUTCOME_TYPE_ERROR, DEMNYALUZ_MESSAGE_DEFINITION_REJECTED, 2, 12), "a definition that is rejected: message 32");
    uint8_t text[DEMNYALUZ_LONGEST_MESSAGE];
    const char *rejected = "Property definition was rejected";
    check(demnyaluz_message(DEMNYALUZ_MESSAGE_DEFINITION_REJECTED, text, sizeof text) == strlen(rejected)
              && memcmp(text, rejected, strlen(rejected)) == 0,
          "the text of message 32");

    freeze.object = 2;
    freeze.value = level(DEMNYALUZ_LEVEL_SEALED);
    run_alone(is_sealed);
    check(is_report(DEMNYALUZ_OUTCOME_RESULT, 0, 0, 4) && is_value(DEMNYALUZ_KIND_BOOLEAN, 0), "it is not sealed");
    run_alone(freeze);
    check(is_report(DEMNYALUZ_OUTCOME_RESULT, 0, 0, 8) && is_value(DEMNYALUZ_KIND_BOOLEAN, 1), "it is sealed now");
    run_alone(is_sealed);
    check(is_report(DEMNYALUZ_OUTCOME_RESULT, 0, 0, 4) && is_value(DEMNYALUZ_KIND_BOOLEAN, 1), "and found so");
    run_alone(is_frozen);
    check(is_report(DEMNYALUZ_OUTCOME_RESULT, 0, 0, 4) && is_value(DEMNYALUZ_KIND_BOOLEAN, 0), "but not frozen");
    freeze.value = level(DEMNYALUZ_LEVEL_FROZEN);
    run_alone(freeze);
    check(is_report(DEMNYALUZ_OUTCOME_RESULT, 0, 0, 10) && is_value(DEMNYALUZ_KIND_BOOLEAN, 1), "it is frozen now");
    run_alone(is_frozen);
    check(is_report(DEMNYALUZ_OUTCOME_RESULT, 0, 0, 4) && is_value(DEMNYALUZ_KIND_BOOLEAN, 1), "and found so");
    freeze.value = level(2);
    run_alone(freeze);
    check(is_report(DEMNYALUZ_OUTCOME_REFUSED, DEMNYALUZ_REFUSAL_MALFORMED_RECORD, 0, 0), "a third level");
    freeze.value = demnyaluz_make_value(DEMNYALUZ_KIND_BOOLEAN, 1);
    run_alone(freeze);
    check(is_report(DEMNYALUZ_OUTCOME_REFUSED, DEMNYALUZ_REFUSAL_UNUSABLE_PART, 0, 0), "a level that is no Integer32");
}

#define DATA_FIELDS (DEMNYALUZ_FIELD_ENUMERABLE | DEMNYALUZ_FIELD_CONFIGURABLE | DEMNYALUZ_FIELD_WRITABLE | DEMNYALUZ_FIELD_VALUE)
#define ACCESSOR_FIELDS (DEMNYALUZ_FIELD_ENUMERABLE | DEMNYALUZ_FIELD_CONFIGURABLE | DEMNYALUZ_FIELD_GET | DEMNYALUZ_FIELD_SET)
#define NUMBER(integer) {DEMNYALUZ_KIND_INTEGER32, integer}
#define FUNCTION(number) {DEMNYALUZ_KIND_FUNCTION, number}

/* Current descriptors: 70,000 and an accessor of functions 5 and 6, not configurable and enumerable. */
static const struct demnyaluz_descriptor fixed = {.mask = DATA_FIELDS, .booleans = DEMNYALUZ_FIELD_ENUMERABLE, .value = NUMBER(70000)};
static const struct demnyaluz_descriptor writable = {
    .mask = DATA_FIELDS, .booleans = DEMNYALUZ_FIELD_ENUMERABLE | DEMNYALUZ_FIELD_WRITABLE, .value = NUMBER(70000)};
static const struct demnyaluz_descriptor accessor = {
    .mask = ACCESSOR_FIELDS, .booleans = DEMNYALUZ_FIELD_ENUMERABLE, .get = FUNCTION(5), .set = FUNCTION(6)};
static const struct demnyaluz_descriptor configurable = {
    .mask = DATA_FIELDS, .booleans = DEMNYALUZ_FIELD_ENUMERABLE | DEMNYALUZ_FIELD_CONFIGURABLE, .value = NUMBER(70000)};

/* A descriptor over a current one, and the first test that fails. */
static const struct {
    struct demnyaluz_descriptor descriptor;
    const struct demnyaluz_descriptor *current;
    uint64_t test;
} validations[] = {
    {{.mask = DEMNYALUZ_FIELD_VALUE, .value = NUMBER(70000)}, NULL, DEMNYALUZ_TEST_EXTENSIBLE},
    {{.mask = DEMNYALUZ_FIELD_CONFIGURABLE, .booleans = DEMNYALUZ_FIELD_CONFIGURABLE}, &fixed, DEMNYALUZ_TEST_CONFIGURABLE},
    {{.mask = DEMNYALUZ_FIELD_ENUMERABLE}, &fixed, DEMNYALUZ_TEST_ENUMERABLE},
    {{.mask = DEMNYALUZ_FIELD_GET}, &fixed, DEMNYALUZ_TEST_KIND},
    {{.mask = DEMNYALUZ_FIELD_SET}, &writable, DEMNYALUZ_TEST_KIND},
    {{.mask = DEMNYALUZ_FIELD_WRITABLE}, &accessor, DEMNYALUZ_TEST_KIND},
    {{.mask = DEMNYALUZ_FIELD_GET, .get = FUNCTION(6)}, &accessor, DEMNYALUZ_TEST_GET},
    {{.mask = DEMNYALUZ_FIELD_GET | DEMNYALUZ_FIELD_SET, .get = FUNCTION(5)}, &accessor, DEMNYALUZ_TEST_SET},
    {{.mask = DEMNYALUZ_FIELD_WRITABLE, .booleans = DEMNYALUZ_FIELD_WRITABLE}, &fixed, DEMNYALUZ_TEST_WRITABLE},
    {{.mask = DEMNYALUZ_FIELD_VALUE | DEMNYALUZ_FIELD_WRITABLE, .value = NUMBER(4464)}, &fixed, DEMNYALUZ_TEST_VALUE},
    /* others after it would fail too */
    {{.mask = ACCESSOR_FIELDS, .booleans = DEMNYALUZ_FIELD_CONFIGURABLE}, &fixed, DEMNYALUZ_TEST_CONFIGURABLE},
    {{.mask = ACCESSOR_FIELDS}, &accessor, DEMNYALUZ_TEST_ENUMERABLE},
    {{.mask = DATA_FIELDS, .booleans = DEMNYALUZ_FIELD_ENUMERABLE}, &accessor, DEMNYALUZ_TEST_KIND},
    {{.mask = DEMNYALUZ_FIELD_GET | DEMNYALUZ_FIELD_SET}, &accessor, DEMNYALUZ_TEST_GET},
    {{.mask = DEMNYALUZ_FIELD_VALUE | DEMNYALUZ_FIELD_WRITABLE, .booleans = DEMNYALUZ_FIELD_WRITABLE}, &fixed, DEMNYALUZ_TEST_WRITABLE},
    /* none fails */
    {{.mask = 0}, &fixed, DEMNYALUZ_TEST_NONE},
    {{.mask = DATA_FIELDS, .booleans = DEMNYALUZ_FIELD_ENUMERABLE, .value = NUMBER(70000)}, &fixed, DEMNYALUZ_TEST_NONE},
    {{.mask = DEMNYALUZ_FIELD_VALUE | DEMNYALUZ_FIELD_WRITABLE, .value = NUMBER(4464)}, &writable, DEMNYALUZ_TEST_NONE},
    {{.mask = DEMNYALUZ_FIELD_GET | DEMNYALUZ_FIELD_SET, .get = FUNCTION(5), .set = FUNCTION(6)}, &accessor, DEMNYALUZ_TEST_NONE},
    {{.mask = ACCESSOR_FIELDS}, &configurable, DEMNYALUZ_TEST_NONE},
};

/* Descriptors that are refused, handed in and as the current one. */
static const struct {
    struct demnyaluz_descriptor descriptor;
    uint64_t refusal;
} refused[] = {
    {{.mask = 64}, DEMNYALUZ_REFUSAL_MALFORMED_RECORD},
    {{.mask = DATA_FIELDS, .value = FUNCTION(7)}, DEMNYALUZ_REFUSAL_OBJECT_NEVER_MADE},
    {{.mask = DATA_FIELDS, .value = {DEMNYALUZ_KIND_STRING, 1}}, DEMNYALUZ_REFUSAL_UNUSABLE_PART},
    {{.mask = DATA_FIELDS | DEMNYALUZ_FIELD_GET}, DEMNYALUZ_REFUSAL_UNUSABLE_DESCRIPTOR},
};

static void tests(void)
{
    for (uint64_t number = 5; number <= 6; number++) {
        run_alone((struct demnyaluz_step_parts){.code = DEMNYALUZ_CODE_MAKE_FUNCTION, .value = demnyaluz_make_value(DEMNYALUZ_KIND_NULL, 0)});
        check(is_value(DEMNYALUZ_KIND_FUNCTION, number), "a function");
    }
    for (size_t i = 0; i < sizeof validations / sizeof validations[0]; i++) {
        const struct demnyaluz_descriptor *descriptor = &validations[i].descriptor, *current = validations[i].current;
        const bool none = validations[i].test == DEMNYALUZ_TEST_NONE;
        check(validate(false, descriptor, current) == none && test == validations[i].test, "the first test that fails");
        check(is_report(DEMNYALUZ_OUTCOME_RESULT, 0, 0, 0) && report().form == (current != NULL ? DEMNYALUZ_FORM_PROPERTY : DEMNYALUZ_FORM_ABSENT),
              "a validation is no refusal");
        if (!none && current != NULL) {
            uint8_t bytes[DEMNYALUZ_DESCRIPTOR_BYTES], after[DEMNYALUZ_DESCRIPTOR_BYTES];
            const struct demnyaluz_descriptor kept = demnyaluz_property_descriptor(report().property);
            demnyaluz_write_descriptor(bytes, current);
            demnyaluz_write_descriptor(after, &kept);
            check(memcmp(bytes, after, sizeof bytes) == 0, "a property that is rejected stays");
        }
        /* whether the object is extensible matters where the property is absent alone */
        check(validate(true, descriptor, current) == (none || current == NULL) && test == (current != NULL ? validations[i].test : DEMNYALUZ_TEST_NONE),
              "the same of an extensible object");
    }
    for (size_t i = 0; i < sizeof refused / sizeof refused[0]; i++) {
        const struct demnyaluz_descriptor *descriptor = &refused[i].descriptor;
        check(!validate(false, descriptor, NULL) && is_refused(refused[i].refusal), "a refusal over an absent property");
        check(!validate(true, descriptor, &fixed) && is_refused(refused[i].refusal), "a refusal over a property");
        check(!validate(true, &fixed, descriptor) && is_refused(refused[i].refusal), "a refusal of the current descriptor");
    }
    uint8_t bytes[DEMNYALUZ_DESCRIPTOR_BYTES];
    demnyaluz_write_descriptor(bytes, &fixed);
    test = UINT64_MAX;
    check(!demnyaluz_validate(MEMORY, true, bytes, sizeof bytes - 1, bytes, sizeof bytes, report_words, &test)
              && is_refused(DEMNYALUZ_REFUSAL_MALFORMED_RECORD),
          "a descriptor cut short");
}

int main(void)
{
    memset(words, 0xff, sizeof words);
    memset(strings, 0xff, sizeof strings);
    const uint16_t units[] = {'v', 'i', 's', 'i', 't', 's'};
    demnyaluz_enter_string(strings, DEMNYALUZ_STRING_CELLS, units, 6, report_words);
    check(is_report(DEMNYALUZ_OUTCOME_REFUSED, DEMNYALUZ_REFUSAL_MALFORMED_RECORD, 0, 0), "cells that are no table");
    check(demnyaluz_empty_store(words, DEMNYALUZ_STORE_WORDS), "an empty store");
    check(demnyaluz_empty_strings(strings, DEMNYALUZ_STRING_CELLS), "an empty table");
    check(!demnyaluz_empty_store(words, DEMNYALUZ_STORE_WORDS - 1), "a store too short");
    check(!demnyaluz_empty_strings(strings, DEMNYALUZ_STRING_CELLS - 1), "a table too short");

    demnyaluz_enter_string(strings, DEMNYALUZ_STRING_CELLS, units, 6, report_words);
    check(is_report(DEMNYALUZ_OUTCOME_RESULT, 0, 0, 0) && is_value(DEMNYALUZ_KIND_STRING, 0), "the first string is number 0");
    const struct demnyaluz_value visits = report().value;

    run_alone((struct demnyaluz_step_parts){.code = DEMNYALUZ_CODE_MAKE_OBJECT, .value = demnyaluz_make_value(DEMNYALUZ_KIND_NULL, 0)});
    check(is_report(DEMNYALUZ_OUTCOME_RESULT, 0, 0, 0) && is_value(DEMNYALUZ_KIND_OBJECT, 0), "the first object is number 0");
    const struct demnyaluz_descriptor sealed = {
        .mask = DEMNYALUZ_FIELD_ENUMERABLE | DEMNYALUZ_FIELD_CONFIGURABLE | DEMNYALUZ_FIELD_WRITABLE | DEMNYALUZ_FIELD_VALUE,
        .booleans = DEMNYALUZ_FIELD_ENUMERABLE,
        .value = demnyaluz_from_integer32(70000),
    };
    const struct demnyaluz_descriptor same = {.mask = DEMNYALUZ_FIELD_VALUE, .value = demnyaluz_from_integer32(70000)};
    const struct demnyaluz_descriptor other = {.mask = DEMNYALUZ_FIELD_VALUE, .value = demnyaluz_from_integer32(4464)};
    run_alone((struct demnyaluz_step_parts){.code = DEMNYALUZ_CODE_DEFINE_OWN_PROPERTY, .key = visits, .descriptor = sealed});
    check(is_report(DEMNYALUZ_OUTCOME_RESULT, 0, 0, 3) && is_value(DEMNYALUZ_KIND_BOOLEAN, 1), "70000 is defined");
    run_alone((struct demnyaluz_step_parts){.code = DEMNYALUZ_CODE_DEFINE_OWN_PROPERTY, .key = visits, .descriptor = other});
    check(is_report(DEMNYALUZ_OUTCOME_RESULT, 0, 0, 3) && is_value(DEMNYALUZ_KIND_BOOLEAN, 0), "4464 over the sealed 70000 is false");
    run_alone((struct demnyaluz_step_parts){.code = DEMNYALUZ_CODE_DEFINE_OWN_PROPERTY, .key = visits, .descriptor = same});
    check(is_report(DEMNYALUZ_OUTCOME_RESULT, 0, 0, 3) && is_value(DEMNYALUZ_KIND_BOOLEAN, 1), "70000 over the sealed 70000 is true");

    run_alone((struct demnyaluz_step_parts){.code = DEMNYALUZ_CODE_MAKE_PROXY, .value = demnyaluz_from_integer32(DEMNYALUZ_TRAP(DEMNYALUZ_CODE_GET))});
    check(is_report(DEMNYALUZ_OUTCOME_RESULT, 0, 0, 0) && is_value(DEMNYALUZ_KIND_OBJECT, 1), "the proxy is number 1");
    const struct demnyaluz_step_parts get = {.code = DEMNYALUZ_CODE_GET, .object = 1, .key = visits, .receiver = report().value};
    uint8_t sheet[2 + DEMNYALUZ_VALUE_BYTES] = {1, DEMNYALUZ_ANSWER_VALUE};
    demnyaluz_write_value(sheet + 2, demnyaluz_from_integer32(70000));
    run(get, sheet, sizeof sheet);
    check(is_report(DEMNYALUZ_OUTCOME_RESULT, 0, 1, 2) && is_value(DEMNYALUZ_KIND_INTEGER32, 70000), "the handler answers 70000");
    demnyaluz_write_value(sheet + 2, demnyaluz_from_integer32(4464));
    run(get, sheet, sizeof sheet);
    check(is_report(DEMNYALUZ_OUTCOME_TYPE_ERROR, DEMNYALUZ_MESSAGE_GOT_UNEXPECTED_DATA, 1, 2), "the handler answers 4464: message 17, 2 calls");
    run(get, sheet, sizeof sheet - 1);
    check(is_report(DEMNYALUZ_OUTCOME_REFUSED, DEMNYALUZ_REFUSAL_MALFORMED_RECORD, 0, 0), "a sheet cut short");
    run_alone(get);
    check(is_report(DEMNYALUZ_OUTCOME_REFUSED, DEMNYALUZ_REFUSAL_SHEET_SPENT, 0, 0), "no answer");

    run_alone((struct demnyaluz_step_parts){.code = DEMNYALUZ_CODE_GET_OWN_PROPERTY, .key = visits});
    check(is_report(DEMNYALUZ_OUTCOME_RESULT, 0, 0, 1) && is_fixed(true, 70000), "the property");
    run_alone((struct demnyaluz_step_parts){.code = DEMNYALUZ_CODE_GET_OWN_PROPERTY, .key = demnyaluz_make_value(DEMNYALUZ_KIND_SYMBOL, 0)});
    check(is_report(DEMNYALUZ_OUTCOME_RESULT, 0, 0, 1) && report().form == DEMNYALUZ_FORM_ABSENT, "an absent property");
    run_alone((struct demnyaluz_step_parts){.code = DEMNYALUZ_CODE_OWN_PROPERTY_KEYS});
    check(is_report(DEMNYALUZ_OUTCOME_RESULT, 0, 0, 1) && report().form == DEMNYALUZ_FORM_KEYS && report().keys == 1
              && is_same(demnyaluz_read_value(output), visits),
          "the own keys");

    uint8_t text[DEMNYALUZ_LONGEST_MESSAGE];
    uint64_t size = demnyaluz_message(DEMNYALUZ_MESSAGE_GOT_UNEXPECTED_DATA, text, sizeof text);
    const char *expected = "Proxy trap returned unexpected data descriptor";
    check(size == strlen(expected) && memcmp(text, expected, size) == 0, "the text of message 17");
    uint64_t longest = 0;
    for (uint64_t n = 1; n <= DEMNYALUZ_MESSAGE_DEFINITION_REJECTED; n++) {
        size = demnyaluz_message(n, text, sizeof text);
        check(0 < size && size <= sizeof text, "a text for each message");
        if (longest < size)
            longest = size;
    }
    check(longest == DEMNYALUZ_LONGEST_MESSAGE, "the longest text");
    check(demnyaluz_message(0, text, sizeof text) == 0 && demnyaluz_message(33, text, sizeof text) == 0, "no other message");
    text[0] = '?';
    check(demnyaluz_message(1, text, 40) == 41 && text[0] == '?', "a text that does not fit");

    const struct demnyaluz_descriptor empty = {.mask = 0};
    uint8_t empty_bytes[DEMNYALUZ_DESCRIPTOR_BYTES], sealed_bytes[DEMNYALUZ_DESCRIPTOR_BYTES], other_bytes[DEMNYALUZ_DESCRIPTOR_BYTES];
    demnyaluz_write_descriptor(empty_bytes, &empty);
    demnyaluz_write_descriptor(sealed_bytes, &sealed);
    demnyaluz_write_descriptor(other_bytes, &other);
    demnyaluz_complete(MEMORY, empty_bytes, sizeof empty_bytes, report_words);
    check(is_report(DEMNYALUZ_OUTCOME_RESULT, 0, 0, 0) && report().form == DEMNYALUZ_FORM_PROPERTY && report_words[DEMNYALUZ_REPORT_DETAIL] == 0
              && report().property.value.kind == DEMNYALUZ_KIND_UNDEFINED,
          "the empty descriptor completed: data, undefined, all false");
    bool yes = validate(true, &other, &sealed);
    check(!yes && is_report(DEMNYALUZ_OUTCOME_RESULT, 0, 0, 0) && is_fixed(true, 70000) && test == DEMNYALUZ_TEST_VALUE, "4464 over the sealed 70000");
    yes = validate(true, &sealed, &sealed);
    check(yes && is_fixed(true, 70000) && test == DEMNYALUZ_TEST_NONE, "70000 over the sealed 70000");
    yes = validate(false, &other, NULL);
    check(!yes && report().form == DEMNYALUZ_FORM_ABSENT && test == DEMNYALUZ_TEST_EXTENSIBLE, "absent and not extensible");
    yes = validate(true, &other, NULL);
    check(yes && is_fixed(false, 4464) && test == DEMNYALUZ_TEST_NONE, "absent and extensible");
    yes = validate(true, &sealed, &other);
    check(!yes && is_refused(DEMNYALUZ_REFUSAL_INCOMPLETE_CURRENT), "an incomplete current descriptor");
    demnyaluz_merge(MEMORY, sealed_bytes, sizeof sealed_bytes, other_bytes, sizeof other_bytes, report_words);
    check(is_report(DEMNYALUZ_OUTCOME_RESULT, 0, 0, 0) && is_fixed(true, 4464), "4464 merged into the sealed 70000");

    freeze(visits);
    tests();
    printf("sealed: %d checks hold\n", checks);
    return 0;
}
