/*
 * ValidateAndApplyPropertyDescriptor by itself, through include/demnyaluz.h, on the cases of tests/validation.mjs, which has the layout of a line: yes or
 * no, the number of the first test that fails, and every field of the property after it. Then refusals, which have number 0.
 */
#include "checked.h"
#include <string.h>

enum {
    EXTENSIBLE = 0,
    PRESENT = 1,
    WANTED = 2,
    CURRENT = WANTED + DEMNYALUZ_DESCRIPTOR_BYTES,
    ACCEPTED = CURRENT + DEMNYALUZ_DESCRIPTOR_BYTES,
    NUMBER = ACCEPTED + 1,
    LEFT = NUMBER + 1,
    AFTER = LEFT + 1,
    CASE_BYTES = AFTER + DEMNYALUZ_DESCRIPTOR_BYTES,
    NUMBERS = DEMNYALUZ_TEST_VALUE + 1
};

static const char *const names[NUMBERS] = {"none", "extensible", "configurable", "enumerable", "kind", "get", "set", "writable", "value"};
static char line[2 * CASE_BYTES + 2];
static uint8_t bytes[CASE_BYTES];
static unsigned long cases, counts[NUMBERS];

static void expect(bool holds, const char *what)
{
    if (!holds) {
        printf("case %lu: the %s differs\n%s\n", cases + 1, what, line);
        exit(1);
    }
}

/* The next case; false after the last. */
static bool read_case(void)
{
    if (fgets(line, sizeof line, stdin) == NULL)
        return false;
    const size_t length = strspn(line, "0123456789abcdef");
    expect(length == sizeof line - 2 && strcmp(line + length, "\n") == 0, "form of the line");
    line[length] = '\0';
    for (size_t i = 0; i < CASE_BYTES; i++) {
        const char digits[3] = {line[2 * i], line[2 * i + 1], '\0'};
        bytes[i] = (uint8_t)strtoul(digits, NULL, 16);
    }
    expect(bytes[EXTENSIBLE] < 2 && bytes[PRESENT] < 2 && bytes[ACCEPTED] < 2 && bytes[NUMBER] < NUMBERS && bytes[LEFT] < 2, "range of a byte");
    return true;
}

/* A number that is Float64 in the line may be Integer32. */
static bool is_value(const uint8_t expected[DEMNYALUZ_VALUE_BYTES], struct demnyaluz_value value)
{
    uint8_t told[DEMNYALUZ_VALUE_BYTES];
    demnyaluz_write_value(told, value.kind == DEMNYALUZ_KIND_INTEGER32 ? demnyaluz_from_float64(demnyaluz_to_number(value)) : value);
    return memcmp(told, expected, sizeof told) == 0;
}

/* The property in the report, field by field. */
static void compare_property(const uint8_t expected[DEMNYALUZ_DESCRIPTOR_BYTES], struct demnyaluz_property property)
{
    const struct demnyaluz_descriptor told = demnyaluz_property_descriptor(property);
    const int booleans = told.booleans ^ expected[DEMNYALUZ_DESCRIPTOR_BOOLEANS];
    expect(told.mask == expected[DEMNYALUZ_DESCRIPTOR_MASK], "kind of the property");
    expect((booleans & DEMNYALUZ_FIELD_ENUMERABLE) == 0, "property's enumerable");
    expect((booleans & DEMNYALUZ_FIELD_CONFIGURABLE) == 0, "property's configurable");
    expect(booleans == 0, "property's writable");
    expect(is_value(expected + DEMNYALUZ_DESCRIPTOR_VALUE, told.value), "property's value");
    expect(is_value(expected + DEMNYALUZ_DESCRIPTOR_GET, told.get), "property's get");
    expect(is_value(expected + DEMNYALUZ_DESCRIPTOR_SET, told.set), "property's set");
}

/* Validation on a target that is extensible where the case has it so. Every word of the answer must be written. */
static bool validate(const uint8_t *wanted, size_t wanted_length, const uint8_t *current, size_t current_length, uint64_t *test)
{
    *test = UINT64_MAX;
    memset(report_words, 0xff, sizeof report_words);
    return demnyaluz_validate(MEMORY, bytes[EXTENSIBLE] == 1, wanted, wanted_length, current, current_length, report_words, test);
}

static void compare(void)
{
    const bool present = bytes[PRESENT] == 1;
    uint64_t test;
    const size_t current_length = present ? DEMNYALUZ_DESCRIPTOR_BYTES : 0;
    const bool accepted = validate(bytes + WANTED, DEMNYALUZ_DESCRIPTOR_BYTES, present ? bytes + CURRENT : NULL, current_length, &test);
    const struct demnyaluz_report told = report();
    expect(told.outcome == DEMNYALUZ_OUTCOME_RESULT && told.number == 0 && told.answers == 0 && told.calls == 0, "outcome");
    expect(accepted == (bytes[ACCEPTED] == 1), "yes or no");
    expect(test == bytes[NUMBER], "number");
    expect(told.form == (bytes[LEFT] == 1 ? DEMNYALUZ_FORM_PROPERTY : DEMNYALUZ_FORM_ABSENT), "form");
    if (bytes[LEFT] == 1)
        compare_property(bytes + AFTER, told.property);
    counts[test]++;
    cases++;
}

static void refuse(const uint8_t *wanted, size_t wanted_length, const uint8_t *current, uint64_t refusal)
{
    uint64_t test;
    const bool accepted = validate(wanted, wanted_length, current, current == NULL ? 0 : DEMNYALUZ_DESCRIPTOR_BYTES, &test);
    check(!accepted && test == DEMNYALUZ_TEST_NONE, "a refusal is a no, and has number 0");
    check(report().outcome == DEMNYALUZ_OUTCOME_REFUSED && report().number == refusal && report().form == DEMNYALUZ_FORM_NOTHING, "the refusal");
}

/* Refusals 1 to 5, over an object that is not extensible: without them the number would be 1, or 2. */
static void refuse_all(void)
{
    static const struct demnyaluz_value callable = {DEMNYALUZ_KIND_FUNCTION, 0}, unmade = {DEMNYALUZ_KIND_FUNCTION, 2}, misnamed = {DEMNYALUZ_KIND_OBJECT, 0};
    const struct demnyaluz_descriptor descriptors[] = {
        {.mask = DEMNYALUZ_FIELD_CONFIGURABLE, .booleans = DEMNYALUZ_FIELD_CONFIGURABLE},
        {.mask = DEMNYALUZ_FIELD_CONFIGURABLE, .booleans = DEMNYALUZ_FIELD_CONFIGURABLE | DEMNYALUZ_FIELD_WRITABLE},
        {.mask = DEMNYALUZ_FIELD_CONFIGURABLE | DEMNYALUZ_FIELD_GET, .booleans = DEMNYALUZ_FIELD_CONFIGURABLE, .get = unmade},
        {.mask = DEMNYALUZ_FIELD_CONFIGURABLE | DEMNYALUZ_FIELD_GET, .booleans = DEMNYALUZ_FIELD_CONFIGURABLE, .get = misnamed},
        {.mask = DEMNYALUZ_FIELD_CONFIGURABLE | DEMNYALUZ_FIELD_GET | DEMNYALUZ_FIELD_VALUE, .booleans = DEMNYALUZ_FIELD_CONFIGURABLE, .get = callable},
    };
    const struct demnyaluz_descriptor whole = demnyaluz_property_descriptor((struct demnyaluz_property){.accessor = false});
    uint8_t records[5][DEMNYALUZ_DESCRIPTOR_BYTES], fixed[DEMNYALUZ_DESCRIPTOR_BYTES];
    for (size_t i = 0; i < 5; i++)
        demnyaluz_write_descriptor(records[i], &descriptors[i]);
    demnyaluz_write_descriptor(fixed, &whole);
    bytes[EXTENSIBLE] = 0;
    for (size_t i = 1; i < 5; i++) {
        refuse(records[i], sizeof records[i], NULL, i);
        refuse(records[i], sizeof records[i], fixed, i);
    }
    refuse(records[0], sizeof records[0] - 1, fixed, DEMNYALUZ_REFUSAL_MALFORMED_RECORD);
    refuse(records[0], sizeof records[0], records[0], DEMNYALUZ_REFUSAL_INCOMPLETE_CURRENT);
}

int main(void)
{
    for (uint64_t number = 0; number < 2; number++) {
        uint8_t step[DEMNYALUZ_STEP_BYTES];
        const uint8_t sheet = 0;
        const struct demnyaluz_step_parts parts = {.code = DEMNYALUZ_CODE_MAKE_FUNCTION, .value = {DEMNYALUZ_KIND_NULL, 0}};
        demnyaluz_write_step(step, &parts);
        demnyaluz_step(MEMORY, step, sizeof step, &sheet, 1, output, sizeof output, report_words);
        check(report().value.kind == DEMNYALUZ_KIND_FUNCTION && report().value.payload == number, "a function is made");
    }
    while (read_case())
        compare();
    check(!ferror(stdin) && cases > 0, "there are cases");
    for (size_t i = 0; i < NUMBERS; i++)
        check(counts[i] > 0, "each number occurs");
    refuse_all();
    printf("validation: %lu cases, 0 differences:", cases);
    for (size_t i = 0; i < NUMBERS; i++)
        printf("%s %lu %s", i == 0 ? "" : ",", counts[i], names[i]);
    printf("; %d checks hold\n", checks);
    return 0;
}
