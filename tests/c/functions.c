/*
 * Functions through include/demnyaluz.h: made by code 16, as prototype, receiver and operand, as getter and setter, as a handler's answer; then all that
 * is refused of them, and a full store.
 */
#include "stepping.h"

#define RUN_ANSWERED(answer, ...) run_answered((struct demnyaluz_step_parts){__VA_ARGS__}, DEMNYALUZ_ANSWER_VALUE, answer)

static struct demnyaluz_value boolean(bool yes)
{
    return demnyaluz_make_value(DEMNYALUZ_KIND_BOOLEAN, yes);
}

static struct demnyaluz_descriptor data(struct demnyaluz_value value)
{
    const struct demnyaluz_descriptor descriptor = {
        .mask = DEMNYALUZ_FIELD_ENUMERABLE | DEMNYALUZ_FIELD_CONFIGURABLE | DEMNYALUZ_FIELD_WRITABLE | DEMNYALUZ_FIELD_VALUE,
        .booleans = DEMNYALUZ_FIELD_ENUMERABLE | DEMNYALUZ_FIELD_CONFIGURABLE | DEMNYALUZ_FIELD_WRITABLE,
        .value = value,
    };
    return descriptor;
}

static struct demnyaluz_descriptor accessor(struct demnyaluz_value get, struct demnyaluz_value set)
{
    const struct demnyaluz_descriptor descriptor = {.mask = DEMNYALUZ_FIELD_GET | DEMNYALUZ_FIELD_SET, .get = get, .set = set};
    return descriptor;
}

/* Function 0, object 1 that inherits from it, function 2 that inherits from 1, and 3, a proxy of 1 with every trap. */
static void make(void)
{
    RUN(.code = DEMNYALUZ_CODE_MAKE_FUNCTION, .value = null);
    check(is_result(function(0), 0, 0), "a function is made, number 0");
    check(words[0] == 1 && words[1] == 0 && (words[2] & 1) == 1 && words[3] == 1, "its marks");
    RUN(.code = DEMNYALUZ_CODE_MAKE_OBJECT, .value = function(0));
    check(is_result(object(1), 0, 0), "an object inherits from it, number 1");
    RUN(.code = DEMNYALUZ_CODE_MAKE_FUNCTION, .value = object(1));
    check(is_result(function(2), 0, 0), "a function inherits from that, number 2");
    RUN(.code = DEMNYALUZ_CODE_MAKE_PROXY, .object = 1, .value = demnyaluz_from_integer32(2047));
    check(is_result(object(3), 0, 0), "a proxy, number 3");
    check(words[0] == 4 && words[1] == 0 && (words[2] & 15) == 5 && words[3] == 15, "the marks of functions 0 and 2");
    for (uint8_t number = 0; number < 3; number++) {
        RUN(.code = DEMNYALUZ_CODE_IS_EXTENSIBLE, .object = number);
        check(is_result(boolean(true), 0, 1), "what is made is extensible");
        RUN(.code = DEMNYALUZ_CODE_OWN_PROPERTY_KEYS, .object = number);
        check(is_report(DEMNYALUZ_OUTCOME_RESULT, 0, 0, 1) && report().form == DEMNYALUZ_FORM_KEYS && report().keys == 0, "and has no properties");
    }
}

/* As prototype, receiver and operand of codes 4 to 14, 18 and 19. */
static void use(void)
{
    const struct demnyaluz_value count = demnyaluz_from_integer32(70000), small = demnyaluz_from_integer32(4464);
    const struct demnyaluz_value sealed = demnyaluz_from_integer32(DEMNYALUZ_LEVEL_SEALED), frozen = demnyaluz_from_integer32(DEMNYALUZ_LEVEL_FROZEN);
    RUN(.code = DEMNYALUZ_CODE_GET_PROTOTYPE_OF, .object = 0);
    check(is_result(null, 0, 1), "the prototype of function 0");
    RUN(.code = DEMNYALUZ_CODE_GET_PROTOTYPE_OF, .object = 1);
    check(is_result(function(0), 0, 1), "a prototype that is a function");
    RUN(.code = DEMNYALUZ_CODE_GET_PROTOTYPE_OF, .object = 2);
    check(is_result(object(1), 0, 1), "the prototype of function 2");
    RUN(.code = DEMNYALUZ_CODE_SET_PROTOTYPE_OF, .object = 0, .value = function(2));
    check(is_result(boolean(false), 0, 1), "no cycle");
    RUN(.code = DEMNYALUZ_CODE_DEFINE_OWN_PROPERTY, .object = 0, .key = symbol(7), .descriptor = data(count));
    check(is_result(boolean(true), 0, 3), "a property of function 0");
    RUN(.code = DEMNYALUZ_CODE_GET, .object = 0, .key = symbol(7), .receiver = function(0));
    check(is_result(count, 0, 2), "read");
    RUN(.code = DEMNYALUZ_CODE_GET, .object = 1, .key = symbol(7), .receiver = object(1));
    check(is_result(count, 0, 5), "read through an object");
    RUN(.code = DEMNYALUZ_CODE_GET, .object = 2, .key = symbol(7), .receiver = function(2));
    check(is_result(count, 0, 8), "read through an object and a function");
    RUN(.code = DEMNYALUZ_CODE_HAS_PROPERTY, .object = 2, .key = symbol(7));
    check(is_result(boolean(true), 0, 8), "found there");
    RUN(.code = DEMNYALUZ_CODE_SET, .object = 1, .key = symbol(7), .value = small, .receiver = function(2));
    check(is_result(boolean(true), 0, 9), "a receiver that is a function");
    RUN(.code = DEMNYALUZ_CODE_GET_OWN_PROPERTY, .object = 2, .key = symbol(7));
    check(report().form == DEMNYALUZ_FORM_PROPERTY && is_same(report().property.value, small), "gets the property");
    RUN(.code = DEMNYALUZ_CODE_OWN_PROPERTY_KEYS, .object = 2);
    check(report().keys == 1 && is_same(demnyaluz_read_value(output), symbol(7)), "among its keys");
    RUN(.code = DEMNYALUZ_CODE_SET_INTEGRITY_LEVEL, .object = 2, .value = sealed);
    check(is_result(boolean(true), 0, 5), "a function is sealed");
    RUN(.code = DEMNYALUZ_CODE_TEST_INTEGRITY_LEVEL, .object = 2, .value = frozen);
    check(is_result(boolean(false), 0, 3), "and not frozen");
    RUN(.code = DEMNYALUZ_CODE_SET_INTEGRITY_LEVEL, .object = 2, .value = frozen);
    check(is_result(boolean(true), 0, 6), "then frozen");
    RUN(.code = DEMNYALUZ_CODE_TEST_INTEGRITY_LEVEL, .object = 2, .value = frozen);
    check(is_result(boolean(true), 0, 3), "and found so");
    RUN(.code = DEMNYALUZ_CODE_DELETE, .object = 2, .key = symbol(7));
    check(is_result(boolean(false), 0, 2), "its property stays");
    RUN(.code = DEMNYALUZ_CODE_DELETE, .object = 0, .key = symbol(7));
    check(is_result(boolean(true), 0, 2), "that of function 0 goes");
    RUN(.code = DEMNYALUZ_CODE_PREVENT_EXTENSIONS, .object = 2);
    check(is_result(boolean(true), 0, 1), "extensions of a function are prevented");
    RUN(.code = DEMNYALUZ_CODE_SET_PROTOTYPE_OF, .object = 2, .value = function(0));
    check(is_result(boolean(false), 0, 1), "and its prototype stays");

    /* getter and setter: a call takes the answer, here a function */
    RUN(.code = DEMNYALUZ_CODE_DEFINE_OWN_PROPERTY, .object = 0, .key = symbol(8), .descriptor = accessor(function(2), function(0)));
    check(is_result(boolean(true), 0, 3), "an accessor of two functions");
    RUN(.code = DEMNYALUZ_CODE_GET_OWN_PROPERTY, .object = 0, .key = symbol(8));
    check(report().property.accessor && is_same(report().property.get, function(2)) && is_same(report().property.set, function(0)), "as it was defined");
    RUN_ANSWERED(function(2), .code = DEMNYALUZ_CODE_GET, .object = 0, .key = symbol(8), .receiver = function(0));
    check(is_result(function(2), 1, 2), "the getter is called");
    RUN_ANSWERED(function(2), .code = DEMNYALUZ_CODE_SET, .object = 0, .key = symbol(8), .value = small, .receiver = function(0));
    check(is_result(boolean(true), 1, 2), "the setter is called");
    RUN(.code = DEMNYALUZ_CODE_GET, .object = 0, .key = symbol(8), .receiver = function(0));
    check(is_refused(DEMNYALUZ_REFUSAL_SHEET_SPENT), "the getter has no answer");
}

/* What the handler of proxy 3 answers, over object 1, whose prototype is function 0. */
static void answer(void)
{
    RUN_ANSWERED(function(2), .code = DEMNYALUZ_CODE_GET_PROTOTYPE_OF, .object = 3);
    check(is_result(function(2), 1, 2), "any prototype of an extensible target");
    RUN_ANSWERED(function(2), .code = DEMNYALUZ_CODE_IS_EXTENSIBLE, .object = 3);
    check(is_result(boolean(true), 1, 2), "a function is true");
    RUN(.code = DEMNYALUZ_CODE_PREVENT_EXTENSIONS, .object = 1);
    RUN_ANSWERED(function(0), .code = DEMNYALUZ_CODE_GET_PROTOTYPE_OF, .object = 3);
    check(is_result(function(0), 1, 3), "the prototype of a target that is not");
    RUN_ANSWERED(function(2), .code = DEMNYALUZ_CODE_GET_PROTOTYPE_OF, .object = 3);
    check(is_report(DEMNYALUZ_OUTCOME_TYPE_ERROR, DEMNYALUZ_MESSAGE_UNEXPECTED_PROTOTYPE, 1, 3), "another prototype: message 3");
    RUN_ANSWERED(symbol(0), .code = DEMNYALUZ_CODE_GET_PROTOTYPE_OF, .object = 3);
    check(is_report(DEMNYALUZ_OUTCOME_TYPE_ERROR, DEMNYALUZ_MESSAGE_PROTOTYPE_NOT_OBJECT_OR_NULL, 1, 1), "no prototype: message 2");
    RUN_ANSWERED(function(0), .code = DEMNYALUZ_CODE_GET_OWN_PROPERTY, .object = 3, .key = symbol(7));
    check(is_refused(DEMNYALUZ_REFUSAL_UNREADABLE_ANSWER), "a function for a descriptor");
    RUN_ANSWERED(object(1), .code = DEMNYALUZ_CODE_GET_OWN_PROPERTY, .object = 3, .key = symbol(7));
    check(is_refused(DEMNYALUZ_REFUSAL_UNREADABLE_ANSWER), "an object for a descriptor");
    RUN_ANSWERED(function(0), .code = DEMNYALUZ_CODE_OWN_PROPERTY_KEYS, .object = 3);
    check(is_refused(DEMNYALUZ_REFUSAL_UNREADABLE_ANSWER), "a function for keys");
    RUN_ANSWERED(object(1), .code = DEMNYALUZ_CODE_OWN_PROPERTY_KEYS, .object = 3);
    check(is_refused(DEMNYALUZ_REFUSAL_UNREADABLE_ANSWER), "an object for keys");
}

/* A value that is refused, in each part of a step, in a sheet, and in descriptors by themselves. */
static void refuse(struct demnyaluz_value value, uint64_t refusal)
{
    static const uint8_t making[] = {DEMNYALUZ_CODE_MAKE_OBJECT, DEMNYALUZ_CODE_MAKE_FUNCTION};
    static const uint8_t tags[] = {DEMNYALUZ_ANSWER_VALUE, DEMNYALUZ_ANSWER_THROW};
    const struct demnyaluz_value one = demnyaluz_from_integer32(1);
    for (size_t i = 0; i < 2; i++) {
        RUN(.code = making[i], .value = value);
        check(is_refused(refusal), "as prototype of what is made");
        run_answered((struct demnyaluz_step_parts){.code = making[i], .value = null}, tags[i], value);
        check(is_refused(refusal), "in the sheet of what takes no answer");
        run_answered((struct demnyaluz_step_parts){.code = DEMNYALUZ_CODE_IS_EXTENSIBLE, .object = 3}, tags[i], value);
        check(is_refused(refusal), "as an answer");
    }
    RUN(.code = DEMNYALUZ_CODE_SET_PROTOTYPE_OF, .object = 0, .value = value);
    check(is_refused(refusal), "as prototype");
    RUN(.code = DEMNYALUZ_CODE_GET, .object = 0, .key = symbol(7), .receiver = value);
    check(is_refused(refusal), "as receiver of code 11");
    RUN(.code = DEMNYALUZ_CODE_SET, .object = 0, .key = symbol(7), .value = one, .receiver = value);
    check(is_refused(refusal), "as receiver of code 12");
    RUN(.code = DEMNYALUZ_CODE_SET, .object = 0, .key = symbol(7), .value = value, .receiver = function(0));
    check(is_refused(refusal), "as value");
    const struct demnyaluz_descriptor descriptors[] = {data(value), accessor(value, function(0)), accessor(function(0), value)};
    const struct demnyaluz_descriptor good[] = {data(one), accessor(function(0), function(2))};
    for (size_t i = 0; i < 3; i++) {
        uint8_t bytes[DEMNYALUZ_DESCRIPTOR_BYTES], current[DEMNYALUZ_DESCRIPTOR_BYTES];
        demnyaluz_write_descriptor(bytes, &descriptors[i]);
        demnyaluz_write_descriptor(current, &good[i != 0]);
        RUN(.code = DEMNYALUZ_CODE_DEFINE_OWN_PROPERTY, .object = 0, .key = symbol(7), .descriptor = descriptors[i]);
        check(is_refused(refusal), "in a descriptor");
        demnyaluz_complete(MEMORY, bytes, sizeof bytes, report_words);
        check(is_refused(refusal), "completed by itself");
        uint64_t test = UINT64_MAX;
        check(!demnyaluz_validate(MEMORY, true, bytes, sizeof bytes, NULL, 0, report_words, &test) && is_refused(refusal) && test == 0, "validated by itself");
        test = UINT64_MAX;
        check(!demnyaluz_validate(MEMORY, true, current, sizeof current, bytes, sizeof bytes, report_words, &test) && is_refused(refusal) && test == 0,
              "as the current one");
        demnyaluz_merge(MEMORY, current, sizeof current, bytes, sizeof bytes, report_words);
        check(is_refused(refusal), "merged by itself");
    }
}

static void refuse_all(void)
{
    static const uint64_t never_made[] = {4, 31, 32, 255, 256, (uint64_t)1 << 32, UINT64_MAX};
    for (size_t i = 0; i < sizeof never_made / sizeof never_made[0]; i++) {
        refuse(object(never_made[i]), DEMNYALUZ_REFUSAL_OBJECT_NEVER_MADE);
        refuse(function(never_made[i]), DEMNYALUZ_REFUSAL_OBJECT_NEVER_MADE);
    }
    refuse(object(0), DEMNYALUZ_REFUSAL_UNUSABLE_PART);
    refuse(object(2), DEMNYALUZ_REFUSAL_UNUSABLE_PART);
    refuse(function(1), DEMNYALUZ_REFUSAL_UNUSABLE_PART);
    refuse(function(3), DEMNYALUZ_REFUSAL_UNUSABLE_PART);

    /* code 16 by its parts */
    RUN(.code = DEMNYALUZ_CODE_MAKE_FUNCTION, .object = 1, .value = null);
    check(is_refused(DEMNYALUZ_REFUSAL_MALFORMED_RECORD), "code 16 with an object");
    RUN(.code = DEMNYALUZ_CODE_MAKE_FUNCTION, .key = symbol(7), .value = null);
    check(is_refused(DEMNYALUZ_REFUSAL_MALFORMED_RECORD), "with a key");
    RUN(.code = DEMNYALUZ_CODE_MAKE_FUNCTION, .value = null, .receiver = null);
    check(is_refused(DEMNYALUZ_REFUSAL_MALFORMED_RECORD), "with a receiver");
    RUN(.code = DEMNYALUZ_CODE_MAKE_FUNCTION, .value = null, .descriptor = data(null));
    check(is_refused(DEMNYALUZ_REFUSAL_MALFORMED_RECORD), "with a descriptor");
    RUN(.code = DEMNYALUZ_CODE_MAKE_FUNCTION);
    check(is_refused(DEMNYALUZ_REFUSAL_UNUSABLE_PART), "without a prototype");
    RUN(.code = DEMNYALUZ_CODE_MAKE_FUNCTION, .value = symbol(7));
    check(is_refused(DEMNYALUZ_REFUSAL_UNUSABLE_PART), "with one that is none");
    RUN(.code = 15, .value = null);
    check(is_refused(DEMNYALUZ_REFUSAL_MALFORMED_RECORD), "code 15");
    RUN(.code = 17, .value = null);
    check(is_refused(DEMNYALUZ_REFUSAL_MALFORMED_RECORD), "code 17 with a value");

    /* the object of a step is a number, and two codes take no function */
    RUN(.code = DEMNYALUZ_CODE_MAKE_PROXY, .object = 0, .value = demnyaluz_from_integer32(0));
    check(is_refused(DEMNYALUZ_REFUSAL_UNUSABLE_PART), "a proxy over a function");
    RUN(.code = DEMNYALUZ_CODE_MAKE_PROXY, .object = 4, .value = demnyaluz_from_integer32(0));
    check(is_refused(DEMNYALUZ_REFUSAL_OBJECT_NEVER_MADE), "a proxy over nothing");
    RUN(.code = DEMNYALUZ_CODE_REVOKE, .object = 2);
    check(is_refused(DEMNYALUZ_REFUSAL_UNUSABLE_PART), "a function revoked");
    RUN(.code = DEMNYALUZ_CODE_IS_EXTENSIBLE, .object = 4);
    check(is_refused(DEMNYALUZ_REFUSAL_OBJECT_NEVER_MADE), "an object that is not there");

    /* 2 before 3, and 3 before 4 */
    RUN(.code = DEMNYALUZ_CODE_SET, .object = 0, .key = symbol(7), .value = object(0), .receiver = function(9));
    check(is_refused(DEMNYALUZ_REFUSAL_OBJECT_NEVER_MADE), "2 before 3");
    RUN(.code = DEMNYALUZ_CODE_DEFINE_OWN_PROPERTY, .object = 0, .key = symbol(7), .descriptor = accessor(object(1), object(0)));
    check(is_refused(DEMNYALUZ_REFUSAL_UNUSABLE_PART), "3 before 4");
    RUN(.code = DEMNYALUZ_CODE_DEFINE_OWN_PROPERTY, .object = 0, .key = symbol(7), .descriptor = accessor(object(1), function(0)));
    check(is_refused(DEMNYALUZ_REFUSAL_UNUSABLE_DESCRIPTOR), "a getter that is no function");
    RUN(.code = DEMNYALUZ_CODE_DEFINE_OWN_PROPERTY, .object = 0, .key = symbol(256), .descriptor = data(null));
    check(is_refused(DEMNYALUZ_REFUSAL_UNUSABLE_PART), "a symbol above 255");
}

/* 32 objects and functions, every third an object. */
static void fill(void)
{
    for (uint64_t number = words[0]; number < DEMNYALUZ_MAXIMUM_OBJECTS; number++) {
        const bool callable = number % 3 != 0;
        RUN(.code = callable ? DEMNYALUZ_CODE_MAKE_FUNCTION : DEMNYALUZ_CODE_MAKE_OBJECT, .value = null);
        check(is_result(callable ? function(number) : object(number), 0, 0), "the next number");
    }
    RUN(.code = DEMNYALUZ_CODE_MAKE_FUNCTION, .value = null);
    check(is_refused(DEMNYALUZ_REFUSAL_STORE_FULL), "a function too many");
    RUN(.code = DEMNYALUZ_CODE_MAKE_OBJECT, .value = function(31));
    check(is_refused(DEMNYALUZ_REFUSAL_STORE_FULL), "an object too many");
    RUN(.code = DEMNYALUZ_CODE_MAKE_PROXY, .object = 30, .value = demnyaluz_from_integer32(0));
    check(is_refused(DEMNYALUZ_REFUSAL_STORE_FULL), "a proxy too many");
    RUN(.code = DEMNYALUZ_CODE_MAKE_PROXY, .object = 31, .value = demnyaluz_from_integer32(0));
    check(is_refused(DEMNYALUZ_REFUSAL_UNUSABLE_PART), "3 before 7");
    for (uint64_t number = 0; words[1] < DEMNYALUZ_MAXIMUM_PROPERTIES; number++) {
        RUN(.code = DEMNYALUZ_CODE_SET, .object = 31, .key = symbol(number), .value = null, .receiver = function(31));
        check(is_result(boolean(true), 0, 7), "a property of the last function");
    }
    RUN(.code = DEMNYALUZ_CODE_DEFINE_OWN_PROPERTY, .object = 0, .key = symbol(255), .descriptor = data(null));
    check(is_refused(DEMNYALUZ_REFUSAL_STORE_FULL), "a property too many");
}

int main(void)
{
    memset(words, 0xff, sizeof words);
    memset(strings, 0xff, sizeof strings);
    check(demnyaluz_empty_store(words, DEMNYALUZ_STORE_WORDS) && demnyaluz_empty_strings(strings, DEMNYALUZ_STRING_CELLS), "empty memory");
    check(words[0] == 0 && words[1] == 0 && words[2] == 0 && words[3] == 0, "no objects, no properties, no marks");
    words[2] = UINT64_MAX; /* marks of what was never made */
    make();
    use();
    answer();
    refuse_all();
    fill();
    printf("functions: %d checks hold\n", checks);
    return 0;
}
