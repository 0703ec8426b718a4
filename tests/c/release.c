/*
 * Releases through include/demnyaluz.h: of every sort of object, and what is refused of them; the numbers that are taken again, the properties that make
 * room, and the words of the store after each.
 */
#include "stepping.h"

static const struct demnyaluz_value undefined = {DEMNYALUZ_KIND_UNDEFINED, 0}, yes = {DEMNYALUZ_KIND_BOOLEAN, 1};

static struct demnyaluz_descriptor data(struct demnyaluz_value value)
{
    const struct demnyaluz_descriptor descriptor = {
        .mask = DEMNYALUZ_FIELD_ENUMERABLE | DEMNYALUZ_FIELD_CONFIGURABLE | DEMNYALUZ_FIELD_WRITABLE | DEMNYALUZ_FIELD_VALUE,
        .booleans = DEMNYALUZ_FIELD_CONFIGURABLE,
        .value = value,
    };
    return descriptor;
}

static struct demnyaluz_descriptor accessor(struct demnyaluz_value get, struct demnyaluz_value set)
{
    const struct demnyaluz_descriptor descriptor = {
        .mask = DEMNYALUZ_FIELD_ENUMERABLE | DEMNYALUZ_FIELD_CONFIGURABLE | DEMNYALUZ_FIELD_GET | DEMNYALUZ_FIELD_SET,
        .booleans = DEMNYALUZ_FIELD_CONFIGURABLE,
        .get = get,
        .set = set,
    };
    return descriptor;
}

static void empty(void)
{
    memset(words, 0xff, sizeof words);
    memset(strings, 0xff, sizeof strings);
    check(demnyaluz_empty_store(words, DEMNYALUZ_STORE_WORDS) && demnyaluz_empty_strings(strings, DEMNYALUZ_STRING_CELLS), "empty memory");
    check(words[0] == 0 && words[1] == 0 && words[2] == 0 && words[3] == 0 && words[4] == 0, "no number, no property, no mark, nothing released");
}

static void make_object(struct demnyaluz_value prototype, uint64_t number)
{
    RUN(.code = DEMNYALUZ_CODE_MAKE_OBJECT, .value = prototype);
    check(is_result(object(number), 0, 0), "an object and its number");
}

static void make_function(struct demnyaluz_value prototype, uint64_t number)
{
    RUN(.code = DEMNYALUZ_CODE_MAKE_FUNCTION, .value = prototype);
    check(is_result(function(number), 0, 0), "a function and its number");
}

static void make_proxy(uint8_t target, int32_t traps, uint64_t number)
{
    RUN(.code = DEMNYALUZ_CODE_MAKE_PROXY, .object = target, .value = demnyaluz_from_integer32(traps));
    check(is_result(object(number), 0, 0), "a proxy and its number");
}

static void define(uint8_t o, uint64_t key, struct demnyaluz_descriptor descriptor)
{
    RUN(.code = DEMNYALUZ_CODE_DEFINE_OWN_PROPERTY, .object = o, .key = symbol(key), .descriptor = descriptor);
    check(is_result(yes, 0, 3), "a property is defined");
}

static void delete_key(uint8_t o, uint64_t key)
{
    RUN(.code = DEMNYALUZ_CODE_DELETE, .object = o, .key = symbol(key));
    check(is_result(yes, 0, 2), "a property is deleted");
}

static void revoke(uint8_t o)
{
    RUN(.code = DEMNYALUZ_CODE_REVOKE, .object = o);
    check(is_result(yes, 0, 0), "a proxy is revoked");
}

static void set_prototype(uint8_t o, struct demnyaluz_value prototype)
{
    RUN(.code = DEMNYALUZ_CODE_SET_PROTOTYPE_OF, .object = o, .value = prototype);
    check(is_result(yes, 0, 1), "a prototype is set");
}

/* A release, and what it does to the first words: the number is the last of those released, and no other object's words change. */
static void release(uint8_t o, uint64_t properties)
{
    RUN(.code = DEMNYALUZ_CODE_RELEASE, .object = o);
    check(is_result(yes, 0, 0), "a release answers true, without calls");
    check(words[0] == before[0], "the numbers in use, released ones included");
    check(words[1] == before[1] - properties, "its properties are gone");
    check((before[3] >> o & 1) == 1 && words[3] == (before[3] ^ (uint64_t)1 << o), "it is not live");
    check(words[4] == before[4] + 1 && words[5] == before[5], "one number more is released");
    check(words[6 + (before[5] + before[4]) % 32] == o, "at its place, the last");
    for (uint64_t other = 0; other < 32; other++)
        if ((words[3] >> other & 1) == 1)
            check(memcmp(words + 38 + 3 * other, before + 38 + 3 * other, 3 * sizeof *words) == 0, "the words of another object");
    RUN(.code = DEMNYALUZ_CODE_RELEASE, .object = o);
    check(is_refused(DEMNYALUZ_REFUSAL_OBJECT_NEVER_MADE), "a second release");
}

static void is_named(uint8_t o, const char *what)
{
    RUN(.code = DEMNYALUZ_CODE_RELEASE, .object = o);
    check(is_refused(DEMNYALUZ_REFUSAL_STILL_NAMED), what);
}

/* Every sort of object: ordinary, closed, frozen with properties, a function, a proxy, a revoked proxy, a proxy over a proxy. */
static void sorts(void)
{
    const struct demnyaluz_value frozen = demnyaluz_from_integer32(DEMNYALUZ_LEVEL_FROZEN);
    empty();
    RUN(.code = DEMNYALUZ_CODE_RELEASE);
    check(is_refused(DEMNYALUZ_REFUSAL_OBJECT_NEVER_MADE), "in an empty store");
    make_object(null, 0);
    make_object(object(0), 1);
    make_function(object(0), 2);
    make_proxy(0, 2047, 3);
    make_proxy(3, 0, 4);
    make_proxy(0, 0, 5);
    make_object(null, 6);
    check(words[0] == 7 && words[3] == 127 && words[4] == 0, "seven live objects");
    define(0, 0, data(demnyaluz_from_integer32(1)));
    define(1, 0, data(object(0)));
    define(2, 1, data(null));
    define(1, 1, accessor(function(2), undefined));
    define(0, 2, data(symbol(3)));
    RUN(.code = DEMNYALUZ_CODE_SET_INTEGRITY_LEVEL, .object = 1, .value = frozen);
    check(is_result(yes, 0, 10), "object 1 is frozen");
    RUN(.code = DEMNYALUZ_CODE_PREVENT_EXTENSIONS, .object = 6);
    check(is_result(yes, 0, 1), "object 6 is closed");
    is_named(0, "a prototype, a value and a target");
    is_named(2, "a getter");
    is_named(3, "the target of a proxy");
    release(6, 0);
    release(1, 2);
    release(2, 1);
    release(4, 0);
    is_named(0, "the target of two proxies");
    revoke(5);
    is_named(0, "the target of one");
    release(3, 0);
    release(0, 2);
    release(5, 0);
    check(words[0] == 7 && words[1] == 0 && words[3] == 0 && words[4] == 7, "nothing is live");
    /* in the order of the releases, then the next unused one; the new ones are new */
    static const uint8_t order[] = {6, 1, 2, 4, 3, 0, 5, 7, 8};
    for (size_t i = 0; i < sizeof order; i++) {
        if (i % 2 == 0)
            make_object(null, order[i]);
        else
            make_function(null, order[i]);
        check(words[0] == (i < 7 ? 7 : i + 1) && words[4] == (i < 7 ? 6 - i : 0), "the numbers that are left");
        check((words[2] >> order[i] & 1) == i % 2, "its mark");
        RUN(.code = DEMNYALUZ_CODE_OWN_PROPERTY_KEYS, .object = order[i]);
        check(is_report(DEMNYALUZ_OUTCOME_RESULT, 0, 0, 1) && report().keys == 0, "no keys");
        RUN(.code = DEMNYALUZ_CODE_IS_EXTENSIBLE, .object = order[i]);
        check(is_result(yes, 0, 1), "extensible");
    }
}

/* Each way to name an object, and its end. Object 0 and function 1 are named by 2, by themselves, or by a proxy that is then 3. */
static void names(void)
{
    for (int way = 0; way < 12; way++) {
        const uint8_t o = way == 0 || way == 2 || way == 6 || way >= 10 ? 0 : 1;
        const struct demnyaluz_value it = o == 0 ? object(0) : function(1);
        empty();
        make_object(null, 0);
        make_function(null, 1);
        make_object(null, 2);
        if (way < 2)
            set_prototype(2, it);
        else if (way < 4)
            define(2, 0, data(it));
        else if (way < 6)
            define(2, 0, way == 4 ? accessor(it, undefined) : accessor(undefined, it));
        else if (way < 8)
            define(o, 0, data(it));
        else if (way < 10)
            define(o, 0, way == 8 ? accessor(it, undefined) : accessor(undefined, it));
        else
            make_proxy(o, way == 10 ? 0 : 2047, 3);
        is_named(o, "an object that is named");
        run_answered((struct demnyaluz_step_parts){.code = DEMNYALUZ_CODE_RELEASE, .object = o}, DEMNYALUZ_ANSWER_VALUE, null);
        check(is_refused(DEMNYALUZ_REFUSAL_STILL_NAMED), "before unread answers");
        run_answered((struct demnyaluz_step_parts){.code = DEMNYALUZ_CODE_RELEASE, .object = o}, DEMNYALUZ_ANSWER_VALUE, object(9));
        check(is_refused(DEMNYALUZ_REFUSAL_STILL_NAMED), "before refusal 2 of the sheet");
        run_answered((struct demnyaluz_step_parts){.code = DEMNYALUZ_CODE_RELEASE, .object = o}, 9, null);
        check(is_refused(DEMNYALUZ_REFUSAL_STILL_NAMED), "before refusal 1 of the sheet");
        RUN(.code = DEMNYALUZ_CODE_RELEASE, .object = o, .value = object(9));
        check(is_refused(DEMNYALUZ_REFUSAL_MALFORMED_RECORD), "after 1");
        RUN(.code = DEMNYALUZ_CODE_RELEASE, .object = 9);
        check(is_refused(DEMNYALUZ_REFUSAL_OBJECT_NEVER_MADE), "after 2");
        if (way < 2)
            set_prototype(2, null);
        else if (way < 4)
            release(2, 1);
        else if (way < 6)
            delete_key(2, 0);
        else if (way < 10)
            define(o, 0, data(null));
        else
            revoke(3);
        run_answered((struct demnyaluz_step_parts){.code = DEMNYALUZ_CODE_RELEASE, .object = o}, DEMNYALUZ_ANSWER_VALUE, null);
        check(is_refused(DEMNYALUZ_REFUSAL_UNREAD_ANSWERS), "with an answer that nothing reads");
        run_answered((struct demnyaluz_step_parts){.code = DEMNYALUZ_CODE_RELEASE, .object = o}, DEMNYALUZ_ANSWER_THROW, object(9));
        check(is_refused(DEMNYALUZ_REFUSAL_OBJECT_NEVER_MADE), "with one that names nothing");
        release(o, way >= 6 && way < 10);
    }
}

/* Parts that code 17 does not use. */
static void parts(void)
{
    empty();
    make_object(null, 0);
    RUN(.code = DEMNYALUZ_CODE_RELEASE, .key = symbol(0));
    check(is_refused(DEMNYALUZ_REFUSAL_MALFORMED_RECORD), "with a key");
    RUN(.code = DEMNYALUZ_CODE_RELEASE, .value = null);
    check(is_refused(DEMNYALUZ_REFUSAL_MALFORMED_RECORD), "with a value");
    RUN(.code = DEMNYALUZ_CODE_RELEASE, .receiver = object(0));
    check(is_refused(DEMNYALUZ_REFUSAL_MALFORMED_RECORD), "with a receiver");
    RUN(.code = DEMNYALUZ_CODE_RELEASE, .descriptor = data(null));
    check(is_refused(DEMNYALUZ_REFUSAL_MALFORMED_RECORD), "with a descriptor");
    release(0, 0);
}

/* Object 1, a function or not, is released: refusal 2 wherever its number stands. Object 0 is ordinary, 2 a proxy with every trap, 3 a function. */
static void refuse_released(void)
{
    static const uint8_t tags[] = {DEMNYALUZ_ANSWER_VALUE, DEMNYALUZ_ANSWER_THROW};
    for (int callable = 0; callable < 2; callable++) {
        empty();
        make_object(null, 0);
        if (callable)
            make_function(null, 1);
        else
            make_object(null, 1);
        make_proxy(0, 2047, 2);
        make_function(null, 3);
        release(1, 0);
        const struct demnyaluz_value names[] = {object(1), function(1)};
        for (uint8_t code = 2; code <= 19; code++) {
            if (code == 15 || code == 16)
                continue;
            struct demnyaluz_step_parts step = {.code = code, .object = 1};
            if (code >= 8 && code <= 13)
                step.key = symbol(0);
            if (code == 2 || code > 17)
                step.value = demnyaluz_from_integer32(0);
            if (code == 5)
                step.value = null;
            run(step);
            check(is_refused(DEMNYALUZ_REFUSAL_OBJECT_NEVER_MADE), "as the object of each code");
        }
        for (size_t i = 0; i < 2; i++) {
            RUN(.code = DEMNYALUZ_CODE_MAKE_OBJECT, .value = names[i]);
            check(is_refused(DEMNYALUZ_REFUSAL_OBJECT_NEVER_MADE), "as the prototype of an object");
            RUN(.code = DEMNYALUZ_CODE_MAKE_FUNCTION, .value = names[i]);
            check(is_refused(DEMNYALUZ_REFUSAL_OBJECT_NEVER_MADE), "as the prototype of a function");
            RUN(.code = DEMNYALUZ_CODE_SET_PROTOTYPE_OF, .object = 0, .value = names[i]);
            check(is_refused(DEMNYALUZ_REFUSAL_OBJECT_NEVER_MADE), "as a prototype to set");
            RUN(.code = DEMNYALUZ_CODE_GET, .object = 0, .key = symbol(0), .receiver = names[i]);
            check(is_refused(DEMNYALUZ_REFUSAL_OBJECT_NEVER_MADE), "as the receiver of code 11");
            RUN(.code = DEMNYALUZ_CODE_SET, .object = 0, .key = symbol(0), .value = null, .receiver = names[i]);
            check(is_refused(DEMNYALUZ_REFUSAL_OBJECT_NEVER_MADE), "as the receiver of code 12");
            RUN(.code = DEMNYALUZ_CODE_SET, .object = 0, .key = symbol(0), .value = names[i], .receiver = object(0));
            check(is_refused(DEMNYALUZ_REFUSAL_OBJECT_NEVER_MADE), "as a value");
            RUN(.code = DEMNYALUZ_CODE_HAS_PROPERTY, .object = 0, .key = names[i]);
            check(is_refused(DEMNYALUZ_REFUSAL_OBJECT_NEVER_MADE), "as a key");
            for (size_t tag = 0; tag < 2; tag++) {
                run_answered((struct demnyaluz_step_parts){.code = DEMNYALUZ_CODE_IS_EXTENSIBLE, .object = 2}, tags[tag], names[i]);
                check(is_refused(DEMNYALUZ_REFUSAL_OBJECT_NEVER_MADE), "as an answer");
            }
            const struct demnyaluz_descriptor descriptors[] = {data(names[i]), accessor(names[i], function(3)), accessor(function(3), names[i])};
            for (size_t d = 0; d < 3; d++) {
                uint8_t bytes[DEMNYALUZ_DESCRIPTOR_BYTES], sheet[2 + DEMNYALUZ_DESCRIPTOR_BYTES] = {1, DEMNYALUZ_ANSWER_DESCRIPTOR};
                demnyaluz_write_descriptor(bytes, &descriptors[d]);
                demnyaluz_write_descriptor(sheet + 2, &descriptors[d]);
                RUN(.code = DEMNYALUZ_CODE_DEFINE_OWN_PROPERTY, .object = 0, .key = symbol(0), .descriptor = descriptors[d]);
                check(is_refused(DEMNYALUZ_REFUSAL_OBJECT_NEVER_MADE), "in a descriptor");
                const struct demnyaluz_step_parts own = {.code = DEMNYALUZ_CODE_GET_OWN_PROPERTY, .object = 2, .key = symbol(0)};
                uint8_t step[DEMNYALUZ_STEP_BYTES];
                demnyaluz_write_step(step, &own);
                demnyaluz_step(MEMORY, step, sizeof step, sheet, sizeof sheet, output, sizeof output, report_words);
                check(is_refused(DEMNYALUZ_REFUSAL_OBJECT_NEVER_MADE), "in an answered descriptor");
                demnyaluz_complete(MEMORY, bytes, sizeof bytes, report_words);
                check(is_refused(DEMNYALUZ_REFUSAL_OBJECT_NEVER_MADE), "completed by itself");
                uint64_t test = UINT64_MAX;
                check(!demnyaluz_validate(MEMORY, true, bytes, sizeof bytes, NULL, 0, report_words, &test) && test == 0
                          && is_refused(DEMNYALUZ_REFUSAL_OBJECT_NEVER_MADE),
                      "validated by itself");
                demnyaluz_merge(MEMORY, bytes, sizeof bytes, bytes, sizeof bytes, report_words);
                check(is_refused(DEMNYALUZ_REFUSAL_OBJECT_NEVER_MADE), "merged by itself");
            }
            uint8_t keys[4 + 2 * DEMNYALUZ_VALUE_BYTES] = {1, DEMNYALUZ_ANSWER_KEYS, 2};
            demnyaluz_write_value(keys + 4, symbol(0));
            demnyaluz_write_value(keys + 4 + DEMNYALUZ_VALUE_BYTES, names[i]);
            const struct demnyaluz_step_parts list = {.code = DEMNYALUZ_CODE_OWN_PROPERTY_KEYS, .object = 2};
            uint8_t step[DEMNYALUZ_STEP_BYTES];
            demnyaluz_write_step(step, &list);
            demnyaluz_step(MEMORY, step, sizeof step, keys, sizeof keys, output, sizeof output, report_words);
            check(is_refused(DEMNYALUZ_REFUSAL_OBJECT_NEVER_MADE), "in a list of keys");
        }
        demnyaluz_page(MEMORY, 1, output, sizeof output, report_words);
        check(is_refused(DEMNYALUZ_REFUSAL_OBJECT_NEVER_MADE), "its page");
        /* the number is another object's now, and refusal 3 is of its kind */
        if (callable)
            make_object(null, 1);
        else
            make_function(null, 1);
        RUN(.code = DEMNYALUZ_CODE_GET, .object = 0, .key = symbol(0), .receiver = names[callable]);
        check(is_refused(DEMNYALUZ_REFUSAL_UNUSABLE_PART), "under the kind that it had");
        RUN(.code = DEMNYALUZ_CODE_GET, .object = 0, .key = symbol(0), .receiver = names[!callable]);
        check(is_result(undefined, 0, 3), "under the kind that it has");
    }
}

/* 32 live objects at most, of whatever numbers; each number is taken again in the order of the releases, and the places go around. */
static void numbers(void)
{
    empty();
    for (uint64_t number = 0; number < DEMNYALUZ_MAXIMUM_OBJECTS; number++)
        make_object(null, number);
    for (uint8_t turn = 0; turn < 40; turn++) {
        const uint8_t first = (uint8_t)(11 * turn % 32), second = (uint8_t)((first + 5) % 32), third = (uint8_t)((first + 17) % 32);
        RUN(.code = DEMNYALUZ_CODE_MAKE_OBJECT, .value = null);
        check(is_refused(DEMNYALUZ_REFUSAL_STORE_FULL), "an object too many");
        RUN(.code = DEMNYALUZ_CODE_MAKE_PROXY, .object = first, .value = demnyaluz_from_integer32(0));
        check(is_refused(DEMNYALUZ_REFUSAL_STORE_FULL), "a proxy too many");
        release(third, 0);
        release(first, 0);
        make_object(null, third);
        release(second, 0);
        make_proxy(third, 0, first);
        make_object(null, second);
        RUN(.code = DEMNYALUZ_CODE_MAKE_FUNCTION, .value = null);
        check(is_refused(DEMNYALUZ_REFUSAL_STORE_FULL), "a function too many");
        release(first, 0);
        make_object(null, first);
        check(words[0] == 32 && words[3] == 0xffffffffu && words[4] == 0, "32 live objects");
    }
    for (uint8_t o = 0; o < 32; o++)
        release((uint8_t)(31 - o), 0);
    check(words[3] == 0 && words[4] == 32, "all are released");
    for (uint64_t o = 0; o < 32; o++)
        make_function(null, 31 - o);
    RUN(.code = DEMNYALUZ_CODE_MAKE_FUNCTION, .value = null);
    check(is_refused(DEMNYALUZ_REFUSAL_STORE_FULL), "32 functions are live");
}

/* 256 properties of three objects by turns: those of the one that goes make room, and the others stay in their order. */
static void properties(void)
{
    empty();
    for (uint64_t number = 0; number < 3; number++)
        make_object(null, number);
    for (uint64_t n = 0; n < DEMNYALUZ_MAXIMUM_PROPERTIES; n++)
        define((uint8_t)(n % 4 == 3 ? 1 : n % 4), n, data(demnyaluz_from_integer32((int32_t)n)));
    RUN(.code = DEMNYALUZ_CODE_DEFINE_OWN_PROPERTY, .object = 0, .key = symbol(1), .descriptor = data(null));
    check(is_refused(DEMNYALUZ_REFUSAL_STORE_FULL), "a property too many");
    release(1, 128);
    for (uint64_t i = 0; i < 128; i++) {
        const uint64_t n = 4 * (i / 2) + 2 * (i % 2);
        check(words[134 + i] == n % 4 + 32 + 64 * n, "the key words that are left, in their order");
        check(words[390 + 5 * i + 1] == DEMNYALUZ_KIND_INTEGER32 && words[390 + 5 * i + 2] == n, "and their properties");
    }
    RUN(.code = DEMNYALUZ_CODE_OWN_PROPERTY_KEYS, .object = 2);
    check(is_report(DEMNYALUZ_OUTCOME_RESULT, 0, 0, 1) && report().keys == 64, "the keys of object 2");
    for (uint64_t i = 0; i < 64; i++) {
        const struct demnyaluz_value key = demnyaluz_read_value(output + DEMNYALUZ_VALUE_BYTES * i);
        check(key.kind == DEMNYALUZ_KIND_SYMBOL && key.payload == 4 * i + 2, "each of them");
    }
    make_function(null, 1);
    for (uint64_t n = 0; n < 128; n++)
        define(1, n, data(null));
    RUN(.code = DEMNYALUZ_CODE_DEFINE_OWN_PROPERTY, .object = 1, .key = symbol(200), .descriptor = data(null));
    check(is_refused(DEMNYALUZ_REFUSAL_STORE_FULL), "256 properties again");
    release(0, 64);
    release(1, 128);
    release(2, 64);
    check(words[1] == 0, "no properties");
    make_object(null, 0);
    for (uint64_t n = 0; n < DEMNYALUZ_MAXIMUM_PROPERTIES; n++)
        define(0, n, data(null));
    release(0, 256);
}

/* A revoked proxy, whose target is gone: the number is that of a proxy over it, then of a function. */
static void revoked(void)
{
    empty();
    make_object(null, 0);
    make_proxy(0, 0, 1);
    revoke(1);
    release(0, 0);
    make_proxy(1, 0, 0);
    RUN(.code = DEMNYALUZ_CODE_IS_EXTENSIBLE, .object = 0);
    check(is_report(DEMNYALUZ_OUTCOME_TYPE_ERROR, DEMNYALUZ_MESSAGE_REVOKED_PROXY, 0, 2), "a call ends at the revoked proxy");
    is_named(1, "a revoked proxy has a name too");
    release(0, 0);
    make_function(null, 0);
    RUN(.code = DEMNYALUZ_CODE_IS_EXTENSIBLE, .object = 1);
    check(is_report(DEMNYALUZ_OUTCOME_TYPE_ERROR, DEMNYALUZ_MESSAGE_REVOKED_PROXY, 0, 1), "nothing is behind it");
    revoke(1);
    release(0, 0);
    release(1, 0);
}

int main(void)
{
    sorts();
    names();
    parts();
    refuse_released();
    numbers();
    properties();
    revoked();
    printf("release: %d checks hold\n", checks);
    return 0;
}
