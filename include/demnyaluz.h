/*
 * Property descriptors, ordinary objects, functions and proxies of ECMA-262 (2024) over a fixed store.
 *
 * A function is an ordinary object that can be called. It has no code: a call of it takes an answer that comes with the step.
 *
 * Every function is proved against definitions written from the standard, takes memory of any content and length, and ends.
 *
 * Memory. The caller lends all of it; nothing is allocated and nothing is kept between calls. There is no global state: calls on different
 * memory may run at the same time in different threads, calls that share memory which one of them writes may not.
 *   words     the store: DEMNYALUZ_STORE_WORDS words of 64 bits
 *   strings   the table of strings: DEMNYALUZ_STRING_CELLS cells of 16 bits
 *   output    where the keys of an [[OwnPropertyKeys]] result go, 9 bytes each, or a page; DEMNYALUZ_OUTPUT_BYTES hold every list of keys,
 *             DEMNYALUZ_PAGE_BYTES every page
 *   report    ten words
 *   test      one word
 * Memory that is all zeros is an empty store and an empty table; demnyaluz_empty_store and demnyaluz_empty_strings make memory of any content so.
 * Each pointer is good for its length. Where a length is 0 its pointer is neither read nor written through, and may be null; a report, a test
 * and a result have no length and are never null. What a call writes overlaps nothing else that it is lent. A step of 2,048 nested calls
 * runs in a stack of 1 MB.
 *
 * A store or table of another length, or whose counts or marks exceed what it can hold, is refused as 1, and so is a record of a wrong length. A
 * refusal changes nothing. Only a result changes the store, but for code 18, of which a TypeError or a throw leaves what was changed before it.
 *
 * Numbers of objects are used again. Code 17 releases an object that no live object names, and its properties with it; from then on its number
 * counts as never made. The next object made takes the number that was released longest ago or, with none released, the next unused one.
 *
 * Records are bytes, integers little-endian. Inline functions below write them from structs.
 *   value       9: a kind, then a payload of 8 with unused bytes zero
 *   descriptor 29: a presence mask, a byte of booleans at the mask's first three bits, then value, get and set; absent parts are zero
 *   step       58: code and object (1 each), key (9), value (9), receiver (9), descriptor (29); parts that a code does not use are zero
 *   sheet       a count of answers (one byte, 0 to 64), then the answers: a tag, then a value, a descriptor, or a list, which is a count
 *               (two bytes, at most 256) and values. Each call of a trap, a getter or a setter takes the next answer.
 *
 * What the memory holds is read through steps and pages. How it is laid out today, which later versions may change:
 *   words     0 numbers in use so far, released ones included, 1 properties, 2 marks: bit o is set where object o is a function; 3 marks: bit o is
 *             set where object o is live; 4 released numbers, 5 the place of the one released longest ago, from 6 on 32 places for them, after
 *             the last of which comes the first again; from 38 on 32 objects of 3 words: 0 or 1 (not extensible, extensible), then the kind and
 *             payload of the prototype; or 2 or 3 (a proxy, a revoked one), then target and traps; from 134 on 256 key words: owner + 64 *
 *             string, or owner + 32 + 64 * symbol; from 390 on 256 properties of 5 words: flags, then kind and payload of value or getter and of
 *             the setter. Properties are in the order of creation. The marks of functions, the three words of an object and the places of
 *             released numbers say nothing where the object is not live or the place not taken.
 *   strings   0 strings entered; then 256 rows: a length, and 32 code units
 */
#ifndef DEMNYALUZ_H
#define DEMNYALUZ_H

#include <stdbool.h>
#include <stddef.h>
#include <stdint.h>
#include <string.h>

#ifdef __cplusplus
extern "C" {
#endif

enum {
    DEMNYALUZ_STORE_WORDS = 1670,
    DEMNYALUZ_STRING_CELLS = 8449,
    DEMNYALUZ_REPORT_WORDS = 10,
    DEMNYALUZ_VALUE_BYTES = 9,
    DEMNYALUZ_DESCRIPTOR_BYTES = 29,
    DEMNYALUZ_STEP_BYTES = 58,
    DEMNYALUZ_OUTPUT_BYTES = 2304,
    DEMNYALUZ_PAGE_LINE = 47,       /* a line of a page, its line feed counted */
    DEMNYALUZ_PAGE_BYTES = 12079,   /* the longest page: the names and 256 properties */
    DEMNYALUZ_LONGEST_MESSAGE = 90, /* the longest text */
    DEMNYALUZ_TEXT_STATE = 10,      /* words */
    DEMNYALUZ_TEXT_LINE = 16384,    /* the longest line, its line feed not counted */
    DEMNYALUZ_TEXT_ROW = 4800,      /* holds every row, and the heading with row 0 */

    DEMNYALUZ_MAXIMUM_OBJECTS = 32, /* live ones, functions and proxies included */
    DEMNYALUZ_MAXIMUM_PROPERTIES = 256,
    DEMNYALUZ_MAXIMUM_STRINGS = 256,
    DEMNYALUZ_MAXIMUM_UNITS = 32, /* code units of a string */
    DEMNYALUZ_MAXIMUM_ANSWERS = 64,
    DEMNYALUZ_MAXIMUM_KEYS = 256,
    DEMNYALUZ_MAXIMUM_CALLS = 2048
};

/* Where the parts of a step begin. */
enum demnyaluz_step_offset {
    DEMNYALUZ_STEP_CODE = 0,
    DEMNYALUZ_STEP_OBJECT = 1,
    DEMNYALUZ_STEP_KEY = 2,
    DEMNYALUZ_STEP_VALUE = 11,
    DEMNYALUZ_STEP_RECEIVER = 20,
    DEMNYALUZ_STEP_DESCRIPTOR = 29
};

/* Where the parts of a descriptor begin. */
enum demnyaluz_descriptor_offset {
    DEMNYALUZ_DESCRIPTOR_MASK = 0,
    DEMNYALUZ_DESCRIPTOR_BOOLEANS = 1,
    DEMNYALUZ_DESCRIPTOR_VALUE = 2,
    DEMNYALUZ_DESCRIPTOR_GET = 11,
    DEMNYALUZ_DESCRIPTOR_SET = 20
};

/* Kinds of values, and what the payload is. */
enum demnyaluz_kind {
    DEMNYALUZ_KIND_UNDEFINED = 0,
    DEMNYALUZ_KIND_NULL = 1,
    DEMNYALUZ_KIND_BOOLEAN = 2,   /* 0 or 1 */
    DEMNYALUZ_KIND_INTEGER32 = 3, /* two's complement, 4 bytes */
    DEMNYALUZ_KIND_FLOAT64 = 4,   /* its bits; every NaN comes back as 0x7ff8000000000000 */
    DEMNYALUZ_KIND_STRING = 5,    /* the number that entering it answered */
    DEMNYALUZ_KIND_SYMBOL = 6,    /* 0 to 255 */
    DEMNYALUZ_KIND_OBJECT = 7,    /* no function: the number that making it answered, until it is released */
    DEMNYALUZ_KIND_FUNCTION = 8   /* the number that making it answered; functions and other objects share their numbers */
};

/*
 * Fields of a descriptor: the presence mask; the first three are also the places of the booleans.
 * WARNING: a property in a report has other bits, DEMNYALUZ_FLAG_*, so that 2 is configurable here and writable there.
 * demnyaluz_property_descriptor goes from one to the other.
 */
enum demnyaluz_field {
    DEMNYALUZ_FIELD_ENUMERABLE = 1,
    DEMNYALUZ_FIELD_CONFIGURABLE = 2,
    DEMNYALUZ_FIELD_WRITABLE = 4,
    DEMNYALUZ_FIELD_VALUE = 8,
    DEMNYALUZ_FIELD_GET = 16,
    DEMNYALUZ_FIELD_SET = 32
};

/* Codes of steps, and the parts that each uses. The object is a number alone: that of a function too, but for codes 2 and 3. */
enum demnyaluz_code {
    DEMNYALUZ_CODE_MAKE_OBJECT = 1,          /* value: the prototype, null, an object or a function; answers the new object */
    DEMNYALUZ_CODE_MAKE_PROXY = 2,           /* object: the target, no function; value: Integer32, the traps; answers the new object */
    DEMNYALUZ_CODE_REVOKE = 3,               /* object: a proxy; answers true */
    DEMNYALUZ_CODE_GET_PROTOTYPE_OF = 4,     /* object */
    DEMNYALUZ_CODE_SET_PROTOTYPE_OF = 5,     /* object; value: null, an object or a function */
    DEMNYALUZ_CODE_IS_EXTENSIBLE = 6,        /* object */
    DEMNYALUZ_CODE_PREVENT_EXTENSIONS = 7,   /* object */
    DEMNYALUZ_CODE_GET_OWN_PROPERTY = 8,     /* object, key */
    DEMNYALUZ_CODE_DEFINE_OWN_PROPERTY = 9,  /* object, key, descriptor */
    DEMNYALUZ_CODE_HAS_PROPERTY = 10,        /* object, key */
    DEMNYALUZ_CODE_GET = 11,                 /* object, key, receiver */
    DEMNYALUZ_CODE_SET = 12,                 /* object, key, value, receiver */
    DEMNYALUZ_CODE_DELETE = 13,              /* object, key */
    DEMNYALUZ_CODE_OWN_PROPERTY_KEYS = 14,   /* object */
    DEMNYALUZ_CODE_MAKE_FUNCTION = 16,       /* value: the prototype, as for code 1; answers the new function */
    DEMNYALUZ_CODE_RELEASE = 17,             /* object: one that no object names; answers true, makes no calls and takes no answers */
    DEMNYALUZ_CODE_SET_INTEGRITY_LEVEL = 18, /* object; value: Integer32, the level */
    DEMNYALUZ_CODE_TEST_INTEGRITY_LEVEL = 19 /* object; value: Integer32, the level */
};

/*
 * The levels of codes 18 and 19. Sealed: not extensible, and no own property is configurable. Frozen: besides, no own data is writable. Code 18
 * answers false where extensions cannot be prevented; a definition that is answered with false is message 32, and no later key is tried.
 */
enum demnyaluz_level {
    DEMNYALUZ_LEVEL_SEALED = 0,
    DEMNYALUZ_LEVEL_FROZEN = 1
};

/* The trap of a code from 4 to 14, in a proxy's trap mask. */
#define DEMNYALUZ_TRAP(code) (1u << ((code) - DEMNYALUZ_CODE_GET_PROTOTYPE_OF))

/* Tags of answers. */
enum demnyaluz_answer {
    DEMNYALUZ_ANSWER_VALUE = 1,
    DEMNYALUZ_ANSWER_DESCRIPTOR = 2,
    DEMNYALUZ_ANSWER_KEYS = 3,
    DEMNYALUZ_ANSWER_THROW = 4
};

/* The words of a report. What is not used is 0. */
enum demnyaluz_report_word {
    DEMNYALUZ_REPORT_OUTCOME = 0,
    DEMNYALUZ_REPORT_NUMBER = 1,  /* of the refusal or of the message */
    DEMNYALUZ_REPORT_ANSWERS = 2, /* used */
    DEMNYALUZ_REPORT_CALLS = 3,   /* of internal methods, the first included */
    DEMNYALUZ_REPORT_FORM = 4,
    DEMNYALUZ_REPORT_DETAIL = 5,  /* the flags of a property, how many keys there are, or how many bytes a page has */
    DEMNYALUZ_REPORT_KIND = 6,    /* of the value, a thrown one too, or of a property's value or getter */
    DEMNYALUZ_REPORT_PAYLOAD = 7,
    DEMNYALUZ_REPORT_SETTER_KIND = 8,
    DEMNYALUZ_REPORT_SETTER_PAYLOAD = 9
};

enum demnyaluz_outcome {
    DEMNYALUZ_OUTCOME_REFUSED = 0,
    DEMNYALUZ_OUTCOME_RESULT = 1,
    DEMNYALUZ_OUTCOME_TYPE_ERROR = 2,
    DEMNYALUZ_OUTCOME_THROWN = 3
};

/* What a result holds; a thrown value has the form of a value. */
enum demnyaluz_form {
    DEMNYALUZ_FORM_NOTHING = 0,
    DEMNYALUZ_FORM_VALUE = 1,
    DEMNYALUZ_FORM_PROPERTY = 2,
    DEMNYALUZ_FORM_ABSENT = 3,
    DEMNYALUZ_FORM_KEYS = 4,
    DEMNYALUZ_FORM_PAGE = 5
};

/* The flags of a property. WARNING: these are not the bits of a descriptor, DEMNYALUZ_FIELD_*. */
enum demnyaluz_flag {
    DEMNYALUZ_FLAG_ACCESSOR = 1,
    DEMNYALUZ_FLAG_WRITABLE = 2,
    DEMNYALUZ_FLAG_ENUMERABLE = 4,
    DEMNYALUZ_FLAG_CONFIGURABLE = 8
};

enum demnyaluz_refusal {
    DEMNYALUZ_REFUSAL_MALFORMED_RECORD = 1,    /* a wrong length, code, kind, mask, level, count or boolean, or a nonzero unused or absent part */
    DEMNYALUZ_REFUSAL_OBJECT_NEVER_MADE = 2,   /* or released: by the object's number, of a step or a page, or by a value of kind 7 or 8 */
    DEMNYALUZ_REFUSAL_UNUSABLE_PART = 3,       /* a string not entered or too long, a symbol above 255, a function as kind 7 or another object as
                                                  kind 8, a kind or an object that its step cannot use, a proxy for a page */
    DEMNYALUZ_REFUSAL_UNUSABLE_DESCRIPTOR = 4, /* mixed, or its get or set neither undefined nor a function */
    DEMNYALUZ_REFUSAL_INCOMPLETE_CURRENT = 5,  /* the current descriptor is generic or lacks a field that its kind needs */
    DEMNYALUZ_REFUSAL_DIFFERENT_KINDS = 6,     /* to be merged: one data, one accessor */
    DEMNYALUZ_REFUSAL_STORE_FULL = 7,          /* a 33rd live object or function, 257th property or 257th string */
    DEMNYALUZ_REFUSAL_SHEET_SPENT = 8,
    DEMNYALUZ_REFUSAL_UNREADABLE_ANSWER = 9,   /* of another form than is asked for, or an object or a function for a descriptor or for keys */
    DEMNYALUZ_REFUSAL_TOO_MANY_CALLS = 10,     /* a 2,049th */
    DEMNYALUZ_REFUSAL_OUTPUT_TOO_SMALL = 11,   /* for the keys of a result, or for a page */
    DEMNYALUZ_REFUSAL_BROKEN_LINE = 12,        /* of a text, tested before 1 */
    DEMNYALUZ_REFUSAL_UNREAD_ANSWERS = 13,     /* the step ends with answers that nothing took; after 7 to 10, before 11 */
    DEMNYALUZ_REFUSAL_STILL_NAMED = 14         /* to be released: a live object, itself too, has it as prototype, as value, getter or setter of a
                                                  property or, where that is a proxy that is not revoked, as target; after 3, before 4 */
};

/*
 * The tests of ValidateAndApplyPropertyDescriptor (10.1.6.3), in the order of its steps; the first that fails rejects the descriptor. Those from 2
 * on are of a property that is not configurable, and a descriptor without fields is accepted before them.
 */
enum demnyaluz_test {
    DEMNYALUZ_TEST_NONE = 0,         /* none fails: the descriptor is accepted, or the call is refused */
    DEMNYALUZ_TEST_EXTENSIBLE = 1,   /* 2.a: the property is absent, and its object is not extensible */
    DEMNYALUZ_TEST_CONFIGURABLE = 2, /* 5.a: configurable is to become true */
    DEMNYALUZ_TEST_ENUMERABLE = 3,   /* 5.b: enumerable is to change */
    DEMNYALUZ_TEST_KIND = 4,         /* 5.c: data is to become an accessor, or an accessor data */
    DEMNYALUZ_TEST_GET = 5,          /* 5.d.i: the getter is to change */
    DEMNYALUZ_TEST_SET = 6,          /* 5.d.ii: the setter is to change */
    DEMNYALUZ_TEST_WRITABLE = 7,     /* 5.e.i: data that is not writable is to become writable */
    DEMNYALUZ_TEST_VALUE = 8         /* 5.e.iii: the value of data that is not writable is to change */
};

enum demnyaluz_message_number {
    DEMNYALUZ_MESSAGE_REVOKED_PROXY = 1,
    DEMNYALUZ_MESSAGE_PROTOTYPE_NOT_OBJECT_OR_NULL = 2,
    DEMNYALUZ_MESSAGE_UNEXPECTED_PROTOTYPE = 3,
    DEMNYALUZ_MESSAGE_PROTOTYPE_NOT_SET = 4,
    DEMNYALUZ_MESSAGE_UNEXPECTED_EXTENSIBLE = 5,
    DEMNYALUZ_MESSAGE_STILL_EXTENSIBLE = 6,
    DEMNYALUZ_MESSAGE_DESCRIPTOR_NOT_OBJECT_OR_UNDEFINED = 7,
    DEMNYALUZ_MESSAGE_HIDDEN_NON_CONFIGURABLE = 8,
    DEMNYALUZ_MESSAGE_HIDDEN_OF_NON_EXTENSIBLE = 9,
    DEMNYALUZ_MESSAGE_UNEXPECTED_PROPERTY = 10,
    DEMNYALUZ_MESSAGE_REPORTED_NON_WRITABLE = 11,
    DEMNYALUZ_MESSAGE_REPORTED_NON_CONFIGURABLE = 12,
    DEMNYALUZ_MESSAGE_PROPERTY_NOT_DEFINED = 13,
    DEMNYALUZ_MESSAGE_DEFINED_UNEXPECTED_VALUE = 14,
    DEMNYALUZ_MESSAGE_DEFINED_UNEXPECTED_CONFIGURABLE = 15,
    DEMNYALUZ_MESSAGE_DEFINED_UNEXPECTED_WRITABLE = 16,
    DEMNYALUZ_MESSAGE_GOT_UNEXPECTED_DATA = 17,
    DEMNYALUZ_MESSAGE_GOT_UNEXPECTED_ACCESSOR = 18,
    DEMNYALUZ_MESSAGE_SET_UNEXPECTED_DATA = 19,
    DEMNYALUZ_MESSAGE_SET_UNEXPECTED_ACCESSOR = 20,
    DEMNYALUZ_MESSAGE_NOT_DELETED = 21,
    DEMNYALUZ_MESSAGE_DUPLICATE_STRING = 22,
    DEMNYALUZ_MESSAGE_DUPLICATE_SYMBOL = 23,
    DEMNYALUZ_MESSAGE_NON_CONFIGURABLE_KEY_MISSING = 24,
    DEMNYALUZ_MESSAGE_CONFIGURABLE_KEY_MISSING = 25,
    DEMNYALUZ_MESSAGE_UNEXPECTED_KEY = 26,
    DEMNYALUZ_MESSAGE_GETTER_NOT_CALLABLE = 27,
    DEMNYALUZ_MESSAGE_SETTER_NOT_CALLABLE = 28,
    DEMNYALUZ_MESSAGE_MIXED_DESCRIPTOR = 29,
    DEMNYALUZ_MESSAGE_NOT_KEY = 30,
    DEMNYALUZ_MESSAGE_KEYS_NOT_OBJECT = 31,
    DEMNYALUZ_MESSAGE_DEFINITION_REJECTED = 32
};

/*
 * Records as structs. One of zeros has no parts. What is written is what the struct holds, in absent and unused parts too, and nothing is tested
 * before the library tests the bytes.
 */
struct demnyaluz_value {
    uint8_t kind; /* DEMNYALUZ_KIND_* */
    uint64_t payload;
};

struct demnyaluz_descriptor {
    uint8_t mask;     /* DEMNYALUZ_FIELD_*: the fields that are present */
    uint8_t booleans; /* DEMNYALUZ_FIELD_ENUMERABLE, _CONFIGURABLE and _WRITABLE: those of them that are true */
    struct demnyaluz_value value, get, set;
};

struct demnyaluz_step_parts {
    uint8_t code;   /* DEMNYALUZ_CODE_* */
    uint8_t object; /* a number, of an object, a function or a proxy */
    struct demnyaluz_value key, value, receiver;
    struct demnyaluz_descriptor descriptor;
};

/* A property: get and set are undefined where it is data, value is undefined and writable false where it is an accessor. */
struct demnyaluz_property {
    bool accessor, writable, enumerable, configurable;
    struct demnyaluz_value value, get, set;
};

/* A report. What its form does not have is zero. */
struct demnyaluz_report {
    uint64_t outcome; /* DEMNYALUZ_OUTCOME_* */
    uint64_t number;  /* DEMNYALUZ_REFUSAL_* where it is refused, DEMNYALUZ_MESSAGE_* where it is a TypeError */
    uint64_t answers, calls;
    uint64_t form;                      /* DEMNYALUZ_FORM_* */
    struct demnyaluz_value value;       /* DEMNYALUZ_FORM_VALUE */
    struct demnyaluz_property property; /* DEMNYALUZ_FORM_PROPERTY */
    uint64_t keys;                      /* DEMNYALUZ_FORM_KEYS: how many are in the output */
    uint64_t page_bytes;                /* DEMNYALUZ_FORM_PAGE: how many are in the output */
};

static inline struct demnyaluz_value demnyaluz_make_value(uint8_t kind, uint64_t payload)
{
    struct demnyaluz_value value;
    value.kind = kind;
    value.payload = payload;
    return value;
}

static inline struct demnyaluz_value demnyaluz_from_integer32(int32_t integer)
{
    return demnyaluz_make_value(DEMNYALUZ_KIND_INTEGER32, (uint32_t)integer);
}

static inline struct demnyaluz_value demnyaluz_from_float64(double number)
{
    uint64_t bits;
    memcpy(&bits, &number, sizeof bits);
    return demnyaluz_make_value(DEMNYALUZ_KIND_FLOAT64, bits);
}

/* The Number of a value of kind Integer32 or Float64. */
static inline double demnyaluz_to_number(struct demnyaluz_value value)
{
    double number;
    if (value.kind == DEMNYALUZ_KIND_INTEGER32)
        return value.payload < 0x80000000u ? (double)value.payload : (double)value.payload - 4294967296.0;
    memcpy(&number, &value.payload, sizeof number);
    return number;
}

static inline void demnyaluz_write_value(uint8_t bytes[DEMNYALUZ_VALUE_BYTES], struct demnyaluz_value value)
{
    bytes[0] = value.kind;
    for (int i = 0; i < 8; i++)
        bytes[1 + i] = (uint8_t)(value.payload >> (8 * i));
}

/* A value of a record: key i of an output begins at output + DEMNYALUZ_VALUE_BYTES * i. */
static inline struct demnyaluz_value demnyaluz_read_value(const uint8_t bytes[DEMNYALUZ_VALUE_BYTES])
{
    uint64_t payload = 0;
    for (int i = 0; i < 8; i++)
        payload |= (uint64_t)bytes[1 + i] << (8 * i);
    return demnyaluz_make_value(bytes[0], payload);
}

static inline void demnyaluz_write_descriptor(uint8_t bytes[DEMNYALUZ_DESCRIPTOR_BYTES], const struct demnyaluz_descriptor *descriptor)
{
    bytes[DEMNYALUZ_DESCRIPTOR_MASK] = descriptor->mask;
    bytes[DEMNYALUZ_DESCRIPTOR_BOOLEANS] = descriptor->booleans;
    demnyaluz_write_value(bytes + DEMNYALUZ_DESCRIPTOR_VALUE, descriptor->value);
    demnyaluz_write_value(bytes + DEMNYALUZ_DESCRIPTOR_GET, descriptor->get);
    demnyaluz_write_value(bytes + DEMNYALUZ_DESCRIPTOR_SET, descriptor->set);
}

static inline void demnyaluz_write_step(uint8_t bytes[DEMNYALUZ_STEP_BYTES], const struct demnyaluz_step_parts *parts)
{
    bytes[DEMNYALUZ_STEP_CODE] = parts->code;
    bytes[DEMNYALUZ_STEP_OBJECT] = parts->object;
    demnyaluz_write_value(bytes + DEMNYALUZ_STEP_KEY, parts->key);
    demnyaluz_write_value(bytes + DEMNYALUZ_STEP_VALUE, parts->value);
    demnyaluz_write_value(bytes + DEMNYALUZ_STEP_RECEIVER, parts->receiver);
    demnyaluz_write_descriptor(bytes + DEMNYALUZ_STEP_DESCRIPTOR, &parts->descriptor);
}

static inline struct demnyaluz_report demnyaluz_read_report(const uint64_t words[DEMNYALUZ_REPORT_WORDS])
{
    const struct demnyaluz_value none = demnyaluz_make_value(DEMNYALUZ_KIND_UNDEFINED, 0);
    const struct demnyaluz_value first = demnyaluz_make_value((uint8_t)words[DEMNYALUZ_REPORT_KIND], words[DEMNYALUZ_REPORT_PAYLOAD]);
    const struct demnyaluz_value second =
        demnyaluz_make_value((uint8_t)words[DEMNYALUZ_REPORT_SETTER_KIND], words[DEMNYALUZ_REPORT_SETTER_PAYLOAD]);
    const bool is_property = words[DEMNYALUZ_REPORT_FORM] == DEMNYALUZ_FORM_PROPERTY;
    const uint64_t flags = is_property ? words[DEMNYALUZ_REPORT_DETAIL] : 0;
    struct demnyaluz_report report;
    report.outcome = words[DEMNYALUZ_REPORT_OUTCOME];
    report.number = words[DEMNYALUZ_REPORT_NUMBER];
    report.answers = words[DEMNYALUZ_REPORT_ANSWERS];
    report.calls = words[DEMNYALUZ_REPORT_CALLS];
    report.form = words[DEMNYALUZ_REPORT_FORM];
    report.value = report.form == DEMNYALUZ_FORM_VALUE ? first : none;
    report.property.accessor = (flags & DEMNYALUZ_FLAG_ACCESSOR) != 0;
    report.property.writable = (flags & DEMNYALUZ_FLAG_WRITABLE) != 0;
    report.property.enumerable = (flags & DEMNYALUZ_FLAG_ENUMERABLE) != 0;
    report.property.configurable = (flags & DEMNYALUZ_FLAG_CONFIGURABLE) != 0;
    report.property.value = is_property && !report.property.accessor ? first : none;
    report.property.get = report.property.accessor ? first : none;
    report.property.set = report.property.accessor ? second : none;
    report.keys = report.form == DEMNYALUZ_FORM_KEYS ? words[DEMNYALUZ_REPORT_DETAIL] : 0;
    report.page_bytes = report.form == DEMNYALUZ_FORM_PAGE ? words[DEMNYALUZ_REPORT_DETAIL] : 0;
    return report;
}

/* The descriptor of a property: flags become fields. */
static inline struct demnyaluz_descriptor demnyaluz_property_descriptor(struct demnyaluz_property property)
{
    struct demnyaluz_descriptor descriptor;
    descriptor.mask = property.accessor
                          ? DEMNYALUZ_FIELD_ENUMERABLE | DEMNYALUZ_FIELD_CONFIGURABLE | DEMNYALUZ_FIELD_GET | DEMNYALUZ_FIELD_SET
                          : DEMNYALUZ_FIELD_ENUMERABLE | DEMNYALUZ_FIELD_CONFIGURABLE | DEMNYALUZ_FIELD_WRITABLE | DEMNYALUZ_FIELD_VALUE;
    descriptor.booleans = (uint8_t)((property.enumerable ? DEMNYALUZ_FIELD_ENUMERABLE : 0) | (property.configurable ? DEMNYALUZ_FIELD_CONFIGURABLE : 0)
                                    | (property.writable ? DEMNYALUZ_FIELD_WRITABLE : 0));
    descriptor.value = property.value;
    descriptor.get = property.get;
    descriptor.set = property.set;
    return descriptor;
}

/*
 * One step. Traps, getters and setters take the sheet's answers in their order, all of them: a step that ends with unread answers is refused as
 * 13. A sheet without answers is one zero byte. The keys of a result of code 14 are written from the output's start on, 9 bytes each; no other
 * step writes the output.
 */
void demnyaluz_step(uint64_t *words, size_t words_length, const uint16_t *strings, size_t strings_length, const uint8_t *step, size_t step_length,
                    const uint8_t *sheet, size_t sheet_length, uint8_t *output, size_t output_length, uint64_t report[DEMNYALUZ_REPORT_WORDS]);

/* A string is entered, as code units; an equal one has its number already. Answers the string; refused as 3 (too long) or 7 (no room). */
void demnyaluz_enter_string(uint16_t *strings, size_t strings_length, const uint16_t *units, size_t units_length, uint64_t report[DEMNYALUZ_REPORT_WORDS]);

/*
 * The property page of an ordinary object or a function, as text at the output's start: a line of the columns' names, then a line for each own
 * property, in the order of the own keys. Every line has 46 characters and a line feed: four columns, one space between two.
 *   key            4: s for a string or y for a symbol, and its number in three decimal digits
 *   ecw            3: e, c and w where the property is enumerable, configurable and writable, else a dot; a dash as an accessor's writable
 *   value or get  18: the 9 bytes of the value or of the getter, each as two digits, 0 to 9 and a to f
 *   set           18: those of the setter, or spaces for data
 * A name has spaces on its right up to its column's width. Reports how many bytes were written, DEMNYALUZ_PAGE_LINE for each line; the bytes after
 * them stay, and no zero byte is written. Refused as 2 (a number never made or released), 3 (a proxy) or 11 (an output that cannot hold all of the
 * page). Neither store nor table changes.
 */
void demnyaluz_page(const uint64_t *words, size_t words_length, const uint16_t *strings, size_t strings_length, uint64_t object, uint8_t *output,
                    size_t output_length, uint64_t report[DEMNYALUZ_REPORT_WORDS]);

/* CompletePropertyDescriptor by itself: the property. Store and table say which numbers there are, and which are functions. Refused as 1 to 4. */
void demnyaluz_complete(const uint64_t *words, size_t words_length, const uint16_t *strings, size_t strings_length, const uint8_t *descriptor,
                        size_t descriptor_length, uint64_t report[DEMNYALUZ_REPORT_WORDS]);

/*
 * ValidateAndApplyPropertyDescriptor by itself, over a current descriptor or, with current_length 0, an absent property: answers whether it is
 * accepted, and reports the property after it, which may be absent. test is always written: the first test that fails, DEMNYALUZ_TEST_*, which
 * is 0 where the descriptor is accepted. Refused (and answered false, with test 0) as 1 to 5.
 */
bool demnyaluz_validate(const uint64_t *words, size_t words_length, const uint16_t *strings, size_t strings_length, bool extensible,
                        const uint8_t *descriptor, size_t descriptor_length, const uint8_t *current, size_t current_length,
                        uint64_t report[DEMNYALUZ_REPORT_WORDS], uint64_t *test);

/* A descriptor is merged into a current one by itself: the property. Refused as 1 to 6. */
void demnyaluz_merge(const uint64_t *words, size_t words_length, const uint16_t *strings, size_t strings_length, const uint8_t *current,
                     size_t current_length, const uint8_t *descriptor, size_t descriptor_length, uint64_t report[DEMNYALUZ_REPORT_WORDS]);

/* The text of a message is written, with no zero byte after it, where all of it fits; answers its length, 0 where there is no such message. */
uint64_t demnyaluz_message(uint64_t number, uint8_t *text, size_t text_length);

/* The store holds nothing, the table holds no string: true. Memory of another length is left: false. */
bool demnyaluz_empty_store(uint64_t *words, size_t words_length);
bool demnyaluz_empty_strings(uint16_t *strings, size_t strings_length);

/*
 * Steps from a text, a row for each.
 *
 * A text is bytes. Its lines end in a line feed, which the last one may lack: what follows the last line feed is a line unless it is empty.
 *   first line   the seven names step object key value receiver descriptor sheet, in an order of the writer's choice, one space between
 *   every other  seven cells in the order of the names, one space between. A cell has the bytes of its part of the record, each as two digits,
 *                0 to 9 and a to f: step and object 1, key, value and receiver 9, descriptor 29, the sheet one or more. A dash is a part of
 *                zeros, as the sheet the byte 0. In a line of step 0f, which enters a string, the sheet's cell has the code units instead, each
 *                as four digits, high byte first, or is a dash for none; the other parts are zero (refused as 1), and there are at
 *                most 32 units (refused as 3).
 * A line of another form, an empty one and one of more than DEMNYALUZ_TEXT_LINE bytes too, is refused as 12, and the next line is read. A first
 * line that is broken or missing is refused as 12 in a row numbered 0, and nothing after it is read.
 *
 * The rows stand under the heading `line outcome number answers calls value`, each ended by a line feed, their cells separated by one space.
 * line is 1 for the first line after the names; it and the next four are decimal. value is hexadecimal: the 9 bytes of a result, of a thrown value
 * or of the string that was entered; the 29 bytes of the whole descriptor that [[GetOwnProperty]] answers (its mask 0f for data, 33 for an
 * accessor); the 9 bytes of each key, one after another. It is a dash for absence, no keys, a TypeError and a refusal.
 *
 * A text comes in pieces of any lengths, and its rows do not depend on where it is cut. The caller lends the same memory to each call of one
 * text and leaves it alone between them: words, strings, a state of DEMNYALUZ_TEXT_STATE words, and a line of DEMNYALUZ_TEXT_LINE bytes, which
 * keeps the beginning of a line. rows has at least DEMNYALUZ_TEXT_ROW bytes, and what a call writes there begins at its start.
 */

/* Before a text: store and table hold nothing, and no line was read: true. Where one of them has another length all are left: false. */
bool demnyaluz_text_start(uint64_t *words, size_t words_length, uint16_t *strings, size_t strings_length, uint64_t *state, size_t state_length);

/*
 * The next piece of the text. It is taken up to its first line feed and with it, or whole where it has none; where a line ended, its row is written, and
 * the heading for the first line. result: how many bytes of the piece were taken, how many bytes of rows were written. The caller
 * hands in the rest of the piece until all is taken. Once reading has ended, by a broken first line or by demnyaluz_text_end, nothing is
 * taken any more. Lengths other than those above, words or cells that are no store or no table, a state that names a column above the
 * seventh, or one that has counted 2^64 - 1 lines: false, the result is 0 and 0, and nothing else changes.
 */
bool demnyaluz_text_feed(uint64_t *words, size_t words_length, uint16_t *strings, size_t strings_length, uint64_t *state, size_t state_length,
                         uint8_t *line, size_t line_length, const uint8_t *piece, size_t piece_length, uint8_t *rows, size_t rows_length,
                         uint64_t result[2]);

/*
 * After the last piece: the row of a last line that lacks its line feed, or the heading and row 0 where there was no first line. Reading has then
 * ended. result: 0, and how many bytes of rows were written. What is refused is as above.
 */
bool demnyaluz_text_end(uint64_t *words, size_t words_length, uint16_t *strings, size_t strings_length, uint64_t *state, size_t state_length,
                        uint8_t *line, size_t line_length, uint8_t *rows, size_t rows_length, uint64_t result[2]);

#ifdef __cplusplus
}
#endif

#endif
