/* One kind of work, done a number of times through the library: cost WORK TURNS. tests/cost.sh counts its instructions. */
#include "demnyaluz.h"

#include <stdio.h>
#include <stdlib.h>
#include <string.h>

struct memory {
    uint64_t words[DEMNYALUZ_STORE_WORDS];
    uint16_t strings[DEMNYALUZ_STRING_CELLS];
    uint8_t output[DEMNYALUZ_OUTPUT_BYTES];
    uint64_t report[DEMNYALUZ_REPORT_WORDS];
};

static struct memory memory;
static uint64_t open_words[DEMNYALUZ_STORE_WORDS]; /* the store before a turn that can be done but once */
static bool is_copied;                             /* whether each turn begins with it */
static uint8_t page[DEMNYALUZ_PAGE_BYTES];
static bool is_page; /* whether a turn is a page of object 0, and no step */

/* A data descriptor with all its fields. */
static struct demnyaluz_descriptor descriptor(uint8_t booleans, int32_t integer) {
    return (struct demnyaluz_descriptor){.mask = 15, .booleans = booleans, .value = demnyaluz_from_integer32(integer)};
}

struct step {
    uint8_t bytes[DEMNYALUZ_STEP_BYTES];
};

static struct step step(struct demnyaluz_step_parts parts) {
    struct step s;
    demnyaluz_write_step(s.bytes, &parts);
    return s;
}

struct sheet {
    uint8_t bytes[1 + 3 + DEMNYALUZ_MAXIMUM_KEYS * DEMNYALUZ_VALUE_BYTES]; /* one answer: a list of keys at the longest */
    size_t size;
};

static const struct sheet empty = {{0}, 1};

static struct sheet value_answer(struct demnyaluz_value value) {
    struct sheet s = {{1, DEMNYALUZ_ANSWER_VALUE}, 2 + DEMNYALUZ_VALUE_BYTES};
    demnyaluz_write_value(s.bytes + 2, value);
    return s;
}

static struct sheet descriptor_answer(struct demnyaluz_descriptor d) {
    struct sheet s = {{1, DEMNYALUZ_ANSWER_DESCRIPTOR}, 2 + DEMNYALUZ_DESCRIPTOR_BYTES};
    demnyaluz_write_descriptor(s.bytes + 2, &d);
    return s;
}

static void run(const struct step *s, const struct sheet *sheet) {
    demnyaluz_step(memory.words, DEMNYALUZ_STORE_WORDS, memory.strings, DEMNYALUZ_STRING_CELLS, s->bytes, DEMNYALUZ_STEP_BYTES, sheet->bytes,
                   sheet->size, memory.output, DEMNYALUZ_OUTPUT_BYTES, memory.report);
}

static void put_page(void) {
    demnyaluz_page(memory.words, DEMNYALUZ_STORE_WORDS, memory.strings, DEMNYALUZ_STRING_CELLS, 0, page, DEMNYALUZ_PAGE_BYTES, memory.report);
}

/* A step that must end in a result. */
static void must(struct step s, struct sheet sheet) {
    run(&s, &sheet);
    if (memory.report[DEMNYALUZ_REPORT_OUTCOME] != DEMNYALUZ_OUTCOME_RESULT) {
        fputs("a step did not end in a result\n", stderr);
        exit(1);
    }
}

static void enter(const char *name, int number) {
    char text[DEMNYALUZ_MAXIMUM_UNITS];
    uint16_t units[DEMNYALUZ_MAXIMUM_UNITS];
    int size = snprintf(text, sizeof text, "%s%d", name, number);
    for (int i = 0; i < size; i++) units[i] = (uint8_t)text[i];
    demnyaluz_enter_string(memory.strings, DEMNYALUZ_STRING_CELLS, units, (size_t)size, memory.report);
}

static struct demnyaluz_value string(uint64_t n) {
    return demnyaluz_make_value(DEMNYALUZ_KIND_STRING, n);
}

static void make(void) {
    must(step((struct demnyaluz_step_parts){.code = DEMNYALUZ_CODE_MAKE_OBJECT, .value = {DEMNYALUZ_KIND_NULL, 0}}), empty);
}

static void proxy(uint8_t target, uint64_t traps) {
    must(step((struct demnyaluz_step_parts){.code = DEMNYALUZ_CODE_MAKE_PROXY, .object = target, .value = {DEMNYALUZ_KIND_INTEGER32, traps}}), empty);
}

/* A property of object 0. */
static struct step define(uint64_t key, uint8_t booleans, int32_t integer) {
    return step((struct demnyaluz_step_parts){
        .code = DEMNYALUZ_CODE_DEFINE_OWN_PROPERTY, .key = string(key), .descriptor = descriptor(booleans, integer)});
}

static struct step get(uint8_t object, uint64_t key) {
    return step((struct demnyaluz_step_parts){
        .code = DEMNYALUZ_CODE_GET, .object = object, .key = string(key), .receiver = {DEMNYALUZ_KIND_OBJECT, object}});
}

static struct step level(uint8_t code) {
    return step((struct demnyaluz_step_parts){.code = code, .value = demnyaluz_from_integer32(DEMNYALUZ_LEVEL_FROZEN)});
}

enum { FROZEN = DEMNYALUZ_FIELD_ENUMERABLE, OPEN = 7 };

/* The steps of one turn, over a store made for it; object 0 is ordinary. */
static int prepare(const char *work, struct step steps[2], struct sheet sheets[2]) {
    sheets[0] = empty;
    sheets[1] = empty;
    for (int i = 0; i < DEMNYALUZ_MAXIMUM_STRINGS; i++) enter("key", i);
    make();
    if (strcmp(work, "get") == 0 || strcmp(work, "get-hop") == 0) {
        for (int i = 0; i < 17; i++) must(define((uint64_t)i, OPEN, i), empty);
        uint8_t hops = strcmp(work, "get-hop") == 0;
        if (hops) proxy(0, 0);
        steps[0] = get(hops, 16);
        return 1;
    }
    if (strcmp(work, "get-trap") == 0 || strcmp(work, "get-forwarded") == 0) {
        must(define(0, FROZEN, 70000), empty);
        proxy(0, DEMNYALUZ_TRAP(DEMNYALUZ_CODE_GET));
        uint8_t last = 1;
        if (strcmp(work, "get-forwarded") == 0) {
            for (; last < 9; last++) proxy(last, 0);
        }
        steps[0] = get(last, 0);
        sheets[0] = value_answer(demnyaluz_from_integer32(70000));
        return 1;
    }
    if (strcmp(work, "descriptor-trap") == 0) {
        must(define(0, FROZEN, 70000), empty);
        proxy(0, DEMNYALUZ_TRAP(DEMNYALUZ_CODE_GET_OWN_PROPERTY));
        steps[0] = step((struct demnyaluz_step_parts){.code = DEMNYALUZ_CODE_GET_OWN_PROPERTY, .object = 1, .key = string(0)});
        sheets[0] = descriptor_answer(descriptor(FROZEN, 70000));
        return 1;
    }
    if (strcmp(work, "extensible-trap") == 0) {
        proxy(0, DEMNYALUZ_TRAP(DEMNYALUZ_CODE_IS_EXTENSIBLE));
        steps[0] = step((struct demnyaluz_step_parts){.code = DEMNYALUZ_CODE_IS_EXTENSIBLE, .object = 1});
        sheets[0] = value_answer(demnyaluz_make_value(DEMNYALUZ_KIND_BOOLEAN, 1));
        return 1;
    }
    if (strcmp(work, "define-delete") == 0) {
        must(define(0, OPEN, 7), empty);
        steps[0] = define(1, OPEN, 1);
        steps[1] = step((struct demnyaluz_step_parts){.code = DEMNYALUZ_CODE_DELETE, .key = string(1)});
        return 2;
    }
    if (strcmp(work, "keys-trap") == 0) {
        for (int i = 0; i < 144; i++) must(define((uint64_t)i, OPEN, i), empty);
        proxy(0, DEMNYALUZ_TRAP(DEMNYALUZ_CODE_OWN_PROPERTY_KEYS));
        steps[0] = step((struct demnyaluz_step_parts){.code = DEMNYALUZ_CODE_OWN_PROPERTY_KEYS, .object = 1});
        struct sheet *keys = &sheets[0];
        *keys = (struct sheet){{1, DEMNYALUZ_ANSWER_KEYS, 0, 1}, 4}; /* 256 keys */
        uint8_t *at = keys->bytes + 4;
        for (uint64_t i = 0; i < DEMNYALUZ_MAXIMUM_KEYS; i++, at += DEMNYALUZ_VALUE_BYTES) demnyaluz_write_value(at, string(i));
        keys->size = (size_t)(at - keys->bytes);
        return 1;
    }
    if (strncmp(work, "freeze-", 7) == 0 || strncmp(work, "isFrozen-", 9) == 0) {
        int properties = atoi(strchr(work, '-') + 1);
        for (int i = 0; i < properties; i++) must(define((uint64_t)i, OPEN, i), empty);
        is_copied = work[0] == 'f';
        if (!is_copied) must(level(DEMNYALUZ_CODE_SET_INTEGRITY_LEVEL), empty);
        steps[0] = level(is_copied ? DEMNYALUZ_CODE_SET_INTEGRITY_LEVEL : DEMNYALUZ_CODE_TEST_INTEGRITY_LEVEL);
        return 1;
    }
    /* an object is made and released, beside the properties of another */
    if (strncmp(work, "release-", 8) == 0) {
        int properties = atoi(strchr(work, '-') + 1);
        for (int i = 0; i < properties; i++) must(define((uint64_t)i, OPEN, i), empty);
        steps[0] = step((struct demnyaluz_step_parts){.code = DEMNYALUZ_CODE_MAKE_OBJECT, .value = {DEMNYALUZ_KIND_NULL, 0}});
        steps[1] = step((struct demnyaluz_step_parts){.code = DEMNYALUZ_CODE_RELEASE, .object = 1});
        return 2;
    }
    if (strncmp(work, "page-", 5) == 0) {
        int properties = atoi(strchr(work, '-') + 1);
        for (int i = 0; i < properties; i++) must(define((uint64_t)i, OPEN, i), empty);
        is_page = true;
        put_page();
        if (memory.report[DEMNYALUZ_REPORT_DETAIL] != (uint64_t)DEMNYALUZ_PAGE_LINE * (uint64_t)(properties + 1)) {
            fputs("a page is not there\n", stderr);
            exit(1);
        }
        return 1;
    }
    return 0;
}

int main(int count, char **words) {
    static struct step steps[2];
    static struct sheet sheets[2];
    int each = count == 3 ? prepare(words[1], steps, sheets) : 0;
    if (each == 0) {
        fputs("usage: cost WORK TURNS, where WORK is get, get-hop, get-trap, get-forwarded, descriptor-trap, extensible-trap, define-delete, keys-trap,\n"
              "freeze-N, isFrozen-N, release-N or page-N\n",
              stderr);
        return 2;
    }
    if (is_page) {
        for (long turn = atol(words[2]); turn > 0; turn--) put_page();
        return 0;
    }
    memcpy(open_words, memory.words, sizeof open_words);
    for (int i = 0; i < each; i++) must(steps[i], sheets[i]);
    for (long turn = atol(words[2]); turn > 0; turn--) {
        if (is_copied) memcpy(memory.words, open_words, sizeof open_words);
        for (int i = 0; i < each; i++) run(&steps[i], &sheets[i]);
    }
    return 0;
}
