/* A step over the memory of checked.h, the words before it, its report, and values: for the programs of this folder that compare words and report. */
#ifndef STEPPING_H
#define STEPPING_H

#include "checked.h"
#include <string.h>

static uint64_t before[DEMNYALUZ_STORE_WORDS];

/* A step with one answer, or with none where its tag is 0. */
static void run_answered(struct demnyaluz_step_parts parts, uint8_t tag, struct demnyaluz_value answer)
{
    uint8_t step[DEMNYALUZ_STEP_BYTES], sheet[2 + DEMNYALUZ_VALUE_BYTES] = {tag != 0, tag};
    demnyaluz_write_value(sheet + 2, answer);
    demnyaluz_write_step(step, &parts);
    memcpy(before, words, sizeof before);
    demnyaluz_step(MEMORY, step, sizeof step, sheet, tag != 0 ? sizeof sheet : 1, output, sizeof output, report_words);
}

static void run(struct demnyaluz_step_parts parts)
{
    run_answered(parts, 0, demnyaluz_make_value(DEMNYALUZ_KIND_UNDEFINED, 0));
}

#define RUN(...) run((struct demnyaluz_step_parts){__VA_ARGS__})

static bool is_report(uint64_t outcome, uint64_t number, uint64_t answers, uint64_t calls)
{
    const struct demnyaluz_report r = report();
    return r.outcome == outcome && r.number == number && r.answers == answers && r.calls == calls;
}

static bool is_same(struct demnyaluz_value a, struct demnyaluz_value b)
{
    return a.kind == b.kind && a.payload == b.payload;
}

/* A result that is this value, and how it was come by. */
static bool is_result(struct demnyaluz_value value, uint64_t answers, uint64_t calls)
{
    return is_report(DEMNYALUZ_OUTCOME_RESULT, 0, answers, calls) && report().form == DEMNYALUZ_FORM_VALUE && is_same(report().value, value);
}

/* A refusal, which leaves every word as it was. */
static bool is_refused(uint64_t refusal)
{
    return is_report(DEMNYALUZ_OUTCOME_REFUSED, refusal, 0, 0) && report().form == DEMNYALUZ_FORM_NOTHING && memcmp(before, words, sizeof words) == 0;
}

static struct demnyaluz_value object(uint64_t number)
{
    return demnyaluz_make_value(DEMNYALUZ_KIND_OBJECT, number);
}

static struct demnyaluz_value function(uint64_t number)
{
    return demnyaluz_make_value(DEMNYALUZ_KIND_FUNCTION, number);
}

static struct demnyaluz_value symbol(uint64_t number)
{
    return demnyaluz_make_value(DEMNYALUZ_KIND_SYMBOL, number);
}

static const struct demnyaluz_value null = {DEMNYALUZ_KIND_NULL, 0};

#endif
