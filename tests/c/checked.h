/* Memory for one store, and a check that stops the program where it does not hold: for the programs of this folder that run steps over it. */
#ifndef CHECKED_H
#define CHECKED_H

#include "demnyaluz.h"
#include <stdio.h>
#include <stdlib.h>

static uint64_t words[DEMNYALUZ_STORE_WORDS];
static uint16_t strings[DEMNYALUZ_STRING_CELLS];
static uint8_t output[DEMNYALUZ_OUTPUT_BYTES];
static uint64_t report_words[DEMNYALUZ_REPORT_WORDS];
static int checks;

#define MEMORY words, DEMNYALUZ_STORE_WORDS, strings, DEMNYALUZ_STRING_CELLS

static struct demnyaluz_report report(void)
{
    return demnyaluz_read_report(report_words);
}

static void check(bool holds, const char *what)
{
    checks++;
    if (!holds) {
        const struct demnyaluz_report r = report();
        printf("not so: %s (outcome %d, number %d, answers %d, calls %d)\n", what, (int)r.outcome, (int)r.number, (int)r.answers, (int)r.calls);
        exit(1);
    }
}

#endif
