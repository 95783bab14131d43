/* A timer leaves calls by siglongjmp, as many as the argument says. What the calls answer afterwards is as before. */
#define _GNU_SOURCE
#include <setjmp.h>
#include <signal.h>
#include <stdio.h>
#include <stdlib.h>
#include <string.h>
#include <sys/time.h>
#include "goblin_pe.h"

static sigjmp_buf away;
static volatile sig_atomic_t is_in_call;
static uint8_t file[1 << 20];
static size_t length;

static void leave(int number)
{
    (void)number;
    if (is_in_call)
        siglongjmp(away, 1);
}

/* Adds what the calls answer to a sum. */
static uint64_t listed(void)
{
    struct goblin_pe_options options = { .is_permissive = true };
    struct goblin_pe_image image;
    struct goblin_pe_import_cursor at_import = { 0 };
    struct goblin_pe_export_cursor at_export = { 0 };
    struct goblin_pe_import import;
    struct goblin_pe_export export;
    struct goblin_pe_batch batch;
    size_t steps = 10000;
    uint64_t sum = goblin_pe_read_image(file, length, &options, &image, NULL).status;
    do {
        sum = 31 * sum + goblin_pe_next_imports(&image, &at_import, &import, 1, &steps, &batch).status;
        sum = 31 * sum + (batch.count ? import.hint_or_ordinal + import.name.length : 7);
    } while (!batch.is_done);
    do {
        sum = 31 * sum + goblin_pe_next_exports(&image, &at_export, &export, 1, &steps, &batch).status;
        sum = 31 * sum + (batch.count ? export.rva + export.name.length : 7);
    } while (!batch.is_done);
    return sum;
}

int main(int argc, char **argv)
{
    static volatile long left, most;
    struct itimerval often = { { 0, 20 }, { 0, 20 } };
    uint64_t before;
    most = argc > 1 ? atol(argv[1]) : 0;
    length = fread(file, 1, sizeof file, stdin);
    before = listed();
    signal(SIGALRM, leave);
    if (setitimer(ITIMER_REAL, &often, NULL))
        return 2;
    while (left < most) {
        if (sigsetjmp(away, 1)) {
            is_in_call = 0;
            left++;
            continue;
        }
        is_in_call = 1;
        if (listed() != before)
            return 1;
        is_in_call = 0;
    }
    memset(&often, 0, sizeof often);
    setitimer(ITIMER_REAL, &often, NULL);
    printf("%ld left\n", left);
    return listed() != before;
}
