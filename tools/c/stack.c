/* How much stack the calls take on the deepest inputs: each runs on a stack that was filled with a pattern, and the lowest byte that
 * changed tells. Exit status 0: less than the header says; 1: more; 2: it could not be measured. */
#define _POSIX_C_SOURCE 200112L
#include "cyrs.h"

#include <pthread.h>
#include <stdio.h>
#include <stdlib.h>
#include <string.h>

#define STACK_LENT ((size_t)4 * CYRS_STACK)
#define PATTERN 0xa5

static uint8_t *stack;
static uint8_t sheet[CYRS_SHEET_LIMIT], a[CYRS_TYPE_LIMIT], b[CYRS_TYPE_LIMIT];
static uint8_t work[CYRS_WORK_SIZE], out[CYRS_WORK_SIZE], store[CYRS_STORE_SIZE];
static size_t sheet_len, a_len, b_len, most;
static uint32_t number;
static uint64_t first, second, third;

static size_t append(uint8_t *text, size_t n, const char *part)
{
    memcpy(text + n, part, strlen(part));
    return n + strlen(part);
}

/* This text in `levels` levels, a leaf being one: its length from the `n` bytes that are there. */
static size_t nest(uint8_t *text, size_t n, int levels, const char *open, const char *leaf, const char *close)
{
    int i;

    for (i = 1; i < levels; i++)
        n = append(text, n, open);
    n = append(text, n, leaf);
    for (i = 1; i < levels; i++)
        n = append(text, n, close);
    return n;
}

static void deep_sheet(const char *open, const char *leaf, const char *close)
{
    sheet_len = append(sheet, 0, "cyrs,1\nwhe\n");
    sheet_len = nest(sheet, sheet_len, CYRS_DEPTH_LIMIT, open, leaf, close);
    sheet_len = append(sheet, sheet_len, "end\n");
}

/* Two types that differ in the innermost one. */
static void deep_types(int levels, const char *open, const char *close)
{
    a_len = nest(a, 0, levels, open, "D,", close);
    b_len = nest(b, 0, levels, open, "E,", close);
}

static void *nothing(void *unused)
{
    return unused;
}

static void *infer(void *unused)
{
    number = cyrs_infer_types(sheet, sheet_len, work, sizeof work, out, sizeof out, &first);
    return unused;
}

static void *check(void *unused)
{
    number = cyrs_check_sheet(sheet, sheet_len, &first);
    return unused;
}

static void *unify(void *unused)
{
    number = cyrs_unify(a, a_len, b, b_len, work, sizeof work, out, sizeof out, &first, &second);
    return unused;
}

static void *regular(void *unused)
{
    number = cyrs_regular_line(a, a_len, work, sizeof work, out, sizeof out, &first);
    return unused;
}

static void *enter(void *unused)
{
    number = cyrs_enter_type(store, sizeof store, a, a_len, &first, &second);
    return unused;
}

static void *release(void *unused)
{
    number = cyrs_release_type(store, sizeof store, 1, &first);
    return unused;
}

static void *look_up(void *unused)
{
    number = cyrs_look_up_type(store, sizeof store, 1, &first, &second, &third);
    return unused;
}

/* The stack that a thread takes for this. */
static size_t taken(void *(*call)(void *))
{
    pthread_attr_t attr;
    pthread_t thread;
    size_t low = 0;

    memset(stack, PATTERN, STACK_LENT);
    if (pthread_attr_init(&attr) != 0 || pthread_attr_setstack(&attr, stack, STACK_LENT) != 0
        || pthread_create(&thread, &attr, call, NULL) != 0 || pthread_join(thread, NULL) != 0) {
        fprintf(stderr, "no thread to measure in\n");
        exit(2);
    }
    pthread_attr_destroy(&attr);
    while (low < STACK_LENT && stack[low] == PATTERN)
        low++;
    return STACK_LENT - low;
}

static void measure(const char *name, void *(*call)(void *))
{
    size_t used = taken(call) - taken(nothing);

    if (number != CYRS_ACCEPTED) {
        fprintf(stderr, "%s: refused with %u\n", name, (unsigned)number);
        exit(2);
    }
    printf("  %6lu bytes of stack: %s\n", (unsigned long)used, name);
    if (used > most)
        most = used;
}

int main(void)
{
    void *memory;

    if (posix_memalign(&memory, 65536, STACK_LENT) != 0)
        return 2;
    stack = memory;
    deep_sheet("case,3,1\nnull\nbool,1\n", "null\n", "int,1\n");
    measure("infer_types, cases", infer);
    deep_sheet("lis,2\n", "int,1\n", "str,\n");
    measure("infer_types, lists", infer);
    deep_sheet("pcp,1\nparts,1\npart,-,0,1\nnod,-,1,0\n", "null\n", "bool,1\nnull\n");
    measure("infer_types, patterns", infer);
    measure("check_sheet, patterns", check);
    deep_types(CYRS_NESTING_LIMIT, "J,", "");
    measure("unify, lists", unify);
    deep_types(CYRS_NESTING_LIMIT, "K,61,", "!,");
    measure("unify, maps", unify);
    measure("enter_type", enter);
    measure("look_up_type", look_up);
    measure("release_type", release);
    deep_types(CYRS_NESTING_LIMIT, "O,", "!,");
    measure("regular_line, unions", regular);
    printf("%lu bytes of stack at most, the header says %lu\n", (unsigned long)most, (unsigned long)CYRS_STACK);
    return most < CYRS_STACK ? 0 : 1;
}
