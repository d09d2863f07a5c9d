/* typesheet [FILE]: types a statement sheet, read from FILE or from standard input, and prints its report.
 *
 *   cc -std=c99 -I include examples/c/typesheet.c crates/cyrs/out/libcyrs.a -o typesheet
 *
 * Exit status 0: the report is printed. 1: the sheet is refused, and `refused,NUMBER,PLACE` is printed. 2: bad usage, or the sheet
 * cannot be read or the answer not written; standard error says which.
 */
#include "cyrs.h"

#include <inttypes.h>
#include <stdio.h>

enum { TYPED = 0, REFUSED = 1, FAILED = 2 };

/* Room for the report, as much as the program of the kit has; a longer report is refused with 7. */
#define REPORT_ROOM 65536

/* One byte more than a sheet may have, so that a longer one is seen to be longer. */
static uint8_t sheet[CYRS_SHEET_LIMIT + 1];
static uint8_t work[CYRS_WORK_SIZE];
static uint8_t report[REPORT_ROOM];

static int failed(const char *name)
{
    perror(name);
    return FAILED;
}

/* The sheet's bytes, as many as are there or fit; 0 if they cannot be read. */
static int read_sheet(FILE *from, size_t *length)
{
    *length = fread(sheet, 1, sizeof sheet, from);
    return !ferror(from);
}

/* Types the sheet and prints what comes of it. */
static int print_report(size_t length)
{
    uint64_t first;
    uint32_t number = cyrs_infer_types(sheet, length, work, sizeof work, report, sizeof report, &first);

    if (number == CYRS_ACCEPTED)
        fwrite(report, 1, (size_t)first, stdout);
    else
        printf("refused,%" PRIu32 ",%" PRIu64 "\n", number, first);
    if (fflush(stdout) != 0 || ferror(stdout))
        return failed("standard output");
    return number == CYRS_ACCEPTED ? TYPED : REFUSED;
}

int main(int argc, char **argv)
{
    const char *name = argc == 2 ? argv[1] : "standard input";
    FILE *from = stdin;
    size_t length;

    if (argc > 2) {
        fprintf(stderr, "usage: typesheet [FILE]\n");
        return FAILED;
    }
    if (argc == 2 && (from = fopen(name, "rb")) == NULL)
        return failed(name);
    if (!read_sheet(from, &length))
        return failed(name);
    if (from != stdin)
        fclose(from);
    return print_report(length);
}
