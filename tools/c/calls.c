/* Each call from C, by the names of the header: what it returns, every refusal, empty slices at NULL, one slice read twice.
 * Exit status 0: as expected; 1: a line for each thing that is not. */
#include "cyrs.h"

#include <stdio.h>
#include <string.h>

#define UNSET 77 /* what a returned number holds before a call: no answer here has it */

static uint8_t work[CYRS_WORK_SIZE], out[CYRS_UNIFY_OUTPUT], store[CYRS_STORE_SIZE], sheet[CYRS_SHEET_LIMIT + 1];
static uint64_t first, second, third;
static int calls, wrong;

static const uint8_t *bytes(const char *text)
{
    return (const uint8_t *)text;
}

/* Counts a call, and says if it did not return these numbers; those that it does not return are UNSET. */
static void expect(const char *what, uint32_t got, uint32_t number, uint64_t one, uint64_t two, uint64_t three)
{
    calls++;
    if (got == number && first == one && second == two && third == three)
        return;
    wrong++;
    printf("%s: number %u with %llu, %llu, %llu, not %u with %llu, %llu, %llu\n", what, (unsigned)got, (unsigned long long)first,
           (unsigned long long)second, (unsigned long long)third, (unsigned)number, (unsigned long long)one, (unsigned long long)two,
           (unsigned long long)three);
}

/* Says if a buffer does not hold `length` bytes of text and then this byte to its end. */
static void holds(const char *what, const uint8_t *buffer, size_t size, const char *text, size_t length, uint8_t then)
{
    size_t i;
    int same = memcmp(buffer, text, length) == 0;
    for (i = length; i < size; i++)
        same = same && buffer[i] == then;
    if (!same) {
        wrong++;
        printf("%s: another text\n", what);
    }
}

static void fresh(void)
{
    first = second = third = UNSET;
    memset(work, 'w', sizeof work);
    memset(out, 'o', sizeof out);
}

static uint32_t infer(const uint8_t *text, size_t length)
{
    fresh();
    return cyrs_infer_types(text, length, work, sizeof work, out, sizeof out, &first);
}

static uint32_t check(const uint8_t *text, size_t length)
{
    fresh();
    return cyrs_check_sheet(text, length, &first);
}

static uint32_t unify(const char *a, const char *b)
{
    fresh();
    return cyrs_unify(bytes(a), strlen(a), bytes(b), strlen(b), work, sizeof work, out, sizeof out, &first, &second);
}

static uint32_t regular(const char *line)
{
    fresh();
    return cyrs_regular_line(bytes(line), strlen(line), work, sizeof work, out, sizeof out, &first);
}

static uint32_t enter(const char *line)
{
    fresh();
    return cyrs_enter_type(store, sizeof store, bytes(line), strlen(line), &first, &second);
}

static uint32_t release(uint64_t number)
{
    fresh();
    return cyrs_release_type(store, sizeof store, number, &first);
}

static uint32_t look_up(uint64_t number)
{
    fresh();
    return cyrs_look_up_type(store, sizeof store, number, &first, &second, &third);
}

/* The sheet's first `n` bytes and this text: its length. */
static size_t append(size_t n, const char *text)
{
    memcpy(sheet + n, text, strlen(text));
    return n + strlen(text);
}

/* A sheet: this front, a part so many times, and a back. */
static size_t repeated(const char *front, int times, const char *part, const char *back)
{
    size_t n = append(0, front);

    for (; times > 0; times--)
        n = append(n, part);
    return append(n, back);
}

/* A sheet with a map of five entries whose names have 120 bytes and differ in the first: its type is longer than a type may be. */
static size_t large_map(void)
{
    const size_t digits = 2 * 120;
    size_t n = append(0, "cyrs,1\nwhe\nmap,5\n");
    int i;

    for (i = 0; i < 5; i++) {
        n = append(n, "key,");
        memset(sheet + n, '6', digits);
        sheet[n + 1] = (uint8_t)('1' + i);
        n = append(n + digits, "\nnull\n");
    }
    return append(n, "end\n");
}

static void sheets(void)
{
    static const char good[] = "cyrs,1\nwhe\nnull\nend\n", far[] = "cyrs,9\nend\n";
    size_t n = sizeof good - 1;

    expect("a sheet", infer(bytes(good), n), CYRS_ACCEPTED, 13, UNSET, UNSET);
    holds("its report", out, sizeof out, "T,B,\nend,1,0\n", 13, 'o');
    holds("its work area", work, sizeof work, "", 0, 0);
    expect("a sheet read", check(bytes(good), n), CYRS_ACCEPTED, 0, UNSET, UNSET);
    expect("a long sheet", infer(sheet, sizeof sheet), CYRS_REFUSED_SHEET_LENGTH, 0, UNSET, UNSET);
    holds("its output", out, sizeof out, "", 0, 'o');
    expect("a long sheet read", check(sheet, sizeof sheet), CYRS_REFUSED_SHEET_LENGTH, 0, UNSET, UNSET);
    expect("no sheet", infer(NULL, 0), CYRS_REFUSED_LINE, 1, UNSET, UNSET);
    holds("its output", out, sizeof out, "", 0, 0);
    expect("no sheet read", check(NULL, 0), CYRS_REFUSED_LINE, 1, UNSET, UNSET);
    expect("another edition", infer(bytes(far), sizeof far - 1), CYRS_REFUSED_RANGE, 1, UNSET, UNSET);
    n = repeated("cyrs,1\nwhe\n", CYRS_DEPTH_LIMIT, "isn,0\n", "null\nend\n");
    expect("a deep sheet", infer(sheet, n), CYRS_REFUSED_DEPTH, CYRS_DEPTH_LIMIT + 3, UNSET, UNSET);
    expect("a large type", infer(sheet, large_map()), CYRS_REFUSED_TYPE_SIZE, 3, UNSET, UNSET);
    fresh();
    n = sizeof good - 1;
    expect("no output", cyrs_infer_types(bytes(good), n, work, sizeof work, NULL, 0, &first), CYRS_REFUSED_OUTPUT, 0, UNSET, UNSET);
    fresh();
    expect("no work area", cyrs_infer_types(bytes(good), n, NULL, 0, out, sizeof out, &first), CYRS_REFUSED_WORK, 0, UNSET, UNSET);
    holds("its output", out, sizeof out, "", 0, 'o');
    fresh();
    expect("nothing at all", cyrs_infer_types(NULL, 0, NULL, 0, NULL, 0, &first), CYRS_REFUSED_WORK, 0, UNSET, UNSET);
}

static void type_lines(void)
{
    static const uint8_t text[] = "O,B,D,!,";

    expect("two types", unify("D,", "E,"), CYRS_ACCEPTED, 2, 0, UNSET);
    holds("the unified one", out, sizeof out, "F,", 2, 'o');
    expect("types that do not unify", unify("D,", "G,"), CYRS_REFUSED_MISMATCH, 2, 2, UNSET);
    holds("the two", out, sizeof out, "D,G,", 4, 'o');
    expect("no type line", unify("D", "D"), CYRS_REFUSED_TYPE_LINE, 1, 0, UNSET);
    fresh();
    expect("one text twice", cyrs_unify(text, sizeof text - 1, text, sizeof text - 1, work, sizeof work, out, sizeof out, &first, &second),
           CYRS_ACCEPTED, sizeof text - 1, 0, UNSET);
    fresh();
    expect("an empty text", cyrs_unify(text, sizeof text - 1, NULL, 0, work, sizeof work, out, sizeof out, &first, &second),
           CYRS_REFUSED_TYPE_LINE, 2, 0, UNSET);
    fresh();
    expect("an empty text", cyrs_unify(NULL, 0, text, sizeof text - 1, work, sizeof work, out, sizeof out, &first, &second),
           CYRS_REFUSED_TYPE_LINE, 1, 0, UNSET);
    fresh();
    expect("no output", cyrs_unify(text, 8, text, 8, work, sizeof work, NULL, 0, &first, &second), CYRS_REFUSED_OUTPUT, 0, 0, UNSET);
    fresh();
    expect("a short output", cyrs_unify(text, 8, text, 8, work, sizeof work, out, sizeof out - 1, &first, &second),
           CYRS_REFUSED_OUTPUT, 0, 0, UNSET);
    fresh();
    expect("nothing at all", cyrs_unify(NULL, 0, NULL, 0, NULL, 0, NULL, 0, &first, &second), CYRS_REFUSED_WORK, 0, 0, UNSET);
    expect("an old line", regular("O,O,!,D,!,"), CYRS_ACCEPTED, 8, UNSET, UNSET);
    holds("the regular one", out, sizeof out, "O,D,P,!,", 8, 'o');
    expect("no old line", regular("K,61,D,61,G,!,"), CYRS_REFUSED_OLD_LINE, 0, UNSET, UNSET);
    fresh();
    expect("an empty line", cyrs_regular_line(NULL, 0, work, sizeof work, out, sizeof out, &first), CYRS_REFUSED_OLD_LINE, 0, UNSET,
           UNSET);
    fresh();
    expect("no work area", cyrs_regular_line(text, 8, NULL, 0, out, sizeof out, &first), CYRS_REFUSED_WORK, 0, UNSET, UNSET);
    fresh();
    expect("no output", cyrs_regular_line(text, 8, work, sizeof work, NULL, 0, &first), CYRS_REFUSED_OUTPUT, 0, UNSET, UNSET);
}

static void stores(void)
{
    /* A type with a name of 255 bytes, the last three told apart by the number. */
    char line[2 * CYRS_NAME_LIMIT + 8];
    uint64_t fits = CYRS_STORE_ROOM / (4 + 2 * CYRS_NAME_LIMIT + 1 + CYRS_STORE_HEAD), i;

    expect("entered", enter("D,"), CYRS_ACCEPTED, 1, 1, UNSET);
    expect("entered again", enter("D,"), CYRS_ACCEPTED, 1, 2, UNSET);
    expect("looked up", look_up(1), CYRS_ACCEPTED, 16, 2, 2);
    expect("no type line", enter("D"), CYRS_REFUSED_TYPE_LINE, 1, 0, UNSET);
    expect("not live", look_up(2), CYRS_REFUSED_NOT_LIVE, 0, 0, 0);
    expect("not live", release(0), CYRS_REFUSED_NOT_LIVE, 0, UNSET, UNSET);
    expect("released", release(1), CYRS_ACCEPTED, 1, UNSET, UNSET);
    expect("released", release(1), CYRS_ACCEPTED, 0, UNSET, UNSET);
    for (i = 0; i <= fits; i++) {
        memset(line, '6', sizeof line);
        memcpy(line, "M,+,", 4);
        line[5] = (char)('0' + i % 10);
        line[7] = (char)('0' + i / 10 % 10);
        line[9] = (char)('0' + i / 100);
        memcpy(line + 4 + 2 * CYRS_NAME_LIMIT, ",", 2);
        if (i < fits)
            expect("a long type", enter(line), CYRS_ACCEPTED, i + 2, 1, UNSET);
        else
            expect("one too many", enter(line), CYRS_REFUSED_STORE_ROOM, 0, 0, UNSET);
    }
    /* An empty store whose last number is the last that there is. */
    memset(store, 0, sizeof store);
    store[0] = store[1] = 0xff;
    expect("no number left", enter("D,"), CYRS_REFUSED_STORE_NUMBERS, 0, 0, UNSET);
    store[2] = 1;
    expect("no store", look_up(1), CYRS_REFUSED_STORE, 0, 0, 0);
    fresh();
    expect("an empty text", cyrs_enter_type(store, sizeof store, NULL, 0, &first, &second), CYRS_REFUSED_STORE, 0, 0, UNSET);
    memset(store, 0, sizeof store);
    fresh();
    expect("an empty text", cyrs_enter_type(store, sizeof store, NULL, 0, &first, &second), CYRS_REFUSED_TYPE_LINE, 1, 0, UNSET);
    fresh();
    expect("an empty store", cyrs_enter_type(NULL, 0, NULL, 0, &first, &second), CYRS_REFUSED_STORE, 0, 0, UNSET);
    fresh();
    expect("an empty store", cyrs_release_type(NULL, 0, 1, &first), CYRS_REFUSED_STORE, 0, UNSET, UNSET);
    fresh();
    expect("an empty store", cyrs_look_up_type(NULL, 0, 1, &first, &second, &third), CYRS_REFUSED_STORE, 0, 0, 0);
}

int main(void)
{
    sheets();
    type_lines();
    stores();
    printf("%d calls from C, %d not as expected\n", calls, wrong);
    return wrong != 0;
}
