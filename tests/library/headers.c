/* An ordinary small C99 program: it includes every header in tools/c and uses something of each, as a student's simulator would. The last line says how many values were right. */
#include <assert.h>
#include <ctype.h>
#include <errno.h>
#include <float.h>
#include <inttypes.h>
#include <limits.h>
#include <math.h>
#include <stdarg.h>
#include <stdbool.h>
#include <stddef.h>
#include <stdint.h>
#include <stdio.h>
#include <stdlib.h>
#include <string.h>
#include <time.h>
#include "tirnavoy.h"

static unsigned passed, failed;

static void expect(int line, bool right) {
    if (right) {
        passed++;
        return;
    }
    failed++;
    fprintf(stderr, "line %d: not what was expected\n", line);
}

static void write_to(char *to, size_t room, const char *format, ...) {
    va_list list;
    va_start(list, format);
    vsnprintf(to, room, format, list);
    va_end(list);
}

static int ascending(const void *a, const void *b) {
    const uint32_t x = *(const uint32_t *)a, y = *(const uint32_t *)b;
    return x < y ? -1 : x > y;
}

static void numbers(void) {
    const double right_angle = 2 * atan(1), tiny = DBL_MIN;
    expect(__LINE__, fabs(sin(right_angle) - 1) <= DBL_EPSILON && fabs(cos(right_angle)) <= DBL_EPSILON);
    expect(__LINE__, sqrt(2.25) == 1.5 && hypot(3, 4) == 5 && pow(2, 10) == 1024 && floor(-0.5) == -1 && lround(2.5) == 3);
    expect(__LINE__, isnan(NAN) && isinf(INFINITY) && isfinite(tiny) && signbit(-tiny));
    expect(__LINE__, CHAR_BIT == 8 && INT_MAX == INT32_MAX && INT_MIN == INT32_MIN && UINT_MAX == UINT32_MAX && ULONG_MAX == UINT64_MAX && LLONG_MIN == INT64_MIN);
    expect(__LINE__, sizeof(int8_t) == 1 && sizeof(int16_t) == 2 && sizeof(uintptr_t) == sizeof(void *) && SIZE_MAX == UINT64_MAX);
}

static void texts(void) {
    char text[64], *end;
    write_to(text, sizeof text, "%" PRIu32 " %016" PRIx64, UINT32_MAX, UINT64_C(0xABC));
    expect(__LINE__, strcmp(text, "4294967295 0000000000000abc") == 0 && strlen(text) == 27);
    expect(__LINE__, strtoull("0xFFFFFFFFFFFFFFFF", &end, 0) == UINT64_MAX && *end == '\0' && errno == 0);
    expect(__LINE__, strtoull("0x1FFFFFFFFFFFFFFFF", NULL, 0) == ULLONG_MAX && errno == ERANGE);
    expect(__LINE__, isdigit('7') && !isdigit('x') && toupper('a') == 'A' && isspace('\t'));
    expect(__LINE__, atoi("-12") == -12 && strtod("0.25", NULL) == 0.25 && strchr(text, ' ') == text + 10);
}

static void files(void) {
    char line[64];
    uint32_t entry = 0, star = 0;
    errno = 0;
    expect(__LINE__, fopen("/no/such/file", "r") == NULL && errno == ENOENT);
    expect(__LINE__, fgets(line, sizeof line, stdin) != NULL && sscanf(line, "%" SCNu32 " %" SCNu32, &entry, &star) == 2 && entry == 1 && star == 10);
    expect(__LINE__, fgets(line, sizeof line, stdin) == NULL && feof(stdin) && !ferror(stdin));
}

struct field {
    uint64_t code;
    uint32_t star;
};

static void lists(void) {
    uint32_t *list = (uint32_t *)calloc(3, sizeof *list);
    assert(list != NULL);
    list[0] = 30, list[1] = 10, list[2] = 20;
    qsort(list, 3, sizeof *list, ascending);
    expect(__LINE__, list[0] == 10 && list[1] == 20 && list[2] == 30);
    memset(list, 0, 3 * sizeof *list);
    expect(__LINE__, list[2] == 0 && offsetof(struct field, star) == 8);
    free(list);
    srand((unsigned)time(NULL));
    expect(__LINE__, rand() <= RAND_MAX && clock() >= 0);
}

static void library(void) {
    const uint64_t nothing = 0;
    uint32_t buckets = 0;
    expect(__LINE__, tirnavoy_blackboard(1, 8, 62, &buckets) == TIRNAVOY_NONE && buckets == 2032);
    expect(__LINE__, tirnavoy_blackboard_masked(1, 8, &nothing, 1, 0, &buckets) == TIRNAVOY_NONE && buckets == 256);
}

int main(void) {
    numbers();
    texts();
    files();
    lists();
    library();
    printf("%u passed, %u failed\n", passed, failed);
    return failed == 0 ? EXIT_SUCCESS : EXIT_FAILURE;
}
