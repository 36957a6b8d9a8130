/* Prints the totals of a book on a day: totals BOOK DATE, the date as 2026-11-16 */
#include "seddolki.h"

#include <inttypes.h>
#include <stdio.h>
#include <stdlib.h>

#if SEDDOLKI_VERSION != 7
#error "this program is written for version 7 of seddolki.h"
#endif

/* A file that is longer than the largest book is refused by its length. */
static uint8_t book[SEDDOLKI_LARGEST_BOOK + 1];

static void fail(const char *name) {
    perror(name);
    exit(1);
}

/* Reads the book and gives its length. */
static size_t load(const char *name) {
    FILE *file = fopen(name, "rb");
    if (!file) fail(name);
    size_t used = fread(book, 1, sizeof book, file);
    if (ferror(file)) fail(name);
    fclose(file);
    return used;
}

/* The days from 1 January 2000 to a date. */
static uint32_t day_of(const char *date) {
    unsigned year, month, day_of_month;
    uint32_t day;
    char more;
    int parts = sscanf(date, "%4u-%2u-%2u%c", &year, &month, &day_of_month, &more);
    if (parts == 3 && seddolki_day_of(year, month, day_of_month, &day)) return day;
    fprintf(stderr, "%s: not a date as 2026-11-16\n", date);
    exit(1);
}

static void print_totals(const seddolki_report *report) {
    static const char *const names[SEDDOLKI_MAX_CURRENCIES] = {"TRY", "USD", "EUR"};
    for (int i = 0; i < SEDDOLKI_MAX_CURRENCIES; i++) {
        const seddolki_currency_figures *figures = &report->currencies[i];
        printf("%s initial %" PRId64 " variation %" PRId64 " total %" PRId64 "\n", names[i],
               seddolki_get_i64(&figures->initial), seddolki_get_i64(&figures->variation),
               seddolki_get_i64(&figures->total));
    }
}

/* Output is often kept until the end, so only there is it known to have arrived. */
static void close_output(void) {
    int failed = ferror(stdout);
    if (fclose(stdout) || failed) fail("standard output");
}

int main(int count, char **names) {
    if (seddolki_version() != SEDDOLKI_VERSION)
        return fprintf(stderr, "the archive is of another version than seddolki.h\n"), 1;
    if (count != 3) return fprintf(stderr, "usage: totals BOOK DATE\n"), 1;
    uint32_t day = day_of(names[2]);
    size_t used = load(names[1]);
    seddolki_report report;
    seddolki_answer answer =
        seddolki_margin(book, sizeof book, used, day, (uint8_t *)&report, sizeof report);
    if (answer.number != SEDDOLKI_DONE) {
        fprintf(stderr, "%s: refused by ground %" PRIu64 " in block %" PRIu64 "\n", names[1],
                answer.number, answer.value);
        return 1;
    }
    print_totals(&report);
    close_output();
    return 0;
}
