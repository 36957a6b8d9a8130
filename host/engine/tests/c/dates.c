/*
 * Prints each date of the years named, and its days since 1 January 2000;
 * what is no date is left out: dates YEAR ...
 */
#include "expect.h"
#include "seddolki.h"

#include <inttypes.h>

enum { MOST_MONTHS = 13, MOST_DAYS = 32, PAINT = 7 };

static void print_month(uint32_t year, uint32_t month) {
    uint32_t day_of_month;
    for (day_of_month = 0; day_of_month <= MOST_DAYS; day_of_month++) {
        uint32_t day = PAINT;
        if (seddolki_day_of(year, month, day_of_month, &day))
            printf("%" PRIu32 " %" PRIu32 " %" PRIu32 ": %" PRIu32 "\n", year, month, day_of_month,
                   day);
        else
            expect(day == PAINT, "where there is no date nothing is written");
    }
}

int main(int count, char **years) {
    int i;
    for (i = 1; i < count; i++) {
        uint32_t year = strtoul(years[i], NULL, 10) & UINT32_MAX, month;
        for (month = 0; month <= MOST_MONTHS; month++) print_month(year, month);
    }
    expect(fflush(stdout) == 0, "all is printed");
    return 0;
}
