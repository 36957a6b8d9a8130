/*
 * The deepest stack of each call on the books named: a call runs on a thread
 * whose stack was painted, and what is no longer paint was used.
 */
#define _GNU_SOURCE
#include "bond.h"
#include "seddolki.h"

#include <pthread.h>
#include <stdio.h>
#include <stdlib.h>
#include <string.h>
#include <sys/mman.h>

enum { STACK = 4 << 20, PAINT = 0xa5, CALLS = 9 };

static uint8_t book[SEDDOLKI_LARGEST_BOOK + SEDDOLKI_BLOCK], report[SEDDOLKI_BLOCK];
static uint8_t page[SEDDOLKI_PAGE_SIZE];
static size_t used;
static uint32_t day;

static void *none(void *unused) { return unused; }

static void *check(void *unused) {
    seddolki_check(book, sizeof book, used);
    return unused;
}

static void *margin(void *unused) {
    seddolki_margin(book, sizeof book, used, day, report, sizeof report);
    return unused;
}

static uint8_t record[SEDDOLKI_RECORD];

static void *read_first(void *unused) {
    seddolki_read(book, sizeof book, used, 0, record);
    return unused;
}

static void *append_it(void *unused) {
    seddolki_append(book, sizeof book, used, day, record);
    return unused;
}

static void *strike_first(void *unused) {
    seddolki_strike(book, sizeof book, used, day, 0);
    return unused;
}

/* The trade is struck before, which needs less, so that a full book has room for it. */
static void *preview_first(void *unused) {
    seddolki_answer struck = seddolki_strike(book, sizeof book, used, day, 0);
    if (struck.number == SEDDOLKI_DONE)
        seddolki_preview(book, sizeof book, struck.value, day, record, report, sizeof report);
    return unused;
}

static void *present_value(void *unused) {
    uint64_t tolerance;
    seddolki_present_value(1000000, 132500, 10949, &tolerance);
    return unused;
}

/* A bond with as many payments as can be, the last behind the first curve's last node. */
static seddolki_bond longest_bond(const seddolki_curve *curve) {
    enum { GAPS = SEDDOLKI_MAX_PAYMENTS - 1 };
    seddolki_bond bond;
    memset(&bond, 0, sizeof bond);
    seddolki_set_u16(&bond.first_payment_day, 1);
    seddolki_set_u16(&bond.period, (uint16_t)(last_node_day(curve) / GAPS + 1));
    seddolki_set_u16(&bond.payments, SEDDOLKI_MAX_PAYMENTS);
    seddolki_set_u32(&bond.coupon, 10000);
    seddolki_set_u64(&bond.nominal, 1000000000);
    return bond;
}

static seddolki_bond bond;
static uint64_t cash;

static void *bootstrap_first(void *unused) {
    seddolki_bootstrap(book, sizeof book, used, day, 1, (const uint8_t *)&bond, cash, 0, 0, 0);
    return unused;
}

static void *statement(void *unused) {
    seddolki_statement(book, sizeof book, used, day, page, sizeof page);
    return unused;
}

/* Bytes of the stack that a call has touched, the thread's own included. */
static size_t touched(void *(*call)(void *)) {
    static uint8_t *stack;
    if (!stack)
        stack = mmap(NULL, STACK, PROT_READ | PROT_WRITE, MAP_PRIVATE | MAP_ANONYMOUS, -1, 0);
    if (stack == MAP_FAILED) exit(1);
    memset(stack, PAINT, STACK);
    pthread_attr_t attributes;
    pthread_t thread;
    pthread_attr_init(&attributes);
    if (pthread_attr_setstack(&attributes, stack, STACK)) exit(1);
    if (pthread_create(&thread, &attributes, call, NULL)) exit(1);
    pthread_join(thread, NULL);
    size_t clean = 0;
    while (clean < STACK && stack[clean] == PAINT) clean++;
    return STACK - clean;
}

static void load(const char *name) {
    FILE *file = fopen(name, "rb");
    if (!file) perror(name), exit(1);
    used = fread(book, 1, SEDDOLKI_LARGEST_BOOK, file);
    fclose(file);
    const seddolki_block *blocks = (const seddolki_block *)book;
    const seddolki_curve *curve = &blocks[1].curve;
    day = seddolki_get_u32(&blocks->header.valuation_day);
    if (curve->node_count < SEDDOLKI_MIN_NODES || curve->node_count >= SEDDOLKI_MAX_NODES) return;
    bond = longest_bond(curve);
    seddolki_curve longer = lengthened(curve, &bond, 132500);
    cash = value_of(&bond, &longer);
}

int main(int count, char **names) {
    static const char *words[CALLS] = {"check",         "margin",    "read",
                                       "append",        "preview",   "strike",
                                       "present value", "bootstrap", "statement"};
    void *(*const calls[CALLS])(void *) = {check,         margin,          read_first,
                                           append_it,     preview_first,   strike_first,
                                           present_value, bootstrap_first, statement};
    size_t deepest[CALLS] = {0}, thread = touched(none);
    for (int i = 1; i < count; i++) {
        for (int call = 0; call < CALLS; call++) {
            load(names[i]);
            size_t bytes = touched(calls[call]) - thread;
            if (bytes > deepest[call]) deepest[call] = bytes;
        }
    }
    for (int call = 0; call < CALLS; call++) printf("%-14s %7zu\n", words[call], deepest[call]);
    return 0;
}
