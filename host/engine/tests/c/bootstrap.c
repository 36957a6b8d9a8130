/*
 * Lengthens the curve of document 01's example, by the names of the header
 * alone, after calls that are refused: bootstrap BOOK
 */
#include "load.h"
#include "seddolki.h"

#include <inttypes.h>
#include <string.h>

enum { BLOCKS = 3 };

static seddolki_block book[BLOCKS], before[BLOCKS];

/* What a call is given beside the book. */
typedef struct {
    size_t curve;
    seddolki_bond bond;
    uint64_t cash;
    int32_t first;
} quote;

/* A bond that pays what the curve yields, at its nominal. */
static quote at_par(void) {
    quote asked;
    memset(&asked, 0, sizeof asked);
    asked.curve = 1;
    seddolki_set_u16(&asked.bond.first_payment_day, 365);
    seddolki_set_u16(&asked.bond.period, 365);
    seddolki_set_u16(&asked.bond.payments, 3);
    seddolki_set_u32(&asked.bond.coupon, 250000);
    seddolki_set_u64(&asked.bond.nominal, 100000000);
    asked.cash = 100000000;
    asked.first = 250000;
    return asked;
}

static seddolki_answer bootstrap(const quote *asked) {
    return seddolki_bootstrap((uint8_t *)book, sizeof book, sizeof book, valuation_day(book),
                              asked->curve, (const uint8_t *)&asked->bond, asked->cash,
                              asked->first, -1, 2);
}

static void print_refusal(const char *what, const quote *asked) {
    seddolki_answer answer = bootstrap(asked);
    expect(answer.number != SEDDOLKI_DONE, what);
    expect(!memcmp(book, before, sizeof book), "a refused call writes nothing");
    printf("%s: refused by %" PRIu64 " in block %" PRIu64 "\n", what, answer.number, answer.value);
}

static void print_bond_refusals(void) {
    quote asked = at_par();
    seddolki_set_u16(&asked.bond.payments, 0);
    print_refusal("no payments", &asked);
    asked = at_par();
    seddolki_set_u16(&asked.bond.term, 1);
    print_refusal("a term", &asked);
    asked = at_par();
    seddolki_set_u64(&asked.bond.nominal, SEDDOLKI_MAX_AMOUNT);
    print_refusal("a payment too large", &asked);
}

static void print_refusals(void) {
    quote asked = at_par();
    asked.curve = 2;
    print_refusal("a curve that the book lacks", &asked);
    print_bond_refusals();
    asked = at_par();
    asked.first = SEDDOLKI_MAX_COMPONENT + 1;
    print_refusal("a component too large", &asked);
    asked = at_par();
    asked.cash = 0;
    print_refusal("no cash", &asked);
    asked = at_par();
    seddolki_set_u16(&asked.bond.payments, 2);
    print_refusal("an end within the curve", &asked);
    asked = at_par();
    asked.cash = 1;
    print_refusal("too little cash", &asked);
}

static void print_last_node(const seddolki_curve *curve) {
    const seddolki_node *node = &curve->places[curve->node_count - 1];
    printf("%d nodes, the last on day %" PRIu16 " at %" PRIu32 ", moved by", curve->node_count,
           seddolki_get_u16(&node->day), seddolki_get_u32(&node->rate));
    for (int i = 0; i < SEDDOLKI_COMPONENTS; i++)
        printf(" %" PRId32, seddolki_get_i32(&node->components[i]));
    printf("\n");
}

static void lengthen(void) {
    quote asked = at_par(), given = asked;
    seddolki_answer answer = bootstrap(&asked);
    expect(answer.number == SEDDOLKI_DONE, "the curve is lengthened");
    expect(answer.value == 0, "there is no other result");
    expect(!memcmp(&asked.bond, &given.bond, sizeof given.bond), "the bond stays");
    expect(!memcmp(&book[0], &before[0], sizeof *book), "the header stays");
    expect(!memcmp(&book[2], &before[2], sizeof *book), "the trades stay");
    expect(seddolki_check((uint8_t *)book, sizeof book, sizeof book).number == SEDDOLKI_DONE,
           "the book is accepted");
    print_last_node(&book[1].curve);
}

/* At the new node's rate, which is that of the others, the bond is worth its cash. */
static void value_payments(void) {
    static const uint64_t days[] = {365, 730, 1095}, amounts[] = {25000000, 25000000, 125000000};
    uint64_t sum = 0, tolerance;
    for (int i = 0; i < 3; i++) {
        seddolki_answer answer = seddolki_present_value(amounts[i], 250000, days[i], &tolerance);
        expect(answer.number == SEDDOLKI_DONE, "a payment has a value");
        sum += answer.value;
    }
    expect(sum == at_par().cash, "the payments are worth the cash");
}

/* A trade's bond is what stands in bytes 12 to 31 of its record. */
static void compare_bonds(void) {
    seddolki_record trade;
    seddolki_bond bond;
    uint8_t bytes[SEDDOLKI_RECORD];
    for (uint8_t i = 0; i < SEDDOLKI_RECORD; i++) bytes[i] = i;
    memcpy(&trade, bytes, sizeof trade);
    bond = seddolki_bond_of(&trade);
    expect(!memcmp(&bond, bytes + 12, SEDDOLKI_BOND), "a record has its bond");
}

int main(int count, char **names) {
    expect(count == 2, "bootstrap BOOK");
    expect(load(names[1], book, BLOCKS) == BLOCKS, "the file has the blocks");
    memcpy(before, book, sizeof book);
    print_refusals();
    lengthen();
    value_payments();
    compare_bonds();
    expect(fflush(stdout) == 0, "all is printed");
    return 0;
}
