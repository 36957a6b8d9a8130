#include "flows.h"

#include "bond.h"
#include "half_up.h"

enum { ONE = 1000000, YEAR = 365, WITHHELD_PERCENT = 15 };

/* Of cash or of a payment: 1 in, -1 out, 0 none. */
typedef struct {
    int first_leg, second_leg, up_to_value_day_2, after_value_day_2;
} signs;

int is_settled(const seddolki_record *repo) {
    return repo->phase == (repo->kind == SEDDOLKI_POOL ? 3 : 2);
}

static signs signs_of(const seddolki_record *trade) {
    int in = trade->side == SEDDOLKI_REPO_MEMBER ? 1 : -1;
    if (trade->kind == SEDDOLKI_OUTRIGHT) return (signs){-in, 0, in, in};
    if (!is_settled(trade)) return (signs){in, -in, -in, 0};
    if (trade->kind == SEDDOLKI_POOL && in < 0) return (signs){0, 0, 0, 0};
    return (signs){0, -in, 0, in};
}

static uint64_t first_leg(const seddolki_record *trade) {
    if (trade->kind != SEDDOLKI_OUTRIGHT) return seddolki_get_u64(&trade->repo_cash);
    wide dirty = (wide)seddolki_get_u32(&trade->price_or_rate) + seddolki_get_u32(&trade->accrued);
    return half_up(seddolki_get_u64(&trade->nominal) * dirty, ONE);
}

static uint64_t second_leg(const seddolki_record *repo) {
    uint64_t cash = seddolki_get_u64(&repo->repo_cash);
    wide yearly = (wide)cash * seddolki_get_u32(&repo->price_or_rate);
    uint64_t interest = half_up(yearly * seddolki_get_u16(&repo->term), (wide)YEAR * ONE);
    return cash + interest - half_up((wide)interest * WITHHELD_PERCENT, 100);
}

static uint64_t payment(const seddolki_record *trade, int is_last) {
    uint64_t nominal = seddolki_get_u64(&trade->nominal);
    if (trade->security == SEDDOLKI_SINGLE_PAYMENT) return nominal;
    uint64_t amount = half_up((wide)nominal * seddolki_get_u32(&trade->coupon), ONE);
    if (is_last) amount += nominal;
    if (trade->security == SEDDOLKI_COUPONS) return amount;
    return half_up((wide)amount * seddolki_get_u32(&trade->settlement_index),
                   seddolki_get_u32(&trade->issue_index));
}

static void add_flow(worth *sum, const seddolki_curve *curve, int sign, uint64_t day,
                     uint64_t amount) {
    uint64_t tolerance;
    if (!sign) return;
    seddolki_answer answer = seddolki_present_value(amount, rate_on(curve, day), day, &tolerance);
    sum->base += sign * (int64_t)answer.value;
    sum->tolerance += tolerance;
}

static void add_payments(worth *sum, const seddolki_curve *curve, const seddolki_record *trade) {
    int is_single = trade->security == SEDDOLKI_SINGLE_PAYMENT;
    size_t payments = is_single ? 1 : seddolki_get_u16(&trade->payments);
    uint64_t day = seddolki_get_u16(&trade->first_payment_day);
    signs of = signs_of(trade);
    for (size_t i = 1; i <= payments; i++, day += seddolki_get_u16(&trade->period)) {
        int is_back = day > seddolki_get_u16(&trade->value_day_2);
        int sign = is_back ? of.after_value_day_2 : of.up_to_value_day_2;
        add_flow(sum, curve, sign, day, payment(trade, i == payments));
    }
}

static void add_trade(worth *sum, const seddolki_curve *curve, const seddolki_record *trade) {
    signs of = signs_of(trade);
    if (trade->cash_curve == curve->id) {
        add_flow(sum, curve, of.first_leg, seddolki_get_u16(&trade->value_day_1), first_leg(trade));
        add_flow(sum, curve, of.second_leg, seddolki_get_u16(&trade->value_day_2),
                 second_leg(trade));
    }
    if (trade->security_curve == curve->id) add_payments(sum, curve, trade);
}

worth worth_on(const seddolki_block *book, size_t used, uint8_t id) {
    size_t curves = seddolki_get_u16(&book->header.curves);
    worth sum = {0, 0};
    for (size_t i = 1 + curves; i < used / SEDDOLKI_BLOCK; i++)
        for (size_t j = 0; j < book[i].trades.count; j++)
            add_trade(&sum, &book[id].curve, &book[i].trades.places[j]);
    return sum;
}
