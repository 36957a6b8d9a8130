#include "bond.h"

#include "half_up.h"

enum { ONE = 1000000 };

uint64_t last_payment_day(const seddolki_bond *bond) {
    uint64_t first = seddolki_get_u16(&bond->first_payment_day);
    uint64_t payments = seddolki_get_u16(&bond->payments);
    return payments ? first + (payments - 1) * seddolki_get_u16(&bond->period) : first;
}

uint64_t last_node_day(const seddolki_curve *curve) {
    return seddolki_get_u16(&curve->places[curve->node_count - 1].day);
}

seddolki_curve lengthened(const seddolki_curve *curve, const seddolki_bond *bond, uint32_t rate) {
    seddolki_curve longer = *curve;
    seddolki_node *node = &longer.places[longer.node_count++];
    seddolki_set_u16(&node->day, (uint16_t)last_payment_day(bond));
    seddolki_set_u32(&node->rate, rate);
    return longer;
}

/* Outside the nodes the end node's, between two on the line, cut towards zero. */
uint64_t rate_on(const seddolki_curve *curve, uint64_t day) {
    const seddolki_node *node = curve->places, *last = node + curve->node_count - 1;
    if (day < seddolki_get_u16(&node->day)) return seddolki_get_u32(&node->rate);
    while (node < last && seddolki_get_u16(&node[1].day) <= day) node++;
    int64_t rate = seddolki_get_u32(&node->rate);
    if (node == last) return (uint64_t)rate;
    int64_t start = seddolki_get_u16(&node->day), end = seddolki_get_u16(&node[1].day);
    int64_t rise = seddolki_get_u32(&node[1].rate) - rate;
    return (uint64_t)(rate + rise * ((int64_t)day - start) / (end - start));
}

uint64_t value_of(const seddolki_bond *bond, const seddolki_curve *curve) {
    uint64_t nominal = seddolki_get_u64(&bond->nominal), sum = 0, tolerance;
    uint64_t coupon = half_up((wide)nominal * seddolki_get_u32(&bond->coupon), ONE);
    uint64_t last = last_payment_day(bond), day = seddolki_get_u16(&bond->first_payment_day);
    for (; day <= last; day += seddolki_get_u16(&bond->period)) {
        uint64_t amount = day == last ? coupon + nominal : coupon;
        sum += seddolki_present_value(amount, rate_on(curve, day), day, &tolerance).value;
    }
    return sum;
}
