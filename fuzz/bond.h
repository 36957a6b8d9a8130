/* What a coupon bond is worth on a curve, by the engine's single present values. */
#ifndef BOND_H
#define BOND_H

#include "seddolki.h"

/* The day of a bond's last payment. */
uint64_t last_payment_day(const seddolki_bond *bond);

/* The day of a curve's last node. */
uint64_t last_node_day(const seddolki_curve *curve);

/* The rate of a curve on a day. */
uint64_t rate_on(const seddolki_curve *curve, uint64_t day);

/* A curve with a node more on a bond's last payment day, its components 0. */
seddolki_curve lengthened(const seddolki_curve *curve, const seddolki_bond *bond, uint32_t rate);

/* The sum of the present values of a bond's payments at the rates of a curve. */
uint64_t value_of(const seddolki_bond *bond, const seddolki_curve *curve);

#endif
