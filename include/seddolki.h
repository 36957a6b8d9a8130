/*
 * Seddolki: the cash flow margin of one account's book.
 *
 * A book is 2 to 128 blocks of 512 bytes: a header, 1 to 8 curves, then the
 * trades, nine records of 56 bytes to a block. The caller lends the bytes:
 * `book` points at `len` of them, and the book is the first `used`. Money is
 * in whole hundredths of its currency, rates and prices are in millionths. The
 * second half of this file has the layouts of the blocks, functions that get
 * and set their fields, and one that counts the days to a date.
 *
 * A book is for one day, its valuation day: the header has it, in days since
 * 1 January 2000. The days of curves and trades are counted from there, so it
 * is day 0. Margin, preview, append, strike, bootstrap and statement are given
 * the current day as `day`, in days since 1 January 2000 too, and refuse a book
 * that is for another day. Edits keep the day that the book has.
 *
 * Lent bytes must not change while a call runs. A call looks at a book first
 * and then reads it again, so a change in between, by another thread or, where
 * a file is mapped, by another process, may crash the program. Read a book's
 * file into memory that nothing else writes, and lend that copy, never a
 * mapping of the file.
 *
 * Bytes that a call writes must not overlap the others of the same call: where
 * they do, nothing of what this file says holds: a page over its book may be
 * written past its end and crash the program.
 *
 * Every function returns; none allocates, keeps a pointer, reads or writes a
 * file, or holds state between calls. Calls on different bytes may run at
 * the same time. No call needs more than 512 KiB of stack. A pointer must be
 * valid for its length, and with a length of 0 it may be NULL. Any value of
 * `used`, `position`, `amount`, `rate`, `day`, `curve`, `cash` and of the
 * components may be passed.
 *
 * Every function that is lent a book looks at all of it first, and refuses
 * it by the first of grounds 1 to 12 that applies; then, where it is given the
 * current day, by 19.
 */
#ifndef SEDDOLKI_H
#define SEDDOLKI_H

#include <stddef.h>
#include <stdint.h>
#include <string.h>

#ifdef __cplusplus
extern "C" {
#endif

/*
 * The number of the last request of document 02 that the engine of this header
 * has. The next version may change the parameters of a function, or leave them
 * and change which books are accepted, what they mean and the figures that they
 * give. A program that says
 *
 *     #if SEDDOLKI_VERSION != 7
 *     #error "this program is written for version 7 of seddolki.h"
 *     #endif
 *
 * does not compile with another. The archive says its own number
 * (seddolki_version), since one of another version links with this header all
 * the same; a program asks for it once, before any other call:
 *
 *     if (seddolki_version() != SEDDOLKI_VERSION) exit(1);
 */
#define SEDDOLKI_VERSION 7

/* Bytes of a block, and of a report. */
#define SEDDOLKI_BLOCK 512

/* Bytes of the largest book. */
#define SEDDOLKI_LARGEST_BOOK 65536

/* Bytes of a record. */
#define SEDDOLKI_RECORD 56

/* Bytes of a coupon bond. */
#define SEDDOLKI_BOND 20

/* Bytes of a statement's line, the line feed included. */
#define SEDDOLKI_LINE_SIZE 81

/* Bytes of the longest page of a statement, that of a full book with one curve. */
#define SEDDOLKI_PAGE_SIZE 92097

/*
 * The answer of a call.
 *
 * number  0: done. Otherwise the ground on which the call was refused.
 * value   If done: the result that the function names, else 0. If refused:
 *         the block that the ground was found in, counted from 0; for a new
 *         record, the block that it would take; 0 for grounds 1 and 13 to 19,
 *         and for what a bootstrap is given beside the book.
 */
typedef struct {
    uint64_t number;
    uint64_t value;
} seddolki_answer;

/*
 * The grounds of refusal, in the order in which they are tried: the length
 * first, then block by block, and in a trade block record by record; then 19,
 * where the current day is given; then a new record, by 8 to 12; then 13, 14 or
 * 15, of which a preview alone has two, 15 before 13. 16 is of the present
 * value alone, 17 and 18 are of the bootstrap, which says its own order.
 */
enum {
    SEDDOLKI_DONE = 0,
    /* The used length is 0, no multiple of 512, above 65,536 or above len. */
    SEDDOLKI_LENGTH = 1,
    /* A block's check is not 1 plus the sum of its first 127 words of 4 bytes, modulo 2^32. */
    SEDDOLKI_CHECK = 2,
    /* A block's kind or number is not the one that its place calls for. */
    SEDDOLKI_PLACE = 3,
    /* A count of the header, or a header byte due to be 0, is wrong. */
    SEDDOLKI_HEADER = 4,
    /* A curve's id, currency, number of nodes, steps, range, or a byte due to be 0, is wrong. */
    SEDDOLKI_CURVE = 5,
    /* A node's day, order, rate or component is out of limits. */
    SEDDOLKI_NODE = 6,
    /* A block's number of trades, or a byte behind its records, is wrong. */
    SEDDOLKI_TRADE_BLOCK = 7,
    /* A record's kind, side, phase, security and curves are not allowed together. */
    SEDDOLKI_FORM = 8,
    /* A day, period, number of payments or term that the record uses breaks its rule. */
    SEDDOLKI_DAYS = 9,
    /* An amount, price, rate, coupon, accrued or index is wrong, or an unused field is not 0. */
    SEDDOLKI_AMOUNTS = 10,
    /* The record's two curves differ in currency. */
    SEDDOLKI_CURRENCY = 11,
    /* A cash flow of the trade exceeds 10^12. */
    SEDDOLKI_FLOW_LIMIT = 12,
    /* The space for the report is under 512 bytes, or the page does not fit. */
    SEDDOLKI_REPORT_SPACE = 13,
    /* No trade has that position. */
    SEDDOLKI_POSITION = 14,
    /* A new block is needed, and the book has 128 or the lent bytes end before it does. */
    SEDDOLKI_BOOK_SPACE = 15,
    /* The amount is above 10^12, the rate above 1,000,000 or the day above 10,950. */
    SEDDOLKI_VALUE_RANGE = 16,
    /* The curve has 24 nodes, or the bond's last payment is not after its last node. */
    SEDDOLKI_CURVE_END = 17,
    /* Even at rate 1,000,000 the bond is worth more than the cash, or even at 0 less. */
    SEDDOLKI_RATE_RANGE = 18,
    /* The book's valuation day is not the current day. */
    SEDDOLKI_VALUATION_DAY = 19
};

/*
 * The version of the archive: SEDDOLKI_VERSION of the header that was made with
 * it.
 */
uint64_t seddolki_version(void);

/*
 * Whether a book keeps every rule.
 *
 * Done: value 0. Refused: 1 to 12. Writes nothing.
 */
seddolki_answer seddolki_check(const uint8_t *book, size_t len, size_t used);

/*
 * The margin of a book.
 *
 * Done: value 0, and the first 512 bytes of `report` are the report: for each
 * curve the base value, the worst loss, its scenario, the currency and the
 * tolerance; for each currency the initial, the variation and the total.
 * Bytes of `report` past the 512th keep their values.
 * Refused: 1 to 12, 19, then 13. Nothing is written. The book is never written.
 */
seddolki_answer seddolki_margin(const uint8_t *book, size_t len, size_t used, uint32_t day,
                                uint8_t *report, size_t report_len);

/*
 * Adds a record behind the last trade, in a new block where the last is full
 * or there is none.
 *
 * Done: value is the new used length. Written are the block that took the
 * record and, where that is a new one, the header, and nothing else: bytes
 * behind the book keep their values.
 * Refused: 1 to 12 and 19 for the book, 8 to 12 for the record, then 15.
 * Nothing is written. `record` is never written.
 */
seddolki_answer seddolki_append(uint8_t *book, size_t len, size_t used, uint32_t day,
                                const uint8_t record[SEDDOLKI_RECORD]);

/*
 * The margin of a book as it would be with one more trade: what an append and
 * then a margin give on a copy of the book, in as many lent bytes, on that day.
 *
 * Done: value 0, and the first 512 bytes of `report` are the report. Bytes of
 * `report` past the 512th keep their values.
 * Refused: as an append, by 1 to 12 and 19 for the book, 8 to 12 for the record
 * and 15, although no new block is written here; then 13. Nothing is written.
 * The book and `record` are never written.
 */
seddolki_answer seddolki_preview(const uint8_t *book, size_t len, size_t used, uint32_t day,
                                 const uint8_t record[SEDDOLKI_RECORD], uint8_t *report,
                                 size_t report_len);

/*
 * Removes the trade at a position, counted from 0; those behind it move up.
 *
 * Done: value is the new used length. A block left empty becomes zeros, and
 * the used length falls by 512. Bytes behind the used length that was passed
 * keep their values.
 * Refused: 1 to 12, 19, then 14. Nothing is written.
 */
seddolki_answer seddolki_strike(uint8_t *book, size_t len, size_t used, uint32_t day,
                                size_t position);

/*
 * Gives the trade at a position, counted from 0.
 *
 * Done: value 0, and `record` has its 56 bytes.
 * Refused: 1 to 12, then 14; `record` is then all zeros. The book is never
 * written.
 */
seddolki_answer seddolki_read(const uint8_t *book, size_t len, size_t used, size_t position,
                              uint8_t record[SEDDOLKI_RECORD]);

/*
 * What an amount on a day is worth on day 0, at a yearly rate compounded yearly.
 *
 * Done: value is the present value, rounded to the nearest, a half up, and
 * `*tolerance` is how far from it the exact value, so rounded, may be. Margin,
 * preview, bootstrap and statement value each flow so, before its sign: a flow
 * paid is worth minus what the same flow received is.
 * Refused: 16; `*tolerance` is then 0.
 */
seddolki_answer seddolki_present_value(uint64_t amount, uint64_t rate, uint64_t day,
                                       uint64_t *tolerance);

/*
 * Lengthens a curve by a coupon bond's price: adds a node on the day of the
 * bond's last payment. `bond` is bytes 12 to 31 of a record, `cash` what the
 * bond settles for today in hundredths; `first`, `second` and `third` are the
 * node's components. Its rate is the smallest, from 0 to 1,000,000, at which
 * the present values of the bond's payments, at the rates of the curve with
 * the new node, add up to at most the cash.
 *
 * Done: value 0. Written are the node, the node count and the check in the
 * block of the curve, and nothing else.
 * Refused: 1 to 12 and 19 for the book; then 8 for a curve that it lacks, 9, 10
 * and 12 for the bond, 6 for the components, 10 for the cash, 17, 18, each of
 * these with block 0. Nothing is written. `bond` is never written.
 */
seddolki_answer seddolki_bootstrap(uint8_t *book, size_t len, size_t used, uint32_t day,
                                   size_t curve, const uint8_t bond[SEDDOLKI_BOND], uint64_t cash,
                                   int32_t first, int32_t second, int32_t third);

/*
 * The account statement: a page to file with the book, on which are its trades
 * and the figures of its margin. For document 01's example:
 *
 *     account 7
 *     0 1 1 365                                                                1000.00
 *     1 2 TRY                       100.00                300.00                  0.01
 *     TRY                           300.00                100.00               -200.00
 *
 * A line is 80 characters of ASCII, blanks where nothing else stands, and a line
 * feed. From column 1 on, one blank apart, it says what it is of; amounts follow,
 * the last in columns 59 to 80, and where there are three the others in 15 to 36
 * and 37 to 58:
 *
 *                    from the left                             amounts
 *   title            "account", the account's number           none
 *   each trade       position from 0, kind, side and day       nominal
 *   each curve       id, scenario, letters of the currency     base, worst_loss, tolerance
 *   each currency    its letters                               initial, variation, total
 *
 * Kind and side are the numbers of the record, the day is that of the last
 * payment; a trade without a security has value_day_2 there, and nominal 0.00.
 * Trades stand in the order of their positions, curves in that of their ids, and
 * of TRY, USD and EUR, in this order, those that a curve has. An amount ends in
 * the last of its 22 columns, with a point before the hundredths and, where it is
 * below 0, a minus directly before its first digit: 0.00, 0.05, -200.00. Every
 * amount of every book fits.
 *
 * Done: value is the page's length, 81 for each line, and the first bytes of
 * `page` are the page, with no byte 0 at its end. Bytes past it keep their
 * values.
 * Refused: 1 to 12, 19, then 13 where `page_len` is below the page's length.
 * Nothing is written. The book is never written.
 */
seddolki_answer seddolki_statement(const uint8_t *book, size_t len, size_t used, uint32_t day,
                                   uint8_t *page, size_t page_len);

#ifdef __cplusplus
}
#endif

/* The kind of a block. */
enum {
    SEDDOLKI_HEADER_KIND = 1,
    SEDDOLKI_CURVE_KIND = 2,
    SEDDOLKI_TRADES_KIND = 3,
    SEDDOLKI_REPORT_KIND = 9
};

/* The currency of a curve; in a report, 0 where there is no curve. */
enum {
    SEDDOLKI_TRY = 1,
    SEDDOLKI_USD = 2,
    SEDDOLKI_EUR = 3
};

/* The kind of a trade. */
enum {
    SEDDOLKI_OUTRIGHT = 1,
    SEDDOLKI_POOL = 2,
    SEDDOLKI_SPECIFIED = 3
};

/* The side of a trade: of an outright the first two, of a repo the last two. */
enum {
    SEDDOLKI_BUYER = 1,
    SEDDOLKI_SELLER = 2,
    SEDDOLKI_REPO_MEMBER = 1,
    SEDDOLKI_REVERSE_REPO_MEMBER = 2
};

/* The security of a trade. */
enum {
    SEDDOLKI_NO_SECURITY = 0,
    SEDDOLKI_SINGLE_PAYMENT = 1,
    SEDDOLKI_COUPONS = 2,
    SEDDOLKI_INDEXED_COUPONS = 3
};

/*
 * Limits. What has no lower limit starts at 0. An amount is a nominal, a repo
 * cash or what a bond settles for; a component may be as far below 0 as above.
 */
#define SEDDOLKI_MAX_BLOCKS 128
#define SEDDOLKI_MIN_CURVES 1
#define SEDDOLKI_MAX_CURVES 8
#define SEDDOLKI_MAX_CURRENCIES 3
#define SEDDOLKI_FULL_BLOCK 9
#define SEDDOLKI_MIN_NODES 2
#define SEDDOLKI_MAX_NODES 24
#define SEDDOLKI_COMPONENTS 3
#define SEDDOLKI_MAX_STEPS 3
#define SEDDOLKI_MAX_RANGE 10000
#define SEDDOLKI_MAX_COMPONENT 1000000
#define SEDDOLKI_MAX_DAY 10950
#define SEDDOLKI_MAX_RATE 1000000
#define SEDDOLKI_MIN_PERIOD 1
#define SEDDOLKI_MAX_PERIOD 366
#define SEDDOLKI_MIN_PAYMENTS 1
#define SEDDOLKI_MAX_PAYMENTS 120
#define SEDDOLKI_MIN_TERM 1
#define SEDDOLKI_MAX_TERM 730
#define SEDDOLKI_MAX_COUPON 1000000
#define SEDDOLKI_MIN_AMOUNT 1
#define SEDDOLKI_MAX_AMOUNT 1000000000000
#define SEDDOLKI_MIN_CLEAN_PRICE 1
#define SEDDOLKI_MAX_CLEAN_PRICE 4000000
#define SEDDOLKI_MAX_ACCRUED 1000000
#define SEDDOLKI_MIN_INDEX 1
#define SEDDOLKI_MAX_INDEX 10000000

/*
 * The layouts.
 *
 * A field of several bytes has the lowest first, whatever the machine. It is
 * held as bytes, so a layout has no gaps and may stand at any address. u is
 * without sign, i with one, and the number is of bits; the functions at the
 * end get and set such fields. The comment of a field starts with its first
 * byte, and leaves SEDDOLKI_ out of names. Bytes named zero are due to be 0,
 * and so are the places behind a curve's last node and a block's last record.
 */
typedef struct {
    uint8_t bytes[2];
} seddolki_u16;

typedef struct {
    uint8_t bytes[4];
} seddolki_u32;

typedef struct {
    uint8_t bytes[8];
} seddolki_u64;

typedef struct {
    uint8_t bytes[4];
} seddolki_i32;

typedef struct {
    uint8_t bytes[8];
} seddolki_i64;

/* What every block has. */
typedef struct {
    uint8_t kind;         /* 0 */
    uint8_t count;        /* 1: the trades of a trade block; 0 in any other block */
    seddolki_u16 number;  /* 2: of the block, counted from 0 */
    uint8_t content[504]; /* 4 */
    seddolki_u32 check;   /* 508: 1 plus the 127 words of 4 bytes before it, modulo 2^32 */
} seddolki_head;

/* Block 0. The blocks of a book are 1 + curves + trade_blocks, at most MAX_BLOCKS. */
typedef struct {
    uint8_t kind;                          /* 0: HEADER_KIND */
    uint8_t zero_after_kind;               /* 1 */
    seddolki_u16 number;                   /* 2: 0 */
    seddolki_u32 account;                  /* 4: any */
    seddolki_u16 curves;                   /* 8: MIN_CURVES to MAX_CURVES */
    seddolki_u16 trade_blocks;             /* 10: from 0 */
    seddolki_u32 valuation_day;            /* 12: in days since 1 January 2000, any */
    uint8_t zero_after_valuation_day[492]; /* 16 */
    seddolki_u32 check;                    /* 508 */
} seddolki_header;

/* A node of a curve. Days rise strictly from node to node. */
typedef struct {
    seddolki_u16 day;                             /* 0: 0 to MAX_DAY */
    uint8_t zero_after_day[2];                    /* 2 */
    seddolki_u32 rate;                            /* 4: in millionths, 0 to MAX_RATE */
    seddolki_i32 components[SEDDOLKI_COMPONENTS]; /* 8: in millionths, +-MAX_COMPONENT */
} seddolki_node;

/*
 * A curve. Blocks 1 on, one for each curve of the header. A scenario takes
 * for each component i a j from -steps[i] to steps[i], and adds to the rate
 * of each node j * ranges[i] / steps[i] hundredths of component i, nothing
 * where steps[i] is 0. Each of these quotients is cut towards zero, and so is
 * the hundredth part of their sum with the components; the rate is then
 * brought into 0 to MAX_RATE.
 */
typedef struct {
    uint8_t kind;                             /* 0: CURVE_KIND */
    uint8_t zero_after_kind;                  /* 1 */
    seddolki_u16 number;                      /* 2: 1 to the header's curves */
    uint8_t id;                               /* 4: the same as number */
    uint8_t currency;                         /* 5: TRY, USD or EUR */
    uint8_t node_count;                       /* 6: MIN_NODES to MAX_NODES */
    uint8_t steps[SEDDOLKI_COMPONENTS];       /* 7: a component's, 0 to MAX_STEPS */
    uint8_t zero_after_steps[2];              /* 10 */
    seddolki_u16 ranges[SEDDOLKI_COMPONENTS]; /* 12: in hundredths, 0 to MAX_RANGE */
    uint8_t zero_after_ranges[2];             /* 18 */
    seddolki_node places[SEDDOLKI_MAX_NODES]; /* 20: the first node_count are the nodes */
    uint8_t zero_after_places[8];             /* 500 */
    seddolki_u32 check;                       /* 508 */
} seddolki_curve;

/*
 * A trade's record. Fields that the trade does not use are due to be 0. By
 * kind and phase it uses:
 *
 *                        outright   pool 1   pool 2        pool 3
 *                                            specified 1   specified 2
 *   security             1 to 3     0        1 to 3        1 to 3
 *   cash_curve           yes        yes      yes           yes
 *   value_day_1          yes        yes      yes           no
 *   value_day_2, term    no         yes      yes           yes
 *   repo_cash            no         yes      yes           yes
 *   price_or_rate        price      rate     rate          rate
 *   accrued              yes        no       no            no
 *
 * and by security:
 *
 *                                                 0     1     2     3
 *   security_curve, first_payment_day, nominal    no    yes   yes   yes
 *   period, payments, coupon                      no    no    yes   yes
 *   settlement_index, issue_index                 no    no    no    yes
 *
 * A repo of pool 3 or specified 2 has settled its first leg, and value_day_2
 * is at most the term; in the other repos value_day_1 is before value_day_2,
 * and the term is their difference. The first payment falls after value_day_1,
 * or after day 0 where that is not used; the last of the coupons, that is
 * (payments - 1) * period later, on MAX_DAY at most. The two curves have one
 * currency.
 *
 * A repo's security leaves on value_day_1 and is back on value_day_2, by when
 * it may have paid its last. Of the payments these are cash flows of the trade,
 * and no others:
 *
 *                                               side 1   side 2
 *   outright               all                  in       out
 *   pool 2, specified 1    up to value_day_2    out      in
 *   pool 3                 after value_day_2    in       none
 *   specified 2            after value_day_2    in       out
 *
 * No cash flow of the trade is above MAX_AMOUNT.
 *
 * What is wrong in bytes 0 to 5 is ground 8, an unused security_curve
 * included; in a used day, period, payments or term it is 9; in anything
 * else, unused fields included, 10.
 */
typedef struct {
    uint8_t kind;                   /* 0: OUTRIGHT, POOL or SPECIFIED */
    uint8_t side;                   /* 1: BUYER or SELLER, REPO_MEMBER or REVERSE_REPO_MEMBER */
    uint8_t phase;                  /* 2: 0 of an outright, 1 to 3 of a pool repo, 1 or 2 else */
    uint8_t security_curve;         /* 3: the id of a curve of the book */
    uint8_t cash_curve;             /* 4: the id of a curve of the book */
    uint8_t security;               /* 5: NO_SECURITY to INDEXED_COUPONS */
    seddolki_u16 zero;              /* 6 */
    seddolki_u16 value_day_1;       /* 8: 0 to MAX_DAY */
    seddolki_u16 value_day_2;       /* 10: 0 to MAX_DAY */
    seddolki_u16 first_payment_day; /* 12: 1 to MAX_DAY */
    seddolki_u16 period;            /* 14: in days, MIN_PERIOD to MAX_PERIOD */
    seddolki_u16 payments;          /* 16: MIN_PAYMENTS to MAX_PAYMENTS */
    seddolki_u16 term;              /* 18: of the repo in days, MIN_TERM to MAX_TERM */
    seddolki_u32 coupon;            /* 20: of a period in millionths, 0 to MAX_COUPON */
    seddolki_u64 nominal;           /* 24: in hundredths, MIN_AMOUNT to MAX_AMOUNT */
    seddolki_u64 repo_cash;         /* 32: in hundredths, MIN_AMOUNT to MAX_AMOUNT */
    seddolki_u32 price_or_rate;     /* 40: in millionths, a clean price MIN_CLEAN_PRICE to
                                           MAX_CLEAN_PRICE, a repo rate 0 to MAX_RATE */
    seddolki_u32 accrued;           /* 44: in millionths, 0 to MAX_ACCRUED */
    seddolki_u32 settlement_index;  /* 48: MIN_INDEX to MAX_INDEX */
    seddolki_u32 issue_index;       /* 52: MIN_INDEX to MAX_INDEX */
} seddolki_record;

/*
 * A coupon bond: bytes 12 to 31 of a record as they stand. It pays as such a
 * record does, on day 1 at the earliest and MAX_DAY at the latest, and no
 * payment is above MAX_AMOUNT. What is wrong in a day, the period or the
 * payments is ground 9, a payment above MAX_AMOUNT 12, anything else 10.
 */
typedef struct {
    seddolki_u16 first_payment_day; /* 0: 1 to MAX_DAY */
    seddolki_u16 period;            /* 2: in days, MIN_PERIOD to MAX_PERIOD */
    seddolki_u16 payments;          /* 4: MIN_PAYMENTS to MAX_PAYMENTS */
    seddolki_u16 term;              /* 6: 0, a bond has none */
    seddolki_u32 coupon;            /* 8: of a period in millionths, 0 to MAX_COUPON */
    seddolki_u64 nominal;           /* 12: in hundredths, MIN_AMOUNT to MAX_AMOUNT */
} seddolki_bond;

/* Trades. Blocks behind the curves, all full but the last, none empty. */
typedef struct {
    uint8_t kind;                                /* 0: TRADES_KIND */
    uint8_t count;                               /* 1: 1 to FULL_BLOCK */
    seddolki_u16 number;                         /* 2: of the block, counted from 0 */
    seddolki_record places[SEDDOLKI_FULL_BLOCK]; /* 4: the first count are the trades */
    seddolki_u32 check;                          /* 508 */
} seddolki_trade_block;

/* A curve's figures in a report, all 0 where there is no curve. */
typedef struct {
    seddolki_i64 base;       /* 0: present value of all cash flows, in hundredths */
    seddolki_i64 worst_loss; /* 8: the largest over the scenarios, in hundredths */
    seddolki_u32 scenario;   /* 16: the first with that loss, counted from 0; the j of the
                                    first component changes slowest, that of the third fastest */
    seddolki_u32 currency;   /* 20: TRY, USD or EUR; 0 where there is no curve */
    seddolki_u64 tolerance;  /* 24: how far the base may be from the exact one, in hundredths */
} seddolki_curve_figures;

/* A currency's figures in a report, in hundredths, all 0 where no curve has the currency. */
typedef struct {
    seddolki_i64 initial;   /* 0: the sum of the worst losses of its curves */
    seddolki_i64 variation; /* 8: the sum of the base values of its curves */
    seddolki_i64 total;     /* 16: variation less initial */
} seddolki_currency_figures;

/* A report. A curve is at its id less 1, a currency at its number less 1. */
typedef struct {
    uint8_t kind;                                                  /* 0: REPORT_KIND */
    uint8_t zero_after_kind;                                       /* 1 */
    seddolki_u16 number;                                           /* 2: 0 */
    seddolki_u32 account;                                          /* 4: the book's */
    seddolki_curve_figures curves[SEDDOLKI_MAX_CURVES];            /* 8 */
    seddolki_currency_figures currencies[SEDDOLKI_MAX_CURRENCIES]; /* 264 */
    uint8_t zero_after_currencies[172];                            /* 336 */
    seddolki_u32 check;                                            /* 508 */
} seddolki_report;

/* Any block. A book is an array of these, a report is one. */
typedef union {
    uint8_t bytes[SEDDOLKI_BLOCK];
    seddolki_head head;
    seddolki_header header;
    seddolki_curve curve;
    seddolki_trade_block trades;
    seddolki_report report;
} seddolki_block;

/* A function of this file, which a program may leave unused. */
#ifdef __GNUC__
#define SEDDOLKI_INLINE __attribute__((unused)) static inline
#else
#define SEDDOLKI_INLINE static inline
#endif

/* The number in some bytes, the lowest first. */
SEDDOLKI_INLINE uint64_t seddolki_get_bytes(const uint8_t *bytes, size_t count) {
    uint64_t number = 0;
    while (count > 0) number = number << 8 | bytes[--count];
    return number;
}

/* Writes the lowest bytes of a number, the lowest first. */
SEDDOLKI_INLINE void seddolki_set_bytes(uint8_t *bytes, size_t count, uint64_t number) {
    size_t i;
    for (i = 0; i < count; i++) bytes[i] = (number >> (8 * i)) & 0xff;
}

SEDDOLKI_INLINE uint16_t seddolki_get_u16(const seddolki_u16 *field) {
    return seddolki_get_bytes(field->bytes, sizeof field->bytes) & UINT16_MAX;
}

SEDDOLKI_INLINE uint32_t seddolki_get_u32(const seddolki_u32 *field) {
    return seddolki_get_bytes(field->bytes, sizeof field->bytes) & UINT32_MAX;
}

SEDDOLKI_INLINE uint64_t seddolki_get_u64(const seddolki_u64 *field) {
    return seddolki_get_bytes(field->bytes, sizeof field->bytes);
}

SEDDOLKI_INLINE int32_t seddolki_get_i32(const seddolki_i32 *field) {
    uint32_t bits = seddolki_get_bytes(field->bytes, sizeof field->bytes) & UINT32_MAX;
    int32_t number;
    memcpy(&number, &bits, sizeof number);
    return number;
}

SEDDOLKI_INLINE int64_t seddolki_get_i64(const seddolki_i64 *field) {
    uint64_t bits = seddolki_get_bytes(field->bytes, sizeof field->bytes);
    int64_t number;
    memcpy(&number, &bits, sizeof number);
    return number;
}

SEDDOLKI_INLINE void seddolki_set_u16(seddolki_u16 *field, uint16_t number) {
    seddolki_set_bytes(field->bytes, sizeof field->bytes, number);
}

SEDDOLKI_INLINE void seddolki_set_u32(seddolki_u32 *field, uint32_t number) {
    seddolki_set_bytes(field->bytes, sizeof field->bytes, number);
}

SEDDOLKI_INLINE void seddolki_set_u64(seddolki_u64 *field, uint64_t number) {
    seddolki_set_bytes(field->bytes, sizeof field->bytes, number);
}

SEDDOLKI_INLINE void seddolki_set_i32(seddolki_i32 *field, int32_t number) {
    uint32_t bits;
    memcpy(&bits, &number, sizeof bits);
    seddolki_set_bytes(field->bytes, sizeof field->bytes, bits);
}

SEDDOLKI_INLINE void seddolki_set_i64(seddolki_i64 *field, int64_t number) {
    uint64_t bits;
    memcpy(&bits, &number, sizeof bits);
    seddolki_set_bytes(field->bytes, sizeof field->bytes, bits);
}

/* The bond of a record, its bytes 12 to 31 as they stand. */
SEDDOLKI_INLINE seddolki_bond seddolki_bond_of(const seddolki_record *record) {
    seddolki_bond bond;
    bond.first_payment_day = record->first_payment_day;
    bond.period = record->period;
    bond.payments = record->payments;
    bond.term = record->term;
    bond.coupon = record->coupon;
    bond.nominal = record->nominal;
    return bond;
}

/* The days from year 1 to the end of a year. */
SEDDOLKI_INLINE uint64_t seddolki_days_through(uint64_t year) {
    return 365 * year + year / 4 - year / 100 + year / 400;
}

/* The days of a month, 1 to 12, of a year from 1 on. */
SEDDOLKI_INLINE uint32_t seddolki_month_length(uint32_t year, uint32_t month) {
    static const uint8_t lengths[] = {31, 28, 31, 30, 31, 30, 31, 31, 30, 31, 30, 31};
    int is_leap = seddolki_days_through(year) - seddolki_days_through(year - 1) > 365;
    return lengths[month - 1] + (month == 2 && is_leap ? 1u : 0u);
}

/*
 * Counts the days from 1 January 2000 to a date, as a valuation day and the
 * current day are counted. Returns 1; or 0, nothing written, where there is no
 * such date, it is before 2000 or its days are more than 32 bits hold.
 */
SEDDOLKI_INLINE int seddolki_day_of(uint32_t year, uint32_t month, uint32_t day_of_month,
                                    uint32_t *day) {
    uint64_t days;
    uint32_t before;
    if (year < 2000 || month < 1 || month > 12) return 0;
    if (day_of_month < 1 || day_of_month > seddolki_month_length(year, month)) return 0;
    days = seddolki_days_through(year - 1) - seddolki_days_through(1999) + day_of_month - 1;
    for (before = 1; before < month; before++) days += seddolki_month_length(year, before);
    if (days > UINT32_MAX) return 0;
    *day = days & UINT32_MAX;
    return 1;
}

/* The check that the other bytes of a block call for. */
SEDDOLKI_INLINE uint32_t seddolki_check_of(const seddolki_block *block) {
    uint64_t sum = 1;
    size_t at;
    for (at = 0; at < offsetof(seddolki_head, check); at += sizeof(seddolki_u32))
        sum += seddolki_get_bytes(block->bytes + at, sizeof(seddolki_u32));
    return sum & UINT32_MAX;
}

/* Writes the check of a block, after all its other bytes. */
SEDDOLKI_INLINE void seddolki_seal(seddolki_block *block) {
    seddolki_set_u32(&block->head.check, seddolki_check_of(block));
}

#endif
