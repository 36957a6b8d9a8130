/*
 * Sets and gets a field of every type, at an odd address, and prints the
 * number got and the bytes; then seals two blocks and prints their checks.
 */
#include "expect.h"
#include "seddolki.h"

#include <inttypes.h>
#include <string.h>

enum { PAINT = 0xa5 };

static void print_bytes(const uint8_t *bytes, size_t count) {
    size_t i;
    for (i = 0; i < count; i++) printf(" %02x", (unsigned)bytes[i]);
    printf("\n");
}

#define SHOW(type, format, number)                                                      \
    do {                                                                                \
        struct {                                                                        \
            uint8_t before;                                                             \
            seddolki_##type field;                                                      \
            uint8_t behind;                                                             \
        } place;                                                                        \
        memset(&place, PAINT, sizeof place);                                            \
        seddolki_set_##type(&place.field, number);                                      \
        expect(place.before == PAINT && place.behind == PAINT, "bytes around stay");    \
        printf(#type " %" format, seddolki_get_##type(&place.field));                   \
        print_bytes(place.field.bytes, sizeof place.field.bytes);                       \
    } while (0)

static void show_unsigned(void) {
    SHOW(u16, PRIu16, 0);
    SHOW(u16, PRIu16, 0x0102);
    SHOW(u16, PRIu16, UINT16_MAX);
    SHOW(u32, PRIu32, 0);
    SHOW(u32, PRIu32, 0x01020304);
    SHOW(u32, PRIu32, UINT32_MAX);
    SHOW(u64, PRIu64, 0);
    SHOW(u64, PRIu64, 0x0102030405060708);
    SHOW(u64, PRIu64, UINT64_MAX);
}

static void show_signed(void) {
    SHOW(i32, PRId32, INT32_MIN);
    SHOW(i32, PRId32, -2);
    SHOW(i32, PRId32, 0x01020304);
    SHOW(i32, PRId32, INT32_MAX);
    SHOW(i64, PRId64, INT64_MIN);
    SHOW(i64, PRId64, -2);
    SHOW(i64, PRId64, 0x0102030405060708);
    SHOW(i64, PRId64, INT64_MAX);
}

static void show_check(int filling) {
    seddolki_block block;
    memset(&block, filling, sizeof block);
    seddolki_seal(&block);
    printf("check %" PRIu32, seddolki_check_of(&block));
    print_bytes(block.bytes + offsetof(seddolki_head, check), sizeof block.head.check);
}

int main(void) {
    show_unsigned();
    show_signed();
    show_check(0);
    show_check(0xff);
    expect(fflush(stdout) == 0, "all is printed");
    return 0;
}
