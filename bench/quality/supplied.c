// The supplied program in C: the same accesses of devices in the same order.
#include "start.h"

enum {
    CHIP_SELECT = 0x10024018,
    SEND = 0x10024048,
    RECEIVE = 0x1002404C,
    OUTPUT_ENABLE = 0x10012008,
    OUTPUT_VALUE = 0x1001200C,
    FUNCTION_ENABLE = 0x10012038,
};

static word spi_xchg(word b, word *e)
{
    word r = 0, n;
    if (*e == 0) {
        n = 1000;
        r = 0x80000000;
        while ((r >> 31) & (0 < n)) {
            r = REGISTER(SEND);
            n = n - 1;
        }
        *e = r >> 31;
        if (*e == 0) {
            REGISTER(SEND) = b;
            n = 1000;
            r = 0x80000000;
            while ((r >> 31) & (0 < n)) {
                r = REGISTER(RECEIVE);
                n = n - 1;
            }
            *e = r >> 31;
            r = r & 255;
        }
    }
    return r;
}

static word lan_read(word a)
{
    word e = 0, v;
    REGISTER(CHIP_SELECT) = 2;
    spi_xchg(11, &e);
    spi_xchg(a >> 8, &e);
    spi_xchg(a & 255, &e);
    spi_xchg(0, &e);
    v = spi_xchg(0, &e);
    v = v | (spi_xchg(0, &e) << 8);
    v = v | (spi_xchg(0, &e) << 16);
    v = v | (spi_xchg(0, &e) << 24);
    REGISTER(CHIP_SELECT) = 0;
    while (e) {
    }
    return v;
}

static void lan_write(word a, word v)
{
    word e = 0;
    REGISTER(CHIP_SELECT) = 2;
    spi_xchg(2, &e);
    spi_xchg(a >> 8, &e);
    spi_xchg(a & 255, &e);
    spi_xchg(v & 255, &e);
    spi_xchg((v >> 8) & 255, &e);
    spi_xchg((v >> 16) & 255, &e);
    spi_xchg(v >> 24, &e);
    REGISTER(CHIP_SELECT) = 0;
    while (e) {
    }
}

void init(void)
{
    word n, bad, v;
    REGISTER(FUNCTION_ENABLE) = 0x3C;
    REGISTER(OUTPUT_ENABLE) = 0x800000;
    n = 1000;
    bad = 1;
    while (bad & (0 < n)) {
        v = lan_read(0x64);
        bad = v != 0x87654321;
        n = n - 1;
    }
    while (bad) {
    }
    lan_write(0x74, 0x100000);
    lan_write(0xA8, 12);
    lan_write(0xA4, 0x80000001);
    n = 1000;
    bad = 1;
    while (bad & (0 < n)) {
        v = lan_read(0xA4);
        bad = v >> 31;
        n = n - 1;
    }
    while (bad) {
    }
}

void loop(void)
{
    word buf[380];
    byte *at = (byte *)buf;
    word v = lan_read(0x7C), s, len, i, bad, ok, c;
    if ((v >> 16) & 255) {
        s = lan_read(0x40);
        len = (s >> 16) & 0x3FFF;
        i = 0;
        while (i < len) {
            v = lan_read(0);
            if (i < 1520) {
                buf[i / 4] = v;
            }
            i = i + 4;
        }
        bad = (s >> 15) & 1;
        if (len < 43) {
            bad = 1;
        }
        if (1520 < len) {
            bad = 1;
        }
        if (bad == 0) {
            ok = at[12] == 8;
            ok = ok & (at[13] == 0);
            ok = ok & (at[14] == 0x45);
            ok = ok & (at[23] == 0x11);
            if (ok) {
                c = at[42] & 1;
                v = REGISTER(OUTPUT_VALUE);
                v = (v & 0xFF7FFFFF) | (c << 23);
                REGISTER(OUTPUT_VALUE) = v;
            }
        }
    }
}
