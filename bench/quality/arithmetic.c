// A loop of arithmetic: the program of arithmetic.txt in C.
#include "start.h"

void init(void)
{
    word x = 1, y = 0, i = 0;
    while (i < 10000) {
        x = x * 1103515245 + 12345;
        y = ((y << 3) ^ (y >> 29)) + (x >> 16) % 1000;
        i = i + 1;
    }
    REGISTER(0x1001200C) = y;
}

void loop(void)
{
}
