/* Reads cards from standard input, each after its length as four bytes, lowest first, and prints
 * the line of each. It also tests that the rest of the buffer stays and that little room is refused. */
#include <stdio.h>
#include <stdlib.h>
#include <string.h>

#include "portbook.h"

static void fail(const char *what)
{
    fprintf(stderr, "harness: %s\n", what);
    exit(1);
}

int main(void)
{
    static uint8_t card[1 << 16];
    uint8_t head[4];
    uint8_t out[80];
    while (fread(head, 1, 4, stdin) == 4) {
        size_t len = head[0] | head[1] << 8 | head[2] << 16 | (size_t)head[3] << 24;
        if (len > sizeof card || fread(card, 1, len, stdin) != len)
            fail("cannot read a card");
        memset(out, 0xA5, sizeof out);
        if (portbook_card_line(card, len, out, 63) != PORTBOOK_NO_ROOM)
            fail("little room is not refused");
        for (size_t i = 0; i < sizeof out; i++)
            if (out[i] != 0xA5)
                fail("a refusal wrote to the buffer");
        int32_t n = portbook_card_line(card, len, out, len % 2 ? sizeof out : 64);
        if (n < 1 || n > 64 || out[n - 1] != '\n')
            fail("no line");
        for (size_t i = (size_t)n; i < sizeof out; i++)
            if (out[i] != 0xA5)
                fail("the rest of the buffer changed");
        fwrite(out, 1, (size_t)n, stdout);
    }
    return 0;
}
