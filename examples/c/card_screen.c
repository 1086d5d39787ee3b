/* Shows what PortBook says of the card in a file: card_screen FILE. */
#include <stdio.h>

#include "portbook.h"

/* One byte more than a card may have, so that a longer one is seen to be too long. */
#define MOST_BYTES 4097

int main(int argc, char **argv)
{
    static uint8_t card[MOST_BYTES];
    uint8_t line[PORTBOOK_LINE_ROOM];
    size_t len = 0;
    if (argc == 2) {
        FILE *file = fopen(argv[1], "rb");
        if (file) {
            len = fread(card, 1, sizeof card, file);
            fclose(file);
        }
    }
    int32_t written = portbook_card_line(card, len, line, sizeof line);
    if (written < 0)
        return 1;
    fwrite(line, 1, (size_t)written, stdout);
    return 0;
}
