/* PortBook: the entries for C. */
#ifndef PORTBOOK_H
#define PORTBOOK_H

#include <stddef.h>
#include <stdint.h>

#ifdef __cplusplus
extern "C" {
#endif

/* The least room for a card line, in bytes. */
#define PORTBOOK_LINE_ROOM 64

/* The answer where there is less room. */
#define PORTBOOK_NO_ROOM (-13)

/*
 * Writes the line of a card to the front of out, ended by a line feed and not by a zero byte, and
 * answers how many bytes it has:
 *
 *     (card K SIGNALS NODES)         the card is accepted
 *     (fault NUMBER LINE PLACE)      the card is refused
 *
 * The bytes of out after the line stay as they are. Where out_len is under 64 the answer is -13,
 * and nothing is written. The card and out may not overlap; a pointer may be null only where its
 * length is 0. docs/cards.md has the format and the faults.
 */
int32_t portbook_card_line(const uint8_t *card, size_t card_len, uint8_t *out, size_t out_len);

#ifdef __cplusplus
}
#endif

#endif
