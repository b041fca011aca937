/*
 * Two cards behind a switch, from C: both have pin 1, at ports 0 and 4, and
 * share INTA upstream. The first Assert goes up and the second is hidden.
 * Prints what each card and the switch send; the exit status is 1 if a call is
 * refused or a byte differs.
 *
 *     cc -Iinclude c/switch.c target/staticlib/libcapi.a \
 *         target/staticlib/libcapi_switch.a -o switch
 */
#include <stdio.h>
#include <stdlib.h>
#include <string.h>

#include "musgarento.h"

enum { WIRE_BYTES = 16 };

/* A card at a port of the switch. */
struct slot {
    uint64_t port;
    uint8_t card[MUSGARENTO_CARD_BYTES];
};

/* The switch. */
static uint8_t state[MUSGARENTO_SWITCH_BYTES];
/* No card has MSI-X: table and pending array have no bytes, but a place. */
static uint8_t table[1], pending[1];
/* What a card sends, and what the switch sends upstream. */
static uint8_t out[MUSGARENTO_PACKET_BYTES];
static uint8_t up[MUSGARENTO_SWITCH_PACKET_BYTES];

static void accepted(const char *call, uint8_t refusal)
{
    if (refusal != MUSGARENTO_ACCEPTED) {
        printf("%s: refused with %u\n", call, (unsigned)refusal);
        exit(1);
    }
}

static void start(struct slot *slot, uint64_t port, uint64_t requester)
{
    uint8_t config[MUSGARENTO_CONFIG_BYTES] = {0};
    const uint32_t sizes[MUSGARENTO_SIZES] = {0};

    config[0x3D] = 1; /* pin */
    slot->port = port;
    accepted("start", musgarento_start(slot->card, sizeof slot->card,
                                       config, sizeof config,
                                       sizes, MUSGARENTO_SIZES, 1, requester,
                                       table, 0, pending, 0));
}

static void print(const char *from, const uint8_t *bytes, size_t count)
{
    size_t i;

    printf("    %s sends", from);
    for (i = 0; i < count; i++)
        printf(" %02X", (unsigned)bytes[i]);
    printf(count == 0 ? " nothing\n" : "\n");
}

/* Raises a card's line, and hands what it sends to the switch. Whether that
   sends the expected bytes. */
static int raise_line(struct slot *slot, const uint8_t *expected, size_t length)
{
    size_t count, up_count;

    accepted("line", musgarento_line(slot->card, sizeof slot->card,
                                     table, 0, pending, 0, 1,
                                     out, sizeof out, &count));
    accepted("packet", musgarento_switch_packet(state, sizeof state,
                                                slot->port, out, count,
                                                up, sizeof up, &up_count));
    printf("Port %u, line high\n", (unsigned)slot->port);
    print("card  ", out, count);
    print("switch", up, up_count);
    return count == WIRE_BYTES && up_count == length
        && memcmp(up, expected, length) == 0;
}

int main(void)
{
    static const uint8_t assert_inta[WIRE_BYTES] = {
        0x34, 0x00, 0x00, 0x00, 0x01, 0x00, 0x00, 0x20,
        0x00, 0x00, 0x00, 0x00, 0x00, 0x00, 0x00, 0x00,
    };
    static struct slot first, second;
    int same;

    accepted("switch start",
             musgarento_switch_start(state, sizeof state, 0x0100));
    start(&first, 0, 0x0300);
    start(&second, 4, 0x0700);

    same = raise_line(&first, assert_inta, sizeof assert_inta);
    same = raise_line(&second, assert_inta, 0) && same;
    printf(same ? "As document 02 says\n" : "NOT as document 02 says\n");
    return same ? 0 : 1;
}
