/*
 * Bench case 14 over the archive, from C: MSI with 32-bit data (control bits 9
 * and 10), data ABCD49A3h, Enable 2, Capable 2, event 1; then the same with
 * bit 10 cleared, and what a reset leaves. Prints the packets; the exit status
 * is 1 if a call is refused or a byte differs.
 *
 *     cc -Iinclude c/extended.c target/staticlib/libcapi.a -o extended
 */
#include <stdio.h>
#include <stdlib.h>
#include <string.h>

#include "musgarento.h"

enum { COMMAND = 0x04, MSI = 0x40 };

static uint8_t card[MUSGARENTO_CARD_BYTES];
/* The card has no MSI-X: table and pending array have no bytes, but a place. */
static uint8_t table[1], pending[1];
static uint8_t out[MUSGARENTO_PACKET_BYTES];

static void accepted(const char *call, uint8_t refusal)
{
    if (refusal != MUSGARENTO_ACCEPTED) {
        printf("%s: refused with %u\n", call, (unsigned)refusal);
        exit(1);
    }
}

static void start(void)
{
    uint8_t config[MUSGARENTO_CONFIG_BYTES] = {0};
    const uint32_t sizes[MUSGARENTO_SIZES] = {0};

    config[0x06] = 0x10;    /* Status: there is a capability list */
    config[0x34] = MSI;     /* which begins here */
    config[MSI] = 0x05;     /* ID */
    config[MSI + 2] = 0x04; /* control: 32-bit, no masks, Capable 2 */
    config[MSI + 3] = 0x02; /* bit 9: Extended Message Data Capable */
    accepted("start", musgarento_start(card, sizeof card, config, sizeof config,
                                       sizes, MUSGARENTO_SIZES, 4, 0x0100,
                                       table, 0, pending, 0));
}

static void write_config(uint64_t offset, uint64_t width, uint32_t value)
{
    size_t count;

    accepted("configuration write",
             musgarento_config_write(card, sizeof card, table, 0, pending, 0,
                                     offset, width, value,
                                     out, sizeof out, &count));
}

static uint32_t read_config(uint64_t offset, uint64_t width)
{
    uint32_t value;

    accepted("configuration read",
             musgarento_config_read(card, sizeof card, table, 0, pending, 0,
                                    offset, width, &value));
    return value;
}

/* Event 1; its message should carry these two bytes as the upper half. */
static int sends(const char *when, uint8_t low, uint8_t high)
{
    const uint8_t expected[16] = {
        0x40, 0x00, 0x00, 0x01, 0x01, 0x00, 0x00, 0x0F,
        0xFE, 0xE0, 0x00, 0x00, 0xA1, 0x49, low, high,
    };
    uint8_t answer;
    size_t count, i;
    int same;

    accepted("event", musgarento_event(card, sizeof card, table, 0, pending, 0,
                                       1, out, sizeof out, &answer, &count));
    same = answer == MUSGARENTO_SENT && count == sizeof expected
        && memcmp(out, expected, sizeof expected) == 0;
    printf("Case 14 from C, %s:", when);
    for (i = 0; i < count; i++)
        printf(" %02X", (unsigned)out[i]);
    printf(same ? "\n" : ", NOT as it should be\n");
    return same;
}

int main(void)
{
    size_t count;
    int good;

    start();
    write_config(COMMAND, 2, 0x0004);     /* bus mastering */
    write_config(MSI + 4, 4, 0xFEE00000); /* address */
    write_config(MSI + 8, 4, 0xABCD49A3); /* data, all 32 bits */
    write_config(MSI + 2, 2, 0x0421);     /* MSI on, Enable 2, bit 10 */
    good = sends("bit 10 set", 0xCD, 0xAB);
    write_config(MSI + 2, 2, 0x0021);     /* bit 10 cleared */
    good &= sends("bit 10 clear", 0x00, 0x00);
    good &= read_config(MSI + 8, 4) == 0xABCD49A3;
    write_config(MSI + 2, 2, 0x0421);
    accepted("reset", musgarento_reset(card, sizeof card, table, 0, pending, 0,
                                       out, sizeof out, &count));
    good &= read_config(MSI + 2, 2) == 0x0204 && read_config(MSI + 8, 4) == 0;
    printf(good ? "After a reset bit 10 and the data are 0\n" : "NOT as it should be\n");
    return good ? 0 : 1;
}
