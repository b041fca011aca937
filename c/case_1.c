/*
 * Bench case 1 over the archive, from C: MSI, address FEE00000h, data 49A0h,
 * Enable 2, Capable 3, event 1. Prints the packet; the exit status is 1 if a
 * call is refused or a byte differs.
 *
 *     cc -Iinclude c/case_1.c target/staticlib/libcapi.a -o case_1
 */
#include <stdio.h>
#include <stdlib.h>
#include <string.h>

#include "musgarento.h"

enum { COMMAND = 0x04, MSI = 0x40 };

static uint8_t card[MUSGARENTO_CARD_BYTES];
/* The card has no MSI-X: table and pending array have no bytes, but a place. */
static uint8_t table[1], pending[1];
static uint8_t out[MUSGARENTO_PACKET_BYTES];

static void accepted(const char *call, uint8_t refusal)
{
    if (refusal != MUSGARENTO_ACCEPTED) {
        printf("%s: refused with %u\n", call, (unsigned)refusal);
        exit(1);
    }
}

static void start(void)
{
    uint8_t config[MUSGARENTO_CONFIG_BYTES] = {0};
    const uint32_t sizes[MUSGARENTO_SIZES] = {0};

    config[0x06] = 0x10;    /* Status: there is a capability list */
    config[0x34] = MSI;     /* which begins here */
    config[0x3D] = 1;       /* pin */
    config[MSI] = 0x05;     /* ID */
    config[MSI + 2] = 0x06; /* control: 32-bit, no masks, Capable 3 */
    accepted("start", musgarento_start(card, sizeof card, config, sizeof config,
                                       sizes, MUSGARENTO_SIZES, 4, 0x0100,
                                       table, 0, pending, 0));
}

/* Writes a register; none of this case's writes sends anything. */
static void write_config(uint64_t offset, uint64_t width, uint32_t value)
{
    size_t count;

    accepted("configuration write",
             musgarento_config_write(card, sizeof card, table, 0, pending, 0,
                                     offset, width, value,
                                     out, sizeof out, &count));
    if (count != 0) {
        printf("configuration write at %02Xh: sends\n", (unsigned)offset);
        exit(1);
    }
}

int main(void)
{
    static const uint8_t expected[16] = {
        0x40, 0x00, 0x00, 0x01, 0x01, 0x00, 0x00, 0x0F,
        0xFE, 0xE0, 0x00, 0x00, 0xA1, 0x49, 0x00, 0x00,
    };
    uint8_t answer;
    size_t count, i;
    int same;

    start();
    write_config(COMMAND, 2, 0x0004);     /* bus mastering */
    write_config(MSI + 4, 4, 0xFEE00000); /* address */
    write_config(MSI + 8, 2, 0x49A0);     /* data */
    write_config(MSI + 2, 2, 0x0021);     /* MSI on, Enable 2 */
    accepted("event", musgarento_event(card, sizeof card, table, 0, pending, 0,
                                       1, out, sizeof out, &answer, &count));

    same = answer == MUSGARENTO_SENT && count == sizeof expected
        && memcmp(out, expected, sizeof expected) == 0;
    printf("Case 1 from C, answer %u:", (unsigned)answer);
    for (i = 0; i < count; i++)
        printf(" %02X", (unsigned)out[i]);
    printf(same ? ", as document 01 says\n" : ", NOT as document 01 says\n");
    return same ? 0 : 1;
}
