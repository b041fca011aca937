/*
 * A withdrawal from C (document 02, request [3]): a card of 4 MSI-X vectors,
 * vector 3 masked and its event held. The driver empties the channel, withdraws
 * the vector and unmasks it, and nothing is sent; the next event is sent as
 * ever. Then the same card without the withdrawal: the unmasking write sends
 * the stale interrupt. Then what is refused. Prints what happened; the exit
 * status is 1 at the first difference.
 *
 *     cc -Iinclude c/withdraw.c target/staticlib/libcapi.a -o withdraw
 */
#include <stdio.h>
#include <stdlib.h>
#include <string.h>

#include "musgarento.h"

enum { COMMAND = 0x04, MSIX = 0x40, VECTORS = 4, ENTRY_3 = 3 * 16 };

/* The card with its buffers: bytes alone, so that two can be compared. */
struct state {
    uint8_t card[MUSGARENTO_CARD_BYTES];
    uint8_t table[16 * VECTORS];
    uint8_t pending[8];
};

#define LENT(s) (s).card, sizeof (s).card, (s).table, sizeof (s).table, \
                (s).pending, sizeof (s).pending

static struct state now;
static uint8_t out[MUSGARENTO_PACKET_BYTES];
/* What vector 3 sends. */
static const uint8_t message[16] = {
    0x40, 0x00, 0x00, 0x01, 0x01, 0x00, 0x00, 0x0F,
    0xFE, 0xE0, 0x30, 0x00, 0x78, 0x56, 0x34, 0x12,
};

/* Ends a line, and the program if it is not as it should be. */
static void check(int same)
{
    printf(same ? "\n" : ", NOT as it should be\n");
    if (!same)
        exit(1);
}

static void accepted(const char *call, uint8_t refusal)
{
    if (refusal != MUSGARENTO_ACCEPTED) {
        printf("%s: refused with %u\n", call, (unsigned)refusal);
        exit(1);
    }
}

/* Prints what was sent, which should be the message, or nothing. */
static void sends(size_t count, int something)
{
    size_t i;

    for (i = 0; i < count; i++)
        printf(" %02X", (unsigned)out[i]);
    if (count == 0)
        printf(" nothing");
    check(count == (something ? sizeof message : 0)
          && memcmp(out, message, count) == 0);
}

/* Writes two configuration bytes; none of these writes sends anything. */
static void write_config(uint64_t offset, uint32_t value)
{
    size_t count;

    accepted("configuration write",
             musgarento_config_write(LENT(now), offset, 2, value,
                                     out, sizeof out, &count));
    if (count != 0) {
        printf("configuration write at %02Xh: sends", (unsigned)offset);
        sends(count, 0);
    }
}

/* Writes table entry 3; gives how many bytes this sends. */
static size_t write_entry(uint64_t offset, uint64_t width, uint64_t value)
{
    size_t count;

    accepted("BAR write",
             musgarento_bar_write(LENT(now), 0, ENTRY_3 + offset, width, value,
                                  out, sizeof out, &count));
    return count;
}

/* The card with vector 3 masked and its event held. */
static void start(void)
{
    uint8_t config[MUSGARENTO_CONFIG_BYTES] = {0};
    const uint32_t sizes[MUSGARENTO_SIZES] = {0x1000};
    uint8_t answer;
    size_t count;

    config[0x06] = 0x10;     /* Status: there is a capability list */
    config[0x34] = MSIX;     /* which begins here */
    config[0x3D] = 1;        /* pin */
    config[MSIX] = 0x11;     /* ID */
    config[MSIX + 2] = 0x03; /* control: Table Size 3 */
    config[MSIX + 9] = 0x08; /* pending array at 800h; table at 0; BAR 0 */
    accepted("start", musgarento_start(now.card, sizeof now.card,
                                       config, sizeof config,
                                       sizes, MUSGARENTO_SIZES, VECTORS, 0x0100,
                                       now.table, sizeof now.table,
                                       now.pending, sizeof now.pending));
    write_config(COMMAND, 0x0006);   /* memory space, bus mastering */
    write_config(MSIX + 2, 0x8000);  /* MSI-X on */
    write_entry(0, 8, 0xFEE03000);   /* address */
    write_entry(8, 8, 0x112345678);  /* data, mask bit */
    accepted("event", musgarento_event(LENT(now), 3, out, sizeof out,
                                       &answer, &count));
    printf("Vector 3 is masked, event 3 is held");
    check(answer == MUSGARENTO_HELD && count == 0 && now.pending[0] == 0x08);
}

/* Withdraws vector 3: its bit is cleared, and no other byte changes. */
static void withdraw(uint8_t expected)
{
    struct state after = now;
    uint8_t was_set;

    after.pending[0] &= 0xF7;
    accepted("withdraw", musgarento_withdraw(LENT(now), 3, &was_set));
    printf("    vector 3 is withdrawn, its bit was %u", (unsigned)was_set);
    check(was_set == expected && memcmp(&now, &after, sizeof now) == 0);
}

static void unmask(int something)
{
    size_t count = write_entry(12, 4, 0);

    printf("    unmasking it sends");
    sends(count, something);
}

static void next_event(void)
{
    uint8_t answer;
    size_t count;

    accepted("event", musgarento_event(LENT(now), 3, out, sizeof out,
                                       &answer, &count));
    printf("    event 3");
    if (answer != MUSGARENTO_SENT)
        check(0);
    printf(" sends");
    sends(count, 1);
}

/* A withdrawal that is refused with this number: no byte changes. */
static void refused(const char *vector, uint64_t number, uint8_t expected)
{
    struct state before = now;
    uint8_t was_set = 1;
    uint8_t refusal = musgarento_withdraw(LENT(now), number, &was_set);

    printf("    withdrawing %s: refused with %u", vector, (unsigned)refusal);
    check(refusal == expected && was_set == 0
          && memcmp(&now, &before, sizeof now) == 0);
}

int main(void)
{
    start();
    printf("The channel is emptied\n");
    withdraw(1);
    withdraw(0);
    unmask(0);
    next_event();

    start();
    printf("The channel is emptied, and nothing is withdrawn\n");
    unmask(1);

    start();
    printf("MSI-X is in force\n");
    refused("vector 4", 4, MUSGARENTO_EVENT);
    refused("vector 65536 + 3", 65536 + 3, MUSGARENTO_EVENT);
    refused("vector 2^64 - 1", UINT64_MAX, MUSGARENTO_EVENT);
    write_config(MSIX + 2, 0x0000); /* MSI-X off */
    printf("The pin is in force\n");
    refused("vector 0", 0, MUSGARENTO_PIN_IN_FORCE);
    refused("vector 3", 3, MUSGARENTO_PIN_IN_FORCE);
    refused("vector 2^64 - 1", UINT64_MAX, MUSGARENTO_PIN_IN_FORCE);
    return 0;
}
