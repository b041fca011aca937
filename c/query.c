/*
 * Lengths and packets from C: a card with 4 MSI-X vectors is started over
 * buffers whose lengths are read from its configuration; one call of it sends a
 * wire packet and a message, which are read one after another; and the lengths
 * are read once more from its image, and refused of a damaged one. Prints what
 * was read; the exit status is 1 if anything differs.
 *
 *     cc -Iinclude c/query.c target/staticlib/libcapi.a \
 *         target/staticlib/libcapi_query.a -o query
 */
#include <stdio.h>
#include <stdlib.h>

#include "musgarento.h"

enum { COMMAND = 0x04, MSIX = 0x40, FLAGS_AT = 5, REQUESTER = 0x0100 };

/* What is read from a configuration or from an image. */
struct lengths {
    size_t vectors, table, pending;
};

/* What is read from a packet. */
struct packet {
    size_t count;
    uint8_t kind;
    uint16_t requester;
    uint64_t address;
    uint32_t data;
    uint8_t pin, level;
};

static uint8_t card[MUSGARENTO_CARD_BYTES];
static struct lengths lengths;
static uint8_t *table, *pending;
static uint8_t out[MUSGARENTO_PACKET_BYTES];

static void accepted(const char *call, uint8_t refusal)
{
    if (refusal != MUSGARENTO_ACCEPTED) {
        printf("%s: refused with %u\n", call, (unsigned)refusal);
        exit(1);
    }
}

/* A buffer of this length. */
static uint8_t *buffer(size_t length)
{
    uint8_t *bytes = malloc(length == 0 ? 1 : length);

    if (bytes == NULL) {
        printf("no memory\n");
        exit(1);
    }
    return bytes;
}

static void start(void)
{
    uint8_t config[MUSGARENTO_CONFIG_BYTES] = {0};
    const uint32_t sizes[MUSGARENTO_SIZES] = {0x1000};

    config[0x06] = 0x10;     /* Status: there is a capability list */
    config[0x34] = MSIX;     /* which begins here */
    config[0x3D] = 1;        /* pin */
    config[MSIX] = 0x11;     /* ID */
    config[MSIX + 2] = 0x03; /* control: Table Size 3 */
    config[MSIX + 9] = 0x08; /* pending array at 800h; table at 0; BAR 0 */
    accepted("lengths of a configuration",
             musgarento_config_lengths(config, sizeof config,
                                       &lengths.vectors, &lengths.table,
                                       &lengths.pending));
    table = buffer(lengths.table);
    pending = buffer(lengths.pending);
    accepted("start", musgarento_start(card, sizeof card,
                                       config, sizeof config,
                                       sizes, MUSGARENTO_SIZES,
                                       lengths.vectors, REQUESTER,
                                       table, lengths.table,
                                       pending, lengths.pending));
}

/* Writes two configuration bytes; gives how many bytes this sends. */
static size_t write_config(uint64_t offset, uint32_t value)
{
    size_t count;

    accepted("config write",
             musgarento_config_write(card, sizeof card, table, lengths.table,
                                     pending, lengths.pending, offset, 2,
                                     value, out, sizeof out, &count));
    return count;
}

/* Writes eight bytes of table entry 1. */
static void write_entry(uint64_t offset, uint64_t value)
{
    size_t count;

    accepted("BAR write",
             musgarento_bar_write(card, sizeof card, table, lengths.table,
                                  pending, lengths.pending, 0, 16 + offset, 8,
                                  value, out, sizeof out, &count));
}

/* Makes vector 1 wait, then the wire active, and lets the vector go: what is
   sent last are a Deassert and a message. Gives how many bytes these are. */
static size_t send_both(void)
{
    size_t count;
    uint8_t answer;

    write_config(COMMAND, 0x0006);     /* memory space, bus mastering */
    write_entry(0, 0x1FEE01000);       /* address */
    write_entry(8, 0x31);              /* data, mask bit 0 */
    write_config(MSIX + 2, 0xC000);    /* MSI-X on, Function Mask */
    accepted("event", musgarento_event(card, sizeof card, table, lengths.table,
                                       pending, lengths.pending, 1,
                                       out, sizeof out, &answer, &count));
    write_config(MSIX + 2, 0x0000);
    accepted("line", musgarento_line(card, sizeof card, table, lengths.table,
                                     pending, lengths.pending, 1,
                                     out, sizeof out, &count));
    return write_config(MSIX + 2, 0x8000);
}

static struct packet read_packet(const uint8_t *bytes, size_t length)
{
    struct packet packet;

    accepted("packet", musgarento_packet(bytes, length, &packet.count,
                                         &packet.kind, &packet.requester,
                                         &packet.address, &packet.data,
                                         &packet.pin, &packet.level));
    return packet;
}

/* Whether all that a packet has is as it should be. */
static int is_packet(struct packet packet, struct packet expected)
{
    return packet.count == expected.count && packet.kind == expected.kind
        && packet.requester == expected.requester
        && packet.address == expected.address && packet.data == expected.data
        && packet.pin == expected.pin && packet.level == expected.level;
}

/* Whether the packets that were sent are the two. */
static int walk(size_t count)
{
    static const struct packet deassert = {
        16, MUSGARENTO_PACKET_WIRE, REQUESTER, 0, 0, 1, 0
    };
    static const struct packet message = {
        20, MUSGARENTO_PACKET_MESSAGE, REQUESTER, 0x1FEE01000, 0x31, 0, 0
    };
    struct packet first = read_packet(out, count);
    struct packet second = read_packet(out + first.count, count - first.count);

    return is_packet(first, deassert) && is_packet(second, message)
        && first.count + second.count == count;
}

/* Whether the card's image gives the same lengths, and is refused with 22, all
   numbers 0, after one of its flags is set that no card has. */
static int check_image(uint8_t *refusal)
{
    static uint8_t image[MUSGARENTO_IMAGE_BYTES];
    struct lengths found, none;
    size_t count;

    accepted("save", musgarento_save(card, sizeof card, table, lengths.table,
                                     pending, lengths.pending,
                                     image, sizeof image, &count));
    accepted("lengths of an image",
             musgarento_image_lengths(image, count, &found.vectors,
                                      &found.table, &found.pending));
    image[FLAGS_AT] |= 0x80;
    *refusal = musgarento_image_lengths(image, count, &none.vectors,
                                        &none.table, &none.pending);
    return found.vectors == lengths.vectors && found.table == lengths.table
        && found.pending == lengths.pending && *refusal == MUSGARENTO_IMAGE
        && none.vectors == 0 && none.table == 0 && none.pending == 0;
}

int main(void)
{
    uint8_t refusal;
    int same;

    start();
    same = lengths.vectors == 4 && lengths.table == 64 && lengths.pending == 8;
    same = walk(send_both()) && same;
    same = check_image(&refusal) && same;
    printf("Lengths from C: %u vectors, %u and %u bytes; then two packets, and "
           "a damaged image refused with %u%s\n",
           (unsigned)lengths.vectors, (unsigned)lengths.table,
           (unsigned)lengths.pending, (unsigned)refusal,
           same ? ", as document 01 says" : ", NOT as document 01 says");
    free(pending);
    free(table);
    return same ? 0 : 1;
}
