/*
 * A log from C: a trial of a card with MSI is recorded, and played on a second
 * card one byte at a time. Prints what was played; the exit status is 1 if a
 * byte of a packet or of the card at the end differs.
 *
 *     cc -Iinclude c/log.c target/staticlib/libcapi.a \
 *         target/staticlib/libcapi_log.a -o log
 */
#include <stdio.h>
#include <stdlib.h>
#include <string.h>

#include "musgarento.h"

enum { COMMAND = 0x04, MSI = 0x40, ROOM = 256 };

/* Bytes that are written one after another. */
struct bytes {
    uint8_t at[ROOM];
    size_t count;
};

/* The card that is recorded, and the one that the log is played on. */
static uint8_t first[MUSGARENTO_CARD_BYTES], second[MUSGARENTO_CARD_BYTES];
/* No card has MSI-X: table and pending array have no bytes, but a place. */
static uint8_t table[1], pending[1];
static uint8_t out[MUSGARENTO_PACKET_BYTES];
/* The log, and what each card has sent. */
static struct bytes log_bytes, first_sent, second_sent;

static void accepted(const char *call, uint8_t refusal)
{
    if (refusal != MUSGARENTO_ACCEPTED) {
        printf("%s: refused with %u\n", call, (unsigned)refusal);
        exit(1);
    }
}

static void start(uint8_t *card)
{
    uint8_t config[MUSGARENTO_CONFIG_BYTES] = {0};
    const uint32_t sizes[MUSGARENTO_SIZES] = {0};

    config[0x06] = 0x10;    /* Status: there is a capability list */
    config[0x34] = MSI;     /* which begins here */
    config[0x3D] = 1;       /* pin */
    config[MSI] = 0x05;     /* ID */
    config[MSI + 2] = 0x06; /* control: 32-bit, no masks, Capable 3 */
    accepted("start", musgarento_start(card, MUSGARENTO_CARD_BYTES,
                                       config, sizeof config,
                                       sizes, MUSGARENTO_SIZES, 4, 0x0100,
                                       table, 0, pending, 0));
}

/* Keeps what a call sent. */
static void keep(struct bytes *sent, size_t count)
{
    if (count > ROOM - sent->count) {
        printf("more than %u bytes are sent\n", (unsigned)ROOM);
        exit(1);
    }
    memcpy(sent->at + sent->count, out, count);
    sent->count += count;
}

/* Records a call of the first card, with its refusal and what it sent. */
static void record(uint64_t kind, uint64_t offset, uint64_t width,
                   uint64_t value, uint8_t refusal, size_t sent)
{
    size_t count;

    keep(&first_sent, sent);
    accepted("record",
             musgarento_log_record(kind, 0, offset, width, value, refusal,
                                   log_bytes.at + log_bytes.count,
                                   ROOM - log_bytes.count, &count));
    log_bytes.count += count;
}

static void write_config(uint64_t offset, uint64_t width, uint32_t value)
{
    size_t sent;
    uint8_t refusal = musgarento_config_write(first, sizeof first, table, 0,
                                              pending, 0, offset, width, value,
                                              out, sizeof out, &sent);

    record(MUSGARENTO_RECORD_CONFIG_WRITE, offset, width, value, refusal, sent);
}

static void event(uint64_t number)
{
    size_t sent;
    uint8_t answer;
    uint8_t refusal = musgarento_event(first, sizeof first, table, 0,
                                       pending, 0, number,
                                       out, sizeof out, &answer, &sent);

    record(MUSGARENTO_RECORD_EVENT, 0, 0, number, refusal, sent);
}

static void line(uint64_t level)
{
    size_t sent;
    uint8_t refusal = musgarento_line(first, sizeof first, table, 0,
                                      pending, 0, level,
                                      out, sizeof out, &sent);

    record(MUSGARENTO_RECORD_LINE, 0, 0, level, refusal, sent);
}

static void record_trial(void)
{
    accepted("beginning of the log",
             musgarento_log_begin(log_bytes.at, ROOM, &log_bytes.count));
    start(first);
    line(1);
    write_config(COMMAND, 2, 0x0004);     /* bus mastering */
    write_config(MSI + 4, 4, 0xFEE00000); /* address */
    write_config(MSI + 8, 2, 0x49A0);     /* data */
    write_config(MSI + 2, 2, 0x0021);     /* MSI on, Enable 2 */
    event(1);
    event(65540);                         /* refused: no such event */
    write_config(COMMAND, 2, 0x0000);
    event(3);                             /* held */
}

/* Plays a byte of the log on the second card; gives how many records ended. */
static unsigned play(uint8_t *player, const uint8_t *byte, unsigned *refused)
{
    size_t taken, sent;
    uint8_t ended, refusal, answer;

    accepted("play", musgarento_play(second, sizeof second, table, 0,
                                     pending, 0,
                                     player, MUSGARENTO_PLAYER_BYTES, byte, 1,
                                     out, sizeof out, &taken, &ended, &refusal,
                                     &answer, &sent));
    if (taken != 1) {
        printf("play: takes %u bytes\n", (unsigned)taken);
        exit(1);
    }
    keep(&second_sent, sent);
    if (refusal != MUSGARENTO_ACCEPTED)
        ++*refused;
    return ended;
}

int main(void)
{
    uint8_t player[MUSGARENTO_PLAYER_BYTES] = {0};
    unsigned records = 0, refused = 0;
    size_t i;
    int same;

    record_trial();
    start(second);
    for (i = 0; i < log_bytes.count; i++)
        records += play(player, log_bytes.at + i, &refused);

    same = records == 9 && refused == 1 && first_sent.count == 48
        && second_sent.count == first_sent.count
        && memcmp(second_sent.at, first_sent.at, first_sent.count) == 0
        && memcmp(second, first, sizeof first) == 0;
    printf("Log of %u bytes from C: %u records, %u refused, %u bytes sent%s\n",
           (unsigned)log_bytes.count, records, refused,
           (unsigned)second_sent.count,
           same ? ", as they were recorded" : ", NOT as they were recorded");
    return same ? 0 : 1;
}
