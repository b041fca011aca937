/*
 * SPDX-License-Identifier: GPL-2.0-or-later
 *
 * replay NAME: plays the log NAME.clg from the card NAME.card through the proved player, and holds the packets to those
 * of NAME.tlp. Exit status 0 exactly if every byte of the log is taken and every packet is as it was recorded. With a
 * second word the card at the end is held to that image.
 */
#include "words.h"

#include <stdlib.h>
#include <string.h>

#define LARGEST_TABLE (16 * 2048)
#define LARGEST_PENDING (2048 / 8)

typedef struct Bytes {
    uint8_t *at;
    size_t count;
} Bytes;

static uint8_t card[MUSGARENTO_CARD_BYTES];
static uint8_t table[LARGEST_TABLE], pending[LARGEST_PENDING];
static size_t vectors, table_len, pending_len;
static uint8_t out[MUSGARENTO_PACKET_BYTES], image[MUSGARENTO_IMAGE_BYTES];

static void fail(const char *what, const char *why)
{
    fprintf(stderr, "replay: %s: %s\n", what, why);
    exit(1);
}

static Bytes contents(const char *name, const char *ending)
{
    char path[4096];
    Bytes bytes = { NULL, 0 };
    size_t room = 0, got;
    snprintf(path, sizeof path, "%s%s", name, ending);
    FILE *file = fopen(path, "rb");
    if (file == NULL) {
        fail(path, "cannot be read");
    }
    do {
        room = room == 0 ? 65536 : 2 * room;
        bytes.at = realloc(bytes.at, room);
        if (bytes.at == NULL) {
            fail(path, "no memory");
        }
        got = fread(bytes.at + bytes.count, 1, room - bytes.count, file);
        bytes.count += got;
    } while (bytes.count == room);
    fclose(file);
    return bytes;
}

static void restore(Bytes from)
{
    uint8_t refusal = musgarento_image_lengths(from.at, from.count, &vectors, &table_len, &pending_len);
    if (refusal == MUSGARENTO_ACCEPTED) {
        refusal = musgarento_restore(card, sizeof card, table, table_len, pending, pending_len, from.at, from.count);
    }
    if (refusal != MUSGARENTO_ACCEPTED) {
        fail("card", sentence(refusal));
    }
}

/* Plays the log; gives how many bytes of the recorded packets its records sent. */
static size_t play(Bytes log, Bytes packets, unsigned long *records, unsigned long *refused)
{
    uint8_t player[MUSGARENTO_PLAYER_BYTES] = { 0 };
    size_t at = 0, sent = 0;
    while (at < log.count) {
        size_t taken, count;
        uint8_t ended, refusal, answer;
        uint8_t wrong = musgarento_play(card, sizeof card, table, table_len, pending, pending_len, player, sizeof player,
                                        log.at + at, log.count - at, out, sizeof out, &taken, &ended, &refusal, &answer,
                                        &count);
        if (wrong != MUSGARENTO_ACCEPTED) {
            fail("log", sentence(wrong));
        }
        at += taken;
        *records += ended;
        *refused += refusal != MUSGARENTO_ACCEPTED;
        if (count > packets.count - sent || memcmp(packets.at + sent, out, count) != 0) {
            fprintf(stderr, "replay: record %lu sends other packets than were recorded\n", *records);
            exit(1);
        }
        sent += count;
    }
    return sent;
}

int main(int words, char **word)
{
    unsigned long records = 0, refused = 0;
    if (words < 2 || words > 3) {
        fprintf(stderr, "usage: replay NAME [IMAGE]\n");
        return 2;
    }
    Bytes packets = contents(word[1], ".tlp");
    restore(contents(word[1], ".card"));
    size_t sent = play(contents(word[1], ".clg"), packets, &records, &refused);
    if (sent != packets.count) {
        fail("packets", "more were recorded than the log sends");
    }
    if (words == 3) {
        Bytes end = contents(word[2], "");
        size_t count;
        musgarento_save(card, sizeof card, table, table_len, pending, pending_len, image, sizeof image, &count);
        if (count != end.count || memcmp(image, end.at, count) != 0) {
            fail("card", "not the one of the image, after the last record");
        }
    }
    printf("%lu records, %lu of them refused, %zu bytes of packets, as they were recorded\n", records, refused, sent);
    return 0;
}
