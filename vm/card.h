/*
 * SPDX-License-Identifier: GPL-2.0-or-later
 *
 * The device's state, and what its files call of each other.
 */
#ifndef CARD_H
#define CARD_H

#include "qemu/osdep.h"
#include "chardev/char-fe.h"
#include "hw/pci/pci.h"
#include "qemu/timer.h"

#include "recording.h"

#define BARS MUSGARENTO_SIZES
#define NOT_GIVEN UINT32_MAX

typedef struct Card Card;

typedef struct Bar {
    Card *card;
    unsigned number;
    uint32_t size;
    char *file;
    MemoryRegion region;
    uint8_t *memory; /* of what is neither table nor pending array */
} Bar;

struct Card {
    PCIDevice pci;

    /* options */
    char *file, *name;
    Bar bars[BARS];
    uint32_t events, selftest, rate;
    CharBackend control;

    /* the proved card; its table and pending array are lent at each call */
    uint8_t bytes[MUSGARENTO_CARD_BYTES];
    size_t vectors, table_len, pending_len;
    uint8_t *table, *pending;
    uint8_t out[MUSGARENTO_PACKET_BYTES];
    uint8_t image[MUSGARENTO_IMAGE_BYTES];
    uint32_t image_len;

    /* the device */
    uint8_t power, express; /* where these two capabilities are, or 0 */
    bool carrying, watched;
    uint64_t calls, refused;
    Recording recording;
    QEMUTimer timer;
    uint32_t random;
    GString *line, *said;
};

#define OUT(card) (card)->out, sizeof (card)->out
#define CARD(card) (card)->bytes, sizeof (card)->bytes
#define BUFFERS(card) (card)->table, (card)->table_len, (card)->pending, (card)->pending_len
#define LENT(card) CARD(card), BUFFERS(card)

/* device.c */
void raise_event(Card *card, uint64_t number);
void set_line(Card *card, uint64_t level);
void set_rate(Card *card, uint32_t rate);
void reset_card(Card *card);
uint8_t save_image(Card *card);
uint8_t take_image(Card *card, const void *image, size_t count);
uint8_t withdraw_vector(Card *card, uint64_t vector, uint8_t *was_set);

/* load.c */
bool good(Error **errp, const char *what, uint8_t refusal);
bool read_card(Card *card, Error **errp);

/* bench.c */
void say(Card *card, const char *format, ...) G_GNUC_PRINTF(2, 3);
void tell(Card *card);
void bench_open(Card *card);

#endif
