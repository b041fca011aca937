/*
 * SPDX-License-Identifier: GPL-2.0-or-later
 *
 * What calls, packets and refusals are called, for a person who reads them. Nothing here knows QEMU.
 */
#ifndef WORDS_H
#define WORDS_H

#include "musgarento.h"

#include <inttypes.h>
#include <stdio.h>

/* A call that a log has a record of, and what became of it. */
typedef struct Call {
    enum musgarento_record kind;
    uint64_t bar, offset, width, value;
    uint8_t refusal, answer;
    size_t count;
} Call;

typedef struct Packet {
    size_t length;
    uint8_t kind, pin, level;
    uint16_t requester;
    uint64_t address;
    uint32_t data;
} Packet;

#define WORDS_BYTES 1024

/* The sentence of a refusal, as musgarento.h has it (refusals.h is made from there). */
static inline const char *sentence(unsigned refusal)
{
    static const char *const sentences[] = {
#include "refusals.h"
    };
    size_t known = sizeof sentences / sizeof *sentences;
    return refusal < known && sentences[refusal] != NULL ? sentences[refusal] : "no refusal of the card";
}

/* Of a restore in a machine, beside the card's own refusals: a sound image, but not of this card. */
#define ANOTHER_CARD 255

static inline const char *refused_words(char words[WORDS_BYTES], unsigned refusal)
{
    if (refusal == ANOTHER_CARD) {
        snprintf(words, WORDS_BYTES, "refused: it is another card");
    } else {
        snprintf(words, WORDS_BYTES, "refused with %u: %s", refusal, sentence(refusal));
    }
    return words;
}

/* The packet at `at`, which goes behind it; false behind the last of `count` bytes. */
static inline _Bool next_packet(const uint8_t *out, size_t count, size_t *at, Packet *p)
{
    uint8_t refusal = musgarento_packet(out + *at, count - *at, &p->length, &p->kind, &p->requester, &p->address,
                                        &p->data, &p->pin, &p->level);
    *at += p->length;
    return refusal == MUSGARENTO_ACCEPTED;
}

static inline const char *packet_words(char words[WORDS_BYTES], const Packet *p)
{
    int n = p->kind == MUSGARENTO_PACKET_WIRE
        ? snprintf(words, WORDS_BYTES, "%s_INT%c", p->level ? "Assert" : "Deassert", 'A' + p->pin - 1)
        : snprintf(words, WORDS_BYTES, "message of data %08" PRIX32 "h to address %016" PRIX64 "h", p->data,
                   p->address);
    snprintf(words + n, WORDS_BYTES - n, ", from %02x:%02x.%x", p->requester >> 8, p->requester >> 3 & 31,
             p->requester & 7);
    return words;
}

static inline int name_words(char words[WORDS_BYTES], const Call *c)
{
    int digits = 2 * (int)c->width;
    switch (c->kind) {
    case MUSGARENTO_RECORD_EVENT:
        return snprintf(words, WORDS_BYTES, "event %" PRIu64, c->value);
    case MUSGARENTO_RECORD_LINE:
        return snprintf(words, WORDS_BYTES, "line %" PRIu64, c->value);
    case MUSGARENTO_RECORD_CONFIG_WRITE:
        return snprintf(words, WORDS_BYTES, "configuration write, offset %02" PRIX64 "h, value %0*" PRIX64 "h",
                        c->offset, digits, c->value);
    case MUSGARENTO_RECORD_BAR_WRITE:
        return snprintf(words, WORDS_BYTES, "BAR %" PRIu64 " write, offset %08" PRIX64 "h, value %0*" PRIX64 "h",
                        c->bar, c->offset, digits, c->value);
    default:
        return snprintf(words, WORDS_BYTES, "reset");
    }
}

/* The call and the card's answer. */
static inline const char *call_words(char words[WORDS_BYTES], const Call *c)
{
    static const char *const answers[] = { "accepted", "sent", "held", "merged", "lost" };
    char refused[WORDS_BYTES];
    int n = name_words(words, c);
    snprintf(words + n, WORDS_BYTES - n, ": %s",
             c->refusal != MUSGARENTO_ACCEPTED ? refused_words(refused, c->refusal) : answers[c->answer]);
    return words;
}

#endif
