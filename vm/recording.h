/*
 * SPDX-License-Identifier: GPL-2.0-or-later
 *
 * The recording of a trial in three files: NAME.card, the image of the card where it begins; NAME.clg, the log of the
 * calls since then; NAME.tlp, the packets that they sent, one after another. A log has no record of a restore or a
 * withdrawal: behind an accepted one the recording goes on as NAME-2, NAME-3 and so on. No file is written over. Nothing
 * here knows QEMU.
 */
#ifndef RECORDING_H
#define RECORDING_H

#include "words.h"

#include <stdbool.h>

typedef struct Recording {
    unsigned part;
    FILE *log, *packets;
} Recording;

static inline bool record_put(FILE *file, const void *bytes, size_t count)
{
    return fwrite(bytes, 1, count, file) == count && fflush(file) == 0;
}

static inline FILE *record_open(const Recording *r, const char *name, const char *ending)
{
    char path[4096];
    int n = r->part > 1 ? snprintf(path, sizeof path, "%s-%u.%s", name, r->part, ending)
                        : snprintf(path, sizeof path, "%s.%s", name, ending);
    return n < (int)sizeof path ? fopen(path, "wbx") : NULL;
}

static inline void record_end(Recording *r)
{
    if (r->log != NULL) {
        fclose(r->log);
    }
    if (r->packets != NULL) {
        fclose(r->packets);
    }
    r->log = r->packets = NULL;
}

/* Begins the next part with the card of this image; false if a file cannot be written. */
static inline bool record_begin(Recording *r, const char *name, const uint8_t *image, size_t count)
{
    uint8_t header[MUSGARENTO_LOG_HEADER_BYTES];
    size_t begun;
    record_end(r);
    r->part++;
    FILE *card = record_open(r, name, "card");
    bool good = card != NULL && record_put(card, image, count);
    good = card != NULL && fclose(card) == 0 && good;
    r->log = record_open(r, name, "clg");
    r->packets = record_open(r, name, "tlp");
    good = good && r->log != NULL && r->packets != NULL
        && musgarento_log_begin(header, sizeof header, &begun) == MUSGARENTO_ACCEPTED
        && record_put(r->log, header, begun);
    if (!good) {
        record_end(r);
    }
    return good;
}

/* Adds a call and its packets; false if they cannot be written, and then the recording ends. */
static inline bool record_call(Recording *r, const Call *c, const uint8_t *out)
{
    uint8_t bytes[MUSGARENTO_RECORD_BYTES];
    size_t count;
    bool good = musgarento_log_record(c->kind, c->bar, c->offset, c->width, c->value, c->refusal, bytes, sizeof bytes,
                                      &count) == MUSGARENTO_ACCEPTED
        && record_put(r->packets, out, c->count) && record_put(r->log, bytes, count);
    if (!good) {
        record_end(r);
    }
    return good;
}

#endif
