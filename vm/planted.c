/*
 * SPDX-License-Identifier: GPL-2.0-or-later
 *
 * Wrong cards, to see which check of vm/trial finds each. One of the interface's functions is wrapped by the linker
 * (--wrap), so the device is as it is; docs/VM.md has what sees each.
 */
#include "musgarento.h"

#define WRAPPED_data musgarento_event /* a 64-bit MSI takes its data from 08h, the place of the 32-bit forms */
#define WRAPPED_mask musgarento_event /* an event of a masked vector is not kept */
#define WRAPPED_wire musgarento_packet /* a wire never falls */
#define WRAPPED_restore musgarento_restore /* a restore forgets the lowest waiting MSI-X vector */

#if defined(PLANTED_data) || defined(PLANTED_mask)
uint8_t __real_musgarento_event(uint8_t *card, size_t card_len, const uint8_t *table, size_t table_len, uint8_t *pending,
                                size_t pending_len, uint64_t number, uint8_t *out, size_t out_len, uint8_t *answer,
                                size_t *count);

uint8_t __wrap_musgarento_event(uint8_t *card, size_t card_len, const uint8_t *table, size_t table_len, uint8_t *pending,
                                size_t pending_len, uint64_t number, uint8_t *out, size_t out_len, uint8_t *answer,
                                size_t *count)
{
    uint8_t refusal = __real_musgarento_event(card, card_len, table, table_len, pending, pending_len, number, out,
                                              out_len, answer, count);
#ifdef PLANTED_data
    /* The mast's fault: a 64-bit MSI takes its data from 08h, the 32-bit forms' place. The trial's cards have MSI at 50h. */
    const uint8_t *msi = card + 33 + 0x50;
    if (*answer == MUSGARENTO_SENT && msi[0] == 0x05 && msi[2] & 1 && msi[2] & 0x80) {
        out[*count - 4] = msi[8] | (out[*count - 4] & 31);
        out[*count - 3] = msi[9];
    }
#else
    /* An event of a masked vector is not kept. */
    if (*answer == MUSGARENTO_HELD) {
        for (size_t i = 0; i < pending_len; i++) {
            pending[i] = 0;
        }
        card[5] = card[6] = card[7] = card[8] = 0;
    }
#endif
    return refusal;
}
#endif

#ifdef PLANTED_wire
uint8_t __real_musgarento_packet(const uint8_t *packets, size_t packets_len, size_t *count, uint8_t *kind,
                                 uint16_t *requester, uint64_t *address, uint32_t *data, uint8_t *pin, uint8_t *level);

/* The wire never falls. */
uint8_t __wrap_musgarento_packet(const uint8_t *packets, size_t packets_len, size_t *count, uint8_t *kind,
                                 uint16_t *requester, uint64_t *address, uint32_t *data, uint8_t *pin, uint8_t *level)
{
    uint8_t refusal = __real_musgarento_packet(packets, packets_len, count, kind, requester, address, data, pin, level);
    if (*kind == MUSGARENTO_PACKET_WIRE) {
        *level = 1;
    }
    return refusal;
}
#endif

#ifdef PLANTED_restore
uint8_t __real_musgarento_restore(uint8_t *card, size_t card_len, uint8_t *table, size_t table_len, uint8_t *pending,
                                  size_t pending_len, const uint8_t *image, size_t image_len);

/* A restore forgets the lowest waiting MSI-X vector. */
uint8_t __wrap_musgarento_restore(uint8_t *card, size_t card_len, uint8_t *table, size_t table_len, uint8_t *pending,
                                  size_t pending_len, const uint8_t *image, size_t image_len)
{
    uint8_t refusal = __real_musgarento_restore(card, card_len, table, table_len, pending, pending_len, image, image_len);
    for (size_t i = 0; refusal == MUSGARENTO_ACCEPTED && i < pending_len; i++) {
        if (pending[i] != 0) {
            pending[i] &= pending[i] - 1;
            break;
        }
    }
    return refusal;
}
#endif
