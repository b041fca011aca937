/*
 * SPDX-License-Identifier: GPL-2.0-or-later
 *
 * A card from its file: 256 configuration bytes, which are started, or a saved image, which is restored.
 */
#include "card.h"
#include "qapi/error.h"

/* Says why not, where it was refused. */
bool good(Error **errp, const char *what, uint8_t refusal)
{
    char words[WORDS_BYTES];
    if (refusal != MUSGARENTO_ACCEPTED) {
        error_setg(errp, "%s %s", what, refused_words(words, refusal));
    }
    return refusal == MUSGARENTO_ACCEPTED;
}

static bool lend(Card *card)
{
    card->table = g_malloc0(card->table_len + 1);
    card->pending = g_malloc0(card->pending_len + 1);
    return true;
}

/* A BAR of the configuration whose size is not given has 64 KiB. */
static uint32_t size_of(const Bar *bar, const uint8_t *config)
{
    uint32_t here = pci_get_long(config + PCI_BASE_ADDRESS_0 + 4 * bar->number);
    uint32_t below = bar->number == 0 ? 0 : pci_get_long(config + PCI_BASE_ADDRESS_0 + 4 * bar->number - 4);
    bool upper_half = (below & 7) == PCI_BASE_ADDRESS_MEM_TYPE_64;
    return bar->size != NOT_GIVEN ? bar->size : here != 0 && !upper_half ? 65536 : 0;
}

static uint8_t start(Card *card, const uint8_t *config)
{
    uint32_t sizes[BARS];
    for (unsigned i = 0; i < BARS; i++) {
        sizes[i] = size_of(&card->bars[i], config);
    }
    if (card->events == 0) {
        card->events = card->vectors != 0 ? card->vectors : 32;
    }
    return musgarento_start(CARD(card), config, MUSGARENTO_CONFIG_BYTES, sizes, BARS, card->events,
                            pci_requester_id(&card->pci), BUFFERS(card));
}

static bool load(Card *card, const uint8_t *file, size_t count, Error **errp)
{
    size_t *n = &card->vectors, *t = &card->table_len, *p = &card->pending_len;
    if (count == MUSGARENTO_CONFIG_BYTES) {
        return good(errp, "configuration", musgarento_config_lengths(file, count, n, t, p)) && lend(card)
            && good(errp, "start", start(card, file));
    }
    const char *what = "not 256 configuration bytes, and as an image";
    return good(errp, what, musgarento_image_lengths(file, count, n, t, p)) && lend(card)
        && good(errp, what, musgarento_restore(LENT(card), file, count));
}

bool read_card(Card *card, Error **errp)
{
    g_autofree char *file = NULL;
    g_autoptr(GError) error = NULL;
    gsize count;
    if (card->file == NULL) {
        error_setg(errp, "which card? card=FILE has 256 configuration bytes or a saved image");
        return false;
    }
    if (!g_file_get_contents(card->file, &file, &count, &error)) {
        error_setg(errp, "%s", error->message);
        return false;
    }
    if (!load(card, (uint8_t *)file, count, errp)) {
        error_prepend(errp, "%s: ", card->file);
        return false;
    }
    card->events = lduw_le_p(card->bytes + 1);
    return true;
}
