/*
 * SPDX-License-Identifier: GPL-2.0-or-later
 *
 * The proved card as a PCI device of an unmodified QEMU:
 *
 *     qemu-system-x86_64 -plugin device.so -device musgarento,card=FILE ..
 *
 * The card behind include/musgarento.h answers for configuration space, table, pending array and waiting bits, and makes
 * the packets. The device hands accesses in and carries packets out, as memory writes and as the level of a wire; it
 * decides nothing about interrupts. QEMU keeps BARs, power management, PCIe and extended configuration space.
 * docs/VM.md tells how it is used.
 */
#include "qemu/osdep.h"
#include "hw/pci/pci.h"
#include "hw/qdev-properties.h"
#include "hw/qdev-properties-system.h"
#include "migration/vmstate.h"
#include "qapi/error.h"
#include "qapi/qapi-commands-control.h"
#include "qemu/error-report.h"
#include "qemu/module.h"
#include "qemu/qemu-plugin.h"
#include "qemu/timer.h"

#include "card.h"

#define LARGEST_BAR (256u << 20)
#define FASTEST 1000000 /* events a second */

/* Registers for a driver's self-test, 32 bits each, in the plain memory of a BAR: those of Linux's pci_endpoint_test that
   raise interrupts, and four of our own. */
enum {
    SELFTEST_COMMAND = 0x04, /* 1: line high; 2 or 4: event SELFTEST_NUMBER - 1 */
    SELFTEST_STATUS = 0x08,  /* bit 6 is set by a command; written 0, the line is low */
    SELFTEST_NUMBER = 0x28,
    SELFTEST_EVENT = 0x80,   /* a write is that event */
    SELFTEST_LINE = 0x84,    /* a write is that level of the line */
    SELFTEST_RATE = 0x88,    /* a write is that many events a second */
    SELFTEST_COUNTS = 0x800, /* one for each event: how often it was neither refused nor lost since the last reset */
};
#define RAISED 0x40

/* ---- calls of the card, and their packets carried out */

static void count_call(Card *card, uint8_t refusal)
{
    card->calls++;
    card->refused += refusal != MUSGARENTO_ACCEPTED;
}

static void report_end(Card *card)
{
    error_report("musgarento: the recording %s cannot be written, and ends here: %s", card->name, strerror(errno));
}

/* A call that was made: counted, recorded, and said to a bench that watches. */
static void note(Card *card, const Call *call)
{
    char words[WORDS_BYTES];
    size_t at = 0;
    Packet p;
    count_call(card, call->refusal);
    if (card->recording.log != NULL && !record_call(&card->recording, call, card->out)) {
        report_end(card);
    }
    if (card->watched) {
        say(card, "%s\n", call_words(words, call));
        while (next_packet(card->out, call->count, &at, &p)) {
            say(card, "    %s\n", packet_words(words, &p));
        }
    }
}

/* Packets to memory and wire. Meanwhile the card takes no access: a message to one of its own BARs is lost. */
static void carry_out(Card *card, const Call *call)
{
    MemTxAttrs attrs = { .requester_id = pci_requester_id(&card->pci) };
    size_t at = 0;
    Packet p;
    card->carrying = true;
    while (next_packet(card->out, call->count, &at, &p)) {
        if (p.kind == MUSGARENTO_PACKET_WIRE) {
            pci_set_irq(&card->pci, p.level);
        } else {
            address_space_stl_le(&card->pci.bus_master_as, p.address, p.data, attrs, NULL);
        }
    }
    card->carrying = false;
}

static uint8_t *count_of(Card *card, uint64_t event)
{
    Bar *bar = card->selftest < BARS ? &card->bars[card->selftest] : NULL;
    bool there = bar != NULL && event < card->events && SELFTEST_COUNTS + 4 * event + 4 <= bar->size;
    return there ? bar->memory + SELFTEST_COUNTS + 4 * event : NULL;
}

void raise_event(Card *card, uint64_t number)
{
    Call call = { .kind = MUSGARENTO_RECORD_EVENT, .value = number };
    uint8_t *count = count_of(card, number);
    call.refusal = musgarento_event(LENT(card), number, OUT(card), &call.answer, &call.count);
    note(card, &call);
    if (count != NULL && call.refusal == MUSGARENTO_ACCEPTED && call.answer != MUSGARENTO_LOST) {
        stl_le_p(count, ldl_le_p(count) + 1);
    }
    carry_out(card, &call);
}

void set_line(Card *card, uint64_t level)
{
    Call call = { .kind = MUSGARENTO_RECORD_LINE, .value = level };
    call.refusal = musgarento_line(LENT(card), level, OUT(card), &call.count);
    note(card, &call);
    carry_out(card, &call);
}

void set_rate(Card *card, uint32_t rate)
{
    card->rate = MIN(rate, FASTEST);
    if (rate == 0) {
        timer_del(&card->timer);
    } else {
        timer_mod(&card->timer, qemu_clock_get_ns(QEMU_CLOCK_VIRTUAL) + NANOSECONDS_PER_SECOND / card->rate);
    }
}

/* An event with the next number of a xorshift sequence. */
static void tick(void *opaque)
{
    Card *card = opaque;
    uint32_t x = card->random;
    x ^= x << 13;
    x ^= x >> 17;
    x ^= x << 5;
    card->random = x;
    set_rate(card, card->rate);
    raise_event(card, x % card->events);
    tell(card);
}

/* ---- configuration space */

static bool in_word(uint32_t offset, unsigned capability, unsigned place)
{
    return capability != 0 && (offset & ~3u) == capability + place;
}

static bool kept_by_qemu(Card *card, uint32_t offset)
{
    bool bar = offset >= PCI_BASE_ADDRESS_0 && offset < PCI_CARDBUS_CIS;
    bool rom = offset >= PCI_ROM_ADDRESS && offset < PCI_CAPABILITY_LIST;
    return bar || rom || offset >= PCI_CONFIG_SPACE_SIZE || in_word(offset, card->power, PCI_PM_CTRL)
        || in_word(offset, card->express, PCI_EXP_DEVCTL);
}

/* The value of a read; one that is refused gives ones, as one that no device answers. */
static uint64_t read_as(Card *card, uint8_t refusal, uint64_t value)
{
    count_call(card, refusal);
    return refusal == MUSGARENTO_ACCEPTED ? value : UINT64_MAX;
}

static uint32_t config_read(PCIDevice *pci, uint32_t offset, int width)
{
    Card *card = (Card *)pci;
    uint32_t value;
    if (kept_by_qemu(card, offset)) {
        return pci_default_read_config(pci, offset, width);
    }
    uint8_t refusal = musgarento_config_read(LENT(card), offset, width, &value);
    return read_as(card, refusal, value);
}

/* The card has every write. QEMU's own copy has what it keeps (set_masks), and what Command switches on in the machine. */
static void config_write(PCIDevice *pci, uint32_t offset, uint32_t value, int width)
{
    Card *card = (Card *)pci;
    Call call = { .kind = MUSGARENTO_RECORD_CONFIG_WRITE, .offset = offset, .width = width };
    call.value = width < 4 ? value & ((1u << 8 * width) - 1) : value;
    if (offset < PCI_CONFIG_SPACE_SIZE) {
        call.refusal = musgarento_config_write(LENT(card), offset, width, call.value, OUT(card), &call.count);
        note(card, &call);
    }
    if (call.refusal == MUSGARENTO_ACCEPTED) {
        pci_default_write_config(pci, offset, call.value, width);
        carry_out(card, &call);
        if (card->express != 0) {
            pcie_cap_flr_write_config(pci, offset, call.value, width);
        }
    }
    tell(card);
}

/* QEMU's Command and wire are the card's, where no write or packet has told. A card without a pin has no wire. */
static void follow(Card *card)
{
    uint32_t command;
    musgarento_config_read(LENT(card), PCI_COMMAND, 2, &command);
    command |= card->pci.config[PCI_COMMAND] & PCI_COMMAND_IO;
    pci_default_write_config(&card->pci, PCI_COMMAND, command, 2);
    if (card->pci.config[PCI_INTERRUPT_PIN] != 0) {
        pci_set_irq(&card->pci, card->bytes[0] >> 1 & 1);
    }
}

/* ---- BARs */

/* Table and pending array are where the card does not refuse an aligned word with 4. */
static bool is_cards(Bar *bar, uint64_t offset)
{
    uint64_t value;
    return musgarento_bar_read(LENT(bar->card), bar->number, offset & ~3ull, 4, &value) != MUSGARENTO_BAR_ACCESS;
}

static uint64_t bar_read(void *opaque, hwaddr offset, unsigned width)
{
    Bar *bar = opaque;
    uint64_t value;
    if (bar->card->carrying) {
        return UINT64_MAX;
    }
    if (!is_cards(bar, offset)) {
        return ldn_le_p(bar->memory + offset, width);
    }
    uint8_t refusal = musgarento_bar_read(LENT(bar->card), bar->number, offset, width, &value);
    return read_as(bar->card, refusal, value);
}

static void selftest_write(Card *card, uint8_t *memory, hwaddr offset, uint32_t value)
{
    if (offset == SELFTEST_COMMAND) {
        stl_le_p(memory + SELFTEST_STATUS, ldl_le_p(memory + SELFTEST_STATUS) | RAISED);
        if (value & 1) {
            set_line(card, 1);
        }
        if (value & 6) {
            raise_event(card, (uint32_t)(ldl_le_p(memory + SELFTEST_NUMBER) - 1));
        }
    } else if (offset == SELFTEST_STATUS && !(value & RAISED)) {
        set_line(card, 0);
    } else if (offset == SELFTEST_EVENT) {
        raise_event(card, value);
    } else if (offset == SELFTEST_LINE) {
        set_line(card, value);
    } else if (offset == SELFTEST_RATE) {
        set_rate(card, value);
    }
}

static void bar_write(void *opaque, hwaddr offset, uint64_t value, unsigned width)
{
    Bar *bar = opaque;
    Card *card = bar->card;
    Call call = { MUSGARENTO_RECORD_BAR_WRITE, bar->number, offset, width, value };
    if (card->carrying) {
        return;
    }
    if (is_cards(bar, offset)) {
        call.refusal = musgarento_bar_write(LENT(card), bar->number, offset, width, value, OUT(card), &call.count);
        note(card, &call);
        carry_out(card, &call);
    } else {
        stn_le_p(bar->memory + offset, width, value);
        if (bar->number == card->selftest && width == 4) {
            selftest_write(card, bar->memory, offset, value);
        }
    }
    tell(card);
}

static const MemoryRegionOps bar_ops = {
    .read = bar_read,
    .write = bar_write,
    .endianness = DEVICE_LITTLE_ENDIAN,
    .valid = { .min_access_size = 1, .max_access_size = 8 },
    .impl = { .min_access_size = 1, .max_access_size = 8 },
};

/* ---- images, and calls that begin the next part of the recording */

uint8_t save_image(Card *card)
{
    size_t count;
    uint8_t refusal = musgarento_save(LENT(card), card->image, sizeof card->image, &count);
    card->image_len = count;
    return refusal;
}

static bool begin_recording(Card *card)
{
    return card->name == NULL
        || (save_image(card) == MUSGARENTO_ACCEPTED
            && record_begin(&card->recording, card->name, card->image, card->image_len));
}

/* Behind an accepted call that a log has no record of. */
static void next_part(Card *card)
{
    if (!begin_recording(card)) {
        report_end(card);
    }
}

/* What refuses an image. One of another card would change what the machine knows of this one; after a reset, which gives
   the state of a start, two cards differ exactly if they were started differently. */
static uint8_t image_refusal(Card *card, const void *image, size_t count)
{
    g_autofree uint8_t *table = g_memdup2(card->table, card->table_len + 1);
    g_autofree uint8_t *pending = g_memdup2(card->pending, card->pending_len + 1);
    uint8_t started[MUSGARENTO_CARD_BYTES], other[MUSGARENTO_CARD_BYTES];
    size_t sent;
    memcpy(started, card->bytes, sizeof started);
    musgarento_reset(started, sizeof started, table, card->table_len, pending, card->pending_len, OUT(card), &sent);
    uint8_t refusal = musgarento_restore(other, sizeof other, table, card->table_len, pending, card->pending_len, image, count);
    if (refusal != MUSGARENTO_ACCEPTED) {
        return refusal;
    }
    musgarento_reset(other, sizeof other, table, card->table_len, pending, card->pending_len, OUT(card), &sent);
    return memcmp(started, other, sizeof started) == 0 ? MUSGARENTO_ACCEPTED : ANOTHER_CARD;
}

uint8_t take_image(Card *card, const void *image, size_t count)
{
    uint8_t refusal = image_refusal(card, image, count);
    if (refusal == MUSGARENTO_ACCEPTED) {
        musgarento_restore(LENT(card), image, count);
        follow(card);
        next_part(card);
    }
    return refusal;
}

uint8_t withdraw_vector(Card *card, uint64_t vector, uint8_t *was_set)
{
    uint8_t refusal = musgarento_withdraw(LENT(card), vector, was_set);
    count_call(card, refusal);
    if (refusal == MUSGARENTO_ACCEPTED) {
        next_part(card);
    }
    return refusal;
}

static int pre_save(void *opaque)
{
    return save_image(opaque) == MUSGARENTO_ACCEPTED ? 0 : -EINVAL;
}

static int post_load(void *opaque, int version)
{
    Card *card = opaque;
    char words[WORDS_BYTES];
    uint8_t refusal = take_image(card, card->image, MIN(card->image_len, sizeof card->image));
    if (refusal != MUSGARENTO_ACCEPTED) {
        error_report("musgarento: the saved card is %s", refused_words(words, refusal));
        return -EINVAL;
    }
    set_rate(card, card->rate);
    return 0;
}

static const VMStateDescription vmstate_bar = {
    .name = "musgarento/bar",
    .version_id = 1,
    .fields = (VMStateField[]) {
        VMSTATE_UINT32_EQUAL(size, Bar, "the BARs have other sizes"),
        VMSTATE_VBUFFER_UINT32(memory, Bar, 1, NULL, size),
        VMSTATE_END_OF_LIST(),
    },
};

static const VMStateDescription vmstate_card = {
    .name = "musgarento",
    .version_id = 1,
    .pre_save = pre_save,
    .post_load = post_load,
    .fields = (VMStateField[]) {
        VMSTATE_PCI_DEVICE(pci, Card),
        VMSTATE_UINT32(image_len, Card),
        VMSTATE_BUFFER(image, Card),
        VMSTATE_STRUCT_ARRAY(bars, Card, BARS, 1, vmstate_bar, Bar),
        VMSTATE_UINT32(rate, Card),
        VMSTATE_UINT32(random, Card),
        VMSTATE_END_OF_LIST(),
    },
};

/* ---- QEMU's side of the card */

/* The first capability with this ID, or 0. The card was started, so its list ends. */
static uint8_t find_capability(const uint8_t *config, uint8_t id)
{
    uint8_t at = config[PCI_STATUS] & PCI_STATUS_CAP_LIST ? config[PCI_CAPABILITY_LIST] & ~3 : 0;
    while (at != 0 && config[at] != id) {
        at = config[at + 1] & ~3;
    }
    return at;
}

/* The place of a capability that QEMU keeps, or 0: none, or one whose word at `word` the card writes itself (tried on a
   copy of the card), since an interrupt capability lies over it. */
static uint8_t kept_capability(Card *card, uint8_t id, unsigned word)
{
    g_autofree uint8_t *pending = g_memdup2(card->pending, card->pending_len + 1);
    uint8_t bytes[MUSGARENTO_CARD_BYTES];
    uint8_t place = find_capability(card->pci.config, id);
    size_t count;
    memcpy(bytes, card->bytes, sizeof bytes);
    uint8_t refusal = musgarento_config_write(bytes, sizeof bytes, card->table, card->table_len, pending, card->pending_len,
                                              place + word, 4, UINT32_MAX, OUT(card), &count);
    bool unwritten = refusal == MUSGARENTO_ACCEPTED && memcmp(bytes, card->bytes, sizeof bytes) == 0;
    return place != 0 && unwritten ? place : 0;
}

/* QEMU's copy of the configuration begins as the card shows it. Of its bits a guest can write those of the BARs, bits 0 to
   2 of Command, power state and Device Control; not Interrupt Disable, with which QEMU would switch the wire itself. */
static bool set_masks(Card *card, Error **errp)
{
    PCIDevice *pci = &card->pci;
    for (unsigned at = 0; at < PCI_CONFIG_SPACE_SIZE; at += 4) {
        uint32_t value;
        if (!good(errp, "configuration read", musgarento_config_read(LENT(card), at, 4, &value))) {
            return false;
        }
        pci_set_long(pci->config + at, value);
    }
    memset(pci->wmask + PCI_CONFIG_HEADER_SIZE, 0, PCI_CONFIG_SPACE_SIZE - PCI_CONFIG_HEADER_SIZE);
    pci_set_word(pci->wmask + PCI_COMMAND, PCI_COMMAND_IO | PCI_COMMAND_MEMORY | PCI_COMMAND_MASTER);
    card->power = kept_capability(card, PCI_CAP_ID_PM, PCI_PM_CTRL);
    card->express = pci->exp.exp_cap = kept_capability(card, PCI_CAP_ID_EXP, PCI_EXP_DEVCTL);
    if (card->power != 0) {
        pci_set_word(pci->wmask + card->power + PCI_PM_CTRL, PCI_PM_CTRL_STATE_MASK);
    }
    if (card->express != 0) {
        bool resets = pci_get_long(pci->config + card->express + PCI_EXP_DEVCAP) & PCI_EXP_DEVCAP_FLR;
        pci_set_word(pci->wmask + card->express + PCI_EXP_DEVCTL, resets ? 0xffff : 0x7fff);
    }
    return true;
}

static bool fill_memory(Bar *bar, Error **errp)
{
    g_autofree char *file = NULL;
    g_autoptr(GError) error = NULL;
    gsize count = 0;
    bar->memory = g_malloc0(bar->size);
    if (bar->file != NULL && !g_file_get_contents(bar->file, &file, &count, &error)) {
        error_setg(errp, "%s", error->message);
        return false;
    }
    if (count > bar->size) {
        error_setg(errp, "%s has %zu bytes, more than the %u of BAR %u", bar->file, count, bar->size, bar->number);
        return false;
    }
    memcpy(bar->memory, file, count);
    return true;
}

static bool add_bar(Card *card, Bar *bar, Error **errp)
{
    uint8_t type = card->pci.config[PCI_BASE_ADDRESS_0 + 4 * bar->number];
    bool wide = (type & 5) == PCI_BASE_ADDRESS_MEM_TYPE_64;
    bool upper_half = bar->number > 0 && card->pci.io_regions[bar->number - 1].type & PCI_BASE_ADDRESS_MEM_TYPE_64;
    bar->size = ldl_le_p(card->bytes + 9 + 4 * bar->number);
    if (bar->size == 0) {
        return true;
    }
    if (!is_power_of_2(bar->size) || bar->size < 16 || bar->size > LARGEST_BAR) {
        error_setg(errp, "BAR %u of %u bytes: it must be a power of two from 16 to %u", bar->number, bar->size, LARGEST_BAR);
        return false;
    }
    if (upper_half || (wide && bar->number == BARS - 1)) {
        error_setg(errp, "BAR %u %s", bar->number, upper_half ? "is the upper half of another" : "has no BAR for its upper half");
        return false;
    }
    if (!fill_memory(bar, errp)) {
        return false;
    }
    memory_region_init_io(&bar->region, OBJECT(card), &bar_ops, bar, "musgarento-bar", bar->size);
    pci_register_bar(&card->pci, bar->number, type & 1 ? PCI_BASE_ADDRESS_SPACE_IO : type & 0xc, &bar->region);
    return true;
}

/* ---- the device */

static bool add_bars(Card *card, Error **errp)
{
    for (unsigned i = 0; i < BARS; i++) {
        if (!add_bar(card, &card->bars[i], errp)) {
            return false;
        }
    }
    if (card->selftest != NOT_GIVEN && (card->selftest >= BARS || card->bars[card->selftest].size < SELFTEST_COUNTS)) {
        error_setg(errp, "selftest=%u: no BAR of %u bytes or more", card->selftest, SELFTEST_COUNTS);
        return false;
    }
    return true;
}

static void realize(PCIDevice *pci, Error **errp)
{
    Card *card = (Card *)pci;
    card->random = 1;
    for (unsigned i = 0; i < BARS; i++) {
        card->bars[i].card = card;
        card->bars[i].number = i;
    }
    timer_init_ns(&card->timer, QEMU_CLOCK_VIRTUAL, tick, card);
    bench_open(card);
    if (!read_card(card, errp) || !set_masks(card, errp) || !add_bars(card, errp)) {
        return;
    }
    if (!begin_recording(card)) {
        error_setg_errno(errp, errno, "the recording %s cannot be written", card->name);
        return;
    }
    set_rate(card, card->rate);
}

/* Of the card alone, as a technician asks for it. */
void reset_card(Card *card)
{
    Call call = { .kind = MUSGARENTO_RECORD_RESET };
    call.refusal = musgarento_reset(LENT(card), OUT(card), &call.count);
    note(card, &call);
    carry_out(card, &call);
    follow(card);
}

/* Of the function in its machine: QEMU resets the BARs and what else it keeps. */
static void reset(DeviceState *device)
{
    Card *card = (Card *)device;
    reset_card(card);
    for (unsigned e = 0; count_of(card, e) != NULL; e++) {
        stl_le_p(count_of(card, e), 0);
    }
    tell(card);
}

#define BAR_OPTIONS(n) DEFINE_PROP_SIZE32("bar" #n, Card, bars[n].size, NOT_GIVEN), \
                       DEFINE_PROP_STRING("memory" #n, Card, bars[n].file)

static Property options[] = {
    DEFINE_PROP_STRING("card", Card, file),
    BAR_OPTIONS(0), BAR_OPTIONS(1), BAR_OPTIONS(2), BAR_OPTIONS(3), BAR_OPTIONS(4), BAR_OPTIONS(5),
    DEFINE_PROP_UINT32("events", Card, events, 0),
    DEFINE_PROP_STRING("record", Card, name),
    DEFINE_PROP_CHR("control", Card, control),
    DEFINE_PROP_UINT32("rate", Card, rate, 0),
    DEFINE_PROP_UINT32("selftest", Card, selftest, NOT_GIVEN),
    DEFINE_PROP_END_OF_LIST(),
};

static void class_init(ObjectClass *class, void *data)
{
    DeviceClass *device = DEVICE_CLASS(class);
    PCIDeviceClass *pci = PCI_DEVICE_CLASS(class);
    set_bit(DEVICE_CATEGORY_MISC, device->categories);
    device->desc = "PCIe acquisition card whose interrupts are proved";
    device->vmsd = &vmstate_card;
    device->reset = reset;
    device->hotpluggable = false;
    device_class_set_props(device, options);
    pci->realize = realize;
    pci->config_read = config_read;
    pci->config_write = config_write;
}

static const TypeInfo type = {
    .name = "musgarento",
    .parent = TYPE_PCI_DEVICE,
    .instance_size = sizeof(Card),
    .class_init = class_init,
    .interfaces = (InterfaceInfo[]) { { INTERFACE_CONVENTIONAL_PCI_DEVICE }, {} },
};

QEMU_PLUGIN_EXPORT int qemu_plugin_version = QEMU_PLUGIN_VERSION;

/* QEMU loads plugins before it makes the devices of its command line. The device is made of QEMU's own structures, so it
   goes into no other version than the one that it was built for. */
QEMU_PLUGIN_EXPORT int qemu_plugin_install(qemu_plugin_id_t id, const qemu_info_t *info, int argc, char **argv)
{
    VersionInfo *v = qmp_query_version(NULL);
    g_autofree char *running = g_strdup_printf("%" PRId64 ".%" PRId64 ".%" PRId64 " (%s)", v->qemu->major, v->qemu->minor,
                                               v->qemu->micro, v->package);
    qapi_free_VersionInfo(v);
    if (!g_str_equal(running, BUILT_FOR)) {
        error_report("musgarento: built for QEMU %s, and this is %s; vm/build makes it anew", BUILT_FOR, running);
        return 1;
    }
    type_register_static(&type);
    return 0;
}
