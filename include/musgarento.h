/*
 * The interrupts of one PCIe endpoint function: pin (INTx), MSI and MSI-X; a
 * switch between up to eight such cards and the host; and logs of calls, which
 * are recorded and played again. Three functions more read lengths and packets
 * for a host.
 *
 * `bash tools/archives` builds the functions of a card as
 * target/staticlib/libcapi.a, those of a switch (musgarento_switch_*) as
 * target/staticlib/libcapi_switch.a, those of logs (musgarento_play,
 * musgarento_log_*) as target/staticlib/libcapi_log.a, and those that read
 * lengths and packets (musgarento_config_lengths, musgarento_image_lengths,
 * musgarento_packet) as target/staticlib/libcapi_query.a.
 *
 * A card crosses this interface as 289 bytes, those that stand in a saved
 * image from the flags to the last configuration byte, numbers little-endian:
 *
 *     byte 0         flags: bit 0 line, bit 1 wire, the rest 0
 *     bytes 1, 2     E, the number of events
 *     bytes 3, 4     requester ID
 *     bytes 5 to 8   MSI waiting bits
 *     bytes 9 to 32  six BAR sizes of 32 bits
 *     bytes 33 on    256 configuration bytes
 *
 * The MSI-X table (16 bytes for each of N vectors) and the pending array
 * (8 bytes for each 64 vectors or part of them) are lent at each call. N is
 * MSI-X Table Size + 1, or 0 with no MSI-X. musgarento_config_lengths and
 * musgarento_image_lengths give N and both lengths.
 *
 * A switch crosses as 10 bytes:
 *
 *     bytes 0, 1     requester ID, little-endian
 *     byte 2 + k     the wires of port k, 0 to 7: bit p - 1 is the level of
 *                    card pin p, bits 7:4 are 0
 *
 * A player of a log crosses as 25 bytes; 25 zeros are a player that has taken
 * nothing yet:
 *
 *     byte 0         what it reads: 0 mark and version, 1 records, 2 nothing
 *                    until the record that it holds is tried again, 3 nothing
 *                    any more
 *     byte 1         how many bytes of the header or of a record it has taken
 *     bytes 2 to 16  the bytes of that record, the rest 0
 *     bytes 17 to 24 the number of records whose last byte was taken,
 *                    little-endian; past 2^64 - 1 it stays there
 *
 * Every function takes any bytes, numbers and lengths, and returns 0 or the
 * number of its refusal. A refused call changes no byte of card, table,
 * pending array, switch, player or output, and sets what else it hands back to
 * 0; only a card's start that is refused with 10 to 17 leaves a card of 289
 * zeros, and a player at its first wrong byte tells how many bytes it took
 * before it and becomes one that reads nothing any more. The output's bytes
 * behind what is sent keep their contents.
 *
 * A rule is about the whole number that is handed in, and no number is cut: a
 * width of 260 is not a width of 4, and port 256 is not port 0. Only a write's
 * value may have bytes beyond the width, which are dropped.
 *
 * No pointer may be null, not even one with a length of 0, and a buffer that
 * is written may not overlap another one.
 */
#ifndef MUSGARENTO_H
#define MUSGARENTO_H

#include <stddef.h>
#include <stdint.h>

#ifdef __cplusplus
extern "C" {
#endif

/* The bytes of a card, and of the configuration given to a start. */
#define MUSGARENTO_CARD_BYTES 289
#define MUSGARENTO_CONFIG_BYTES 256
/* The number of BAR sizes given to a start. */
#define MUSGARENTO_SIZES 6
/* The most bytes of packets that one call of a card makes, and the longest
   image. */
#define MUSGARENTO_PACKET_BYTES 40976
#define MUSGARENTO_IMAGE_BYTES 33318
/* The bytes of a switch, and the most bytes of packets that one call of it
   sends upstream: four wire packets of a port that goes down. */
#define MUSGARENTO_SWITCH_BYTES 10
#define MUSGARENTO_SWITCH_PACKET_BYTES 64
/* The bytes of a player, of the beginning of a log, and of its longest
   record. */
#define MUSGARENTO_PLAYER_BYTES 25
#define MUSGARENTO_LOG_HEADER_BYTES 5
#define MUSGARENTO_RECORD_BYTES 15

/* The refusals, in the order in which they are checked. */
enum musgarento_refusal {
    MUSGARENTO_ACCEPTED = 0,

    /* Of every function. Another length than 289, 256, 6, 10 and 25 of card,
       configuration, sizes, switch or player. Of a switch also bytes that no
       switch has, that is a port's byte above 15, or at its start, which does
       not ask what the bytes were, a requester above FFFFh. Of a player also a
       first byte above 3, or a card whose flags byte has another bit than bits
       0 and 1 set. Of the recorder a kind that is not 1 to 5, or a value of a
       configuration write above FFFFFFFFh. Of a packet that is read, bytes that
       begin with no packet. Nothing changes, not even the card of a start. */
    MUSGARENTO_LENGTHS = 60,

    /* Of a player: */
    /* wrong byte of mark, version, kind or line, or a player that met one; or a
       player that no log leaves behind: it has taken more bytes than there are
       of what it reads, or holds no record to be tried again */
    MUSGARENTO_LOG = 30,

    /* Of a switch; then 6: */
    /* port above 7; bytes that are no single packet (any requester, address
       bits 1:0 zero); or a wire packet with a device number (bits 7:3 of its
       requester ID) other than 0 */
    MUSGARENTO_PORT_PACKET = 50,

    /* Of a running card: */
    /* card not sound (all calls but start and restore); no card is sound
       whose flags byte has another bit than bits 0 and 1 set */
    MUSGARENTO_NOT_SOUND = 1,
    /* withdrawal while the pin is in force */
    MUSGARENTO_PIN_IN_FORCE = 7,
    /* event number E or more */
    MUSGARENTO_EVENT = 2,
    /* configuration width not 1, 2, 4, offset not a multiple of it, or above
       255 */
    MUSGARENTO_CONFIG_ACCESS = 3,
    /* BAR above 5, width not 4 or 8, offset not a multiple, or outside table
       and pending array */
    MUSGARENTO_BAR_ACCESS = 4,
    /* BAR access with Command bit 1 clear */
    MUSGARENTO_MEMORY_SPACE = 5,
    /* output shorter than this call's packets or image */
    MUSGARENTO_ROOM = 6,

    /* Of a start: */
    /* byte 0Eh low seven bits not 0, or pin (3Dh) above 4 */
    MUSGARENTO_HEADER = 10,
    /* list broken */
    MUSGARENTO_LIST = 11,
    /* ID 05h or 11h listed twice */
    MUSGARENTO_TWICE = 12,
    /* Multiple Message Capable above 5; or a structure runs past byte FFh,
       overlaps the other one, or has another listed header's first two bytes
       inside it */
    MUSGARENTO_STRUCTURE = 13,
    /* a BIR above 5; table (16N bytes) or pending array past its BAR's size;
       or the two overlapping in one BAR */
    MUSGARENTO_REGION = 14,
    /* E not 1 to 2,048, or MSI-X present and N not E */
    MUSGARENTO_EVENTS = 15,
    /* requester's low three bits not 0, or requester above FFFFh */
    MUSGARENTO_REQUESTER = 16,
    /* table buffer not 16N bytes, or pending buffer not 8 x (N/64 rounded up)
       bytes; of a restore, checked last: lent buffers of other lengths */
    MUSGARENTO_BUFFERS = 17,

    /* Of a restore: */
    /* image under 294 bytes or wrong mark */
    MUSGARENTO_MARK = 20,
    /* version not 1 */
    MUSGARENTO_VERSION = 21,
    /* any other image that no sound card saves */
    MUSGARENTO_IMAGE = 22
};

/* What became of an accepted event. */
enum musgarento_answer {
    /* one packet was sent */
    MUSGARENTO_SENT = 1,
    /* the waiting bit went from 0 to 1 */
    MUSGARENTO_HELD = 2,
    /* the waiting bit was 1 already */
    MUSGARENTO_MERGED = 3,
    /* the pin is in force, nothing was kept */
    MUSGARENTO_LOST = 4
};

/* Starts a card from 256 configuration bytes, six BAR sizes, the number of
   events and the requester ID. Refusals: 60, 10 to 17. What the card's bytes
   were before does not matter. */
uint8_t musgarento_start(uint8_t *card, size_t card_len,
                         const uint8_t *config, size_t config_len,
                         const uint32_t *sizes, size_t sizes_len,
                         uint64_t events, uint64_t requester,
                         uint8_t *table, size_t table_len,
                         uint8_t *pending, size_t pending_len);

/* Reads 1, 2 or 4 configuration bytes. The bytes of the value beyond the width
   are 0. Refusals: 60, 1, 3. */
uint8_t musgarento_config_read(const uint8_t *card, size_t card_len,
                               const uint8_t *table, size_t table_len,
                               const uint8_t *pending, size_t pending_len,
                               uint64_t offset, uint64_t width,
                               uint32_t *value);

/* Writes 1, 2 or 4 configuration bytes; count is the number of bytes of the
   packets that this sends. Refusals: 60, 1, 3, 6. */
uint8_t musgarento_config_write(uint8_t *card, size_t card_len,
                                const uint8_t *table, size_t table_len,
                                uint8_t *pending, size_t pending_len,
                                uint64_t offset, uint64_t width,
                                uint32_t value,
                                uint8_t *out, size_t out_len, size_t *count);

/* Reads 4 or 8 bytes of the table or the pending array. Refusals: 60, 1, 4,
   5. */
uint8_t musgarento_bar_read(const uint8_t *card, size_t card_len,
                            const uint8_t *table, size_t table_len,
                            const uint8_t *pending, size_t pending_len,
                            uint64_t bar, uint64_t offset, uint64_t width,
                            uint64_t *value);

/* Writes 4 or 8 bytes of the table; a write to the pending array is accepted
   and changes nothing. Refusals: 60, 1, 4, 5, 6. */
uint8_t musgarento_bar_write(uint8_t *card, size_t card_len,
                             uint8_t *table, size_t table_len,
                             uint8_t *pending, size_t pending_len,
                             uint64_t bar, uint64_t offset, uint64_t width,
                             uint64_t value,
                             uint8_t *out, size_t out_len, size_t *count);

/* A device event. Refusals: 60, 1, 2, 6. */
uint8_t musgarento_event(uint8_t *card, size_t card_len,
                         const uint8_t *table, size_t table_len,
                         uint8_t *pending, size_t pending_len,
                         uint64_t number,
                         uint8_t *out, size_t out_len,
                         uint8_t *answer, size_t *count);

/* Sets the device's line: level 0 is low, anything else high, 256 too.
   Refusals: 60, 1, 6. */
uint8_t musgarento_line(uint8_t *card, size_t card_len,
                        const uint8_t *table, size_t table_len,
                        const uint8_t *pending, size_t pending_len,
                        uint64_t level,
                        uint8_t *out, size_t out_len, size_t *count);

/* Withdraws a vector of the mechanism in force, whose cause was satisfied: its
   waiting bit is cleared, and what waited is not sent later. was_set is 1 if
   the bit was set, else 0. The other mechanism's bit of that number stays, and
   nothing is sent. A log has no record of it (musgarento_log_record).
   Refusals: 60, 1, 7, and 2 for a vector at or above N (MSI: 2^Capable). */
uint8_t musgarento_withdraw(uint8_t *card, size_t card_len,
                            const uint8_t *table, size_t table_len,
                            uint8_t *pending, size_t pending_len,
                            uint64_t vector, uint8_t *was_set);

/* Resets the card. Refusals: 60, 1, 6. */
uint8_t musgarento_reset(uint8_t *card, size_t card_len,
                         uint8_t *table, size_t table_len,
                         uint8_t *pending, size_t pending_len,
                         uint8_t *out, size_t out_len, size_t *count);

/* Writes an image of 294 + 16N + 8 x (N/64 rounded up) bytes. Refusals: 60, 1,
   6. */
uint8_t musgarento_save(const uint8_t *card, size_t card_len,
                        const uint8_t *table, size_t table_len,
                        const uint8_t *pending, size_t pending_len,
                        uint8_t *out, size_t out_len, size_t *count);

/* Restores card, table and pending array from an image. Sends nothing.
   Refusals: 60, 20, 21, 22, 17. What the card's bytes were before does not
   matter; a refused restore leaves every bit of them as it was. */
uint8_t musgarento_restore(uint8_t *card, size_t card_len,
                           uint8_t *table, size_t table_len,
                           uint8_t *pending, size_t pending_len,
                           const uint8_t *image, size_t image_len);

/* Starts a switch: no wire is active. The requester ID may have any function
   part. Refusal: 60. What the switch's bytes were before does not matter. */
uint8_t musgarento_switch_start(uint8_t *state, size_t state_len,
                                uint64_t requester);

/* A packet from the card at a port; count is the number of bytes that are sent
   upstream. Card pin p at port k is upstream pin ((k + p - 1) mod 4) + 1, whose
   wire is active while any port's wire of it is. A wire packet sends one with
   the switch's requester ID, function part 0, if it changes the upstream wire,
   else nothing; a message is sent as it is. Refusals: 60, 50, 6. */
uint8_t musgarento_switch_packet(uint8_t *state, size_t state_len,
                                 uint64_t port,
                                 const uint8_t *packet, size_t packet_len,
                                 uint8_t *out, size_t out_len, size_t *count);

/* A port goes down: its wires become inactive, and each upstream wire that
   changes sends a Deassert, in the order of the upstream pins. The port takes
   packets as before. Refusals: 60, 50, 6. */
uint8_t musgarento_switch_down(uint8_t *state, size_t state_len,
                               uint64_t port,
                               uint8_t *out, size_t out_len, size_t *count);

/* The kinds of the records of a log. */
enum musgarento_record {
    MUSGARENTO_RECORD_EVENT = 1,
    MUSGARENTO_RECORD_LINE = 2,
    MUSGARENTO_RECORD_CONFIG_WRITE = 3,
    MUSGARENTO_RECORD_BAR_WRITE = 4,
    MUSGARENTO_RECORD_RESET = 5
};

/* Plays a log on a card: takes the bytes up to the end of the first complete
   record, and makes its call. `taken` is how many bytes were taken; those that
   were not are handed in again with what follows them. `ended` is 1 if a
   record's call was made, refused or not, else 0; `refusal`, `answer` and
   `count` are those of that call, else 0, and its packets stand in the output.

   A record whose call is refused is done, and the next one follows; only after
   6 the next call takes no bytes and makes the same record's call again. With
   an output of MUSGARENTO_PACKET_BYTES there is no 6. At the first wrong byte
   this returns 30; it and all bytes behind it are not taken, and every later
   call with that player returns 30. Refusals: 60, 30. */
uint8_t musgarento_play(uint8_t *card, size_t card_len,
                        uint8_t *table, size_t table_len,
                        uint8_t *pending, size_t pending_len,
                        uint8_t *player, size_t player_len,
                        const uint8_t *log, size_t log_len,
                        uint8_t *out, size_t out_len,
                        size_t *taken, uint8_t *ended, uint8_t *refusal,
                        uint8_t *answer, size_t *count);

/* Writes the beginning of a log, mark and version; count is the number of
   bytes. Refusal: 6. */
uint8_t musgarento_log_begin(uint8_t *out, size_t out_len, size_t *count);

/* Writes the record of a call that was made and answered with `refusal` (0 if
   it was accepted); count is the number of bytes. A call that was refused with
   6 did nothing, and has no record: count is 0. `kind` is a musgarento_record;
   `value` is an event's number, the level of a line (0 is low, anything else
   high) or what is written. Numbers that a kind has no use for are passed over.
   Another number that is too wide for the record is recorded as the largest
   one that fits, which the card refuses as well.

   Reads and saves have no record, since they change nothing. A start, a restore
   and a withdrawal have none either, and an accepted one ends the log: a new
   one begins behind it, with a new image. Refusals: 60, 6. */
uint8_t musgarento_log_record(uint64_t kind, uint64_t bar, uint64_t offset,
                              uint64_t width, uint64_t value, uint8_t refusal,
                              uint8_t *out, size_t out_len, size_t *count);

/* N, the number of MSI-X vectors of a configuration, and the lengths of table
   and pending array that its start asks for: 16N and 8 x (N/64 rounded up).
   With no MSI-X, and with a broken capability list, which a start refuses, all
   three are 0; with MSI-X listed twice, which it refuses too, the first one
   counts. Refusal: 60. */
uint8_t musgarento_config_lengths(const uint8_t *config, size_t config_len,
                                  size_t *vectors, size_t *table_len,
                                  size_t *pending_len);

/* The same of an image: a restore over buffers of these lengths is accepted.
   Refusals: 20, 21, 22, as of a restore. */
uint8_t musgarento_image_lengths(const uint8_t *image, size_t image_len,
                                 size_t *vectors, size_t *table_len,
                                 size_t *pending_len);

/* What a packet is. */
enum musgarento_packet_kind {
    /* a memory write of one word: a message */
    MUSGARENTO_PACKET_MESSAGE = 1,
    /* Assert_INTx or Deassert_INTx */
    MUSGARENTO_PACKET_WIRE = 2
};

/* Reads the first of the packets that stand one after another; count is its
   number of bytes. Of a message `address` has the upper address in its high
   half; of a wire packet `pin` is 1 to 4 and `level` is 1 for Assert, 0 for
   Deassert. What a kind has no use for is 0. The bytes behind the packet are
   not looked at. Refusal: 60 if no packet stands there; an address with bits
   1:0 set is in none, and an upper address of 0 in none of 20 bytes. */
uint8_t musgarento_packet(const uint8_t *packets, size_t packets_len,
                          size_t *count, uint8_t *kind, uint16_t *requester,
                          uint64_t *address, uint32_t *data,
                          uint8_t *pin, uint8_t *level);

#ifdef __cplusplus
}
#endif

#endif
