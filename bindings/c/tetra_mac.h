/* Bits, upper-MAC headers and downlink MAC blocks of a TETRA cell (ETSI EN 300 392-2, clause 21): the C interface, crates/tetra_mac,
 * of MAC-RESOURCE crates/tetra_resource, and of blocks crates/tetra_block.
 *
 * `bindings/staticlib` proves it and writes target/staticlib/libtetra_mac.a, libtetra_resource.a and libtetra_block.a for x86-64, from the
 * exports in crates/tetra_mac_c, tetra_resource_c and tetra_block_c; who calls tetra_mac_resource_.. needs the second, who calls
 * tetra_block_.. the third, and none needs another. Every function below is proved to return, to do nothing undefined and to give exactly
 * the answer of its definition, for every input: there is nothing that a caller must check first.
 *
 * SLICES. A slice is a pointer and the count of its elements, which are really there. A slice of count 0 may have any pointer. Slices of one
 * call do not overlap, unless both are only read. Nothing is kept after the call.
 *
 * WINDOWS. Bits are numbered from 0, most significant bit of byte 0 first. A call on bytes `s` has a window of them: the bits from `start`
 * to `end`, with the cursor at `pos`. It is good where start <= pos <= end <= 8 * len and end <= 65536; any other is refused (13). A call
 * on a block has no window: the block is the first `bits` bits of its bytes, at most 488, and the call is at its `bit`.
 *
 * RECORDS. A header or element is a list of 64-bit words, its record; TETRA_.._WORDS is its length and the enums name its places. A record
 * handed in may be longer: what follows is not looked at. A flag is false where it is 0 and true where it is anything else; it is given as 0
 * or 1. A code is one of the numbers listed; any other is malformed. Any other word is a number, and one that does not fit its field is
 * refused (3). A word that its case does not have is not looked at, and given as 0.
 *
 * OUT. What a call gives goes into the words of `out`, which may be longer than needed: what follows is left alone.
 *
 * STATUS. Every call returns
 *   0                    done: the answer is in `out`.
 *   number + 256 * bit   a refused read: one of enum tetra_refusal, and the refused field's first bit, counted from the header's first bit
 *                        (0 where the refusal is not about a field).
 *   number               a refused write or length, or a call on a block that is refused: one of enum tetra_refusal.
 *   255                  malformed: `out` or the record is too short, or the record has a code that no case has.
 *
 * A refused call leaves every byte of `s` or `block` as it was. A refused read or write puts the cursor, as it was given, into out[0] and
 * nothing else, a refused add or finish of a block its bit; a refused length, a refused step of a block and a malformed call write nothing
 * anywhere. */
#ifndef TETRA_MAC_H
#define TETRA_MAC_H

#include <stddef.h>
#include <stdint.h>

#ifdef __cplusplus
extern "C" {
#endif

/* Why a call is refused. Where several hold, a read meets 13 first and then goes field by field; a write goes by 13, 8, 9, 10, then field by
 * field, and 2 last. */
enum tetra_refusal {
    TETRA_READ_PAST_END = 1,        /* a read past the window's end, or of more than 64 bits */
    TETRA_WRITE_PAST_END = 2,       /* a write past the window's end, or of more than 64 bits; a PDU longer than its block's rest */
    TETRA_VALUE_TOO_WIDE = 3,       /* a value wider than its field */
    TETRA_WRONG_PDU_TYPE = 4,       /* a PDU type that is not the one expected */
    TETRA_EXTENDED_CARRIER = 5,     /* a channel allocation whose extension flag is set */
    TETRA_AUGMENTED = 6,            /* a channel allocation in the augmented direction */
    TETRA_USAGE_MARKER = 7,         /* an uplink usage marker 1 to 3, or a usage without a marker; a traffic marker below 4 */
    TETRA_LENGTH = 8,               /* a MAC-RESOURCE written with length 0; a PDU of more than 61 octets; in a block, a length of 0
                                       or 1, or one that passes the block's end by 8 bits or more */
    TETRA_NULL_PDU = 9,             /* a null PDU with fill, position of grant, encryption or random access not 0; one added to a block */
    TETRA_ENCRYPTED_ADDRESS = 10,   /* an SSI, USSI or SMI written with encryption */
    TETRA_NO_FRAME_18_PATTERN = 11, /* monitoring pattern 0 without a frame-18 pattern */
    TETRA_NO_FILL_BIT = 12,         /* in a block: the fill flag is set and no 1 follows the header in the PDU */
    TETRA_BAD_WINDOW = 13,          /* a window that is not good; a block's bit count over 488 or over its bytes, or a bit at which
                                       the call cannot be */
    TETRA_DELAY_COUNT = 14          /* a granting delay that is not of 1 to 13 opportunities */
};

#define TETRA_DONE 0
#define TETRA_MALFORMED 255

/* The number of a status: 0, a refusal or 255. */
static inline unsigned tetra_number(uint64_t status) { return (unsigned)(status % 256); }

/* The bit of a refused read's status. */
static inline uint64_t tetra_bit(uint64_t status) { return status / 256; }

/* ---- bits */

/* Reads num_bits bits, 0 to 64, at the cursor and moves it behind them. out[0]: the cursor; out[1]: the bits as a number. `words` is at least
 * 2. Refused: 13, 1, both with bit 0. */
uint64_t tetra_read_bits(const uint8_t *s, size_t len, size_t start, size_t pos, size_t end, size_t num_bits, uint64_t *out, size_t words);

/* Reads num_bits bits, 0 to 64, that begin `offset` bits after the cursor (before it where negative) and leaves it. out[0]: the cursor, as
 * given; out[1]: the bits as a number. `words` is at least 2. Refused: 13; 1 also before the window's start; both with bit 0. */
uint64_t tetra_peek_bits_posoffset(const uint8_t *s, size_t len, size_t start, size_t pos, size_t end, ptrdiff_t offset, size_t num_bits, uint64_t *out,
                         size_t words);

/* Writes value in num_bits bits, 0 to 64, at the cursor and moves it behind them; no other bit changes. out[0]: the cursor. `words` is at
 * least 1. Refused: 13, 2 for more than 64 bits, 3, 2 past the window's end. */
uint64_t tetra_write_bits(uint8_t *s, size_t len, size_t start, size_t pos, size_t end, uint64_t value, size_t num_bits, uint64_t *out,
                          size_t words);

/* ---- headers and elements
 *
 * .._read reads one at the cursor. out[0]: the cursor behind it; from out[1] on: its record. `words` is at least 1 + its record's length.
 *
 * .._write writes the value of `record`, of `count` words, at the cursor; no other bit of `s` changes. out[0]: the cursor behind it. `words`
 * is at least 1. */

/* ---- slot grant, clause 21.5.6: 8 bits */

enum tetra_slotgrant {
    TETRA_SLOTGRANT_CAPACITY = 0,    /* code 0 to 15: 0 first subslot; 1 to 14 1, 2, 3, 4, 5, 6, 8, 10, 13, 17, 24, 34, 51, 68 slots; 15 second
                                        subslot */
    TETRA_SLOTGRANT_DELAY = 1,       /* code 0 to 3: 0 at the next opportunity; 1 after so many opportunities; 2 in frame 18; 3 wait for another
                                        slot grant */
    TETRA_SLOTGRANT_DELAY_COUNT = 2, /* number 1 to 13, with delay 1: opportunities */
    TETRA_SLOTGRANT_WORDS = 3
};

/* Refused: 13, 1. */
uint64_t tetra_slotgrant_read(const uint8_t *s, size_t len, size_t start, size_t pos, size_t end, uint64_t *out, size_t words);

/* Refused: 13, 14, 2. */
uint64_t tetra_slotgrant_write(uint8_t *s, size_t len, size_t start, size_t pos, size_t end, const uint64_t *record, size_t count,
                               uint64_t *out, size_t words);

/* ---- channel allocation, clause 21.5.2: 25 bits, 27 with monitoring pattern 0 */

enum tetra_channel_allocation {
    TETRA_CHANNEL_ALLOC_TYPE = 0,      /* code 0 to 3: 0 replace, 1 additional, 2 quit and go, 3 replace with carrier signalling */
    TETRA_CHANNEL_TIMESLOTS = 1,       /* code 0 to 15: 8 slot 1, 4 slot 2, 2 slot 3, 1 slot 4, and their sums */
    TETRA_CHANNEL_DIRECTION = 2,       /* code 0 to 3: 0 augmented, which is refused (6); 1 down, 2 up, 3 both */
    TETRA_CHANNEL_CLCH_PERMISSION = 3, /* flag */
    TETRA_CHANNEL_CELL_CHANGE = 4,     /* flag */
    TETRA_CHANNEL_CARRIER = 5,         /* number of 12 bits */
    TETRA_CHANNEL_MON_PATTERN = 6,     /* number of 2 bits: monitoring pattern */
    TETRA_CHANNEL_FRAME18_PRESENT = 7, /* flag: whether there is a frame-18 pattern; with monitoring pattern 0 there must be one (11) */
    TETRA_CHANNEL_FRAME18_PATTERN = 8, /* number of 2 bits, written only with monitoring pattern 0 */
    TETRA_CHANNEL_WORDS = 9
};

/* Refused: 13, 1, 5, 6. */
uint64_t tetra_channel_allocation_read(const uint8_t *s, size_t len, size_t start, size_t pos, size_t end, uint64_t *out, size_t words);

/* Refused: 13, 3, 11, 6, 2. */
uint64_t tetra_channel_allocation_write(uint8_t *s, size_t len, size_t start, size_t pos, size_t end, const uint64_t *record, size_t count,
                                        uint64_t *out, size_t words);

/* The bits that a channel allocation is written as: 25 or 27. out[0]: the bits. `words` is at least 1. Refused: 6. */
uint64_t tetra_channel_allocation_len(const uint64_t *record, size_t count, uint64_t *out, size_t words);

/* ---- MAC-RESOURCE, clause 21.4.3.1: 16 bits for a null PDU, else 29 to 92 */

enum tetra_mac_resource {
    TETRA_RESOURCE_FILL_BITS = 0,          /* flag: whether fill bits follow the content */
    TETRA_RESOURCE_POS_OF_GRANT = 1,       /* number of 1 bit: 0 grant on the current channel, 1 on the allocated one */
    TETRA_RESOURCE_ENCRYPTION_MODE = 2,    /* number of 2 bits; not 0 only with address type 2 (10) */
    TETRA_RESOURCE_RANDOM_ACCESS = 3,      /* flag: whether a random access is acknowledged */
    TETRA_RESOURCE_LENGTH = 4,             /* number of 6 bits, not written as 0 (8): octets; 62 second slot stolen, 63 start of fragments */
    TETRA_RESOURCE_ADDR_TYPE = 5,          /* code 0 to 7: 0 null PDU, 1 SSI, 2 event label, 3 USSI, 4 SMI, 5 SSI and event label, 6 SSI and usage
                                              marker, 7 SMI and event label. Of a null PDU the places 0 to 3 are 0 (9), and its elements, whose
                                              codes must be known, are not written */
    TETRA_RESOURCE_SSI_KIND = 6,           /* code 0 to 2, with address type 1, 5 or 6: 0 SSI of no known kind, 1 ISSI, 2 GSSI. On the air they are
                                              one: it is read as 0 */
    TETRA_RESOURCE_ADDRESS = 7,            /* number of 24 bits: the SSI, USSI or SMI; with address type 2, of 10 bits: the event label */
    TETRA_RESOURCE_ADDRESS_2 = 8,          /* number: with address type 5 or 7, of 10 bits, the event label; with 6, of 6 bits, the usage marker */
    TETRA_RESOURCE_POWER_PRESENT = 9,      /* flag: whether there is a power control element */
    TETRA_RESOURCE_POWER = 10,             /* number of 4 bits: power control */
    TETRA_RESOURCE_SLOTGRANT_PRESENT = 11, /* flag: whether there is a slot grant */
    TETRA_RESOURCE_SLOTGRANT = 12,         /* 12 to 14: the record of the slot grant */
    TETRA_RESOURCE_CHANNEL_PRESENT = 15,   /* flag: whether there is a channel allocation */
    TETRA_RESOURCE_CHANNEL = 16,           /* 16 to 24: the record of the channel allocation */
    TETRA_RESOURCE_WORDS = 25
};

/* A null PDU is read with 0 in the places 0 to 3, whatever stands there. Refused: 13, 1, 4, 5, 6. */
uint64_t tetra_mac_resource_read(const uint8_t *s, size_t len, size_t start, size_t pos, size_t end, uint64_t *out, size_t words);

/* Refused: 13, 8, 9, 10, then 3, 14, 11 and 6 by field, 2. */
uint64_t tetra_mac_resource_write(uint8_t *s, size_t len, size_t start, size_t pos, size_t end, const uint64_t *record, size_t count,
                                  uint64_t *out, size_t words);

/* The bits that a header is written as. out[0]: the bits. `words` is at least 1. Refused: 6. */
uint64_t tetra_mac_resource_compute_header_len(const uint64_t *record, size_t count, uint64_t *out, size_t words);

/* The length and the fill of a PDU of a header and sdu_len bits of content; its own places 0 and 4 do not matter. out[0]: its length in octets,
 * for place 4; out[1]: 1 if it has fill bits, for place 0; out[2]: the fill bits, 0 to 7, which are a 1 and zeros. `words` is at least 3.
 * Refused: 6, 8. */
uint64_t tetra_mac_resource_len_and_fill(const uint64_t *record, size_t count, size_t sdu_len, uint64_t *out, size_t words);

/* ---- ACCESS-ASSIGN, clause 21.4.7.2: 14 bits */

enum tetra_access_assign {
    TETRA_ASSIGN_HEADER = 0, /* code 0 to 3, which says what the two fields are:
                                0 common control down, common only up: two access fields
                                1 usage down, common and assigned up: downlink usage, access field
                                2 usage down, assigned only up: downlink usage, access field
                                3 usage down, usage up: downlink usage, uplink usage */
    TETRA_ASSIGN_ONE = 1,    /* 1 and 2: field one */
    TETRA_ASSIGN_TWO = 3,    /* 3 and 4: field two */
    TETRA_ASSIGN_WORDS = 5
};

/* A field's two words. */
enum tetra_access_field {
    TETRA_FIELD_ACCESS_CODE = 0, /* code 0 to 3: access code A to D */
    TETRA_FIELD_BASE_FRAME = 1   /* code 0 to 15: 0 reserved subslot, 1 CLCH subslot, 2 ongoing frame; 3 to 15 1, 2, 3, 4, 5, 6, 8, 10, 12, 16, 20,
                                    24, 32 subslots */
};
enum tetra_downlink_usage {
    TETRA_DOWNLINK_USAGE_KIND = 0,   /* code 0 to 4: 0 unallocated, 1 assigned control, 2 common control, 3 common and assigned, 4 traffic */
    TETRA_DOWNLINK_USAGE_TRAFFIC = 1 /* number 4 to 63, with kind 4: usage marker */
};
enum tetra_uplink_usage {
    TETRA_UPLINK_USAGE_KIND = 0,   /* code 0 to 4: 3 unallocated, 4 traffic; 0 common only, 1 common and assigned and 2 assigned only have no
                                      marker and are refused (7) */
    TETRA_UPLINK_USAGE_TRAFFIC = 1 /* number 4 to 63, with kind 4: usage marker */
};

/* Refused: 13, 1, 7. */
uint64_t tetra_access_assign_read(const uint8_t *s, size_t len, size_t start, size_t pos, size_t end, uint64_t *out, size_t words);

/* Refused: 13, 3, 7, 2. */
uint64_t tetra_access_assign_write(uint8_t *s, size_t len, size_t start, size_t pos, size_t end, const uint64_t *record, size_t count,
                                   uint64_t *out, size_t words);

/* ---- MAC-ACCESS, clause 21.4.2.1: 16 to 36 bits; MAC-DATA, clause 21.4.2.3: 23 or 37 bits */

enum tetra_uplink {
    TETRA_UPLINK_FILL_BITS = 0,   /* flag: whether fill bits follow the content */
    TETRA_UPLINK_ENCRYPTED = 1,   /* flag; set only with address type 1 (10) */
    TETRA_UPLINK_ADDR_TYPE = 2,   /* code 0 to 3: 0 SSI, 1 event label, 2 USSI, 3 SMI */
    TETRA_UPLINK_SSI_KIND = 3,    /* code 0 to 2, with address type 0: 0 SSI of no known kind, 1 ISSI, 2 GSSI. On the air they are one: it is read as
                                     1 */
    TETRA_UPLINK_ADDRESS = 4,     /* number of 24 bits: the SSI, USSI or SMI; with address type 1, of 10 bits: the event label */
    TETRA_UPLINK_OPTION = 5,      /* code 0 to 2: 0 none, which a MAC-DATA cannot have; 1 a length; 2 a capacity request */
    TETRA_UPLINK_FIRST = 6,       /* with option 1, number: the length, of 5 bits in a MAC-ACCESS, 6 in a MAC-DATA; with option 2, flag: fragment */
    TETRA_UPLINK_RESERVATION = 7, /* code 0 to 15, with option 2: 0 one subslot; 1 to 14 1, 2, 3, 4, 5, 6, 8, 10, 13, 17, 24, 34, 51, 68 slots; 15
                                     over 68 */
    TETRA_UPLINK_WORDS = 8
};

/* Refused: 13, 1, 4. */
uint64_t tetra_mac_access_read(const uint8_t *s, size_t len, size_t start, size_t pos, size_t end, uint64_t *out, size_t words);

/* Refused: 13, 10, 3, 2. */
uint64_t tetra_mac_access_write(uint8_t *s, size_t len, size_t start, size_t pos, size_t end, const uint64_t *record, size_t count,
                                uint64_t *out, size_t words);

/* The reserved bit behind a capacity request is read as either. Refused: 13, 1, 4. */
uint64_t tetra_mac_data_read(const uint8_t *s, size_t len, size_t start, size_t pos, size_t end, uint64_t *out, size_t words);

/* The reserved bit behind a capacity request is written 0. Refused: 13, 10, 3, 2. */
uint64_t tetra_mac_data_write(uint8_t *s, size_t len, size_t start, size_t pos, size_t end, const uint64_t *record, size_t count,
                              uint64_t *out, size_t words);

/* ---- downlink MAC block: MAC-RESOURCE PDUs one after the other from bit 0 on, each with its content and its fill; a null PDU is the last
 *
 * A walk is all steps from bit 0 on, each from the last one's place 3, until one gives kind 0 or a PDU without an end. A writer's run
 * begins at bit 0, and each of its calls is at the bit that the last one gave. */

enum tetra_block {
    TETRA_BLOCK_KIND = 0,          /* code 0 to 3: 0 end, fewer than 16 bits are left; 1 MAC-RESOURCE; 2 null PDU; 3 refused PDU */
    TETRA_BLOCK_BIT = 1,           /* the PDU's first bit */
    TETRA_BLOCK_END_PRESENT = 2,   /* flag: whether it has an end, at which the walk goes on: always with kind 1, never with 0 or 2 */
    TETRA_BLOCK_END = 3,           /* the bit after it, where it has an end */
    TETRA_BLOCK_CONTENT_START = 4, /* with kind 1: the content's first bit */
    TETRA_BLOCK_CONTENT_END = 5,   /* with kind 1: the bit after the content; fill bits follow up to the PDU's end */
    TETRA_BLOCK_REFUSAL = 6,       /* with kind 3, one of enum tetra_refusal: with an end 1, 5, 6 or 12; without one 4 or 8 */
    TETRA_BLOCK_REFUSAL_BIT = 7,   /* with kind 3: the refused field's first bit, counted from the PDU's; for 12 the header's end */
    TETRA_BLOCK_HEADER = 8,        /* 8 to 32, with kind 1: the record of the MAC-RESOURCE */
    TETRA_BLOCK_WORDS = 33
};

/* What stands at a bit of a block. A header is read from the bits of its PDU alone. out[0] to out[32]: the places above; what a kind does
 * not have is 0. `words` is at least 33. Refused: 13, also for a bit past the block's end. A PDU that is refused (kind 3) is no refused
 * call. */
uint64_t tetra_block_step(const uint8_t *block, size_t len, size_t bits, size_t bit, uint64_t *out, size_t words);

/* Writes a PDU at a bit: a MAC-RESOURCE of the record, content_bits bits of content, and fill, a 1 and zeros, up to its end. The call sets
 * the fill flag, where there is fill, and the length: the record's places 0 and 4 do not matter. `length` is a code: 0 counted, so that
 * the PDU has whole octets, but no bit past the block's end; 62 second slot stolen or 63 start of fragments, with which it takes the rest
 * of the block; any other is malformed. out[0]: the bit after the PDU. `words` is at least 1. No other bit of the block changes. Refused:
 * 13, also for a bit that is neither on an octet nor the block's end, and for content of more bits than its bytes have; 8; 9 for a null
 * PDU; 10; then 3, 14, 11 and 6 by field; 2. */
uint64_t tetra_block_add(uint8_t *block, size_t len, size_t bits, size_t bit, const uint64_t *record, size_t count, uint64_t length,
                         const uint8_t *content, size_t content_len, size_t content_bits, uint64_t *out, size_t words);

/* Closes a block at a bit: a null PDU if 16 bits are left, then, if any are left, a 1 and zeros to the block's end. out[0]: the block's
 * end, at which nothing can be added (2). `words` is at least 1. Refused: 13, also for a bit that is neither on an octet nor the block's
 * end. */
uint64_t tetra_block_finish(uint8_t *block, size_t len, size_t bits, size_t bit, uint64_t *out, size_t words);

#ifdef __cplusplus
}
#endif
#endif
