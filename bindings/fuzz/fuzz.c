/* Calls every function of the C interface with anything: slices of length 0 at NULL and elsewhere, records and answers of any length, any
 * number in any place, windows and blocks anywhere. Each answer is held to tetra_mac.h. Slices stand against a page that may not be
 * touched, or in a heap block of their own, so that a byte read or written outside of them is seen.
 *
 *   fuzz SECONDS [SEED]
 */
#define _GNU_SOURCE
#include "tetra_mac.h"
#include <signal.h>
#include <stdbool.h>
#include <stdio.h>
#include <stdlib.h>
#include <string.h>
#include <sys/mman.h>
#include <time.h>

/* ---- random numbers: SplitMix64 */

static uint64_t state, seed;

static uint64_t next(void) {
    uint64_t z = (state += 0x9e3779b97f4a7c15u);
    z = (z ^ (z >> 30)) * 0xbf58476d1ce4e5b9u;
    z = (z ^ (z >> 27)) * 0x94d049bb133111ebu;
    return z ^ (z >> 31);
}
static uint64_t below(uint64_t n) { return next() % n; }
static bool once_in(uint64_t n) { return below(n) == 0; }

/* Any number, with the places where types and fields end more often than others. */
static uint64_t anything(void) {
    switch (below(5)) {
    case 0: return below(20);
    case 1: return ((uint64_t)1 << below(64)) + below(3) - 1;
    case 2: return UINT64_MAX - below(3);
    case 3: return next() >> below(64);
    default: return next();
    }
}

/* ---- slices */

enum { PAGE = 4096, ROOM = 4 * PAGE, MARGIN = 64, MARK = 0xc5 };

struct slice {
    uint8_t *at, *was;     /* its bytes, and what they were */
    size_t bytes;
    uint8_t *room;         /* between two pages that may not be touched */
    void *block;           /* or a heap block of exactly its bytes */
};

static void make_room(struct slice *v) {
    uint8_t *p = mmap(NULL, ROOM + 2 * PAGE, PROT_NONE, MAP_PRIVATE | MAP_ANONYMOUS, -1, 0);
    if (p == MAP_FAILED || mprotect(p + PAGE, ROOM, PROT_READ | PROT_WRITE)) exit(2);
    v->room = p + PAGE;
    memset(v->room, MARK, ROOM);
    v->was = malloc(ROOM);
}

/* A slice of so many bytes at one end of its room or in a block; one of none at NULL, at 8 or where nothing may be touched. */
static void lend(struct slice *v, size_t bytes) {
    v->bytes = bytes;
    v->block = NULL;
    uint64_t where = below(bytes ? 5 : 4);
    if (bytes == 0) {
        uint8_t *nowhere[] = {NULL, (uint8_t *)8, v->room - PAGE, v->room + ROOM};
        v->at = nowhere[where];
    } else if (where < 2) {
        v->at = v->room + ROOM - bytes;
    } else if (where < 4) {
        v->at = v->room;
    } else {
        v->at = v->block = malloc(bytes);
    }
}

static void remember(struct slice *v) {
    if (v->bytes) memcpy(v->was, v->at, v->bytes);
}

static bool marked(const uint8_t *from, const uint8_t *to) {
    for (; from < to; from++)
        if (*from != MARK) return false;
    return true;
}

/* Whether the bytes around a slice are as they were. */
static bool around(const struct slice *v) {
    if (v->bytes == 0 || v->block) return true;
    const uint8_t *end = v->at + v->bytes, *last = v->room + ROOM;
    const uint8_t *low = v->at - v->room > MARGIN ? v->at - MARGIN : v->room;
    const uint8_t *high = last - end > MARGIN ? end + MARGIN : last;
    return marked(low, v->at) && marked(end, high);
}

static void take_back(struct slice *v) {
    if (v->block) free(v->block);
    else if (v->bytes) memset(v->at, MARK, v->bytes);
}

static bool same(const struct slice *v, size_t from, size_t to) { return from >= to || memcmp(v->at + from, v->was + from, to - from) == 0; }

/* ---- what the header says of each type */

typedef uint64_t read_call(const uint8_t *, size_t, size_t, size_t, size_t, uint64_t *, size_t);
typedef uint64_t write_call(uint8_t *, size_t, size_t, size_t, size_t, const uint64_t *, size_t, uint64_t *, size_t);
typedef uint64_t length_call(const uint64_t *, size_t, uint64_t *, size_t);

#define N(n) (1u << (n))

static bool known_grant(const uint64_t *r) { return r[0] < 16 && r[1] < 4; }
static bool known_channel(const uint64_t *r) { return r[0] < 4 && r[1] < 16 && r[2] < 4; }
static bool known_resource(const uint64_t *r) {
    bool ssi = r[5] == 1 || r[5] == 5 || r[5] == 6;
    return r[5] < 8 && (!ssi || r[6] < 3) && (r[11] == 0 || known_grant(r + 12)) && (r[15] == 0 || known_channel(r + 16));
}
static bool known_field(const uint64_t *r) { return r[0] < 4 && r[1] < 16; }
static bool known_assign(const uint64_t *r) {
    return r[0] < 4 && (r[0] == 0 ? known_field(r + 1) : r[1] < 5) && (r[0] == 3 ? r[3] < 5 : known_field(r + 3));
}
static bool known_access(const uint64_t *r) {
    return r[2] < 4 && (r[2] != 0 || r[3] < 3) && (r[5] < 2 || (r[5] == 2 && r[7] < 16));
}
static bool known_data(const uint64_t *r) { return known_access(r) && r[5] != 0; }

#define GRANT 16, 4, 14
#define CHANNEL 4, 16, 4, 2, 2, 4096, 4, 2, 4
#define UPLINK 2, 2, 4, 3, 1 << 24, 3, 32, 16

static const struct type {
    const char *name;
    size_t words, most_bits;
    read_call *read;
    write_call *write;
    unsigned reads, writes; /* the refusals of each */
    bool (*known)(const uint64_t *);
    uint64_t limits[25];
} types[] = {
    {"slotgrant", 3, 8, tetra_slotgrant_read, tetra_slotgrant_write, N(1) | N(13), N(2) | N(13) | N(14), known_grant, {GRANT}},
    {"channel_allocation", 9, 27, tetra_channel_allocation_read, tetra_channel_allocation_write, N(1) | N(5) | N(6) | N(13),
     N(2) | N(3) | N(6) | N(11) | N(13), known_channel, {CHANNEL}},
    {"mac_resource", 25, 92, tetra_mac_resource_read, tetra_mac_resource_write, N(1) | N(4) | N(5) | N(6) | N(13),
     N(2) | N(3) | N(6) | N(8) | N(9) | N(10) | N(11) | N(13) | N(14), known_resource,
     {2, 2, 1, 2, 64, 8, 3, 1024, 64, 2, 16, 2, GRANT, 2, CHANNEL}},
    {"access_assign", 5, 14, tetra_access_assign_read, tetra_access_assign_write, N(1) | N(7) | N(13), N(2) | N(3) | N(7) | N(13), known_assign,
     {4, 5, 64, 5, 64}},
    {"mac_access", 8, 36, tetra_mac_access_read, tetra_mac_access_write, N(1) | N(4) | N(13), N(2) | N(3) | N(10) | N(13), known_access, {UPLINK}},
    {"mac_data", 8, 37, tetra_mac_data_read, tetra_mac_data_write, N(1) | N(4) | N(13), N(2) | N(3) | N(10) | N(13), known_data, {UPLINK}},
};
enum { TYPES = sizeof types / sizeof types[0] };

/* ---- one call, its inputs and what came of it */

enum op { READ_BITS, PEEK_BITS, WRITE_BITS, READ, WRITE, CHANNEL_LEN, HEADER_LEN, UPDATE_LEN, STEP, ADD, FINISH, OPS };

/* Of a block, `pos` is the call's bit and `end` the block's bits; of an add, `sdu_len` is the bits of content and `value` the length. */
static struct slice bytes, record, content, out;
static struct {
    enum op op;
    const struct type *type;
    size_t start, pos, end, num_bits, sdu_len;
    ptrdiff_t offset;
    uint64_t value, status;
} in;

static bool on_block(void) { return in.op >= STEP; }
static bool with_record(void) { return in.op >= WRITE && in.op != STEP && in.op != FINISH; }
static bool writes(void) { return in.op == WRITE || in.op == WRITE_BITS || in.op == ADD || in.op == FINISH; }

static uint64_t calls, done[OPS][TYPES], malformed[OPS][TYPES], refused[OPS][TYPES][15];

static const char *name(enum op op, const struct type *type) {
    static const char *const names[] = {"tetra_read_bits", "tetra_peek_bits_posoffset", "tetra_write_bits", "", "", "tetra_channel_allocation_len",
                                        "tetra_mac_resource_compute_header_len", "tetra_mac_resource_len_and_fill", "tetra_block_step",
                                        "tetra_block_add", "tetra_block_finish"};
    static char text[64];
    if (op != READ && op != WRITE) return names[op];
    snprintf(text, sizeof text, "tetra_%s_%s", type->name, op == READ ? "read" : "write");
    return text;
}

static void wrong(const char *what) {
    printf("WRONG: %s\nseed %llu, call %llu: %s, status %llu\n", what, (unsigned long long)seed, (unsigned long long)calls, name(in.op, in.type),
           (unsigned long long)in.status);
    printf("%zu bytes at %p, window %zu %zu %zu, offset %td, bits %zu, value %llu, content %zu of %zu bytes\n", bytes.bytes,
           (void *)bytes.at, in.start, in.pos, in.end, in.offset, in.num_bits, (unsigned long long)in.value, in.sdu_len, content.bytes);
    for (size_t i = 0; i < bytes.bytes && i < 64; i++) printf("%02x ", bytes.was[i]);
    printf("\n");
    printf("record of %zu words:", record.bytes / 8);
    for (size_t i = 0; i < record.bytes / 8; i++) printf(" %llu", (unsigned long long)((uint64_t *)record.at)[i]);
    printf("\nanswer of %zu words:", out.bytes / 8);
    for (size_t i = 0; i < out.bytes / 8; i++) printf(" %llu", (unsigned long long)((uint64_t *)out.at)[i]);
    printf("\n");
    exit(1);
}

static void touched(int number) {
    (void)number;
    wrong("a byte outside of the slices was touched");
}

static void hold(bool right, const char *what) {
    if (!right) wrong(what);
}

/* ---- inputs */

static void fill_record(const struct type *t, size_t words) {
    uint64_t *r = (uint64_t *)record.at;
    for (size_t i = 0; i < words; i++) r[i] = i < t->words && !once_in(40) ? below(t->limits[i]) : anything();
    if (words < t->words || once_in(4)) return;
    if (t->words == 5) { /* fields that suit the header */
        r[0] = below(4);
        if (r[0] == 0) r[1] = below(4), r[2] = below(16);
        if (r[0] != 3) r[3] = below(4), r[4] = below(16);
    }
    if (t->words == 8 && r[2] == 1) r[4] = below(1024);
    if (t->words == 8 && r[2] != 1) r[1] = 0;
    if (t->words == 25 && r[5] == 0) r[0] = r[1] = r[2] = r[3] = 0;
}

static void choose_window(void) {
    size_t bits = 8 * bytes.bytes;
    in.start = below(bits + 1);
    in.pos = in.start + below(bits - in.start + 1);
    in.end = once_in(2) ? bits : in.pos + below(bits - in.pos + 1);
    if (once_in(2)) in.start = 0;
    if (once_in(3) && in.pos > 128) in.pos = in.start;
    if (!once_in(8)) return;
    size_t *which[] = {&in.start, &in.pos, &in.end};
    *which[below(3)] = once_in(2) ? anything() : bits + below(3);
}

/* A block and a bit of it, on an octet more often than not. */
static void choose_block(void) {
    size_t most = 8 * bytes.bytes < 488 ? 8 * bytes.bytes : 488;
    in.start = 0;
    in.end = once_in(3) ? below(most + 1) : most - (most ? below(8) % most : 0);
    in.pos = once_in(3) ? 0 : below(in.end + 1);
    if (!once_in(4)) in.pos &= ~(size_t)7;
    if (once_in(8)) in.pos = in.end;
    if (!once_in(8)) return;
    size_t *which[] = {&in.pos, &in.end};
    *which[below(2)] = once_in(2) ? anything() : in.end + below(12);
}

static size_t some_length(size_t usual) {
    switch (below(8)) {
    case 0: return below(usual);
    case 1: return 0;
    case 2: return usual + 1 + below(30);
    default: return usual;
    }
}

static size_t some_bytes(void) {
    switch (below(64)) {
    case 0: return 8190 + below(6);
    case 1: return 0;
    default: return on_block() ? below(70) : below(40);
    }
}

/* ---- one call */

static size_t needed(void) {
    switch (in.op) {
    case READ_BITS:
    case PEEK_BITS: return 2;
    case READ: return 1 + in.type->words;
    case UPDATE_LEN: return 3;
    case STEP: return TETRA_BLOCK_WORDS;
    default: return 1;
    }
}

static unsigned refusals(void) {
    switch (in.op) {
    case READ_BITS:
    case PEEK_BITS: return N(1) | N(13);
    case WRITE_BITS: return N(2) | N(3) | N(13);
    case READ: return in.type->reads;
    case WRITE: return in.type->writes;
    case UPDATE_LEN: return N(6) | N(8);
    case ADD: return N(2) | N(3) | N(6) | N(8) | N(9) | N(10) | N(11) | N(13) | N(14);
    case STEP:
    case FINISH: return N(13);
    default: return N(6);
    }
}

static uint64_t call(void) {
    uint64_t *o = (uint64_t *)out.at;
    const uint64_t *r = (uint64_t *)record.at;
    size_t words = out.bytes / 8, count = record.bytes / 8;
    switch (in.op) {
    case READ_BITS: return tetra_read_bits(bytes.at, bytes.bytes, in.start, in.pos, in.end, in.num_bits, o, words);
    case PEEK_BITS: return tetra_peek_bits_posoffset(bytes.at, bytes.bytes, in.start, in.pos, in.end, in.offset, in.num_bits, o, words);
    case WRITE_BITS: return tetra_write_bits(bytes.at, bytes.bytes, in.start, in.pos, in.end, in.value, in.num_bits, o, words);
    case READ: return in.type->read(bytes.at, bytes.bytes, in.start, in.pos, in.end, o, words);
    case WRITE: return in.type->write(bytes.at, bytes.bytes, in.start, in.pos, in.end, r, count, o, words);
    case CHANNEL_LEN: return tetra_channel_allocation_len(r, count, o, words);
    case HEADER_LEN: return tetra_mac_resource_compute_header_len(r, count, o, words);
    case UPDATE_LEN: return tetra_mac_resource_len_and_fill(r, count, in.sdu_len, o, words);
    case STEP: return tetra_block_step(bytes.at, bytes.bytes, in.end, in.pos, o, words);
    case ADD:
        return tetra_block_add(bytes.at, bytes.bytes, in.end, in.pos, r, count, in.value, content.at, content.bytes, in.sdu_len, o, words);
    default: return tetra_block_finish(bytes.at, bytes.bytes, in.end, in.pos, o, words);
    }
}

static bool bit_same(size_t i) { return ((bytes.at[i / 8] ^ bytes.was[i / 8]) >> (7 - i % 8) & 1) == 0; }

/* ---- what the header says of each answer */

static bool must_be_malformed(void) {
    if (out.bytes / 8 < needed()) return true;
    if (in.op == ADD && in.value != 0 && in.value != 62 && in.value != 63) return true;
    return with_record() && (record.bytes / 8 < in.type->words || !in.type->known((uint64_t *)record.at));
}

static bool must_be_13(void) {
    bool to_write = in.op == ADD || in.op == FINISH;
    if (!on_block())
        return in.op <= WRITE && !(in.start <= in.pos && in.pos <= in.end && in.end <= 65536 && in.end <= 8 * bytes.bytes);
    if (in.end > 488 || in.end > 8 * bytes.bytes || in.pos > in.end) return true;
    if (to_write && in.pos % 8 != 0 && in.pos != in.end) return true;
    return in.op == ADD && in.sdu_len > 8 * content.bytes;
}

static void check_step(const uint64_t *o) {
    uint64_t kind = o[TETRA_BLOCK_KIND], end = o[TETRA_BLOCK_END], from = o[TETRA_BLOCK_CONTENT_START], to = o[TETRA_BLOCK_CONTENT_END];
    uint64_t number = o[TETRA_BLOCK_REFUSAL], has_end = o[TETRA_BLOCK_END_PRESENT], any = 0;
    const uint64_t *header = o + TETRA_BLOCK_HEADER;
    const unsigned numbers = N(1) | N(4) | N(5) | N(6) | N(8) | N(12);
    for (int i = 0; i < TETRA_RESOURCE_WORDS; i++) any |= header[i];
    hold(kind < 4 && (kind == 0) == (in.end - in.pos < 16), "a known kind, 0 where fewer than 16 bits are left");
    hold(o[TETRA_BLOCK_BIT] == (kind ? in.pos : 0), "the PDU's bit");
    hold(has_end == (kind == 1 || (kind == 3 && number != 4 && number != 8)), "an end, where there is one");
    hold(has_end ? in.pos + 16 <= end && end <= in.end : end == 0, "the end inside the block");
    hold(kind == 1 ? in.pos + 29 <= from && from <= in.pos + 92 && from <= to && to <= end : from == 0 && to == 0, "the content");
    hold(kind == 3 ? number < 15 && numbers >> number & 1 : number == 0, "a PDU's refusal that the header lists");
    hold(o[TETRA_BLOCK_REFUSAL_BIT] <= (kind == 3 ? 92 : 0), "the refused field's bit");
    hold(kind == 1 ? known_resource(header) && header[TETRA_RESOURCE_ADDR_TYPE] != 0 : any == 0, "a header, or none");
    hold(kind != 1 || header[TETRA_RESOURCE_FILL_BITS] == (to < end), "fill exactly where its flag is set");
}

/* What was added is read: header, content bit for bit, and the end. */
static void check_add(size_t to) {
    uint64_t again[TETRA_BLOCK_WORDS], one, other;
    bool whole = in.value == 0 && to % 8 == 0;
    hold(in.pos + 29 <= to && to <= in.end && (in.value == 0 || to == in.end) && (whole || to == in.end), "the bit after the PDU");
    hold(tetra_block_step(bytes.at, bytes.bytes, in.end, in.pos, again, TETRA_BLOCK_WORDS) == 0, "what was added is read");
    hold(again[TETRA_BLOCK_KIND] == 1 && again[TETRA_BLOCK_END] == to, "what was added has its end");
    size_t from = again[TETRA_BLOCK_CONTENT_START];
    hold(again[TETRA_BLOCK_CONTENT_END] == from + in.sdu_len, "what was added has its content's bits");
    for (size_t i = 0; i < in.sdu_len; i++) {
        one = bytes.at[(from + i) / 8] >> (7 - (from + i) % 8) & 1;
        other = content.at[i / 8] >> (7 - i % 8) & 1;
        hold(one == other, "the content");
    }
}

static void check_finish(size_t to) {
    uint64_t again[TETRA_BLOCK_WORDS];
    hold(to == in.end, "a finish goes to the block's end");
    hold(tetra_block_step(bytes.at, bytes.bytes, in.end, in.pos, again, TETRA_BLOCK_WORDS) == 0, "what was finished is read");
    hold(again[TETRA_BLOCK_KIND] == (in.end - in.pos < 16 ? 0 : 2), "a null PDU, where there is room for it");
}

static void check_done(const uint64_t *o) {
    size_t cursor = o[0];
    if (in.op == READ_BITS || in.op == WRITE_BITS) hold(cursor == in.pos + in.num_bits && cursor <= in.end, "the cursor behind the bits");
    if (in.op == READ_BITS || in.op == PEEK_BITS) hold(in.num_bits == 64 || o[1] >> in.num_bits == 0, "no more bits than asked for");
    if (in.op == PEEK_BITS) hold(cursor == in.pos, "a peek leaves the cursor");
    if (in.op == READ || in.op == WRITE)
        hold(in.pos < cursor && cursor <= in.end && cursor - in.pos <= in.type->most_bits, "the cursor behind the header");
    if (in.op == READ) hold(in.type->known(o + 1), "known codes");
    if (in.op == CHANNEL_LEN) hold(o[0] == 25 || o[0] == 27, "25 or 27 bits");
    if (in.op == HEADER_LEN) hold(o[0] == 16 || (29 <= o[0] && o[0] <= 92), "16 or 29 to 92 bits");
    if (in.op == UPDATE_LEN) hold(2 <= o[0] && o[0] <= 61 && o[1] == (o[2] != 0) && o[2] < 8, "octets and fill");
    if (in.op == STEP) check_step(o);
}

/* Returns the bytes of out that a refused call sets: those of the cursor or bit that it was given. */
static size_t check_refused(const uint64_t *o) {
    unsigned number = tetra_number(in.status);
    uint64_t bit = tetra_bit(in.status);
    hold(number < 15 && (refusals() >> number & 1), "a refusal that the header lists");
    bool in_header = in.op == READ && number != TETRA_BAD_WINDOW;
    hold(in_header ? bit < in.type->most_bits && in.pos + bit <= in.end : bit == 0, "the refused field's bit");
    refused[in.op][in.type - types][number]++;
    if (in.op > WRITE && in.op < ADD) return 0;
    hold(o[0] == in.pos, "a refused call gives the cursor or bit that it was given");
    return 8;
}

/* The bits that a write left alone, and that what was written is read. */
static void check_written(size_t to) {
    hold(same(&bytes, 0, in.pos / 8) && same(&bytes, (to + 7) / 8, bytes.bytes), "the bytes that were not written");
    for (size_t i = in.pos / 8 * 8; i < in.pos; i++) hold(bit_same(i), "the bits before those written");
    for (size_t i = to; i < (to + 7) / 8 * 8; i++) hold(bit_same(i), "the bits behind those written");
    uint64_t again[26];
    if (in.op == WRITE)
        hold(in.type->read(bytes.at, bytes.bytes, in.start, in.pos, in.end, again, 26) == 0 && again[0] == to, "what was written is read");
    if (in.op == ADD) check_add(to);
    if (in.op == FINISH) check_finish(to);
}

static void check(void) {
    const uint64_t *o = (uint64_t *)out.at;
    size_t left_from = 0;
    bool is_malformed = must_be_malformed();
    hold((in.status == TETRA_MALFORMED) == is_malformed, "malformed exactly where out or the record is short or a code is unknown");
    hold(is_malformed || (tetra_number(in.status) == TETRA_BAD_WINDOW) == must_be_13(), "13 exactly for a bad window or block");
    if (in.status == 0) {
        done[in.op][in.type - types]++;
        left_from = 8 * needed();
        check_done(o);
    } else if (is_malformed) {
        malformed[in.op][in.type - types]++;
    } else {
        left_from = check_refused(o);
    }
    hold(same(&out, left_from, out.bytes), "the other words of out");
    hold(same(&record, 0, record.bytes), "the record");
    hold(same(&content, 0, content.bytes), "the content");
    hold(around(&bytes) && around(&record) && around(&content) && around(&out), "the bytes around the slices");
    if (in.status == 0 && writes()) check_written(o[0]);
    else hold(same(&bytes, 0, bytes.bytes), "the bytes");
}

/* ---- a call */

static void choose_numbers(void) {
    in.num_bits = once_in(10) ? anything() : below(66);
    in.value = once_in(4) || in.num_bits > 63 ? anything() : next() & (((uint64_t)1 << in.num_bits) - 1);
    in.offset = once_in(4) ? (ptrdiff_t)anything() : (ptrdiff_t)below(400) - 200;
    in.sdu_len = once_in(6) ? anything() : below(520);
    if (in.op != ADD) return;
    static const uint64_t codes[] = {0, 0, 62, 63};
    in.value = once_in(12) ? anything() : codes[below(4)];
    in.sdu_len = once_in(12) ? anything() : below(8 * content.bytes + (once_in(8) ? 10 : 1));
}

/* Something to read, often: a header of the type, or PDUs from the bit of a step on, damaged now and then. */
static void make_readable(void) {
    uint64_t cursor = in.pos, length = once_in(6) ? 62 + below(2) : 0;
    const uint64_t *r = (uint64_t *)record.at;
    size_t count = record.bytes / 8, some = below(100);
    if (in.op == READ) in.type->write(bytes.at, bytes.bytes, in.start, in.pos, in.end, r, count, &cursor, 1);
    if (in.op == STEP)
        tetra_block_add(bytes.at, bytes.bytes, in.end, in.pos, r, count, length, content.at, content.bytes, some, &cursor, 1);
    if (in.op == STEP && once_in(4)) tetra_block_finish(bytes.at, bytes.bytes, in.end, cursor, &cursor, 1);
    if (bytes.bytes && once_in(3)) bytes.at[below(bytes.bytes)] ^= 1u << below(8);
}

static void random_bytes(struct slice *v) {
    uint64_t filled = below(6);
    for (size_t i = 0; i < v->bytes; i++) v->at[i] = filled == 0 ? 0 : filled == 1 ? 255 : (uint8_t)next();
}

static void one(void) {
    struct slice *all[] = {&bytes, &record, &content, &out};
    calls++;
    in.op = (enum op)below(OPS + 6);
    if (in.op >= OPS) in.op = in.op % 2 ? READ : WRITE;
    bool any_type = in.op == READ || in.op == WRITE;
    in.type = &types[any_type ? below(TYPES) : in.op < READ ? 0 : in.op == CHANNEL_LEN ? 1 : 2];
    lend(&bytes, some_bytes());
    lend(&record, 8 * some_length(in.type->words));
    lend(&content, once_in(8) ? 0 : below(70));
    lend(&out, 8 * some_length(needed()));
    random_bytes(&bytes);
    random_bytes(&content);
    for (size_t i = 0; i < out.bytes; i++) out.at[i] = (uint8_t)next();
    fill_record(in.type, record.bytes / 8);
    on_block() ? choose_block() : choose_window();
    if ((in.op == READ || in.op == STEP) && once_in(2)) make_readable();
    choose_numbers();
    for (int i = 0; i < 4; i++) remember(all[i]);
    in.status = call();
    check();
    for (int i = 0; i < 4; i++) take_back(all[i]);
}

/* ---- the run */

static void row(enum op op, const struct type *type) {
    size_t t = type - types;
    uint64_t all = 0;
    for (int n = 1; n < 15; n++) all += refused[op][t][n];
    printf("%-32s %10llu %10llu %10llu  ", name(op, type), (unsigned long long)done[op][t], (unsigned long long)all,
           (unsigned long long)malformed[op][t]);
    for (int n = 1; n < 15; n++)
        if (refused[op][t][n]) printf(" %d:%llu", n, (unsigned long long)refused[op][t][n]);
    printf("\n");
}

int main(int argc, char **argv) {
    double seconds = argc > 1 ? atof(argv[1]) : 10;
    state = seed = argc > 2 ? strtoull(argv[2], NULL, 0) : 1;
    make_room(&bytes);
    make_room(&record);
    make_room(&content);
    make_room(&out);
    signal(SIGSEGV, touched);
    signal(SIGBUS, touched);
    struct timespec began, now;
    clock_gettime(CLOCK_MONOTONIC, &began);
    do {
        for (int i = 0; i < 500; i++) one();
        clock_gettime(CLOCK_MONOTONIC, &now);
    } while ((double)(now.tv_sec - began.tv_sec) + (double)(now.tv_nsec - began.tv_nsec) / 1e9 < seconds);

    printf("%-32s %10s %10s %10s   %s\n", "", "done", "refused", "malformed", "refused by number");
    for (int op = READ_BITS; op <= WRITE_BITS; op++) row((enum op)op, &types[0]);
    for (size_t t = 0; t < TYPES; t++) {
        row(READ, &types[t]);
        row(WRITE, &types[t]);
    }
    row(CHANNEL_LEN, &types[1]);
    row(HEADER_LEN, &types[2]);
    for (int op = UPDATE_LEN; op < OPS; op++) row((enum op)op, &types[2]);
    printf("%llu calls, seed %llu: every answer as tetra_mac.h says\n", (unsigned long long)calls, (unsigned long long)seed);
    return 0;
}
