/* A MAC-RESOURCE to SSI 1 without content: counted, written with its fill, printed, read back, and read from too few bits; then added to a
 * block of 124 bits, which is finished and walked. */
#include "tetra_mac.h"
#include <stdio.h>

static int in_a_block(const uint64_t *header) {
    uint8_t block[16] = {0};
    uint64_t out[1], entry[TETRA_BLOCK_WORDS];
    size_t bit = 0;

    if (tetra_block_add(block, 16, 124, bit, header, TETRA_RESOURCE_WORDS, 0, NULL, 0, 0, out, 1) != TETRA_DONE) return 1;
    if (tetra_block_finish(block, 16, 124, out[0], out, 1) != TETRA_DONE) return 1;
    do {
        if (tetra_block_step(block, 16, 124, bit, entry, TETRA_BLOCK_WORDS) != TETRA_DONE) return 1;
        const uint64_t *h = entry + TETRA_BLOCK_HEADER;
        printf("bit %d: kind %d, address %d\n", (int)bit, (int)entry[TETRA_BLOCK_KIND], (int)h[TETRA_RESOURCE_ADDRESS]);
        bit = entry[TETRA_BLOCK_END];
    } while (entry[TETRA_BLOCK_END_PRESENT]);
    return 0;
}

int main(void) {
    uint8_t pdu[6] = {0};
    uint64_t header[TETRA_RESOURCE_WORDS] = {[TETRA_RESOURCE_ADDR_TYPE] = 1, [TETRA_RESOURCE_ADDRESS] = 1};
    uint64_t out[1 + TETRA_RESOURCE_WORDS];

    if (tetra_mac_resource_len_and_fill(header, TETRA_RESOURCE_WORDS, 0, out, 3) != TETRA_DONE) return 1;
    header[TETRA_RESOURCE_LENGTH] = out[0];
    header[TETRA_RESOURCE_FILL_BITS] = out[1];
    size_t fill = out[2];
    if (tetra_mac_resource_write(pdu, 6, 0, 0, 48, header, TETRA_RESOURCE_WORDS, out, 1) != TETRA_DONE) return 1;
    if (fill > 0 && tetra_write_bits(pdu, 6, 0, out[0], 48, 1u << (fill - 1), fill, out, 1) != TETRA_DONE) return 1;
    for (int i = 0; i < 6; i++) printf("%02x%c", pdu[i], i < 5 ? ' ' : '\n');

    if (tetra_mac_resource_read(pdu, 6, 0, 0, 48, out, 1 + TETRA_RESOURCE_WORDS) != TETRA_DONE) return 1;
    const uint64_t *h = out + 1;
    printf("%d header bits, %d octets, address type %d, number %d\n", (int)out[0], (int)h[TETRA_RESOURCE_LENGTH],
           (int)h[TETRA_RESOURCE_ADDR_TYPE], (int)h[TETRA_RESOURCE_ADDRESS]);

    uint64_t status = tetra_mac_resource_read(pdu, 6, 0, 0, 30, out, 1 + TETRA_RESOURCE_WORDS);
    printf("of 30 bits: refused %u at bit %d, cursor %d\n", tetra_number(status), (int)tetra_bit(status), (int)out[0]);
    return in_a_block(header);
}
