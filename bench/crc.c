/* CRC-32C for comparison: by tables of eight and of sixteen bytes a step, and by the
 * processor's own instruction. */
#include "bench.h"

#include <nmmintrin.h>
#include <string.h>

static uint32_t table[16][256];

void crc_tables(void)
{
    for (uint32_t byte = 0; byte < 256; byte++) {
        uint32_t state = byte;
        for (int bit = 0; bit < 8; bit++)
            state = state & 1 ? state >> 1 ^ 0x82F63B78u : state >> 1;
        table[0][byte] = state;
    }
    for (int zeros = 1; zeros < 16; zeros++)
        for (uint32_t byte = 0; byte < 256; byte++) {
            uint32_t state = table[zeros - 1][byte];
            table[zeros][byte] = state >> 8 ^ table[0][state & 0xFF];
        }
}

uint32_t crc_eight(const uint8_t *bytes, size_t len)
{
    uint32_t state = 0xFFFFFFFFu;
    for (; len >= 8; bytes += 8, len -= 8) {
        uint64_t chunk;
        memcpy(&chunk, bytes, 8);
        chunk ^= state;
        state = table[7][chunk & 0xFF] ^ table[6][chunk >> 8 & 0xFF]
            ^ table[5][chunk >> 16 & 0xFF] ^ table[4][chunk >> 24 & 0xFF]
            ^ table[3][chunk >> 32 & 0xFF] ^ table[2][chunk >> 40 & 0xFF]
            ^ table[1][chunk >> 48 & 0xFF] ^ table[0][chunk >> 56];
    }
    for (; len > 0; bytes++, len--)
        state = state >> 8 ^ table[0][(state ^ *bytes) & 0xFF];
    return state ^ 0xFFFFFFFFu;
}

uint32_t crc_sixteen(const uint8_t *bytes, size_t len)
{
    uint32_t state = 0xFFFFFFFFu;
    for (; len >= 16; bytes += 16, len -= 16) {
        uint64_t low, high;
        memcpy(&low, bytes, 8);
        memcpy(&high, bytes + 8, 8);
        low ^= state;
        state = table[7][high & 0xFF] ^ table[6][high >> 8 & 0xFF] ^ table[5][high >> 16 & 0xFF]
            ^ table[4][high >> 24 & 0xFF] ^ table[3][high >> 32 & 0xFF]
            ^ table[2][high >> 40 & 0xFF] ^ table[1][high >> 48 & 0xFF] ^ table[0][high >> 56]
            ^ table[15][low & 0xFF] ^ table[14][low >> 8 & 0xFF] ^ table[13][low >> 16 & 0xFF]
            ^ table[12][low >> 24 & 0xFF] ^ table[11][low >> 32 & 0xFF]
            ^ table[10][low >> 40 & 0xFF] ^ table[9][low >> 48 & 0xFF] ^ table[8][low >> 56];
    }
    for (; len > 0; bytes++, len--)
        state = state >> 8 ^ table[0][(state ^ *bytes) & 0xFF];
    return state ^ 0xFFFFFFFFu;
}

__attribute__((target("sse4.2"))) uint32_t crc_instruction(const uint8_t *bytes, size_t len)
{
    uint64_t state = 0xFFFFFFFFu;
    for (; len >= 8; bytes += 8, len -= 8) {
        uint64_t chunk;
        memcpy(&chunk, bytes, 8);
        state = _mm_crc32_u64(state, chunk);
    }
    uint32_t rest = (uint32_t)state;
    for (; len > 0; bytes++, len--)
        rest = _mm_crc32_u8(rest, *bytes);
    return rest ^ 0xFFFFFFFFu;
}
