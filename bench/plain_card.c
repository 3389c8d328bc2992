/* Cards in plain C, wide and narrow: coefficients go through a word that holds the bits of a byte not yet complete. The tests are those of our reader
 * and writer. */
#include "peers.h"
#include <string.h>

static const inputs *in;
static int refused;
static uint32_t p, n, kind, words[CARD_WORDS];
static uint8_t bytes[LARGEST_CARD];

static void prepare(const inputs *given) { in = given; }

static int is_prime(uint32_t m) {
    if (m % 2 == 0)
        return m == 2;
    for (uint32_t d = 3; d * d <= m; d += 2)
        if (m % d == 0)
            return 0;
    return m > 1;
}

static uint32_t width_of(uint32_t m) { return m < 2 ? 0 : 32 - (uint32_t)__builtin_clz(m - 1); }

static size_t header_of(int wide) { return wide ? 6 : 3; }

static int parse(const uint8_t *card, size_t length) {
    if (length < 3)
        return 0;
    int wide = !card[0] && !card[1];
    if (wide && (length < 6 || card[5] & 15))
        return 0;
    if (wide)
        p = (uint32_t)(card[2] << 12 | card[3] << 4 | card[4] >> 4), n = (card[4] & 15) + 1, kind = card[5] >> 4;
    else
        p = card[0] << 8 | card[1], n = (card[2] >> 4) + 1, kind = card[2] & 15;
    uint32_t width = width_of(p), count = 2 * kind * n, held = 0, have = 0;
    if (!is_prime(p) || (wide && p < 65536) || kind < 1 || kind > 2 || length != header_of(wide) + (count * width + 7) / 8)
        return 0;
    const uint8_t *next = card + header_of(wide);
    memset(words, 0, sizeof words);
    for (uint32_t i = 0; i < count; i++) {
        for (; have < width; have += 8)
            held = held << 8 | *next++;
        have -= width;
        words[i] = held >> have;
        held &= (1u << have) - 1;
        if (words[i] >= p)
            return 0;
    }
    return held == 0;
}

static int format(uint32_t prime, uint32_t degree, uint32_t sort, const uint32_t *coefficients, size_t length) {
    uint32_t width = width_of(prime), count = 2 * sort * degree, held = 0, have = 0;
    int wide = prime > 65535;
    if (prime > 1048575 || !is_prime(prime) || degree < 1 || degree > 16 || sort < 1 || sort > 2
        || length != header_of(wide) + (count * width + 7) / 8)
        return 0;
    if (wide) {
        bytes[0] = bytes[1] = 0, bytes[2] = (uint8_t)(prime >> 12), bytes[3] = (uint8_t)(prime >> 4);
        bytes[4] = (uint8_t)(prime << 4 | (degree - 1)), bytes[5] = (uint8_t)(sort << 4);
    } else
        bytes[0] = (uint8_t)(prime >> 8), bytes[1] = (uint8_t)prime, bytes[2] = (uint8_t)((degree - 1) << 4 | sort);
    uint8_t *next = bytes + header_of(wide);
    for (uint32_t i = 0; i < count; i++) {
        if (coefficients[i] >= prime)
            return 0;
        held = held << width | coefficients[i], have += width;
        for (; have >= 8; have -= 8)
            *next++ = (uint8_t)(held >> (have - 8));
    }
    if (have)
        *next = (uint8_t)(held << (8 - have));
    return 1;
}

static void read_card(size_t k) { refused = !parse(in->job[k].card, in->card_length); }
static void write_card(size_t k) { refused = !format(in->p, in->n, 2, in->job[k].coefficients, in->card_length); }

static size_t card_read(uint32_t *out) {
    out[0] = p, out[1] = n, out[2] = kind;
    memcpy(out + 3, words, sizeof words);
    return refused ? 0 : 3 + CARD_WORDS;
}

static size_t card_written(uint32_t *out) {
    for (size_t i = 0; i < in->card_length; i++)
        out[i] = bytes[i];
    return refused ? 0 : in->card_length;
}

const peer plain_card = {"plain C", prepare, {[READ] = {read_card, card_read}, [WRITE] = {write_card, card_written}}};
