// The work of the mode `rows` of crates/speed in C: rows of each kind are read from a text in memory, and written as rgba.
// cc -O2 bench/rows.c -o /tmp/rows && /tmp/rows
#include <stdint.h>
#include <stdio.h>
#include <stdlib.h>
#include <string.h>
#include <time.h>

enum { WIDTH = 4000, HEIGHT = 300, TIMES = 20 };

// What a picture is read by: its maximum, its channels, its masks, and its palette.
struct picture {
    uint32_t maximum, channels, masks[4];
    const uint8_t *palette;
    uint8_t share[256];
};

// Reads a row, and gives the text behind it, or NULL where a sample is above the maximum.
typedef const uint8_t *reader(const struct picture *, const uint8_t *, uint8_t *);

static uint64_t now(void) {
    struct timespec t;
    clock_gettime(CLOCK_MONOTONIC, &t);
    return t.tv_sec * 1000000000ull + t.tv_nsec;
}

static uint8_t scaled(uint32_t sample, uint32_t maximum) { return (uint8_t)((255 * sample + maximum / 2) / maximum); }

static void put(uint8_t *to, size_t x, uint8_t red, uint8_t green, uint8_t blue, uint8_t alpha) {
    to[4 * x] = red;
    to[4 * x + 1] = green;
    to[4 * x + 2] = blue;
    to[4 * x + 3] = alpha;
}

static const uint8_t *read_colour(const struct picture *p, const uint8_t *text, uint8_t *restrict to) {
    for (size_t x = 0; x < WIDTH; x++) put(to, x, text[3 * x], text[3 * x + 1], text[3 * x + 2], 255);
    return text + 3 * WIDTH;
}

static const uint8_t *read_grey(const struct picture *p, const uint8_t *text, uint8_t *restrict to) {
    for (size_t x = 0; x < WIDTH; x++) put(to, x, text[x], text[x], text[x], 255);
    return text + WIDTH;
}

static const uint8_t *read_colour_bytes(const struct picture *p, const uint8_t *text, uint8_t *restrict to) {
    int above = 0;
    for (size_t i = 0; i < 3 * WIDTH; i++) above |= text[i] > p->maximum;
    if (above) return NULL;
    for (size_t x = 0; x < WIDTH; x++) put(to, x, p->share[text[3 * x]], p->share[text[3 * x + 1]], p->share[text[3 * x + 2]], 255);
    return text + 3 * WIDTH;
}

static const uint8_t *read_grey_bytes(const struct picture *p, const uint8_t *text, uint8_t *restrict to) {
    int above = 0;
    for (size_t i = 0; i < WIDTH; i++) above |= text[i] > p->maximum;
    if (above) return NULL;
    for (size_t x = 0; x < WIDTH; x++) put(to, x, p->share[text[x]], p->share[text[x]], p->share[text[x]], 255);
    return text + WIDTH;
}

static uint32_t word(const uint8_t *text, size_t i) { return 256u * text[2 * i] + text[2 * i + 1]; }

static const uint8_t *read_colour_words(const struct picture *p, const uint8_t *text, uint8_t *restrict to) {
    int above = 0;
    uint32_t m = p->maximum;
    for (size_t i = 0; i < 3 * WIDTH; i++) above |= word(text, i) > m;
    if (above) return NULL;
    for (size_t x = 0; x < WIDTH; x++) put(to, x, scaled(word(text, 3 * x), m), scaled(word(text, 3 * x + 1), m), scaled(word(text, 3 * x + 2), m), 255);
    return text + 6 * WIDTH;
}

static const uint8_t *read_grey_words(const struct picture *p, const uint8_t *text, uint8_t *restrict to) {
    int above = 0;
    uint32_t m = p->maximum;
    for (size_t i = 0; i < WIDTH; i++) above |= word(text, i) > m;
    if (above) return NULL;
    for (size_t x = 0; x < WIDTH; x++) {
        uint8_t grey = scaled(word(text, x), m);
        put(to, x, grey, grey, grey, 255);
    }
    return text + 2 * WIDTH;
}

static int is_white(uint8_t c) { return c == 9 || c == 10 || c == 13 || c == 32; }

// The text ends with a zero.
static const uint8_t *plain(const uint8_t *text, uint32_t *value) {
    if (!is_white(*text)) return NULL;
    while (is_white(*text)) text++;
    if (*text < '0' || *text > '9') return NULL;
    uint64_t v = 0;
    for (; *text >= '0' && *text <= '9'; text++) {
        v = 10 * v + (*text - '0');
        if (v > UINT32_MAX) return NULL;
    }
    *value = (uint32_t)v;
    return text;
}

static const uint8_t *read_plain(const struct picture *p, const uint8_t *text, uint8_t *restrict to) {
    for (size_t x = 0; x < WIDTH; x++) {
        uint8_t channel[3] = { 0 };
        for (size_t i = 0; i < p->channels; i++) {
            uint32_t value;
            text = plain(text, &value);
            if (!text || value > p->maximum) return NULL;
            channel[i] = scaled(value, p->maximum);
        }
        if (p->channels == 1) channel[1] = channel[2] = channel[0];
        put(to, x, channel[0], channel[1], channel[2], 255);
    }
    return text;
}

static void put_index(const struct picture *p, uint8_t *to, size_t x, uint8_t index) {
    const uint8_t *entry = p->palette + 4 * index;
    put(to, x, entry[2], entry[1], entry[0], 255);
}

static const uint8_t *read_1(const struct picture *p, const uint8_t *text, uint8_t *restrict to) {
    for (size_t x = 0; x < WIDTH; x++) put_index(p, to, x, text[x / 8] >> (7 - x % 8) & 1);
    return text + WIDTH / 8;
}

static const uint8_t *read_4(const struct picture *p, const uint8_t *text, uint8_t *restrict to) {
    for (size_t x = 0; x < WIDTH; x++) put_index(p, to, x, text[x / 2] >> (x % 2 ? 0 : 4) & 15);
    return text + WIDTH / 2;
}

static const uint8_t *read_8(const struct picture *p, const uint8_t *text, uint8_t *restrict to) {
    for (size_t x = 0; x < WIDTH; x++) put_index(p, to, x, text[x]);
    return text + WIDTH;
}

static uint32_t u16_at(const uint8_t *text, size_t at) { return text[at] + 256u * text[at + 1]; }

static uint32_t u32_at(const uint8_t *text, size_t at) { return u16_at(text, at) + 65536u * u16_at(text, at + 2); }

static const uint8_t *read_16(const struct picture *p, const uint8_t *text, uint8_t *restrict to) {
    for (size_t x = 0; x < WIDTH; x++) {
        uint32_t value = u16_at(text, 2 * x);
        put(to, x, scaled(value >> 10 & 31, 31), scaled(value >> 5 & 31, 31), scaled(value & 31, 31), 255);
    }
    return text + 2 * WIDTH;
}

static const uint8_t *read_24(const struct picture *p, const uint8_t *text, uint8_t *restrict to) {
    for (size_t x = 0; x < WIDTH; x++) put(to, x, text[3 * x + 2], text[3 * x + 1], text[3 * x], 255);
    return text + 3 * WIDTH;
}

static const uint8_t *read_32(const struct picture *p, const uint8_t *text, uint8_t *restrict to) {
    for (size_t x = 0; x < WIDTH; x++) put(to, x, text[4 * x + 2], text[4 * x + 1], text[4 * x], 255);
    return text + 4 * WIDTH;
}

// A channel by its mask: where it begins, its maximum, and what stands for one that is absent.
struct channel { uint32_t shift, maximum; uint8_t absent; };

static struct channel channel_of(uint32_t mask, uint8_t absent) {
    uint32_t shift = mask ? __builtin_ctz(mask) : 0;
    return (struct channel){ shift, mask >> shift, absent };
}

// Masks of at most 24 bits are divided in 32 bits.
static uint8_t by(struct channel c, uint32_t value) {
    if (!c.maximum) return c.absent;
    uint32_t sample = value >> c.shift & c.maximum;
    if (c.maximum < 1 << 24) return (uint8_t)((255 * sample + c.maximum / 2) / c.maximum);
    return (uint8_t)((255ull * sample + c.maximum / 2) / c.maximum);
}

static const uint8_t *read_masks_16(const struct picture *p, const uint8_t *text, uint8_t *restrict to) {
    struct channel r = channel_of(p->masks[0], 0), g = channel_of(p->masks[1], 0), b = channel_of(p->masks[2], 0), a = channel_of(p->masks[3], 255);
    for (size_t x = 0; x < WIDTH; x++) {
        uint32_t value = u16_at(text, 2 * x);
        put(to, x, by(r, value), by(g, value), by(b, value), by(a, value));
    }
    return text + 2 * WIDTH;
}

static const uint8_t *read_masks_32(const struct picture *p, const uint8_t *text, uint8_t *restrict to) {
    struct channel r = channel_of(p->masks[0], 0), g = channel_of(p->masks[1], 0), b = channel_of(p->masks[2], 0), a = channel_of(p->masks[3], 255);
    for (size_t x = 0; x < WIDTH; x++) {
        uint32_t value = u32_at(text, 4 * x);
        put(to, x, by(r, value), by(g, value), by(b, value), by(a, value));
    }
    return text + 4 * WIDTH;
}

static const uint8_t raw_unit[] = { 0, 17, 1, 99, 3, 64, 2 };

static uint8_t *text_of(const uint8_t *unit, size_t length) {
    size_t size = length * WIDTH * HEIGHT;
    uint8_t *text = malloc(size + 1);
    for (size_t i = 0; i < size; i++) text[i] = unit[i % length];
    text[size] = 0;
    return text;
}

static void measure(const char *name, reader *volatile read, struct picture p, const uint8_t *text) {
    static uint8_t row[4 * WIDTH];
    uint64_t least = UINT64_MAX, sum = 0;
    uint32_t count = 0;
    for (int t = 0; t < TIMES; t++) {
        uint64_t start = now();
        if (p.maximum && p.maximum < 256)
            for (uint32_t v = 0; v <= p.maximum; v++) p.share[v] = scaled(v, p.maximum);
        const uint8_t *rest = text;
        for (count = 0; count < HEIGHT && (rest = read(&p, rest, row)); count++) {}
        uint64_t time = now() - start;
        if (time < least) least = time;
    }
    for (size_t i = 0; i < sizeof row; i++) sum += row[i];
    if (count < HEIGHT) exit(1);
    printf("%s: %llu microseconds, %llu\n", name, (unsigned long long)least / 1000, (unsigned long long)sum);
}

int main(void) {
    const uint8_t *raw = text_of(raw_unit, sizeof raw_unit);
    const char *unit = " 0 17 101 99 3 64 2";
    const uint8_t *decimal = text_of((const uint8_t *)unit, strlen(unit));
    measure("P6 4000 300 255 ", read_colour, (struct picture){ .maximum = 255 }, raw);
    measure("P6 4000 300 100 ", read_colour_bytes, (struct picture){ .maximum = 100 }, raw);
    measure("P6 4000 300 65535 ", read_colour_words, (struct picture){ .maximum = 65535 }, raw);
    measure("P6 4000 300 40000 ", read_colour_words, (struct picture){ .maximum = 40000 }, raw);
    measure("P5 4000 300 255 ", read_grey, (struct picture){ .maximum = 255 }, raw);
    measure("P5 4000 300 100 ", read_grey_bytes, (struct picture){ .maximum = 100 }, raw);
    measure("P5 4000 300 65535 ", read_grey_words, (struct picture){ .maximum = 65535 }, raw);
    measure("P5 4000 300 40000 ", read_grey_words, (struct picture){ .maximum = 40000 }, raw);
    measure("P3 4000 300 255", read_plain, (struct picture){ .maximum = 255, .channels = 3 }, decimal);
    measure("P2 4000 300 255", read_plain, (struct picture){ .maximum = 255, .channels = 1 }, decimal);
    measure("bits 1", read_1, (struct picture){ .palette = raw }, raw + 1024);
    measure("bits 4", read_4, (struct picture){ .palette = raw }, raw + 1024);
    measure("bits 8", read_8, (struct picture){ .palette = raw }, raw + 1024);
    measure("bits 16", read_16, (struct picture){ 0 }, raw + 1024);
    measure("bits 24", read_24, (struct picture){ 0 }, raw + 1024);
    measure("bits 32", read_32, (struct picture){ 0 }, raw + 1024);
    measure("masks 16", read_masks_16, (struct picture){ .masks = { 0xf800, 0x07e0, 0x001f } }, raw + 1012);
    measure("masks 32", read_masks_32, (struct picture){ .masks = { 0x3ff00000, 0xffc00, 0x3ff } }, raw + 1012);
    measure("whole bytes 32", read_masks_32, (struct picture){ .masks = { 0xff000000, 0xff0000, 0xff00 } }, raw + 1012);
    return 0;
}
