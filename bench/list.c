// The work of the mode `list` of crates/speed in C: forty pictures, one of 4000 by 3000 and 39 of 1200 by 900, are loaded to 540 by
// 405 in rgb565, twelve at a time, and shown. A load fetches a copy of the picture's text, decodes it with the mean of each block of
// pixels, and crops what it decoded, by the rules of docs/PICTURES.md. To show a picture is to print its SHA-256. There is no engine:
// each picture is loaded once, twelve are kept until they are shown, and no bitmap is used again.
// cc -O2 bench/list.c -o /tmp/list && /tmp/list
#include <stdint.h>
#include <stdio.h>
#include <stdlib.h>
#include <string.h>
#include <time.h>

enum { PICTURES = 40, VIEWS = 12, TIMES = 5, PERIOD = 999983, STEP = 1000, WANTED_WIDTH = 540, WANTED_HEIGHT = 405 };

struct text { uint8_t *bytes; size_t length; };

// Stored as rgb565, two bytes a pixel.
struct bitmap { uint32_t width, height; uint8_t *bytes; };

static uint64_t now(void) {
    struct timespec t;
    clock_gettime(CLOCK_MONOTONIC, &t);
    return t.tv_sec * 1000000000ull + t.tv_nsec;
}

static void *allocate(size_t size) {
    void *memory = malloc(size);
    if (!memory) exit(4);
    return memory;
}

// SHA-256 of FIPS 180-4, in plain C.

static const uint32_t ROUND[64] = {
    0x428a2f98, 0x71374491, 0xb5c0fbcf, 0xe9b5dba5, 0x3956c25b, 0x59f111f1, 0x923f82a4, 0xab1c5ed5,
    0xd807aa98, 0x12835b01, 0x243185be, 0x550c7dc3, 0x72be5d74, 0x80deb1fe, 0x9bdc06a7, 0xc19bf174,
    0xe49b69c1, 0xefbe4786, 0x0fc19dc6, 0x240ca1cc, 0x2de92c6f, 0x4a7484aa, 0x5cb0a9dc, 0x76f988da,
    0x983e5152, 0xa831c66d, 0xb00327c8, 0xbf597fc7, 0xc6e00bf3, 0xd5a79147, 0x06ca6351, 0x14292967,
    0x27b70a85, 0x2e1b2138, 0x4d2c6dfc, 0x53380d13, 0x650a7354, 0x766a0abb, 0x81c2c92e, 0x92722c85,
    0xa2bfe8a1, 0xa81a664b, 0xc24b8b70, 0xc76c51a3, 0xd192e819, 0xd6990624, 0xf40e3585, 0x106aa070,
    0x19a4c116, 0x1e376c08, 0x2748774c, 0x34b0bcb5, 0x391c0cb3, 0x4ed8aa4a, 0x5b9cca4f, 0x682e6ff3,
    0x748f82ee, 0x78a5636f, 0x84c87814, 0x8cc70208, 0x90befffa, 0xa4506ceb, 0xbef9a3f7, 0xc67178f2,
};

static uint32_t turned(uint32_t word, int bits) { return word >> bits | word << (32 - bits); }

static void add_block(uint32_t state[8], const uint8_t *block) {
    uint32_t w[64];
    for (int i = 0; i < 16; i++) {
        w[i] = (uint32_t)block[4 * i] << 24 | block[4 * i + 1] << 16 | block[4 * i + 2] << 8 | block[4 * i + 3];
    }
    for (int i = 16; i < 64; i++) {
        uint32_t low = turned(w[i - 15], 7) ^ turned(w[i - 15], 18) ^ w[i - 15] >> 3;
        uint32_t high = turned(w[i - 2], 17) ^ turned(w[i - 2], 19) ^ w[i - 2] >> 10;
        w[i] = w[i - 16] + low + w[i - 7] + high;
    }
    uint32_t a = state[0], b = state[1], c = state[2], d = state[3];
    uint32_t e = state[4], f = state[5], g = state[6], h = state[7];
    for (int i = 0; i < 64; i++) {
        uint32_t first = h + (turned(e, 6) ^ turned(e, 11) ^ turned(e, 25)) + ((e & f) ^ (~e & g)) + ROUND[i] + w[i];
        uint32_t second = (turned(a, 2) ^ turned(a, 13) ^ turned(a, 22)) + ((a & b) ^ (a & c) ^ (b & c));
        h = g, g = f, f = e, e = d + first;
        d = c, c = b, b = a, a = first + second;
    }
    state[0] += a, state[1] += b, state[2] += c, state[3] += d;
    state[4] += e, state[5] += f, state[6] += g, state[7] += h;
}

static void sha256(const uint8_t *bytes, size_t length, uint32_t state[8]) {
    static const uint32_t first[8] = {
        0x6a09e667, 0xbb67ae85, 0x3c6ef372, 0xa54ff53a, 0x510e527f, 0x9b05688c, 0x1f83d9ab, 0x5be0cd19,
    };
    uint8_t last[128] = {0};
    size_t rest = length % 64, end = rest < 56 ? 64 : 128;
    memcpy(state, first, sizeof first);
    for (size_t at = 0; at + 64 <= length; at += 64) add_block(state, bytes + at);
    memcpy(last, bytes + length - rest, rest);
    last[rest] = 0x80;
    for (int i = 0; i < 8; i++) last[end - 1 - i] = (uint8_t)((uint64_t)length * 8 >> (8 * i));
    for (size_t at = 0; at < end; at += 64) add_block(state, last + at);
}

// The sample of a size: the highest power of two that keeps both sides at least as long as the wanted ones.
static uint32_t sample_log(uint32_t width, uint32_t height) {
    uint32_t most = width / WANTED_WIDTH < height / WANTED_HEIGHT ? width / WANTED_WIDTH : height / WANTED_HEIGHT, log = 0;
    while (2u << log <= most) log++;
    return log;
}

static void add_row(uint32_t *restrict sums, const uint8_t *restrict row, size_t sample, size_t blocks) {
    for (size_t x = 0; x < blocks; x++) {
        const uint8_t *block = row + 3 * sample * x;
        uint32_t red = 0, green = 0, blue = 0;
        for (size_t i = 0; i < sample; i++) {
            red += block[3 * i];
            green += block[3 * i + 1];
            blue += block[3 * i + 2];
        }
        sums[3 * x] += red;
        sums[3 * x + 1] += green;
        sums[3 * x + 2] += blue;
    }
}

// The mean of each block, packed; and the sums are 0 again.
static void pack_means(uint32_t *restrict sums, uint8_t *restrict to, size_t blocks, uint32_t shift) {
    uint32_t half = (1u << shift) / 2;
    for (size_t x = 0; x < blocks; x++) {
        uint32_t red = (sums[3 * x] + half) >> shift, green = (sums[3 * x + 1] + half) >> shift;
        uint32_t blue = (sums[3 * x + 2] + half) >> shift;
        uint16_t word = red >> 3 << 11 | green >> 2 << 5 | blue >> 3;
        to[2 * x] = word & 255;
        to[2 * x + 1] = word >> 8;
        sums[3 * x] = sums[3 * x + 1] = sums[3 * x + 2] = 0;
    }
}

static struct bitmap decode(struct text text) {
    uint32_t width, height;
    int start = 0;
    char head[32] = "";
    memcpy(head, text.bytes, text.length < 31 ? text.length : 31);
    if (sscanf(head, "P6 %5u %5u 255%n", &width, &height, &start) != 2 || start == 0) exit(1);
    const uint8_t *raster = text.bytes + start + 1;
    if (text.length - start - 1 < (size_t)3 * width * height) exit(1);
    uint32_t log = sample_log(width, height);
    size_t sample = (size_t)1 << log, blocks = width >> log;
    struct bitmap decoded = {blocks, height >> log, allocate(2 * blocks * (height >> log))};
    uint32_t *sums = calloc(3 * blocks, sizeof *sums);
    if (!sums) exit(4);
    for (size_t y = 0; y < sample * decoded.height; y++) {
        add_row(sums, raster + 3 * y * width, sample, blocks);
        if ((y + 1) % sample == 0) pack_means(sums, decoded.bytes + 2 * (y / sample) * blocks, blocks, 2 * log);
    }
    free(sums);
    return decoded;
}

// Where the pixel k of a wanted line lies on a line of `from` pixels, which is scaled by itself, and on one that is scaled by the
// other side and cut.
static size_t scaled(int64_t from, int64_t to, int64_t k) { return (2 * k + 1) * from / (2 * to); }
static size_t cropped(int64_t from, int64_t across, int64_t wanted, int64_t to, int64_t k) {
    return ((2 * k + 1 - wanted) * across + from * to) / (2 * to);
}

static struct bitmap crop(struct bitmap from) {
    struct bitmap to = {WANTED_WIDTH, WANTED_HEIGHT, allocate(2 * WANTED_WIDTH * WANTED_HEIGHT)};
    int64_t w = from.width, h = from.height;
    int is_wide = w * WANTED_HEIGHT > WANTED_WIDTH * h;
    size_t columns[WANTED_WIDTH];
    for (size_t x = 0; x < WANTED_WIDTH; x++) {
        columns[x] = is_wide ? cropped(w, h, WANTED_WIDTH, WANTED_HEIGHT, x) : scaled(w, WANTED_WIDTH, x);
    }
    for (size_t y = 0; y < WANTED_HEIGHT; y++) {
        size_t source = is_wide ? scaled(h, WANTED_HEIGHT, y) : cropped(h, w, WANTED_HEIGHT, WANTED_WIDTH, y);
        const uint8_t *row = from.bytes + 2 * source * w;
        for (size_t x = 0; x < WANTED_WIDTH; x++) memcpy(to.bytes + 2 * (y * WANTED_WIDTH + x), row + 2 * columns[x], 2);
    }
    return to;
}

static struct bitmap load(struct text picture) {
    struct text fetched = {allocate(picture.length), picture.length};
    memcpy(fetched.bytes, picture.bytes, picture.length);
    struct bitmap decoded = decode(fetched);
    free(fetched.bytes);
    struct bitmap shown = crop(decoded);
    free(decoded.bytes);
    return shown;
}

static size_t show(char *line, int view, struct bitmap bitmap) {
    uint32_t digest[8];
    sha256(bitmap.bytes, (size_t)2 * bitmap.width * bitmap.height, digest);
    size_t length = sprintf(line, "v%d shown %u %u rgb565 ", view, bitmap.width, bitmap.height);
    for (int i = 0; i < 8; i++) length += sprintf(line + length, "%08x", digest[i]);
    return length + sprintf(line + length, "\n");
}

// Loads and shows all, and gives the printed lines' length.
static size_t list(const struct text *pictures, char *lines) {
    struct bitmap views[VIEWS] = {{0}};
    size_t length = 0;
    for (int first = 0; first < PICTURES; first += VIEWS) {
        for (int view = 0; view < VIEWS; view++) {
            free(views[view].bytes);
            views[view].bytes = NULL;
        }
        for (int view = 0; view < VIEWS && first + view < PICTURES; view++) views[view] = load(pictures[first + view]);
        for (int view = 0; view < VIEWS; view++) {
            if (views[view].bytes) length += show(lines + length, view, views[view]);
            else length += sprintf(lines + length, "v%d cleared\n", view);
        }
    }
    for (int view = 0; view < VIEWS; view++) free(views[view].bytes);
    return length;
}

static struct text picture(size_t width, size_t height, const uint8_t *samples, size_t first) {
    size_t count = 3 * width * height;
    struct text text = {allocate(count + 32), 0};
    text.length = sprintf((char *)text.bytes, "P6 %zu %zu 255 ", width, height);
    for (size_t from = first; count > 0; from = 0) {
        size_t piece = PERIOD - from < count ? PERIOD - from : count;
        memcpy(text.bytes + text.length, samples + from, piece);
        text.length += piece;
        count -= piece;
    }
    return text;
}

int main(void) {
    static uint8_t samples[PERIOD];
    static char lines[PICTURES * 100 + VIEWS * 20];
    struct text pictures[PICTURES];
    uint32_t state = 1;
    for (size_t i = 0; i < PERIOD; i++) samples[i] = (state = state * 1664525 + 1013904223) >> 24;
    for (size_t i = 0; i < PICTURES; i++) pictures[i] = picture(i ? 1200 : 4000, i ? 900 : 3000, samples, STEP * i);
    uint64_t least = -1, sum = 0;
    size_t length = 0;
    for (int k = 0; k < TIMES; k++) {
        uint64_t start = now();
        length = list(pictures, lines);
        uint64_t spent = now() - start;
        if (spent < least) least = spent;
    }
    for (size_t i = 0; i < length; i++) sum += (uint8_t)lines[i];
    printf("forty pictures: %llu microseconds, %llu\n%s", (unsigned long long)least / 1000, (unsigned long long)sum, lines);
    return 0;
}
