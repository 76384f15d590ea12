// The work of the mode `samples` of crates/speed in C: block sums row by row, and their means by shifts.
// cc -O2 bench/samples.c -o /tmp/samples && /tmp/samples
#include <stdint.h>
#include <stdio.h>
#include <stdlib.h>
#include <string.h>
#include <time.h>

enum { WIDTH = 4000, HEIGHT = 64, TIMES = 400 };

static double micros(void) {
    struct timespec t;
    clock_gettime(CLOCK_MONOTONIC, &t);
    return t.tv_sec * 1e6 + t.tv_nsec / 1e3;
}

static void add_row(uint32_t *restrict sums, const uint8_t *restrict row, size_t columns, size_t blocks) {
    for (size_t x = 0; x < blocks; x++) {
        const uint8_t *block = row + 4 * columns * x;
        uint32_t red = 0, green = 0, blue = 0, alpha = 0;
        for (size_t i = 0; i < columns; i++) {
            red += block[4 * i];
            green += block[4 * i + 1];
            blue += block[4 * i + 2];
            alpha += block[4 * i + 3];
        }
        sums[4 * x] += red;
        sums[4 * x + 1] += green;
        sums[4 * x + 2] += blue;
        sums[4 * x + 3] += alpha;
    }
}

static void means(uint32_t *restrict sums, uint8_t *restrict into, size_t lanes, uint32_t shift) {
    uint32_t half = (1u << shift) / 2;
    for (size_t k = 0; k < lanes; k++) {
        into[k] = (uint8_t)((sums[k] + half) >> shift);
        sums[k] = 0;
    }
}

// The sampled picture, which the caller frees.
__attribute__((noinline)) static uint8_t *sampled_picture(const uint8_t *pixels, uint32_t width, uint32_t height, uint32_t sample, uint32_t shift) {
    size_t blocks = width / sample, lanes = 4 * blocks, length = 0;
    uint32_t *sums = calloc(lanes, sizeof *sums);
    uint8_t *picture = malloc(lanes * (height / sample));
    for (uint32_t y = 0; y < height; y++) {
        add_row(sums, pixels + (size_t)4 * width * y, sample, blocks);
        if ((y + 1) % sample == 0) {
            means(sums, picture + length, lanes, shift);
            length += lanes;
        }
    }
    free(sums);
    return picture;
}

int main(void) {
    uint8_t *pixels = malloc((size_t)4 * WIDTH * HEIGHT);
    memset(pixels, 7, (size_t)4 * WIDTH * HEIGHT);
    for (uint32_t log = 0; log < 4; log++) {
        double least = 1e18;
        uint64_t sum = 0;
        for (int t = 0; t < TIMES; t++) {
            double start = micros();
            uint8_t *picture = sampled_picture(pixels, WIDTH, HEIGHT, 1u << log, 2 * log);
            double time = micros() - start;
            if (time < least) least = time;
            sum = 0;
            for (size_t i = 0; i < (size_t)4 * (WIDTH >> log) * (HEIGHT >> log); i++) sum += picture[i];
            free(picture);
        }
        printf("sample %u: %.0f microseconds, %llu\n", 1u << log, least, (unsigned long long)sum);
    }
    return 0;
}
