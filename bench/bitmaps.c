// The work of the mode `bitmaps` of crates/speed in C: 810 rows of 1080 pixels are packed, and cropped to 540 by 405.
// cc -O2 bench/bitmaps.c -o /tmp/bitmaps && /tmp/bitmaps
#include <stdint.h>
#include <stdio.h>
#include <stdlib.h>
#include <string.h>
#include <time.h>

enum { W = 1080, H = 810, TW = 540, TH = 405, TIMES = 60 };

typedef void packer(uint8_t *, const uint8_t *, size_t);
typedef void copier(uint8_t *, const uint8_t *, const uint32_t *, size_t);

static uint64_t now(void) {
    struct timespec t;
    clock_gettime(CLOCK_MONOTONIC, &t);
    return t.tv_sec * 1000000000ull + t.tv_nsec;
}

__attribute__((noinline)) static void pack_argb(uint8_t *to, const uint8_t *from, size_t pixels) {
    for (size_t i = 0; i < 4 * pixels; i++) to[i] = from[i];
}

__attribute__((noinline)) static void pack_rgb565(uint8_t *to, const uint8_t *from, size_t pixels) {
    for (size_t x = 0; x < pixels; x++) {
        uint16_t word = (from[4 * x] >> 3) << 11 | (from[4 * x + 1] >> 2) << 5 | from[4 * x + 2] >> 3;
        to[2 * x] = word & 255;
        to[2 * x + 1] = word >> 8;
    }
}

__attribute__((noinline)) static void pack_alpha8(uint8_t *to, const uint8_t *from, size_t pixels) {
    for (size_t x = 0; x < pixels; x++) to[x] = from[4 * x + 3];
}

__attribute__((noinline)) static void copy_4(uint8_t *to, const uint8_t *from, const uint32_t *columns, size_t count) {
    for (size_t x = 0; x < count; x++) memcpy(to + 4 * x, from + 4 * (size_t)columns[x], 4);
}

__attribute__((noinline)) static void copy_2(uint8_t *to, const uint8_t *from, const uint32_t *columns, size_t count) {
    for (size_t x = 0; x < count; x++) memcpy(to + 2 * x, from + 2 * (size_t)columns[x], 2);
}

__attribute__((noinline)) static void copy_1(uint8_t *to, const uint8_t *from, const uint32_t *columns, size_t count) {
    for (size_t x = 0; x < count; x++) to[x] = from[columns[x]];
}

static uint64_t sum(const uint8_t *bytes, size_t count) {
    uint64_t total = 0;
    for (size_t i = 0; i < count; i++) total += bytes[i];
    return total;
}

// The columns are computed once a picture, and each row is copied by them.
static void crop(uint8_t *target, const uint8_t *source, copier *copy, size_t bytes) {
    uint32_t columns[TW];
    for (uint64_t x = 0; x < TW; x++) columns[x] = ((2 * x + 1) * H + (uint64_t)W * TH - (uint64_t)TW * H) / (2 * TH);
    for (uint64_t y = 0; y < TH; y++) copy(target + y * TW * bytes, source + (2 * y + 1) * H / (2 * TH) * W * bytes, columns, TW);
}

static void measure(const char *name, packer *pack, copier *copy, size_t bytes) {
    uint8_t *row = malloc(4 * W), *source = calloc(W * H, bytes), *target = calloc(TW * TH, bytes);
    memset(row, 77, 4 * W);
    uint64_t packing = -1, cropping = -1;
    for (int k = 0; k < TIMES; k++) {
        uint64_t start = now();
        for (size_t y = 0; y < H; y++) pack(source + y * W * bytes, row, W);
        uint64_t spent = now() - start;
        if (spent < packing) packing = spent;
        start = now();
        crop(target, source, copy, bytes);
        spent = now() - start;
        if (spent < cropping) cropping = spent;
    }
    printf("pack %s: %llu microseconds, %llu\n", name, (unsigned long long)packing / 1000, (unsigned long long)sum(source, (size_t)W * H * bytes));
    printf("crop %s: %llu microseconds, %llu\n", name, (unsigned long long)cropping / 1000, (unsigned long long)sum(target, (size_t)TW * TH * bytes));
}

int main(void) {
    measure("argb8888", pack_argb, copy_4, 4);
    measure("rgb565", pack_rgb565, copy_2, 2);
    measure("alpha8", pack_alpha8, copy_1, 1);
    return 0;
}
