/* Prints the pixels of a P6 picture whose maximum is 255, as one line of hex: what the script
 *
 *     load a FILE 1 WIDTH HEIGHT none argb
 *     dump a
 *
 * prints, done directly. It is the measure for this project's own program (dump_large_picture.py).
 *
 * Like that program it reads the whole text, expands it to red, green, blue and alpha in memory,
 * and writes the line in pieces. One thread. Build: gcc -O2 -o dump_ppm dump_ppm.c */
#include <stdint.h>
#include <stdio.h>
#include <stdlib.h>
#include <string.h>

enum { PIECE = 65536 };

static unsigned char *read_whole(const char *path, size_t *length) {
    FILE *file = fopen(path, "rb");
    if (!file || fseek(file, 0, SEEK_END) != 0) return NULL;
    long end = ftell(file);
    if (end < 0) return NULL;
    rewind(file);
    unsigned char *text = malloc((size_t)end + 1);
    if (!text || fread(text, 1, (size_t)end, file) != (size_t)end) return NULL;
    text[end] = 0;
    fclose(file);
    *length = (size_t)end;
    return text;
}

static int write_hex(const uint8_t *bytes, size_t length, FILE *out) {
    static const char digits[] = "0123456789abcdef";
    static char piece[2 * PIECE];
    for (size_t at = 0; at < length; at += PIECE) {
        size_t count = length - at < PIECE ? length - at : PIECE;
        for (size_t i = 0; i < count; i++) {
            piece[2 * i] = digits[bytes[at + i] >> 4];
            piece[2 * i + 1] = digits[bytes[at + i] & 15];
        }
        if (fwrite(piece, 1, 2 * count, out) != 2 * count) return 0;
    }
    return 1;
}

int main(int argc, char **argv) {
    size_t length, width, height;
    int start = 0;
    char head[32] = "";
    unsigned char *text = argc == 2 ? read_whole(argv[1], &length) : NULL;
    if (text) memcpy(head, text, length < 31 ? length : 31);
    if (!text || sscanf(head, "P6\n%5zu %5zu\n255%n", &width, &height, &start) != 2
        || start == 0 || text[start] != '\n' || length - (size_t)start - 1 < 3 * width * height) {
        fputs("usage: dump_ppm FILE, with a whole P6 picture\n", stderr);
        return 2;
    }
    const uint8_t *samples = text + start + 1;
    uint8_t *pixels = malloc(4 * width * height + 1);
    if (!pixels) return 4;
    for (size_t i = 0; i < width * height; i++) {
        pixels[4 * i] = samples[3 * i];
        pixels[4 * i + 1] = samples[3 * i + 1];
        pixels[4 * i + 2] = samples[3 * i + 2];
        pixels[4 * i + 3] = 255;
    }
    fputs("a pixels ", stdout);
    if (!write_hex(pixels, 4 * width * height, stdout)) return 6;
    putchar('\n');
    return fflush(stdout) == 0 ? 0 : 6;
}
