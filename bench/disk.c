// The reading of a journal in C, beside which the mode `disk` of crates/speed has the start of a cache: the text of a journal of 16,384
// keys and 16,384 reads is parsed into a hash map whose entries are linked in order of use. There are no files, and nothing else that
// a start does: no lengths are asked, nothing is deleted, and no journal is rebuilt.
// cc -O2 bench/disk.c -o /tmp/disk && /tmp/disk
#include <stdint.h>
#include <stdio.h>
#include <stdlib.h>
#include <string.h>
#include <time.h>

enum { MOST = 16384, TIMES = 10, BUCKETS = 32768, LONGEST_KEY = 120 };

struct entry {
    uint8_t key[LONGEST_KEY];
    size_t count;
    uint64_t length;
    int is_clean;
    struct entry *next, *older, *newer;
};

// The entries by their keys, and in order of use.
struct table {
    struct entry *buckets[BUCKETS];
    struct entry *eldest, *newest;
    size_t count;
};

static uint64_t now(void) {
    struct timespec t;
    clock_gettime(CLOCK_MONOTONIC, &t);
    return t.tv_sec * 1000000000ull + t.tv_nsec;
}

static void *allocate(size_t size) {
    void *memory = malloc(size);
    if (!memory) exit(4);
    return memory;
}

// The hash is FNV-1a.
static struct entry **find(struct table *table, const uint8_t *key, size_t count) {
    uint64_t hash = 0xcbf29ce484222325;
    for (size_t i = 0; i < count; i++) hash = (hash ^ key[i]) * 0x100000001b3;
    struct entry **at = &table->buckets[hash % BUCKETS];
    while (*at && ((*at)->count != count || memcmp((*at)->key, key, count) != 0)) at = &(*at)->next;
    return at;
}

static void unlink_entry(struct table *table, struct entry *entry) {
    *(entry->older ? &entry->older->newer : &table->eldest) = entry->newer;
    *(entry->newer ? &entry->newer->older : &table->newest) = entry->older;
}

static void link_newest(struct table *table, struct entry *entry) {
    entry->older = table->newest;
    entry->newer = NULL;
    *(table->newest ? &table->newest->newer : &table->eldest) = entry;
    table->newest = entry;
}

static void put(struct table *table, const uint8_t *key, size_t count, int is_clean, uint64_t length) {
    struct entry **at = find(table, key, count);
    if (*at) unlink_entry(table, *at);
    else {
        *at = allocate(sizeof **at);
        memcpy((*at)->key, key, count);
        (*at)->count = count;
        (*at)->next = NULL;
        table->count++;
    }
    (*at)->is_clean = is_clean;
    (*at)->length = length;
    link_newest(table, *at);
}

static void touch(struct table *table, const uint8_t *key, size_t count) {
    struct entry *entry = *find(table, key, count);
    if (!entry) return;
    unlink_entry(table, entry);
    link_newest(table, entry);
}

static void forget(struct table *table, const uint8_t *key, size_t count) {
    struct entry **at = find(table, key, count), *entry = *at;
    if (!entry) return;
    unlink_entry(table, entry);
    *at = entry->next;
    free(entry);
    table->count--;
}

static int is_key(const uint8_t *key, size_t count) {
    if (count == 0 || count > LONGEST_KEY) return 0;
    for (size_t i = 0; i < count; i++) {
        uint8_t byte = key[i];
        if (!((byte >= 'a' && byte <= 'z') || (byte >= '0' && byte <= '9') || byte == '_' || byte == '-')) return 0;
    }
    return 1;
}

// The length that digits write in their one spelling, or -1.
static int64_t read_length(const uint8_t *digits, size_t count) {
    int64_t length = 0;
    if (count == 0 || (count > 1 && digits[0] == '0')) return -1;
    for (size_t i = 0; i < count; i++) {
        if (digits[i] < '0' || digits[i] > '9') return -1;
        length = 10 * length + digits[i] - '0';
        if (length >= 1ll << 40) return -1;
    }
    return length;
}

static int begins(const uint8_t *line, size_t count, const char *word) {
    return count >= strlen(word) && memcmp(line, word, strlen(word)) == 0;
}

// Applies a line without its newline, or tells that it is none.
static int apply(struct table *table, const uint8_t *line, size_t count) {
    if (begins(line, count, "READ ")) {
        if (!is_key(line + 5, count - 5)) return 0;
        touch(table, line + 5, count - 5);
        return 1;
    }
    if (begins(line, count, "REMOVE ")) {
        if (!is_key(line + 7, count - 7)) return 0;
        forget(table, line + 7, count - 7);
        return 1;
    }
    if (begins(line, count, "DIRTY ")) {
        if (!is_key(line + 6, count - 6)) return 0;
        put(table, line + 6, count - 6, 0, 0);
        return 1;
    }
    if (!begins(line, count, "CLEAN ")) return 0;
    const uint8_t *space = memchr(line + 6, ' ', count - 6);
    if (!space || !is_key(line + 6, space - line - 6)) return 0;
    int64_t length = read_length(space + 1, line + count - space - 1);
    if (length < 0) return 0;
    put(table, line + 6, space - line - 6, 1, length);
    return 1;
}

static const char HEADER[] = "libcore.io.DiskLruCache\n1\n1\n1\n\n";

static struct table *read_journal(const uint8_t *text, size_t length) {
    struct table *table = calloc(1, sizeof *table);
    size_t at = strlen(HEADER);
    if (!table || length < at || memcmp(text, HEADER, at) != 0) exit(1);
    while (at < length) {
        const uint8_t *end = memchr(text + at, '\n', length - at);
        if (!end) break;
        if (!apply(table, text + at, end - text - at)) exit(1);
        at = end - text + 1;
    }
    return table;
}

static void drop(struct table *table) {
    for (struct entry *entry = table->eldest, *next; entry; entry = next) {
        next = entry->newer;
        free(entry);
    }
    free(table);
}

// The first 16 digits of a key are as good as random.
static int write_key(char *to, uint64_t number) {
    return sprintf(to, "%016llx%048llx", (unsigned long long)(number * 0x9e3779b97f4a7c15), (unsigned long long)number);
}

static size_t write_journal(char *text) {
    size_t length = sprintf(text, "%s", HEADER);
    for (uint64_t number = 0; number < MOST; number++) {
        length += sprintf(text + length, "CLEAN ");
        length += write_key(text + length, number);
        length += sprintf(text + length, " 3\n");
    }
    for (uint64_t number = 0; number < MOST; number++) {
        length += sprintf(text + length, "READ ");
        length += write_key(text + length, number * 7 % MOST);
        length += sprintf(text + length, "\n");
    }
    return length;
}

int main(void) {
    char *text = allocate(2 * MOST * 80);
    size_t length = write_journal(text), count = 0;
    uint64_t least = -1;
    for (int k = 0; k < TIMES; k++) {
        uint64_t start = now();
        struct table *table = read_journal((uint8_t *)text, length);
        uint64_t spent = now() - start;
        if (spent < least) least = spent;
        count = table->count;
        drop(table);
    }
    printf("start: %llu microseconds, %zu\n", (unsigned long long)least / 1000, count);
    return 0;
}
