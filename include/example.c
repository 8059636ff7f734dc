/* Prints the texts of a set's files as document 01's program does: example set.bin options.toc */
#include "cemilovash.h"
#include <stdio.h>

/* One byte more than is accepted, so that a longer input is refused as it would be whole. */
static uint8_t set[CEMILOVASH_MAX_SET + 1];
static uint8_t options[CEMILOVASH_MAX_OPTIONS + 1];
static uint8_t text[CEMILOVASH_MAX_TEXT];

static int read_file(const char *path, uint8_t *bytes, size_t room, size_t *n)
{
    FILE *f = fopen(path, "rb");
    if (!f) {
        perror(path);
        return 0;
    }
    *n = fread(bytes, 1, room, f);
    fclose(f);
    return 1;
}

static uint64_t varint(const uint8_t **s)
{
    uint64_t n = 0;
    int shift;
    for (shift = 0;; shift += 7) {
        uint8_t b = *(*s)++;
        n |= (uint64_t)(b & 127) << shift;
        if (b < 128)
            return n;
    }
}

/* The payload of the field with this number that stands behind `skip` others, of a message without faults; or null. */
static const uint8_t *payload(const uint8_t *s, const uint8_t *end, uint64_t number, size_t skip, size_t *n)
{
    while (s < end) {
        uint64_t key = varint(&s);
        switch (key & 7) {
        case 0:
            varint(&s);
            break;
        case 1:
            s += 8;
            break;
        case 5:
            s += 4;
            break;
        default:
            *n = varint(&s);
            if (key >> 3 == number && skip-- == 0)
                return s;
            s += *n;
        }
    }
    return NULL;
}

/* The line before the text of a file of an accepted set. */
static void print_package(size_t set_len, size_t file)
{
    size_t n, m;
    const uint8_t *part = payload(set, set + set_len, 1, file, &n);
    const uint8_t *name = payload(part, part + n, 2, 0, &m);
    if (name)
        printf("//@ %.*s\n", (int)m, (const char *)name);
    else
        printf("//@ -\n");
}

int main(int argc, char **argv)
{
    size_t set_len, options_len, file, place;
    if (argc != 3) {
        fprintf(stderr, "usage: example set.bin options.toc\n");
        return 2;
    }
    if (!read_file(argv[1], set, sizeof set, &set_len) || !read_file(argv[2], options, sizeof options, &options_len))
        return 1;
    for (file = 0;; file++) {
        uint32_t number = cemilovash_text(set, set_len, options, options_len, file, text, sizeof text, &place);
        if (number == CEMILOVASH_INDEX)
            return 0;
        if (number != CEMILOVASH_OK) {
            printf("refused %u %zu\n", (unsigned)number, place);
            return 0;
        }
        print_package(set_len, file);
        fwrite(text, 1, place, stdout);
    }
}
