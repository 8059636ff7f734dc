/*
 * Cemilovash: Rust types for Protocol Buffers messages, as prost-build 0.14.4 writes them.
 *
 * Build:
 *     (cd crates/generator && rt lib)
 *     gcc -O2 -I include -o example include/example.c crates/generator/out/libgenerator.a
 *
 * Every function takes all inputs, ends, and keeps nothing between calls. Pointers are not null, also with a length of 0;
 * what one of them points to and is written lies apart from what the others point to. Have 4 MiB of stack: no proof bounds
 * it; the most that was measured is 196 KiB for a text call and 1,318 KiB for a name check.
 */
#ifndef CEMILOVASH_H
#define CEMILOVASH_H

#include <stddef.h>
#include <stdint.h>

#ifdef __cplusplus
extern "C" {
#endif

/* A set of more bytes, or a longer options file, is refused; no text is longer. */
#define CEMILOVASH_MAX_SET 32768
#define CEMILOVASH_MAX_OPTIONS 4096
#define CEMILOVASH_MAX_TEXT 65536

/* What the functions return: 0, or the number of a refusal. */
enum {
    CEMILOVASH_OK = 0,
    CEMILOVASH_LAYOUT = 1,     /* options break the layout; place: the row */
    CEMILOVASH_EXTERNS = 2,    /* extern path invalid or doubled; place: the row */
    CEMILOVASH_UNREADABLE = 3, /* set unreadable; place: the offset of the field's key */
    CEMILOVASH_LIMIT = 4,      /* a limit is passed; place: its number */
    CEMILOVASH_INDEX = 5,      /* no file with this index; place: the count of files */
    CEMILOVASH_NAMES = 6,      /* name, package, syntax, required field or the like at fault; place: the file */
    CEMILOVASH_TYPES = 7,      /* type name absent, or a full name declared before; place: the file */
    CEMILOVASH_VARIANTS = 8,   /* written enum variants overlap; place: 0 */
    CEMILOVASH_DEFAULTS = 9,   /* a bytes default doesn't unescape; place: 0 */
    CEMILOVASH_ROOM = 10       /* text longer than the buffer or 65,536; place: its length */
};

/*
 * The text of the file with the index `file` of a FileDescriptorSet, written to the front of `text`.
 * `*place` is the text's length; or, where it is refused, the place, and no byte of `text` is changed.
 */
uint32_t cemilovash_text(const uint8_t *set, size_t set_len,
                         const uint8_t *options, size_t options_len,
                         size_t file,
                         uint8_t *text, size_t text_len,
                         size_t *place);

/*
 * The name check of a FileDescriptorSet: do all names that are written differ where they must?
 * `*place` is 1 for yes and 0 for no; or, where it is refused (1, 2, 3, 4, 6, 7), the place.
 */
uint32_t cemilovash_names(const uint8_t *set, size_t set_len,
                          const uint8_t *options, size_t options_len,
                          size_t *place);

/*
 * The snake and camel names of one name, zeros behind them, and their lengths.
 * Returns 6 unless the name is an identifier of at most 64 bytes with a letter or digit: then all is 0.
 */
uint8_t cemilovash_convert(const uint8_t *name, size_t name_len,
                           uint8_t snake[106], size_t *snake_len,
                           uint8_t camel[64], size_t *camel_len);

#ifdef __cplusplus
}
#endif

#endif
