/*
 * The hash of both forms, held to a C function over signed char, as GLib has it, and one over unsigned char: of keys of 0 to 40 bytes, with every byte that UTF-8 has.
 * A hash shows in the word that a write lays for a key, and in which word a lookup finds.
 */
#include <inttypes.h>
#include <stdio.h>
#include <stdlib.h>
#include <string.h>

#include "gvdb.h"

#define LONGEST 40
#define ROUNDS 3000
/* Of the 256 bytes, those that stand in a text: C0, C1 and F5 to FF do not, and no key with one is taken. */
#define BYTES_OF_UTF8 243
/* Where the hash and the fragment of an image's only item stand. */
#define HASH 36
#define FRAGMENT 60

static uint8_t met[256];

/* gvdb-reader.c, line 289: hash_value = (hash_value * 33) + ((signed char *) key)[key_length]; */
static uint32_t signed_hash(const void *key, size_t length)
{
    uint32_t hash = 5381;
    for (size_t i = 0; i < length; i++) {
        hash = hash * 33 + (uint32_t)((const signed char *)key)[i];
    }
    return hash;
}

static uint32_t plain_hash(const void *key, size_t length)
{
    uint32_t hash = 5381;
    for (size_t i = 0; i < length; i++) {
        hash = hash * 33 + ((const unsigned char *)key)[i];
    }
    return hash;
}

static uint32_t chance(uint32_t limit)
{
    static uint64_t dice = 88172645463325252u;
    dice ^= dice << 13;
    dice ^= dice >> 7;
    dice ^= dice << 17;
    return (uint32_t)(dice >> 16) % limit;
}

/* One character of so many bytes, by chance. */
static void put_character(uint8_t *at, size_t size)
{
    static const uint32_t least[] = {0, 0, 0x80, 0x800, 0x10000}, most[] = {0, 0x80, 0x800, 0xD800, 0x110000};
    uint32_t code = least[size] + chance(most[size] - least[size]);
    if (size == 3 && chance(4) == 0) {
        code = 0xE000 + chance(0x2000);
    }
    for (size_t i = size - 1; i > 0; i--) {
        at[i] = (uint8_t)(0x80 | (code & 0x3F));
        code >>= 6;
    }
    static const uint8_t marks[] = {0, 0, 0xC0, 0xE0, 0xF0};
    at[0] = (uint8_t)(marks[size] | code);
}

/* A key of just so many bytes. */
static void put_key(uint8_t *key, size_t length)
{
    for (size_t at = 0; at < length;) {
        size_t left = length - at;
        size_t size = 1 + chance(left < 4 ? (uint32_t)left : 4);
        put_character(key + at, size);
        at += size;
    }
    for (size_t i = 0; i < length; i++) {
        met[key[i]] = 1;
    }
}

static void hold(int right, const char *what, size_t length, uint32_t manner)
{
    if (!right) {
        printf("%s, of a key of %zu bytes in manner %" PRIu32 "\n", what, length, manner);
        exit(1);
    }
}

static void put_word(uint8_t *at, uint32_t word)
{
    for (int i = 0; i < 4; i++) {
        at[i] = (uint8_t)(word >> (8 * i));
    }
}

/* A table of one item with this key and this hash: it is found with the hash of the manner alone. */
static void look_up(const uint8_t *key, size_t length, uint32_t manner, uint32_t hash, uint32_t other)
{
    uint8_t file[FRAGMENT + LONGEST] = {0};
    uint32_t words[] = {0x28000000, 1, 0, hash, 0xFFFFFFFF, FRAGMENT, (uint32_t)length | (uint32_t)'v' << 16, 0, 0};
    for (size_t i = 0; i < sizeof words / sizeof words[0]; i++) {
        put_word(file + 24 + 4 * i, words[i]);
    }
    memcpy(file + FRAGMENT, key, length);
    hold(gvdb_get(file, sizeof file, 24, FRAGMENT, key, length, manner).number == GVDB_OK, "not found", length, manner);
    hold(gvdb_check(file, sizeof file, 24, FRAGMENT, manner).number == GVDB_OK, "not sound", length, manner);
    put_word(file + HASH, other == hash ? hash ^ 1u << chance(32) : other);
    hold(gvdb_get(file, sizeof file, 24, FRAGMENT, key, length, manner).number == GVDB_KEY_NOT_FOUND, "found by another hash", length, manner);
}

int main(void)
{
    size_t count = gvdb_memory_words();
    size_t *words = malloc(count * sizeof *words);
    uint8_t arena[LONGEST], image[256], key[LONGEST], laid[4];
    if (words == NULL) {
        return 1;
    }
    for (size_t round = 0; round < ROUNDS; round++) {
        for (size_t length = 0; length <= LONGEST; length++) {
            put_key(key, length);
            const uint32_t hashes[] = {plain_hash(key, length), signed_hash(key, length)};
            gvdb_fresh(words, count, arena, sizeof arena);
            gvdb_new_table(words, count, arena, sizeof arena, key, 0);
            hold(gvdb_insert(words, count, arena, sizeof arena, 0, key, length, key, 0).number == GVDB_OK, "not inserted", length, 0);
            for (uint32_t manner = 0; manner <= GVDB_SIGNED; manner++) {
                gvdb_image written = gvdb_write(words, count, arena, sizeof arena, 0, image, sizeof image, manner, 0);
                put_word(laid, hashes[manner]);
                hold(written.number == (length == 0 ? GVDB_EMPTY_KEY : GVDB_OK), "not written", length, manner);
                hold(length == 0 || memcmp(image + HASH, laid, 4) == 0, "another hash laid", length, manner);
                look_up(key, length, manner, hashes[manner], hashes[1 - manner]);
            }
        }
    }
    size_t bytes = 0;
    for (size_t i = 0; i < sizeof met; i++) {
        bytes += met[i];
    }
    hold(bytes == BYTES_OF_UTF8, "not every byte of UTF-8 was met", bytes, 0);
    printf("%d keys of 0 to %d bytes, with all %zu bytes of UTF-8, hashed as C does with signed and with unsigned char\n", ROUNDS * (LONGEST + 1), LONGEST, bytes);
    free(words);
    return 0;
}
