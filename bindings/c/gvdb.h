/*
 * GVDB files: the header and the hash tables, read, checked, built and laid. The functions of libgvdb.a.
 *
 * Nothing is allocated and nothing is kept between calls: the caller lends every buffer, and what a call answers depends on its arguments and on
 * what the lent buffers hold. No content of a buffer can make a call fail. Every answer has a number: 0 for a success, else a refusal (below). On a
 * refusal all other fields are 0 unless said otherwise, and no lent buffer is written to.
 *
 * What a caller has to see to:
 *   - a pointer is valid for its length, and for writing where it is not const; of a length of 0 it may be any pointer that is not null;
 *   - words are aligned to 8;
 *   - no two buffers of one call overlap, but that both files of gvdb_get_layered may be one memory, or overlap;
 *   - a buffer is not used by another thread during a call that may write to it.
 * Any address will do for a file, an arena or an image. A size_t has 64 bits.
 *
 * Every function is proved: any bytes, numbers and lengths are answered as its definition says, nothing outside the lent buffers is touched, and the call
 * ends. Not proved:
 *   - what the compiler's back end makes of the functions, and the C that calls them;
 *   - a buffer that changes during a call, as a mapped file does that another program writes to or cuts short;
 *   - time: a hostile file of 16 MiB can make one lookup take 40 minutes, and the check months (docs/BENCH.md);
 *   - stack. Measured by tests/outside/stack.rs, a call needs no more than this:
 *       gvdb_write: 156 KiB
 *       gvdb_check: 96 KiB
 *       every other call: 16 KiB
 */
#ifndef GVDB_H
#define GVDB_H

#include <stddef.h>
#include <stdint.h>

#ifdef __cplusplus
extern "C" {
#endif

/*
 * The number of this interface. It goes up by one with each request that changes a function or a struct; what came with which number:
 *   1: all that the later numbers do not name
 *   2: gvdb_abi, gvdb_read_header with gvdb_header, gvdb_lay_header; the numbers 16, 17 and 19
 *   3: gvdb_first_bad; the field at, which is last, in gvdb_place, gvdb_key and gvdb_inserted; the fields why and at, which are last, in gvdb_checked
 *   4: gvdb_next_child with gvdb_child
 *   5: GVDB_SIGNED; the parameter manner, which is last, of gvdb_get, gvdb_get_table, gvdb_next_child, gvdb_check and gvdb_write
 *   6: gvdb_get_layered with gvdb_layered, GVDB_OWNER and GVDB_DISTRICT
 *   7: GVDB_STRICT; the parameter filter, which is last, of gvdb_write; the number 33
 */
#define GVDB_ABI 7

/* The number of the library that is linked. Another than GVDB_ABI is a library of other structs than those below. */
uint32_t gvdb_abi(void);

/*
 * A manner says how a table is read, checked and laid: 0, or GVDB_SIGNED or GVDB_STRICT or both. No other bit of a manner is read.
 *
 * GVDB_SIGNED is the form of the hash. A table is found, checked and laid under one: what is laid in one form is read in that form. Keys whose bytes are all below
 * 128 are found, checked and laid alike in both, in every file.
 *
 * GVDB_STRICT is the lookup, and a write does not ask for it. In a table with filter words a key is found only if two bits of one word are set: bit (hash modulo
 * 32), and bit ((hash shifted right by s) modulo 32). The Rust's lookup takes 0 for s, so that both are one bit; the strict one takes the top five bits of the
 * table's first word. In a table that this library laid both answer alike on every key. In any file, what the strict lookup finds the Rust's finds too, and a
 * table that passes the check by the strict lookup passes it by the Rust's.
 */
#define GVDB_SIGNED 1u /* in the hash of a key its bytes count -128 to 127, as in GLib; without this bit 0 to 255, as in gvdb-rs */
#define GVDB_STRICT 2u /* lookups use the shift in the table's first word; without this bit 0, as in gvdb-rs and in GLib */

/* The most filter words that a write takes. */
#define GVDB_MAX_FILTER 1024u

/* Which of two tables answered a lookup. */
#define GVDB_OWNER 0u
#define GVDB_DISTRICT 1u

/* The numbers of the answers. 18, 32 and 34 are set aside for calls to come; no call here answers them. */
enum {
    GVDB_OK = 0,                  /* a success */
    GVDB_FILE_TOO_LONG = 1,       /* the file, or the target of a header, has over 16,777,216 bytes */
    GVDB_POINTER_OUTSIDE = 2,     /* a pointer's start is above its end, or its end past the file */
    GVDB_MISALIGNED = 3,          /* a pointer's start is not a multiple of the alignment asked */
    GVDB_TABLE_TOO_SHORT = 4,     /* the table has under 8 bytes */
    GVDB_BLOOM_TOO_LONG = 5,      /* its bloom words do not fit */
    GVDB_BUCKETS_TOO_LONG = 6,    /* its buckets do not fit */
    GVDB_ITEMS_UNEVEN = 7,        /* the bytes after the buckets are not a multiple of 24 */
    GVDB_KEY_NOT_UTF8 = 8,        /* the given key is not UTF-8 */
    GVDB_FRAGMENT_NOT_UTF8 = 9,   /* a stored key fragment is not UTF-8 */
    GVDB_PARENT_OUTSIDE = 10,     /* a parent index, or a child index, is not below the item count */
    GVDB_PARENTS_ENDLESS = 11,    /* a parent chain never reaches a root */
    GVDB_KEY_NOT_FOUND = 12,      /* the key is not there */
    GVDB_OTHER_KIND = 13,         /* the item's kind is unknown, or another than asked */
    GVDB_BUFFER_TOO_SHORT = 14,   /* the listed key is longer than the lent buffer */
    GVDB_PAST_THE_LAST = 15,      /* the position is past the last item, past the last value, or past the last child */
    GVDB_HEADER_TOO_SHORT = 16,   /* the file, or the target, has under 24 bytes */
    GVDB_SIGNATURE_UNKNOWN = 17,  /* the file begins neither with "GVariant" nor with "raVGtnai" */
    GVDB_VERSION_UNKNOWN = 19,    /* the file's version is another than 0 */
    GVDB_KEY_TOO_LONG = 20,       /* the key of an insert has over 1,024 bytes */
    GVDB_NOT_CONTAINER = 21,      /* a parent on the key's path is not a container */
    GVDB_TOO_MANY_ITEMS = 22,     /* there would be over 1,024 items in all tables */
    GVDB_ARENA_FULL = 23,         /* keys and values would need more than the arena */
    GVDB_TABLE_UNKNOWN = 24,      /* no table has this number, or it is placed in another one */
    GVDB_TABLE_IN_ITSELF = 25,    /* the table would be put into itself */
    GVDB_NESTED_TOO_DEEP = 26,    /* tables would nest over 8 deep */
    GVDB_TOO_MANY_TABLES = 27,    /* there would be over 64 tables */
    GVDB_SEPARATOR_OUTSIDE = 28,  /* the separator is neither none nor one byte from 1 to 127 */
    GVDB_MEMORY_BROKEN = 29,      /* the builder's words are too few, or the memory breaks a rule that the call judges (see 'Building') */
    GVDB_EMPTY_KEY = 30,          /* an item to be written has the empty key */
    GVDB_IMAGE_TOO_LONG = 31,     /* the image is longer than the lent buffer, or than 16,777,216 bytes */
    GVDB_TOO_MANY_FILTER_WORDS = 33, /* more than 1,024 filter words are asked for */
    GVDB_CHECK_BROKEN = 40        /* an item of the table breaks a rule of the check */
};

/* What a header says: whether values are big endian, 1, or little endian, 0; and the pointer of the root table. */
typedef struct gvdb_header {
    uint32_t number;
    uint32_t big;
    uint32_t start;
    uint32_t end;
} gvdb_header;

/* What a table opens as: how many items, buckets and bloom words it has. */
typedef struct gvdb_opened {
    uint32_t number;
    uint32_t items;
    uint32_t buckets;
    uint32_t blooms;
} gvdb_opened;

/*
 * The field at of an answer is where a text is not UTF-8: the offset, in that text, at which the first sequence begins that RFC 3629 does not allow. With
 * GVDB_KEY_NOT_UTF8 the text is the given key, with GVDB_FRAGMENT_NOT_UTF8 the stored fragment, that of the item or of a parent. With every other number at
 * is 0; since 0 is an offset too, look at the number first.
 */

/* A place in the file: its bytes from start up to end. With GVDB_KEY_NOT_UTF8, where the given key is bad. */
typedef struct gvdb_place {
    uint32_t number;
    uint32_t start;
    uint32_t end;
    size_t at;
} gvdb_place;

/*
 * A place in one of two files, its bytes from start up to end, and the table that answered, GVDB_OWNER or GVDB_DISTRICT, which is told on a refusal too. With
 * GVDB_KEY_NOT_UTF8, where the given key is bad.
 */
typedef struct gvdb_layered {
    uint32_t number;
    uint32_t from;
    uint32_t start;
    uint32_t end;
    size_t at;
} gvdb_layered;

/* A listed key: its length, and the position of the next one. With GVDB_FRAGMENT_NOT_UTF8, where the fragment is bad. */
typedef struct gvdb_key {
    uint32_t number;
    size_t length;
    size_t next;
    size_t at;
} gvdb_key;

/* A listed value: its place in the file, the index of its item, and the position to go on from. */
typedef struct gvdb_value {
    uint32_t number;
    uint32_t start;
    uint32_t end;
    size_t index;
    size_t next;
} gvdb_value;

/*
 * A child of a container: its kind, 'v' a value, 'H' a table, 'L' a container; the place of its fragment in the file, which is its key behind the container's;
 * its index, and the position to go on from. With GVDB_KEY_NOT_UTF8, where the given key is bad, and with GVDB_FRAGMENT_NOT_UTF8, where the fragment is.
 */
typedef struct gvdb_child {
    uint32_t number;
    uint32_t kind;
    uint32_t start;
    uint32_t end;
    size_t index;
    size_t next;
    size_t at;
} gvdb_child;

/*
 * What the check says: with GVDB_CHECK_BROKEN the first item that breaks a rule, and its first broken rule, 1 to 6. With rule 1, why is the number that
 * listing the item ends with, given room: 2, 9, 10 or 11; and with 9, at is where the fragment is bad. Else why and at are 0.
 */
typedef struct gvdb_checked {
    uint32_t number;
    uint32_t rule;
    size_t item;
    uint32_t why;
    size_t at;
} gvdb_checked;

/* A new table's number. */
typedef struct gvdb_table {
    uint32_t number;
    uint32_t table;
} gvdb_table;

/*
 * The news of an insert: replaced is 0 for a new key, else the kind that was there: 'v' a value, 'H' a table, 'L' a container. With GVDB_KEY_NOT_UTF8, where the
 * given key is bad.
 */
typedef struct gvdb_inserted {
    uint32_t number;
    uint32_t replaced;
    size_t at;
} gvdb_inserted;

/* How many items a table has, containers included. */
typedef struct gvdb_count {
    uint32_t number;
    uint32_t count;
} gvdb_count;

/* A written image: the pointer of its root table, and its length. */
typedef struct gvdb_image {
    uint32_t number;
    uint32_t start;
    uint32_t end;
    uint32_t length;
} gvdb_image;

/*
 * The header, a file's first 24 bytes: the signature in bytes 0 to 7, "GVariant", or "raVGtnai" where values are big endian; version 0 and options 0, of
 * four bytes each; start and end of the root pointer in bytes 16 to 23. Its four numbers are little endian in every file, as all but the values is. The root
 * pointer is judged in neither call: opening its table does that.
 */

/* Reads the header of a file. Refuses with 1, 16, 17, 19. Options are not looked at. */
gvdb_header gvdb_read_header(const uint8_t *file, size_t file_length);

/*
 * Lays a header into the first 24 bytes of a target; all other bytes stay. big is 0 for values that are little endian, any other number for big. Refuses
 * with 1, 16, so that what was laid can be read; of a longer buffer, lend the file's part. The answer is the number.
 */
uint32_t gvdb_lay_header(uint8_t *target, size_t target_length, uint32_t big, uint32_t start, uint32_t end);

/*
 * Where a text is not UTF-8: the offset at which the first sequence begins that RFC 3629 does not allow, or the length of a good text. The text may have any
 * length.
 */
size_t gvdb_first_bad(const uint8_t *text, size_t text_length);

/*
 * Reading. A table is named by the file's bytes and the pointer to it, from start up to end; that of the root table is gvdb_read_header's answer.
 * Opening refuses with 1, then 2 and 3 of the pointer, then 4 to 7; every call below opens the table first and refuses with the same numbers.
 */

/* Opens a table. */
gvdb_opened gvdb_open(const uint8_t *file, size_t file_length, uint32_t start, uint32_t end);

/* Looks a value up, in a manner. The answer is its place in the file, or 8 with at, 12, 13, or 2 and 3 of its own pointer. */
gvdb_place gvdb_get(const uint8_t *file, size_t file_length, uint32_t start, uint32_t end, const uint8_t *key, size_t key_length, uint32_t manner);

/*
 * Looks a value up in two tables, the owner's over the district's, each in a manner of its own. The owner's is asked first, and what it answers stands, a refusal
 * too; where it answers 12, and only there, the answer is the district's. So a district's file that does not open is refused only where it is asked. from says which
 * table answered: the place is one in that table's file.
 */
gvdb_layered gvdb_get_layered(const uint8_t *owner, size_t owner_length, uint32_t owner_start, uint32_t owner_end, const uint8_t *district,
                              size_t district_length, uint32_t district_start, uint32_t district_end, const uint8_t *key, size_t key_length,
                              uint32_t owner_manner, uint32_t district_manner);

/*
 * Looks a nested table up, in a manner. The answer is its pointer, once it opens; or 8 with at, 12, 13, or what opening it refuses. A pointer has no manner: whoever
 * looks up in the nested table gives it again.
 */
gvdb_place gvdb_get_table(const uint8_t *file, size_t file_length, uint32_t start, uint32_t end, const uint8_t *key, size_t key_length, uint32_t manner);

/*
 * Writes the key of the item at a position, counted from 0, to the front of out; bytes of out past the key stay. Refuses with 15 past the last item;
 * 2, 9 with at, 10 or 11 of a key that does not read; 14 for one that is too long. After any of these but 15 a caller may go on at position + 1.
 */
gvdb_key gvdb_next_key(const uint8_t *file, size_t file_length, uint32_t start, uint32_t end, size_t position, uint8_t *out, size_t out_length);

/*
 * The first value at or after a position. 15 where there is none. 2 or 3 of the value's own pointer come with index and next, so that a caller can
 * go on; next is then at least 1, and 0 with the 2 and 3 of opening.
 */
gvdb_value gvdb_next_value(const uint8_t *file, size_t file_length, uint32_t start, uint32_t end, size_t position);

/*
 * The child at a position, counted from 0, of the container under a key, which is looked up in a manner; children stand in stored order. Refuses with 8 with at,
 * 12; of the container 13 where the item is none, 2 or 3 of its value pointer, whose alignment is 4, and 13 where its length is not divisible by 4; 15 past the
 * last child; of the child 10 where its index is not below the item count, 13 where its kind is unknown, then 2 or 9 with at of its fragment. It is not asked
 * whether the child names this container as its parent: the check does that. After a child's refusal a caller may go on at position + 1. A first call at the
 * greatest position, SIZE_MAX, answers 15 exactly where the container itself is good; any refusal but 15 at a lower position is then the child's.
 */
gvdb_child gvdb_next_child(const uint8_t *file, size_t file_length, uint32_t start, uint32_t end, const uint8_t *key, size_t key_length, size_t position,
                           uint32_t manner);

/*
 * Checks a table, not those nested in it, in a manner. The rules, for each item: (1) its key would list; (2) lookup of that key, in that manner, answers this item;
 * (3) its kind is known; (4) its value pointer opens, for 'H' as a table, for 'L' with a length divisible by 4; (5) of an 'L', each child index is below the count,
 * names this item as parent and appears once; (6) its parent, if any, is an 'L' that keeps rule 4 and lists it.
 * With 40 and rule 1, why and at say what listing the item refuses with. What it costs is linear for ordinary tables; of a hostile file see 'time' above.
 */
gvdb_checked gvdb_check(const uint8_t *file, size_t file_length, uint32_t start, uint32_t end, uint32_t manner);

/*
 * Building. A builder is two lent buffers, words and arena, which every call gets whole, with the lengths of the fresh start. The words hold records, at
 * least gvdb_memory_words() of them; the arena holds keys and values and may have any length, 0 too. Both can be copied: a copy is a second builder. A builder
 * has no manner: the write alone takes one, and the same tables may be written in each.
 *
 * 29 comes first in every call. Whoever changes neither between calls never meets it. Of memory that was changed a write refuses what breaks any rule,
 * so that all it lays is sound; the other calls refuse only lengths, counts and room used that cannot be, and else answer for the memory as it is.
 */

/* The least length of a builder's words. */
size_t gvdb_memory_words(void);

/* Makes an empty builder, whatever the memory held. 29 where there are too few words. The arena is not written to. */
uint32_t gvdb_fresh(size_t *words, size_t words_length, uint8_t *arena, size_t arena_length);

/* Makes a table; tables are counted from 0. The separator is empty for none, or one byte from 1 to 127. Refuses with 28, 27. */
gvdb_table gvdb_new_table(size_t *words, size_t words_length, const uint8_t *arena, size_t arena_length, const uint8_t *separator, size_t separator_length);

/*
 * Inserts a value, or replaces what the key had. With a separator, each prefix of the key that ends at one is a container, made if missing.
 * Refuses with 24, 8 with at, 20, 21, 22, 23.
 */
gvdb_inserted gvdb_insert(size_t *words, size_t words_length, uint8_t *arena, size_t arena_length, uint32_t table, const uint8_t *key, size_t key_length,
                          const uint8_t *value, size_t value_length);

/*
 * Inserts a table, the guest, under a key of another. The guest is placed by that, and takes no more inserts; so it stays if it is replaced.
 * Refuses with 24 for the table, 24 for the guest, 25, 8 with at, 20, 21, 26, 22, 23.
 */
gvdb_inserted gvdb_insert_table(size_t *words, size_t words_length, uint8_t *arena, size_t arena_length, uint32_t table, const uint8_t *key,
                                size_t key_length, uint32_t guest);

/* How many items a table has, containers included; of a placed table too. 24 for a number that is unknown. */
gvdb_count gvdb_item_count(const size_t *words, size_t words_length, const uint8_t *arena, size_t arena_length, uint32_t table);

/*
 * Lays the image of a table, with those nested in it, in a manner, into the front of a buffer; bytes past the image stay, and bytes 0 to 23 are zeros, for
 * gvdb_lay_header. Every table of the image gets so many filter words as filter says, 0 to GVDB_MAX_FILTER, of four bytes each: with some, most lookups of a key
 * that is not there end at the filter. With 0 the image is gvdb-rs's. The builder is as it was afterwards and can be used on; its words are borrowed during
 * the call. Refuses with 24, 33, 30, 31.
 */
gvdb_image gvdb_write(size_t *words, size_t words_length, const uint8_t *arena, size_t arena_length, uint32_t table, uint8_t *image, size_t image_length,
                      uint32_t manner, uint32_t filter);

#ifdef __cplusplus
}
#endif

#endif
