/*
 * A forest register in memory: two tables are built, laid as one image with a header in front, read back and checked. Every answer is printed, refusals too.
 * Use: cc -I bindings/c bindings/c/example.c target/staticlib/libgvdb.a
 */
#include <inttypes.h>
#include <stdio.h>
#include <stdlib.h>
#include <string.h>

#include "gvdb.h"

#define ROOM 1024
#define BYTES(text) (const uint8_t *)(text), strlen(text)
#define BUILDER words, word_count, arena, sizeof arena

/* The builder's memory, and the image that is written from it. */
static size_t *words;
static size_t word_count;
static uint8_t arena[ROOM];
static uint8_t image[4096];

static void start(void)
{
    word_count = gvdb_memory_words();
    words = malloc(word_count * sizeof *words);
    if (words == NULL) {
        exit(1);
    }
    printf("fresh with a word too few: %" PRIu32 "\n", gvdb_fresh(words, word_count - 1, arena, sizeof arena));
    printf("fresh: %" PRIu32 "\n", gvdb_fresh(BUILDER));
}

static uint32_t new_table(const char *separator)
{
    gvdb_table made = gvdb_new_table(BUILDER, BYTES(separator));
    printf("new table with separator \"%s\": %" PRIu32 ", table %" PRIu32 "\n", separator, made.number, made.table);
    return made.table;
}

/* Prints what is done to a text, other bytes than letters as numbers. */
static void say_key(const char *call, const char *key)
{
    printf("%s \"", call);
    for (; *key != '\0'; key++) {
        if (*key >= ' ' && *key <= '~') {
            putchar(*key);
        } else {
            printf("\\x%02X", (unsigned)(unsigned char)*key);
        }
    }
    printf("\": ");
}

/* The number of an answer, and where the text is bad. */
static void say_number(uint32_t number, size_t at)
{
    printf("%" PRIu32, number);
    if (number == GVDB_KEY_NOT_UTF8 || number == GVDB_FRAGMENT_NOT_UTF8) {
        printf(" at byte %zu", at);
    }
}

static void say_inserted(const char *key, gvdb_inserted news)
{
    say_key("insert", key);
    say_number(news.number, news.at);
    if (news.replaced != 0) {
        printf(", replaced '%c'", (char)news.replaced);
    }
    printf("\n");
}

static void insert(uint32_t table, const char *key, const char *value)
{
    say_inserted(key, gvdb_insert(BUILDER, table, BYTES(key), BYTES(value)));
}

static void insert_table(uint32_t table, const char *key, uint32_t guest)
{
    say_inserted(key, gvdb_insert_table(BUILDER, table, BYTES(key), guest));
}

static void say_count(uint32_t table)
{
    gvdb_count counted = gvdb_item_count(BUILDER, table);
    printf("items of table %" PRIu32 ": %" PRIu32 ", %" PRIu32 "\n", table, counted.number, counted.count);
}

static void get(gvdb_image at, const char *key)
{
    gvdb_place place = gvdb_get(image, at.length, at.start, at.end, BYTES(key), 0);
    say_key("get", key);
    say_number(place.number, place.at);
    printf(", \"%.*s\"\n", (int)(place.end - place.start), (const char *)image + place.start);
}

static void list_keys(gvdb_image at)
{
    uint8_t key[16];
    size_t position = 0;
    for (;;) {
        gvdb_key listed = gvdb_next_key(image, at.length, at.start, at.end, position, key, sizeof key);
        if (listed.number == GVDB_PAST_THE_LAST) {
            return;
        }
        printf("key %zu: ", position);
        say_number(listed.number, listed.at);
        printf(", \"%.*s\"\n", (int)listed.length, (const char *)key);
        position += 1;
    }
}

static void list_values(gvdb_image at)
{
    gvdb_value value = gvdb_next_value(image, at.length, at.start, at.end, 0);
    while (value.number != GVDB_PAST_THE_LAST) {
        printf("value of item %zu: %" PRIu32 ", \"%.*s\"\n", value.index, value.number, (int)(value.end - value.start), (const char *)image + value.start);
        value = gvdb_next_value(image, at.length, at.start, at.end, value.next);
    }
}

/* The children of a container, one by one. A refused one is passed over, and where the container itself is bad there is none. */
static void list_children(gvdb_image at, const char *key)
{
    gvdb_child child = gvdb_next_child(image, at.length, at.start, at.end, BYTES(key), SIZE_MAX, 0);
    say_key("children of", key);
    say_number(child.number, child.at);
    printf("\n");
    if (child.number != GVDB_PAST_THE_LAST) {
        return;
    }
    for (size_t position = 0;; position++) {
        child = gvdb_next_child(image, at.length, at.start, at.end, BYTES(key), position, 0);
        if (child.number == GVDB_PAST_THE_LAST) {
            return;
        }
        printf("child %zu: ", position);
        say_number(child.number, child.at);
        if (child.number == GVDB_OK) {
            printf(", item %zu, '%c', \"%.*s\"", child.index, (char)child.kind, (int)(child.end - child.start), (const char *)image + child.start);
        }
        printf("\n");
    }
}

static void check(const char *what, gvdb_image at)
{
    gvdb_checked checked = gvdb_check(image, at.length, at.start, at.end, 0);
    printf("check of %s: %" PRIu32 ", rule %" PRIu32 ", item %zu", what, checked.number, checked.rule, checked.item);
    if (checked.why != 0) {
        printf(", its key: ");
        say_number(checked.why, checked.at);
    }
    printf("\n");
}

static void read_back(gvdb_image root)
{
    gvdb_opened opened = gvdb_open(image, root.length, root.start, root.end);
    printf("open: %" PRIu32 ", items %" PRIu32 ", buckets %" PRIu32 ", bloom words %" PRIu32 "\n", opened.number, opened.items, opened.buckets, opened.blooms);
    get(root, "parcel/12/year");
    get(root, "parcel/12/");
    get(root, "parcel/12");
    get(root, "a\xC3");
    gvdb_place lost = gvdb_get_table(image, root.length, root.start, root.end, BYTES("\xC3\xA9\xFF"), 0);
    say_key("get table", "\xC3\xA9\xFF");
    say_number(lost.number, lost.at);
    printf("\n");
    list_keys(root);
    list_values(root);
    list_children(root, "parcel/");
    list_children(root, "parcel/12/");
    list_children(root, "parcel/12/year");
    list_children(root, "parcel/12");
    list_children(root, "caf\xE9");
    check("the root table", root);
    gvdb_place nested = gvdb_get_table(image, root.length, root.start, root.end, BYTES("owner"), 0);
    printf("get table \"owner\": %" PRIu32 "\n", nested.number);
    root.start = nested.start;
    root.end = nested.end;
    get(root, "name");
    check("the nested table", root);
    root.end -= 1;
    check("a pointer that is a byte too short", root);
}

static void read_header(const char *what, const uint8_t *file, size_t length)
{
    gvdb_header header = gvdb_read_header(file, length);
    printf("header of %s: %" PRIu32 ", big %" PRIu32 ", root %" PRIu32 " to %" PRIu32 "\n", what, header.number, header.big, header.start, header.end);
}

/* A header laid into 24 bytes that held something else. */
static void lay_header(uint32_t big)
{
    uint8_t header[24];
    memset(header, 0xAA, sizeof header);
    printf("lay a header into 23 bytes: %" PRIu32 ", first byte %02X\n", gvdb_lay_header(header, 23, big, 24, 60), (unsigned)header[0]);
    printf("lay a header, big %" PRIu32 ": %" PRIu32 ",", big, gvdb_lay_header(header, sizeof header, big, 24, 60));
    for (size_t i = 0; i < sizeof header; i++) {
        printf(" %02X", (unsigned)header[i]);
    }
    printf("\n");
    read_header("24 bytes", header, sizeof header);
    read_header("23 bytes", header, 23);
    header[12] = 0xFF;
    read_header("a file with an option", header, sizeof header);
    header[8] = 1;
    read_header("a file of version 1", header, sizeof header);
    header[4] ^= 1;
    read_header("a file with a bit of its signature changed", header, sizeof header);
}

/* Where texts are not UTF-8: Latin-1, a character that is cut, a surrogate, a zero in two bytes. */
static void say_first_bad(void)
{
    static const char *const texts[] = {"caf\xC3\xA9", "caf\xE9", "\xE9t\xE9", "a\xC3", "\xED\xA0\x80", "\xF0\x9F\x8C", "ok\xC0\x80", "\xC3\xA9\xFF"};
    for (size_t i = 0; i < sizeof texts / sizeof texts[0]; i++) {
        say_key("first bad byte of", texts[i]);
        printf("%zu of %zu\n", gvdb_first_bad(BYTES(texts[i])), strlen(texts[i]));
    }
}

/* A name with an accent, laid in both forms of the hash: the other one does not find it, and the images differ in the word of that hash alone. */
static void say_forms(void)
{
    static const char *const names[] = {"plain", "signed"};
    uint8_t laid[2][128];
    gvdb_image written[2];
    gvdb_fresh(BUILDER);
    uint32_t table = new_table("");
    insert(table, "\xC3\xA9", "oak");
    for (uint32_t manner = 0; manner <= GVDB_SIGNED; manner++) {
        written[manner] = gvdb_write(BUILDER, table, laid[manner], sizeof laid[manner], manner, 0);
        printf("write in the %s form: %" PRIu32 ", length %" PRIu32 ", bytes 36 to 39", names[manner], written[manner].number, written[manner].length);
        for (size_t i = 36; i < 40; i++) {
            printf(" %02X", (unsigned)laid[manner][i]);
        }
        printf("\n");
    }
    memcpy(laid[0] + 36, laid[1] + 36, 4);
    printf("all other bytes: %s\n", memcmp(laid[0], laid[1], written[0].length) == 0 ? "equal" : "not equal");
    for (uint32_t manner = 0; manner <= GVDB_SIGNED; manner++) {
        gvdb_place place = gvdb_get(laid[1], written[1].length, written[1].start, written[1].end, BYTES("\xC3\xA9"), manner);
        gvdb_checked checked = gvdb_check(laid[1], written[1].length, written[1].start, written[1].end, manner);
        say_key("get", "\xC3\xA9");
        printf("%" PRIu32 " in the %s form; check: %" PRIu32 ", rule %" PRIu32 "\n", place.number, names[manner], checked.number, checked.rule);
    }
    gvdb_place unread = gvdb_get(laid[1], written[1].length, written[1].start, written[1].end, BYTES("\xC3\xA9"), GVDB_SIGNED | 0xFFFFFFFCu);
    printf("with every other bit of the manner: %" PRIu32 "\n", unread.number);
}

/* Keys of an owner's table over a district's: what the owner's answers stands, and where that is 12 the district's is asked, of whose file so many bytes are lent. */
static void get_layered(uint8_t laid[2][256], const gvdb_image of[2], size_t lent)
{
    static const char *const tables[] = {"owner", "district"};
    static const char *const keys[] = {"oak", "beech", "stand/", "ash", "caf\xE9"};
    for (size_t i = 0; i < sizeof keys / sizeof keys[0]; i++) {
        gvdb_layered found = gvdb_get_layered(laid[GVDB_OWNER], of[GVDB_OWNER].length, of[GVDB_OWNER].start, of[GVDB_OWNER].end, laid[GVDB_DISTRICT], lent,
                                              of[GVDB_DISTRICT].start, of[GVDB_DISTRICT].end, BYTES(keys[i]), 0, 0);
        say_key("get in two tables", keys[i]);
        say_number(found.number, found.at);
        printf(" of the %s's, \"%.*s\"\n", tables[found.from], (int)(found.end - found.start), (const char *)laid[found.from] + found.start);
    }
}

static void say_layered(void)
{
    uint8_t laid[2][256];
    gvdb_image written[2];
    gvdb_fresh(BUILDER);
    uint32_t owner = new_table("/");
    uint32_t district = new_table("");
    insert(owner, "oak", "1999");
    insert(owner, "stand/3", "spruce");
    insert(district, "oak", "1801");
    insert(district, "beech", "1802");
    insert(district, "stand/", "a value");
    written[GVDB_OWNER] = gvdb_write(BUILDER, owner, laid[GVDB_OWNER], sizeof laid[GVDB_OWNER], 0, 0);
    written[GVDB_DISTRICT] = gvdb_write(BUILDER, district, laid[GVDB_DISTRICT], sizeof laid[GVDB_DISTRICT], 0, 0);
    get_layered(laid, written, written[GVDB_DISTRICT].length);
    printf("over a district's file that is cut:\n");
    get_layered(laid, written, 24);
}

/* The first place of a text in the image. */
static uint8_t *find(const char *text, size_t length)
{
    for (size_t i = 0; i + strlen(text) <= length; i++) {
        if (memcmp(image + i, text, strlen(text)) == 0) {
            return image + i;
        }
    }
    exit(1);
}

/* A key in a table of one filter word, by the lookup of each manner, and the check by it. */
static void look_up(const char *what, const uint8_t *laid, gvdb_image of)
{
    static const char *const lookups[] = {"Rust's", "strict"};
    for (uint32_t strict = 0; strict < 2; strict++) {
        gvdb_place place = gvdb_get(laid, of.length, of.start, of.end, BYTES("a"), strict * GVDB_STRICT);
        gvdb_checked checked = gvdb_check(laid, of.length, of.start, of.end, strict * GVDB_STRICT);
        printf("%s, by the %s lookup: get %" PRIu32 "; check %" PRIu32 ", rule %" PRIu32 "\n", what, lookups[strict], place.number, checked.number, checked.rule);
    }
}

/* A table with filter words, as it is laid, and with the second of its key's bits cleared. */
static void say_filters(void)
{
    static const uint32_t filters[] = {0, 1, 2, GVDB_MAX_FILTER, GVDB_MAX_FILTER + 1};
    static uint8_t laid[8192];
    gvdb_image written;
    gvdb_fresh(BUILDER);
    uint32_t table = new_table("");
    insert(table, "a", "oak");
    for (size_t i = 0; i < sizeof filters / sizeof filters[0]; i++) {
        written = gvdb_write(BUILDER, table, laid, sizeof laid, 0, filters[i]);
        printf("write with %" PRIu32 " filter words: %" PRIu32 ", root to %" PRIu32 ", length %" PRIu32 "\n", filters[i], written.number, written.end, written.length);
    }
    written = gvdb_write(BUILDER, table, laid, sizeof laid, 0, 1);
    printf("the first word and the filter:");
    for (size_t i = 24; i < 36; i++) {
        printf(i < 28 || i >= 32 ? " %02X" : "", (unsigned)laid[i]);
    }
    printf("\n");
    look_up("as it is laid", laid, written);
    laid[34] = 0;
    look_up("with a bit cleared", laid, written);
}

int main(void)
{
    printf("interface: %s\n", gvdb_abi() == GVDB_ABI ? "of the library's number" : "of another number than the library");
    start();
    uint32_t register_table = new_table("/");
    uint32_t owner = new_table("");
    new_table("::");
    insert(register_table, "parcel/12/year", "1998");
    insert(register_table, "parcel/12/year", "1999");
    insert(register_table, "parcel/12/stand/3", "spruce");
    insert(register_table, "kept", "");
    insert(register_table, "\xFF", "no text");
    insert(register_table, "caf\xE9", "Latin-1");
    insert(owner, "name", "A. Forester");
    insert_table(register_table, "own\xE9r", owner);
    insert_table(register_table, "owner", owner);
    insert_table(register_table, "owner", owner);
    insert_table(register_table, "self", register_table);
    insert(owner, "name", "too late");
    say_count(register_table);
    say_count(owner);
    say_count(7);
    gvdb_image written = gvdb_write(BUILDER, register_table, image, 100, 0, 0);
    printf("write into 100 bytes: %" PRIu32 "\n", written.number);
    written = gvdb_write(BUILDER, register_table, image, sizeof image, 0, 0);
    printf("write: %" PRIu32 ", root %" PRIu32 " to %" PRIu32 ", length %" PRIu32 "\n", written.number, written.start, written.end, written.length);
    read_header("the image", image, written.length);
    printf("lay its header: %" PRIu32 "\n", gvdb_lay_header(image, written.length, 0, written.start, written.end));
    read_header("the file", image, written.length);
    lay_header(0);
    lay_header(7);
    read_back(written);
    image[written.end - 1] ^= 1;
    check("an image with a bit changed", written);
    find("year", written.length)[3] = 0xE9;
    check("an image with a Latin-1 key", written);
    list_children(written, "parcel/12/");
    find("parcel/", written.length)[0] = 0xFF;
    check("an image with a Latin-1 key below another", written);
    list_keys(written);
    say_first_bad();
    insert(register_table, "parcel/12/year", "2000");
    insert(register_table, "parcel/12/stand/", "none");
    insert(register_table, "parcel/12/stand/4", "pine");
    words[0] += 1;
    insert(register_table, "kept", "memory that was changed");
    say_forms();
    say_layered();
    say_filters();
    free(words);
    return 0;
}
