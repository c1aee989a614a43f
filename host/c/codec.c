/* obriska_codec.h, tried on examples/vectors and at its edges. The argument is the file of vectors: each
 * request is built from its words and fed to the broker, each answer is compared and read back. In C and in
 * C++. Says how much was tried and ends with 0 if all holds. */
#include <stdio.h>
#include <stdlib.h>
#include <string.h>

#include "obriska.h"
#include "obriska_codec.h"

#define EXPECT(claim) expect((claim), #claim, __LINE__)

static unsigned vector_line; /* of the file of vectors; 0: none is open */

static void expect(int holds, const char *claim, int line)
{
    if (!holds) {
        fprintf(stderr, "line %d, vector %u: %s does not hold\n", line, vector_line, claim);
        exit(EXIT_FAILURE);
    }
}

/* ---- a line of the file: words, and the bytes after the word '=' ----------------------------- */

enum { MAX_TEXT = 1024, MAX_WORDS = 12, MAX_ITEMS = 2048, MAX_BYTES = 4096, GUARD = 0xC5 };

static char text[MAX_TEXT];
static char *words[MAX_WORDS];
static size_t word_count;
static uint8_t bytes[MAX_BYTES];
static size_t byte_count;

/* Bytes in hexadecimal up to a blank or the end, *N behind them for a repetition; appended to `out`. */
static size_t read_hex(const char *word, uint8_t *out, size_t count)
{
    size_t digits = strspn(word, "0123456789ABCDEF"), begin = count;
    EXPECT(digits > 0 && digits % 2 == 0);
    size_t times = word[digits] == '*' ? strtoul(word + digits + 1, NULL, 10) : 1;
    for (size_t i = 0; i < times * digits / 2; i++) {
        const char pair[3] = {word[2 * i % digits], word[2 * i % digits + 1], 0};
        EXPECT(begin + i < MAX_BYTES);
        out[count++] = (uint8_t)strtoul(pair, NULL, 16);
    }
    return count;
}

/* Takes the text apart. 0 for a line that says nothing. */
static int split(void)
{
    int behind = 0;
    word_count = byte_count = 0;
    text[strcspn(text, "\n")] = 0;
    if (text[0] == '#' || text[0] == 0)
        return 0;
    for (char *word = strtok(text, " "); word != NULL; word = strtok(NULL, " ")) {
        if (behind)
            byte_count = read_hex(word, bytes, byte_count);
        else if (strcmp(word, "=") == 0)
            behind = 1;
        else {
            EXPECT(word_count < MAX_WORDS);
            words[word_count++] = word;
        }
    }
    EXPECT(word_count >= 2);
    return 1;
}

static int is(const char *one, const char *other)
{
    return strcmp(one, other) == 0;
}

static const char *value(const char *key)
{
    size_t length = strlen(key);
    for (size_t i = 2; i < word_count; i++)
        if (strncmp(words[i], key, length) == 0 && words[i][length] == '=')
            return words[i] + length + 1;
    fprintf(stderr, "vector %u: no %s\n", vector_line, key);
    exit(EXIT_FAILURE);
}

/* ---- what the vectors have tried ------------------------------------------------------------- */

enum { REQUESTS = 19, CLASSES = 14, STATUSES = 15, WIDTHS = 11 };

static unsigned tried_requests[REQUESTS], tried_classes[CLASSES], tried_statuses[STATUSES];
static unsigned tried_widths[WIDTHS]; /* bytes that a number takes */

static void count_width(uint64_t number)
{
    size_t width = 1;
    for (; number > 0x7F; number >>= 7)
        width++;
    tried_widths[width]++;
}

/* ---- numbers and lists in words -------------------------------------------------------------- */

static uint64_t parse(const char *word, const char *stop)
{
    char *end = NULL;
    uint64_t number = strtoull(word, &end, 0);
    EXPECT(end != word && (*end == 0 || strchr(stop, *end) != NULL));
    count_width(number);
    return number;
}

static uint32_t parse_u32(const char *word, const char *stop)
{
    uint64_t number = parse(word, stop);
    EXPECT(number <= UINT32_MAX);
    return (uint32_t)number;
}

static uint64_t u64(const char *key)
{
    return parse(value(key), "");
}

static uint32_t u32(const char *key)
{
    return parse_u32(value(key), "");
}

static uint16_t u16(const char *key)
{
    uint32_t number = u32(key);
    EXPECT(number <= UINT16_MAX);
    return (uint16_t)number;
}

/* An item of a list: where it begins, and how often it comes. */
struct item {
    const char *word;
    size_t times;
};

/* The next item, or 0 after the last. */
static int next_item(const char **rest, struct item *item)
{
    if (**rest == 0 || is(*rest, "none"))
        return 0;
    size_t length = strcspn(*rest, ","), name = strcspn(*rest, "*,");
    item->word = *rest;
    item->times = name < length ? strtoul(*rest + name + 1, NULL, 10) : 1;
    *rest += length + ((*rest)[length] == ',');
    return 1;
}

static uint64_t firsts[MAX_ITEMS], seconds[MAX_ITEMS];

/* Items NUMBER or NUMBER:NUMBER into `firsts` and `seconds`; gives how many. */
static size_t list(const char *key)
{
    struct item item;
    size_t count = 0;
    for (const char *rest = value(key); next_item(&rest, &item);) {
        const char *colon = item.word + strcspn(item.word, ":,*");
        for (size_t i = 0; i < item.times; i++, count++) {
            EXPECT(count < MAX_ITEMS);
            firsts[count] = parse(item.word, ":,*");
            seconds[count] = *colon == ':' ? parse_u32(colon + 1, ",*") : 0;
        }
    }
    return count;
}

static size_t sids(const char *key, uint32_t *out)
{
    size_t count = list(key);
    for (size_t i = 0; i < count; i++)
        out[i] = (uint32_t)firsts[i];
    return count;
}

/* A SID's text up to a mark. */
static struct obriska_sid_fields parse_sid(const char *word)
{
    struct obriska_sid_fields sid;
    char item[OBRISKA_SID_TEXT_LEN];
    size_t length = strcspn(word, ":,*");
    EXPECT(length < sizeof item);
    memcpy(item, word, length);
    item[length] = 0;
    EXPECT(obriska_sid_parse(&sid, item));
    return sid;
}

/* Items SID or SID:NUMBER into `out` and `seconds`; gives how many. */
static size_t real_sids(const char *key, struct obriska_sid_fields *out)
{
    struct item item;
    size_t count = 0;
    for (const char *rest = value(key); next_item(&rest, &item);) {
        const char *colon = item.word + strcspn(item.word, ":,*");
        for (size_t i = 0; i < item.times; i++, count++) {
            EXPECT(count < MAX_ITEMS);
            out[count] = parse_sid(item.word);
            seconds[count] = *colon == ':' ? parse_u32(colon + 1, ",*") : 0;
        }
    }
    return count;
}

/* ---- requests, from words to frames ---------------------------------------------------------- */

static size_t open_own(uint8_t *frame, size_t capacity)
{
    return obriska_build_open_own(frame, capacity, u32("mask"));
}

static size_t close_(uint8_t *frame, size_t capacity)
{
    return obriska_build_close(frame, capacity, u32("handle"));
}

static size_t create(uint8_t *frame, size_t capacity)
{
    static struct obriska_group groups[MAX_ITEMS];
    struct obriska_new_token token;
    token.user = u32("user");
    token.session = u64("session");
    token.integrity = u32("integrity");
    token.present = u64("present");
    token.by_default = u64("default");
    token.groups = groups;
    token.group_count = list("groups");
    for (size_t i = 0; i < token.group_count; i++) {
        groups[i].sid = (uint32_t)firsts[i];
        groups[i].attributes = (uint32_t)seconds[i];
    }
    return obriska_build_create(frame, capacity, &token);
}

static size_t query(uint8_t *frame, size_t capacity)
{
    return obriska_build_query(frame, capacity, u32("handle"), u32("class"), u32("capacity"));
}

static size_t privileges(uint8_t *frame, size_t capacity)
{
    static struct obriska_privilege_entry entries[MAX_ITEMS];
    size_t count = list("entries");
    for (size_t i = 0; i < count; i++) {
        entries[i].privilege = (uint32_t)firsts[i];
        entries[i].attributes = (uint32_t)seconds[i];
    }
    if (count == 1 && entries[0].attributes == 0x80000000u)
        return obriska_build_reset_privileges(frame, capacity, u32("handle"));
    return obriska_build_privileges(frame, capacity, u32("handle"), entries, count);
}

static size_t groups(uint8_t *frame, size_t capacity)
{
    static struct obriska_group_entry entries[MAX_ITEMS];
    size_t count = list("entries");
    for (size_t i = 0; i < count; i++) {
        entries[i].index = (uint32_t)firsts[i];
        entries[i].enable = (uint32_t)seconds[i];
    }
    if (count == 1 && entries[0].index == 0xFFFFFFFFu)
        return obriska_build_reset_groups(frame, capacity, u32("handle"));
    return obriska_build_groups(frame, capacity, u32("handle"), entries, count);
}

static size_t scope(uint8_t *frame, size_t capacity)
{
    return obriska_build_scope(frame, capacity, u32("handle"), u32("scope"));
}

static size_t defaults(uint8_t *frame, size_t capacity)
{
    static uint8_t dacl[MAX_BYTES];
    struct obriska_defaults fields;
    fields.owner = u16("owner");
    fields.primary_group = u16("primary-group");
    fields.flag = u32("flag");
    fields.dacl_length = is(value("dacl"), "none") ? 0 : read_hex(value("dacl"), dacl, 0);
    fields.dacl = fields.dacl_length == 0 ? NULL : dacl;
    return obriska_build_defaults(frame, capacity, u32("handle"), &fields);
}

static size_t duplicate(uint8_t *frame, size_t capacity)
{
    return obriska_build_duplicate(frame, capacity, u32("handle"), u32("type"), u32("level"),
                                   u32("mask"));
}

static size_t restrict_(uint8_t *frame, size_t capacity)
{
    static uint32_t denied[MAX_ITEMS], given[MAX_ITEMS];
    struct obriska_restriction fields;
    fields.write_restricted = u32("write-restricted");
    fields.removed = u64("removed");
    fields.deny = denied;
    fields.deny_count = sids("deny", denied);
    fields.sids = given;
    fields.sid_count = sids("sids", given);
    return obriska_build_restrict(frame, capacity, u32("handle"), &fields);
}

static size_t create_with_sids(uint8_t *frame, size_t capacity)
{
    static struct obriska_sid_fields entries[MAX_ITEMS];
    static struct obriska_sid_group entered[MAX_ITEMS];
    struct obriska_new_token_with_sids token;
    token.user = parse_sid(value("user"));
    token.session = u64("session");
    token.integrity = u32("integrity");
    token.present = u64("present");
    token.by_default = u64("default");
    token.groups = entered;
    token.group_count = real_sids("groups", entries);
    for (size_t i = 0; i < token.group_count; i++) {
        entered[i].sid = entries[i];
        entered[i].attributes = (uint32_t)seconds[i];
    }
    return obriska_build_create_with_sids(frame, capacity, &token);
}

static size_t restrict_to_sids(uint8_t *frame, size_t capacity)
{
    static uint32_t denied[MAX_ITEMS];
    static struct obriska_sid_fields given[MAX_ITEMS];
    struct obriska_restriction_to_sids fields;
    fields.write_restricted = u32("write-restricted");
    fields.removed = u64("removed");
    fields.deny = denied;
    fields.deny_count = sids("deny", denied);
    fields.sids = given;
    fields.sid_count = real_sids("sids", given);
    return obriska_build_restrict_to_sids(frame, capacity, u32("handle"), &fields);
}

static size_t install(uint8_t *frame, size_t capacity)
{
    return obriska_build_install(frame, capacity, u32("handle"));
}

static size_t impersonate(uint8_t *frame, size_t capacity)
{
    return obriska_build_impersonate(frame, capacity, u32("handle"));
}

static size_t revert(uint8_t *frame, size_t capacity)
{
    return obriska_build_revert(frame, capacity);
}

static size_t link_(uint8_t *frame, size_t capacity)
{
    return obriska_build_link(frame, capacity, u32("elevated"), u32("filtered"), u64("session"));
}

static size_t get_linked(uint8_t *frame, size_t capacity)
{
    return obriska_build_get_linked(frame, capacity, u32("handle"));
}

/* An item of a condition: all:COUNT, any:COUNT, not, enabled:PRIVILEGE or group:SID. */
static int append(struct obriska_buffer *condition, const char *word)
{
    size_t name = strcspn(word, ":,*");
    uint32_t number = word[name] == ':' ? parse_u32(word + name + 1, ",*") : 0;
    if (strncmp(word, "all", name) == 0)
        return obriska_condition_all(condition, number);
    if (strncmp(word, "any", name) == 0)
        return obriska_condition_any(condition, number);
    if (strncmp(word, "enabled", name) == 0)
        return obriska_condition_enabled(condition, number);
    if (strncmp(word, "group", name) == 0)
        return obriska_condition_group(condition, number);
    EXPECT(strncmp(word, "not", name) == 0);
    return obriska_condition_not(condition);
}

static struct obriska_buffer condition_of_words(void)
{
    static uint8_t room[OBRISKA_MAX_BODY];
    struct obriska_buffer condition = obriska_condition_begin(room, sizeof room);
    struct item item;
    for (const char *rest = value("condition"); next_item(&rest, &item);)
        for (size_t i = 0; i < item.times; i++)
            EXPECT(append(&condition, item.word));
    return condition;
}

static size_t evaluate(uint8_t *frame, size_t capacity)
{
    struct obriska_buffer condition = condition_of_words();
    return obriska_build_evaluate(frame, capacity, u32("handle"), &condition);
}

static const struct {
    const char *name;
    uint8_t request;
    size_t (*build)(uint8_t *frame, size_t capacity);
} builders[] = {
    {"open-own", 1, open_own},
    {"close", 2, close_},
    {"create", 3, create},
    {"query", 4, query},
    {"privileges", 5, privileges},
    {"groups", 6, groups},
    {"scope", 7, scope},
    {"defaults", 8, defaults},
    {"duplicate", 9, duplicate},
    {"restrict", 10, restrict_},
    {"install", 11, install},
    {"impersonate", 12, impersonate},
    {"revert", 13, revert},
    {"create-with-sids", 14, create_with_sids},
    {"restrict-to-sids", 15, restrict_to_sids},
    {"link", 16, link_},
    {"get-linked", 17, get_linked},
    {"evaluate", 18, evaluate},
};

/* ---- answers, compared with their words ------------------------------------------------------ */

/* Each of these gives 1 if the answer is read, and to the words' values. */
typedef int reader(struct obriska_answer *answer);

static int reads_refused(struct obriska_answer *answer)
{
    uint32_t size;
    return obriska_read_refusal(answer, &size) && answer->status == u32("status") &&
           size == u32("size");
}

static int reads_nothing(struct obriska_answer *answer)
{
    return obriska_read_nothing(answer);
}

static int reads_privileges_before(struct obriska_answer *answer)
{
    struct obriska_privileges_before before;
    return obriska_read_privileges_before(answer, &before) && before.present == u64("present") &&
           before.enabled == u64("enabled");
}

static int reads_groups_before(struct obriska_answer *answer)
{
    struct obriska_groups_before before;
    if (!obriska_read_groups_before(answer, &before))
        return 0;
    EXPECT(list("words") == OBRISKA_GROUP_WORDS);
    for (uint32_t i = 0; i < 64 * OBRISKA_GROUP_WORDS; i++)
        if (obriska_group_was_enabled(&before, i) != (int)(firsts[i / 64] >> i % 64 & 1))
            return 0;
    return memcmp(before.words, firsts, sizeof before.words) == 0;
}

static int reads_reverted(struct obriska_answer *answer)
{
    struct obriska_reverted reverted;
    return obriska_read_reverted(answer, &reverted) && reverted.token == u64("token") &&
           reverted.level == u32("level");
}

static int reads_groups(struct obriska_answer *answer)
{
    struct obriska_list read;
    struct obriska_group group;
    size_t i = 0, count = list("groups");
    if (!obriska_read_groups(answer, &read) || read.count != count)
        return 0;
    for (; obriska_next_group(&read, &group); i++)
        if (i >= count || group.sid != firsts[i] || group.attributes != seconds[i])
            return 0;
    return i == count;
}

static int reads_privileges(struct obriska_answer *answer)
{
    struct obriska_privileges read;
    return obriska_read_privileges(answer, &read) && read.present == u64("present") &&
           read.enabled == u64("enabled") && read.by_default == u64("default") &&
           read.used == u64("used");
}

static int reads_dacl(struct obriska_answer *answer)
{
    static uint8_t expected[MAX_BYTES];
    const uint8_t *dacl;
    size_t length, count = is(value("dacl"), "none") ? 0 : read_hex(value("dacl"), expected, 0);
    return obriska_read_dacl(answer, &dacl, &length) && length == count &&
           memcmp(dacl, expected, count) == 0;
}

static int reads_statistics(struct obriska_answer *answer)
{
    struct obriska_statistics read;
    return obriska_read_statistics(answer, &read) && read.number == u64("number") &&
           read.session == u64("session") && read.modified == u64("modified") &&
           read.type == u32("type") && read.root == u64("root");
}

static int reads_restricting(struct obriska_answer *answer)
{
    struct obriska_list read;
    uint32_t sid;
    size_t i = 0, count = list("sids");
    if (!obriska_read_restricting(answer, &read) || read.count != count)
        return 0;
    for (; obriska_next_sid(&read, &sid); i++)
        if (i >= count || sid != firsts[i])
            return 0;
    return i == count;
}

static const struct {
    const char *name;
    reader *read;
} readers[] = {
    {"refused", reads_refused},
    {"nothing", reads_nothing},
    {"reverted", reads_reverted},
    {"privileges-before", reads_privileges_before},
    {"groups", reads_groups},
    {"groups-before", reads_groups_before},
    {"dacl", reads_dacl},
    {"privileges", reads_privileges},
    {"statistics", reads_statistics},
    {"restricting", reads_restricting},
};

/* Answers of one number, by the key that it has in the file. */
static const struct {
    const char *name, *key;
    int (*read)(struct obriska_answer *answer, uint32_t *number);
} numbers[] = {
    {"handle", "number", obriska_read_handle},
    {"level", "level", obriska_read_level},
    {"evaluated", "holds", obriska_read_evaluated},
    {"user", "sid", obriska_read_user},
    {"owner", "sid", obriska_read_owner},
    {"primary-group", "sid", obriska_read_primary_group},
    {"type", "type", obriska_read_type},
    {"scope", "scope", obriska_read_scope},
    {"elevation", "elevation", obriska_read_elevation},
    {"integrity", "integrity", obriska_read_integrity},
};

static int reads(struct obriska_answer *answer)
{
    uint32_t number;
    for (size_t i = 0; i < sizeof readers / sizeof readers[0]; i++)
        if (is(words[1], readers[i].name))
            return readers[i].read(answer);
    for (size_t i = 0; i < sizeof numbers / sizeof numbers[0]; i++)
        if (is(words[1], numbers[i].name))
            return numbers[i].read(answer, &number) && number == u32(numbers[i].key);
    fprintf(stderr, "vector %u: no reader %s\n", vector_line, words[1]);
    exit(EXIT_FAILURE);
}

/* Reads `count` bytes from a room that has no more, so that a sanitizer finds a read beyond them. */
static int reads_exactly(struct obriska_answer *answer, const uint8_t *from, size_t count)
{
    uint8_t *room = (uint8_t *)malloc(count + (count == 0));
    EXPECT(room != NULL);
    memcpy(room, from, count);
    int good = obriska_read_answer(answer, room, count) && answer->length == count && reads(answer);
    free(room);
    return good;
}

/* ---- each vector, and what is near it -------------------------------------------------------- */

/* The frame is built where there is room for it, and with nothing written beyond; else 0 comes. Of a long
 * one not all smaller rooms are tried. */
static void try_builder(size_t builder)
{
    static uint8_t frame[OBRISKA_FRAME_LEN + 1];
    size_t least = byte_count > 300 ? byte_count - 3 : 0;
    for (size_t capacity = least; capacity < byte_count; capacity++) {
        memset(frame, GUARD, sizeof frame);
        EXPECT(builders[builder].build(frame, capacity) == 0);
        EXPECT(frame[capacity] == GUARD);
    }
    memset(frame, GUARD, sizeof frame);
    EXPECT(builders[builder].build(frame, byte_count) == byte_count);
    EXPECT(memcmp(frame, bytes, byte_count) == 0 && frame[byte_count] == GUARD);
    EXPECT(builders[builder].build(frame, sizeof frame) == byte_count);
}

/* A frame of the first `body` bytes of a body. */
static size_t reframed(uint8_t *frame, const uint8_t *from, size_t body)
{
    size_t length = body < 0x80 ? 1 : 2;
    frame[0] = (uint8_t)(body < 0x80 ? body : 0x80 | (body & 0x7F));
    if (length == 2)
        frame[1] = (uint8_t)(body >> 7);
    memcpy(frame + length, from, body);
    return length + body;
}

/* An answer that ends too early: cut on the way at every byte, or of a shorter body. */
static void try_cut(void)
{
    static uint8_t frame[MAX_BYTES + 2], body[MAX_BYTES];
    struct obriska_answer answer;
    size_t header = bytes[0] < 0x80 ? 1 : 2, count = byte_count - header;
    for (size_t length = 0; length < byte_count; length++) {
        EXPECT(!reads_exactly(&answer, bytes, length));
        EXPECT(answer.error == OBRISKA_ERROR_CUT && answer.place == length && answer.length == 0);
        EXPECT(!reads(&answer) && answer.error == OBRISKA_ERROR_CUT && answer.place == length);
    }
    memcpy(body, bytes + header, count);
    for (size_t shorter = 1; shorter < count; shorter++) {
        size_t length = reframed(frame, body, shorter);
        EXPECT(!reads_exactly(&answer, frame, length));
        EXPECT(answer.error == OBRISKA_ERROR_CUT && answer.place == length);
    }
    body[count] = 0;
    size_t longer = reframed(frame, body, count + 1);
    EXPECT(!reads_exactly(&answer, frame, longer));
    EXPECT(answer.error == OBRISKA_ERROR_LEFT && answer.place == longer - 1);
}

/* An answer with another byte anywhere has not the same words: each number has one form. */
static void try_damage(void)
{
    struct obriska_answer answer;
    for (size_t i = 0; i < byte_count; i++) {
        uint8_t kept = bytes[i];
        for (unsigned change = 1; change<256; change += byte_count> 64 ? 31 : 1) {
            bytes[i] = (uint8_t)(kept ^ change);
            EXPECT(!reads_exactly(&answer, bytes, byte_count));
        }
        bytes[i] = kept;
    }
}

/* ---- the session ----------------------------------------------------------------------------- */

static struct obriska_memory memory;
static uint8_t got[OBRISKA_ANSWER_LEN];
static size_t got_count;
static unsigned depth; /* of the last request's condition */
static unsigned requests, answers;

static void feed(uint32_t station)
{
    for (size_t used = 0; used < byte_count;) {
        EXPECT(got_count == 0);
        struct obriska_fed fed =
            obriska_memory_feed(&memory, station, bytes + used, byte_count - used, got, sizeof got);
        EXPECT(fed.refusal == 0);
        used += fed.used;
        got_count = fed.answered;
    }
}

static void play_request(void)
{
    uint32_t station = parse_u32(words[0], "");
    EXPECT(got_count == 0); /* an answer that the file does not have */
    depth = 1;
    if (is(words[1], "reconnect")) {
        EXPECT(obriska_memory_reconnect(&memory, station) == 0);
        return;
    }
    size_t builder = 0, all = sizeof builders / sizeof builders[0];
    while (builder < all && !is(words[1], builders[builder].name))
        builder++;
    EXPECT(builder < all || is(words[1], "bytes"));
    if (builder < all) {
        tried_requests[builders[builder].request]++;
        try_builder(builder);
    }
    if (is(words[1], "query") && u32("class") < CLASSES)
        tried_classes[u32("class")]++;
    if (is(words[1], "evaluate")) {
        struct obriska_buffer condition = condition_of_words();
        depth = obriska_condition_depth(condition.bytes, condition.length);
    }
    requests++;
    feed(station);
}

static void play_answer(void)
{
    struct obriska_answer answer;
    EXPECT(got_count == byte_count && memcmp(got, bytes, byte_count) == 0);
    EXPECT(reads_exactly(&answer, bytes, byte_count));
    EXPECT(answer.error == OBRISKA_ERROR_NONE && answer.status < STATUSES);
    EXPECT((depth == 0 || depth > OBRISKA_MAX_DEPTH) <= (answer.status == OBRISKA_STATUS_LAYOUT));
    tried_statuses[answer.status]++;
    try_cut();
    try_damage();
    answers++;
    got_count = 0;
}

static void play(const char *name)
{
    FILE *file = fopen(name, "r");
    EXPECT(file != NULL);
    EXPECT(obriska_memory_start(&memory) == 0);
    for (vector_line = 1; fgets(text, sizeof text, file) != NULL; vector_line++) {
        EXPECT(strchr(text, '\n') != NULL);
        if (!split())
            continue;
        if (is(words[0], "<"))
            play_answer();
        else
            play_request();
    }
    EXPECT(got_count == 0 && !ferror(file));
    fclose(file);
    vector_line = 0;
}

/* Every request, class, width of a number, and refusal of a request was tried. */
static void the_vectors_leave_nothing_out(void)
{
    for (size_t i = 1; i < REQUESTS; i++)
        EXPECT(tried_requests[i] > 0);
    for (size_t i = 1; i < CLASSES; i++)
        EXPECT(tried_classes[i] > 0);
    for (size_t i = 0; i < STATUSES; i++)
        EXPECT((tried_statuses[i] > 0) == (i < 11 || i == 14));
    for (size_t i = 1; i < WIDTHS; i++)
        EXPECT(tried_widths[i] > 0);
}

/* ---- edges ----------------------------------------------------------------------------------- */

static void the_names_agree_with_obriska_h(void)
{
    EXPECT((int)OBRISKA_STATUS_LAYOUT == OBRISKA_REFUSED_LAYOUT);
    EXPECT((int)OBRISKA_STATUS_HANDLE == OBRISKA_REFUSED_HANDLE);
    EXPECT((int)OBRISKA_STATUS_RIGHT == OBRISKA_REFUSED_RIGHT);
    EXPECT((int)OBRISKA_STATUS_PRIVILEGE == OBRISKA_REFUSED_PRIVILEGE);
    EXPECT((int)OBRISKA_STATUS_FIELD == OBRISKA_REFUSED_FIELD);
    EXPECT((int)OBRISKA_STATUS_PROTECTED == OBRISKA_REFUSED_PROTECTED);
    EXPECT((int)OBRISKA_STATUS_MISMATCH == OBRISKA_REFUSED_MISMATCH);
    EXPECT((int)OBRISKA_STATUS_FULL == OBRISKA_REFUSED_FULL);
    EXPECT((int)OBRISKA_STATUS_CAPACITY == OBRISKA_REFUSED_CAPACITY);
    EXPECT((int)OBRISKA_STATUS_BROKEN == OBRISKA_REFUSED_BROKEN);
    EXPECT((int)OBRISKA_STATUS_NOT_LINKED == OBRISKA_REFUSED_NOT_LINKED);
    EXPECT(OBRISKA_FRAME_LEN == OBRISKA_PENDING_BYTES);
    EXPECT(OBRISKA_MAX_SID == 2 + OBRISKA_AUTHORITY_BYTES + 4 * OBRISKA_MAX_SUB_AUTHORITIES);
}

static void each_refusal_and_each_error_has_a_text_of_its_own(void)
{
    for (uint32_t one = 0; one <= STATUSES; one++)
        for (uint32_t other = 0; other < one; other++)
            EXPECT(!is(obriska_refusal_text(one), obriska_refusal_text(other)));
    EXPECT(is(obriska_refusal_text(STATUSES), obriska_refusal_text(UINT32_MAX)));
    for (int one = 0; one <= OBRISKA_ERROR_SUCCESS; one++)
        for (int other = 0; other < one; other++)
            EXPECT(!is(obriska_error_text((enum obriska_error)one),
                       obriska_error_text((enum obriska_error)other)));
}

static void a_body_has_2048_bytes_at_most(void)
{
    static uint8_t plain[OBRISKA_FRAME_LEN], frame[2 * OBRISKA_FRAME_LEN];
    static uint32_t many[OBRISKA_FRAME_LEN];
    struct obriska_defaults fields = {0, 0, OBRISKA_DACL_SET, plain, OBRISKA_MAX_BODY - 7};
    struct obriska_restriction restriction = {0, 0, NULL, 0, many, OBRISKA_MAX_BODY - 7};
    EXPECT(obriska_build_defaults(frame, sizeof frame, 1, &fields) == OBRISKA_FRAME_LEN);
    EXPECT(frame[0] == 0x80 && frame[1] == 0x10 && frame[2] == 8);
    fields.dacl_length++;
    EXPECT(obriska_build_defaults(frame, sizeof frame, 1, &fields) == 0);
    EXPECT(obriska_build_restrict(frame, sizeof frame, 1, &restriction) == OBRISKA_FRAME_LEN);
    restriction.sid_count++;
    EXPECT(obriska_build_restrict(frame, sizeof frame, 1, &restriction) == 0);
}

static void an_empty_list_may_be_null_and_so_may_no_buffer(void)
{
    uint8_t frame[16];
    struct obriska_new_token token = {1, 2, 0, 0, 0, NULL, 0};
    struct obriska_defaults fields = {0, 0, OBRISKA_DACL_STAYS, NULL, 0};
    struct obriska_restriction restriction = {0, 0, NULL, 0, NULL, 0};
    struct obriska_new_token_with_sids with_sids = {{{0}, 0, {0}}, 2, 0, 0, 0, NULL, 0};
    struct obriska_restriction_to_sids to_sids = {0, 0, NULL, 0, NULL, 0};
    struct obriska_buffer nothing = obriska_condition_begin(NULL, 0);
    EXPECT(obriska_build_create_with_sids(frame, sizeof frame, &with_sids) == 15);
    EXPECT(obriska_build_restrict_to_sids(frame, sizeof frame, 1, &to_sids) == 7);
    EXPECT(obriska_build_create(frame, sizeof frame, &token) == 8);
    EXPECT(obriska_build_defaults(frame, sizeof frame, 1, &fields) == 7);
    EXPECT(obriska_build_restrict(frame, sizeof frame, 1, &restriction) == 7);
    EXPECT(obriska_build_privileges(frame, sizeof frame, 1, NULL, 0) == 4);
    EXPECT(obriska_build_groups(frame, sizeof frame, 1, NULL, 0) == 4);
    EXPECT(obriska_build_evaluate(frame, sizeof frame, 1, &nothing) == 3);
    EXPECT(!obriska_condition_not(&nothing) && nothing.failed);
    EXPECT(obriska_build_evaluate(frame, sizeof frame, 1, &nothing) == 0);
    EXPECT(obriska_build_revert(NULL, 0) == 0 && obriska_build_open_own(NULL, 0, 8) == 0);
}

/* Answers that no broker gives: what the reader is, where it fails and why. */
static const struct bad_answer {
    enum obriska_error error;
    size_t place;
    const char *bytes;
    int (*read)(struct obriska_answer *answer, uint32_t *number); /* null: obriska_read_answer alone */
} bad_answers[] = {
    {OBRISKA_ERROR_LENGTH, 0, "00", NULL},
    {OBRISKA_ERROR_LENGTH, 1, "8000", NULL},
    {OBRISKA_ERROR_LENGTH, 1, "8110", NULL},
    {OBRISKA_ERROR_LENGTH, 1, "FF7F", NULL},
    {OBRISKA_ERROR_LENGTH, 1, "FFFF01", NULL},
    {OBRISKA_ERROR_CUT, 1, "80", NULL},
    {OBRISKA_ERROR_LENGTH, 1, "8080", NULL},
    {OBRISKA_ERROR_CUT, 2, "8010", NULL},
    {OBRISKA_ERROR_NUMBER, 1, "0180", NULL},
    {OBRISKA_ERROR_NUMBER, 2, "028000", NULL},
    {OBRISKA_ERROR_NUMBER, 5, "06FFFFFFFF1F00", NULL},
    {OBRISKA_ERROR_NUMBER, 3, "03008000", obriska_read_handle},
    {OBRISKA_ERROR_NUMBER, 6, "0600FFFFFFFF1F", obriska_read_handle},
    {OBRISKA_ERROR_LEFT, 3, "03000101", obriska_read_handle},
    {OBRISKA_ERROR_REFUSED, 1, "0105", obriska_read_handle},
    {OBRISKA_ERROR_REFUSED, 1, "020907", obriska_read_user},
    {OBRISKA_ERROR_SUCCESS, 1, "0100", obriska_read_refusal},
    {OBRISKA_ERROR_LEFT, 2, "020500", obriska_read_refusal},
    {OBRISKA_ERROR_CUT, 2, "0109", obriska_read_refusal},
    {OBRISKA_ERROR_VALUE, 2, "020002", obriska_read_evaluated},
};

static void a_bad_answer_is_told_with_its_place(void)
{
    static uint8_t frame[MAX_BYTES];
    for (size_t i = 0; i < sizeof bad_answers / sizeof bad_answers[0]; i++) {
        const struct bad_answer *bad = &bad_answers[i];
        struct obriska_answer answer;
        uint32_t number;
        size_t count = read_hex(bad->bytes, frame, 0);
        int whole = obriska_read_answer(&answer, frame, count);
        EXPECT(whole == (bad->read != NULL));
        EXPECT(bad->read == NULL || !bad->read(&answer, &number));
        EXPECT(answer.error == bad->error && answer.place == bad->place);
    }
}

static void a_u64_has_ten_bytes_and_no_more_than_64_bits(void)
{
    static const uint8_t lasts[] = {0x01, 0x02, 0x00, 0x81};
    uint8_t frame[16];
    for (size_t i = 0; i < sizeof lasts; i++) {
        struct obriska_answer answer;
        struct obriska_reverted reverted;
        frame[0] = i == 3 ? 0x0D : 0x0C;
        frame[1] = 0;
        memset(frame + 2, 0xFF, 9);
        frame[11] = lasts[i];
        frame[12] = frame[13] = 0;
        EXPECT(obriska_read_answer(&answer, frame, 1u + frame[0]));
        EXPECT(obriska_read_reverted(&answer, &reverted) == (i == 0));
        EXPECT(i == 0 ? reverted.token == UINT64_MAX
                      : answer.error == OBRISKA_ERROR_NUMBER && answer.place == 11);
    }
}

/* A report with one entry more than a token has. */
static void a_count_above_its_limit_is_an_error(void)
{
    static uint8_t body[MAX_BYTES], frame[MAX_BYTES];
    struct obriska_answer answer;
    struct obriska_list entries;
    const uint8_t *dacl;
    size_t length;
    body[1] = OBRISKA_MAX_GROUPS + 1;
    EXPECT(
        obriska_read_answer(&answer, frame, reframed(frame, body, 2 + 2 * (OBRISKA_MAX_GROUPS + 1))));
    EXPECT(!obriska_read_groups(&answer, &entries) && entries.left == 0);
    EXPECT(answer.error == OBRISKA_ERROR_VALUE && answer.place == 3);
    body[1] = OBRISKA_MAX_RESTRICTING + 1;
    EXPECT(obriska_read_answer(&answer, frame, reframed(frame, body, 2 + OBRISKA_MAX_RESTRICTING + 1)));
    EXPECT(!obriska_read_restricting(&answer, &entries) && entries.left == 0);
    EXPECT(answer.error == OBRISKA_ERROR_VALUE && answer.place == 2);
    body[1] = 0x81; /* 257 */
    body[2] = 0x02;
    EXPECT(obriska_read_answer(&answer, frame, reframed(frame, body, 3 + OBRISKA_MAX_DACL + 1)));
    EXPECT(!obriska_read_dacl(&answer, &dacl, &length));
    EXPECT(answer.error == OBRISKA_ERROR_VALUE && answer.place == 3);
}

static void answers_follow_each_other(void)
{
    static const uint8_t stream[] = {0x02, 0x00, 0x01, 0x01, 0x05, 0x80};
    struct obriska_answer answer;
    uint32_t handle, size;
    EXPECT(obriska_read_answer(&answer, stream, sizeof stream) && answer.length == 3);
    EXPECT(answer.fields == 2 && obriska_read_handle(&answer, &handle) && handle == 1);
    EXPECT(obriska_read_handle(&answer, &handle) && handle == 1);
    EXPECT(obriska_read_answer(&answer, stream + 3, sizeof stream - 3) && answer.length == 2);
    EXPECT(answer.status == 5 && obriska_read_refusal(&answer, &size) && size == 0);
    EXPECT(!obriska_read_answer(&answer, stream + 5, 1));
    EXPECT(answer.error == OBRISKA_ERROR_CUT && answer.place == 1);
    EXPECT(!obriska_read_answer(&answer, NULL, 0) && answer.error == OBRISKA_ERROR_CUT);
}

/* Frames of the longest bodies. */
static void an_answer_may_have_any_length_of_a_frame(void)
{
    static const size_t bodies[] = {1, 0x7F, 0x80, 0xFF, 0x100, 0x7FF, 0x800};
    static uint8_t body[OBRISKA_MAX_BODY], frame[OBRISKA_FRAME_LEN];
    for (size_t i = 0; i < sizeof bodies / sizeof bodies[0]; i++) {
        struct obriska_answer answer;
        size_t length = reframed(frame, body, bodies[i]);
        EXPECT(obriska_read_answer(&answer, frame, length) && answer.length == length);
        EXPECT(answer.fields == length - bodies[i] + 1 && answer.status == 0);
        EXPECT(!obriska_read_answer(&answer, frame, length - 1) && answer.place == length - 1);
    }
}

static void a_privilege_was_absent_disabled_or_enabled(void)
{
    struct obriska_privileges_before before = {0x88, 0x08};
    EXPECT(obriska_privilege_was(&before, 2) == OBRISKA_PRIVILEGE_ABSENT);
    EXPECT(obriska_privilege_was(&before, 7) == OBRISKA_PRIVILEGE_DISABLED);
    EXPECT(obriska_privilege_was(&before, 3) == OBRISKA_PRIVILEGE_ENABLED);
    EXPECT(obriska_privilege_was(&before, 67) == OBRISKA_PRIVILEGE_ABSENT);
}

/* ---- SIDs ------------------------------------------------------------------------------------ */

static const struct real_sid {
    const char *text, *packed;
} real_sids_[] = {
    {"S-1-5-7", "010100000000000507000000"},
    {"S-1-5-18", "010100000000000512000000"},
    {"S-1-0", "0100000000000000"},
    {"S-1-0-0", "010100000000000000000000"},
    {"S-1-5-32-544", "01020000000000052000000020020000"},
    {"S-1-4294967295-4294967295", "01010000FFFFFFFFFFFFFFFF"},
    {"S-1-0x000100000000-1", "010100010000000001000000"},
    {"S-1-0x0123456789AB", "01000123456789AB"},
    {"S-1-0xFFFFFFFFFFFF", "0100FFFFFFFFFFFF"},
    {"S-1-5-1-2-3-4-5-6-7-8-9-10-11-12-13-14-305419896",
     "010F0000000000050100000002000000030000000400000005000000060000000700000008000000"
     "090000000A0000000B0000000C0000000D0000000E00000078563412"},
};

/* Packs and prints a SID into each shorter room too: 0 comes then, and nothing is written beyond. */
static void try_rooms(const struct obriska_sid_fields *sid, const char *printed, size_t size)
{
    uint8_t packed[OBRISKA_MAX_SID + 1];
    char room[OBRISKA_SID_TEXT_LEN + 1];
    size_t length = strlen(printed);
    for (size_t capacity = 0; capacity <= size; capacity++) {
        memset(packed, GUARD, sizeof packed);
        EXPECT(obriska_sid_pack(packed, capacity, sid) == (capacity < size ? 0 : size));
        EXPECT(packed[capacity] == GUARD);
    }
    for (size_t capacity = 0; capacity <= length + 1; capacity++) {
        memset(room, 'x', sizeof room);
        EXPECT(obriska_sid_print(room, capacity, sid) == (capacity <= length ? 0 : length));
        EXPECT(room[capacity] == 'x');
    }
    EXPECT(is(room, printed));
    EXPECT(obriska_sid_pack(NULL, 0, sid) == 0 && obriska_sid_print(NULL, 0, sid) == 0);
}

static void a_sid_is_packed_unpacked_printed_and_parsed(void)
{
    static uint8_t expected[MAX_BYTES];
    for (size_t i = 0; i < sizeof real_sids_ / sizeof real_sids_[0]; i++) {
        const struct real_sid *real = &real_sids_[i];
        struct obriska_sid_fields parsed, unpacked;
        uint8_t packed[OBRISKA_MAX_SID];
        size_t size = read_hex(real->packed, expected, 0);
        EXPECT(obriska_sid_parse(&parsed, real->text));
        EXPECT(obriska_sid_pack(packed, sizeof packed, &parsed) == size);
        EXPECT(memcmp(packed, expected, size) == 0);
        EXPECT(obriska_sid_unpack(&unpacked, expected, size) == size);
        EXPECT(obriska_sid_unpack(&unpacked, expected, size + 1) == size);
        EXPECT(memcmp(unpacked.sub_authorities, parsed.sub_authorities,
                      sizeof parsed.sub_authorities) == 0);
        for (size_t j = 0; j < sizeof real_sids_ / sizeof real_sids_[0]; j++) {
            EXPECT(obriska_sid_parse(&parsed, real_sids_[j].text));
            EXPECT(obriska_sid_equal(&parsed, &unpacked) == (i == j));
        }
        try_rooms(&unpacked, real->text, size);
        for (size_t length = 0; length < size; length++)
            EXPECT(obriska_sid_unpack(&unpacked, expected, length) == 0);
    }
}

static void the_longest_text_has_its_room(void)
{
    struct obriska_sid_fields sid;
    char room[OBRISKA_SID_TEXT_LEN];
    memset(&sid, 0xFF, sizeof sid);
    sid.count = OBRISKA_MAX_SUB_AUTHORITIES;
    EXPECT(obriska_sid_print(room, sizeof room, &sid) == OBRISKA_SID_TEXT_LEN - 1);
    EXPECT(obriska_sid_parse(&sid, room) && sid.count == OBRISKA_MAX_SUB_AUTHORITIES);
    EXPECT(sid.authority[0] == 0xFF && sid.sub_authorities[14] == UINT32_MAX);
}

static void other_forms_of_a_text_are_parsed_too(void)
{
    static const char *const forms[] = {"s-1-5-18", "S-1-0x000000000005-18",
                                        "S-1-0X000000000005-0018", "S-1-05-18"};
    struct obriska_sid_fields system, sid;
    EXPECT(obriska_sid_parse(&system, "S-1-5-18"));
    for (size_t i = 0; i < sizeof forms / sizeof forms[0]; i++)
        EXPECT(obriska_sid_parse(&sid, forms[i]) && obriska_sid_equal(&sid, &system));
    EXPECT(obriska_sid_parse(&sid, "S-1-0xabcdefABCDEF"));
    EXPECT(sid.authority[0] == 0xAB && sid.authority[2] == 0xEF && sid.authority[5] == 0xEF);
}

static void what_is_no_sid_is_not_parsed_unpacked_or_written(void)
{
    static const char *const texts[] = {
        "", "S", "S-1", "S-2-5-18", "S-1-", "S-1--18", "S-1-x", "S-1-+5-18", "S-1-4294967296",
        "S-1-00000000005", "S-1-0x5", "S-1-0x0000000000005", "S-1-0x00000000000g", "S-1-5-", "S-1-5-18-",
        "S-1-5-18 ", "S-1-5-0x12", "S-1-5-18-4294967296", "S-1-5--18", " S-1-5-18",
        "S-1-5-1-2-3-4-5-6-7-8-9-10-11-12-13-14-15-16"};
    static const uint8_t bare[8] = {1}, many[128] = {1, 16}, other[12] = {2, 1};
    uint8_t frame[OBRISKA_FRAME_LEN];
    char room[OBRISKA_SID_TEXT_LEN];
    struct obriska_sid_fields sid;
    struct obriska_new_token_with_sids token = {{{0}, 0, {0}}, 0, 0, 0, 0, NULL, 0};
    struct obriska_restriction_to_sids restriction = {0, 0, NULL, 0, &sid, 1};
    for (size_t i = 0; i < sizeof texts / sizeof texts[0]; i++)
        EXPECT(!obriska_sid_parse(&sid, texts[i]));
    EXPECT(obriska_sid_unpack(&sid, bare, sizeof bare) == sizeof bare);
    EXPECT(obriska_sid_unpack(&sid, many, sizeof many) == 0);
    EXPECT(obriska_sid_unpack(&sid, other, sizeof other) == 0 && obriska_sid_unpack(&sid, NULL, 0) == 0);
    EXPECT(obriska_build_restrict_to_sids(frame, sizeof frame, 1, &restriction) == 15);
    token.user.count = sid.count = OBRISKA_MAX_SUB_AUTHORITIES + 1;
    EXPECT(obriska_sid_pack(frame, sizeof frame, &sid) == 0);
    EXPECT(obriska_sid_print(room, sizeof room, &sid) == 0 && !obriska_sid_equal(&sid, &sid));
    EXPECT(obriska_build_create_with_sids(frame, sizeof frame, &token) == 0);
    EXPECT(obriska_build_restrict_to_sids(frame, sizeof frame, 1, &restriction) == 0);
}

/* ---- conditions ------------------------------------------------------------------------------ */

static const struct {
    unsigned depth;
    const char *bytes;
} conditions[] = {
    {1, "0407"},
    {1, "05FFFFFFFF0F"},
    {1, "0100"},
    {1, "0200"},
    {2, "030407"},
    {2, "01010407"},
    {4, "0102040702020514030413"},
    {8, "030303030303030407"},
    {8, "030303030303030100"},
    {9, "03030303030303030407"},
    {8, "01010101010101010101010101010100"},
    {9, "01010101010101010101010101010101"},
    {0, "03"},
    {0, "01020407"},
    {0, "04070407"},
    {0, "0607"},
    {0, "0007"},
    {0, "048700"},
    {0, "04FFFFFFFF1F"},
};

static void the_depth_of_a_condition_is_told(void)
{
    static uint8_t condition[MAX_BYTES];
    EXPECT(obriska_condition_depth(condition, 0) == 0 && obriska_condition_depth(NULL, 0) == 0);
    for (size_t i = 0; i < sizeof conditions / sizeof conditions[0]; i++) {
        size_t count = read_hex(conditions[i].bytes, condition, 0);
        EXPECT(obriska_condition_depth(condition, count) == conditions[i].depth);
    }
}

static uint32_t next_random(void)
{
    static uint32_t state = 0x9E3779B9u;
    state ^= state << 13;
    state ^= state >> 17;
    state ^= state << 5;
    return state;
}

/* What obriska_condition_depth tells is what the broker takes: on short and long runs of small bytes. */
static void the_broker_refuses_by_1_what_has_no_depth_or_too_much(void)
{
    enum { TRIES = 40000, LONGEST = 24 };
    static uint8_t condition[LONGEST];
    unsigned good = 0;
    EXPECT(obriska_memory_start(&memory) == 0);
    byte_count = obriska_build_open_own(bytes, sizeof bytes, OBRISKA_RIGHT_QUERY);
    got_count = 0;
    feed(0);
    for (unsigned i = 0; i < TRIES; i++) {
        struct obriska_buffer whole = obriska_condition_begin(condition, LONGEST);
        struct obriska_answer answer;
        whole.length = 1 + next_random() % LONGEST;
        for (size_t at = 0; at < whole.length; at++)
            condition[at] = (uint8_t)(next_random() % 3 == 0 ? 3 : next_random() % 6);
        unsigned told = obriska_condition_depth(condition, whole.length);
        byte_count = obriska_build_evaluate(bytes, sizeof bytes, 1, &whole);
        got_count = 0;
        feed(0);
        EXPECT(obriska_read_answer(&answer, got, got_count));
        EXPECT((told >= 1 && told <= OBRISKA_MAX_DEPTH) == (answer.status != OBRISKA_STATUS_LAYOUT));
        good += told >= 1 && told <= OBRISKA_MAX_DEPTH;
    }
    EXPECT(good > TRIES / 100);
}

/* What obriska_sid_unpack takes is what the broker takes: request 15 with one SID, on no handle. */
static void the_broker_refuses_by_1_what_is_no_packed_sid(void)
{
    enum { TRIES = 4000, HEAD = 7, LONGEST = 8 + 4 * 17 };
    static const uint8_t head[HEAD] = {0, 15, 99, 0, 0, 0, 1};
    unsigned good = 0;
    EXPECT(obriska_memory_start(&memory) == 0);
    for (unsigned i = 0; i < TRIES; i++) {
        struct obriska_sid_fields sid;
        struct obriska_answer answer;
        uint8_t packed[LONGEST];
        size_t size = 8 + 4 * (next_random() % 18) - (next_random() % 8 == 0);
        for (size_t at = 0; at < size; at++)
            packed[at] = (uint8_t)next_random();
        packed[0] = next_random() % 8 == 0 ? (uint8_t)(next_random() % 4) : 1;
        packed[1] = (uint8_t)(next_random() % 4 == 0 ? next_random() % 18 : (size - 8) / 4);
        int told = obriska_sid_unpack(&sid, packed, size) == size;
        memcpy(bytes, head, HEAD);
        memcpy(bytes + HEAD, packed, size);
        bytes[0] = (uint8_t)(HEAD - 1 + size);
        byte_count = HEAD + size;
        got_count = 0;
        feed(0);
        EXPECT(obriska_read_answer(&answer, got, got_count));
        EXPECT(answer.status == (told ? OBRISKA_STATUS_HANDLE : OBRISKA_STATUS_LAYOUT));
        good += (unsigned)told;
    }
    EXPECT(good > TRIES / 4 && good < TRIES - TRIES / 10);
}

int main(int count, char **arguments)
{
    EXPECT(count == 2);
    the_names_agree_with_obriska_h();
    each_refusal_and_each_error_has_a_text_of_its_own();
    play(arguments[1]);
    the_vectors_leave_nothing_out();
    a_body_has_2048_bytes_at_most();
    an_empty_list_may_be_null_and_so_may_no_buffer();
    a_bad_answer_is_told_with_its_place();
    a_u64_has_ten_bytes_and_no_more_than_64_bits();
    a_count_above_its_limit_is_an_error();
    answers_follow_each_other();
    an_answer_may_have_any_length_of_a_frame();
    a_privilege_was_absent_disabled_or_enabled();
    a_sid_is_packed_unpacked_printed_and_parsed();
    the_longest_text_has_its_room();
    other_forms_of_a_text_are_parsed_too();
    what_is_no_sid_is_not_parsed_unpacked_or_written();
    the_depth_of_a_condition_is_told();
    the_broker_refuses_by_1_what_has_no_depth_or_too_much();
    the_broker_refuses_by_1_what_is_no_packed_sid();
    printf("%u requests and %u answers of the vectors\n", requests, answers);
    return EXIT_SUCCESS;
}
