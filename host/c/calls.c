/* What obriska.h promises of each call, tried from C. Writes nothing and ends with 0 if all holds. */
#include <stdio.h>
#include <stdlib.h>
#include <string.h>

#include "obriska.h"

#define EXPECT(claim) expect((claim), #claim, __LINE__)

static void expect(int holds, const char *claim, int line)
{
    if (!holds) {
        fprintf(stderr, "line %d: %s does not hold\n", line, claim);
        exit(EXIT_FAILURE);
    }
}

static struct obriska_memory memory, before;
static uint8_t answer[OBRISKA_ANSWER_LEN];

static struct obriska_fed feed(uint32_t station, const uint8_t *data, size_t len)
{
    return obriska_memory_feed(&memory, station, data, len, answer, sizeof answer);
}

static int is(struct obriska_fed fed, uint32_t refusal, size_t used, size_t answered)
{
    return fed.refusal == refusal && fed.used == used && fed.answered == answered;
}

static int unchanged(void) { return memcmp(&memory, &before, sizeof memory) == 0; }

static const uint8_t open_own[] = {0x02, 0x01, 0x28};

static uint64_t *station_word(size_t station, enum obriska_station_word word)
{
    size_t row = OBRISKA_FIRST_STATION + station * OBRISKA_STATION_WORDS;
    return &memory.control[row + word];
}

/* The first word of a row of the table whose SID is of authority 5 and has one sub-authority. */
static const uint64_t one_sub_authority = 0x0500000000000101;

/* Whether the table is as at the start: S-1-5-7 and S-1-5-18, in their order, and zeros behind. */
static int table_is_the_starts(void)
{
    const uint64_t *places = &memory.control[OBRISKA_FIRST_SID_PLACE];
    const uint64_t *rows = &memory.control[OBRISKA_FIRST_SID_ROW];
    uint64_t others = 0;
    for (size_t i = 2; i < OBRISKA_SIDS; i++)
        others |= places[i];
    for (size_t i = 0; i < OBRISKA_SIDS * OBRISKA_SID_WORDS; i++)
        others |= i % OBRISKA_SID_WORDS < 2 && i < 2 * OBRISKA_SID_WORDS ? 0 : rows[i];
    return memory.control[OBRISKA_SID_COUNT] == 2 && places[0] == 0 && places[1] == 1 &&
           rows[0] == one_sub_authority && rows[1] == 7 &&
           rows[OBRISKA_SID_WORDS] == one_sub_authority && rows[OBRISKA_SID_WORDS + 1] == 18 &&
           others == 0;
}

/* The arrays that a host lends. */
enum { ARRAYS = 5 };

/* docs/MEMORY.md, the first table. */
/* Whoever changes a size raises the layout too. */
static void the_memory_has_the_layout_and_the_sizes_of_the_docs(void)
{
    EXPECT(OBRISKA_LAYOUT == 6);
    EXPECT(sizeof memory.tokens == 12928 && sizeof memory.dacls == 4096);
    EXPECT(sizeof memory.handles == 512 && sizeof memory.control == 20920);
    EXPECT(sizeof memory.pending == 16400 && sizeof memory == 54856);
    EXPECT(OBRISKA_FIRST_PAIR == 42 && OBRISKA_PAIR_WORDS == 3);
    EXPECT(OBRISKA_SID_COUNT == 54 && OBRISKA_FIRST_SID_PLACE == 55);
    EXPECT(OBRISKA_FIRST_SID_ROW == 311 && OBRISKA_SID_WORDS == 9);
    EXPECT(sizeof(uint64_t) * OBRISKA_SID_WORDS >= OBRISKA_MAX_SID);
}

static void start_asks_for_the_sizes_only(void)
{
    struct obriska_memory *m = &memory;
    memset(m, 0xAA, sizeof *m);
    before = *m;
    for (size_t part = 0; part < ARRAYS; part++) {
        size_t less[ARRAYS] = {0};
        less[part] = 1;
        EXPECT(obriska_start(m->tokens, OBRISKA_TOKENS_LEN - less[0], m->dacls,
                             OBRISKA_DACLS_LEN - less[1], m->handles, OBRISKA_HANDLES_LEN - less[2],
                             m->control, OBRISKA_CONTROL_LEN - less[3], m->pending,
                             OBRISKA_PENDING_LEN - less[4]) == OBRISKA_REFUSED_MEMORY);
        EXPECT(unchanged());
    }
    EXPECT(obriska_memory_start(m) == 0);
    EXPECT(m->tokens[OBRISKA_TOKEN_NUMBER] == 1 && m->tokens[OBRISKA_TOKEN_SESSION] == 999);
    EXPECT(m->tokens[OBRISKA_TOKEN_USER] == 18 && m->tokens[OBRISKA_TOKEN_PRESENT] == 0x1FFFFFFFFC);
    EXPECT(m->tokens[OBRISKA_TOKEN_ROOT] == 1 && m->tokens[OBRISKA_TOKEN_GROUPS] == 0);
    EXPECT(m->tokens[OBRISKA_TOKEN_WORDS] == 0 && m->tokens[OBRISKA_TOKENS_LEN - 1] == 0);
    EXPECT(m->control[OBRISKA_NEXT_TOKEN] == 2 && m->control[OBRISKA_NEXT_HANDLE] == 1);
    for (size_t station = 0; station < OBRISKA_STATIONS; station++) {
        EXPECT(*station_word(station, OBRISKA_STATION_TOKEN) == 1);
        EXPECT(*station_word(station, OBRISKA_STATION_PENDING) == 0);
        EXPECT(*station_word(station, OBRISKA_STATION_BROKEN) == 0);
        EXPECT(*station_word(station, OBRISKA_STATION_CLIENT) == OBRISKA_NO_CLIENT);
        EXPECT(*station_word(station, OBRISKA_STATION_CLIENT_LEVEL) == 0);
    }
    for (size_t word = OBRISKA_FIRST_PAIR; word < OBRISKA_SID_COUNT; word++)
        EXPECT(m->control[word] == 0);
    EXPECT(table_is_the_starts());
    EXPECT(m->handles[0].number == 0 && m->handles[OBRISKA_HANDLES - 1].mask == 0);
    EXPECT(m->dacls[0] == 0 && m->pending[OBRISKA_PENDING_LEN - 1] == 0);
}

/* Leaves the pattern on the stack, where the next call's frames will stand. */
__attribute__((noinline)) static void fill_stack(uint8_t pattern)
{
    volatile uint8_t frames[16384];
    for (size_t i = 0; i < sizeof frames; i++)
        frames[i] = pattern;
}

/* Opens and closes handles over memory and a stack of this pattern. */
static void play_over(uint8_t pattern)
{
    static const uint8_t close_first[] = {0x02, 0x02, 0x01};
    memset(&memory, pattern, sizeof memory);
    fill_stack(pattern);
    EXPECT(obriska_memory_start(&memory) == 0);
    for (uint32_t station = 0; station < OBRISKA_STATIONS; station++) {
        fill_stack(pattern);
        EXPECT(is(feed(station, open_own, sizeof open_own), 0, 3, 3));
    }
    fill_stack(pattern);
    EXPECT(is(feed(0, close_first, sizeof close_first), 0, 3, 2));
}

static void every_byte_is_the_same_whatever_was_there_before(void)
{
    static const uint8_t patterns[] = {0x55, 0x99, 0xAA, 0xFF};
    play_over(0x00);
    before = memory;
    for (size_t i = 0; i < sizeof patterns; i++) {
        play_over(patterns[i]);
        EXPECT(unchanged());
    }
}

static void a_free_handle_slot_is_zero_in_every_byte(void)
{
    struct obriska_handle *last = &memory.handles[OBRISKA_HANDLES - 1];
    EXPECT(obriska_memory_start(&memory) == 0);
    for (size_t i = 0; i < sizeof *last; i++) {
        ((uint8_t *)last)[i] = 0x80;
        before = memory;
        EXPECT(is(feed(0, open_own, 3), OBRISKA_REFUSED_MEMORY, 0, 0));
        EXPECT(unchanged());
        ((uint8_t *)last)[i] = 0;
        EXPECT(is(feed(0, open_own, 0), 0, 0, 0));
    }
}

static void the_lowest_of_11_to_13_refuses_a_call_and_nothing_is_written(void)
{
    memset(&memory, 0xAA, sizeof memory);
    memset(answer, 0x55, sizeof answer);
    before = memory;
    const uint32_t last = OBRISKA_STATIONS - 1, none = OBRISKA_STATIONS;
    const size_t enough = OBRISKA_ANSWER_LEN, less = OBRISKA_ANSWER_LEN - 1;
    EXPECT(is(obriska_memory_feed(&memory, none, open_own, 3, answer, less), 11, 0, 0));
    EXPECT(is(obriska_memory_feed(&memory, last, open_own, 3, answer, less), 12, 0, 0));
    EXPECT(is(obriska_memory_feed(&memory, last, open_own, 3, answer, enough), 13, 0, 0));
    EXPECT(is(obriska_memory_feed(&memory, last, open_own, 0, answer, enough), 13, 0, 0));
    EXPECT(obriska_memory_reconnect(&memory, none) == 11);
    EXPECT(obriska_memory_reconnect(&memory, last) == 13);
    EXPECT(unchanged());
    for (size_t i = 0; i < sizeof answer; i++)
        EXPECT(answer[i] == 0x55);
}

static void a_feed_ends_at_the_first_request(void)
{
    static const uint8_t two[] = {0x02, 0x01, 0x28, 0x02, 0x01, 0x08};
    EXPECT(obriska_memory_start(&memory) == 0);
    memset(answer, 0x55, sizeof answer);
    EXPECT(is(feed(0, two, sizeof two), 0, 3, 3));
    EXPECT(answer[0] == 0x02 && answer[1] == 0x00 && answer[2] == 0x01);
    for (size_t i = 3; i < sizeof answer; i++)
        EXPECT(answer[i] == 0x55);
    EXPECT(is(feed(0, two + 3, 3), 0, 3, 3));
    EXPECT(answer[2] == 0x02);
    before = memory;
    EXPECT(is(feed(0, two, 0), 0, 0, 0));
    EXPECT(unchanged());
}

/* Feeds a whole request to station 0; its answer has to be these bytes. */
static int answers(const uint8_t *data, size_t len, const uint8_t *expected, size_t expected_len)
{
    return is(feed(0, data, len), 0, len, expected_len) &&
           memcmp(answer, expected, expected_len) == 0;
}

/* As an empty buffer of a C host. */
static void a_null_pointer_may_stand_before_a_length_of_0(void)
{
    EXPECT(obriska_memory_start(&memory) == 0);
    before = memory;
    EXPECT(is(feed(0, NULL, 0), 0, 0, 0));
    EXPECT(is(obriska_memory_feed(&memory, 0, NULL, 0, NULL, 0), OBRISKA_REFUSED_BUFFER, 0, 0));
    EXPECT(unchanged());
}

static void request_5_tells_absent_disabled_and_enabled_apart(void)
{
    static const uint8_t disable_tcb[] = {0x05, 0x05, 0x01, 0x01, 0x07, 0x00};
    static const uint8_t remove_tcb[] = {0x05, 0x05, 0x01, 0x01, 0x07, 0x04};
    static const uint8_t was_enabled[] = {0x05, 0x00, 0x80, 0x01, 0x80, 0x01};
    static const uint8_t was_disabled[] = {0x04, 0x00, 0x80, 0x01, 0x00};
    static const uint8_t was_absent[] = {0x03, 0x00, 0x00, 0x00};
    EXPECT(obriska_memory_start(&memory) == 0);
    EXPECT(is(feed(0, open_own, sizeof open_own), 0, 3, 3));
    EXPECT(answers(disable_tcb, sizeof disable_tcb, was_enabled, sizeof was_enabled));
    EXPECT(answers(remove_tcb, sizeof remove_tcb, was_disabled, sizeof was_disabled));
    EXPECT(answers(remove_tcb, sizeof remove_tcb, was_absent, sizeof was_absent));
}

static void class_9_tells_the_root_which_an_anonymous_copy_has_not(void)
{
    static const uint8_t open_all[] = {0x03, 0x01, 0xEF, 0x03};
    static const uint8_t copy_own[] = {0x06, 0x09, 0x01, 0x01, 0x00, 0xEF, 0x03};
    static const uint8_t anonymous_copy[] = {0x06, 0x09, 0x02, 0x02, 0x00, 0xEF, 0x03};
    static const uint8_t copy_anonymous[] = {0x06, 0x09, 0x03, 0x01, 0x00, 0xEF, 0x03};
    static const uint8_t of_own[] = {0x07, 0x00, 0x01, 0xE7, 0x07, 0x01, 0x01, 0x01};
    static const uint8_t of_copy[] = {0x07, 0x00, 0x02, 0xE7, 0x07, 0x02, 0x01, 0x01};
    static const uint8_t of_anonymous[] = {0x06, 0x00, 0x03, 0x00, 0x03, 0x02, 0x00};
    static const uint8_t of_its_copy[] = {0x06, 0x00, 0x04, 0x00, 0x04, 0x01, 0x00};
    static const uint64_t roots[] = {1, 1, OBRISKA_NO_ROOT, OBRISKA_NO_ROOT};
    uint8_t query[] = {0x04, 0x04, 0x01, 0x09, 0x40};
    EXPECT(obriska_memory_start(&memory) == 0);
    EXPECT(is(feed(0, open_all, sizeof open_all), 0, 4, 3));
    EXPECT(is(feed(0, copy_own, sizeof copy_own), 0, 7, 3));
    EXPECT(is(feed(0, anonymous_copy, sizeof anonymous_copy), 0, 7, 3));
    EXPECT(is(feed(0, copy_anonymous, sizeof copy_anonymous), 0, 7, 3));
    for (size_t slot = 0; slot < sizeof roots / sizeof roots[0]; slot++)
        EXPECT(memory.tokens[slot * OBRISKA_TOKEN_WORDS + OBRISKA_TOKEN_ROOT] == roots[slot]);
    EXPECT(answers(query, sizeof query, of_own, sizeof of_own));
    query[2] = 2;
    EXPECT(answers(query, sizeof query, of_copy, sizeof of_copy));
    query[2] = 3;
    EXPECT(answers(query, sizeof query, of_anonymous, sizeof of_anonymous));
    query[2] = 4;
    EXPECT(answers(query, sizeof query, of_its_copy, sizeof of_its_copy));
}

static void a_root_above_the_tokens_number_is_refused(void)
{
    EXPECT(obriska_memory_start(&memory) == 0);
    for (uint64_t root = 0; root <= 2; root++) {
        memory.tokens[OBRISKA_TOKEN_ROOT] = root;
        before = memory;
        EXPECT(is(feed(0, open_own, 0), root <= 1 ? 0 : OBRISKA_REFUSED_MEMORY, 0, 0));
        EXPECT(unchanged());
    }
}

/* Station 0 has handle 1 on its own token and handle 2 on a copy for impersonation, token 2. */
static void start_with_a_copy(void)
{
    static const uint8_t open_all[] = {0x03, 0x01, 0xEF, 0x03};
    static const uint8_t copy_own[] = {0x06, 0x09, 0x01, 0x02, 0x02, 0xEF, 0x03};
    EXPECT(obriska_memory_start(&memory) == 0);
    EXPECT(is(feed(0, open_all, sizeof open_all), 0, 4, 3));
    EXPECT(is(feed(0, copy_own, sizeof copy_own), 0, 7, 3));
}

static void a_station_acts_for_a_token_and_keeps_it_alive(void)
{
    static const uint8_t impersonate[] = {0x02, 0x0C, 0x02};
    static const uint8_t close_copy[] = {0x02, 0x02, 0x02};
    static const uint8_t revert[] = {0x01, 0x0D};
    static const uint8_t in_force[] = {0x02, 0x00, OBRISKA_LEVEL_IMPERSONATION};
    static const uint8_t closed[] = {0x01, 0x00};
    static const uint8_t given_up[] = {0x03, 0x00, 0x02, OBRISKA_LEVEL_IMPERSONATION};
    static const uint8_t none[] = {0x03, 0x00, 0x00, 0x00};
    const uint64_t *copy = &memory.tokens[OBRISKA_TOKEN_WORDS + OBRISKA_TOKEN_NUMBER];
    start_with_a_copy();
    EXPECT(answers(impersonate, sizeof impersonate, in_force, sizeof in_force));
    EXPECT(*station_word(0, OBRISKA_STATION_CLIENT) == 2);
    EXPECT(*station_word(0, OBRISKA_STATION_CLIENT_LEVEL) == OBRISKA_LEVEL_IMPERSONATION);
    EXPECT(*station_word(0, OBRISKA_STATION_TOKEN) == 1);
    EXPECT(answers(close_copy, sizeof close_copy, closed, sizeof closed) && *copy == 2);
    before = memory;
    EXPECT(obriska_memory_reconnect(&memory, 0) == 0);
    EXPECT(unchanged());
    EXPECT(answers(revert, sizeof revert, given_up, sizeof given_up) && *copy == 0);
    EXPECT(*station_word(0, OBRISKA_STATION_CLIENT) == OBRISKA_NO_CLIENT);
    EXPECT(*station_word(0, OBRISKA_STATION_CLIENT_LEVEL) == 0);
    EXPECT(answers(revert, sizeof revert, none, sizeof none));
}

static void a_client_is_an_impersonation_token_at_its_own_level_at_most(void)
{
    static const struct {
        uint64_t client, level;
        int valid;
    } rows[] = {{0, 0, 1}, {0, 1, 0}, {1, 0, 0}, {2, 0, 1},
                {2, 1, 1}, {2, 2, 1}, {2, 3, 0}, {3, 0, 0}};
    start_with_a_copy();
    for (size_t i = 0; i < sizeof rows / sizeof rows[0]; i++) {
        *station_word(7, OBRISKA_STATION_CLIENT) = rows[i].client;
        *station_word(7, OBRISKA_STATION_CLIENT_LEVEL) = rows[i].level;
        before = memory;
        EXPECT(is(feed(0, open_own, 0), rows[i].valid ? 0 : OBRISKA_REFUSED_MEMORY, 0, 0));
        EXPECT(unchanged());
    }
}

static uint64_t *pair_word(size_t slot, enum obriska_pair_word word)
{
    return &memory.control[OBRISKA_FIRST_PAIR + slot * OBRISKA_PAIR_WORDS + word];
}

static int pair_is(size_t slot, uint64_t session, uint64_t elevated, uint64_t filtered)
{
    return *pair_word(slot, OBRISKA_PAIR_SESSION) == session &&
           *pair_word(slot, OBRISKA_PAIR_ELEVATED) == elevated &&
           *pair_word(slot, OBRISKA_PAIR_FILTERED) == filtered;
}

/* The elevation word of a token slot. */
static uint64_t elevation(size_t slot)
{
    return memory.tokens[slot * OBRISKA_TOKEN_WORDS + OBRISKA_TOKEN_ELEVATION];
}

/* Station 0 links its handles 1, on token 2, and 2, on token 3, for session 5. */
static void start_with_a_pair(void)
{
    static const uint8_t create[] = {0x07, 0x03, 0x12, 0x05, 0x00, 0x00, 0x00, 0x00};
    static const uint8_t link[] = {0x04, 0x10, 0x01, 0x02, 0x05};
    static const uint8_t done[] = {0x01, 0x00};
    EXPECT(obriska_memory_start(&memory) == 0);
    EXPECT(is(feed(0, create, sizeof create), 0, 8, 3));
    EXPECT(is(feed(0, create, sizeof create), 0, 8, 3));
    EXPECT(answers(link, sizeof link, done, sizeof done));
}

static void a_pair_keeps_its_tokens_alive_and_gives_the_other_one(void)
{
    static const uint8_t close_first[] = {0x02, 0x02, 0x01};
    static const uint8_t linked[] = {0x02, 0x11, 0x02};
    static const uint8_t handle_3[] = {0x02, 0x00, 0x03};
    start_with_a_pair();
    EXPECT(pair_is(0, 5, 2, 3) && pair_is(1, 0, 0, 0));
    EXPECT(elevation(0) == OBRISKA_ELEVATION_DEFAULT && elevation(1) == OBRISKA_ELEVATION_FULL);
    EXPECT(elevation(2) == OBRISKA_ELEVATION_LIMITED);
    EXPECT(is(feed(0, close_first, sizeof close_first), 0, 3, 2));
    EXPECT(memory.tokens[OBRISKA_TOKEN_WORDS + OBRISKA_TOKEN_NUMBER] == 2);
    EXPECT(answers(linked, sizeof linked, handle_3, sizeof handle_3));
    EXPECT(obriska_memory_find(&memory, 0, 3)->token == 2);
    EXPECT(obriska_memory_find(&memory, 0, 3)->mask == OBRISKA_RIGHT_ALL);
}

static void a_token_in_no_pair_is_refused_by_14(void)
{
    static const uint8_t open_all[] = {0x03, 0x01, 0xEF, 0x03};
    static const uint8_t linked[] = {0x02, 0x11, 0x01};
    static const uint8_t refused[] = {0x01, OBRISKA_REFUSED_NOT_LINKED};
    EXPECT(obriska_memory_start(&memory) == 0);
    EXPECT(is(feed(0, open_all, sizeof open_all), 0, 4, 3));
    before = memory;
    EXPECT(answers(linked, sizeof linked, refused, sizeof refused) && unchanged());
}

static void a_pair_is_of_one_session_full_and_limited(void)
{
    static const struct {
        uint64_t session, elevated, filtered;
        int valid;
    } slots[] = {{5, 2, 3, 1}, {0, 0, 0, 1}, {5, 3, 2, 0}, {6, 2, 3, 0}, {5, 2, 2, 0},
                 {5, 1, 3, 0}, {5, 2, 4, 0}, {5, 0, 0, 0}, {0, 0, 3, 0}};
    start_with_a_pair();
    for (size_t i = 0; i < sizeof slots / sizeof slots[0]; i++) {
        *pair_word(0, OBRISKA_PAIR_SESSION) = slots[i].session;
        *pair_word(0, OBRISKA_PAIR_ELEVATED) = slots[i].elevated;
        *pair_word(0, OBRISKA_PAIR_FILTERED) = slots[i].filtered;
        before = memory;
        EXPECT(is(feed(0, open_own, 0), slots[i].valid ? 0 : OBRISKA_REFUSED_MEMORY, 0, 0));
        EXPECT(unchanged());
    }
}

/* Station 0 has handle 1 on its own token, to query and to adjust privileges. */
static void start_with_a_handle(void)
{
    EXPECT(obriska_memory_start(&memory) == 0);
    EXPECT(is(feed(0, open_own, sizeof open_own), 0, 3, 3));
}

/* Whether token 1 has the present, enabled and default words that it had before. */
static int as_before(void)
{
    const size_t words = OBRISKA_TOKEN_DEFAULT - OBRISKA_TOKEN_PRESENT + 1;
    const uint64_t *now = &memory.tokens[OBRISKA_TOKEN_PRESENT];
    return memcmp(now, &before.tokens[OBRISKA_TOKEN_PRESENT], words * sizeof *now) == 0;
}

/* docs/RESTORE.md: Shutdown is enabled and Tcb disabled, and then both are as they were. */
static void request_5_is_put_back_by_its_report(void)
{
    static const uint8_t disable_shutdown[] = {0x05, 0x05, 0x01, 0x01, 0x13, 0x00};
    static const uint8_t change[] = {0x07, 0x05, 0x01, 0x02, 0x13, 0x02, 0x07, 0x00};
    static const uint8_t report[] = {0x06, 0x00, 0x80, 0x81, 0x20, 0x80, 0x01};
    static const uint8_t put_back[] = {0x07, 0x05, 0x01, 0x02, 0x13, 0x00, 0x07, 0x02};
    static const uint8_t by_handle_2[] = {0x07, 0x05, 0x02, 0x02, 0x13, 0x00, 0x07, 0x02};
    start_with_a_handle();
    EXPECT(is(feed(0, disable_shutdown, sizeof disable_shutdown), 0, 6, 8));
    before = memory;
    EXPECT(answers(change, sizeof change, report, sizeof report) && !as_before());
    EXPECT(is(feed(0, put_back, sizeof put_back), 0, 8, 8) && as_before());
    /* station 1's handle of the same token does, for station 1 */
    EXPECT(answers(change, sizeof change, report, sizeof report) && !as_before());
    EXPECT(is(feed(1, open_own, sizeof open_own), 0, 3, 3));
    EXPECT(is(feed(0, by_handle_2, sizeof by_handle_2), 0, 8, 2) && !as_before());
    EXPECT(is(feed(1, by_handle_2, sizeof by_handle_2), 0, 8, 8) && as_before());
}

/* docs/RESTORE.md: what a removal's or a reset's report would make. */
static void a_removal_and_a_reset_are_not_put_back_so(void)
{
    static const uint8_t remove_tcb[] = {0x05, 0x05, 0x01, 0x01, 0x07, 0x04};
    static const uint8_t enable_tcb[] = {0x05, 0x05, 0x01, 0x01, 0x07, 0x02};
    static const uint8_t was_enabled[] = {0x05, 0x00, 0x80, 0x01, 0x80, 0x01};
    static const uint8_t reset[] = {0x09, 0x05, 0x01, 0x01, 0x00, 0x80, 0x80, 0x80, 0x80, 0x08};
    static const uint8_t disable_0[] = {0x05, 0x05, 0x01, 0x01, 0x00, 0x00};
    static const uint8_t refused[] = {0x01, OBRISKA_REFUSED_FIELD};
    start_with_a_handle();
    EXPECT(answers(remove_tcb, sizeof remove_tcb, was_enabled, sizeof was_enabled));
    EXPECT(answers(enable_tcb, sizeof enable_tcb, refused, sizeof refused));
    EXPECT(is(feed(0, reset, sizeof reset), 0, sizeof reset, 14));
    EXPECT(answers(disable_0, sizeof disable_0, refused, sizeof refused));
}

/* docs/CONDITIONS.md: all(enabled tcb, any(group 20, not enabled shutdown)). */
static void a_condition_is_answered_1_or_0_and_nothing_changes(void)
{
    static const uint8_t may[] = {0x0D, 0x12, 0x01, 0x01, 0x02, 0x04, 0x07,
                                  0x02, 0x02, 0x05, 0x14, 0x03, 0x04, 0x13};
    static const uint8_t disable_shutdown[] = {0x05, 0x05, 0x01, 0x01, 0x13, 0x00};
    static const uint8_t no[] = {0x02, 0x00, 0x00};
    static const uint8_t yes[] = {0x02, 0x00, 0x01};
    start_with_a_handle();
    before = memory;
    EXPECT(answers(may, sizeof may, no, sizeof no) && unchanged());
    EXPECT(is(feed(0, disable_shutdown, sizeof disable_shutdown), 0, 6, 8));
    before = memory;
    EXPECT(answers(may, sizeof may, yes, sizeof yes) && unchanged());
}

/* Writes request 18 for 'enabled tcb' with so many NOTs before it; gives its length. */
static size_t write_nots(uint8_t *frame, uint8_t nots)
{
    static const uint8_t enabled_tcb[] = {OBRISKA_CONDITION_ENABLED, 0x07};
    frame[0] = (uint8_t)(2 + nots + sizeof enabled_tcb);
    frame[1] = 0x12;
    frame[2] = 0x01;
    memset(frame + 3, OBRISKA_CONDITION_NOT, nots);
    memcpy(frame + 3 + nots, enabled_tcb, sizeof enabled_tcb);
    return 3 + nots + sizeof enabled_tcb;
}

static void a_condition_is_eight_deep_at_most(void)
{
    static const uint8_t refused[] = {0x01, OBRISKA_REFUSED_LAYOUT};
    uint8_t frame[3 + OBRISKA_MAX_DEPTH + 2];
    start_with_a_handle();
    before = memory;
    for (uint8_t nots = 0; nots < OBRISKA_MAX_DEPTH; nots++) {
        const uint8_t value[] = {0x02, 0x00, nots % 2 == 0};
        EXPECT(answers(frame, write_nots(frame, nots), value, sizeof value));
    }
    EXPECT(answers(frame, write_nots(frame, OBRISKA_MAX_DEPTH), refused, sizeof refused));
    EXPECT(unchanged());
}

static void a_condition_is_refused_by_1_then_2_then_3_then_5(void)
{
    static const uint8_t open_duplicate[] = {0x02, 0x01, 0x02};
    static const struct {
        uint8_t refusal, frame[9];
    } requests[] = {
        {OBRISKA_REFUSED_LAYOUT, {0x04, 0x12, 0x09, 0x06, 0x25}}, /* an unknown kind */
        {OBRISKA_REFUSED_HANDLE, {0x04, 0x12, 0x09, 0x04, 0x25}},
        {OBRISKA_REFUSED_RIGHT, {0x04, 0x12, 0x02, 0x04, 0x25}},
        {OBRISKA_REFUSED_FIELD, {0x04, 0x12, 0x01, 0x04, 0x25}},
        /* any(all(), enabled 37): decided, but 37 is no privilege all the same */
        {OBRISKA_REFUSED_FIELD, {0x08, 0x12, 0x01, 0x02, 0x02, 0x01, 0x00, 0x04, 0x25}}};
    start_with_a_handle();
    EXPECT(is(feed(0, open_duplicate, sizeof open_duplicate), 0, 3, 3));
    before = memory;
    for (size_t i = 0; i < sizeof requests / sizeof requests[0]; i++) {
        const uint8_t *frame = requests[i].frame;
        const uint8_t refused[] = {0x01, requests[i].refusal};
        EXPECT(answers(frame, 1u + frame[0], refused, sizeof refused) && unchanged());
    }
}

static void a_request_is_answered_at_its_last_byte(void)
{
    const uint8_t *pending = &memory.pending[3 * OBRISKA_PENDING_BYTES];
    EXPECT(obriska_memory_start(&memory) == 0);
    EXPECT(is(feed(3, open_own, 1), 0, 1, 0));
    EXPECT(is(feed(3, open_own + 1, 1), 0, 1, 0));
    EXPECT(*pending == 0x02 && *station_word(3, OBRISKA_STATION_PENDING) == 2);
    EXPECT(is(feed(3, open_own + 2, 1), 0, 1, 3));
    EXPECT(*pending == 0x00 && *station_word(3, OBRISKA_STATION_PENDING) == 0);
}

static void a_broken_stream_ignores_bytes_until_a_reconnect(void)
{
    static const uint8_t breaking[] = {0x81, 0x10, 0x02, 0x01, 0x28};
    EXPECT(obriska_memory_start(&memory) == 0);
    before = memory;
    EXPECT(is(feed(0, breaking, sizeof breaking), 0, 2, 2));
    EXPECT(answer[0] == 0x01 && answer[1] == OBRISKA_REFUSED_BROKEN);
    EXPECT(is(feed(0, breaking + 2, 3), 0, 3, 0));
    EXPECT(obriska_memory_reconnect(&memory, 0) == 0);
    EXPECT(unchanged());
    EXPECT(is(feed(0, open_own, 1), 0, 1, 0));
    EXPECT(obriska_memory_reconnect(&memory, 0) == 0);
    EXPECT(unchanged());
    EXPECT(is(feed(0, open_own, 3), 0, 3, 3));
}

static void find_gives_the_stations_live_handle(void)
{
    EXPECT(obriska_memory_start(&memory) == 0);
    EXPECT(obriska_memory_find(&memory, 0, 0) == NULL);
    EXPECT(is(feed(5, open_own, 3), 0, 3, 3));
    EXPECT(is(feed(6, open_own, 3), 0, 3, 3));
    EXPECT(obriska_find(memory.handles, OBRISKA_HANDLES_LEN, 6, 2) == 1);
    EXPECT(obriska_find(memory.handles, OBRISKA_HANDLES_LEN, 5, 2) == OBRISKA_HANDLES);
    EXPECT(obriska_memory_find(&memory, 6, 2)->mask ==
           (OBRISKA_RIGHT_QUERY | OBRISKA_RIGHT_ADJUST_PRIVILEGES));
    EXPECT(obriska_memory_find(&memory, 6, 1) == NULL);
}

/* Request 14: user S-1-5-21-1000, session 5, one group, S-1-0. */
static const uint8_t create_with_sids[] = {0x1F, 0x0E, 0x01, 0x02, 0x00, 0x00, 0x00, 0x00,
                                           0x00, 0x05, 0x15, 0x00, 0x00, 0x00, 0xE8, 0x03,
                                           0x00, 0x00, 0x05, 0x00, 0x00, 0x00, 0x01, 0x01,
                                           0x00, 0x00, 0x00, 0x00, 0x00, 0x00, 0x00, 0x00};

static int sid_is(uint32_t number, const uint8_t *packed, size_t size)
{
    uint8_t out[OBRISKA_MAX_SID];
    memset(out, 0x55, sizeof out);
    if (obriska_memory_sid(&memory, number, out, sizeof out) != size || memcmp(out, packed, size) != 0)
        return 0;
    for (size_t i = size; i < sizeof out; i++)
        if (out[i] != 0x55)
            return 0;
    return 1;
}

static void requests_14_and_15_enter_sids_and_obriska_sid_gives_them(void)
{
    static const uint8_t system[] = {0x01, 0x01, 0x00, 0x00, 0x00, 0x00, 0x00, 0x05, 0x12, 0x00, 0x00, 0x00};
    /* request 15: restricted to S-1-5-18 and S-1-16-9 */
    static const uint8_t restrict_to[] = {0x1E, 0x0F, 0x01, 0x00, 0x00, 0x00, 0x02, 0x01, 0x01, 0x00, 0x00,
                                          0x00, 0x00, 0x00, 0x05, 0x12, 0x00, 0x00, 0x00, 0x01, 0x01, 0x00,
                                          0x00, 0x00, 0x00, 0x00, 0x10, 0x09, 0x00, 0x00, 0x00};
    const uint64_t *token = &memory.tokens[OBRISKA_TOKEN_WORDS];
    EXPECT(obriska_memory_start(&memory) == 0);
    EXPECT(sid_is(OBRISKA_SID_SYSTEM, system, sizeof system));
    EXPECT(is(feed(0, create_with_sids, sizeof create_with_sids), 0, sizeof create_with_sids, 3));
    EXPECT(memory.control[OBRISKA_SID_COUNT] == 4);
    EXPECT(token[OBRISKA_TOKEN_USER] == 32 && token[OBRISKA_TOKEN_GROUPS] == 33);
    EXPECT(sid_is(OBRISKA_SID_ENTERED, create_with_sids + 2, 16));
    EXPECT(sid_is(33, create_with_sids + 23, 8));
    EXPECT(is(feed(0, restrict_to, sizeof restrict_to), 0, sizeof restrict_to, 3));
    EXPECT(token[OBRISKA_TOKEN_WORDS + OBRISKA_TOKEN_RESTRICTING] == 18);
    EXPECT(token[OBRISKA_TOKEN_WORDS + OBRISKA_TOKEN_RESTRICTING + 1] == 34);
    EXPECT(sid_is(34, restrict_to + 19, 12));
    before = memory;
    EXPECT(is(feed(0, create_with_sids, sizeof create_with_sids), 0, sizeof create_with_sids, 3));
    EXPECT(memcmp(&memory.control[OBRISKA_SID_COUNT], &before.control[OBRISKA_SID_COUNT],
                  sizeof(uint64_t) * (OBRISKA_CONTROL_LEN - OBRISKA_SID_COUNT)) == 0);
}

static void obriska_sid_gives_0_where_there_is_none_and_writes_nothing(void)
{
    static const uint32_t others[] = {0, 1, 6, 8, 17, 19, 31, 32, 285, 286, UINT32_MAX};
    uint8_t out[OBRISKA_MAX_SID];
    EXPECT(obriska_memory_start(&memory) == 0);
    before = memory;
    memset(out, 0x55, sizeof out);
    for (size_t i = 0; i < sizeof others / sizeof others[0]; i++)
        EXPECT(obriska_memory_sid(&memory, others[i], out, sizeof out) == 0);
    for (size_t length = 0; length < 12; length++)
        EXPECT(obriska_memory_sid(&memory, OBRISKA_SID_SYSTEM, out, length) == 0);
    EXPECT(obriska_memory_sid(&memory, OBRISKA_SID_SYSTEM, NULL, 0) == 0);
    EXPECT(obriska_sid(memory.control, OBRISKA_CONTROL_LEN - 1, 18, out, sizeof out) == 0);
    EXPECT(obriska_sid(memory.control, 0, 18, out, sizeof out) == 0);
    EXPECT(unchanged());
    memory.control[OBRISKA_FIRST_SID_ROW + OBRISKA_SID_WORDS] = 0; /* no SID's row */
    EXPECT(obriska_memory_sid(&memory, OBRISKA_SID_SYSTEM, out, sizeof out) == 0);
    for (size_t i = 0; i < sizeof out; i++)
        EXPECT(out[i] == 0x55);
    EXPECT(obriska_memory_start(&memory) == 0);
    EXPECT(obriska_memory_sid(&memory, OBRISKA_SID_ANONYMOUS, out, 12) == 12);
}

static void a_number_that_is_not_in_the_table_is_refused_by_5(void)
{
    static const uint8_t create[] = {0x07, 0x03, 0x20, 0x05, 0x00, 0x00, 0x00, 0x00};
    static const uint8_t refused[] = {0x01, OBRISKA_REFUSED_FIELD};
    static const uint8_t handle_2[] = {0x02, 0x00, 0x02};
    EXPECT(obriska_memory_start(&memory) == 0);
    before = memory;
    EXPECT(answers(create, sizeof create, refused, sizeof refused) && unchanged());
    EXPECT(is(feed(0, create_with_sids, sizeof create_with_sids), 0, sizeof create_with_sids, 3));
    EXPECT(answers(create, sizeof create, handle_2, sizeof handle_2));
}

/* The table's count, a place, a row, and a token's user that is not in it. */
static void a_table_that_is_not_in_order_is_refused(void)
{
    static const struct {
        size_t word;
        uint64_t value;
    } changes[] = {{OBRISKA_SID_COUNT, 1},
                   {OBRISKA_SID_COUNT, OBRISKA_SIDS + 1},
                   {OBRISKA_FIRST_SID_PLACE, 1},
                   {OBRISKA_FIRST_SID_PLACE + OBRISKA_SIDS - 1, 1},
                   {OBRISKA_FIRST_SID_ROW + 1, 8},
                   {OBRISKA_FIRST_SID_ROW + OBRISKA_SID_WORDS, 0x0500000000000102},
                   {OBRISKA_CONTROL_LEN - 1, 1}};
    for (size_t i = 0; i < sizeof changes / sizeof changes[0]; i++) {
        EXPECT(obriska_memory_start(&memory) == 0);
        memory.control[changes[i].word] = changes[i].value;
        before = memory;
        EXPECT(is(feed(0, open_own, 0), OBRISKA_REFUSED_MEMORY, 0, 0));
        EXPECT(unchanged());
    }
    for (uint64_t user = 0; user < 40; user++) {
        EXPECT(obriska_memory_start(&memory) == 0);
        memory.tokens[OBRISKA_TOKEN_USER] = user;
        EXPECT(is(feed(0, open_own, 0), user == 7 || user == 18 ? 0 : OBRISKA_REFUSED_MEMORY, 0, 0));
    }
}

static void a_copy_goes_on_where_the_memory_was(void)
{
    static struct obriska_memory copy;
    EXPECT(obriska_memory_start(&memory) == 0);
    EXPECT(is(feed(0, open_own, 2), 0, 2, 0));
    copy = memory;
    EXPECT(is(obriska_memory_feed(&copy, 0, open_own + 2, 1, answer, sizeof answer), 0, 1, 3));
    EXPECT(obriska_memory_find(&copy, 0, 1) != NULL && obriska_memory_find(&memory, 0, 1) == NULL);
}

static void the_version_is_made_of_its_parts(void)
{
    char version[32];
    snprintf(version, sizeof version, "%d.%d.%d", OBRISKA_VERSION_MAJOR, OBRISKA_VERSION_MINOR,
             OBRISKA_VERSION_PATCH);
    EXPECT(strcmp(version, OBRISKA_VERSION) == 0);
    EXPECT(obriska_version() == OBRISKA_VERSION_NUMBER);
    EXPECT(obriska_layout() == OBRISKA_LAYOUT);
}

int main(void)
{
    the_version_is_made_of_its_parts();
    the_memory_has_the_layout_and_the_sizes_of_the_docs();
    start_asks_for_the_sizes_only();
    every_byte_is_the_same_whatever_was_there_before();
    a_free_handle_slot_is_zero_in_every_byte();
    the_lowest_of_11_to_13_refuses_a_call_and_nothing_is_written();
    a_feed_ends_at_the_first_request();
    a_null_pointer_may_stand_before_a_length_of_0();
    request_5_tells_absent_disabled_and_enabled_apart();
    class_9_tells_the_root_which_an_anonymous_copy_has_not();
    a_root_above_the_tokens_number_is_refused();
    a_station_acts_for_a_token_and_keeps_it_alive();
    a_client_is_an_impersonation_token_at_its_own_level_at_most();
    a_pair_keeps_its_tokens_alive_and_gives_the_other_one();
    a_token_in_no_pair_is_refused_by_14();
    a_pair_is_of_one_session_full_and_limited();
    request_5_is_put_back_by_its_report();
    a_removal_and_a_reset_are_not_put_back_so();
    a_condition_is_answered_1_or_0_and_nothing_changes();
    a_condition_is_eight_deep_at_most();
    a_condition_is_refused_by_1_then_2_then_3_then_5();
    a_request_is_answered_at_its_last_byte();
    a_broken_stream_ignores_bytes_until_a_reconnect();
    find_gives_the_stations_live_handle();
    requests_14_and_15_enter_sids_and_obriska_sid_gives_them();
    obriska_sid_gives_0_where_there_is_none_and_writes_nothing();
    a_number_that_is_not_in_the_table_is_refused_by_5();
    a_table_that_is_not_in_order_is_refused();
    a_copy_goes_on_where_the_memory_was();
    return EXIT_SUCCESS;
}
