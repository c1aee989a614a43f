/* How much stack the calls take: each call is made on a stack of its own that was painted before, on full
 * tables and the largest requests. Writes the most that was touched and ends with 0 if it is within what
 * obriska.h says. Needs getcontext. */
#define _XOPEN_SOURCE 700
#include <stdio.h>
#include <stdlib.h>
#include <string.h>
#include <ucontext.h>

#include "obriska.h"
#include "obriska_codec.h"

#define EXPECT(claim) expect((claim), #claim, __LINE__)

static void expect(int holds, const char *claim, int line)
{
    if (!holds) {
        fprintf(stderr, "line %d: %s does not hold\n", line, claim);
        exit(EXIT_FAILURE);
    }
}

enum { STACK_BYTES = 65536, PROMISED = 32768, PAINT = 0xA7 };

/* The number of the last SID that the table has room for. */
enum { LAST_SID = OBRISKA_SID_ENTERED + OBRISKA_SIDS - 3 };

static uint8_t stack[STACK_BYTES];
static ucontext_t here, there;

/* Makes a call on the painted stack and gives the bytes from its top to the lowest one that was touched. */
static size_t touched(void (*call)(void))
{
    size_t untouched = 0;
    memset(stack, PAINT, sizeof stack);
    EXPECT(getcontext(&there) == 0);
    there.uc_stack.ss_sp = stack;
    there.uc_stack.ss_size = sizeof stack;
    there.uc_link = &here;
    makecontext(&there, call, 0);
    EXPECT(swapcontext(&here, &there) == 0);
    while (untouched < sizeof stack && stack[untouched] == PAINT)
        untouched++;
    return sizeof stack - untouched;
}

/* ---- the calls ------------------------------------------------------------------------------- */

static struct obriska_memory memory, kept;
static uint8_t answer[OBRISKA_ANSWER_LEN];
static uint8_t frame[OBRISKA_FRAME_LEN];
static size_t length;
static struct obriska_fed fed;
static uint32_t returned;
static size_t most;

static void call_start(void)
{
    returned = obriska_memory_start(&memory);
}

static void call_reconnect(void)
{
    returned = obriska_memory_reconnect(&memory, 7);
}

static void call_find(void)
{
    returned = (uint32_t)obriska_find(memory.handles, OBRISKA_HANDLES_LEN, 7, UINT32_MAX);
}

static void call_sid(void)
{
    static uint8_t packed[OBRISKA_MAX_SID];
    returned = (uint32_t)obriska_memory_sid(&memory, LAST_SID, packed, sizeof packed);
}

static void call_feed(void)
{
    fed = obriska_memory_feed(&memory, 0, frame, length, answer, sizeof answer);
}

/* Makes a call twice, the second time measured: the first may still have to find memcpy and memset. */
static void measure(void (*call)(void))
{
    kept = memory;
    (void)touched(call);
    memory = kept;
    size_t bytes = touched(call);
    most = bytes > most ? bytes : most;
}

/* Feeds the frame that was built, which is answered by this status; gives the first byte after it. */
static uint32_t send(size_t built, uint32_t status)
{
    struct obriska_answer read;
    EXPECT(built > 0);
    length = built;
    measure(call_feed);
    EXPECT(fed.refusal == 0 && fed.used == built);
    EXPECT(obriska_read_answer(&read, answer, fed.answered) && read.status == status);
    return fed.answered > read.fields ? answer[read.fields] : 0;
}

/* ---- full tables ----------------------------------------------------------------------------- */

static struct obriska_group groups[OBRISKA_MAX_GROUPS];
static uint32_t sids[OBRISKA_MAX_RESTRICTING];
static uint8_t dacl[OBRISKA_MAX_DACL];

/* Longest SIDs, as many as one request 14 holds: the user's and those of the groups. */
enum { LONG_SIDS = 29 };
static struct obriska_sid_group long_groups[LONG_SIDS];

/* Enters `count` longest SIDs that differ from each other and from others in their last part, and gives the
 * token up again. */
static void enter(uint32_t first, uint32_t count, uint32_t status)
{
    struct obriska_new_token_with_sids token = {{{0}, 0, {0}}, 1, 0, 0, 0, long_groups + 1, count - 1};
    for (uint32_t i = 0; i < count; i++) {
        struct obriska_sid_fields *sid = &long_groups[i].sid;
        memset(sid, 0xFF, sizeof *sid);
        sid->count = OBRISKA_MAX_SUB_AUTHORITIES;
        sid->sub_authorities[OBRISKA_MAX_SUB_AUTHORITIES - 1] = first + i;
    }
    token.user = long_groups[0].sid;
    uint32_t handle = send(obriska_build_create_with_sids(frame, sizeof frame, &token), status);
    if (status == 0)
        send(obriska_build_close(frame, sizeof frame, handle), 0);
}

/* Fills the SID table by falling SIDs, and tries one more. */
static void fill_table(void)
{
    uint32_t left = OBRISKA_SIDS - 2;
    while (left > 0) {
        uint32_t count = left < LONG_SIDS ? left : LONG_SIDS;
        left -= count;
        enter(left, count, 0);
    }
    enter(OBRISKA_SIDS, LONG_SIDS, OBRISKA_STATUS_FULL);
    enter(0, LONG_SIDS, 0);
    measure(call_sid);
    EXPECT(returned == OBRISKA_MAX_SID);
    /* all was given up, so that numbers may begin again */
    memory.control[OBRISKA_NEXT_TOKEN] = 2;
    memory.control[OBRISKA_NEXT_HANDLE] = 1;
}

/* A token with as much in it as there is; gives its handle. */
static uint32_t create(uint64_t session)
{
    struct obriska_new_token token = {OBRISKA_SID_SYSTEM, session, OBRISKA_INTEGRITY_HIGH, 0x1FFFFFFFFC,
                                      0x1FFFFFFFFC,       groups,  OBRISKA_MAX_GROUPS};
    struct obriska_defaults defaults = {64, 64, OBRISKA_DACL_SET, dacl, sizeof dacl};
    uint32_t handle = send(obriska_build_create(frame, sizeof frame, &token), 0);
    send(obriska_build_defaults(frame, sizeof frame, handle, &defaults), 0);
    return handle;
}

static uint32_t restrict_(uint32_t handle, uint32_t status)
{
    struct obriska_restriction restriction = {1, 0x80, NULL, 0, sids, OBRISKA_MAX_RESTRICTING};
    return send(obriska_build_restrict(frame, sizeof frame, handle, &restriction), status);
}

/* The same with SIDs for numbers, and as many as one request 15 holds. */
static void restrict_to_sids(uint32_t handle, uint32_t status)
{
    static struct obriska_sid_fields given[LONG_SIDS];
    struct obriska_restriction_to_sids restriction = {1, 0x80, NULL, 0, given, LONG_SIDS};
    uint8_t packed[OBRISKA_MAX_SID];
    for (uint32_t i = 0; i < LONG_SIDS; i++) {
        uint32_t number = sids[0] - i;
        EXPECT(obriska_memory_sid(&memory, number, packed, sizeof packed) == OBRISKA_MAX_SID);
        EXPECT(obriska_sid_unpack(&given[i], packed, sizeof packed) == OBRISKA_MAX_SID);
    }
    send(obriska_build_restrict_to_sids(frame, sizeof frame, handle, &restriction), status);
}

static void fill(void)
{
    for (size_t i = 0; i < OBRISKA_MAX_GROUPS; i++) {
        groups[i].sid = LAST_SID - (uint32_t)i;
        groups[i].attributes = OBRISKA_GROUP_ENABLED_BY_DEFAULT | OBRISKA_GROUP_OWNER;
        sids[i % OBRISKA_MAX_RESTRICTING] = groups[i].sid;
    }
    memset(dacl, 0xFF, sizeof dacl);
    fill_table();
    for (uint64_t session = UINT64_MAX; session > UINT64_MAX - OBRISKA_PAIRS; session--) {
        uint32_t elevated = create(session), filtered = restrict_(elevated, 0);
        send(obriska_build_link(frame, sizeof frame, elevated, filtered, session), 0);
    }
    for (size_t token = 1 + 2 * OBRISKA_PAIRS; token < OBRISKA_TOKENS; token++)
        create(token);
    restrict_(1, OBRISKA_STATUS_FULL);
    restrict_to_sids(2, OBRISKA_STATUS_FULL);
    for (size_t handle = OBRISKA_TOKENS - 1; handle < OBRISKA_HANDLES; handle++)
        send(obriska_build_open_own(frame, sizeof frame, OBRISKA_RIGHT_ALL), 0);
    send(obriska_build_open_own(frame, sizeof frame, OBRISKA_RIGHT_ALL), OBRISKA_STATUS_FULL);
}

/* ---- the largest requests -------------------------------------------------------------------- */

static void ask_and_adjust(void)
{
    static struct obriska_privilege_entry privileges[35];
    static struct obriska_group_entry entries[OBRISKA_MAX_GROUPS];
    for (uint32_t class_ = 1; class_ <= OBRISKA_CLASS_INTEGRITY; class_++)
        send(obriska_build_query(frame, sizeof frame, 2, class_, OBRISKA_ANSWER_LEN), 0);
    for (uint32_t i = 0; i < 35; i++)
        privileges[i].privilege = i + 2;
    for (uint32_t i = 0; i < OBRISKA_MAX_GROUPS; i++)
        entries[i].index = OBRISKA_MAX_GROUPS - 1 - i;
    send(obriska_build_privileges(frame, sizeof frame, 2, privileges, 35), 0);
    send(obriska_build_groups(frame, sizeof frame, 2, entries, OBRISKA_MAX_GROUPS), 0);
    send(obriska_build_reset_privileges(frame, sizeof frame, 2), 0);
    send(obriska_build_reset_groups(frame, sizeof frame, 2), 0);
    send(obriska_build_scope(frame, sizeof frame, 2, UINT32_MAX), 0);
}

/* A long condition: so many lists or NOTs within each other, in the last list 300 groups, and at the end a
 * group of this number. */
static void evaluate(uint32_t kind, uint32_t nested, const uint8_t *number, size_t count,
                     uint32_t status)
{
    static uint8_t room[OBRISKA_MAX_BODY];
    struct obriska_buffer condition = obriska_condition_begin(room, sizeof room - 2);
    for (uint32_t i = 0; i < nested; i++) {
        if (kind == OBRISKA_CONDITION_NOT)
            obriska_condition_not(&condition);
        else if (kind == OBRISKA_CONDITION_ALL)
            obriska_condition_all(&condition, 1 + (i + 1 == nested) * 300);
        else
            obriska_condition_any(&condition, 1 + (i + 1 == nested) * 300);
    }
    for (size_t i = 0; kind != OBRISKA_CONDITION_NOT && i < 300; i++)
        obriska_condition_group(&condition, UINT32_MAX);
    room[condition.length++] = OBRISKA_CONDITION_GROUP;
    memcpy(room + condition.length, number, count);
    condition.length += count;
    send(obriska_build_evaluate(frame, sizeof frame, 2, &condition), status);
}

static void evaluate_all(void)
{
    static const uint8_t widest[] = {0xFF, 0xFF, 0xFF, 0xFF, 0x0F};
    static const uint8_t too_wide[] = {0xFF, 0xFF, 0xFF, 0xFF, 0xFF, 0xFF,
                                       0xFF, 0xFF, 0xFF, 0xFF, 0xFF, 0x01};
    for (uint32_t kind = OBRISKA_CONDITION_ALL; kind <= OBRISKA_CONDITION_NOT; kind++) {
        evaluate(kind, OBRISKA_MAX_DEPTH - 1, widest, sizeof widest, 0);
        evaluate(kind, OBRISKA_MAX_DEPTH - 1, too_wide, sizeof too_wide, OBRISKA_STATUS_LAYOUT);
        evaluate(kind, OBRISKA_MAX_DEPTH, widest, sizeof widest, OBRISKA_STATUS_LAYOUT);
    }
}

/* Bodies of one byte over and over, after a request's number: longest numbers, longest lists, deepest lists. */
static void repeat_bytes(void)
{
    static const uint8_t repeated[] = {0x00, 0x01, 0x02, 0x03, 0x7F, 0x80, 0xFF};
    for (uint8_t request = 0; request < 20; request++)
        for (size_t i = 0; i < sizeof repeated; i++) {
            memset(frame, repeated[i], sizeof frame);
            frame[0] = 0x80;
            frame[1] = 0x10;
            frame[2] = request;
            frame[3] = 2;
            length = sizeof frame;
            measure(call_feed);
            EXPECT(fed.refusal == 0 && fed.used == sizeof frame && fed.answered > 0);
        }
}

/* The requests that end by freeing tokens, and memory that is refused at its last word. */
static void free_and_refuse(void)
{
    for (uint32_t handle = OBRISKA_TOKENS; handle <= OBRISKA_HANDLES; handle++)
        send(obriska_build_close(frame, sizeof frame, handle), 0);
    uint32_t copy = OBRISKA_HANDLES + 1;
    send(obriska_build_close(frame, sizeof frame, OBRISKA_TOKENS - 1), 0);
    send(obriska_build_duplicate(frame, sizeof frame, 2, OBRISKA_TYPE_IMPERSONATION, 3,
                                 OBRISKA_RIGHT_ALL),
         0);
    send(obriska_build_impersonate(frame, sizeof frame, copy), 0);
    send(obriska_build_close(frame, sizeof frame, copy), 0);
    send(obriska_build_revert(frame, sizeof frame), 0);
    restrict_to_sids(2, 0);
    send(obriska_build_get_linked(frame, sizeof frame, 1), 0);
    send(obriska_build_install(frame, sizeof frame, 1), 0);
    memory.pending[OBRISKA_PENDING_LEN - 1] = 1;
    measure(call_feed);
    EXPECT(fed.refusal == OBRISKA_REFUSED_MEMORY);
}

int main(void)
{
    measure(call_start);
    EXPECT(returned == 0);
    fill();
    ask_and_adjust();
    evaluate_all();
    repeat_bytes();
    measure(call_reconnect);
    EXPECT(returned == 0);
    measure(call_find);
    EXPECT(returned == OBRISKA_HANDLES);
    free_and_refuse();
    printf("%zu bytes of stack\n", most);
    EXPECT(most <= PROMISED);
    return EXIT_SUCCESS;
}
