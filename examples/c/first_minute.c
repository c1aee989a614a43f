/*
 * A host and a screen in C: plays the first minute and writes each chunk, each answer and what it says.
 *
 *     cc -std=c11 first_minute.c $(pkg-config --cflags --libs obriska) -o first_minute
 */
#include <inttypes.h>
#include <stdbool.h>
#include <stdio.h>
#include <stdlib.h>

#include "obriska.h"
#include "obriska_codec.h"

/* ---- the host -------------------------------------------------------------------------------- */

static struct obriska_memory memory;         /* all that the broker keeps */
static uint8_t answered[OBRISKA_ANSWER_LEN]; /* the bytes of the last answer */
static struct obriska_answer answer;         /* and how they read */

/* Bytes of a long chunk that are written. */
enum { SHOWN = 24 };

static void print_bytes(const uint8_t *bytes, size_t len)
{
    for (size_t i = 0; i < len && i < SHOWN; i++)
        printf(" %02X", (unsigned)bytes[i]);
    if (len > SHOWN)
        printf(" .. (%zu bytes)", len);
}

static bool take_answer(size_t len)
{
    printf("   <");
    print_bytes(answered, len);
    bool whole = obriska_read_answer(&answer, answered, len);
    if (!whole)
        printf("   %s, at byte %zu", obriska_error_text(answer.error), answer.place);
    else if (answer.status != 0)
        printf("   refused %" PRIu32 ": %s", answer.status, obriska_refusal_text(answer.status));
    printf("\n");
    return whole;
}

/* Feeds a station's chunk until it is used up. False if the broker refused the call. */
static bool send_chunk(uint32_t station, const uint8_t *data, size_t len)
{
    printf("   %" PRIu32 " >", station);
    print_bytes(data, len);
    printf("\n");
    while (len > 0) {
        struct obriska_fed fed =
            obriska_memory_feed(&memory, station, data, len, answered, sizeof answered);
        if (fed.refusal != 0) {
            printf("   call refused %" PRIu32 ": %s\n", fed.refusal, obriska_refusal_text(fed.refusal));
            return false;
        }
        if (fed.answered > 0 && !take_answer(fed.answered)) /* 0: the request is not whole yet */
            return false;
        data += fed.used;
        len -= fed.used;
    }
    return true;
}

static bool reconnect(uint32_t station)
{
    uint32_t refusal = obriska_memory_reconnect(&memory, station);
    if (refusal != 0) {
        printf("   call refused %" PRIu32 ": %s\n", refusal, obriska_refusal_text(refusal));
        return false;
    }
    printf("   %" PRIu32 " reconnected\n", station);
    return true;
}

static void print_handle(uint32_t station, uint32_t number)
{
    const struct obriska_handle *handle = obriska_memory_find(&memory, station, number);
    printf("   handle %" PRIu32 " of station %" PRIu32 ": ", number, station);
    if (handle == NULL)
        printf("none\n");
    else
        printf("token %" PRIu64 ", mask 0x%" PRIX16 "\n", handle->token, handle->mask);
}

/* The SID that has this number in the table. */
static void print_sid(uint32_t number)
{
    uint8_t packed[OBRISKA_MAX_SID];
    char text[OBRISKA_SID_TEXT_LEN];
    struct obriska_sid_fields sid;
    size_t size = obriska_memory_sid(&memory, number, packed, sizeof packed);
    if (obriska_sid_unpack(&sid, packed, size) == 0 || obriska_sid_print(text, sizeof text, &sid) == 0)
        printf("   SID %" PRIu32 " is not in the table\n", number);
    else
        printf("   SID %" PRIu32 " is %s\n", number, text);
}

/* ---- a screen: requests by their fields, answers by theirs ----------------------------------- */

static uint8_t frame[OBRISKA_FRAME_LEN];

/* Opens the station's own token; gives the handle, or 0. */
static uint32_t open_own(uint32_t station, uint32_t mask)
{
    uint32_t handle = 0;
    size_t len = obriska_build_open_own(frame, sizeof frame, mask);
    if (!send_chunk(station, frame, len) || !obriska_read_handle(&answer, &handle))
        return 0;
    printf("   handle %" PRIu32 "\n", handle);
    return handle;
}

/* Disables a privilege, and says what it was. */
static bool disable(uint32_t station, uint32_t handle, uint32_t privilege)
{
    static const char *const was[] = {"absent", "disabled", "enabled"};
    const struct obriska_privilege_entry entry = {privilege, OBRISKA_DISABLE};
    struct obriska_privileges_before before;
    size_t len = obriska_build_privileges(frame, sizeof frame, handle, &entry, 1);
    if (!send_chunk(station, frame, len))
        return false;
    if (obriska_read_privileges_before(&answer, &before))
        printf("   it was %s\n", was[obriska_privilege_was(&before, privilege)]);
    return true;
}

/* Asks for the privileges, and says whether Tcb is enabled or how large the report is. */
static bool query_privileges(uint32_t station, uint32_t handle, uint32_t capacity)
{
    struct obriska_privileges privileges;
    uint32_t size;
    size_t len = obriska_build_query(frame, sizeof frame, handle, OBRISKA_CLASS_PRIVILEGES, capacity);
    if (!send_chunk(station, frame, len))
        return false;
    if (obriska_read_privileges(&answer, &privileges))
        printf("   Tcb is %s\n",
               privileges.enabled >> OBRISKA_PRIVILEGE_TCB & 1 ? "enabled" : "disabled");
    else if (obriska_read_refusal(&answer, &size) && answer.status == OBRISKA_STATUS_CAPACITY)
        printf("   it has %" PRIu32 " bytes\n", size);
    return true;
}

static bool close_handle(uint32_t station, uint32_t handle)
{
    return send_chunk(station, frame, obriska_build_close(frame, sizeof frame, handle));
}

/* Makes a token of a user, by the SID's text; gives the handle, or 0. */
static uint32_t create(uint32_t station, const char *user, uint64_t session)
{
    struct obriska_new_token_with_sids token = {.session = session};
    uint32_t handle = 0;
    if (!obriska_sid_parse(&token.user, user))
        return 0;
    size_t len = obriska_build_create_with_sids(frame, sizeof frame, &token);
    if (!send_chunk(station, frame, len) || !obriska_read_handle(&answer, &handle))
        return 0;
    printf("   handle %" PRIu32 "\n", handle);
    return handle;
}

/* Asks for the user of a token; gives the SID's number, or 0. */
static uint32_t query_user(uint32_t station, uint32_t handle)
{
    uint32_t number = 0;
    size_t len = obriska_build_query(frame, sizeof frame, handle, OBRISKA_CLASS_USER, 64);
    if (!send_chunk(station, frame, len) || !obriska_read_user(&answer, &number))
        return 0;
    return number;
}

/* ---- the first minute ------------------------------------------------------------------------ */

static bool play_requests(void)
{
    printf("A: open the own token, for query and adjust-privileges\n");
    uint32_t handle = open_own(0, OBRISKA_RIGHT_QUERY | OBRISKA_RIGHT_ADJUST_PRIVILEGES);
    if (handle == 0)
        return false;
    printf("B: disable Tcb\n");
    bool good = disable(0, handle, OBRISKA_PRIVILEGE_TCB);
    printf("C: query the privileges\n");
    good = good && query_privileges(0, handle, 64);
    printf("D: capacity 18 is one too small, 19 is enough\n");
    good = good && query_privileges(0, handle, 18) && query_privileges(0, handle, 19);
    printf("G: handle %" PRIu32 " is not station 1's\n", handle);
    good = good && query_privileges(1, handle, 64);
    printf("I: privilege 36 exists, 37 does not\n");
    return good && disable(0, handle, 36) && disable(0, handle, 37);
}

static bool play_chunks(void)
{
    static const uint8_t not_shortest[] = {0x03, 0x01, 0x80, 0x00};
    static const uint8_t breaking[] = {0x81, 0x10, 0x02, 0x01, 0x08};
    static const uint8_t longest[OBRISKA_FRAME_LEN] = {0x80, 0x10};
    printf("H: two requests in one chunk; mask 0x1EF opens, 0x10 is bad\n");
    size_t len = obriska_build_open_own(frame, sizeof frame, OBRISKA_RIGHT_ALL);
    len += obriska_build_open_own(frame + len, sizeof frame - len, 0x10);
    bool good = send_chunk(0, frame, len);
    printf("K: 80 00 is not the shortest form of 0\n");
    good = good && send_chunk(0, not_shortest, sizeof not_shortest);
    printf("F: length 2,049 breaks the stream; what follows is passed over\n");
    good = good && send_chunk(0, breaking, sizeof breaking) && reconnect(0);
    printf("E: length 2,048 is whole; request 0 is unknown\n");
    good = good && send_chunk(0, longest, sizeof longest);
    printf("A request in two chunks is answered at its last byte\n");
    len = obriska_build_open_own(frame, sizeof frame, OBRISKA_RIGHT_QUERY);
    return good && send_chunk(0, frame, 1) && send_chunk(0, frame + 1, len - 1);
}

static bool play_sids(void)
{
    printf("A token by its user's SID, which gets a number\n");
    uint32_t handle = create(0, "S-1-5-21-1000", 5);
    uint32_t number = handle == 0 ? 0 : query_user(0, handle);
    print_sid(number);
    print_sid(OBRISKA_SID_SYSTEM);
    return number != 0;
}

int main(void)
{
    uint32_t refusal = obriska_memory_start(&memory);
    if (refusal != 0) {
        fprintf(stderr, "start refused %" PRIu32 ": %s\n", refusal, obriska_refusal_text(refusal));
        return EXIT_FAILURE;
    }
    if (!play_requests() || !play_chunks() || !play_sids()) {
        fprintf(stderr, "the broker refused a call\n");
        return EXIT_FAILURE;
    }

    printf("Close handle 3\n");
    bool good = close_handle(0, 3);
    printf("Handles\n");
    print_handle(0, 1);
    print_handle(0, 2);
    print_handle(0, 3);
    print_handle(1, 1);
    printf("There is no station %d\n", OBRISKA_STATIONS);
    if (!good || close_handle(OBRISKA_STATIONS, 1) || fflush(stdout) != 0 || ferror(stdout))
        return EXIT_FAILURE;
    return EXIT_SUCCESS;
}
