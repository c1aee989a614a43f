/*
 * obriska_codec.h: the protocol's bytes, for screens in C11 and C++11 (docs/PROTOCOL.md).
 *
 * Builders write a request as a whole frame into the caller's buffer; readers take an answer apart.
 * Everything is in this header: nothing is to be linked, nothing is allocated or kept. It needs
 * neither obriska.h nor a 64-bit processor, and goes together with obriska.h in either order.
 *
 *     uint8_t frame[OBRISKA_FRAME_LEN];
 *     size_t length = obriska_build_open_own(frame, sizeof frame, OBRISKA_RIGHT_QUERY);
 *     ..send `length` bytes to the broker, get `got` bytes back..
 *     struct obriska_answer answer;
 *     uint32_t handle;
 *     if (!obriska_read_answer(&answer, bytes, got)) ..answer.error at byte answer.place..
 *     else if (answer.status != 0) ..obriska_refusal_text(answer.status)..
 *     else if (obriska_read_handle(&answer, &handle)) ..
 *
 * Builders check no meaning, only widths and lengths: what a value may be is the broker's to say.
 * Names that end in _ are not for use from outside.
 */
#ifndef OBRISKA_CODEC_H
#define OBRISKA_CODEC_H

#include <stddef.h>
#include <stdint.h>

/* ---- limits; those that obriska.h has too are the same --------------------------------------- */

#define OBRISKA_MAX_BODY 2048   /* the longest body of a request */
#define OBRISKA_LENGTH_BYTES 2  /* the most bytes that say a body's length */
#define OBRISKA_ANSWER_LEN 1024 /* the longest answer */
#define OBRISKA_FRAME_LEN (OBRISKA_LENGTH_BYTES + OBRISKA_MAX_BODY) /* enough for any request */

#define OBRISKA_MAX_GROUPS 64
#define OBRISKA_MAX_RESTRICTING 16
#define OBRISKA_MAX_DACL 256
#define OBRISKA_MAX_DEPTH 8
#define OBRISKA_GROUP_WORDS 16 /* words that request 6 answers */

#define OBRISKA_MAX_SUB_AUTHORITIES 15
#define OBRISKA_MAX_SID 68
#define OBRISKA_AUTHORITY_BYTES 6
#define OBRISKA_SID_REVISION_ 1
#define OBRISKA_SID_TEXT_LEN 184 /* enough for any SID's text, with the zero at its end */

/* ---- values of fields ------------------------------------------------------------------------ */

#define OBRISKA_RIGHT_ASSIGN_PRIMARY 0x001u
#define OBRISKA_RIGHT_DUPLICATE 0x002u
#define OBRISKA_RIGHT_IMPERSONATE 0x004u
#define OBRISKA_RIGHT_QUERY 0x008u
#define OBRISKA_RIGHT_ADJUST_PRIVILEGES 0x020u
#define OBRISKA_RIGHT_ADJUST_GROUPS 0x040u
#define OBRISKA_RIGHT_ADJUST_DEFAULT 0x080u
#define OBRISKA_RIGHT_ADJUST_SCOPE 0x100u
#define OBRISKA_RIGHT_ALL 0x1EFu

#define OBRISKA_TYPE_PRIMARY 1u
#define OBRISKA_TYPE_IMPERSONATION 2u

#define OBRISKA_LEVEL_ANONYMOUS 0u
#define OBRISKA_LEVEL_IDENTIFICATION 1u
#define OBRISKA_LEVEL_IMPERSONATION 2u
#define OBRISKA_LEVEL_DELEGATION 3u

#define OBRISKA_ELEVATION_DEFAULT 1u
#define OBRISKA_ELEVATION_FULL 2u
#define OBRISKA_ELEVATION_LIMITED 3u

#define OBRISKA_INTEGRITY_UNTRUSTED 0u
#define OBRISKA_INTEGRITY_LOW 4096u
#define OBRISKA_INTEGRITY_MEDIUM 8192u
#define OBRISKA_INTEGRITY_HIGH 12288u
#define OBRISKA_INTEGRITY_SYSTEM 16384u

#define OBRISKA_SID_ANONYMOUS 7u
#define OBRISKA_SID_SYSTEM 18u
#define OBRISKA_SID_ENTERED 32u

#define OBRISKA_GROUP_MANDATORY 0x01u
#define OBRISKA_GROUP_ENABLED_BY_DEFAULT 0x02u
#define OBRISKA_GROUP_ENABLED 0x04u
#define OBRISKA_GROUP_OWNER 0x08u
#define OBRISKA_GROUP_DENY_ONLY 0x10u
#define OBRISKA_GROUP_LOGON_ID 0xC0000000u

/* What request 5 does with a privilege, and the privileges that the broker asks for. */
#define OBRISKA_DISABLE 0u
#define OBRISKA_ENABLE 2u
#define OBRISKA_REMOVE 4u
#define OBRISKA_PRIVILEGE_CREATE_TOKEN 2u
#define OBRISKA_PRIVILEGE_ASSIGN_PRIMARY_TOKEN 3u
#define OBRISKA_PRIVILEGE_TCB 7u
#define OBRISKA_PRIVILEGE_IMPERSONATE 29u

/* Request 8: an index that stays, and what becomes of the DACL. */
#define OBRISKA_INDEX_STAYS 0xFFFFu
#define OBRISKA_DACL_STAYS 0u
#define OBRISKA_DACL_SET 1u

#define OBRISKA_CONDITION_ALL 1u
#define OBRISKA_CONDITION_ANY 2u
#define OBRISKA_CONDITION_NOT 3u
#define OBRISKA_CONDITION_ENABLED 4u
#define OBRISKA_CONDITION_GROUP 5u

/* Classes of request 4, each with its reader below. */
enum obriska_class {
    OBRISKA_CLASS_USER = 1,
    OBRISKA_CLASS_GROUPS = 2,
    OBRISKA_CLASS_PRIVILEGES = 3,
    OBRISKA_CLASS_OWNER = 4,
    OBRISKA_CLASS_PRIMARY_GROUP = 5,
    OBRISKA_CLASS_DACL = 6,
    OBRISKA_CLASS_TYPE = 7,
    OBRISKA_CLASS_LEVEL = 8,
    OBRISKA_CLASS_STATISTICS = 9,
    OBRISKA_CLASS_RESTRICTING = 10,
    OBRISKA_CLASS_SCOPE = 11,
    OBRISKA_CLASS_ELEVATION = 12,
    OBRISKA_CLASS_INTEGRITY = 13
};

/* The status of an answer: 0 or a refusal, by the numbers of obriska.h. 11 to 13 refuse a host's call
 * and are no status. */
enum obriska_status {
    OBRISKA_STATUS_SUCCESS = 0,
    OBRISKA_STATUS_LAYOUT = 1,
    OBRISKA_STATUS_HANDLE = 2,
    OBRISKA_STATUS_RIGHT = 3,
    OBRISKA_STATUS_PRIVILEGE = 4,
    OBRISKA_STATUS_FIELD = 5,
    OBRISKA_STATUS_PROTECTED = 6,
    OBRISKA_STATUS_MISMATCH = 7,
    OBRISKA_STATUS_FULL = 8,
    OBRISKA_STATUS_CAPACITY = 9,
    OBRISKA_STATUS_BROKEN = 10,
    OBRISKA_STATUS_NOT_LINKED = 14
};

/* What a refusal means, 1 to 14; of 0 'success'. */
static inline const char *obriska_refusal_text(uint32_t refusal)
{
    switch (refusal) {
    case 0: return "success";
    case 1: return "unknown request, or not in its layout";
    case 2: return "not a live handle of this station";
    case 3: return "the handle lacks the right";
    case 4: return "a privilege is not enabled on the own token";
    case 5: return "a field or entry is bad";
    case 6: return "a mandatory, deny-only or logon group, or disabling one with the user's SID";
    case 7: return "another user or session, or unrestricted while the own token is restricted";
    case 8: return "no slot or number left, or too many SIDs";
    case 9: return "the report is larger than the capacity";
    case 10: return "the stream is broken until a reconnect";
    case 11: return "there is no such station";
    case 12: return "the answer buffer is too short";
    case 13: return "the memory is not valid";
    case 14: return "the token is in no linked pair";
    default: return "unknown refusal";
    }
}

/* ---- records --------------------------------------------------------------------------------- */

struct obriska_group {
    uint32_t sid; /* its number; so in all requests but 14 and 15, and in all answers */
    uint32_t attributes; /* OBRISKA_GROUP_.. */
};

/* Request 3. */
struct obriska_new_token {
    uint32_t user;
    uint64_t session;
    uint32_t integrity;
    uint64_t present; /* privilege n is bit n */
    uint64_t by_default;
    const struct obriska_group *groups; /* may be null if there are none; so in all lists below */
    size_t group_count;
};

/* A SID itself. */
struct obriska_sid_fields {
    uint8_t authority[OBRISKA_AUTHORITY_BYTES]; /* high byte first: 0 0 0 0 0 5 in S-1-5-18 */
    uint8_t count;                              /* of sub-authorities */
    uint32_t sub_authorities[OBRISKA_MAX_SUB_AUTHORITIES];
};

struct obriska_sid_group {
    struct obriska_sid_fields sid;
    uint32_t attributes; /* OBRISKA_GROUP_.. */
};

/* Request 14: request 3 with SIDs for numbers. */
struct obriska_new_token_with_sids {
    struct obriska_sid_fields user;
    uint64_t session;
    uint32_t integrity;
    uint64_t present;
    uint64_t by_default;
    const struct obriska_sid_group *groups;
    size_t group_count;
};

/* Request 5. */
struct obriska_privilege_entry {
    uint32_t privilege;
    uint32_t attributes; /* OBRISKA_DISABLE, _ENABLE or _REMOVE */
};

/* Request 6. */
struct obriska_group_entry {
    uint32_t index;
    uint32_t enable; /* 0 or 1 */
};

/* Request 8. */
struct obriska_defaults {
    uint16_t owner; /* 0 the user, k group k - 1, or OBRISKA_INDEX_STAYS; so the next */
    uint16_t primary_group;
    uint32_t flag; /* OBRISKA_DACL_STAYS, with no bytes, or OBRISKA_DACL_SET */
    const uint8_t *dacl;
    size_t dacl_length;
};

/* Request 10. */
struct obriska_restriction {
    uint32_t write_restricted;
    uint64_t removed; /* privilege n is bit n */
    const uint32_t *deny;
    size_t deny_count;
    const uint32_t *sids;
    size_t sid_count;
};

/* Request 15: request 10 with SIDs for numbers. */
struct obriska_restriction_to_sids {
    uint32_t write_restricted;
    uint64_t removed;
    const uint32_t *deny;
    size_t deny_count;
    const struct obriska_sid_fields *sids;
    size_t sid_count;
};

/* ---- bytes that are written ------------------------------------------------------------------ */

/* A buffer that is filled from its begin. What does not fit sets `failed`, and nothing after it is
 * written. */
struct obriska_buffer {
    uint8_t *bytes;
    size_t capacity;
    size_t length;
    int failed;
};

static inline void obriska_put_byte_(struct obriska_buffer *buffer, uint8_t byte)
{
    if (buffer->failed || buffer->length >= buffer->capacity)
        buffer->failed = 1;
    else
        buffer->bytes[buffer->length++] = byte;
}

/* A number: seven bits a byte, low bits first, the top bit set on all bytes but the last. */
static inline void obriska_put_(struct obriska_buffer *buffer, uint64_t number)
{
    while (number > 0x7F) {
        obriska_put_byte_(buffer, (uint8_t)(0x80 | (number & 0x7F)));
        number >>= 7;
    }
    obriska_put_byte_(buffer, (uint8_t)number);
}

static inline void obriska_put_bytes_(struct obriska_buffer *buffer, const uint8_t *bytes, size_t count)
{
    for (size_t i = 0; i < count && !buffer->failed; i++)
        obriska_put_byte_(buffer, bytes[i]);
}

/* A packed SID; one with too many sub-authorities sets `failed`. */
static inline void obriska_put_sid_(struct obriska_buffer *buffer, const struct obriska_sid_fields *sid)
{
    if (sid->count > OBRISKA_MAX_SUB_AUTHORITIES) {
        buffer->failed = 1;
        return;
    }
    obriska_put_byte_(buffer, OBRISKA_SID_REVISION_);
    obriska_put_byte_(buffer, sid->count);
    obriska_put_bytes_(buffer, sid->authority, OBRISKA_AUTHORITY_BYTES);
    for (unsigned i = 0; i < sid->count; i++)
        for (unsigned shift = 0; shift < 32; shift += 8)
            obriska_put_byte_(buffer, (uint8_t)(sid->sub_authorities[i] >> shift & 0xFF));
}

/* Begins a frame: the first byte is left for the length, then comes the request's number. No more is
 * written than the longest frame has. */
static inline struct obriska_buffer obriska_begin_frame_(uint8_t *frame, size_t capacity,
                                                         uint32_t request)
{
    struct obriska_buffer buffer;
    buffer.bytes = frame;
    buffer.capacity = capacity < OBRISKA_FRAME_LEN ? capacity : OBRISKA_FRAME_LEN;
    buffer.length = 1;
    buffer.failed = capacity == 0;
    obriska_put_(&buffer, request);
    return buffer;
}

/* Makes room for the second byte of the length. */
static inline void obriska_shift_body_(struct obriska_buffer *buffer)
{
    obriska_put_byte_(buffer, 0);
    for (size_t i = buffer->length - 1; i > 1 && !buffer->failed; i--)
        buffer->bytes[i] = buffer->bytes[i - 1];
}

/* Ends a frame by its length; gives the bytes of all, or 0. */
static inline size_t obriska_end_frame_(struct obriska_buffer *buffer)
{
    size_t body = buffer->length - 1;
    if (body > 0x7F)
        obriska_shift_body_(buffer);
    if (buffer->failed || body > OBRISKA_MAX_BODY)
        return 0;
    buffer->bytes[0] = (uint8_t)(body > 0x7F ? 0x80 | (body & 0x7F) : body);
    if (body > 0x7F)
        buffer->bytes[1] = (uint8_t)(body >> 7);
    return buffer->length;
}

/* A request with up to three fields. */
static inline size_t obriska_build_numbers_(uint8_t *frame, size_t capacity, uint32_t request,
                                            size_t count, uint32_t first, uint32_t second,
                                            uint32_t third)
{
    struct obriska_buffer buffer = obriska_begin_frame_(frame, capacity, request);
    if (count > 0)
        obriska_put_(&buffer, first);
    if (count > 1)
        obriska_put_(&buffer, second);
    if (count > 2)
        obriska_put_(&buffer, third);
    return obriska_end_frame_(&buffer);
}

/* ---- SIDs: MS-DTYP has their bytes and their text ------------------------------------------- */

/* Writes the packed SID; gives its bytes, 8 to OBRISKA_MAX_SID, or 0 where the buffer is too short or the
 * SID has too many sub-authorities. */
static inline size_t obriska_sid_pack(uint8_t *packed, size_t capacity,
                                      const struct obriska_sid_fields *sid)
{
    struct obriska_buffer buffer;
    buffer.bytes = packed;
    buffer.capacity = capacity;
    buffer.length = 0;
    buffer.failed = 0;
    obriska_put_sid_(&buffer, sid);
    return buffer.failed ? 0 : buffer.length;
}

/* Reads the packed SID at the start of the bytes, such as obriska_sid gives; gives how many bytes it has, or
 * 0 where they are none. Sub-authorities that it has not are 0. */
static inline size_t obriska_sid_unpack(struct obriska_sid_fields *sid, const uint8_t *bytes,
                                        size_t length)
{
    const size_t head = 2 + OBRISKA_AUTHORITY_BYTES;
    if (length < head || bytes[0] != OBRISKA_SID_REVISION_ ||
        bytes[1] > OBRISKA_MAX_SUB_AUTHORITIES || length < head + 4 * (size_t)bytes[1])
        return 0;
    sid->count = bytes[1];
    for (size_t i = 0; i < OBRISKA_AUTHORITY_BYTES; i++)
        sid->authority[i] = bytes[2 + i];
    for (size_t i = 0; i < OBRISKA_MAX_SUB_AUTHORITIES; i++) {
        sid->sub_authorities[i] = 0;
        for (size_t j = 0; j < 4 && i < sid->count; j++)
            sid->sub_authorities[i] |= (uint32_t)bytes[head + 4 * i + j] << (8 * j);
    }
    return head + 4 * (size_t)sid->count;
}

/* 1 if they are one SID, else 0. Sub-authorities that they have not do not count. */
static inline int obriska_sid_equal(const struct obriska_sid_fields *one,
                                    const struct obriska_sid_fields *other)
{
    int equal = one->count == other->count && one->count <= OBRISKA_MAX_SUB_AUTHORITIES;
    for (size_t i = 0; i < OBRISKA_AUTHORITY_BYTES && equal; i++)
        equal = one->authority[i] == other->authority[i];
    for (size_t i = 0; equal && i < one->count; i++)
        equal = one->sub_authorities[i] == other->sub_authorities[i];
    return equal;
}

/* The authority as a number of 48 bits. */
static inline uint64_t obriska_sid_authority_(const struct obriska_sid_fields *sid)
{
    uint64_t authority = 0;
    for (size_t i = 0; i < OBRISKA_AUTHORITY_BYTES; i++)
        authority = authority << 8 | sid->authority[i];
    return authority;
}

static inline void obriska_set_authority_(struct obriska_sid_fields *sid, uint64_t authority)
{
    for (size_t i = OBRISKA_AUTHORITY_BYTES; i > 0; i--, authority >>= 8)
        sid->authority[i - 1] = (uint8_t)(authority & 0xFF);
}

/* Appends a number to a text, in this base and at least so many digits. */
static inline void obriska_put_digits_(struct obriska_buffer *text, uint64_t number, unsigned base,
                                       unsigned least)
{
    uint8_t digits[20];
    unsigned count = 0;
    do {
        digits[count++] = (uint8_t)"0123456789ABCDEF"[number % base];
        number /= base;
    } while (number > 0 || count < least);
    while (count > 0)
        obriska_put_byte_(text, digits[--count]);
}

/* Writes the text, such as S-1-5-18, and a zero at its end; gives its length without that, or 0 where the
 * buffer is too short or the SID has too many sub-authorities. An authority from 2^32 on has twelve
 * hexadecimal digits. */
static inline size_t obriska_sid_print(char *text, size_t capacity, const struct obriska_sid_fields *sid)
{
    uint64_t authority = obriska_sid_authority_(sid);
    struct obriska_buffer buffer;
    buffer.bytes = (uint8_t *)text;
    buffer.capacity = capacity;
    buffer.length = 0;
    buffer.failed = sid->count > OBRISKA_MAX_SUB_AUTHORITIES;
    obriska_put_bytes_(&buffer, (const uint8_t *)"S-1-", 4);
    if (authority > UINT32_MAX) {
        obriska_put_bytes_(&buffer, (const uint8_t *)"0x", 2);
        obriska_put_digits_(&buffer, authority, 16, 2 * OBRISKA_AUTHORITY_BYTES);
    } else {
        obriska_put_digits_(&buffer, authority, 10, 1);
    }
    for (unsigned i = 0; i < sid->count && !buffer.failed; i++) {
        obriska_put_byte_(&buffer, '-');
        obriska_put_digits_(&buffer, sid->sub_authorities[i], 10, 1);
    }
    obriska_put_byte_(&buffer, 0);
    return buffer.failed ? 0 : buffer.length - 1;
}

/* Reads digits of this base up to a '-' or the end, at most so many and to 2^48 - 1; null where there are
 * none, or others. */
static inline const char *obriska_take_digits_(const char *text, unsigned base, unsigned most,
                                               uint64_t *number)
{
    unsigned count = 0;
    *number = 0;
    for (; *text != 0 && *text != '-'; text++, count++) {
        unsigned digit = 16;
        if (*text >= '0' && *text <= '9')
            digit = (unsigned)(*text - '0');
        else if ((*text >= 'A' && *text <= 'F') || (*text >= 'a' && *text <= 'f'))
            digit = ((unsigned)*text & 7) + 9;
        if (digit >= base || count == most)
            return NULL;
        *number = *number * base + digit;
    }
    return count > 0 ? text : NULL;
}

/* Reads an authority as text has it; null where there is none. */
static inline const char *obriska_take_authority_(const char *text, uint64_t *authority)
{
    const unsigned digits = 2 * OBRISKA_AUTHORITY_BYTES;
    if (text[0] == '0' && (text[1] == 'x' || text[1] == 'X')) {
        const char *end = obriska_take_digits_(text + 2, 16, digits, authority);
        return end == text + 2 + digits ? end : NULL;
    }
    const char *end = obriska_take_digits_(text, 10, 10, authority);
    return *authority <= UINT32_MAX ? end : NULL;
}

/* Reads a SID from its text, up to a zero: S-1-, the authority, and sub-authorities with a '-' before each.
 * The authority is a decimal number below 2^32, or 0x and twelve hexadecimal digits, whatever it is; the
 * others are decimal numbers below 2^32. None has more than ten decimal digits. Gives 1, or 0 where it is
 * no such text. */
static inline int obriska_sid_parse(struct obriska_sid_fields *sid, const char *text)
{
    uint64_t number = 0;
    if ((text[0] != 'S' && text[0] != 's') || text[1] != '-' || text[2] != '1' || text[3] != '-')
        return 0;
    text = obriska_take_authority_(text + 4, &number);
    obriska_set_authority_(sid, number);
    sid->count = 0;
    for (size_t i = 0; i < OBRISKA_MAX_SUB_AUTHORITIES; i++)
        sid->sub_authorities[i] = 0;
    while (text != NULL && *text == '-') {
        text = obriska_take_digits_(text + 1, 10, 10, &number);
        if (number > UINT32_MAX || sid->count == OBRISKA_MAX_SUB_AUTHORITIES)
            return 0;
        sid->sub_authorities[sid->count++] = (uint32_t)number;
    }
    return text != NULL;
}

/* ---- conditions of request 18: docs/CONDITIONS.md -------------------------------------------- */

/* A condition is written from the outside in: obriska_condition_all(c, 2), and then its two conditions.
 * Each of these gives 1, or 0 if the buffer is full. OBRISKA_MAX_BODY bytes are enough for any. */
static inline struct obriska_buffer obriska_condition_begin(uint8_t *bytes, size_t capacity)
{
    struct obriska_buffer condition;
    condition.bytes = bytes;
    condition.capacity = capacity;
    condition.length = 0;
    condition.failed = 0;
    return condition;
}

static inline int obriska_condition_put_(struct obriska_buffer *condition, uint32_t kind,
                                         uint32_t number)
{
    obriska_put_(condition, kind);
    obriska_put_(condition, number);
    return !condition->failed;
}

/* The next `count` conditions all hold; of none, it holds. */
static inline int obriska_condition_all(struct obriska_buffer *condition, uint32_t count)
{
    return obriska_condition_put_(condition, OBRISKA_CONDITION_ALL, count);
}

/* Of the next `count` conditions one holds at least; of none, it does not hold. */
static inline int obriska_condition_any(struct obriska_buffer *condition, uint32_t count)
{
    return obriska_condition_put_(condition, OBRISKA_CONDITION_ANY, count);
}

/* The next condition does not hold. */
static inline int obriska_condition_not(struct obriska_buffer *condition)
{
    obriska_put_(condition, OBRISKA_CONDITION_NOT);
    return !condition->failed;
}

/* The privilege is enabled. */
static inline int obriska_condition_enabled(struct obriska_buffer *condition, uint32_t privilege)
{
    return obriska_condition_put_(condition, OBRISKA_CONDITION_ENABLED, privilege);
}

/* A group of the SID that has this number is enabled. */
static inline int obriska_condition_group(struct obriska_buffer *condition, uint32_t sid)
{
    return obriska_condition_put_(condition, OBRISKA_CONDITION_GROUP, sid);
}

/* ---- the requests: each gives the frame's length, or 0 --------------------------------------- */

/* 0 means that the frame does not fit into `capacity` bytes, or its body into OBRISKA_MAX_BODY, or that a SID
 * has too many sub-authorities. Bytes of the buffer may have been written then. Nothing is written beyond
 * the frame. */

/* Request 1. */
static inline size_t obriska_build_open_own(uint8_t *frame, size_t capacity, uint32_t mask)
{
    return obriska_build_numbers_(frame, capacity, 1, 1, mask, 0, 0);
}

/* Request 2. */
static inline size_t obriska_build_close(uint8_t *frame, size_t capacity, uint32_t handle)
{
    return obriska_build_numbers_(frame, capacity, 2, 1, handle, 0, 0);
}

/* Request 3. */
static inline size_t obriska_build_create(uint8_t *frame, size_t capacity,
                                          const struct obriska_new_token *token)
{
    struct obriska_buffer buffer = obriska_begin_frame_(frame, capacity, 3);
    obriska_put_(&buffer, token->user);
    obriska_put_(&buffer, token->session);
    obriska_put_(&buffer, token->integrity);
    obriska_put_(&buffer, token->present);
    obriska_put_(&buffer, token->by_default);
    obriska_put_(&buffer, token->group_count);
    for (size_t i = 0; i < token->group_count && !buffer.failed; i++) {
        obriska_put_(&buffer, token->groups[i].sid);
        obriska_put_(&buffer, token->groups[i].attributes);
    }
    return obriska_end_frame_(&buffer);
}

/* Request 4; the class is an OBRISKA_CLASS_... OBRISKA_ANSWER_LEN is capacity enough for any report. */
static inline size_t obriska_build_query(uint8_t *frame, size_t capacity, uint32_t handle,
                                         uint32_t query_class, uint32_t report_capacity)
{
    return obriska_build_numbers_(frame, capacity, 4, 3, handle, query_class, report_capacity);
}

/* Request 5. */
static inline size_t obriska_build_privileges(uint8_t *frame, size_t capacity, uint32_t handle,
                                              const struct obriska_privilege_entry *entries,
                                              size_t count)
{
    struct obriska_buffer buffer = obriska_begin_frame_(frame, capacity, 5);
    obriska_put_(&buffer, handle);
    obriska_put_(&buffer, count);
    for (size_t i = 0; i < count && !buffer.failed; i++) {
        obriska_put_(&buffer, entries[i].privilege);
        obriska_put_(&buffer, entries[i].attributes);
    }
    return obriska_end_frame_(&buffer);
}

/* Request 5 as a reset: enabled becomes default. */
static inline size_t obriska_build_reset_privileges(uint8_t *frame, size_t capacity, uint32_t handle)
{
    struct obriska_privilege_entry reset;
    reset.privilege = 0;
    reset.attributes = 0x80000000u;
    return obriska_build_privileges(frame, capacity, handle, &reset, 1);
}

/* Request 6. */
static inline size_t obriska_build_groups(uint8_t *frame, size_t capacity, uint32_t handle,
                                          const struct obriska_group_entry *entries, size_t count)
{
    struct obriska_buffer buffer = obriska_begin_frame_(frame, capacity, 6);
    obriska_put_(&buffer, handle);
    obriska_put_(&buffer, count);
    for (size_t i = 0; i < count && !buffer.failed; i++) {
        obriska_put_(&buffer, entries[i].index);
        obriska_put_(&buffer, entries[i].enable);
    }
    return obriska_end_frame_(&buffer);
}

/* Request 6 as a reset: each group that is not deny-only is enabled just if it is so by default. */
static inline size_t obriska_build_reset_groups(uint8_t *frame, size_t capacity, uint32_t handle)
{
    struct obriska_group_entry reset;
    reset.index = 0xFFFFFFFFu;
    reset.enable = 0;
    return obriska_build_groups(frame, capacity, handle, &reset, 1);
}

/* Request 7. */
static inline size_t obriska_build_scope(uint8_t *frame, size_t capacity, uint32_t handle,
                                         uint32_t scope)
{
    return obriska_build_numbers_(frame, capacity, 7, 2, handle, scope, 0);
}

/* Request 8. */
static inline size_t obriska_build_defaults(uint8_t *frame, size_t capacity, uint32_t handle,
                                            const struct obriska_defaults *defaults)
{
    struct obriska_buffer buffer = obriska_begin_frame_(frame, capacity, 8);
    obriska_put_(&buffer, handle);
    obriska_put_(&buffer, defaults->owner);
    obriska_put_(&buffer, defaults->primary_group);
    obriska_put_(&buffer, defaults->flag);
    obriska_put_(&buffer, defaults->dacl_length);
    obriska_put_bytes_(&buffer, defaults->dacl, defaults->dacl_length);
    return obriska_end_frame_(&buffer);
}

/* Request 9. */
static inline size_t obriska_build_duplicate(uint8_t *frame, size_t capacity, uint32_t handle,
                                             uint32_t type, uint32_t level, uint32_t mask)
{
    struct obriska_buffer buffer = obriska_begin_frame_(frame, capacity, 9);
    obriska_put_(&buffer, handle);
    obriska_put_(&buffer, type);
    obriska_put_(&buffer, level);
    obriska_put_(&buffer, mask);
    return obriska_end_frame_(&buffer);
}

/* Request 10. */
static inline size_t obriska_build_restrict(uint8_t *frame, size_t capacity, uint32_t handle,
                                            const struct obriska_restriction *restriction)
{
    struct obriska_buffer buffer = obriska_begin_frame_(frame, capacity, 10);
    obriska_put_(&buffer, handle);
    obriska_put_(&buffer, restriction->write_restricted);
    obriska_put_(&buffer, restriction->removed);
    obriska_put_(&buffer, restriction->deny_count);
    obriska_put_(&buffer, restriction->sid_count);
    for (size_t i = 0; i < restriction->deny_count && !buffer.failed; i++)
        obriska_put_(&buffer, restriction->deny[i]);
    for (size_t i = 0; i < restriction->sid_count && !buffer.failed; i++)
        obriska_put_(&buffer, restriction->sids[i]);
    return obriska_end_frame_(&buffer);
}

/* Request 11. */
static inline size_t obriska_build_install(uint8_t *frame, size_t capacity, uint32_t handle)
{
    return obriska_build_numbers_(frame, capacity, 11, 1, handle, 0, 0);
}

/* Request 12. */
static inline size_t obriska_build_impersonate(uint8_t *frame, size_t capacity, uint32_t handle)
{
    return obriska_build_numbers_(frame, capacity, 12, 1, handle, 0, 0);
}

/* Request 13. */
static inline size_t obriska_build_revert(uint8_t *frame, size_t capacity)
{
    return obriska_build_numbers_(frame, capacity, 13, 0, 0, 0, 0);
}

/* Request 14. */
static inline size_t obriska_build_create_with_sids(uint8_t *frame, size_t capacity,
                                                    const struct obriska_new_token_with_sids *token)
{
    struct obriska_buffer buffer = obriska_begin_frame_(frame, capacity, 14);
    obriska_put_sid_(&buffer, &token->user);
    obriska_put_(&buffer, token->session);
    obriska_put_(&buffer, token->integrity);
    obriska_put_(&buffer, token->present);
    obriska_put_(&buffer, token->by_default);
    obriska_put_(&buffer, token->group_count);
    for (size_t i = 0; i < token->group_count && !buffer.failed; i++) {
        obriska_put_sid_(&buffer, &token->groups[i].sid);
        obriska_put_(&buffer, token->groups[i].attributes);
    }
    return obriska_end_frame_(&buffer);
}

/* Request 15. */
static inline size_t obriska_build_restrict_to_sids(uint8_t *frame, size_t capacity, uint32_t handle,
                                                    const struct obriska_restriction_to_sids *restriction)
{
    struct obriska_buffer buffer = obriska_begin_frame_(frame, capacity, 15);
    obriska_put_(&buffer, handle);
    obriska_put_(&buffer, restriction->write_restricted);
    obriska_put_(&buffer, restriction->removed);
    obriska_put_(&buffer, restriction->deny_count);
    obriska_put_(&buffer, restriction->sid_count);
    for (size_t i = 0; i < restriction->deny_count && !buffer.failed; i++)
        obriska_put_(&buffer, restriction->deny[i]);
    for (size_t i = 0; i < restriction->sid_count && !buffer.failed; i++)
        obriska_put_sid_(&buffer, &restriction->sids[i]);
    return obriska_end_frame_(&buffer);
}

/* Request 16. */
static inline size_t obriska_build_link(uint8_t *frame, size_t capacity, uint32_t elevated,
                                        uint32_t filtered, uint64_t session)
{
    struct obriska_buffer buffer = obriska_begin_frame_(frame, capacity, 16);
    obriska_put_(&buffer, elevated);
    obriska_put_(&buffer, filtered);
    obriska_put_(&buffer, session);
    return obriska_end_frame_(&buffer);
}

/* Request 17. */
static inline size_t obriska_build_get_linked(uint8_t *frame, size_t capacity, uint32_t handle)
{
    return obriska_build_numbers_(frame, capacity, 17, 1, handle, 0, 0);
}

/* Request 18. A condition that did not fit its own buffer gives 0; that it is whole and at most
 * OBRISKA_MAX_DEPTH deep, obriska_condition_depth below can tell. */
static inline size_t obriska_build_evaluate(uint8_t *frame, size_t capacity, uint32_t handle,
                                            const struct obriska_buffer *condition)
{
    struct obriska_buffer buffer = obriska_begin_frame_(frame, capacity, 18);
    obriska_put_(&buffer, handle);
    obriska_put_bytes_(&buffer, condition->bytes, condition->length);
    if (condition->failed)
        buffer.failed = 1;
    return obriska_end_frame_(&buffer);
}

/* ---- bytes that are read --------------------------------------------------------------------- */

/* Why a reader gave 0. */
enum obriska_error {
    OBRISKA_ERROR_NONE = 0,
    OBRISKA_ERROR_CUT = 1,     /* the bytes end too early: of the frame, or in it of the fields */
    OBRISKA_ERROR_LENGTH = 2,  /* a length of 0, not in its shortest form, or above OBRISKA_MAX_BODY */
    OBRISKA_ERROR_NUMBER = 3,  /* a number not in its shortest form, or too wide for its field */
    OBRISKA_ERROR_VALUE = 4,   /* a count above its limit, or a value of request 18 above 1 */
    OBRISKA_ERROR_LEFT = 5,    /* bytes are left after the last field */
    OBRISKA_ERROR_REFUSED = 6, /* a success is read, but the status is a refusal */
    OBRISKA_ERROR_SUCCESS = 7  /* a refusal is read, but the status is 0 */
};

static inline const char *obriska_error_text(enum obriska_error error)
{
    switch (error) {
    case OBRISKA_ERROR_NONE: return "no error";
    case OBRISKA_ERROR_CUT: return "the bytes end too early";
    case OBRISKA_ERROR_LENGTH: return "not a length of a frame";
    case OBRISKA_ERROR_NUMBER: return "a number too wide or not in its shortest form";
    case OBRISKA_ERROR_VALUE: return "a value that is not answered";
    case OBRISKA_ERROR_LEFT: return "bytes are left";
    case OBRISKA_ERROR_REFUSED: return "the request was refused";
    case OBRISKA_ERROR_SUCCESS: return "the request was not refused";
    default: return "unknown error";
    }
}

/* Bytes from `at` to `end` that are still to be read. */
struct obriska_cursor {
    const uint8_t *bytes;
    size_t at;
    size_t end;
};

/* Reads a number of at most `limit`. At an error the cursor is left at the byte that shows it. */
static inline enum obriska_error obriska_take_(struct obriska_cursor *cursor, uint64_t limit,
                                               uint64_t *number)
{
    uint64_t value = 0;
    for (unsigned shift = 0;; shift += 7) {
        if (cursor->at >= cursor->end)
            return OBRISKA_ERROR_CUT;
        uint8_t byte = cursor->bytes[cursor->at];
        if ((shift > 0 && byte == 0) || (shift == 63 && byte > 1))
            return OBRISKA_ERROR_NUMBER;
        value |= (uint64_t)(byte & 0x7F) << shift;
        if (value > limit)
            return OBRISKA_ERROR_NUMBER;
        cursor->at++;
        if (byte < 0x80)
            break;
    }
    *number = value;
    return OBRISKA_ERROR_NONE;
}

/* How deep a condition is: 1 to OBRISKA_MAX_DEPTH; one more where it is deeper than that, whatever follows;
 * 0 where the bytes are no condition, or more than one. */
static inline unsigned obriska_condition_depth(const uint8_t *bytes, size_t length)
{
    uint64_t left[OBRISKA_MAX_DEPTH]; /* conditions still to come, of each that is open */
    struct obriska_cursor cursor;
    unsigned open = 0, deepest = 0;
    cursor.bytes = bytes;
    cursor.at = 0;
    cursor.end = length;
    do {
        uint64_t kind, number = 1;
        if (obriska_take_(&cursor, UINT32_MAX, &kind) != OBRISKA_ERROR_NONE ||
            kind < OBRISKA_CONDITION_ALL || kind > OBRISKA_CONDITION_GROUP)
            return 0;
        if (kind != OBRISKA_CONDITION_NOT &&
            obriska_take_(&cursor, UINT32_MAX, &number) != OBRISKA_ERROR_NONE)
            return 0;
        deepest = open + 1 > deepest ? open + 1 : deepest;
        if (kind <= OBRISKA_CONDITION_NOT && number > 0) {
            left[open++] = number;
            if (open == OBRISKA_MAX_DEPTH)
                return OBRISKA_MAX_DEPTH + 1;
            continue;
        }
        while (open > 0 && --left[open - 1] == 0)
            open--;
    } while (open > 0);
    return cursor.at == cursor.end ? deepest : 0;
}

/* ---- answers --------------------------------------------------------------------------------- */

/* An answer, and what the last reader made of it. It refers to the bytes that it was read from. */
struct obriska_answer {
    uint32_t status;              /* 0, or the refusal */
    const uint8_t *bytes;         /* the frame */
    size_t length;                /* bytes of the frame; 0: there is none */
    size_t fields;                /* where the fields begin, in the frame */
    struct obriska_cursor cursor; /* what is not read yet */
    enum obriska_error error;     /* of the last reader */
    size_t place;                 /* the byte of the frame that shows the error */
};

static inline int obriska_fail_(struct obriska_answer *answer, enum obriska_error error, size_t place)
{
    answer->error = error;
    answer->place = place;
    return error == OBRISKA_ERROR_NONE;
}

/* Reads a frame's length: one byte below 128, else two. */
static inline enum obriska_error obriska_take_length_(struct obriska_cursor *cursor, size_t *body)
{
    if (cursor->at >= cursor->end)
        return OBRISKA_ERROR_CUT;
    *body = cursor->bytes[cursor->at];
    if (*body == 0)
        return OBRISKA_ERROR_LENGTH;
    cursor->at++;
    if (*body < 0x80)
        return OBRISKA_ERROR_NONE;
    if (cursor->at >= cursor->end)
        return OBRISKA_ERROR_CUT;
    size_t second = cursor->bytes[cursor->at];
    *body = (*body & 0x7F) | second << 7;
    if (second == 0 || *body > OBRISKA_MAX_BODY)
        return OBRISKA_ERROR_LENGTH;
    cursor->at++;
    return OBRISKA_ERROR_NONE;
}

/* Finds the whole frame at the start of the bytes: 1, and status, length and fields are set; or 0, with
 * the error and its place. OBRISKA_ERROR_CUT says that the frame goes on after these bytes: read again
 * with more of them. The next answer begins at bytes + answer->length. */
static inline int obriska_read_answer(struct obriska_answer *answer, const uint8_t *bytes, size_t count)
{
    size_t body = 0;
    uint64_t status = 0;
    struct obriska_cursor cursor;
    enum obriska_error error;
    cursor.bytes = bytes;
    cursor.at = 0;
    cursor.end = count;
    answer->status = 0;
    answer->bytes = bytes;
    answer->length = 0;
    answer->fields = 0;
    answer->cursor = cursor;
    error = obriska_take_length_(&cursor, &body);
    if (error != OBRISKA_ERROR_NONE)
        return obriska_fail_(answer, error, cursor.at);
    if (body > count - cursor.at)
        return obriska_fail_(answer, OBRISKA_ERROR_CUT, count);
    cursor.end = cursor.at + body;
    error = obriska_take_(&cursor, UINT32_MAX, &status);
    if (error == OBRISKA_ERROR_CUT) /* the frame is whole, so that more bytes would not help */
        return obriska_fail_(answer, OBRISKA_ERROR_NUMBER, cursor.at - 1);
    if (error != OBRISKA_ERROR_NONE)
        return obriska_fail_(answer, error, cursor.at);
    answer->status = (uint32_t)status;
    answer->length = cursor.end;
    answer->fields = cursor.at;
    answer->cursor = cursor;
    return obriska_fail_(answer, OBRISKA_ERROR_NONE, 0);
}

/* Goes to the first field, of an answer whose status is 0 just if `success` is 1. */
static inline int obriska_begin_(struct obriska_answer *answer, int success)
{
    if (answer->length == 0)
        return 0; /* no frame was read: its error stays */
    answer->cursor.at = answer->fields;
    if ((answer->status == 0) == success)
        return obriska_fail_(answer, OBRISKA_ERROR_NONE, 0);
    return obriska_fail_(answer, success ? OBRISKA_ERROR_REFUSED : OBRISKA_ERROR_SUCCESS,
                         answer->fields - 1);
}

static inline int obriska_u64_(struct obriska_answer *answer, uint64_t *number)
{
    enum obriska_error error = obriska_take_(&answer->cursor, UINT64_MAX, number);
    return obriska_fail_(answer, error, answer->cursor.at);
}

static inline int obriska_u32_(struct obriska_answer *answer, uint32_t *number)
{
    uint64_t wide = 0;
    enum obriska_error error = obriska_take_(&answer->cursor, UINT32_MAX, &wide);
    if (error == OBRISKA_ERROR_NONE)
        *number = (uint32_t)wide;
    return obriska_fail_(answer, error, answer->cursor.at);
}

/* A number of at most `most`: a count, say. */
static inline int obriska_at_most_(struct obriska_answer *answer, uint32_t most, uint32_t *number)
{
    size_t place = answer->cursor.at;
    if (!obriska_u32_(answer, number))
        return 0;
    return *number <= most || obriska_fail_(answer, OBRISKA_ERROR_VALUE, place);
}

static inline int obriska_end_(struct obriska_answer *answer)
{
    const struct obriska_cursor *cursor = &answer->cursor;
    enum obriska_error error = cursor->at == cursor->end ? OBRISKA_ERROR_NONE : OBRISKA_ERROR_LEFT;
    return obriska_fail_(answer, error, cursor->at);
}

static inline int obriska_one_(struct obriska_answer *answer, uint32_t *number)
{
    return obriska_begin_(answer, 1) && obriska_u32_(answer, number) && obriska_end_(answer);
}

/* The readers below give 1 if the answer is what they read, else 0, with error and place in the answer;
 * what they fill is then not to be used. Each begins at the first field, so that it may be called again. */

/* A refusal. `size` is set to the size of the report where the status is 9, else to 0. */
static inline int obriska_read_refusal(struct obriska_answer *answer, uint32_t *size)
{
    *size = 0;
    return obriska_begin_(answer, 0) &&
           (answer->status != OBRISKA_STATUS_CAPACITY || obriska_u32_(answer, size)) &&
           obriska_end_(answer);
}

/* Requests 2, 7, 8, 11, 16: a success, and nothing else. */
static inline int obriska_read_nothing(struct obriska_answer *answer)
{
    return obriska_begin_(answer, 1) && obriska_end_(answer);
}

/* Requests 1, 3, 9, 10, 14, 15, 17: the number of the new handle. */
static inline int obriska_read_handle(struct obriska_answer *answer, uint32_t *handle)
{
    return obriska_one_(answer, handle);
}

/* Request 5: two words of before, at the bits of the named privileges. */
struct obriska_privileges_before {
    uint64_t present;
    uint64_t enabled;
};

static inline int obriska_read_privileges_before(struct obriska_answer *answer,
                                                 struct obriska_privileges_before *before)
{
    return obriska_begin_(answer, 1) && obriska_u64_(answer, &before->present) &&
           obriska_u64_(answer, &before->enabled) && obriska_end_(answer);
}

enum obriska_privilege_state {
    OBRISKA_PRIVILEGE_ABSENT = 0,
    OBRISKA_PRIVILEGE_DISABLED = 1,
    OBRISKA_PRIVILEGE_ENABLED = 2
};

/* What a named privilege was. */
static inline enum obriska_privilege_state
obriska_privilege_was(const struct obriska_privileges_before *before, uint32_t privilege)
{
    uint64_t bit = privilege < 64 ? (uint64_t)1 << privilege : 0;
    if ((before->present & bit) == 0)
        return OBRISKA_PRIVILEGE_ABSENT;
    return (before->enabled & bit) == 0 ? OBRISKA_PRIVILEGE_DISABLED : OBRISKA_PRIVILEGE_ENABLED;
}

/* Request 6: the groups that were enabled before. */
struct obriska_groups_before {
    uint64_t words[OBRISKA_GROUP_WORDS];
};

static inline int obriska_read_groups_before(struct obriska_answer *answer,
                                             struct obriska_groups_before *before)
{
    int good = obriska_begin_(answer, 1);
    for (size_t i = 0; i < OBRISKA_GROUP_WORDS && good; i++)
        good = obriska_u64_(answer, &before->words[i]);
    return good && obriska_end_(answer);
}

/* 1 if the group of this index was enabled, else 0. */
static inline int obriska_group_was_enabled(const struct obriska_groups_before *before, uint32_t index)
{
    return index < 64 * OBRISKA_GROUP_WORDS && ((before->words[index / 64] >> (index % 64)) & 1) == 1;
}

/* Request 12: the level in force; and class 8: the token's level. */
static inline int obriska_read_level(struct obriska_answer *answer, uint32_t *level)
{
    return obriska_one_(answer, level);
}

/* Request 13: the token given up and the level that was in force, 0 and 0 if there was none. */
struct obriska_reverted {
    uint64_t token;
    uint32_t level;
};

static inline int obriska_read_reverted(struct obriska_answer *answer,
                                        struct obriska_reverted *reverted)
{
    return obriska_begin_(answer, 1) && obriska_u64_(answer, &reverted->token) &&
           obriska_u32_(answer, &reverted->level) && obriska_end_(answer);
}

/* Request 18: 1 if the token meets the condition, else 0. */
static inline int obriska_read_evaluated(struct obriska_answer *answer, uint32_t *holds)
{
    return obriska_begin_(answer, 1) && obriska_at_most_(answer, 1, holds) && obriska_end_(answer);
}

/* ---- reports of request 4, by class ---------------------------------------------------------- */

/* What is left of a list that was read whole. */
struct obriska_list {
    uint32_t count; /* of all */
    uint32_t left;  /* not given yet */
    struct obriska_cursor cursor;
};

/* Goes over a list of `count` entries, each of so many numbers, to see that it is good to its end. */
static inline int obriska_read_list_(struct obriska_answer *answer, uint32_t most, uint32_t numbers,
                                     struct obriska_list *list)
{
    uint32_t number = 0;
    list->count = 0;
    int good = obriska_begin_(answer, 1) && obriska_at_most_(answer, most, &list->count);
    list->left = good ? list->count : 0;
    list->cursor = answer->cursor;
    for (uint32_t i = 0; good && i < list->count * numbers; i++)
        good = obriska_u32_(answer, &number);
    good = good && obriska_end_(answer);
    list->left = good ? list->left : 0;
    return good;
}

static inline uint32_t obriska_next_number_(struct obriska_list *list)
{
    uint64_t number = 0;
    (void)obriska_take_(&list->cursor, UINT32_MAX, &number); /* good: the list was read whole */
    return (uint32_t)number;
}

/* Class 1: the number of the user's SID. */
static inline int obriska_read_user(struct obriska_answer *answer, uint32_t *sid)
{
    return obriska_one_(answer, sid);
}

/* Class 2: the groups, OBRISKA_MAX_GROUPS at most. */
static inline int obriska_read_groups(struct obriska_answer *answer, struct obriska_list *groups)
{
    return obriska_read_list_(answer, OBRISKA_MAX_GROUPS, 2, groups);
}

/* The next group, or 0 after the last. */
static inline int obriska_next_group(struct obriska_list *groups, struct obriska_group *group)
{
    if (groups->left == 0)
        return 0;
    groups->left--;
    group->sid = obriska_next_number_(groups);
    group->attributes = obriska_next_number_(groups);
    return 1;
}

/* Class 3: the privilege words, privilege n at bit n. */
struct obriska_privileges {
    uint64_t present;
    uint64_t enabled;
    uint64_t by_default;
    uint64_t used;
};

static inline int obriska_read_privileges(struct obriska_answer *answer,
                                          struct obriska_privileges *privileges)
{
    return obriska_begin_(answer, 1) && obriska_u64_(answer, &privileges->present) &&
           obriska_u64_(answer, &privileges->enabled) &&
           obriska_u64_(answer, &privileges->by_default) && obriska_u64_(answer, &privileges->used) &&
           obriska_end_(answer);
}

/* Class 4: the number of the default owner's SID. */
static inline int obriska_read_owner(struct obriska_answer *answer, uint32_t *sid)
{
    return obriska_one_(answer, sid);
}

/* Class 5: the number of the primary group's SID. */
static inline int obriska_read_primary_group(struct obriska_answer *answer, uint32_t *sid)
{
    return obriska_one_(answer, sid);
}

/* Class 6: the default DACL, OBRISKA_MAX_DACL bytes at most, as they stand in the frame. */
static inline int obriska_read_dacl(struct obriska_answer *answer, const uint8_t **dacl, size_t *length)
{
    uint32_t count = 0;
    if (!obriska_begin_(answer, 1) || !obriska_at_most_(answer, OBRISKA_MAX_DACL, &count))
        return 0;
    if (count > answer->cursor.end - answer->cursor.at)
        return obriska_fail_(answer, OBRISKA_ERROR_CUT, answer->cursor.end);
    *dacl = answer->bytes + answer->cursor.at;
    *length = count;
    answer->cursor.at += count;
    return obriska_end_(answer);
}

/* Class 7: OBRISKA_TYPE_... Class 8 is read by obriska_read_level. */
static inline int obriska_read_type(struct obriska_answer *answer, uint32_t *type)
{
    return obriska_one_(answer, type);
}

/* Class 9. */
struct obriska_statistics {
    uint64_t number;
    uint64_t session;
    uint64_t modified;
    uint32_t type;
    uint64_t root; /* 0: none */
};

static inline int obriska_read_statistics(struct obriska_answer *answer,
                                          struct obriska_statistics *statistics)
{
    return obriska_begin_(answer, 1) && obriska_u64_(answer, &statistics->number) &&
           obriska_u64_(answer, &statistics->session) && obriska_u64_(answer, &statistics->modified) &&
           obriska_u32_(answer, &statistics->type) && obriska_u64_(answer, &statistics->root) &&
           obriska_end_(answer);
}

/* Class 10: the restricting SIDs, OBRISKA_MAX_RESTRICTING at most. */
static inline int obriska_read_restricting(struct obriska_answer *answer, struct obriska_list *sids)
{
    return obriska_read_list_(answer, OBRISKA_MAX_RESTRICTING, 1, sids);
}

/* The next restricting SID, or 0 after the last. */
static inline int obriska_next_sid(struct obriska_list *sids, uint32_t *sid)
{
    if (sids->left == 0)
        return 0;
    sids->left--;
    *sid = obriska_next_number_(sids);
    return 1;
}

/* Class 11. */
static inline int obriska_read_scope(struct obriska_answer *answer, uint32_t *scope)
{
    return obriska_one_(answer, scope);
}

/* Class 12: OBRISKA_ELEVATION_... */
static inline int obriska_read_elevation(struct obriska_answer *answer, uint32_t *elevation)
{
    return obriska_one_(answer, elevation);
}

/* Class 13: OBRISKA_INTEGRITY_... */
static inline int obriska_read_integrity(struct obriska_answer *answer, uint32_t *integrity)
{
    return obriska_one_(answer, integrity);
}

#endif
