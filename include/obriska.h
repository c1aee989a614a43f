/*
 * obriska.h: the rights broker, for hosts in C and C++ (x86-64). What stations send and get is built and
 * read by obriska_codec.h.
 *
 * The host lends the broker its memory, as five arrays, on each call. The broker keeps nothing
 * anywhere else, allocates nothing, never calls back and always returns. A host
 *
 *   1. sets aside a `struct obriska_memory` (OBRISKA_MEMORY_BYTES) and starts it once;
 *   2. feeds each station's bytes as they come, in chunks of any length, until the chunk is used
 *      up, and sends each answer, where there is one, to that station;
 *   3. reconnects a station when its line was cut.
 *
 * What every call returns and every lent byte after it are proved for any input, refusals too
 * (docs/CLAIMS.md): nothing of the stack and no padding is in the lent bytes. What the host owes:
 *
 *   - each pointer is not null, also before a length of 0, is aligned for its type, and has as many
 *     elements behind it as the length says;
 *   - arrays that a call may write (those without `const`) overlap no other array of that call;
 *   - one call at a time on one memory, and nobody else writes the arrays during a call.
 *
 * Nothing is asked of what the arrays hold: memory that is not valid is refused by 13, but for the two
 * calls that only look something up (obriska_find, obriska_sid), which answer of what they find.
 *
 * What the library is:
 *
 *   - an object for x86-64 and the System V calling convention (ELF); not yet for other processors;
 *   - nothing is linked to it but memcpy and memset (`nm -u libobriska.a`);
 *   - it has no writable data: separate memories may be used in parallel, by any threads;
 *   - a call takes less than 32 KiB of stack, beside what the host's memcpy and memset take: 20 KiB are
 *     the copy of the SID table that SIDs enter before it is known whether a request is refused. The
 *     largest requests on full tables touch 25.9 KiB (host/c/stack.c); the frames of the compiled code
 *     add up to 26.2 KiB on the deepest path;
 *   - it has no unwind tables: a backtrace ends in a call, and nothing may be thrown through one.
 */
#ifndef OBRISKA_H
#define OBRISKA_H

#include <stddef.h>
#include <stdint.h>

#ifdef __cplusplus
extern "C" {
#endif

/* ---- the edition ---------------------------------------------------------------------------- */

#define OBRISKA_VERSION "0.2.0"
#define OBRISKA_VERSION_MAJOR 0
#define OBRISKA_VERSION_MINOR 2
#define OBRISKA_VERSION_PATCH 0
#define OBRISKA_VERSION_NUMBER \
    (65536 * OBRISKA_VERSION_MAJOR + 256 * OBRISKA_VERSION_MINOR + OBRISKA_VERSION_PATCH)

/* The layout of the lent memory, raised whenever that changes. Store it with memory that is to be lent
 * again later, and start anew where it differs: docs/MEMORY.md has the form and all layouts. */
#define OBRISKA_LAYOUT 6

/* ---- limits --------------------------------------------------------------------------------- */

#define OBRISKA_STATIONS 8 /* stations 0 to 7 */
#define OBRISKA_TOKENS 16  /* live tokens at most */
#define OBRISKA_HANDLES 32 /* live handles at most, of all stations together */
#define OBRISKA_PAIRS 4    /* linked pairs at most, each of another session */
#define OBRISKA_SIDS 256   /* SIDs in the table at most, SYSTEM and Anonymous among them */

#define OBRISKA_MAX_GROUPS 64      /* of a token */
#define OBRISKA_MAX_RESTRICTING 16 /* restricting SIDs of a token; with any it is restricted */
#define OBRISKA_MAX_DACL 256       /* bytes of a token's default DACL */
#define OBRISKA_MAX_DEPTH 8        /* of a condition */

#define OBRISKA_MAX_SUB_AUTHORITIES 15 /* of a SID */
#define OBRISKA_MAX_SID 68             /* bytes of a packed SID: 8, and 4 for each sub-authority */

#define OBRISKA_ANSWER_LEN 1024 /* the shortest answer buffer, and the longest answer */
#define OBRISKA_MAX_BODY 2048   /* the longest body of a request */
#define OBRISKA_LENGTH_BYTES 2  /* the most bytes that say a body's length */

/* ---- places: docs/MEMORY.md has the values ------------------------------------------------- */

/* Words of a token slot. */
enum obriska_token_word {
    OBRISKA_TOKEN_NUMBER = 0, /* 0: the slot is free */
    OBRISKA_TOKEN_MODIFIED = 1,
    OBRISKA_TOKEN_SESSION = 2,
    OBRISKA_TOKEN_USER = 3,
    OBRISKA_TOKEN_TYPE = 4,
    OBRISKA_TOKEN_LEVEL = 5,
    OBRISKA_TOKEN_ELEVATION = 6,
    OBRISKA_TOKEN_WRITE_RESTRICTED = 7,
    OBRISKA_TOKEN_USER_DENY_ONLY = 8,
    OBRISKA_TOKEN_OWNER = 9,
    OBRISKA_TOKEN_PRIMARY_GROUP = 10,
    OBRISKA_TOKEN_SCOPE = 11,
    OBRISKA_TOKEN_INTEGRITY = 12,
    OBRISKA_TOKEN_PRESENT = 13, /* the four privilege words */
    OBRISKA_TOKEN_ENABLED = 14,
    OBRISKA_TOKEN_DEFAULT = 15,
    OBRISKA_TOKEN_USED = 16,
    OBRISKA_TOKEN_GROUP_COUNT = 17,
    OBRISKA_TOKEN_RESTRICTING_COUNT = 18,
    OBRISKA_TOKEN_DACL_LENGTH = 19,
    OBRISKA_TOKEN_ROOT = 20, /* whom it descends from, or OBRISKA_NO_ROOT */
    OBRISKA_TOKEN_GROUPS, /* the first group: SID in the low half, attributes in the high */
    OBRISKA_TOKEN_RESTRICTING = OBRISKA_TOKEN_GROUPS + OBRISKA_MAX_GROUPS /* the first SID */
};

/* Words of `control`. */
enum obriska_control_word {
    OBRISKA_NEXT_TOKEN = 0,
    OBRISKA_NEXT_HANDLE = 1,
    OBRISKA_FIRST_STATION /* the row of station 0; the others follow, then pair slots, then SIDs */
};

/* Words of a station's row. */
enum obriska_station_word {
    OBRISKA_STATION_TOKEN = 0,   /* the number of its primary token */
    OBRISKA_STATION_PENDING = 1, /* how many bytes of a request are pending */
    OBRISKA_STATION_BROKEN = 2,  /* 1: its stream is broken */
    OBRISKA_STATION_CLIENT = 3,  /* the number of the token that it acts for, or OBRISKA_NO_CLIENT */
    OBRISKA_STATION_CLIENT_LEVEL = 4 /* the level in force, OBRISKA_LEVEL_.. */
};

/* Words of a pair slot. */
enum obriska_pair_word {
    OBRISKA_PAIR_SESSION = 0,  /* whose pair it is */
    OBRISKA_PAIR_ELEVATED = 1, /* the number of its full token; 0: the slot is free */
    OBRISKA_PAIR_FILTERED = 2  /* the number of its limited token */
};

/* ---- sizes ---------------------------------------------------------------------------------- */

/* What one token slot has in `tokens` and in `dacls`, one station in `control` and in `pending`, one
 * pair slot and one SID in `control`. */
#define OBRISKA_TOKEN_WORDS (OBRISKA_TOKEN_RESTRICTING + OBRISKA_MAX_RESTRICTING)
#define OBRISKA_DACL_BYTES OBRISKA_MAX_DACL
#define OBRISKA_STATION_WORDS (OBRISKA_STATION_CLIENT_LEVEL + 1)
#define OBRISKA_PENDING_BYTES (OBRISKA_LENGTH_BYTES + OBRISKA_MAX_BODY)
#define OBRISKA_PAIR_WORDS (OBRISKA_PAIR_FILTERED + 1)
#define OBRISKA_SID_WORDS 9 /* of a row of the SID table: eight bytes of the packed SID each */

/* The word of `control` that the first pair slot begins at: behind the stations' rows. */
#define OBRISKA_FIRST_PAIR (OBRISKA_FIRST_STATION + OBRISKA_STATIONS * OBRISKA_STATION_WORDS)

/* The words of `control` that the SID table has, behind the pair slots: how many SIDs are in it, n; the
 * first of its places, which name the n rows in rising order; and the first word of row 0. Rows are in the
 * order of their SIDs' numbers. */
#define OBRISKA_SID_COUNT (OBRISKA_FIRST_PAIR + OBRISKA_PAIRS * OBRISKA_PAIR_WORDS)
#define OBRISKA_FIRST_SID_PLACE (OBRISKA_SID_COUNT + 1)
#define OBRISKA_FIRST_SID_ROW (OBRISKA_FIRST_SID_PLACE + OBRISKA_SIDS)

/* Elements of each array that the host lends: exactly these lengths, else refusal 13. */
#define OBRISKA_TOKENS_LEN (OBRISKA_TOKENS * OBRISKA_TOKEN_WORDS)
#define OBRISKA_DACLS_LEN (OBRISKA_TOKENS * OBRISKA_DACL_BYTES)
#define OBRISKA_HANDLES_LEN OBRISKA_HANDLES
#define OBRISKA_CONTROL_LEN (OBRISKA_FIRST_SID_ROW + OBRISKA_SIDS * OBRISKA_SID_WORDS)
#define OBRISKA_PENDING_LEN (OBRISKA_STATIONS * OBRISKA_PENDING_BYTES)

/* Bytes of a handle, and of all arrays together. */
#define OBRISKA_HANDLE_BYTES 16
#define OBRISKA_MEMORY_BYTES \
    (sizeof(uint64_t) * (OBRISKA_TOKENS_LEN + OBRISKA_CONTROL_LEN) + OBRISKA_DACLS_LEN + \
     OBRISKA_HANDLE_BYTES * OBRISKA_HANDLES_LEN + OBRISKA_PENDING_LEN)

/* ---- records -------------------------------------------------------------------------------- */

/* A handle: what lets a station use a token. A free slot has zero in all its bytes, which the four
 * fields fill. */
struct obriska_handle {
    uint16_t station; /* whose it is */
    uint16_t mask;    /* the rights that it grants, OBRISKA_RIGHT_.. */
    uint32_t number;  /* from 1, given upward and never twice; 0: the slot is free */
    uint64_t token;   /* the number of its token */
};

/* What a feed returns. */
struct obriska_fed {
    uint32_t refusal; /* 0, or OBRISKA_REFUSED_STATION, _BUFFER or _MEMORY */
    size_t used;      /* bytes of the chunk that were used */
    size_t answered;  /* length of the answer, from the buffer's begin; 0: no answer */
};

/* All that the broker keeps. It may be copied, stored and lent again later: docs/MEMORY.md says
 * what stands where. The arrays may as well be set aside one by one. */
struct obriska_memory {
    uint64_t tokens[OBRISKA_TOKENS_LEN];
    uint8_t dacls[OBRISKA_DACLS_LEN];
    struct obriska_handle handles[OBRISKA_HANDLES_LEN];
    uint64_t control[OBRISKA_CONTROL_LEN];
    uint8_t pending[OBRISKA_PENDING_LEN];
};

#ifdef __cplusplus
#define OBRISKA_ASSERT_ static_assert
#else
#define OBRISKA_ASSERT_ _Static_assert
#endif
OBRISKA_ASSERT_(sizeof(size_t) == 8, "the library is for 64-bit hosts");
OBRISKA_ASSERT_(sizeof(struct obriska_handle) == OBRISKA_HANDLE_BYTES, "a handle has no padding");
OBRISKA_ASSERT_(offsetof(struct obriska_handle, station) == 0, "the station is at byte 0");
OBRISKA_ASSERT_(offsetof(struct obriska_handle, mask) == 2, "the mask is at byte 2");
OBRISKA_ASSERT_(offsetof(struct obriska_handle, number) == 4, "the number is at byte 4");
OBRISKA_ASSERT_(offsetof(struct obriska_handle, token) == 8, "the token is at byte 8");
OBRISKA_ASSERT_(sizeof(struct obriska_fed) == 24, "what a feed returns has 24 bytes");
OBRISKA_ASSERT_(sizeof(struct obriska_memory) == OBRISKA_MEMORY_BYTES, "the memory has no padding");
#undef OBRISKA_ASSERT_

/* ---- refusals ------------------------------------------------------------------------------- */

/* 1 to 10 and 14 are the status of an answer, its first byte after the length. 1 to 9 and 14 use up
 * their request and change no token, no handle, no pair, no number and no SID of the table; where several
 * apply, it is the first of 1 to 7, 14, 8, 9. 11 to 13 refuse a whole call, the lowest that applies, and
 * then nothing at all is written. */
enum obriska_refusal {
    OBRISKA_REFUSED_LAYOUT = 1,     /* unknown request, not in its layout, or bytes left over; a
                                       packed SID that is none; a condition deeper than
                                       OBRISKA_MAX_DEPTH */
    OBRISKA_REFUSED_HANDLE = 2,     /* not a live handle of this station */
    OBRISKA_REFUSED_RIGHT = 3,      /* the handle lacks the right */
    OBRISKA_REFUSED_PRIVILEGE = 4,  /* the privilege is not enabled on the station's token */
    OBRISKA_REFUSED_FIELD = 5,      /* a bad field or entry, an unknown class, installing a token that
                                       is not primary, acting for one that is, restricting a
                                       restricted one to none of its SIDs, or to write-restricted
                                       where it is not, linking two that can be no pair, an unknown
                                       privilege in a condition, or, in requests 3 and 10, a SID's
                                       number that is not in the table */
    OBRISKA_REFUSED_PROTECTED = 6,  /* an entry names a mandatory, deny-only or logon group, or
                                       disables one with the user's SID */
    OBRISKA_REFUSED_MISMATCH = 7,   /* installing a token of another user or session; acting for an
                                       unrestricted one while restricted, unless Impersonate is held */
    OBRISKA_REFUSED_FULL = 8,       /* no free slot, no number left, or too many restricting SIDs for
                                       an unrestricted token; linking for a fifth session; more new
                                       SIDs than the table has room for */
    OBRISKA_REFUSED_CAPACITY = 9,   /* the report is larger than the capacity; its size follows */
    OBRISKA_REFUSED_BROKEN = 10,    /* a bad length: the stream is broken until a reconnect */
    OBRISKA_REFUSED_STATION = 11,   /* there is no such station */
    OBRISKA_REFUSED_BUFFER = 12,    /* the answer buffer is shorter than OBRISKA_ANSWER_LEN */
    OBRISKA_REFUSED_MEMORY = 13,    /* the memory is not valid, or not of its sizes */
    OBRISKA_REFUSED_NOT_LINKED = 14 /* the token is in no linked pair */
};

/* ---- answers -------------------------------------------------------------------------------- */

/* The length takes one byte where the body has less than 128, else two; the status is the byte after it.
 * After the length and the status 0 an answer has its request's fields, as numbers of seven bits a
 * byte, low bits first, the top bit set on all bytes but the last:
 *
 *   1, 3, 9, 10, 14, 15, 17
 *                the number of the new handle;
 *   4            the report of the class, in which a DACL's bytes are plain. Class 9 has number,
 *                session, modified number, type and root;
 *   5            two words of before the change, at the bits of the named privileges: which were
 *                present, then which were enabled. In both 0, a privilege was absent; in the first
 *                alone 1, it was disabled. A reset answers both words whole;
 *   6            sixteen words of the groups that were enabled before, group i at bit i % 64 of
 *                word i / 64;
 *   12           the level in force;
 *   13           the number of the token given up and the level that was in force, 0 and 0 if the
 *                station acted for none;
 *   18           1 if the token meets the condition, else 0;
 *   2, 7, 8, 11, 16
 *                nothing. */

/* ---- rights, token fields and attributes ----------------------------------------------------- */

/* Rights of a handle's mask. */
#define OBRISKA_RIGHT_ASSIGN_PRIMARY 0x001u
#define OBRISKA_RIGHT_DUPLICATE 0x002u
#define OBRISKA_RIGHT_IMPERSONATE 0x004u
#define OBRISKA_RIGHT_QUERY 0x008u
#define OBRISKA_RIGHT_ADJUST_PRIVILEGES 0x020u
#define OBRISKA_RIGHT_ADJUST_GROUPS 0x040u
#define OBRISKA_RIGHT_ADJUST_DEFAULT 0x080u
#define OBRISKA_RIGHT_ADJUST_SCOPE 0x100u
#define OBRISKA_RIGHT_ALL 0x1EFu

/* Levels of an impersonation token. */
#define OBRISKA_LEVEL_ANONYMOUS 0u
#define OBRISKA_LEVEL_IDENTIFICATION 1u
#define OBRISKA_LEVEL_IMPERSONATION 2u
#define OBRISKA_LEVEL_DELEGATION 3u

/* Elevations of a token. */
#define OBRISKA_ELEVATION_DEFAULT 1u
#define OBRISKA_ELEVATION_FULL 2u
#define OBRISKA_ELEVATION_LIMITED 3u

/* Kinds of a condition. */
#define OBRISKA_CONDITION_ALL 1u     /* a count and that many conditions: each holds */
#define OBRISKA_CONDITION_ANY 2u     /* a count and that many conditions: one holds at least */
#define OBRISKA_CONDITION_NOT 3u     /* a condition: it does not hold */
#define OBRISKA_CONDITION_ENABLED 4u /* a privilege: it is enabled */
#define OBRISKA_CONDITION_GROUP 5u   /* a SID's number: a group of it is enabled */

/* SIDs that have their numbers from the start, and the number that the first entered one gets. */
#define OBRISKA_SID_ANONYMOUS 7u /* S-1-5-7 */
#define OBRISKA_SID_SYSTEM 18u   /* S-1-5-18 */
#define OBRISKA_SID_ENTERED 32u

/* Attributes of a group. */
#define OBRISKA_GROUP_MANDATORY 0x01u
#define OBRISKA_GROUP_ENABLED_BY_DEFAULT 0x02u
#define OBRISKA_GROUP_ENABLED 0x04u
#define OBRISKA_GROUP_OWNER 0x08u
#define OBRISKA_GROUP_DENY_ONLY 0x10u
#define OBRISKA_GROUP_LOGON_ID 0xC0000000u

/* A request 5 that only enabled (2) and disabled (0) is put back by its report: by request 5 with an entry
 * for each privilege that it named, 2 where the report's second word has the privilege's bit, else 0. As
 * long as no other success of 5 was on the token, of whatever station, that succeeds on any live handle of
 * the token that has OBRISKA_RIGHT_ADJUST_PRIVILEGES, sent by the handle's station; the token's present,
 * enabled and default words are then those before. Which privileges it has used stays. After a removal (4)
 * or a reset it is not so: docs/RESTORE.md says why, and has a worked example. */

/* A token's root is the number of the started or created token that it descends from, which may be
 * gone; its own number for those. It never changes. An anonymous copy (impersonation at level 0) has
 * none, and so has all that is made from one, a primary token too. */
#define OBRISKA_NO_ROOT 0u

/* A station acts for a token, its client, from request 12 until request 13 or the next 12, and keeps
 * it alive. The level in force is the client's own, but at most Identification for a client of higher
 * integrity and, unless the station's token holds Impersonate, for one of another user or one that is
 * restricted where the station's token is not; the other way round is refused by 7. It stays as
 * request 12 answered it. Privileges are held by the station's own token all the while. */
#define OBRISKA_NO_CLIENT 0u

/* Request 16 links an elevated and a filtered token, two primary ones of one user and of the session
 * that it names. They become full and limited, for good, and are that session's pair, which keeps both
 * alive until the next 16 for the session: there is no other way to unlink. So not every full or limited
 * token is in a pair. Request 17 gives a handle on the other token of a pair: on the token itself, with
 * all rights, where Tcb is held; else on a new copy of it for impersonation, at level Identification,
 * with right QUERY and the elevation kept, which is in no pair. */

/* Tokens keep SIDs as numbers of the SID table, and so do answers. Requests 14 and 15 are 3 and 10 with
 * packed SIDs where those have numbers: the revision, which is 1, the count of sub-authorities, six bytes
 * of authority, and four bytes for each sub-authority, low byte first. A success enters each SID that is
 * not in the table yet, in the request's order (14: the user, then the groups), also one that the copy does
 * not keep; it gets the lowest number that no other has, from OBRISKA_SID_ENTERED on. A refused request
 * enters none. The table only grows: up to OBRISKA_SIDS, and then only SIDs that are in it are taken, others
 * are refused by 8. Two numbers are equal exactly when their SIDs are. Bytes that are no packed SID are
 * refused by 1, whatever the handle is. obriska_sid gives the SID of a number. */

/* Request 18, with right QUERY, evaluates a condition on a handle's token: whether it may see a page of
 * a screen, say. It has the handle and the condition, a kind and what belongs to it, all as numbers of
 * 32 bits. Of an empty list ALL holds and ANY does not. ENABLED, GROUP and empty lists are one deep,
 * NOT and other lists one deeper than the deepest condition in them. What is no condition at most
 * OBRISKA_MAX_DEPTH deep is refused by 1, whatever the handle is; a privilege that there is
 * not, anywhere in it, by 5. No token changes, not even which privileges it has used.
 * docs/CONDITIONS.md has a worked example. */

/* ---- the calls ------------------------------------------------------------------------------ */

/* Writes the start's memory over whatever the arrays hold: token 1 (user 18, session 999, all
 * privileges) is the primary token of all stations, there are no handles, the next token is 2, the next
 * handle 1, and the SID table has Anonymous, 7, and SYSTEM, 18.
 * Returns 0, or 13 where a length is wrong; then nothing is written. */
uint32_t obriska_start(uint64_t *tokens, size_t tokens_len, uint8_t *dacls, size_t dacls_len,
                       struct obriska_handle *handles, size_t handles_len, uint64_t *control,
                       size_t control_len, uint8_t *pending, size_t pending_len);

/* Feeds a chunk of a station's stream. Uses its bytes up to the end of the first request, or to
 * the byte that breaks the stream, or all of them. A request is served whole, at its last byte.
 *
 * refusal 0: `used` bytes were used; if `answered` is not 0, the answer to the request that ended
 *   there, or 01 0A for the break, is the first `answered` bytes of the buffer. The bytes after it
 *   stay. Feed again with the rest of the chunk until all of it is used: a chunk that is not empty
 *   has at least one byte used. How a stream is cut into chunks changes nothing. A broken stream
 *   uses all bytes and answers nothing until the station is reconnected.
 * refusal 11, 12 or 13: `used` and `answered` are 0, and nothing is written. 13 never comes on
 *   memory that was started and then written by these calls alone. */
struct obriska_fed obriska_feed(uint32_t station, const uint8_t *data, size_t data_len,
                                uint8_t *answer, size_t answer_len, uint64_t *tokens,
                                size_t tokens_len, uint8_t *dacls, size_t dacls_len,
                                struct obriska_handle *handles, size_t handles_len,
                                uint64_t *control, size_t control_len, uint8_t *pending,
                                size_t pending_len);

/* Drops the station's part of a request and its break, and nothing else: tokens and handles stay, and
 * what it acts for.
 * Returns 0, or 11 or 13; then nothing is written. */
uint32_t obriska_reconnect(uint32_t station, const uint64_t *tokens, size_t tokens_len,
                           const uint8_t *dacls, size_t dacls_len,
                           const struct obriska_handle *handles, size_t handles_len,
                           uint64_t *control, size_t control_len, uint8_t *pending,
                           size_t pending_len);

/* The slot of the station's live handle of this number, or OBRISKA_HANDLES if there is none. Writes
 * nothing. */
size_t obriska_find(const struct obriska_handle *handles, size_t handles_len, uint32_t station,
                    uint32_t number);

/* Writes the packed SID that has this number in the table to the begin of `out` and returns its size, 8 to
 * OBRISKA_MAX_SID; the bytes after it stay. Returns 0 and writes nothing where the number is none of the
 * table's, where `out` is shorter than the SID, where `control` has not OBRISKA_CONTROL_LEN words, or where
 * the number's row is no SID's, which valid memory never has. Reads `control` alone. */
size_t obriska_sid(const uint64_t *control, size_t control_len, uint32_t number, uint8_t *out,
                   size_t out_len);

/* The edition of the library that is linked: OBRISKA_VERSION_NUMBER and OBRISKA_LAYOUT where it is this
 * header's. A host that loads the library at run time, or links one that was built elsewhere, compares. */
uint32_t obriska_version(void);
uint32_t obriska_layout(void);

/* ---- the same on one struct ------------------------------------------------------------------ */

static inline uint32_t obriska_memory_start(struct obriska_memory *m)
{
    return obriska_start(m->tokens, OBRISKA_TOKENS_LEN, m->dacls, OBRISKA_DACLS_LEN, m->handles,
                         OBRISKA_HANDLES_LEN, m->control, OBRISKA_CONTROL_LEN, m->pending,
                         OBRISKA_PENDING_LEN);
}

/* Here a pointer may be null before a length of 0, as an empty buffer's often is in C. */
static inline struct obriska_fed obriska_memory_feed(struct obriska_memory *m, uint32_t station,
                                                     const uint8_t *data, size_t data_len,
                                                     uint8_t *answer, size_t answer_len)
{
    uint8_t nothing = 0;
    return obriska_feed(station, data_len == 0 ? &nothing : data, data_len,
                        answer_len == 0 ? &nothing : answer, answer_len, m->tokens,
                        OBRISKA_TOKENS_LEN, m->dacls, OBRISKA_DACLS_LEN, m->handles,
                        OBRISKA_HANDLES_LEN, m->control, OBRISKA_CONTROL_LEN, m->pending,
                        OBRISKA_PENDING_LEN);
}

static inline uint32_t obriska_memory_reconnect(struct obriska_memory *m, uint32_t station)
{
    return obriska_reconnect(station, m->tokens, OBRISKA_TOKENS_LEN, m->dacls, OBRISKA_DACLS_LEN,
                             m->handles, OBRISKA_HANDLES_LEN, m->control, OBRISKA_CONTROL_LEN,
                             m->pending, OBRISKA_PENDING_LEN);
}

/* The station's live handle of this number, or null. */
static inline const struct obriska_handle *obriska_memory_find(const struct obriska_memory *m,
                                                               uint32_t station, uint32_t number)
{
    size_t slot = obriska_find(m->handles, OBRISKA_HANDLES_LEN, station, number);
    return slot < OBRISKA_HANDLES ? &m->handles[slot] : NULL;
}

/* Here `out` may be null before a length of 0. */
static inline size_t obriska_memory_sid(const struct obriska_memory *m, uint32_t number, uint8_t *out,
                                        size_t out_len)
{
    uint8_t nothing = 0;
    return obriska_sid(m->control, OBRISKA_CONTROL_LEN, number, out_len == 0 ? &nothing : out, out_len);
}

#ifdef __cplusplus
}
#endif

#endif
