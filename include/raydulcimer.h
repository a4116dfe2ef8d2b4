/* Raydulcimer: the messages of Android Ranging out-of-band, version 1, for a ranging tag. For C99, C++98 and later.

   Every call takes any octets, any record and any session and gives one answer. None uses dynamic memory or keeps anything
   between calls, so that several threads may call at once, each with its own session and buffers.

   The caller owes
   - for each pair of a pointer and a length: the pointer is not null and leads to that many octets, also where the length is
     0, and nobody else writes to them, or, for a lent buffer, reads them, until the call returns;
   - for a session: the pointer is not null, is aligned as the struct is, and leads to a session that has been given a value,
     which nobody else reads or writes until the call returns;
   - that the memory behind one pointer of a call does not overlap that behind another.

   The padding of a struct holds anything. So structs are compared field by field, and none is stored or sent as octets: for a
   record raydulcimer_write has the octets. */
#ifndef RAYDULCIMER_H
#define RAYDULCIMER_H

#include <stddef.h>
#include <stdint.h>

/* The library's version. This is the one place for it: what else says a version reads it here or is tested against it. */
#define RAYDULCIMER_VERSION_MAJOR 0
#define RAYDULCIMER_VERSION_MINOR 2

#ifdef __cplusplus
extern "C" {
#endif

/* Lengths in octets: the longest message that is accepted, the longest that raydulcimer_write writes, and the longest reply or
   advertisement of a session. A buffer of that length always has room for it. */
#define RAYDULCIMER_MESSAGE_LIMIT 256
#define RAYDULCIMER_LONGEST_MESSAGE 143 /* a Configuration of all four technologies, with the longest key and name */
#define RAYDULCIMER_LONGEST_REPLY 47    /* a Capability Response of all four technologies */

/* Message IDs; 4, 5 and 8 to 255 are reserved. */
#define RAYDULCIMER_CAPABILITY_REQUEST 0
#define RAYDULCIMER_CAPABILITY_RESPONSE 1
#define RAYDULCIMER_CONFIGURATION 2
#define RAYDULCIMER_CONFIGURATION_RESPONSE 3
#define RAYDULCIMER_STOP 6
#define RAYDULCIMER_STOP_RESPONSE 7

/* Technologies, as bits of a set. */
#define RAYDULCIMER_UWB 0x1
#define RAYDULCIMER_CS 0x2
#define RAYDULCIMER_NAN 0x4
#define RAYDULCIMER_RSSI 0x8

/* Refusals. Their words are below. */
#define RAYDULCIMER_OK 0
#define RAYDULCIMER_TOO_LONG 1
#define RAYDULCIMER_ENDS_EARLY 2
#define RAYDULCIMER_RESERVED_ID 3
#define RAYDULCIMER_WRONG_VERSION 4
#define RAYDULCIMER_SETS_DIFFER 5
#define RAYDULCIMER_BLOCK_TOO_SMALL 6
#define RAYDULCIMER_WRONG_BLOCK 7
#define RAYDULCIMER_NOT_ALLOWED 8
#define RAYDULCIMER_LEFT_OVER 9
#define RAYDULCIMER_NOT_FOR_TAG 10
#define RAYDULCIMER_BUFFER_TOO_SHORT 11
#define RAYDULCIMER_NOT_VALID 12

/* A refusal in words, for a log or a console. A program that does not call it does not carry them. */
static inline const char *raydulcimer_refusal_words(uint8_t refusal)
{
    switch (refusal) {
    case RAYDULCIMER_OK: return "not refused";
    case RAYDULCIMER_TOO_LONG: return "the message has more than 256 octets";
    case RAYDULCIMER_ENDS_EARLY: return "it ends before a field or block that its layout needs";
    case RAYDULCIMER_RESERVED_ID: return "its ID is reserved";
    case RAYDULCIMER_WRONG_VERSION: return "version 0, or above 1 with an ID other than 0 and 1";
    case RAYDULCIMER_SETS_DIFFER: return "the two sets of a Configuration differ";
    case RAYDULCIMER_BLOCK_TOO_SMALL: return "a block's size is below its need (below 2 for ID 4 to 15)";
    case RAYDULCIMER_WRONG_BLOCK: return "a block's ID has no bit in the set (always so from 16), or came before";
    case RAYDULCIMER_NOT_ALLOWED: return "a field is not allowed";
    case RAYDULCIMER_LEFT_OVER: return "octets are left over in version 1";
    case RAYDULCIMER_NOT_FOR_TAG: return "the message is sound, but not one that a tag is sent";
    case RAYDULCIMER_BUFFER_TOO_SHORT: return "the lent buffer is shorter than what is to be written";
    case RAYDULCIMER_NOT_VALID: return "a record to be written, or a profile, is not valid";
    default: return "no call refuses with this number";
    }
}

/* The choice of explicit replies: with on, a Configuration is answered with message 3 and a Stop with message 7; else neither is
   written. */
#define RAYDULCIMER_REPLIES_NOT_SAID 0 /* which means off */
#define RAYDULCIMER_REPLIES_ON 1
#define RAYDULCIMER_REPLIES_OFF 2

/* UWB's channel, preamble index and config ID are kinds of their own, and so are sets of them: none is taken for another. */
struct raydulcimer_channel {
    uint8_t number;
};

struct raydulcimer_preamble_index {
    uint8_t number;
};

struct raydulcimer_config_id {
    uint8_t number;
};

struct raydulcimer_channels {
    uint32_t bits; /* bit n for channel n */
};

struct raydulcimer_preamble_indexes {
    uint32_t bits; /* bit n for preamble index n + 1 */
};

struct raydulcimer_config_ids {
    uint32_t bits; /* bit n for config ID n */
};

/* What a technology's block of message 1 says. Intervals and slots are in ms; addresses are octets in wire order. */
struct raydulcimer_uwb_capability {
    uint8_t address[2];
    struct raydulcimer_channels channels;
    struct raydulcimer_preamble_indexes preamble_indexes;
    struct raydulcimer_config_ids config_ids;
    uint16_t shortest_interval; /* 96, 120, 240, 600 */
    uint8_t shortest_slot;      /* 1, 2 */
    uint8_t roles;
};

struct raydulcimer_cs_capability {
    uint8_t security_types; /* bit n for level n */
    uint8_t address[6];
};

struct raydulcimer_nan_capability {
    uint8_t features;
    uint8_t periodic; /* 0, 1 */
    uint8_t bandwidth;
    uint8_t receive_chains;
};

/* The same in messages 1 and 2. */
struct raydulcimer_rssi {
    uint8_t address[6];
};

/* What a technology's block of message 2 says. */
struct raydulcimer_uwb_configuration {
    uint8_t address[2];
    uint32_t session_id;
    struct raydulcimer_config_id config_id;
    struct raydulcimer_channel channel;
    struct raydulcimer_preamble_index preamble_index;
    uint16_t interval;  /* 96, 120, 240, 600 */
    uint8_t slot;       /* 1, 2 */
    uint8_t key_length; /* 8, 16, 32 */
    uint8_t key[32];    /* zero past the key length */
    uint8_t country[2]; /* letters A to Z, or "00" if not known */
    uint8_t role;       /* 1, 2 */
    uint8_t mode;       /* 1, 2 */
};

struct raydulcimer_cs_configuration {
    uint8_t security_level; /* 0 to 4 */
    uint8_t address[6];
};

struct raydulcimer_nan_configuration {
    uint8_t name_length; /* 1 to 64 */
    uint8_t name[64];    /* zero past the name length */
    uint8_t role;        /* 0, 1 */
    uint8_t periodic;    /* 0, 1 */
};

/* The fields of a technology that the record does not have are zero. */
struct raydulcimer_capability {
    struct raydulcimer_uwb_capability uwb;
    struct raydulcimer_cs_capability cs;
    struct raydulcimer_nan_capability nan;
    struct raydulcimer_rssi rssi;
};

struct raydulcimer_configuration {
    struct raydulcimer_uwb_configuration uwb;
    struct raydulcimer_cs_configuration cs;
    struct raydulcimer_nan_configuration nan;
    struct raydulcimer_rssi rssi;
};

/* A message without its version. `capability` is zero but in message 1, `configuration` but in message 2. */
struct raydulcimer_record {
    uint8_t id;
    uint16_t set;
    struct raydulcimer_capability capability;
    struct raydulcimer_configuration configuration;
};

/* A refusal and an all-zero record, or RAYDULCIMER_OK and the record. */
struct raydulcimer_reading {
    uint8_t refusal;
    struct raydulcimer_record value;
};

/* A refusal and 0 octets, or RAYDULCIMER_OK and how many octets were written. */
struct raydulcimer_written {
    uint8_t refusal;
    size_t length;
};

/* What a tag can do: the set and the capability of a valid Capability Response, and a choice of explicit replies. */
struct raydulcimer_profile {
    uint16_t set;
    uint8_t replies;
    struct raydulcimer_capability capability;
};

/* Whether a technology is ranging, 0 no and anything else yes, and its settings in force, which are zero if it is not. */
struct raydulcimer_uwb_state {
    uint8_t ranging;
    struct raydulcimer_uwb_configuration settings;
};

struct raydulcimer_nan_state {
    uint8_t ranging;
    struct raydulcimer_nan_configuration settings;
};

struct raydulcimer_rssi_state {
    uint8_t ranging;
    struct raydulcimer_rssi settings;
};

/* A tag's session, made by raydulcimer_start. It may be read between calls, and is altered by the calls alone; a copy is a
   session of its own.

   The mark says, 0 no and anything else yes, that a Stop has ended UWB ranging since UWB's capabilities were last given out, in
   a reply or an advertisement. While it stands, no Configuration sets UWB. The reason is that a UWB address may change as soon
   as ranging ends: a phone that goes on with what it learned before would look for an address that is gone. The published
   specification has the phone ask for the capabilities again, and the mark makes sure that it does. */
struct raydulcimer_session {
    struct raydulcimer_profile profile;
    struct raydulcimer_uwb_state uwb;
    struct raydulcimer_nan_state nan;
    struct raydulcimer_rssi_state rssi;
    uint8_t mark;
};

/* A refusal, length 0 and two empty sets; or RAYDULCIMER_OK, the reply's length, the technologies that the call set, and those
   that it stopped. */
struct raydulcimer_answer {
    uint8_t refusal;
    size_t length;
    uint16_t set;
    uint16_t stopped;
};

/* RAYDULCIMER_OK and a fresh session with the profile; or RAYDULCIMER_NOT_VALID and a fresh session with an empty profile and
   replies not said. The calls serve that one too: it advertises no technology, sets none, and writes neither message 3 nor 7. */
struct raydulcimer_started {
    struct raydulcimer_session session;
    uint8_t refusal;
};

/* A block of a message: where it stands, counted from 0, its ID and its size, the two octets of ID and size counted. All zero
   for none: no block stands at place 0. */
struct raydulcimer_block {
    size_t place;
    uint8_t id;
    uint8_t size;
};

/* The archive takes and gives these structs with these sizes and alignments. A compiler that lays them out in another way, as
   with -fpack-struct, is stopped here, from C11 and C++11 on. */
#if defined(__cplusplus) && __cplusplus >= 201103L
#define RAYDULCIMER_LAYOUT(type, size, alignment) \
    static_assert(sizeof(type) == size && alignof(type) == alignment, #type " has another layout than in the archive");
#elif !defined(__cplusplus) && __STDC_VERSION__ >= 201112L
#define RAYDULCIMER_LAYOUT(type, size, alignment) \
    _Static_assert(sizeof(type) == size && _Alignof(type) == alignment, #type " has another layout than in the archive");
#else
#define RAYDULCIMER_LAYOUT(type, size, alignment)
#endif
RAYDULCIMER_LAYOUT(struct raydulcimer_record, 176, 4)
RAYDULCIMER_LAYOUT(struct raydulcimer_session, 176, 4)
RAYDULCIMER_LAYOUT(struct raydulcimer_reading, 180, 4)
RAYDULCIMER_LAYOUT(struct raydulcimer_written, 16, 8)
RAYDULCIMER_LAYOUT(struct raydulcimer_answer, 24, 8)
RAYDULCIMER_LAYOUT(struct raydulcimer_started, 180, 4)
RAYDULCIMER_LAYOUT(struct raydulcimer_block, 16, 8)
#undef RAYDULCIMER_LAYOUT

/* GCC and Clang warn of a result that is not used and of a null pointer. */
#ifdef __GNUC__
#define RAYDULCIMER_USE_RESULT __attribute__((__warn_unused_result__))
#define RAYDULCIMER_NOT_NULL __attribute__((__nonnull__))
#else
#define RAYDULCIMER_USE_RESULT
#define RAYDULCIMER_NOT_NULL
#endif

/* Reads a message of any length. Accepts exactly the well-formed ones; any other gets the refusal that the order of checks
   names. The record read is always valid. */
RAYDULCIMER_USE_RESULT RAYDULCIMER_NOT_NULL
struct raydulcimer_reading raydulcimer_read(const uint8_t *message, size_t length);

/* Writes a record's normal form into the first octets of a buffer: version 1, blocks by rising ID, every size exactly the
   need. Reading it gives the record back. RAYDULCIMER_NOT_VALID is tested first, then RAYDULCIMER_BUFFER_TOO_SHORT; a
   refused call leaves the buffer as it was, and otherwise the octets after the written ones stay as they were. */
RAYDULCIMER_USE_RESULT RAYDULCIMER_NOT_NULL
struct raydulcimer_written raydulcimer_write(struct raydulcimer_record value, uint8_t *out, size_t length);

/* The n-th block, counted from 0, of a Capability Response or a Configuration that raydulcimer_read accepts, blocks of unknown
   technologies among them, in the order of the message. None past the last block, for other messages and for refused ones. */
RAYDULCIMER_USE_RESULT RAYDULCIMER_NOT_NULL
struct raydulcimer_block raydulcimer_nth_block(const uint8_t *message, size_t length, size_t n);

/* Starts a session for a tag with this profile, a valid record of a Capability Response (no technology at all is valid), and
   one of the three choices of explicit replies. It ranges with nothing. RAYDULCIMER_NOT_VALID for any other record or choice. */
RAYDULCIMER_USE_RESULT
struct raydulcimer_started raydulcimer_start(struct raydulcimer_record profile, uint8_t replies);

/* Gives a session a message and a buffer for the reply. Tested in this order: the session's profile
   (RAYDULCIMER_NOT_VALID), the message as raydulcimer_read does, that it is a Request, a Configuration or a Stop
   (RAYDULCIMER_NOT_FOR_TAG), and that the reply fits the buffer (RAYDULCIMER_BUFFER_TOO_SHORT). A refused call leaves session and
   buffer as they were; otherwise only the reply's own octets change in the buffer. With explicit replies off, or
   not said, a Configuration or a Stop is answered with length 0, and with its set all the same.

   A Request is answered with the blocks that it names and the profile has. A Configuration sets each technology that it
   names and the profile has, with settings within the profile, and, for UWB, with the mark not standing; what is not set goes
   on as before. A Stop ends each technology that it names and that is ranging. CS can be set, but never ranges.

   The reply may not be written over the message: their memory does not overlap. */
RAYDULCIMER_USE_RESULT RAYDULCIMER_NOT_NULL
struct raydulcimer_answer raydulcimer_message(struct raydulcimer_session *session, const uint8_t *message, size_t length,
                                              uint8_t *out, size_t room);

/* Writes an advertisement, a Capability Response with the session's whole profile. RAYDULCIMER_NOT_VALID and
   RAYDULCIMER_BUFFER_TOO_SHORT as above. */
RAYDULCIMER_USE_RESULT RAYDULCIMER_NOT_NULL
struct raydulcimer_answer raydulcimer_advertise(struct raydulcimer_session *session, uint8_t *out, size_t room);

#undef RAYDULCIMER_USE_RESULT
#undef RAYDULCIMER_NOT_NULL

#ifdef __cplusplus
}
#endif

#endif
