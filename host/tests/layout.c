/* The header's side of the test of layouts. Prints the header's numbers and the size and alignment of every struct, then reads
   messages in hex, a line each, and prints what every call of the library says of them, with the place of every field. */
#include <stdio.h>
#include "../../include/raydulcimer.h"

#define NUMBERS(N) \
    N(MESSAGE_LIMIT) N(REPLIES_NOT_SAID) N(REPLIES_ON) N(REPLIES_OFF) \
    N(TOO_LONG) N(ENDS_EARLY) N(RESERVED_ID) N(WRONG_VERSION) N(SETS_DIFFER) N(BLOCK_TOO_SMALL) N(WRONG_BLOCK) \
    N(NOT_ALLOWED) N(LEFT_OVER) N(NOT_FOR_TAG) N(BUFFER_TOO_SHORT) N(NOT_VALID)

#define STRUCTS(S) \
    S(channel) S(preamble_index) S(config_id) S(channels) S(preamble_indexes) S(config_ids) \
    S(uwb_capability) S(cs_capability) S(nan_capability) S(rssi) S(uwb_configuration) S(cs_configuration) \
    S(nan_configuration) S(capability) S(configuration) S(record) \
    S(profile) S(uwb_state) S(nan_state) S(rssi_state) S(session) S(answer) S(started) S(block)

#define CAPABILITY(F, in) \
    F(in.uwb.address) F(in.uwb.channels) F(in.uwb.preamble_indexes) F(in.uwb.config_ids) F(in.uwb.shortest_interval) \
    F(in.uwb.shortest_slot) F(in.uwb.roles) \
    F(in.cs.security_types) F(in.cs.address) \
    F(in.nan.features) F(in.nan.periodic) F(in.nan.bandwidth) F(in.nan.receive_chains) \
    F(in.rssi.address)

#define UWB_CONFIGURATION(F, in) \
    F(in.address) F(in.session_id) F(in.config_id) F(in.channel) F(in.preamble_index) F(in.interval) F(in.slot) \
    F(in.key_length) F(in.key) F(in.country) F(in.role) F(in.mode)

#define NAN_CONFIGURATION(F, in) F(in.name_length) F(in.name) F(in.role) F(in.periodic)

#define RECORD(F) \
    F(id) F(set) \
    CAPABILITY(F, capability) \
    UWB_CONFIGURATION(F, configuration.uwb) \
    F(configuration.cs.security_level) F(configuration.cs.address) \
    NAN_CONFIGURATION(F, configuration.nan) \
    F(configuration.rssi.address)

#define SESSION(F) \
    F(profile.set) F(profile.replies) \
    CAPABILITY(F, profile.capability) \
    F(uwb.ranging) UWB_CONFIGURATION(F, uwb.settings) \
    F(nan.ranging) NAN_CONFIGURATION(F, nan.settings) \
    F(rssi.ranging) F(rssi.settings.address) \
    F(mark)

static void octets(const void *from, size_t count)
{
    for (const uint8_t *p = from; count--; p++) printf(" %02x", *p);
    printf("\n");
}

#define SHOW(field) \
    printf(#field " at %zu:", (size_t)((const char *)&it->field - (const char *)it)), octets(&it->field, sizeof it->field);

static void show_record(const struct raydulcimer_record *it) { RECORD(SHOW) }

static void show_session(const struct raydulcimer_session *it) { SESSION(SHOW) }

static void show_started(const struct raydulcimer_started *it)
{
    printf("started\n");
    SHOW(refusal)
    printf("session at %zu\n", offsetof(struct raydulcimer_started, session));
    show_session(&it->session);
}

static void show_block(const struct raydulcimer_block *it)
{
    printf("block\n");
    SHOW(place) SHOW(id) SHOW(size)
}

/* The answer, the buffer and the session after a call. */
static void show_call(const char *call, const struct raydulcimer_answer *it, const uint8_t *out, size_t room,
                      const struct raydulcimer_session *session)
{
    printf("%s\n", call);
    SHOW(refusal) SHOW(length) SHOW(set) SHOW(stopped)
    printf("buffer"), octets(out, room);
    show_session(session);
}

int main(void)
{
    char line[1024];
    struct raydulcimer_record none = {0};
    struct raydulcimer_started started = raydulcimer_start(none, RAYDULCIMER_REPLIES_ON);
    struct raydulcimer_session session = started.session;
#define NUMBER(name) printf(#name " %d\n", RAYDULCIMER_##name);
    NUMBERS(NUMBER)
#define SIZE(name) \
    printf(#name " size %zu alignment %zu\n", sizeof(struct raydulcimer_##name), \
           offsetof(struct { char before; struct raydulcimer_##name it; }, it));
    STRUCTS(SIZE)
    while (fgets(line, sizeof line, stdin)) {
        uint8_t message[300], out[300] = {0};
        size_t length = 0;
        unsigned octet;
        for (int at = 0, used; sscanf(line + at, "%2x%n", &octet, &used) == 1; at += used) message[length++] = octet;

        struct raydulcimer_reading reading = raydulcimer_read(message, length);
        printf("refusal %d\n", reading.refusal);
        show_record(&reading.value);
        struct raydulcimer_written written = raydulcimer_write(reading.value, out, sizeof out);
        printf("written %d", written.refusal);
        octets(out, written.length);

        for (size_t n = 0; n < 6; n++) {
            struct raydulcimer_block block = raydulcimer_nth_block(message, length, n);
            show_block(&block);
        }

        started = raydulcimer_start(reading.value, RAYDULCIMER_REPLIES_ON);
        show_started(&started);
        if (started.refusal == RAYDULCIMER_OK) session = started.session;
        struct raydulcimer_answer answer = raydulcimer_message(&session, message, length, out, sizeof out);
        show_call("message", &answer, out, sizeof out, &session);
        answer = raydulcimer_advertise(&session, out, 50);
        show_call("advertise", &answer, out, sizeof out, &session);
        answer = raydulcimer_advertise(&session, out, 3);
        show_call("advertise", &answer, out, sizeof out, &session);
    }
    return 0;
}
