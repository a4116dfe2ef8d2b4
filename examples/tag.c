/* A tag's firmware loop over a simulated channel.

   Standard input is a bench log of what a phone sends. The tag starts a session, advertises, and gives the session each
   message that is meant for it; a line for each says what happened and what ranges afterwards. LOG becomes a bench log of
   all that the tag received and sent.

   Build and run, in the root of the repository and after `./raydulcimer library`:

     gcc -std=c11 -O2 -Wall -Wextra -Werror -Iinclude -o target/tag examples/tag.c target/staticlib/libraydulcimer.a
     target/tag target/tag.log < samples/exchange.log

   Exit status: 0; 1 if a record of the input is broken or its end is cut off; 2 if the tag cannot do its work. */
#include <errno.h>
#include <stdbool.h>
#include <stdio.h>
#include <string.h>
#include "raydulcimer.h"

/* What this tag can do. */
static const struct raydulcimer_record profile = {
    .id = RAYDULCIMER_CAPABILITY_RESPONSE,
    .set = RAYDULCIMER_UWB | RAYDULCIMER_CS | RAYDULCIMER_NAN | RAYDULCIMER_RSSI,
    .capability = {
        .uwb = {
            .address = {0x4B, 0x1D},
            .channels = {1u << 5 | 1u << 9},
            .preamble_indexes = {0xFu << 8}, /* bits 8 to 11: preamble indexes 9 to 12 */
            .config_ids = {1u << 1 | 1u << 3},
            .shortest_interval = 120,
            .shortest_slot = 2,
            .roles = 0x1 | 0x2, /* initiator and responder */
        },
        .cs = {
            .security_types = 1 << 1 | 1 << 2, /* levels 1 and 2 */
            .address = {0xD4, 0x36, 0x39, 0x5A, 0x21, 0x7C},
        },
        .nan = {
            .features = 0x1 | 0x2, /* 802.11mc and 802.11az */
            .periodic = 1,
            .bandwidth = 2, /* 80 MHz */
            .receive_chains = 1,
        },
        .rssi = {
            .address = {0xD4, 0x36, 0x39, 0x5A, 0x21, 0x7C},
        },
    },
};

static const char *const technologies[] = {"UWB", "CS", "NAN", "RSSI"};

/* The messages that a tag is sent; it refuses all others. */
static const char *const messages[] = {
    [RAYDULCIMER_CAPABILITY_REQUEST] = "Request",
    [RAYDULCIMER_CONFIGURATION] = "Configuration",
    [RAYDULCIMER_STOP] = "Stop",
};

/* A record of a bench log: direction, zero, length in two octets, low first, the message, zeros to the end. */
enum { TO_TAG = 0, FROM_TAG = 1, HEAD = 4, RECORD = HEAD + RAYDULCIMER_MESSAGE_LIMIT };

static size_t message_length(const uint8_t *record)
{
    return record[2] + 256u * record[3];
}

/* What is wrong with a record, or NULL. */
static const char *fault(const uint8_t *record)
{
    if (record[0] != TO_TAG && record[0] != FROM_TAG) return "its direction is neither 0 nor 1";
    if (record[1] != 0) return "its second octet is not 0";
    if (message_length(record) > RAYDULCIMER_MESSAGE_LIMIT) return "its length is above 256";
    for (size_t at = HEAD + message_length(record); at < RECORD; at++)
        if (record[at] != 0) return "an octet after its message is not 0";
    return NULL;
}

/* A failed write is found when the log is closed. */
static void write_log(FILE *log, uint8_t direction, const uint8_t *message, size_t length)
{
    uint8_t record[RECORD] = {direction, 0, length & 0xFF, length >> 8};
    memcpy(record + HEAD, message, length);
    fwrite(record, 1, sizeof record, log);
}

static void print_set(const char *word, uint16_t set)
{
    printf(" %s", word);
    if (set == 0) printf(" none");
    for (size_t id = 0; id < sizeof technologies / sizeof *technologies; id++)
        if (set >> id & 1) printf(" %s", technologies[id]);
    printf(",");
}

static void print_ranging(const struct raydulcimer_session *session)
{
    const struct raydulcimer_uwb_configuration *uwb = &session->uwb.settings;
    printf("; ranging:");
    if (session->uwb.ranging) printf(" UWB (channel %d, every %d ms)", uwb->channel.number, uwb->interval);
    if (session->nan.ranging) printf(" NAN");
    if (session->rssi.ranging) printf(" RSSI");
    if (!session->uwb.ranging && !session->nan.ranging && !session->rssi.ranging) printf(" none");
    printf("\n");
}

/* Gives the session a message and sends its reply. Firmware now starts what `answer.set` names, with the settings in the
   session, and ends what `answer.stopped` names; this tag prints them. */
static void receive(struct raydulcimer_session *session, const uint8_t *message, size_t length, FILE *log)
{
    uint8_t reply[RAYDULCIMER_LONGEST_REPLY];
    struct raydulcimer_answer answer = raydulcimer_message(session, message, length, reply, sizeof reply);

    write_log(log, TO_TAG, message, length);
    if (answer.length > 0) write_log(log, FROM_TAG, reply, answer.length);

    if (answer.refusal != RAYDULCIMER_OK) {
        printf("refused %d: %s", answer.refusal, raydulcimer_refusal_words(answer.refusal));
    } else {
        printf("%s:", messages[message[1]]);
        if (message[1] == RAYDULCIMER_CONFIGURATION) print_set("set", answer.set);
        if (message[1] == RAYDULCIMER_STOP) print_set("stopped", answer.stopped);
        printf(" reply %zu octets", answer.length);
    }
    print_ranging(session);
}

/* Takes records from the channel until it ends, and returns the exit status. */
static int serve(struct raydulcimer_session *session, FILE *log)
{
    uint8_t record[RECORD];
    size_t got;
    int status = 0;
    unsigned long number = 0;
    for (; (got = fread(record, 1, sizeof record, stdin)) == sizeof record; number++) {
        const char *wrong = fault(record);
        if (wrong) {
            fprintf(stderr, "tag: record %lu breaks the log's layout: %s\n", number, wrong);
            status = 1;
        } else if (record[0] == TO_TAG) {
            printf("%lu ", number);
            receive(session, record + HEAD, message_length(record), log);
        }
    }
    if (ferror(stdin)) {
        fprintf(stderr, "tag: standard input cannot be read\n");
        return 2;
    }
    if (got > 0) {
        fprintf(stderr, "tag: record %lu is cut off: the log ends after %zu of its %d octets\n", number, got, RECORD);
        return 1;
    }
    return status;
}

/* Starts the session and advertises; false if the profile is refused. The buffer has room for every advertisement. */
static bool begin(struct raydulcimer_session *session, FILE *log)
{
    uint8_t message[RAYDULCIMER_LONGEST_REPLY];
    struct raydulcimer_started started = raydulcimer_start(profile, RAYDULCIMER_REPLIES_ON);
    if (started.refusal != RAYDULCIMER_OK) {
        fprintf(stderr, "tag: the start is refused: %s\n", raydulcimer_refusal_words(started.refusal));
        return false;
    }
    *session = started.session;
    struct raydulcimer_answer answer = raydulcimer_advertise(session, message, sizeof message);
    write_log(log, FROM_TAG, message, answer.length);
    printf("advertisement: %zu octets", answer.length);
    print_ranging(session);
    return true;
}

/* Closes a file; false if not all that was written to it has arrived. */
static bool close_written(FILE *file, const char *name)
{
    bool failed = ferror(file) != 0;
    if (fclose(file) != 0) failed = true;
    if (failed) fprintf(stderr, "tag: %s cannot be written\n", name);
    return !failed;
}

int main(int argc, char **argv)
{
    static struct raydulcimer_session session;
    if (argc != 2) {
        fprintf(stderr, "usage: tag LOG < EXCHANGE\n");
        return 2;
    }
    FILE *log = fopen(argv[1], "wb");
    if (!log) {
        fprintf(stderr, "tag: %s cannot be written: %s\n", argv[1], strerror(errno));
        return 2;
    }
    int status = begin(&session, log) ? serve(&session, log) : 2;
    if (!close_written(log, argv[1])) status = 2;
    if (!close_written(stdout, "standard output")) status = 2;
    return status;
}
