/* The header in use, in what C99 and C++98 share. Tries buffers of the header's lengths, and with an octet less, on all that can
   be written, and says what is wrong with a length. Then prints the words for each number of a refusal. */
#include <stdio.h>
#include <string.h>
#include "raydulcimer.h"

enum { SETS = 16 };

static uint8_t out[RAYDULCIMER_MESSAGE_LIMIT];

/* A valid record. What a message's length depends on is given: ID, set, key length and name length. */
static struct raydulcimer_record record(unsigned id, unsigned set, unsigned key_length, unsigned name_length)
{
    struct raydulcimer_record it;
    memset(&it, 0, sizeof it);
    it.id = (uint8_t)id;
    it.set = (uint16_t)set;
    if (id == RAYDULCIMER_CAPABILITY_RESPONSE && (set & RAYDULCIMER_UWB)) {
        it.capability.uwb.shortest_interval = 96;
        it.capability.uwb.shortest_slot = 1;
    }
    if (id == RAYDULCIMER_CONFIGURATION && (set & RAYDULCIMER_UWB)) {
        it.configuration.uwb.interval = 96;
        it.configuration.uwb.slot = 1;
        it.configuration.uwb.key_length = (uint8_t)key_length;
        memcpy(it.configuration.uwb.country, "CH", 2);
        it.configuration.uwb.role = it.configuration.uwb.mode = 1;
    }
    if (id == RAYDULCIMER_CONFIGURATION && (set & RAYDULCIMER_NAN)) it.configuration.nan.name_length = (uint8_t)name_length;
    return it;
}

/* Counts a call that found its buffer too short. No other refusal may come. */
static unsigned too_short(uint8_t refusal)
{
    if (refusal != RAYDULCIMER_OK && refusal != RAYDULCIMER_BUFFER_TOO_SHORT)
        printf("unexpected: %s\n", raydulcimer_refusal_words(refusal));
    return refusal == RAYDULCIMER_BUFFER_TOO_SHORT;
}

/* How many records of all kinds and lengths do not fit into so much room. */
static unsigned unwritten(size_t room)
{
    static const unsigned ids[] = {
        RAYDULCIMER_CAPABILITY_REQUEST, RAYDULCIMER_CAPABILITY_RESPONSE, RAYDULCIMER_CONFIGURATION,
        RAYDULCIMER_CONFIGURATION_RESPONSE, RAYDULCIMER_STOP, RAYDULCIMER_STOP_RESPONSE};
    unsigned count = 0;
    for (size_t i = 0; i < sizeof ids / sizeof *ids; i++)
        for (unsigned set = 0; set < SETS; set++)
            for (unsigned key = 8; key <= 32; key *= 2)
                for (unsigned name = 1; name <= 64; name++)
                    count += too_short(raydulcimer_write(record(ids[i], set, key, name), out, room).refusal);
    return count;
}

/* How many advertisements and replies of all sessions do not fit into so much room. */
static unsigned unanswered(size_t room)
{
    unsigned count = 0;
    for (unsigned profile = 0; profile < SETS; profile++) {
        struct raydulcimer_started tag =
            raydulcimer_start(record(RAYDULCIMER_CAPABILITY_RESPONSE, profile, 0, 0), RAYDULCIMER_REPLIES_ON);
        count += too_short(tag.refusal);
        count += too_short(raydulcimer_advertise(&tag.session, out, room).refusal);
        for (unsigned set = 0; set < SETS; set++) {
            static const unsigned ids[] = {RAYDULCIMER_CAPABILITY_REQUEST, RAYDULCIMER_CONFIGURATION, RAYDULCIMER_STOP};
            for (size_t i = 0; i < sizeof ids / sizeof *ids; i++) {
                uint8_t message[RAYDULCIMER_LONGEST_MESSAGE];
                size_t length = raydulcimer_write(record(ids[i], set, 32, 64), message, sizeof message).length;
                count += too_short(raydulcimer_message(&tag.session, message, length, out, room).refusal);
            }
        }
    }
    return count;
}

int main(void)
{
    if (unwritten(RAYDULCIMER_LONGEST_MESSAGE) != 0) printf("LONGEST_MESSAGE is too short\n");
    if (unwritten(RAYDULCIMER_LONGEST_MESSAGE - 1) == 0) printf("LONGEST_MESSAGE is longer than needed\n");
    if (unanswered(RAYDULCIMER_LONGEST_REPLY) != 0) printf("LONGEST_REPLY is too short\n");
    if (unanswered(RAYDULCIMER_LONGEST_REPLY - 1) == 0) printf("LONGEST_REPLY is longer than needed\n");
    for (unsigned number = 0; number <= 255; number++)
        printf("%u %s\n", number, raydulcimer_refusal_words((uint8_t)number));
    return 0;
}
