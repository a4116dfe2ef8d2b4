/* Measures a call of a session with all four technologies and explicit replies on, by the proved library or by the second
   implementation.

   session call proved|second CALL     makes the call once, for callgrind to count its instructions
   session stack proved|second CALL    prints how many octets of stack the call used, beside its arguments and result
   session time proved|second CALL     prints how many picoseconds the call takes, the best of ten runs

   CALL is advertisement, or the message of a name of measure.h: before a Stop three technologies are ranging, and a Capability
   Response is walked before it is refused. */
#include "measure.h"

struct second_answer {
    uint8_t octets[32];
};
struct second_answer second_message(struct second_session *session, const uint8_t *octets, size_t length, uint8_t *out,
                                    size_t room);
struct second_answer second_advertise(struct second_session *session, uint8_t *out, size_t room);

static struct raydulcimer_session session;
static struct raydulcimer_answer said;
static struct second_session second;
static struct second_answer answer;
static uint8_t out[RAYDULCIMER_MESSAGE_LIMIT];

/* With the same arguments and results as the measured calls, and no stack of their own. */
static struct raydulcimer_answer no_message(struct raydulcimer_session *s, const uint8_t *m, size_t n, uint8_t *o, size_t r)
{
    (void)s, (void)m, (void)n, (void)o, (void)r;
    return said;
}
static struct raydulcimer_answer no_advertise(struct raydulcimer_session *s, uint8_t *o, size_t r)
{
    (void)s, (void)o, (void)r;
    return said;
}
static struct second_answer no_second_message(struct second_session *s, const uint8_t *m, size_t n, uint8_t *o, size_t r)
{
    (void)s, (void)m, (void)n, (void)o, (void)r;
    return answer;
}
static struct second_answer no_second_advertise(struct second_session *s, uint8_t *o, size_t r)
{
    (void)s, (void)o, (void)r;
    return answer;
}

static __typeof__(no_message) *volatile give = raydulcimer_message;
static __typeof__(no_advertise) *volatile advertise = raydulcimer_advertise;
static __typeof__(no_second_message) *volatile give_second = second_message;
static __typeof__(no_second_advertise) *volatile advertise_second = second_advertise;

static void call_message(void) { said = give(&session, message, length, out, sizeof out); }
static void call_advertise(void) { said = advertise(&session, out, sizeof out); }
static void call_second_message(void) { answer = give_second(&second, message, length, out, sizeof out); }
static void call_second_advertise(void) { answer = advertise_second(&second, out, sizeof out); }

/* Fresh sessions; for a Stop with everything set before. */
static void begin(const char *call)
{
    choose("response");
    struct second_reading profile = second_read(message, length);
    session = raydulcimer_start(raydulcimer_read(message, length).value, RAYDULCIMER_REPLIES_ON).session;
    second = second_start(&profile, RAYDULCIMER_REPLIES_ON);
    if (!strcmp(call, "stop")) {
        choose("configuration");
        said = raydulcimer_message(&session, message, length, out, sizeof out);
        second_message(&second, message, length, out, sizeof out);
    }
}

/* Each call of a run finds the same session. */
static struct raydulcimer_session first;
static struct second_session second_first;
static void restore(void) { session = first; }
static void restore_second(void) { second = second_first; }

int main(int argc, char **argv)
{
    const char *word = argc == 4 ? argv[3] : "";
    int advertisement = !strcmp(word, "advertisement");
    if (argc != 4 || !(advertisement || choose(word))) {
        fprintf(stderr, "usage: session call|stack|time proved|second CALL\n");
        return 2;
    }
    begin(word);
    if (!advertisement) choose(word);
    int proved = !strcmp(argv[2], "proved");
    void (*call)(void) = proved ? (advertisement ? call_advertise : call_message)
                                : (advertisement ? call_second_advertise : call_second_message);
    if (!strcmp(argv[1], "stack")) {
        size_t full = used(call);
        give = no_message, advertise = no_advertise;
        give_second = no_second_message, advertise_second = no_second_advertise;
        printf("%zu\n", full - used(call));
    } else if (!strcmp(argv[1], "time")) {
        first = session, second_first = second;
        printf("%ld\n", clocked(proved ? restore : restore_second, call, 20000));
    } else {
        call();
        puts("1");
    }
    return said.refusal != RAYDULCIMER_OK && said.refusal != RAYDULCIMER_NOT_FOR_TAG;
}
