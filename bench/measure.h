/* What the benchmarks share: the messages that they measure, a painted stack, and a clock.

   Messages by name: request, stop, response (a full Capability Response), configuration (a full Configuration), sixteen (a
   Capability Response of sixteen blocks), blocksN (one of N blocks of unknown technologies, N to 12), nameN (a Configuration
   of NAN alone with a name of N octets, N to 64), mixed (these with every octet changed in turn: accepted and refused ones). */
#define _GNU_SOURCE
#include <stdio.h>
#include <stdlib.h>
#include <string.h>
#include <time.h>
#include <ucontext.h>
#include "raydulcimer.h"

static const uint8_t request[] = {1, 0, 15, 0};
static const uint8_t stop[] = {1, 6, 15, 0};
static const uint8_t response[] = {
    1, 1, 15, 0, 0, 20, 0xA1, 0xA2, 0x20, 2, 0, 0, 0, 15, 0, 0, 3, 0, 0, 0, 120, 0, 2, 3, 1, 9, 0x1F,
    1, 2, 3, 4, 5, 6, 2, 6, 7, 1, 2, 3, 3, 8, 1, 2, 3, 4, 5, 6};
static uint8_t configuration[6 + 51 + 9 + 69 + 8];
static uint8_t sixteen[4 + 20 + 9 + 6 + 8 + 12 * 2];
static uint8_t made[RAYDULCIMER_MESSAGE_LIMIT];

static void prepare(void)
{
    uint8_t *p = configuration;
    static const uint8_t head[] = {1, 2, 15, 0, 15, 0, 0, 51, 0xA1, 0xA2, 1, 0, 0, 0, 1, 9, 11, 240, 0, 2, 32};
    memcpy(p, head, sizeof head), p += sizeof head;
    memset(p, 0x5A, 32), p += 32;
    memcpy(p, "DE\1\2", 4), p += 4;
    memcpy(p, "\1\11\4BBBBBB", 9), p += 9;
    *p++ = 2, *p++ = 69, *p++ = 64, memset(p, 'n', 64), p += 64, *p++ = 0, *p++ = 1;
    memcpy(p, "\3\10CCCCCC", 8);

    memcpy(sixteen, response, sizeof response);
    sixteen[2] = sixteen[3] = 0xFF;
    for (int id = 4; id < 16; id++) {
        sixteen[sizeof response + 2 * (id - 4)] = id;
        sixteen[sizeof response + 2 * (id - 4) + 1] = 2;
    }
}

static const uint8_t *message;
static size_t length;

static int blocks(int n)
{
    uint16_t set = ((1 << n) - 1) << 4;
    if (n < 0 || 12 < n) return 0;
    made[0] = made[1] = 1, made[2] = set, made[3] = set >> 8;
    for (int i = 0; i < n; i++) made[4 + 2 * i] = 4 + i, made[5 + 2 * i] = 2;
    message = made, length = 4 + 2 * n;
    return 1;
}

static int name(int n)
{
    static const uint8_t head[] = {1, 2, 4, 0, 4, 0, 2};
    if (n < 1 || 64 < n) return 0;
    memcpy(made, head, sizeof head);
    made[7] = 5 + n, made[8] = n;
    memset(made + 9, 'n', n);
    made[9 + n] = 0, made[10 + n] = 1;
    message = made, length = 11 + n;
    return 1;
}

static int choose(const char *word)
{
    prepare();
    if (!strncmp(word, "blocks", 6)) return blocks(atoi(word + 6));
    if (!strncmp(word, "name", 4)) return name(atoi(word + 4));
    if (!strcmp(word, "request")) message = request, length = sizeof request;
    else if (!strcmp(word, "response")) message = response, length = sizeof response;
    else if (!strcmp(word, "configuration")) message = configuration, length = sizeof configuration;
    else if (!strcmp(word, "sixteen")) message = sixteen, length = sizeof sixteen;
    else if (!strcmp(word, "stop")) message = stop, length = sizeof stop;
    else return 0;
    return 1;
}

/* A call for each message of the mixed corpus; how many there were. */
__attribute__((unused)) static int mixed(void (*call)(void))
{
    static const char *const words[] = {"request", "stop", "response", "configuration", "sixteen"};
    static uint8_t changed[RAYDULCIMER_MESSAGE_LIMIT];
    int calls = 0;
    for (size_t i = 0; i < sizeof words / sizeof *words; i++) {
        choose(words[i]);
        memcpy(changed, message, length);
        message = changed;
        for (size_t at = 0; at < length; at++) {
            changed[at] ^= 0xFF, call(), calls++;
            changed[at] ^= 0xFF, call(), calls++;
        }
    }
    return calls;
}

/* What the second implementation returns is handed on without looking into it; each has fewer octets. */
struct second_reading {
    uint8_t octets[256];
};
struct second_session {
    uint8_t octets[256];
};
struct second_reading second_read(const uint8_t *message, size_t length);
struct second_session second_start(const struct second_reading *profile, uint8_t replies);

static ucontext_t here, there;
static uint8_t stack[1 << 16];

/* The octets of a painted stack that a function used. */
static size_t used(void (*f)(void))
{
    size_t untouched = 0;
    memset(stack, 0xA5, sizeof stack);
    getcontext(&there);
    there.uc_stack.ss_sp = stack;
    there.uc_stack.ss_size = sizeof stack;
    there.uc_link = &here;
    makecontext(&there, f, 0);
    swapcontext(&here, &there);
    while (stack[untouched] == 0xA5) untouched++;
    return sizeof stack - untouched;
}

/* Picoseconds for a call, the best of ten runs of so many; `before` is called before each and counted as well. */
static long clocked(void (*before)(void), void (*call)(void), long calls)
{
    long best = 0;
    for (int run = 0; run < 10; run++) {
        struct timespec a, b;
        clock_gettime(CLOCK_MONOTONIC, &a);
        for (long i = 0; i < calls; i++) before(), call();
        clock_gettime(CLOCK_MONOTONIC, &b);
        long took = (b.tv_sec - a.tv_sec) * 1000000000L + b.tv_nsec - a.tv_nsec;
        if (!run || took < best) best = took;
    }
    return best * 1000 / calls;
}
