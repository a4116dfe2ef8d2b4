/* Measures a call on one message by the proved library or by the second implementation.

   codec call proved|second CALL NAME     makes the call once, for callgrind to count its instructions; prints how many calls
   codec stack proved|second CALL NAME    prints how many octets of stack the call used, beside its arguments and result
   codec time proved|second CALL NAME     prints how many picoseconds a call takes, the best of ten runs

   CALL is read; write, of what was read; nth_block, for the block after the last, which passes over all of them; or start, with
   what was read as the profile. measure.h has the names of the messages. */
#include "measure.h"

struct second_block {
    uint8_t octets[32];
};
size_t second_write(const struct second_reading *value, uint8_t *out, size_t length);
struct second_block second_nth_block(const uint8_t *message, size_t length, size_t n);

static struct raydulcimer_reading reading;
static struct second_reading second;
static struct raydulcimer_written written;
static struct raydulcimer_block block;
static struct second_block block_second;
static struct raydulcimer_started started;
static struct second_session started_second;
static uint8_t out[RAYDULCIMER_MESSAGE_LIMIT];
static size_t block_count;

/* With the same arguments and results as the measured calls, and no stack of their own. */
static struct raydulcimer_reading no_read(const uint8_t *m, size_t n) { (void)m, (void)n; return reading; }
static struct second_reading no_second_read(const uint8_t *m, size_t n) { (void)m, (void)n; return second; }
static struct raydulcimer_written no_write(struct raydulcimer_record r, uint8_t *o, size_t n)
{
    (void)r, (void)o, (void)n;
    return written;
}
static size_t no_second_write(const struct second_reading *r, uint8_t *o, size_t n)
{
    (void)r, (void)o, (void)n;
    return written.length;
}
static struct raydulcimer_block no_block(const uint8_t *m, size_t n, size_t i) { (void)m, (void)n, (void)i; return block; }
static struct second_block no_second_block(const uint8_t *m, size_t n, size_t i)
{
    (void)m, (void)n, (void)i;
    return block_second;
}
static struct raydulcimer_started no_start(struct raydulcimer_record r, uint8_t c) { (void)r, (void)c; return started; }
static struct second_session no_second_start(const struct second_reading *r, uint8_t c)
{
    (void)r, (void)c;
    return started_second;
}

/* Through pointers, so that one caller serves both the measured calls and the empty ones. */
static __typeof__(no_read) *volatile read = raydulcimer_read;
static __typeof__(no_write) *volatile write = raydulcimer_write;
static __typeof__(no_second_read) *volatile read_second = second_read;
static __typeof__(no_second_write) *volatile write_second = second_write;
static __typeof__(no_block) *volatile nth_block = raydulcimer_nth_block;
static __typeof__(no_second_block) *volatile nth_block_second = second_nth_block;
static __typeof__(no_start) *volatile start = raydulcimer_start;
static __typeof__(no_second_start) *volatile start_second = second_start;

static void nothing(void) {}
static void call_read(void) { reading = read(message, length); }
static void call_write(void) { written = write(reading.value, out, sizeof out); }
static void call_second_read(void) { second = read_second(message, length); }
static void call_second_write(void) { written.length = write_second(&second, out, sizeof out); }
static void call_block(void) { block = nth_block(message, length, block_count); }
static void call_second_block(void) { block_second = nth_block_second(message, length, block_count); }
static void call_start(void) { started = start(reading.value, RAYDULCIMER_REPLIES_ON); }
static void call_second_start(void) { started_second = start_second(&second, RAYDULCIMER_REPLIES_ON); }

/* The call of a name; NULL for none. */
static void (*named(const char *name, int proved))(void)
{
    if (!strcmp(name, "read")) return proved ? call_read : call_second_read;
    if (!strcmp(name, "write")) return proved ? call_write : call_second_write;
    if (!strcmp(name, "nth_block")) return proved ? call_block : call_second_block;
    if (!strcmp(name, "start")) return proved ? call_start : call_second_start;
    return NULL;
}

static void no_calls(void)
{
    read = no_read, write = no_write, nth_block = no_block, start = no_start;
    read_second = no_second_read, write_second = no_second_write, nth_block_second = no_second_block;
    start_second = no_second_start;
}

static void (*measured)(void);
static int calls;
static void call_mixed(void) { calls = mixed(measured); }

int main(int argc, char **argv)
{
    int many = argc == 5 && !strcmp(argv[4], "mixed");
    int proved = argc == 5 && !strcmp(argv[2], "proved");
    measured = argc == 5 ? named(argv[3], proved) : NULL;
    if (!measured || !(many || choose(argv[4]))) {
        fprintf(stderr, "usage: codec call|stack|time proved|second read|write|nth_block|start NAME\n");
        return 2;
    }
    if (!many) block_count = __builtin_popcount(message[2] | message[3] << 8);
    void (*read_first)(void) = named("read", proved);
    if (measured != read_first) read_first();
    void (*all)(void) = many ? call_mixed : measured;
    if (!strcmp(argv[1], "stack")) {
        size_t full = used(all);
        no_calls();
        printf("%zu\n", full - used(all));
    } else if (!strcmp(argv[1], "time")) {
        all();
        printf("%ld\n", many ? clocked(nothing, all, 100) / calls : clocked(nothing, all, 20000));
    } else {
        all();
        printf("%d\n", many ? calls : 1);
    }
    return !many && (reading.refusal != 0 || written.refusal != 0 || block.place != 0 || started.refusal != 0);
}
