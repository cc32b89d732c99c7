/* The stack that the calls take on the deepest messages: 32 levels of values, the last a table whose schema has 8. Each call runs in a
 * thread whose stack is painted first; the panel's calls run in one of 64 KiB. */
#include "lent.h"

#include <pthread.h>

#include "tanklefrost.h"

#ifdef __SANITIZE_ADDRESS__
enum { EXTRA = 1 << 20 };
#else
enum { EXTRA = 0 };
#endif
/* The promise is 64 KiB; about 24 KiB are measured, and a test fails that finds much more. */
enum { STACK = 64 * 1024, EXPECTED = 28 * 1024, LEVELS = 32, SCHEMA_LEVELS = 8 };

static struct bytes m;
static uint32_t rows[256 * TANKLEFROST_ROW_WORDS];
static uint8_t output[4096];
static unsigned char *stack;
static size_t room, used, most;

static void put(const char *hex, size_t times)
{
    while (times-- != 0) {
        put_hex(&m, hex);
    }
}

/* What is measured: each call with nothing else on the stack. */
static void *number_and_place(void *top)
{
    used = (size_t)((unsigned char *)&top - stack);
    return tanklefrost_number_and_place(m.at, m.size) == 0 ? top : NULL;
}

static void *rows_needed(void *top)
{
    used = (size_t)((unsigned char *)&top - stack);
    return tanklefrost_answer_number(tanklefrost_rows_needed(m.at, m.size)) == 0 ? top : NULL;
}

static void *slot(void *top)
{
    used = (size_t)((unsigned char *)&top - stack);
    return tanklefrost_answer_number(tanklefrost_slot(m.at, m.size, 0, 0, 0)) == 0 ? top : NULL;
}

static void *read_rows(void *top)
{
    used = (size_t)((unsigned char *)&top - stack);
    return tanklefrost_read(TANKLEFROST_NEW_EDITION, m.at, m.size, rows, sizeof rows / sizeof *rows).number == 0 ? top : NULL;
}

static void *rewrite(void *top)
{
    used = (size_t)((unsigned char *)&top - stack);
    return tanklefrost_rewrite(TANKLEFROST_NEW_EDITION, m.at, m.size, rows, sizeof rows / sizeof *rows, output, sizeof output).number == 0 ? top : NULL;
}

static size_t measure(void *(*call)(void *))
{
    pthread_attr_t attributes;
    pthread_t thread;
    void *held = NULL;
    size_t untouched = 0;

    memset(stack, GUARD, room);
    CHECK(pthread_attr_init(&attributes) == 0);
    CHECK(pthread_attr_setstack(&attributes, stack, room) == 0);
    CHECK(pthread_create(&thread, &attributes, call, &untouched) == 0);
    CHECK(pthread_join(thread, &held) == 0);
    pthread_attr_destroy(&attributes);
    CHECK(held != NULL);
    while (untouched < room && stack[untouched] == GUARD) {
        untouched++;
    }
    return used - untouched;
}

static void deepest(const char *name)
{
    size_t a = measure(number_and_place), b = measure(rows_needed), c = measure(slot), d = measure(read_rows), e = measure(rewrite);
    printf("stack of %s: number and place %zu, rows needed %zu, slot %zu, read %zu, rewrite %zu bytes\n", name, a, b, c, d, e);
    most = most < a ? a : most;
    most = most < b ? b : most;
    most = most < c ? c : most;
}

/* A table of one record whose schema has so many levels: records, each with a fixed array that holds the next. */
static void put_table(void)
{
    int i;
    put("5B24", 1);
    for (i = 0; i < SCHEMA_LEVELS; i++) {
        put(i % 2 == 0 ? "7B550161" : "5B", 1);
    }
    put("55", 1);
    for (i = SCHEMA_LEVELS; 0 < i; i--) {
        put(i % 2 == 0 ? "5D" : "7D", 1);
    }
    put("23550107", 1);
}

int main(void)
{
    struct lent memory;
    room = STACK + EXTRA;
    memory = lend(NULL, room, 0);
    stack = memory.bytes;

    put("5B", LEVELS - 1);
    put_table();
    put("5D", LEVELS - 1);
    deepest("arrays");
    m.size = 0;
    put("7B550161", LEVELS - 1);
    put_table();
    put("7D", LEVELS - 1);
    deepest("objects");
    m.size = 0;
    put("5B235501", LEVELS - 1);
    put_table();
    deepest("counted arrays");
    m.size = 0;
    put("7B235501550161", LEVELS - 1);
    put_table();
    deepest("counted objects");
    CHECK(most < EXPECTED);
    memset(stack, GUARD, room);
    take_back(memory);
    free(m.at);
    return report("stack");
}
