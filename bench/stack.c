/* The stack that each call takes:
 *     stack RATE < what `bench/run bytes ELEMENTS RATE` writes
 *     stack hem_hour_step 24 windows 75928
 * Each function is called in a thread of its own, for every hour of the year where it is given one, and the stack of
 * that thread is filled with one byte beforehand. The figure is how far down bytes have changed, some hundred bytes of
 * the caller's own included. */
#define _POSIX_C_SOURCE 200112L
#include <pthread.h>
#include <stdlib.h>
#include <string.h>

#include "year.h"

enum { STACK = 1 << 20, FILL = 0xA5, OWN_FRAME = 256 };

static unsigned char stack[STACK] __attribute__((aligned(4096)));

/* What the calls are given and hand on to each other. */
static struct year y;
static uint8_t *book;
static size_t book_len;
static double temps[HEM_TEMPS], out[HEM_OUT], balance[HEM_BALANCE], operative;
static uint64_t nodes, count, used, last_version;

static void head(void) { accepted(hem_head(y.head, y.head_len)); }
static void start_up(void) { accepted(hem_start_up(y.head, y.head_len, temps, &nodes)); }
static void operative_of(void) { accepted(hem_operative(y.head, y.head_len, temps, nodes, &operative)); }

/* The temperatures before each hour of the year: from start-up's alone, few hours would have windows open. */
static double before[HOURS][HEM_TEMPS];

static void hour_step(void) {
    for (size_t i = 0; i < HOURS; i++) {
        memcpy(before[i], temps, sizeof temps);
        accepted(hem_hour_step(y.head, y.head_len, temps, nodes, hour_of(&y, i), y.hour_len, VERSION, UNUSED_LIMIT,
                               UNUSED_LIMIT, out, balance));
    }
}

static void demand(void) {
    for (size_t i = 0; i < HOURS; i++)
        accepted(hem_demand(y.head, y.head_len, before[i], nodes, hour_of(&y, i), y.hour_len, out));
}

static void why(void) {
    uint64_t reason = 0, load = 0;
    for (size_t i = 0; i < HOURS; i++)
        accepted(hem_why(y.head, y.head_len, before[i], nodes, hour_of(&y, i), y.hour_len, &reason, &load));
}

static void update(void) {
    for (size_t i = 0; i < HOURS; i++)
        accepted(hem_update(y.head, y.head_len, temps, nodes, hour_of(&y, i), y.hour_len, 100.0, 0.4, 0.5, balance));
}

static void begin(void) {
    accepted(hem_begin(y.head, y.head_len, book, book_len, temps, &nodes, &count, &used, &last_version));
}

static void append_by(uint64_t version) {
    for (size_t i = 0; i < HOURS; i++)
        accepted(hem_append(y.head, y.head_len, book, book_len, temps, &nodes, &count, &used, &last_version,
                            hour_of(&y, i), y.hour_len, version, UNUSED_LIMIT, UNUSED_LIMIT));
}

static void append(void) { append_by(VERSION); }

static void take_up(void) { accepted(hem_take_up(book, book_len, temps, &nodes, &count, &used, &last_version)); }

static uint64_t found;

static void first_above(void) { accepted(hem_first_above(book, book_len, 1000.0, &found)); }

static void hours_within(void) { accepted(hem_hours_within(book, book_len, -1000.0, 1000.0, &found)); }

static void nearest_hour(void) { accepted(hem_nearest_hour(book, book_len, 21.0, &found)); }

/* The converter takes no entries of version 1. Hours with one rate get the fixed rate, code 0, as they were stored before
 * it was retired; hours with windows are converted as they are. */
static uint8_t *converted;

static void book_to_convert(void) {
    begin();
    append_by(2);
    for (uint8_t *at = book + y.head_len; at < book + book_len; at += HEM_ENTRY(y.elements, 5 * y.elements + 1)) {
        uint8_t *rates = at + HEM_ENTRY_AT_CONDITIONS + HEM_CONDITIONS_AT_RATES;
        if (memcmp(rates, rates + 8, 8) != 0) continue;
        at[HEM_ENTRY_AT_CONDITIONS + HEM_CONDITIONS_AT_RATE_CODE] = 0;
        memset(rates + 8, 0, 8);
    }
}

static void convert(void) { accepted(hem_convert(book, book_len, converted, book_len, &count, &used)); }

/* A line of a weather file, which is the same for every house. */
static void weather(void) {
    static const char file[] =
        "\n\n\n\n\n\n\n\n1999,1,1,1,60,?9,-3.52345678901,5,93,101300,0,0,290,33,120.123456789,60\r\n";
    double values[HEM_WEATHER];
    accepted(hem_weather((const uint8_t *)file, sizeof file - 1, 1, values));
}

struct call {
    const char *name;
    void (*make)(void);
    size_t taken;
};

/* Filled and looked at from within, so that nothing of the thread's own start and end is counted. */
static void *measure(void *given) {
    struct call *call = given;
    unsigned char *here = __builtin_frame_address(0);
    volatile unsigned char *lowest = stack;
    for (volatile unsigned char *p = stack; p < here - OWN_FRAME; p++) *p = FILL;
    call->make();
    while (*lowest == FILL) lowest++;
    call->taken = (size_t)(here - lowest);
    return NULL;
}

static void measure_apart(struct call *call) {
    pthread_attr_t attributes;
    pthread_t thread;
    if (pthread_attr_init(&attributes) || pthread_attr_setstack(&attributes, stack, sizeof stack)) abort();
    if (pthread_create(&thread, &attributes, measure, call) || pthread_join(thread, NULL)) abort();
    pthread_attr_destroy(&attributes);
}

static void show(struct call *call, const char *rate) {
    measure_apart(call);
    printf("stack %s %zu %s %zu\n", call->name, y.elements, rate, call->taken);
}

int main(int words, char **word) {
    struct call calls[] = {{"hem_head", head, 0},
                           {"hem_start_up", start_up, 0},
                           {"hem_operative", operative_of, 0},
                           {"hem_hour_step", hour_step, 0},
                           {"hem_demand", demand, 0},
                           {"hem_why", why, 0},
                           {"hem_update", update, 0},
                           {"hem_begin", begin, 0},
                           {"hem_append", append, 0},
                           {"hem_take_up", take_up, 0},
                           {"hem_first_above", first_above, 0},
                           {"hem_hours_within", hours_within, 0},
                           {"hem_nearest_hour", nearest_hour, 0},
                           {"hem_weather", weather, 0}};
    struct call last = {"hem_convert", convert, 0};
    if (words != 2) return 2;
    y = read_year();
    book_len = y.head_len + HOURS * HEM_ENTRY(y.elements, 5 * y.elements + 1);
    book = calloc(book_len, 1);
    converted = calloc(book_len, 1);
    if (book == NULL || converted == NULL) abort();
    for (size_t i = 0; i < sizeof calls / sizeof *calls; i++) show(&calls[i], word[1]);
    book_to_convert();
    show(&last, word[1]);
    free(book);
    free(converted);
    return count == HOURS ? 0 : 1;
}
