/* Every function, called on the largest house by a thread that has HEM_STACK bytes of stack and no more. */
#include "hem_zone.h"
#include "test.h"

#include <pthread.h>
#include <stdlib.h>
#include <string.h>

/* A weather file of one line. */
static const char epw[] = "\n\n\n\n\n\n\n\n1999,1,1,1,60,?9,-3.52345678901,5,93,101300,0,0,290,33,120.123456789,60\r\n";

typedef struct {
    uint8_t *head, *hour, *open_hour, *book, *converted;
    size_t head_len, hour_len, book_len;
    double temps[HEM_TEMPS], out[HEM_OUT], balance[HEM_BALANCE], weather[HEM_WEATHER];
    uint64_t nodes, count, used, last, found, reason, load;
    uint32_t answers;
} Calls;

static void *every_call(void *given) {
    Calls *c = given;
    c->answers = hem_head(c->head, c->head_len);
    c->answers |= hem_start_up(c->head, c->head_len, c->temps, &c->nodes);
    c->answers |= hem_demand(c->head, c->head_len, c->temps, c->nodes, c->hour, c->hour_len, c->out);
    c->answers |= hem_why(c->head, c->head_len, c->temps, c->nodes, c->open_hour, c->hour_len, &c->reason, &c->load);
    c->answers |= hem_update(c->head, c->head_len, c->temps, c->nodes, c->hour, c->hour_len, 0, 1, 0.5, c->balance);
    c->answers |= hem_hour_step(c->head, c->head_len, c->temps, c->nodes, c->hour, c->hour_len, HEM_NEWEST_ENTRY_VERSION, 0, 0,
                                c->out, c->balance);
    c->answers |= hem_operative(c->head, c->head_len, c->temps, c->nodes, c->out);
    c->answers |= hem_begin(c->head, c->head_len, c->book, c->book_len, c->temps, &c->nodes, &c->count, &c->used, &c->last);
    c->answers |= hem_append(c->head, c->head_len, c->book, c->book_len, c->temps, &c->nodes, &c->count, &c->used, &c->last, c->hour,
                             c->hour_len, HEM_NEWEST_ENTRY_VERSION, 0, 0);
    c->answers |= hem_take_up(c->book, c->book_len, c->temps, &c->nodes, &c->count, &c->used, &c->last);
    c->answers |= hem_first_above(c->book, c->book_len, 20, &c->found);
    c->answers |= hem_hours_within(c->book, c->book_len, 18, 26, &c->found);
    c->answers |= hem_nearest_hour(c->book, c->book_len, 20, &c->found);
    c->answers |= hem_convert(c->book, c->book_len, c->converted, c->book_len, &c->count, &c->used);
    c->answers |= hem_weather((const uint8_t *)epw, sizeof epw - 1, 1, c->weather);
    return NULL;
}

static void run_with(size_t stack, Calls *calls) {
    pthread_attr_t attributes;
    pthread_t thread;
    if (pthread_attr_init(&attributes) || pthread_attr_setstacksize(&attributes, stack)) abort();
    if (pthread_create(&thread, &attributes, every_call, calls) || pthread_join(thread, NULL)) abort();
    pthread_attr_destroy(&attributes);
}

/* The hour with setpoints at which its windows open: then the most is calculated to say why. */
static uint8_t *with_open_windows(const House *h) {
    uint8_t *hour = lent(h->hour_len);
    memcpy(hour, h->hour, h->hour_len);
    put_double(hour + HEM_CONDITIONS_AT_TEMP_SETPNT_HEAT, 0);
    put_double(hour + HEM_CONDITIONS_AT_TEMP_SETPNT_COOL_VENT, 5);
    return hour;
}

void test_stack(void) {
    House h = house(HEM_ELEMENTS, 0, 0);
    Calls *calls = lent(sizeof *calls);
    memset(calls, 0, sizeof *calls);
    calls->head = h.head, calls->head_len = h.head_len;
    calls->hour = h.hour, calls->hour_len = h.hour_len;
    calls->open_hour = with_open_windows(&h);
    calls->book_len = h.head_len + HEM_ENTRY_OF(HEM_NEWEST_ENTRY_VERSION, HEM_ELEMENTS, HEM_TEMPS);
    calls->book = lent(calls->book_len);
    calls->converted = lent(calls->book_len);
    run_with(HEM_STACK, calls);
    expect("HEM_STACK is enough for every call",
           calls->answers == 0 && calls->count == 1 && calls->reason == HEM_WHY_WINDOWS_ENOUGH &&
               memcmp(calls->converted, calls->book, calls->used) == 0);
    free(calls->converted);
    free(calls->book);
    free(calls->open_hour);
    free(calls);
    give_back(h);
}
