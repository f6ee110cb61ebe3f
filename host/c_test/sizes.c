/* The sizes of hem_zone.h, and the places in an entry and in a balance, as the engine has them. */
#include "hem_zone.h"
#include "test.h"

#include <math.h>
#include <stdlib.h>
#include <string.h>

/* Limits that an hour of the house below is beyond. */
static const double heating_limit = 12.5, cooling_limit = 0.25;

/* Begins a book in exactly `head_len` bytes, appends in exactly an entry more: 0, 0; one byte less: 16. */
static int entry_takes(const House *h, uint64_t nodes, size_t size, uint64_t version) {
    double *temps = lent(HEM_TEMPS * sizeof *temps);
    uint64_t held = 0, count = 0, used = 0, last = 0;
    uint8_t *book = lent(h->head_len + size);
    int good = hem_begin(h->head, h->head_len, book, h->head_len, temps, &held, &count, &used, &last) == 0 && held == nodes;
    good = good && hem_append(h->head, h->head_len, book, h->head_len + size - 1, temps, &held, &count, &used, &last, h->hour,
                              h->hour_len, version, heating_limit, cooling_limit) == HEM_BUFFER_SHORT;
    good = good && hem_append(h->head, h->head_len, book, h->head_len + size, temps, &held, &count, &used, &last, h->hour,
                              h->hour_len, version, heating_limit, cooling_limit) == 0;
    good = good && used == h->head_len + size && count == 1;
    free(book);
    free(temps);
    return good;
}

/* The results of a heated or cooled hour stand in its entry where the header says: they are those of the hour
   step. So do the limits. */
static int results_stand(House *h, uint64_t nodes, size_t n, uint64_t version, int cooled) {
    double temps[HEM_TEMPS] = {0}, before[HEM_TEMPS], out[HEM_OUT], balance[HEM_BALANCE];
    uint64_t held = 0, count = 0, used = 0, last = 0;
    const size_t size = HEM_ENTRY_OF(version, n, nodes);
    uint8_t *book = lent(h->head_len + size);
    const uint8_t *entry = book + h->head_len, *results = entry + HEM_LIMITS_OF(version);
    put_double(h->hour + HEM_CONDITIONS_AT_TEMP_SETPNT_HEAT, cooled ? 5 : 20);
    put_double(h->hour + HEM_CONDITIONS_AT_TEMP_SETPNT_COOL, cooled ? 10 : 26);
    hem_begin(h->head, h->head_len, book, h->head_len, temps, &held, &count, &used, &last);
    memcpy(before, temps, sizeof before);
    memset(out, 0, sizeof out);
    memset(balance, 0, sizeof balance);
    hem_append(h->head, h->head_len, book, h->head_len + size, temps, &held, &count, &used, &last, h->hour, h->hour_len, version,
               heating_limit, cooling_limit);
    int good = hem_hour_step(h->head, h->head_len, before, held, h->hour, h->hour_len, version, heating_limit, cooling_limit, out,
                             balance) == 0;
    good = good && entry[HEM_ENTRY_AT_VERSION] == version && memcmp(entry + HEM_ENTRY_AT_CONDITIONS, h->hour, h->hour_len) == 0;
    good = good && (cooled ? out[HEM_OUT_COOLING] < 0 : out[HEM_OUT_HEATING] > 0);
    good = good && get_double(results + HEM_ENTRY_AT_HEATING(n)) == out[HEM_OUT_HEATING];
    good = good && get_double(results + HEM_ENTRY_AT_COOLING(n)) == out[HEM_OUT_COOLING];
    good = good && out[HEM_OUT_RATE] == 0.5 && get_double(results + HEM_ENTRY_AT_RATE(n)) == out[HEM_OUT_RATE];
    good = good && results[HEM_ENTRY_AT_TRIGGER(n)] == out[HEM_OUT_TRIGGER];
    good = good && get_double(results + HEM_ENTRY_AT_TRIGGER_RATE(n)) == out[HEM_OUT_TRIGGER_RATE];
    for (uint64_t i = 0; i < nodes; i++)
        good = good && get_double(results + HEM_ENTRY_AT_TEMPS(n) + 8 * i) == before[i] && before[i] == temps[i];
    if (version >= HEM_LIMITS_ENTRY_VERSION) {
        good = good && get_double(entry + HEM_ENTRY_AT_HEATING_LIMIT(n)) == heating_limit;
        good = good && get_double(entry + HEM_ENTRY_AT_COOLING_LIMIT(n)) == cooling_limit;
        good = good && balance[HEM_EXT_HEATING_OR_COOLING_SYSTEM_GAINS] == (cooled ? -cooling_limit : heating_limit);
    }
    free(book);
    return good;
}

/* The seven values of the air node add up to zero; the fabric by kind is the fabric by cause; what reaches the inner
   surfaces, all of them upright, does so horizontally. */
static int balances(const House *h, uint64_t nodes) {
    double temps[HEM_TEMPS], out[HEM_OUT], b[HEM_BALANCE], air = 0, cause = 0, kind = 0;
    for (int i = 0; i < HEM_TEMPS; i++) temps[i] = 20;
    memset(out, 0, sizeof out);
    memset(b, 0, sizeof b);
    if (hem_hour_step(h->head, h->head_len, temps, nodes, h->hour, h->hour_len, VERSION, 0, 0, out, b)) return 0;
    for (int i = HEM_AIR_SOLAR_GAINS; i <= HEM_AIR_FABRIC_HEAT_LOSS; i++) air += b[i];
    for (int i = HEM_EXT_FABRIC_EXT_AIR_CONVECTIVE; i <= HEM_EXT_FABRIC_EXT_SKY; i++) cause += b[i];
    for (int i = HEM_EXT_OPAQUE_FABRIC_EXT; i <= HEM_EXT_ZTU_FABRIC_EXT; i++) kind += b[i];
    const int horizontal = b[HEM_INT_FABRIC_INT_AIR_CONVECTIVE_HORIZONTAL] == b[HEM_INT_FABRIC_INT_AIR_CONVECTIVE] &&
                           b[HEM_INT_FABRIC_INT_AIR_CONVECTIVE] != 0 && b[HEM_INT_FABRIC_INT_AIR_CONVECTIVE_UPWARDS] == 0 &&
                           b[HEM_INT_FABRIC_INT_AIR_CONVECTIVE_DOWNWARDS] == 0;
    return horizontal && fabs(air) < 1e-6 && fabs(cause - kind) < 1e-6 && b[HEM_EXT_OPAQUE_FABRIC_EXT] != 0 &&
           b[HEM_EXT_TRANSPARENT_FABRIC_EXT] != 0 && b[HEM_EXT_SOLAR_GAINS] == 100 && b[HEM_EXT_INTERNAL_GAINS] == 300;
}

void test_sizes(void) {
    House largest = house(HEM_ELEMENTS, 0, 0), smallest = house(0, 1, 0), mixed = house(1, 1, 2);
    expect("HEM_HEAD_MOST", largest.head_len == HEM_HEAD_MOST && hem_head(largest.head, largest.head_len) == 0);
    expect("HEM_HEAD_LEAST", smallest.head_len == HEM_HEAD_LEAST && hem_head(smallest.head, smallest.head_len) == 0);
    for (uint64_t version = 1; version <= HEM_NEWEST_ENTRY_VERSION; version++) {
        expect("HEM_ENTRY of 24 elements", entry_takes(&largest, HEM_TEMPS, HEM_ENTRY_OF(version, HEM_ELEMENTS, HEM_TEMPS), version));
        expect("HEM_ENTRY of a window", entry_takes(&smallest, 3, HEM_ENTRY_OF(version, 1, 3), version));
        expect("HEM_ENTRY of a wall and a window", entry_takes(&mixed, 8, HEM_ENTRY_OF(version, 2, 8), version));
        expect("places in an entry of a cooled hour", results_stand(&mixed, 8, 2, version, 1));
        expect("places in an entry of a heated hour", results_stand(&mixed, 8, 2, version, 0));
    }
    expect("places in a balance", balances(&mixed, 8));
    give_back(largest);
    give_back(smallest);
    give_back(mixed);
}
