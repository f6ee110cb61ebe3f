/* The weather of a line: a small file in memory of exactly its size, so that valgrind sees a byte read behind its last. */
#include "hem_zone.h"
#include "test.h"

#include <stdio.h>
#include <stdlib.h>
#include <string.h>

#define HEADERS "LOCATION,\"A, B\"\nDESIGN\n\nGROUND\r\nHOLIDAYS\nCOMMENTS 1,\"x,\nCOMMENTS 2\nDATA PERIODS\n"
#define LINE(dry_bulb, direct, diffuse) "1999,1,1,1,60,?9," dry_bulb ",5,93,101300,0,0,290,33," direct "," diffuse

/* The answer for a line of the text, with the weather in `weather`. */
static uint32_t asked(const char *text, uint64_t line, double *weather) {
    const size_t len = strlen(text);
    uint8_t *file = lent(len);
    memcpy(file, text, len);
    const uint32_t answer = hem_weather(file, len, line, weather);
    if (memcmp(file, text, len) != 0) expect("weather: the file is as it was", 0);
    free(file);
    return answer;
}

/* The line is accepted and has these values, zeros with their signs. */
static void holds(const char *what, const char *text, uint64_t line, double dry_bulb, double direct, double diffuse) {
    double *weather = lent(HEM_WEATHER * sizeof *weather), values[HEM_WEATHER];
    char said[120];
    values[HEM_WEATHER_AT_DRY_BULB] = dry_bulb;
    values[HEM_WEATHER_AT_DIRECT_NORMAL] = direct;
    values[HEM_WEATHER_AT_DIFFUSE_HORIZONTAL] = diffuse;
    snprintf(said, sizeof said, "weather: %s", what);
    expect(said, asked(text, line, weather) == 0 && memcmp(weather, values, sizeof values) == 0);
    free(weather);
}

/* The line is refused with this number and no index, and nothing is written. */
static void refuses(const char *what, const char *text, uint64_t line, uint32_t number) {
    double *weather = lent(HEM_WEATHER * sizeof *weather), *before = lent(HEM_WEATHER * sizeof *before);
    char said[120];
    snprintf(said, sizeof said, "weather refused: %d, %s", (int)number, what);
    expect(said, asked(text, line, weather) == number && memcmp(weather, before, HEM_WEATHER * sizeof *weather) == 0);
    free(before);
    free(weather);
}

static void test_lines(void) {
    const char *two = HEADERS LINE("-3.5", "120", "60.25") "\r\n" LINE("21", "0", "-0") ",17,18\n";
    holds("line 1, which ends with CR LF", two, 1, -3.5, 120, 60.25);
    holds("line 2, which has more fields", two, 2, 21, 0, -0.0);
    holds("a line at the end of the file", HEADERS LINE("0.1", "2000", "0.3"), 1, 0.1, 2000, 0.3);
    holds("a line behind eight empty ones", "\n\n\n\n\n\n\n\n" LINE("-100", "1", "2") "\n", 1, -100, 1, 2);
    refuses("line 0", two, 0, HEM_WEATHER_ABSENT);
    refuses("line 3 of 2", two, 3, HEM_WEATHER_ABSENT);
    refuses("the greatest line", two, UINT64_MAX, HEM_WEATHER_ABSENT);
    refuses("no bytes", "", 1, HEM_WEATHER_ABSENT);
    refuses("headers alone", HEADERS, 1, HEM_WEATHER_ABSENT);
    refuses("seven headers", "\n\n\n\n\n\n\n" LINE("1", "2", "3"), 1, HEM_WEATHER_ABSENT);
}

static void test_fields(void) {
    refuses("fifteen fields", HEADERS "1,2,3,4,5,6,x,8,9,10,11,12,13,14,15\n", 1, HEM_WEATHER_ABSENT);
    refuses("an empty field", HEADERS LINE("1", "2", ""), 1, HEM_WEATHER_INVALID);
    refuses("a CR without LF", HEADERS LINE("1", "2", "3\r"), 1, HEM_WEATHER_INVALID);
    refuses("a blank", HEADERS LINE(" 1", "2", "3"), 1, HEM_WEATHER_INVALID);
    refuses("a plus", HEADERS LINE("1", "+2", "3"), 1, HEM_WEATHER_INVALID);
    refuses("a point at the end", HEADERS LINE("1", "2", "3."), 1, HEM_WEATHER_INVALID);
    refuses("thirteen digits", HEADERS LINE("1", "2.000000000000", "3"), 1, HEM_WEATHER_INVALID);
    holds("twelve digits", HEADERS LINE("1", "2.00000000000", "0000000003.5"), 1, 1, 2, 3.5);
    refuses("above 100", HEADERS LINE("100.000000001", "2", "3"), 1, HEM_WEATHER_INVALID);
    refuses("below 0", HEADERS LINE("1", "2", "-0.00000000001"), 1, HEM_WEATHER_INVALID);
    refuses("99.9", HEADERS LINE("099.90", "x", "3"), 1, HEM_WEATHER_MISSING);
    refuses("9999", HEADERS LINE("1", "9999", "x"), 1, HEM_WEATHER_MISSING);
    refuses("a field before one that is missing", HEADERS LINE("1", "2000.5", "9999"), 1, HEM_WEATHER_INVALID);
    holds("values that are missing in the other field", HEADERS LINE("-99.9", "99.9", "99.9"), 1, -99.9, 99.9, 99.9);
}

void test_weather(void) {
    test_lines();
    test_fields();
}
