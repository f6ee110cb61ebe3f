/* What the parts of the C test share. */
#ifndef TEST_H
#define TEST_H

#include <stddef.h>
#include <stdint.h>

/* The version of entries, where one will do. */
#define VERSION 2

extern int failures;

/* Prints what was looked at and counts it where it does not hold. */
void expect(const char *what, int holds);
/* Memory of exactly this size, filled with 0xA5. */
void *lent(size_t size);
/* Floats as big-endian patterns; both give the place behind them. */
uint8_t *put_double(uint8_t *at, double value);
uint8_t *put_doubles(uint8_t *at, const double *values, size_t count);
double get_double(const uint8_t *at);

/* A house of walls, then one window with treatments where one is asked for, and an hour of it. */
typedef struct {
    size_t walls, treatments, head_len, hour_len;
    uint8_t *head, *hour;
} House;

House house(size_t walls, int window, size_t treatments);
void give_back(House h);

/* The sizes and places of hem_zone.h, as the engine has them; the stack that it says is enough. */
void test_sizes(void);
void test_places(void);
void test_stack(void);
/* The convective heat to the inner surfaces by direction. */
void test_convection(void);
/* Why an hour has its rate and its load. */
void test_why(void);
/* The weather of a line of a file. */
void test_weather(void);
/* The fixed rate and the converter. */
void test_convert(void);

#endif
