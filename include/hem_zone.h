/*
 * Vaddrulis: the zone calculation of the Home Energy Model as a library (libhem_zone).
 *
 * Bytes. A zone is given as the bytes of its head, an hour as the bytes of its conditions, a year as
 * the bytes of a book: a head followed by one entry for each hour. Sizes, places, names and units stand
 * below; docs/SPECIFICATION.md has the same as tables, with the ranges. Integers are big-endian, a float is its
 * big-endian 64-bit pattern. Weather is given as the bytes of an EnergyPlus weather file, which is text.
 *
 * Answers. Each function returns 0 when the call is accepted. Otherwise it returns
 * number + 256 * index (HEM_NUMBER and HEM_INDEX take them apart), and then NOTHING has been written:
 * temperatures, counts, versions, buffers and results are as they were before the call.
 *
 * What the caller owes:
 *  - Every pointer leads to as many bytes or doubles as stand beside it. None is null, also where the
 *    length is 0; those to double and uint64_t are aligned as the machine asks for.
 *  - Everything lent has been initialised, also what the call only writes.
 *  - What a call writes overlaps nothing else that the call is given.
 *  - The calling thread rounds to nearest, and denormal numbers are on (MXCSR: rounding 00, FTZ and DAZ
 *    0), as the C standard has it at the start. In another environment the values are others; a library
 *    built with -ffast-math can change it unasked.
 *  - Floating-point exceptions are masked in the calling thread (MXCSR bits 7 to 12 are 1), as at the start
 *    of a C program. A head with `h_pli` 1e-310 is in range and overflows in 1 / h_pli: in a process that
 *    unmasks overflow (feenableexcept, gfortran's -ffpe-trap) that is a SIGFPE, which kills it.
 *  - The calling thread has HEM_STACK bytes of stack left.
 * Nothing else is owed: every byte string, every number and every float, NaN too, is taken.
 *
 * The processor. The code is compiled for x86-64-v2: x86-64 with SSE4.2 and POPCNT, and what comes with
 * these (SSE3, SSSE3, SSE4.1, CMPXCHG16B, LAHF), as most processors have had it since 2009. A call may set the
 * sticky exception flags of the calling thread (MXCSR bits 0 to 5); it reads and clears none.
 *
 * Ownership. The caller owns every array. The library keeps no pointer after a call, allocates
 * nothing and has no state of its own, so calls on different arrays may run at the same time.
 *
 * `temps` is always an array of HEM_TEMPS, of which the first `nodes` count: element by element from the
 * outer to the inner surface, then the air; degrees Celsius. A five-node element has 5, a transparent one
 * 2. The places behind them are not looked at, and a call that writes `temps` writes 0.0 there.
 *
 * examples/year.c runs a year; `cc year.c $(pkg-config --cflags --libs hem_zone)` builds it once
 * host/install has put the library in its place.
 */
#ifndef HEM_ZONE_H
#define HEM_ZONE_H

#include <stddef.h>
#include <stdint.h>

#ifdef __cplusplus
extern "C" {
#endif

/* The version of this interface: 10000 * major + 100 * minor + patch, and as text. */
#define HEM_ZONE_VERSION 800
#define HEM_ZONE_VERSION_TEXT "0.8.0"
/* The version byte of heads. */
#define HEM_FORMAT 1
/* The newest version of entries; hours have 1 to this one. It says how the power that heating or cooling
   delivers is shared between the air and the surfaces, and whether the plant has a limit. Version 1: by the
   convective fraction of heating, always. Version 2: a power below 0 by the convective fraction of
   cooling, any other by that of heating. Version 3: as 2, but a power above `heating_limit` becomes
   `heating_limit`, and one below -`cooling_limit` becomes -`cooling_limit`. The demand is not cut. */
#define HEM_NEWEST_ENTRY_VERSION 3
/* The first version of entries that has limits, and the greatest limit, W: for a side of the plant that is
   not to be limited (a limit of 0 delivers nothing). */
#define HEM_LIMITS_ENTRY_VERSION 3
#define HEM_LIMIT_MOST 1e7

/* The stack, in bytes, that suffices for every call (39 KB were measured, by a take-up and
   the calls that begin with one; bench/stack). */
#define HEM_STACK 49152

/* ---- sizes of arrays ---- */

/* The most elements of a zone. */
#define HEM_ELEMENTS 24
/* The most node temperatures that a zone has: 24 elements of 5 nodes, and the air. */
#define HEM_TEMPS 121
/* The most entries that a book holds: the hours of a leap year. */
#define HEM_ENTRIES 8784
/* The values of a demand. */
#define HEM_OUT 5
/* The values of a heat balance: air node 7, internal boundary 4 + 3, external boundary 14. */
#define HEM_BALANCE 28
/* The values of a line of a weather file. */
#define HEM_WEATHER 3

/* ---- sizes in bytes ---- */

/* The shortest and the longest head, its 4-byte length included. */
#define HEM_HEAD_LEAST 180
#define HEM_HEAD_MOST 4161
/* An element in a head: of five nodes, and a transparent one with t treatments (0 to 4). */
#define HEM_HEAD_ELEMENT 171
#define HEM_HEAD_TRANSPARENT(t) (123 + 8 * (t))
/* An element's part of the conditions of an hour, and the conditions for n elements. */
#define HEM_ELEMENT_HOUR 41
#define HEM_CONDITIONS(n) (113 + HEM_ELEMENT_HOUR * (n))
/* The two limits of an hour that has them, and the bytes that limits take in an entry of a version. */
#define HEM_LIMITS 16
#define HEM_LIMITS_OF(version) ((version) < HEM_LIMITS_ENTRY_VERSION ? 0 : HEM_LIMITS)
/* An entry, its 4-byte length included, for n elements and `nodes` node temperatures: of versions 1 and 2,
   and of a version. Room for a year of any version: the head, and HEM_ENTRIES entries of the newest. */
#define HEM_ENTRY(n, nodes) (38 + HEM_CONDITIONS(n) + 8 * (nodes))
#define HEM_ENTRY_OF(version, n, nodes) (HEM_ENTRY(n, nodes) + HEM_LIMITS_OF(version))

/* ---- answers ---- */

/* The number of a refusal, 1 to 24, and its index: for 4, 5 and 9 the element from 1 (0 if none), for 18
   at a take-up, a question or a conversion the entry from 0, at an append the count held, at an hour step
   0; otherwise 0. */
#define HEM_NUMBER(answer) ((answer) & 255u)
#define HEM_INDEX(answer) ((answer) >> 8)
/* What is written in place of an hour where there is none. */
#define HEM_NONE UINT64_MAX

enum hem_number {
    HEM_ACCEPTED = 0,
    HEM_HEAD_SHORT = 1,                 /* the bytes of the head end early */
    HEM_HEAD_LENGTH = 2,                /* the head's length is outside 176 to 4,157, or is not that of its elements */
    HEM_HEAD_VERSION = 3,               /* the head's version is not 1 */
    HEM_STRUCTURE = 4,                  /* a basis, element count, kind or treatment count is bad */
    HEM_ZONE_VALUE = 5,                 /* a value of the head is out of range, or an open bit past the treatments */
    HEM_STATE_INVALID = 6,              /* the state has a wrong node count, or a temperature that is not finite or
                                           beyond +-1e6 */
    HEM_CONDITIONS_SIZE = 7,            /* the conditions have a wrong size */
    HEM_CONDITIONS_CODE = 8,            /* the rate code, which is bad as 0 too but to hem_why and in a book's entry;
                                           there the second rate of code 0; or an open bit */
    HEM_CONDITIONS_VALUE = 9,           /* a value of the conditions, or an update's own gains, fraction or rate, is
                                           out of range */
    HEM_COOLING_BELOW_HEATING = 10,     /* the cooling setpoint is below the heating setpoint */
    HEM_VENTILATION_BELOW_HEATING = 11, /* the ventilation setpoint is below the heating setpoint */
    HEM_DIVISOR = 12,                   /* a divisor of the solution is zero or not finite */
    HEM_TEMPERATURE = 13,               /* a node temperature is not finite or beyond +-1e6 */
    HEM_NO_EFFECT = 14,                 /* heating or cooling would not change the temperature */
    HEM_NOT_SETTLED = 15,               /* start-up did not settle within the head's limit of passes */
    HEM_BUFFER_SHORT = 16,              /* the buffer, or the output of a conversion, is too short */
    HEM_BOOK_FULL = 17,                 /* the book would hold more than 8,784 entries */
    HEM_FALSE_ENTRY = 18,               /* an entry is false: it is not what the hour step gives; or a version that no
                                           hour has, or that is below the last entry's */
    HEM_LIMIT_VALUE = 19,               /* a limit of version 3 is out of range: 0 to 1e7 W */
    HEM_QUESTION_VALUE = 20,            /* a value of a question is not finite or beyond +-1e6, or the lower end of a
                                           band is above its upper */
    HEM_WEATHER_ABSENT = 21,            /* the line of a weather file is absent, or one of its first 16 fields */
    HEM_WEATHER_INVALID = 22,           /* a value of a weather file is not a decimal, has more than 12 digits or is
                                           out of range */
    HEM_WEATHER_MISSING = 23,           /* a value of a weather file is missing */
    HEM_VERSION_1_ENTRY = 24            /* a book that is to be converted has an entry of version 1 */
};

/* ---- places in a head, from its first byte; floats have 8 bytes ---- */

enum hem_head_at {
    HEM_HEAD_AT_LENGTH = 0,                 /* 4 bytes: the length of what follows, 176 to 4,157 */
    HEM_HEAD_AT_VERSION = 4,                /* 1 byte: HEM_FORMAT */
    HEM_HEAD_AT_BASIS = 5,                  /* 1 byte: 0 setpoints are of the air, 1 of the operative temperature */
    HEM_HEAD_AT_COUNT = 6,                  /* 1 byte: n elements, 1 to 24 */
    HEM_HEAD_AT_LIMIT = 7,                  /* 2 bytes: the passes that start-up may use, 1 to 10,000 */
    HEM_HEAD_AT_USEFUL_AREA = 9,            /* useful floor area, m2 */
    HEM_HEAD_AT_VOLUME = 17,                /* volume, m3 */
    HEM_HEAD_AT_TB_HEAT_TRANS_COEFF = 25,   /* sum of the thermal bridges, W/K */
    HEM_HEAD_AT_TEMP_EXT_AIR_INIT = 33,     /* external temperature of start-up, deg C */
    HEM_HEAD_AT_TEMP_SETPNT_INIT = 41,      /* set temperature of start-up, deg C */
    HEM_HEAD_AT_TEMP_SETPNT_VENT_INIT = 49, /* ventilation setpoint of start-up, deg C (1.4e32: no control) */
    HEM_HEAD_AT_ELEMENTS = 57               /* the elements, one behind the other */
};

/* From the first byte of an element. A transparent one has 2 k_pli and 1 h_pli, the others 5 and 4. */
enum hem_element_at {
    HEM_ELEMENT_AT_KIND = 0,                    /* 1 byte: enum hem_kind */
    HEM_ELEMENT_AT_TREATMENTS = 1,              /* 1 byte: window treatments t, 0 to 4; 0 unless transparent */
    HEM_ELEMENT_AT_AREA = 2,                    /* area, m2 */
    HEM_ELEMENT_AT_PITCH = 10,                  /* tilt, degrees: 0 faces up (roof), 90 a wall, 180 faces down (floor) */
    HEM_ELEMENT_AT_H_CE = 18,                   /* external convective coefficient, W/(m2.K) */
    HEM_ELEMENT_AT_H_RE = 26,                   /* external radiative coefficient, W/(m2.K) */
    HEM_ELEMENT_AT_H_RI = 34,                   /* internal radiative coefficient, W/(m2.K) */
    HEM_ELEMENT_AT_SOLAR_ABSORPTION_COEFF = 42, /* share of the irradiance that the outer surface absorbs, 0 to 1 */
    HEM_ELEMENT_AT_THERM_RAD_TO_SKY = 50,       /* thermal radiation to the sky, W/m2 */
    HEM_ELEMENT_AT_K_PLI = 58,                  /* heat capacity of each node, J/(m2.K), from the outer surface on */
    HEM_ELEMENT_AT_H_PLI = 98,                  /* conductance between neighbouring nodes, W/(m2.K) */
    HEM_ELEMENT_AT_FIRST_HOUR = 130             /* its part of the first hour: enum hem_element_hour_at */
};
enum hem_transparent_at {
    HEM_TRANSPARENT_AT_H_PLI = 74,
    HEM_TRANSPARENT_AT_DELTA_R = 82 /* t floats: what each treatment adds while it is closed, m2.K/W */
};
#define HEM_TRANSPARENT_AT_FIRST_HOUR(t) (82 + 8 * (t))

enum hem_kind {
    HEM_OPAQUE = 0,                 /* a wall, roof or door to the outside */
    HEM_ADJACENT_CONDITIONED = 1,   /* next to a space that is heated or cooled too */
    HEM_ADJACENT_UNCONDITIONED = 2, /* next to a space that is not, as a garage */
    HEM_GROUND = 3,                 /* a floor on the ground */
    HEM_TRANSPARENT = 4,            /* a window or glazed door */
    HEM_PARTY_WALL = 5              /* a wall shared with a neighbour */
};

/* ---- places in the conditions of an hour ---- */

enum hem_conditions_at {
    HEM_CONDITIONS_AT_DELTA_T_H = 0,                   /* length, hours */
    HEM_CONDITIONS_AT_TEMP_EXT_AIR = 8,                /* external air temperature, deg C */
    HEM_CONDITIONS_AT_GAINS_INTERNAL = 16,             /* internal gains, W */
    HEM_CONDITIONS_AT_GAINS_SOLAR = 24,                /* solar gains through the windows, W */
    HEM_CONDITIONS_AT_FRAC_CONVECTIVE_HEAT = 32,       /* convective fraction of heating, 0 to 1 */
    HEM_CONDITIONS_AT_FRAC_CONVECTIVE_COOL = 40,       /* convective fraction of cooling, 0 to 1 */
    HEM_CONDITIONS_AT_TEMP_SETPNT_HEAT = 48,           /* heating setpoint, deg C */
    HEM_CONDITIONS_AT_TEMP_SETPNT_COOL = 56,           /* cooling setpoint, deg C */
    HEM_CONDITIONS_AT_TEMP_SETPNT_COOL_VENT = 64,      /* windows open above this, deg C (1.4e32: no control) */
    HEM_CONDITIONS_AT_AVG_AIR_SUPPLY_TEMP = 72,        /* temperature of the supplied air, deg C */
    HEM_CONDITIONS_AT_GAINS_HEAT_COOL_CONVECTIVE = 80, /* convective gains from heating or cooling that is on in any
                                                          case, W */
    HEM_CONDITIONS_AT_GAINS_HEAT_COOL_RADIATIVE = 88,  /* its radiative gains, W */
    HEM_CONDITIONS_AT_RATE_CODE = 96,                  /* 1 byte: 1. In older entries also 0, one fixed rate: retired */
    HEM_CONDITIONS_AT_RATES = 97,                      /* target and windows-open rate, equal where there is no choice;
                                                          of code 0 the rate and 8 zero bytes; air changes per hour */
    HEM_CONDITIONS_AT_ELEMENTS = 113                   /* each element's part, in the order of the head */
};

enum hem_element_hour_at {
    HEM_ELEMENT_HOUR_AT_TEMP_EXT = 0,   /* temperature on the outer side, deg C */
    HEM_ELEMENT_HOUR_AT_I_SOL_DIR = 8,  /* direct irradiance on the element's surface, W/m2 */
    HEM_ELEMENT_HOUR_AT_I_SOL_DIF = 16, /* diffuse irradiance on the element's surface, W/m2 */
    HEM_ELEMENT_HOUR_AT_F_SH_DIR = 24,  /* shading factor of the direct part, 0 to 1 (1 is unshaded) */
    HEM_ELEMENT_HOUR_AT_F_SH_DIF = 32,  /* shading factor of the diffuse part, 0 to 1 */
    HEM_ELEMENT_HOUR_AT_OPEN = 40       /* 1 byte: bit j, the least significant first, means treatment j is open */
};

/* ---- places in an entry; behind the conditions they depend on the n elements ---- */

enum hem_entry_at {
    HEM_ENTRY_AT_LENGTH = 0,    /* 4 bytes: the length of what follows; of version 3 HEM_LIMITS more */
    HEM_ENTRY_AT_VERSION = 4,   /* 1 byte: 1 to HEM_NEWEST_ENTRY_VERSION */
    HEM_ENTRY_AT_CONDITIONS = 5
};
/* Of versions 1 and 2; of any version each stands HEM_LIMITS_OF(version) further on. */
#define HEM_ENTRY_AT_HEATING(n) (5 + HEM_CONDITIONS(n))       /* kWh, at least 0 */
#define HEM_ENTRY_AT_COOLING(n) (13 + HEM_CONDITIONS(n))      /* kWh, at most 0 */
#define HEM_ENTRY_AT_RATE(n) (21 + HEM_CONDITIONS(n))         /* the chosen rate, air changes per hour */
#define HEM_ENTRY_AT_TRIGGER(n) (29 + HEM_CONDITIONS(n))      /* 1 byte: 1 where there is a trigger rate */
#define HEM_ENTRY_AT_TRIGGER_RATE(n) (30 + HEM_CONDITIONS(n)) /* per hour; zero bits where there is none */
#define HEM_ENTRY_AT_TEMPS(n) (38 + HEM_CONDITIONS(n))        /* node temperatures after the hour, deg C */
/* Of version 3, between the conditions and heating: */
#define HEM_ENTRY_AT_HEATING_LIMIT(n) (5 + HEM_CONDITIONS(n))  /* greatest heating, W */
#define HEM_ENTRY_AT_COOLING_LIMIT(n) (13 + HEM_CONDITIONS(n)) /* greatest cooling, W, at least 0 */

/* ---- places in `out`, `balance` and `weather` ---- */

enum hem_out {
    HEM_OUT_HEATING = 0,     /* kWh, at least 0 */
    HEM_OUT_COOLING = 1,     /* kWh, at most 0 */
    HEM_OUT_RATE = 2,        /* the chosen rate, air changes per hour */
    HEM_OUT_TRIGGER = 3,     /* 1.0 where target and windows open differ, else 0.0 */
    HEM_OUT_TRIGGER_RATE = 4 /* the rate found for the heating setpoint, per hour; 0.0 where they are equal */
};

/* All in W; heat that enters is positive. */
enum hem_balance {
    /* at the air node: the seven add up to zero, but for rounding */
    HEM_AIR_SOLAR_GAINS = 0,
    HEM_AIR_INTERNAL_GAINS = 1,
    HEM_AIR_HEATING_OR_COOLING_SYSTEM_GAINS = 2,
    HEM_AIR_ENERGY_TO_CHANGE_INTERNAL_TEMPERATURE = 3,
    HEM_AIR_THERMAL_BRIDGES = 4,
    HEM_AIR_INFILTRATION_VENTILATION = 5,
    HEM_AIR_FABRIC_HEAT_LOSS = 6,
    /* into the inner surfaces */
    HEM_INT_FABRIC_INT_AIR_CONVECTIVE = 7,
    HEM_INT_FABRIC_INT_SOL = 8,
    HEM_INT_FABRIC_INT_INT_GAINS = 9,
    HEM_INT_FABRIC_INT_HEAT_COOL = 10,
    /* the terms of HEM_INT_FABRIC_INT_AIR_CONVECTIVE, one for each element, by the direction in which heat
       flowed at its inner surface before the step: horizontal at pitches of 60 to 120 degrees; upwards at a
       ceiling (below 60) unless the air was colder than the surface, at a floor (above 120) only if it was;
       else downwards */
    HEM_INT_FABRIC_INT_AIR_CONVECTIVE_HORIZONTAL = 11,
    HEM_INT_FABRIC_INT_AIR_CONVECTIVE_UPWARDS = 12,
    HEM_INT_FABRIC_INT_AIR_CONVECTIVE_DOWNWARDS = 13,
    /* across the zone's outer boundary */
    HEM_EXT_SOLAR_GAINS = 14,
    HEM_EXT_INTERNAL_GAINS = 15,
    HEM_EXT_HEATING_OR_COOLING_SYSTEM_GAINS = 16,
    HEM_EXT_THERMAL_BRIDGES = 17,
    HEM_EXT_INFILTRATION_VENTILATION = 18,
    HEM_EXT_FABRIC_EXT_AIR_CONVECTIVE = 19,
    HEM_EXT_FABRIC_EXT_AIR_RADIATIVE = 20,
    HEM_EXT_FABRIC_EXT_SOL = 21,
    HEM_EXT_FABRIC_EXT_SKY = 22,
    /* the same four sums once more, by kind of element (ztc: adjacent conditioned space; ztu: adjacent
       unconditioned space and party walls) */
    HEM_EXT_OPAQUE_FABRIC_EXT = 23,
    HEM_EXT_TRANSPARENT_FABRIC_EXT = 24,
    HEM_EXT_GROUND_FABRIC_EXT = 25,
    HEM_EXT_ZTC_FABRIC_EXT = 26,
    HEM_EXT_ZTU_FABRIC_EXT = 27
};

enum hem_weather_at {
    HEM_WEATHER_AT_DRY_BULB = 0,          /* field 7: dry bulb temperature, deg C */
    HEM_WEATHER_AT_DIRECT_NORMAL = 1,     /* field 15: direct normal radiation, Wh/m2 of the hour: its mean in W/m2 */
    HEM_WEATHER_AT_DIFFUSE_HORIZONTAL = 2 /* field 16: diffuse horizontal radiation, likewise */
};

/* ---- what hem_why answers ---- */

/* Why an hour's demand has its rate: the earliest of these that holds. Temperatures are those at the end of
   the hour without its demand, of the air or operative by the head's basis: the free temperature at the
   target rate, with windows open at the windows-open rate. The free air is the air at the target rate,
   whatever the basis. The rate found is the one that is to bring the zone to its ventilation setpoint. It is
   the chosen rate where windows are enough; at every other reason the target or fixed rate is. */
enum hem_reason {
    HEM_WHY_NO_CHOICE = 1,                      /* there is no choice of rates: both are equal, or code 0 */
    HEM_WHY_NOT_ABOVE_VENTILATION_SETPOINT = 2, /* the free temperature is not above the ventilation setpoint */
    HEM_WHY_NOT_ABOVE_SUPPLY = 3,               /* the free air is not above the supplied air */
    HEM_WHY_WINDOWS_DO_NOT_COOL = 4,            /* windows open would not lower the free temperature, as where the
                                                   target rate is the higher of the two */
    HEM_WHY_STILL_ABOVE_COOLING_SETPOINT = 5,   /* with the rate found it is still above the cooling setpoint, and
                                                   not close to it by the windows test: not within 1e-8, nor
                                                   within 1e-10 of the larger magnitude */
    HEM_WHY_WINDOWS_ENOUGH = 6                  /* windows are enough */
};

/* Heating, cooling or neither, by the hour's demand. An hour may be cooled although windows are enough, and be
   neither although it is still above the cooling setpoint: the demand has another closeness to its setpoint
   (within 1e-10, or within 1e-9 of the larger magnitude). */
enum hem_load {
    HEM_LOAD_NEITHER = 0,
    HEM_LOAD_HEATING = 1, /* the demand's heating is above 0 */
    HEM_LOAD_COOLING = 2  /* its cooling is below 0 */
};

/* ---- functions ---- */

/* The fixed rate, code 0, is retired: hem_demand, hem_update, hem_hour_step and hem_append refuse conditions with
   it, with 8 in its place. Code 1 with target and windows open both that rate is the same hour: there is no
   choice of rates and no trigger rate, and every value has the same bits. hem_why still answers for code 0, and
   an entry with it is still taken up, of every version, where it is what the hour step would give without this
   refusal; an hour that a cut has lost is not appended again with it. hem_convert writes the hours of a whole
   book anew. */

/* Tests a head. Bytes after the head's own length are not looked at. Refused with 1 to 5. */
uint32_t hem_head(const uint8_t *head, size_t head_len);

/* Start-up: the settled node temperatures before the first hour. Writes `temps` and `*nodes`.
   Refused with 1 to 5 and 11 to 15. */
uint32_t hem_start_up(const uint8_t *head, size_t head_len, double temps[HEM_TEMPS], uint64_t *nodes);

/* The demand of one hour from the node temperatures before it. Writes `out`; the temperatures stay.
   Refused with 1 to 14, code 0 with 8. */
uint32_t hem_demand(const uint8_t *head, size_t head_len, const double temps[HEM_TEMPS], uint64_t nodes,
                    const uint8_t *cond, size_t cond_len, double out[HEM_OUT]);

/* Why that hour's demand has its rate, and its load: writes one of enum hem_reason to `*reason` and one of
   enum hem_load to `*load`; the temperatures stay. It is given what hem_demand is given, and refuses what
   that refuses with the same answer: 1 to 14. Only code 0, whose second rate is 8 zero bytes, is taken: its
   answer is that of code 1 with the rate twice. */
uint32_t hem_why(const uint8_t *head, size_t head_len, const double temps[HEM_TEMPS], uint64_t nodes,
                 const uint8_t *cond, size_t cond_len, uint64_t *reason, uint64_t *load);

/* The temperatures after one hour in which heating or cooling gives `gains` watts, of which `fraction`
   goes to the air, at `rate` air changes per hour. Replaces `temps`, writes `balance`.
   Refused with 1 to 9, 12 and 13; code 0 with 8, although no rate of the conditions counts. */
uint32_t hem_update(const uint8_t *head, size_t head_len, double temps[HEM_TEMPS], uint64_t nodes,
                    const uint8_t *cond, size_t cond_len, double gains, double fraction, double rate,
                    double balance[HEM_BALANCE]);

/* One hour: its demand, and the temperatures after that demand was met, by the rule of an entry version
   (1 to HEM_NEWEST_ENTRY_VERSION; every number is taken, so 257 is not 1). `heating_limit` and
   `cooling_limit` are the greatest powers of the plant in watts, 0 to 1e7 each; before version 3 they are
   not looked at, and may be any doubles. Replaces `temps`, writes `out`, which no limit cuts, and
   `balance`.
   Refused with 1 to 5, 18 for a version that no hour has, then 6 to 9, code 0 with 8, 19 for a limit out of
   range, 10 to 14. */
uint32_t hem_hour_step(const uint8_t *head, size_t head_len, double temps[HEM_TEMPS], uint64_t nodes,
                       const uint8_t *cond, size_t cond_len, uint64_t version, double heating_limit,
                       double cooling_limit, double out[HEM_OUT], double balance[HEM_BALANCE]);

/* The operative temperature of node temperatures, deg C: the mean of the air and of the inner surfaces
   weighted by area. Writes `*operative`. Refused with 1 to 6. */
uint32_t hem_operative(const uint8_t *head, size_t head_len, const double temps[HEM_TEMPS], uint64_t nodes,
                       double *operative);

/* `*last_version` is the version of a book's last entry, 1 where there is none. */

/* Begins a book: writes the head to the first bytes of `buf`, its start-up to `temps` and `*nodes`,
   0 to `*count`, the number of bytes written to `*used` and 1 to `*last_version`. Bytes of `buf` after
   them stay. Refused with 1 to 5, 11 to 15, and 16 if `buf` cannot hold the head. */
uint32_t hem_begin(const uint8_t *head, size_t head_len, uint8_t *buf, size_t buf_len,
                   double temps[HEM_TEMPS], uint64_t *nodes, uint64_t *count, uint64_t *used,
                   uint64_t *last_version);

/* Appends the entry of one hour at `buf + *used`, by the rule of `version` and with it as version byte.
   `buf`, `temps`, `*nodes`, `*count`, `*used` and `*last_version` are those that the last call on this
   book left, and are moved on; `head` is the book's own head (it may not be a part of `buf`). The limits
   are as in hem_hour_step; in version 3 they stand in the entry. A book's versions may rise, never fall.
   Refused with 1 to 5, 17 if 8,784 entries are held, 18 for a version that no hour has or one below
   `*last_version`, then 6 to 9, code 0 with 8, 19, 10 to 14, and last 16 if `buf` cannot hold the entry,
   which is longer in version 3. */
uint32_t hem_append(const uint8_t *head, size_t head_len, uint8_t *buf, size_t buf_len,
                    double temps[HEM_TEMPS], uint64_t *nodes, uint64_t *count, uint64_t *used,
                    uint64_t *last_version, const uint8_t *cond, size_t cond_len, uint64_t version,
                    double heating_limit, double cooling_limit);

/* Takes up the bytes of a book: each whole entry is calculated again, by the rule of its own version, and
   must be the same bytes. (A changed condition, limit or version that has no effect in its hour gives
   another true book.) Entries with code 0 are taken up too. Writes the temperatures after the last whole
   entry (start-up's if there is none) and their number, the number of entries, the number of bytes that
   they and the head take, and the version of the last entry. Behind them a rest of fewer than 5 bytes, or
   one shorter than its version byte calls for, is an entry that was not written to its end; a rest of 5
   bytes or more with a version byte that no hour has counts as an entry, a false one. Refused with 1 to 5,
   11 to 15, 17 at the 8,785th entry and 18 at the first false one, such as one whose version is below that
   of the entry before it. */
uint32_t hem_take_up(const uint8_t *bytes, size_t bytes_len, double temps[HEM_TEMPS], uint64_t *nodes,
                     uint64_t *count, uint64_t *used, uint64_t *last_version);

/* Questions about the hours of a book. Each takes up the bytes of the book as hem_take_up does, refuses what
   that refuses, and then, also where the book holds no hour, with 20 a value that is not finite or beyond
   +-1e6. Hours are numbered from 0; what is left behind the last whole entry is none. An hour's temperature
   is the operative temperature after it, deg C, whatever the setpoints are of. */

/* The first hour at which the temperature goes from at or below `value` to above it: the one before the
   hour is at most `value`, its own is greater. Before hour 0 stands start-up's. Writes the hour, or
   HEM_NONE where there is none, as in a book that is always above. */
uint32_t hem_first_above(const uint8_t *bytes, size_t bytes_len, double value, uint64_t *hour);

/* How many hours have a temperature from `lower` to `upper`, both included; start-up is no hour. Writes the
   number, 0 where the book holds no hour. Refused with 20 also where `lower` is above `upper`. */
uint32_t hem_hours_within(const uint8_t *bytes, size_t bytes_len, double lower, double upper,
                          uint64_t *hours);

/* The hour whose temperature is nearest to `value`: the magnitude of their difference, rounded once, is the
   least; of equal ones the earlier hour. Writes the hour, or HEM_NONE where the book holds none. */
uint32_t hem_nearest_hour(const uint8_t *bytes, size_t bytes_len, double value, uint64_t *hour);

/* Writes a book anew without code 0: takes up its bytes as hem_take_up does and writes to the first bytes of `out`
   the head and every entry with the same bits, but in those with code 0 the code 1, and the rate's own bits as
   second rate too. Demands, temperatures and chosen rates are the same bits, for this is what hem_append gives for
   the new conditions. Writes the number of entries and the number of bytes that they and the head take, which are
   those of the book. A book without entries is converted too; converting again changes nothing. Bytes of `out`
   behind them stay, and what is left behind the last whole entry is not converted.
   Refused with what hem_take_up refuses; then with 24 if an entry is of version 1, whatever its code; then with 16
   if `out` cannot hold the bytes. `bytes_len` bytes are enough. */
uint32_t hem_convert(const uint8_t *bytes, size_t bytes_len, uint8_t *out, size_t out_len, uint64_t *count,
                     uint64_t *used);

/* The weather of one line of an EnergyPlus weather file, counted from 1 after the eight header lines, which are
   not looked at. `file` is the file's bytes: lines that end with LF or CR LF, the last also at the end of the
   file, and in a line fields between commas. A decimal is a minus or none, digits, and perhaps a point with
   digits after it; it becomes the nearest double, ties to even, and a minus stays on a zero. Writes `weather`.
   Refused with 21 where the line, as line 0, or one of its first 16 fields is absent; then the fields are tested
   one by one in the order of the file: 22 for one that is not a decimal (as one with a blank, a plus or an
   exponent) or has more than 12 digits, leading zeros included; 23 for a missing value, a temperature of 99.9 or
   a radiation of 9999; 22 for a temperature outside +-100 or a radiation outside 0 to 2,000.
   A call reads the file from its start to the line. For every line of a year, hand over a file of eight LF and
   the one line, with its LF if it has one, and ask for line 1: the answer is the same. */
uint32_t hem_weather(const uint8_t *file, size_t file_len, uint64_t line, double weather[HEM_WEATHER]);

#ifdef __cplusplus
}
#endif

#endif
