/* fms.h: the FM channel-spacing desk under 47 CFR 73.207 and 73.215(e), for C and C++. Link with libfms.a (x86-64).

   Every question gets an answer in one 64-bit number. Its high half is the refusal's number, 0 where the question was
   granted. Its low half is then the count written, in bytes for an image and in 32-bit numbers for a list, or the count
   of stations (fms_read), or the distance in km (fms_distance), or the byte of the table at which the blocking station
   begins, 0 for clear (fms_reason); with a refusal it is that refusal's extra number. fms_number and fms_value take an
   answer apart. fms_limit alone asks nothing that can be refused, and gives its number whole.

   What callers owe, since C cannot be asked to prove it:
   - a pointer is not null, is aligned for what it points to, and is good for its length: that many elements may be read,
     of an image or rows also written. This holds for a length of 0 too, where nothing is read or written. A reason has
     no length of its own: it is good for four numbers, whatever the answer will be;
   - a length counts elements: bytes of a table or an image, 32-bit numbers of rows;
   - the table and the buffer for the answer (image, rows or reason) do not overlap, and nobody else writes either during
     the call.
   Nothing is owed of the numbers: every table, channel, class, zone, id, standard and coordinate gets its decision.

   What callers get:
   - a refusal writes nothing, nor does fms_reason for clear; any other granted answer stands from the buffer's start, and
     the places after it stay as they were;
   - no question keeps anything between calls, so several may run at once, each with a buffer of its own.

   Coordinates are seconds of arc, north and east positive. Longitudes differ by the short way round: 647,990 and -647,990
   by 20 seconds, and 648,000 and -648,000 are one meridian. Record positions and the bytes of a table count from 0. */

#ifndef FMS_H
#define FMS_H

#include <stddef.h>
#include <stdint.h>

/* The number of this interface. A new function raises it, and so does a change of what one takes: other words, or tables
   of a further version, on which an answer may need more room. In interface 6 fms_check, fms_reason and fms_arrange take a
   standard after the id left aside. */
#define FMS_INTERFACE 6

#ifdef __cplusplus
extern "C" {
#endif

/* The classes of stations. */
enum fms_class {
    FMS_CLASS_A = 0,
    FMS_CLASS_B1 = 1,
    FMS_CLASS_B = 2,
    FMS_CLASS_C3 = 3,
    FMS_CLASS_C2 = 4,
    FMS_CLASS_C1 = 5,
    FMS_CLASS_C0 = 6,
    FMS_CLASS_C = 7
};

/* The zones: I and I-A permit A, B1 and B; II permits A, C3, C2, C1, C0 and C. */
enum fms_zone {
    FMS_ZONE_I = 1,
    FMS_ZONE_I_A = 2,
    FMS_ZONE_II = 3
};

/* The standards: the separations that fms_check, fms_reason and fms_arrange go by. All other functions go by Table A. No
   other number is a standard, 0 neither, though an id of 0 leaves nobody aside. */
enum fms_standard {
    FMS_STANDARD_TABLE_A = 1,        /* Table A of 73.207(b)(1) */
    FMS_STANDARD_LESSER = 2          /* the lesser separations of 73.215(e), for an application that requests processing
                                        under 73.215 and shows contour protection; the column 10.6/10.8 MHz, which it does
                                        not list, is Table A's */
};

/* The columns of the separations, each for the channel differences that are named. */
enum fms_column {
    FMS_COLUMN_CO_CHANNEL = 0,       /* co-channel: 0 */
    FMS_COLUMN_200_KHZ = 1,          /* 200 kHz: 1 */
    FMS_COLUMN_400_600_KHZ = 2,      /* 400/600 kHz: 2, 3 */
    FMS_COLUMN_10_6_10_8_MHZ = 3     /* 10.6/10.8 MHz: 53, 54 */
};

/* The refusals, each with its extra number (0 where none is named). */
enum fms_refusal {
    FMS_GRANTED = 0,
    FMS_TABLE_HEADER = 1,            /* the table has under 8 bytes */
    FMS_TABLE_MARK = 2,              /* it does not begin with FMS */
    FMS_TABLE_VERSION = 3,           /* its version is neither 1 nor 2 */
    FMS_TABLE_SIXTH_BYTE = 4,        /* its sixth byte is not 0 */
    FMS_TABLE_COUNT = 5,             /* its count is outside what its version carries: version 1 carries 0 to 2,000
                                        stations, version 2 carries 2,001 to 4,000 */
    FMS_TABLE_LENGTH = 6,            /* its length is not 8 + 16 x count */
    FMS_RECORD_ID = 7,               /* id 0, or not above the one before; the position */
    FMS_RECORD_CHANNEL = 8,          /* channel outside 201 to 300; the position */
    FMS_RECORD_CLASS = 9,            /* class over 7; the position */
    FMS_RECORD_FLAGS = 10,           /* other flags than bit 0; the position */
    FMS_RECORD_LATITUDE = 11,        /* latitude beyond 270,000 seconds; the position */
    FMS_RECORD_LONGITUDE = 12,       /* longitude beyond 648,000 seconds; the position */
    FMS_ASKED_CHANNEL = 13,          /* an asked channel outside 221 to 300, or first above last */
    FMS_ASKED_CLASS = 14,            /* class over 7 */
    FMS_ASKED_ZONE = 15,             /* zone not 1 to 3 */
    FMS_ASKED_CLASS_IN_ZONE = 16,    /* the zone does not permit the class */
    FMS_ASKED_SITE = 17,             /* a given site out of range */
    FMS_ID_ZERO = 18,                /* add: id 0 */
    FMS_ID_PRESENT = 19,             /* add: id present; its position */
    FMS_SHORT = 20,                  /* add, move: short; the first short position */
    FMS_TABLE_FULL = 21,             /* add: the table already holds 4,000 */
    FMS_ROOM = 22,                   /* the answer does not fit; the exact room needed, in elements */
    FMS_ID_ABSENT = 23,              /* withdraw, move: no station has the id; check, reason, arrange: the nonzero id left
                                        aside is that of no station */
    FMS_TOO_FAR = 24,                /* distance: over 475 km */
    FMS_NOT_MOVABLE = 25,            /* move: fixed, or at or below channel 220; the position */
    FMS_ASKED_STANDARD = 26,         /* check, reason, arrange: standard neither 1 nor 2; judged after 16 and before 17 */
    FMS_RECORD_REPEATED = 27         /* a record agrees with an earlier one in channel, class, latitude and longitude; its
                                        position, of the first such record; judged after 12 and before 13 */
};

/* The refusal's number in an answer; 0 where the question was granted. */
static inline uint32_t fms_number(uint64_t answer) { return (uint32_t)(answer >> 32); }

/* The count, distance or byte of the table in a granted answer; a refusal's extra number. */
static inline uint32_t fms_value(uint64_t answer) { return (uint32_t)(answer & 0xffffffffu); }

/* The most stations of a table. */
#define FMS_STATIONS_MOST 4000

/* The longest table, of so many stations. Room for the image after any change. */
#define FMS_TABLE_MOST (8 + 16 * FMS_STATIONS_MOST)

/* The most numbers that fms_check writes: id, D and R of so many stations. */
#define FMS_CHECK_MOST (3 * FMS_STATIONS_MOST)

/* The most numbers that fms_arrange writes: three for each of 79 moves on 80 channels. */
#define FMS_ARRANGE_MOST (3 * 79 * 80)

/* Judges a table; gives its count of stations. */
uint64_t fms_read(const uint8_t *table, size_t table_len);

/* The rounded distance between two sites, 0 to 475 km. */
uint64_t fms_distance(int32_t lat1, int32_t lon1, int32_t lat2, int32_t lon2);

/* The next three write the image of the new table. Its version is the one that carries its count of stations, so fms_add
   to 2,000 stations writes version 2, and fms_withdraw from 2,001 writes version 1. */

/* The table with a station set in at its place by id, not fixed; gives the image's bytes. */
uint64_t fms_add(const uint8_t *table, size_t table_len, uint32_t id, uint32_t channel, uint32_t station_class,
                 uint32_t zone, int32_t lat, int32_t lon, uint8_t *image, size_t image_len);

/* The table without a station; gives the image's bytes. */
uint64_t fms_withdraw(const uint8_t *table, size_t table_len, uint32_t id, uint8_t *image, size_t image_len);

/* The table with a station on another channel; gives the image's bytes. */
uint64_t fms_move(const uint8_t *table, size_t table_len, uint32_t id, uint32_t channel, uint8_t *image,
                  size_t image_len);

/* The next three take the id of a station to leave aside, 0 for none, as for a station that changes its own site. The
   table is judged whole; the answer is then the one that the table without that station would get, but for the byte that
   fms_reason gives, which counts in the table as it is lent.

   They also take a standard (enum fms_standard), by whose separations everybody is held: the new station, and in
   fms_arrange a moved one, to all others and to each other. What is acceptable or clean by FMS_STANDARD_LESSER may still be
   short by Table A, and then fms_add and fms_move refuse it with FMS_SHORT. */

/* The stations that are short to a proposal, in table order: id, D in km, R in km of each. 0 numbers: acceptable. */
uint64_t fms_check(const uint8_t *table, size_t table_len, uint32_t channel, uint32_t station_class, uint32_t zone,
                   int32_t lat, int32_t lon, uint32_t aside, uint32_t standard, uint32_t *rows, size_t rows_len);

/* Why a proposal is blocked: of the stations that are short to it the one with the largest R - D, the lowest id among
   equals. Clear, where none is short: value 0, and `reason` stays as it was. Blocked: the value is the byte of the table
   at which the station's own sixteen begin, never 0, and `reason` gets its id, D in km, R in km, and the column that R
   stands in (enum fms_column). The refusals are those of fms_check without FMS_ROOM. */
uint64_t fms_reason(const uint8_t *table, size_t table_len, uint32_t channel, uint32_t station_class, uint32_t zone,
                    int32_t lat, int32_t lon, uint32_t aside, uint32_t standard, uint32_t reason[4]);

/* Every clean arrangement for a new station on first to last: new channel, id moved, its new channel of each; 0 and 0
   where nothing moves. Ascending by new channel, then id, then moved channel. */
uint64_t fms_arrange(const uint8_t *table, size_t table_len, uint32_t first, uint32_t last, uint32_t station_class,
                     uint32_t zone, int32_t lat, int32_t lon, uint32_t aside, uint32_t standard, uint32_t *rows,
                     size_t rows_len);

/* The limit of two classes, in either order, in a column of Table A (enum fms_column): the square of 10,000 R - 5,000
   decimetres, where R is their separation in km. Two stations whose channel difference reads that column, not both at or
   below channel 220, are short exactly when the square of their distance in decimetres is below it, which is when the
   rounded distance is below R. 0 where a class is over 7 or the column over 3. It takes no standard: 73.215(e) is not in it. */
uint64_t fms_limit(uint32_t class_one, uint32_t class_other, uint32_t column);

#ifdef __cplusplus
}
#endif

#endif
