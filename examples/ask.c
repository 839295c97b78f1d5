/* ask: asks Check and Reason for one channel and Arrange for all of 221 to 300 through libfms.a, and prints what the
   programs fm_check, fm_reason and fm_arrange print, or fm_study for the first and the last with a station left aside or by
   standard 2. After a reason stands the blocking station's own record in the table, and by standard 1 the limit of the two
   classes in the reason's column.

       ask TABLE CHANNEL CLASS ZONE LATITUDE LONGITUDE [ASIDE [STANDARD]]

   The class is a code of 0 to 7 (A, B1, B, C3, C2, C1, C0, C), the zone 1 to 3 (I, I-A, II), the site in seconds of arc.
   ASIDE is the id of the station that is left aside; 0, or no such word, leaves nobody aside. STANDARD is 1 (Table A) or 2
   (73.215(e)); without such a word it is 1.
   Status: 0 answered, 1 refused, 2 wrong words or no such table, 3 no memory. */

#include "fms.h"

#include <errno.h>
#include <stdio.h>
#include <stdlib.h>

#if FMS_INTERFACE != 6
#error "ask.c is written for interface 6 of fms.h"
#endif

/* One byte more than the longest table, so that a longer file is seen to be too long. */
static uint8_t table[FMS_TABLE_MOST + 1];
static uint32_t short_rows[FMS_CHECK_MOST];

/* Prints a refusal's number and its extra number. */
static int refused(uint64_t answer)
{
    printf("refused %lu %lu\n", (unsigned long)fms_number(answer), (unsigned long)fms_value(answer));
    return 1;
}

/* Prints rows of three numbers. */
static void print_rows(const uint32_t *rows, size_t count)
{
    size_t i;
    for (i = 0; i + 3 <= count; i += 3)
        printf("%lu %lu %lu\n", (unsigned long)rows[i], (unsigned long)rows[i + 1], (unsigned long)rows[i + 2]);
}

/* Prints the four numbers of a reason and the standard, the sixteen bytes of its station, and the limit that a class keeps
   from it, which is Table A's. */
static void print_reason(const uint32_t *reason, uint32_t standard, const uint8_t *station, uint32_t station_class)
{
    size_t i;
    printf("%lu %lu %lu %lu %lu\n", (unsigned long)reason[0], (unsigned long)reason[1], (unsigned long)reason[2],
           (unsigned long)reason[3], (unsigned long)standard);
    printf("record");
    for (i = 0; i < 16; i++)
        printf(" %02x", (unsigned)station[i]);
    printf("\n");
    if (standard == FMS_STANDARD_TABLE_A)
        printf("limit %llu\n", (unsigned long long)fms_limit(station_class, station[6], reason[3]));
}

/* Reads a whole number from low to high; ends on any other word. */
static long long number(const char *word, long long low, long long high)
{
    char *end;
    long long value;
    errno = 0;
    value = strtoll(word, &end, 10);
    if (end == word || *end != '\0' || errno != 0 || value < low || value > high) {
        fprintf(stderr, "ask: '%s' is not a whole number from %lld to %lld\n", word, low, high);
        exit(2);
    }
    return value;
}

int main(int words, char **word)
{
    uint32_t channel, station_class, zone, aside, standard, none = 0, reason[4], *rows;
    int32_t lat, lon;
    size_t length, room;
    uint64_t answer;
    FILE *file;

    if (words < 7 || words > 9) {
        fprintf(stderr, "ask TABLE CHANNEL CLASS ZONE LATITUDE LONGITUDE [ASIDE [STANDARD]]\n");
        return 2;
    }
    channel = (uint32_t)number(word[2], 0, UINT32_MAX);
    station_class = (uint32_t)number(word[3], 0, UINT32_MAX);
    zone = (uint32_t)number(word[4], 0, UINT32_MAX);
    lat = (int32_t)number(word[5], INT32_MIN, INT32_MAX);
    lon = (int32_t)number(word[6], INT32_MIN, INT32_MAX);
    aside = words > 7 ? (uint32_t)number(word[7], 0, UINT32_MAX) : 0;
    standard = FMS_STANDARD_TABLE_A;
    if (words > 8)
        standard = (uint32_t)number(word[8], 0, UINT32_MAX);

    file = fopen(word[1], "rb");
    if (file == NULL) {
        fprintf(stderr, "ask: there is no table %s\n", word[1]);
        return 2;
    }
    length = fread(table, 1, sizeof table, file);
    fclose(file);

    /* Check, into a buffer that holds any answer. */
    answer = fms_check(table, length, channel, station_class, zone, lat, lon, aside, standard, short_rows, FMS_CHECK_MOST);
    if (fms_number(answer) != FMS_GRANTED)
        return refused(answer);
    printf("short %lu\n", (unsigned long)fms_value(answer) / 3);
    print_rows(short_rows, fms_value(answer));

    /* Reason: the place in the table is 0 where the channel is clear. */
    answer = fms_reason(table, length, channel, station_class, zone, lat, lon, aside, standard, reason);
    if (fms_number(answer) != FMS_GRANTED)
        return refused(answer);
    if (fms_value(answer) == 0)
        printf("clear\n");
    else
        print_reason(reason, standard, table + fms_value(answer), station_class);

    /* Arrange, first with no room: refusal 22 says exactly how much is needed. */
    answer = fms_arrange(table, length, 221, 300, station_class, zone, lat, lon, aside, standard, &none, 0);
    if (fms_number(answer) == FMS_GRANTED)
        return 0;
    if (fms_number(answer) != FMS_ROOM)
        return refused(answer);
    room = fms_value(answer);
    rows = (uint32_t *)malloc(room * sizeof *rows);
    if (rows == NULL) {
        fprintf(stderr, "ask: no memory for %lu numbers\n", (unsigned long)room);
        return 3;
    }
    answer = fms_arrange(table, length, 221, 300, station_class, zone, lat, lon, aside, standard, rows, room);
    if (fms_number(answer) != FMS_GRANTED) {
        free(rows);
        return refused(answer);
    }
    print_rows(rows, fms_value(answer));
    free(rows);
    return 0;
}
