/* Checks the entry on standard input and prints one line, as a program does that finds the station installed:
 *
 *     cc check.c $(pkg-config --cflags --libs station) -o check && ./check <entry.pdb
 *
 * The exit status is 0 if the entry is granted, 1 if it is refused, 2 if it could not be read. */
#include <inttypes.h>
#include <stdio.h>
#include <stdlib.h>

#include <station.h>
#include <station_words.h>

/* Reads all that a stream has; NULL if it cannot. */
static uint8_t *read_all(FILE *stream, size_t *n)
{
    size_t room = 1 << 16;
    uint8_t *bytes = (uint8_t *)malloc(room), *more;
    *n = 0;
    while (bytes && (*n += fread(bytes + *n, 1, room - *n, stream)) == room) {
        more = (uint8_t *)realloc(bytes, room *= 2);
        if (!more) free(bytes);
        bytes = more;
    }
    if (bytes && !ferror(stream)) return bytes;
    free(bytes);
    return NULL;
}

int main(void)
{
    uint64_t answer[STATION_VERDICT_SIZE];
    uint32_t number;
    size_t n;
    uint8_t *text = read_all(stdin, &n);
    if (!text) {
        fputs("standard input could not be read\n", stderr);
        return 2;
    }
    number = station_verdict(text, n, answer);
    free(text);
    if (number == STATION_GRANTED) {
        printf("granted (lines: %" PRIu64 ", atoms: %" PRIu64 ")\n", answer[STATION_VERDICT_GOOD_LINES],
               answer[STATION_VERDICT_COORD]);
        return 0;
    }
    printf("line %" PRIu64, answer[STATION_VERDICT_LINE]);
    if (number == STATION_REFUSED_FIELD) printf(", column %" PRIu64, answer[STATION_VERDICT_COLUMN]);
    printf(": refused with %" PRIu32 ": %s\n", number, station_words(number));
    return 1;
}
