/* The numbers of refusal of station.h in words. */
#ifndef STATION_WORDS_H
#define STATION_WORDS_H

#include "station.h"

/* What a number of refusal means, in one line without a point at its end, as the command line says it. Every number has
 * words, one that station.h does not list too. The text is not the caller's to change or to give back. */
static inline const char *station_words(uint32_t number)
{
    switch (number) {
    case STATION_GRANTED:
        return "granted";
    case STATION_REFUSED_LENGTH:
        return "the length of the line is wrong (in a text 80 columns and a newline, by itself exactly 80 columns)";
    case STATION_REFUSED_NEWLINE:
        return "the line has no newline behind its 80 columns";
    case STATION_REFUSED_BYTE:
        return "a column holds a byte that is not printable ASCII";
    case STATION_REFUSED_NAME:
        return "the name in columns 1-6 is unknown or not taken here";
    case STATION_REFUSED_PLACE:
        return "the line is out of place or there once too often";
    case STATION_REFUSED_FIELD:
        return "a field or a blank column is wrong";
    case STATION_REFUSED_SERIAL:
        return "the serial is not above the one before";
    case STATION_REFUSED_RUN:
        return "the line breaks the rules of runs and TER";
    case STATION_REFUSED_BOND:
        return "the CONECT line is below the one before or names a number that no atom has";
    case STATION_REFUSED_SEQUENCE:
        return "a helix or sheet is out of sequence";
    case STATION_REFUSED_COUNT:
        return "a count on MASTER is not the true one";
    case STATION_REFUSED_OVER:
        return "the text is over before END";
    case STATION_REFUSED_SHORT_TABLE:
        return "the table has fewer slots than the text has coordinate and TER lines";
    case STATION_REFUSED_FULL:
        return "the count to be raised is full";
    case STATION_REFUSED_NO_FRAGMENT:
        return "there is no such fragment";
    case STATION_REFUSED_ALREADY_THERE:
        return "the fragment is already there";
    case STATION_REFUSED_SHORT_OUTPUT:
        return "the output is too short";
    case STATION_REFUSED_OTHER_TABLE:
        return "the table does not belong to the text";
    case STATION_REFUSED_NOTHING_TO_FRAME:
        return "there is no atom to frame";
    case STATION_REFUSED_LONG_INPUT:
        return "the input is longer than the report takes";
    case STATION_REFUSED_SAME_ATOM:
        return "a line above has the same atom: name, alternate location and residue";
    case STATION_REFUSED_MODEL:
        return "the models are not numbered 1, 2, 3 and so on";
    case STATION_REFUSED_NO_SCALE:
        return "the entry has no SCALE lines to tell a fractional place by";
    case STATION_REFUSED_COORDINATE:
        return "a coordinate is not from -999.999 to 9999.999";
    default:
        return "for a reason that this program does not know";
    }
}

#endif
