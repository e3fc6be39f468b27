/* Prints the words of the numbers given, a line for each. */
#include <stdio.h>
#include <stdlib.h>

#include "station_words.h"

int main(int count, char **numbers)
{
    int i;
    for (i = 1; i < count; i++) puts(station_words((uint32_t)strtoul(numbers[i], NULL, 10)));
    return 0;
}
