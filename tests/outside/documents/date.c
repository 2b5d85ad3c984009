/* The date of each MJD on standard input, a line for each: the MJD, year, month and day, or the MJD and 'refused' with the number. */
#include "lohitunga.h"

#include <stdio.h>

int main(void)
{
    unsigned mjd;
    while (scanf("%u", &mjd) == 1) {
        lohitunga_date_answer a = lohitunga_read_date((uint16_t)mjd);
        if (a.number != 0)
            printf("%u refused %u\n", mjd, (unsigned)a.number);
        else
            printf("%u %u %u %u\n", mjd, a.date.year, a.date.month, a.date.day);
    }
    return 0;
}
