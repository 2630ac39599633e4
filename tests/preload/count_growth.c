/* Counts the requests for memory of the program that it is preloaded into, and writes their number as
   text to the descriptor in COUNT_NOTE when the program ends. */
#include "growth.h"
#include <stdio.h>

static unsigned long requests;

static int is_granted(void)
{
    requests++;
    return 1;
}

__attribute__((destructor)) static void end(void)
{
    const char *to = getenv("COUNT_NOTE");
    if (to && dprintf(atoi(to), "%lu", requests) < 0)
        abort();
}
