/* Refuses one request for memory of the program that it is preloaded into: the one whose number,
   counted from 1, is in REFUSE_AT. It then writes one byte to the descriptor in REFUSE_NOTE, so that
   whoever started the program knows that the request was made. */
#include "growth.h"
#include <unistd.h>

static unsigned long refuse_at;
static unsigned long requests;
static int note;

__attribute__((constructor)) static void begin(void)
{
    const char *at = getenv("REFUSE_AT");
    const char *to = getenv("REFUSE_NOTE");
    note = to ? atoi(to) : -1;
    refuse_at = at ? strtoul(at, NULL, 10) : 0;
}

static int is_granted(void)
{
    if (refuse_at == 0 || ++requests != refuse_at)
        return 1;
    if (note >= 0 && write(note, "!", 1) != 1)
        abort();
    return 0;
}
