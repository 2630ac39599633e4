/* Gives the program that it is preloaded into the same random bytes in each run, so that it hashes names alike and
   needs the same instructions. */
#include <stddef.h>
#include <string.h>

int getentropy(void *buffer, size_t length)
{
    memset(buffer, 0x5a, length);
    return 0;
}
