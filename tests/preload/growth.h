/* For a library that is preloaded into a program: each of its requests for memory is made only where
   `is_granted` says so, and is else refused. */
#ifndef GROWTH_H
#define GROWTH_H

#define _GNU_SOURCE
#include <dlfcn.h>
#include <errno.h>
#include <stdlib.h>

/* Asked once for each request. */
static int is_granted(void);

void *malloc(size_t size)
{
    static void *(*next)(size_t);
    if (!next)
        next = (void *(*)(size_t))dlsym(RTLD_NEXT, "malloc");
    if (is_granted())
        return next(size);
    errno = ENOMEM;
    return NULL;
}

void *realloc(void *block, size_t size)
{
    static void *(*next)(void *, size_t);
    if (!next)
        next = (void *(*)(void *, size_t))dlsym(RTLD_NEXT, "realloc");
    if (is_granted())
        return next(block, size);
    errno = ENOMEM;
    return NULL;
}

#endif
