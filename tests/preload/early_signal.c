/* A library to be preloaded into a program: once the file that EARLY_SIGNAL names is there, the program receives SIGTERM
   right before it waits for events the next time. So its own code has not yet handled the signal when it waits. */
#define _GNU_SOURCE
#include <dlfcn.h>
#include <signal.h>
#include <stdlib.h>
#include <sys/epoll.h>
#include <unistd.h>

int epoll_wait(int epoll, struct epoll_event *events, int most, int timeout)
{
    static int has_come;
    static int (*next)(int, struct epoll_event *, int, int);
    const char *note = getenv("EARLY_SIGNAL");
    if (!next)
        next = (int (*)(int, struct epoll_event *, int, int))dlsym(RTLD_NEXT, "epoll_wait");
    if (!has_come && note && access(note, F_OK) == 0) {
        has_come = 1;
        raise(SIGTERM);
    }
    return next(epoll, events, most, timeout);
}
