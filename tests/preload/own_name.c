/* Lets the program that it is preloaded into start itself below valgrind, where /proc/self/exe is another program: OWN_NAME is
   its path. */
#define _GNU_SOURCE
#include <dlfcn.h>
#include <spawn.h>
#include <stdlib.h>
#include <string.h>

typedef int spawn_function(pid_t *, const char *, const posix_spawn_file_actions_t *, const posix_spawnattr_t *,
                           char *const *, char *const *);

int posix_spawnp(pid_t *process, const char *file, const posix_spawn_file_actions_t *actions,
                 const posix_spawnattr_t *attributes, char *const *words, char *const *environment)
{
    spawn_function *real = (spawn_function *)dlsym(RTLD_NEXT, "posix_spawnp");
    const char *own = getenv("OWN_NAME");
    if (own != NULL && strcmp(file, "/proc/self/exe") == 0)
        file = own;
    return real(process, file, actions, attributes, words, environment);
}
