/* What metad.h declares, over the proved exports of crates/metad_c: it looks at the pointers that a program gives. */
#include "metad.h"

#include <stdbool.h>
#include <stdlib.h>
#include <string.h>
#include <unistd.h>

/* the handle and the exports of crates/metad_c/src */
struct inner {
    struct {
        void *at;
    } loose;
    bool is_open;
};

struct opened {
    uint32_t status, kind, class_number;
};

struct opened metad_inner_open(const uint8_t *classes, size_t classes_length, uint32_t turns, const uint8_t *keys,
                               size_t keys_length, struct inner *into);
uint32_t metad_inner_line(struct inner *handle, const uint8_t *line, size_t length);
uint32_t metad_inner_line_for(struct inner *handle, const uint8_t *session, size_t session_length, const uint8_t *line,
                              size_t length);
size_t metad_inner_output_len(struct inner *handle);
size_t metad_inner_output(struct inner *handle, uint8_t *into, size_t room);
void metad_inner_close(struct inner *handle);

struct metad {
    struct inner handle;
    bool is_used; /* by a call that has not returned */
};

/* what a slice of no bytes points to */
static uint8_t no_bytes[1];

static const uint8_t *bytes(const void *given) { return given ? given : no_bytes; }

/* From here on this call uses the server, unless there is none or another call uses it. */
static metad_status enter(metad *server) {
    if (!server) return METAD_CLOSED;
    return __atomic_test_and_set(&server->is_used, __ATOMIC_ACQUIRE) ? METAD_BUSY : METAD_DONE;
}

static void leave(metad *server) { __atomic_clear(&server->is_used, __ATOMIC_RELEASE); }

metad_status metad_open(metad **server, const void *classes, size_t classes_length, uint32_t turns, const void *random,
                        struct metad_fault *fault) {
    if (!server) return METAD_NULL;
    *server = NULL;
    if (!classes && classes_length) return METAD_NULL;
    uint8_t keys[METAD_RANDOM_BYTES];
    if (random)
        memcpy(keys, random, sizeof keys);
    else if (getentropy(keys, sizeof keys))
        return METAD_NO_RANDOM;
    metad *made = calloc(1, sizeof *made);
    if (!made) return METAD_NO_MEMORY;
    struct opened opened = metad_inner_open(bytes(classes), classes_length, turns, keys, sizeof keys, &made->handle);
    if (opened.status) {
        free(made);
        if (fault && opened.status == METAD_BAD_CLASSES) *fault = (struct metad_fault){opened.kind, opened.class_number};
        return (metad_status)opened.status;
    }
    *server = made;
    return METAD_DONE;
}

metad_status metad_line(metad *server, const void *line, size_t length) {
    if (!line && length) return METAD_NULL;
    metad_status status = enter(server);
    if (status) return status;
    status = (metad_status)metad_inner_line(&server->handle, bytes(line), length);
    leave(server);
    return status;
}

metad_status metad_line_for(metad *server, const char *session, const void *line, size_t length) {
    if (!session || (!line && length)) return METAD_NULL;
    metad_status status = enter(server);
    if (status) return status;
    const uint8_t *name = (const uint8_t *)session;
    status = (metad_status)metad_inner_line_for(&server->handle, name, strlen(session), bytes(line), length);
    leave(server);
    return status;
}

metad_status metad_lines(metad *server, const void *lines, size_t length, size_t *used) {
    if (used) *used = 0;
    if (!lines && length) return METAD_NULL;
    metad_status status = enter(server);
    if (status) return status;
    const uint8_t *at = bytes(lines);
    while (length && !status) {
        const uint8_t *end = memchr(at, '\n', length);
        size_t line = end ? (size_t)(end - at) : length, taken = end ? line + 1 : line;
        status = (metad_status)metad_inner_line(&server->handle, at, line);
        if (status == METAD_NO_MEMORY) break;
        at += taken, length -= taken;
        if (used) *used += taken;
    }
    leave(server);
    return status;
}

size_t metad_output_len(metad *server) {
    if (enter(server)) return 0;
    size_t count = metad_inner_output_len(&server->handle);
    leave(server);
    return count;
}

metad_status metad_output(metad *server, void *buffer, size_t room, size_t *length) {
    if (length) *length = 0;
    if (!length || (!buffer && room)) return METAD_NULL;
    metad_status status = enter(server);
    if (status) return status;
    *length = metad_inner_output(&server->handle, buffer ? buffer : no_bytes, room);
    if (*length == room && metad_inner_output_len(&server->handle)) status = METAD_MORE;
    leave(server);
    return status;
}

metad_status metad_close(metad **server) {
    if (!server) return METAD_NULL;
    metad_status status = enter(*server);
    if (status) return status;
    metad_inner_close(&(*server)->handle);
    free(*server);
    *server = NULL;
    return METAD_DONE;
}

const char *metad_version(void) { return METAD_VERSION; }
