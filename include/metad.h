/*
 * libmetad: the server metad inside your program, without a process, a pipe or a thread of its own.
 *
 * metad is a server of live objects with the meta-object system of Qt 6: objects in trees, signals and slots, bindable
 * properties, queued events. A command is one line of JSON and names a session; sessions have objects of their own. The
 * answer is some lines, of which the last has the key "reply" or "error". Give lines and fetch the answers, byte for byte
 * as the program metad writes them. docs/PROTOCOL.md lists the commands.
 *
 *     static const char line[] = "{\"session\":\"a\",\"do\":\"new\",\"class\":\"Probe\"}";
 *     char answer[4096];
 *     size_t length;
 *     metad *server;
 *     if (metad_open(&server, NULL, 0, METAD_TURNS, NULL, NULL) == METAD_DONE) {
 *         if (metad_line(server, line, strlen(line)) == METAD_DONE) {
 *             while (metad_output(server, answer, sizeof answer, &length) == METAD_MORE)
 *                 fwrite(answer, 1, length, stdout);
 *             fwrite(answer, 1, length, stdout);        ..prints {"reply":1,"session":"a"}
 *         }
 *         metad_close(&server);
 *     }
 *
 * Compile with `cc program.c $(pkg-config --cflags --libs metad)`.
 *
 * THREADS. A server belongs to one thread at a time. Servers share nothing, so different threads may use different
 * servers at the same time. To share one, take a lock around each call, or around a line and the fetching of its answer.
 * A call that finds another one at work on the same server does nothing and returns METAD_BUSY. No function may be called
 * in a signal handler, or for a server of the parent process after a fork.
 *
 * MEMORY is taken by malloc. If there is none, your program goes on: the status says what was done. What you give is
 * read before the call returns, and is never kept. The deepest calls of slots use 1.5 MiB of stack: give each thread that
 * uses a server at least 2 MiB.
 *
 * POINTERS. A pointer to bytes must point to as many bytes as you say. A server must come from metad_open and must not be
 * used after metad_close, which sets your pointer to null. A null pointer is safe everywhere.
 */
#ifndef METAD_H
#define METAD_H

#include <stddef.h>
#include <stdint.h>

#ifdef __cplusplus
extern "C" {
#endif

/* The version of this header; metad_version() says that of the library. */
#define METAD_VERSION "0.8.0"

/* The turns for each command that the program metad has without --turns. */
#define METAD_TURNS 10000

/* The most bytes of a line, without its line feed. A longer one is answered by the error E01. */
#define METAD_LINE_BYTES 65536

/* How many random bytes a server needs. */
#define METAD_RANDOM_BYTES 16

/* A server. */
typedef struct metad metad;

/* What a function returns. */
typedef enum metad_status {
    METAD_DONE = 0,        /* It is done. */
    METAD_BAD_CLASSES = 1, /* The class file is refused; see struct metad_fault. */
    METAD_CLOSED = 2,      /* There is no server: the pointer to it is null. */
    METAD_BAD_SESSION = 3, /* No session can have this name. */
    METAD_NO_RANDOM = 4,   /* The system gave no random bytes. */
    METAD_NO_MEMORY = 5,   /* Out of memory. No command was done, and nothing was answered: you may try again. */
    METAD_ANSWER_LOST = 6, /* Out of memory: the answer is lost. The command was done, or answered by E21: ask for `status`. */
    METAD_BUSY = 7,        /* Another call is at work on the server. Nothing was done. */
    METAD_NULL = 8,        /* A pointer is null that must not be. Nothing was done. */
    METAD_MORE = 9         /* The buffer was too small: it is full, and the next call fetches the rest. */
} metad_status;

/* Why a class file is refused. */
struct metad_fault {
    uint32_t kind;         /* 1 to 9, as in the codes C01 to C09 of docs/PROTOCOL.md */
    uint32_t class_number; /* which class is wrong, counted from 1; 0 means the file as a whole */
};

/*
 * Opens a server, and sets *server to it. The classes of its objects are those of a class file, at most 1 MiB of JSON in
 * `classes`; with a length of 0 they are the demonstration classes of docs/PROTOCOL.md. A command may cause at most
 * `turns` calls and events; METAD_TURNS suits most programs. Functors are `clamp` and `count`, as in the program.
 *
 * `random` points to METAD_RANDOM_BYTES bytes that nobody can guess. They protect against session names that are
 * chosen to make the server slow. If it is null, the system is asked for them. `fault` may be null.
 *
 * METAD_DONE, METAD_BAD_CLASSES (then *fault says why), METAD_NO_RANDOM, METAD_NO_MEMORY, or METAD_NULL if `server` is
 * null, or `classes` with a length. *server is null unless it is METAD_DONE.
 */
metad_status metad_open(metad **server, const void *classes, size_t classes_length, uint32_t turns, const void *random,
                        struct metad_fault *fault);

/*
 * Does the command in one line, which is given without its line feed. The answer is added to what metad_output fetches.
 * Whatever the bytes are, this is METAD_DONE: a line that is too long, no UTF-8, no JSON or no command is answered by an
 * error line, as by the program. A line of white space, or of no bytes, has no answer.
 *
 * METAD_DONE, METAD_CLOSED, METAD_BUSY, METAD_NULL, METAD_NO_MEMORY or METAD_ANSWER_LOST. A command for which there is too
 * little memory is METAD_DONE as well: it is answered by the error E21, and its session refuses commands until `reset`.
 */
metad_status metad_line(metad *server, const void *line, size_t length);

/*
 * Does the command in one line for the session that you choose: a name that ends with a zero byte. A name is a letter or
 * `_`, then letters, digits and `_`, 1 to 64 in all. The line need not name a session, and if it does, that is ignored.
 * So if you give each client a session, it cannot use another one.
 *
 * METAD_BAD_SESSION if the name cannot be that of a session; otherwise like metad_line.
 */
metad_status metad_line_for(metad *server, const char *session, const void *line, size_t length);

/*
 * Does the commands in many lines, each of which ends with a line feed (the last one may lack it), up to the first that
 * is not METAD_DONE; returns what that one returns. *used is how many bytes were used, and may be null. A line that
 * returns METAD_ANSWER_LOST was used; one that returns METAD_NO_MEMORY was not.
 */
metad_status metad_lines(metad *server, const void *lines, size_t length, size_t *used);

/* How many bytes of answers can be fetched; 0 if there is no server, or another call is at work on it. */
size_t metad_output_len(metad *server);

/*
 * Fetches answers, the oldest first: at most `room` bytes. *length is how many were fetched; it must not be null.
 *
 * METAD_DONE if all were fetched, METAD_MORE if the buffer was too small for all, METAD_CLOSED, METAD_BUSY, or METAD_NULL.
 */
metad_status metad_output(metad *server, void *buffer, size_t room, size_t *length);

/*
 * Frees the server and all that it holds, answers that were not fetched included, and sets *server to null.
 *
 * METAD_DONE, METAD_CLOSED, METAD_BUSY, or METAD_NULL if `server` is null.
 */
metad_status metad_close(metad **server);

/* The version of the library, such as "0.8.0". */
const char *metad_version(void);

#ifdef __cplusplus
}
#endif

#endif
