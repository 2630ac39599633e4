/* What the library does with input that no careful program gives it. Each line that is printed is a fault. */
#include <metad.h>
#include <pthread.h>
#include <stdio.h>
#include <string.h>
#include <time.h>

#define CHECK(test) ((test) ? (void)0 : (void)printf("line %d: %s\n", __LINE__, #test))

static const char spin[] = "{\"session\":\"a\",\"do\":\"spin\"}", none[] = "{\"do\":\"spin\"}";
static char long_line[METAD_LINE_BYTES + 1], fetched[1 << 20];

/* Whether all that can be fetched is this text. */
static int says(metad *server, const char *wanted) {
    size_t length;
    return metad_output(server, fetched, sizeof fetched, &length) == METAD_DONE && length == strlen(wanted) &&
           !memcmp(fetched, wanted, length) && metad_output_len(server) == 0;
}

static void check_null(void) {
    size_t used = 7, length = 7;
    metad *server = NULL;
    CHECK(metad_line(NULL, spin, strlen(spin)) == METAD_CLOSED);
    CHECK(metad_line_for(NULL, "a", spin, strlen(spin)) == METAD_CLOSED);
    CHECK(metad_lines(NULL, spin, strlen(spin), &used) == METAD_CLOSED && used == 0);
    CHECK(metad_output_len(NULL) == 0);
    CHECK(metad_output(NULL, fetched, 1, &length) == METAD_CLOSED && length == 0);
    CHECK(metad_close(NULL) == METAD_NULL && metad_close(&server) == METAD_CLOSED);
    CHECK(metad_open(NULL, NULL, 0, METAD_TURNS, NULL, NULL) == METAD_NULL);
    CHECK(metad_open(&server, NULL, 1, METAD_TURNS, NULL, NULL) == METAD_NULL && !server);
}

static void check_bytes(metad *server) {
    size_t length = 7;
    CHECK(metad_line(server, NULL, 1) == METAD_NULL && metad_lines(server, NULL, 1, NULL) == METAD_NULL);
    CHECK(metad_line_for(server, NULL, spin, strlen(spin)) == METAD_NULL);
    CHECK(metad_line_for(server, "a", NULL, 1) == METAD_NULL);
    CHECK(metad_line(server, NULL, 0) == METAD_DONE && metad_line(server, "", 0) == METAD_DONE);
    CHECK(metad_line_for(server, "a", NULL, 0) == METAD_DONE && metad_lines(server, "\n\n \n", 4, NULL) == METAD_DONE);
    CHECK(metad_lines(server, NULL, 0, NULL) == METAD_DONE && metad_output_len(server) == 0);
    CHECK(metad_output(server, NULL, 1, &length) == METAD_NULL && length == 0);
    CHECK(metad_output(server, fetched, 1, NULL) == METAD_NULL);
    CHECK(metad_output(server, NULL, 0, &length) == METAD_DONE && metad_output(server, fetched, 0, &length) == METAD_DONE);
}

static void check_sessions(metad *server) {
    static const char *const bad[] = {"", "a b", "1a", "a-b", "\xff", "\xc3\xa9"};
    for (size_t at = 0; at < sizeof bad / sizeof *bad; at++)
        CHECK(metad_line_for(server, bad[at], spin, strlen(spin)) == METAD_BAD_SESSION);
    char name[66];
    memset(name, 'n', sizeof name);
    name[65] = 0;
    CHECK(metad_line_for(server, name, spin, strlen(spin)) == METAD_BAD_SESSION && metad_output_len(server) == 0);
    name[64] = 0;
    CHECK(metad_line_for(server, name, spin, strlen(spin)) == METAD_DONE);
    CHECK(metad_output(server, fetched, sizeof fetched, &(size_t){0}) == METAD_DONE);
    static const char spun[] = "{\"reply\":{\"events\":0,\"left\":0,\"lost\":0,\"mismatched\":0},\"session\":\"b\"}\n";
    CHECK(metad_line_for(server, "b", spin, strlen(spin)) == METAD_DONE && says(server, spun));
    CHECK(metad_line_for(server, "b", none, strlen(none)) == METAD_DONE && says(server, spun));
}

/* A line of 65,536 bytes is read, and one more is refused; so is what is no UTF-8 and no JSON. */
static void check_lines(metad *server) {
    static const char unreadable[] = "{\"error\":\"E01\",\"session\":\"-\"}\n", of_a[] = "{\"error\":\"E01\",\"session\":\"a\"}\n";
    static const char no_utf8[] = "{\"session\":\"a\",\"do\":\"\xff\"}";
    memset(long_line, ' ', sizeof long_line);
    CHECK(metad_line(server, long_line, METAD_LINE_BYTES) == METAD_DONE && metad_output_len(server) == 0);
    memcpy(long_line, spin, strlen(spin));
    CHECK(metad_line(server, long_line, METAD_LINE_BYTES) == METAD_DONE);
    CHECK(metad_output(server, fetched, sizeof fetched, &(size_t){0}) == METAD_DONE && strstr(fetched, "\"events\":0"));
    CHECK(metad_line(server, long_line, METAD_LINE_BYTES + 1) == METAD_DONE && says(server, unreadable));
    CHECK(metad_line_for(server, "a", long_line, METAD_LINE_BYTES + 1) == METAD_DONE && says(server, of_a));
    CHECK(metad_line(server, no_utf8, strlen(no_utf8)) == METAD_DONE && says(server, unreadable));
    CHECK(metad_line_for(server, "a", no_utf8, strlen(no_utf8)) == METAD_DONE && says(server, of_a));
    CHECK(metad_line(server, "{", 1) == METAD_DONE && says(server, unreadable));
    CHECK(metad_line(server, "\0", 1) == METAD_DONE && says(server, unreadable));
}

/* A buffer that is too small is filled, and the next call fetches the rest. */
static void check_room(metad *server) {
    static const char wanted[] = "{\"error\":\"E01\",\"session\":\"-\"}\n";
    size_t length;
    CHECK(metad_line(server, "{", 1) == METAD_DONE && metad_output_len(server) == strlen(wanted));
    CHECK(metad_output(server, fetched, 0, &length) == METAD_MORE && length == 0);
    fetched[5] = 'x';
    CHECK(metad_output(server, fetched, 5, &length) == METAD_MORE && length == 5 && fetched[5] == 'x');
    CHECK(metad_output_len(server) == strlen(wanted) - 5);
    CHECK(metad_output(server, fetched + 5, strlen(wanted) - 5, &length) == METAD_DONE && length == strlen(wanted) - 5);
    CHECK(!memcmp(fetched, wanted, strlen(wanted)) && metad_output_len(server) == 0);
    CHECK(metad_output(server, fetched, sizeof fetched, &length) == METAD_DONE && length == 0);
}

static void check_many(metad *server) {
    static const char lines[] = "{\n\n{", wanted[] = "{\"error\":\"E01\",\"session\":\"-\"}\n{\"error\":\"E01\",\"session\":\"-\"}\n";
    size_t used = 0;
    CHECK(metad_lines(server, lines, strlen(lines), &used) == METAD_DONE && used == strlen(lines) && says(server, wanted));
}

static void check_classes(void) {
    struct metad_fault fault = {0, 0};
    metad *server;
    CHECK(metad_open(&server, "{", 1, METAD_TURNS, NULL, &fault) == METAD_BAD_CLASSES && !server);
    CHECK(fault.kind == 1 && fault.class_number == 0);
    CHECK(metad_open(&server, "{", 1, METAD_TURNS, NULL, NULL) == METAD_BAD_CLASSES && !server);
    static const char taken[] = "{\"classes\":[{\"name\":\"A\",\"super\":\"QObject\"},{\"name\":\"A\",\"super\":\"QObject\"}]}";
    CHECK(metad_open(&server, taken, strlen(taken), METAD_TURNS, NULL, &fault) == METAD_BAD_CLASSES);
    CHECK(fault.kind == 3 && fault.class_number == 2);
}

/* Servers of their own in several threads, each with a stack of 2 MiB, disturb each other in nothing. */
static void *alone(void *given) {
    static const char line[] = "{\"session\":\"a\",\"do\":\"new\",\"class\":\"Probe\"}";
    char wanted[80], answer[80];
    size_t length;
    metad *server;
    CHECK(metad_open(&server, NULL, 0, METAD_TURNS, NULL, NULL) == METAD_DONE);
    for (int turn = 1; turn <= 1000; turn++) {
        CHECK(metad_line(server, line, strlen(line)) == METAD_DONE);
        CHECK(metad_output(server, answer, sizeof answer, &length) == METAD_DONE);
        int size = snprintf(wanted, sizeof wanted, "{\"reply\":%d,\"session\":\"a\"}\n", turn);
        CHECK((size_t)size == length && !memcmp(answer, wanted, length));
    }
    CHECK(metad_close(&server) == METAD_DONE);
    return given;
}

static double seconds(void) {
    struct timespec now;
    clock_gettime(CLOCK_MONOTONIC, &now);
    return (double)now.tv_sec + (double)now.tv_nsec * 1e-9;
}

static pthread_barrier_t together;

/* A server that many threads use without a lock, for a while: each call is done or is refused as a whole. */
static void *hammer(void *given) {
    static const char line[] = "{\"session\":\"a\",\"do\":\"list\"}\n";
    long done = 0;
    pthread_barrier_wait(&together);
    for (double end = seconds() + 0.3; seconds() < end;) {
        metad_status status = metad_lines(given, line, strlen(line), NULL);
        CHECK(status == METAD_DONE || status == METAD_BUSY);
        done += status == METAD_DONE;
    }
    return (void *)done;
}

/* Runs a function in four threads; the sum of what comes of them. */
static long in_threads(void *(*work)(void *), void *given) {
    pthread_t threads[4];
    pthread_attr_t small;
    long sum = 0;
    CHECK(!pthread_attr_init(&small) && !pthread_attr_setstacksize(&small, 2 << 20));
    for (int at = 0; at < 4; at++) CHECK(!pthread_create(&threads[at], &small, work, given));
    for (int at = 0; at < 4; at++) {
        void *came;
        CHECK(!pthread_join(threads[at], &came));
        sum += (long)came;
    }
    pthread_attr_destroy(&small);
    return sum;
}

static void check_threads(metad *server) {
    CHECK(in_threads(alone, NULL) == 0);
    CHECK(!pthread_barrier_init(&together, NULL, 4));
    long done = in_threads(hammer, server);
    pthread_barrier_destroy(&together);
    size_t lines = 0, length;
    metad_status status;
    do {
        status = metad_output(server, fetched, sizeof fetched, &length);
        for (size_t at = 0; at < length; at++) lines += fetched[at] == '\n';
    } while (status == METAD_MORE);
    CHECK(done > 0 && lines == (size_t)done);
}

int main(void) {
    static const unsigned char random[METAD_RANDOM_BYTES] = {1, 2, 3};
    metad *server = NULL;
    CHECK(!strcmp(metad_version(), METAD_VERSION));
    check_null();
    CHECK(metad_open(&server, NULL, 0, METAD_TURNS, random, NULL) == METAD_DONE && server);
    check_bytes(server);
    check_sessions(server);
    check_lines(server);
    check_room(server);
    check_many(server);
    check_threads(server);
    CHECK(metad_line(server, "{", 1) == METAD_DONE && metad_close(&server) == METAD_DONE && !server);
    CHECK(metad_line(server, spin, strlen(spin)) == METAD_CLOSED && metad_close(&server) == METAD_CLOSED);
    check_classes();
    return 0;
}
