/* Answers standard input by the library, as the program does: drive [--turns N] [--line | --for NAME] [CLASSES].
   With --line each line is given by itself, with --for also for this session; else as many whole lines as a block has. */
#include <metad.h>
#include <stdio.h>
#include <stdlib.h>
#include <string.h>

static char block[1 << 16];

struct words {
    const char *classes, *session;
    uint32_t turns;
    int by_line;
};

struct text {
    char *at;
    size_t length;
};

static struct words read_words(int count, char **given) {
    struct words words = {NULL, NULL, METAD_TURNS, 0};
    for (int at = 1; at < count; at++) {
        if (!strcmp(given[at], "--line")) words.by_line = 1;
        else if (!strcmp(given[at], "--turns")) words.turns = (uint32_t)strtoul(given[++at], NULL, 10);
        else if (!strcmp(given[at], "--for")) words.by_line = 1, words.session = given[++at];
        else words.classes = given[at];
    }
    return words;
}

static struct text whole(FILE *file) {
    struct text text = {NULL, 0};
    size_t room = 0, count;
    do {
        if (text.length == room && !(text.at = realloc(text.at, room = room ? 2 * room : 4096))) exit(9);
        count = fread(text.at + text.length, 1, room - text.length, file);
        text.length += count;
    } while (count);
    return text;
}

static struct text file_named(const char *name) {
    FILE *file = name ? fopen(name, "rb") : NULL;
    struct text text = {NULL, 0};
    if (name && !file) exit(9);
    if (file) {
        text = whole(file);
        fclose(file);
    }
    return text;
}

static void say(metad *server) {
    size_t length;
    metad_status status;
    do {
        status = metad_output(server, block, sizeof block, &length);
        fwrite(block, 1, length, stdout);
    } while (status == METAD_MORE);
}

/* How many bytes of the rest are given at once: a line, or some lines; with the line feed of the last, where it has one. */
static size_t part_of(struct text rest, int by_line) {
    size_t size = 0;
    do {
        char *end = memchr(rest.at + size, '\n', rest.length - size);
        size_t more = end ? (size_t)(end - rest.at) + 1 : rest.length;
        if (size && more > sizeof block) break;
        size = more;
    } while (!by_line && size < rest.length);
    return size;
}

static metad_status give(metad *server, struct words words, const char *part, size_t size) {
    if (!words.by_line) {
        size_t used;
        metad_status status = metad_lines(server, part, size, &used);
        if (used != size) exit(8);
        return status;
    }
    size_t line = part[size - 1] == '\n' ? size - 1 : size;
    return words.session ? metad_line_for(server, words.session, part, line) : metad_line(server, part, line);
}

int main(int count, char **given) {
    struct words words = read_words(count, given);
    struct text classes = file_named(words.classes), text = whole(stdin), rest = text;
    struct metad_fault fault = {0, 0};
    metad *server;
    metad_status status = metad_open(&server, classes.at, classes.length, words.turns, NULL, &fault);
    if (status) {
        fprintf(stderr, "status %d: C0%u in class %u\n", (int)status, (unsigned)fault.kind, (unsigned)fault.class_number);
        return (int)status;
    }
    while (rest.length && !status) {
        size_t size = part_of(rest, words.by_line);
        status = give(server, words, rest.at, size);
        say(server);
        rest.at += size, rest.length -= size;
    }
    if (metad_close(&server) || server) return 8;
    free(text.at);
    free(classes.at);
    return (int)status;
}
