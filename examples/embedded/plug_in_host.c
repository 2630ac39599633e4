/* A host and a plug-in, each with a session of its own in a server inside this program: plug_in_host CLASSES
   The plug-in gives lines that the host does not trust: metad_line_for takes them for the plug-in's session, whatever they say. */
#include <metad.h>
#include <stdio.h>
#include <stdlib.h>
#include <string.h>

static const char *const of_host[] = {
    "{\"do\":\"new\",\"class\":\"Host\"}",
    "{\"do\":\"publish\",\"object\":1,\"signal\":\"word(QString)\",\"name\":\"word\"}",
};
static const char *const of_plug_in[] = {
    "{\"do\":\"new\",\"class\":\"Speller\"}",
    "{\"do\":\"join\",\"from\":\"host\",\"name\":\"word\",\"types\":[\"QString\"],\"object\":1,\"method\":\"check(QString)\"}",
    "{\"session\":\"host\",\"do\":\"set\",\"object\":1,\"property\":\"objectName\",\"value\":\"mine\"}",
};
static const char says[] = "{\"do\":\"invoke\",\"object\":1,\"method\":\"word(QString)\",\"args\":[\"teh\"]}";
static const char looks[] = "{\"do\":\"get\",\"object\":1,\"property\":\"objectName\"}", spins[] = "{\"do\":\"spin\"}";

/* Prints a line, and its answer. */
static void give(metad *server, const char *session, const char *line) {
    char answer[4096];
    size_t length;
    metad_status status = metad_line_for(server, session, line, strlen(line));
    if (status != METAD_DONE) {
        fprintf(stderr, "plug_in_host: status %d\n", (int)status);
        exit(1);
    }
    printf("%s: %s\n", session, line);
    do {
        status = metad_output(server, answer, sizeof answer, &length);
        fwrite(answer, 1, length, stdout);
    } while (status == METAD_MORE);
}

static size_t read_classes(const char *name, char *classes, size_t room) {
    FILE *file = fopen(name, "rb");
    if (!file) {
        perror(name);
        exit(1);
    }
    size_t length = fread(classes, 1, room, file);
    fclose(file);
    return length;
}

int main(int count, char **words) {
    static char classes[1 << 20];
    struct metad_fault fault = {0, 0};
    metad *server;
    if (count != 2) return fprintf(stderr, "usage: plug_in_host CLASSES\n"), 2;
    size_t length = read_classes(words[1], classes, sizeof classes);
    metad_status status = metad_open(&server, classes, length, METAD_TURNS, NULL, &fault);
    if (status != METAD_DONE) {
        fprintf(stderr, "plug_in_host: status %d, C0%u in class %u\n", (int)status, (unsigned)fault.kind, (unsigned)fault.class_number);
        return 1;
    }
    for (size_t at = 0; at < sizeof of_host / sizeof *of_host; at++) give(server, "host", of_host[at]);
    for (size_t at = 0; at < sizeof of_plug_in / sizeof *of_plug_in; at++) give(server, "plug_in", of_plug_in[at]);
    give(server, "host", says);
    give(server, "plug_in", spins);
    give(server, "host", looks);
    metad_close(&server);
    return 0;
}
