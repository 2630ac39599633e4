/* Answers lines while one allocation is refused, or all from there to the end of the line, for each in turn: refuse FILE [NUMBER],
   with NUMBER only for the first ones.
   Each line that is printed is a fault, but the last, which says how many were refused and how often each status came. */
#include <metad.h>
#include <stdio.h>
#include <stdlib.h>
#include <string.h>

void *__real_malloc(size_t);
void *__real_calloc(size_t, size_t);
void *__real_realloc(void *, size_t);
void __real_free(void *);

static long left = -1, refusals, held; /* how many allocations are made before one is refused; how many blocks are held */
static int lasts; /* whether all that follow are refused, too */

static int is_refused(void) {
    if (left) {
        left -= left > 0;
        return 0;
    }
    refusals++;
    if (!lasts) left = -1;
    return 1;
}

void *__wrap_malloc(size_t size) {
    void *made = is_refused() ? NULL : __real_malloc(size);
    held += made != NULL;
    return made;
}

void *__wrap_calloc(size_t count, size_t size) {
    void *made = is_refused() ? NULL : __real_calloc(count, size);
    held += made != NULL;
    return made;
}

void *__wrap_realloc(void *old, size_t size) {
    void *made = is_refused() ? NULL : __real_realloc(old, size);
    held += made && !old;
    return made;
}

void __wrap_free(void *block) {
    held -= block != NULL;
    __real_free(block);
}

enum { MOST = 1000 };

struct line {
    char *at, *answer;
    size_t length, answer_length;
};

static struct line lines[MOST];
static char text[1 << 20], wanted[1 << 22], came[1 << 22];
static long lines_count, statuses[10];

static void split(size_t length) {
    for (char *at = text, *end; at < text + length && lines_count < MOST; at = end + 1) {
        if (!(end = memchr(at, '\n', (size_t)(text + length - at)))) end = text + length;
        lines[lines_count].at = at;
        lines[lines_count++].length = (size_t)(end - at);
    }
}

/* Gives a line, with its line feed; how many bytes are said. */
static size_t give(metad *server, struct line *line, metad_status *status) {
    size_t length, used, size = line->length + (line->at[line->length] == '\n');
    *status = metad_lines(server, line->at, size, &used);
    if (refusals) left = -1;
    if (used != (*status == METAD_NO_MEMORY ? 0 : size)) printf("%lu bytes are used, and not all or none\n", (unsigned long)used);
    statuses[*status]++;
    if (metad_output(server, came, sizeof came, &length)) printf("the answer is too long\n");
    return length;
}

static int has(size_t length, const char *part) {
    came[length] = 0;
    return strstr(came, part) != NULL;
}

/* Answers all lines. An answer is the wanted one unless an allocation was refused for it: then it may be lost, or no command was
   done, so that the line is given again, or a session has failed, and what follows is not compared. A session that was posted to
   fails in silence, and says so at its next command. */
static void answer(metad *server, long number) {
    for (long at = 0; at < lines_count; at++) {
        struct line *line = &lines[at];
        metad_status status;
        long before = refusals;
        size_t length = give(server, line, &status);
        int was_refused = refusals > before;
        if (status == METAD_DONE && length == line->answer_length && !memcmp(came, line->answer, length)) continue;
        if (refusals && status == METAD_DONE && has(length, "\"error\":\"E20\"")) return;
        if (!was_refused) printf("%ld: line %ld has another answer\n", number, at + 1);
        else if (status == METAD_ANSWER_LOST && !length && !lasts) continue;
        else if (status == METAD_ANSWER_LOST && !length) return; /* its session may have failed */
        else if (status == METAD_NO_MEMORY && !length) at--;
        else if (status == METAD_DONE && has(length, "{\"error\":\"E21\",\"session\":\"-\"}\n")) at--;
        else if (status == METAD_DONE && has(length, "\"error\":\"E21\"")) return;
        else printf("%ld: line %ld ends with status %d\n", number, at + 1, (int)status);
    }
}

/* Notes what is answered where nothing is refused. */
static void note(metad *server) {
    char *end = wanted;
    for (long at = 0; at < lines_count; at++) {
        metad_status status;
        size_t length = give(server, &lines[at], &status);
        memcpy(end, came, length);
        lines[at].answer = end, lines[at].answer_length = length;
        end += length;
    }
}

static void try_one(long number) {
    metad *server;
    long before = held;
    left = number, refusals = 0;
    metad_status status = metad_open(&server, NULL, 0, METAD_TURNS, NULL, NULL);
    statuses[status]++;
    if (status == METAD_DONE) answer(server, number);
    else if (status != METAD_NO_MEMORY || server) printf("%ld: status %d\n", number, (int)status);
    left = -1;
    if (status == METAD_DONE) metad_close(&server);
    if (held != before) printf("%ld: %ld blocks are left\n", number, held - before);
}

int main(int count, char **words) {
    FILE *file = count > 1 ? fopen(words[1], "rb") : NULL;
    metad *server;
    if (!file) return 9;
    split(fread(text, 1, sizeof text, file));
    fclose(file);
    left = 1L << 40;
    if (metad_open(&server, NULL, 0, METAD_TURNS, NULL, NULL)) return 8;
    note(server);
    long most = (1L << 40) - left;
    left = -1;
    metad_close(&server);
    if (count > 2 && strtol(words[2], NULL, 10) < most) most = strtol(words[2], NULL, 10);
    memset(statuses, 0, sizeof statuses);
    for (lasts = 0; lasts < 2; lasts++)
        for (long number = 0; number < most; number++) try_one(number);
    printf("refused %ld: %ld done, %ld not done, %ld lost\n", most, statuses[METAD_DONE], statuses[METAD_NO_MEMORY],
           statuses[METAD_ANSWER_LOST]);
    return 0;
}
