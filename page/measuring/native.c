// The proved library's archive, timed: takes the list of calls, and then lines of `give N` or `time N` on standard input, the first call being 0.
// `give` is answered with what the call gives, as browser.js has it; `time` with the nanoseconds that a call takes.
#define _POSIX_C_SOURCE 200809L
#include <stdio.h>
#include <stdlib.h>
#include <string.h>
#include <time.h>

#include "../sundewfrill.h"

enum { CALLS = 64, BUFFER = 65536, DIRT = 0xa5 };
// How long a round takes at least.
static const double ROUND_NS = 20e6;

// A line of the list: its byte strings and its numbers, each in their order.
struct call {
    const struct form *form;
    u8 *part[2];
    u64 length[2];
    u64 number[6];
};

static struct call calls[CALLS];
static size_t count;
static u8 output[BUFFER], scratch[BUFFER];
static u64 told[6];

static void find(const struct call *c) {
    told[0] = sundewfrill_find(c->part[0], c->length[0], c->number[0], c->number[1], c->number[2], &told[1], &told[2], &told[3]);
}

static void replace(const struct call *c) {
    told[0] = sundewfrill_replace(c->part[0], c->length[0], c->part[1], c->length[1], output, c->number[3], c->number[0], c->number[1], c->number[2],
                                  &told[1]);
}

static void check(const struct call *c) {
    told[0] = sundewfrill_check(c->part[0], c->length[0], &told[1], &told[2], &told[3], &told[4], &told[5]);
}

static void convert(const struct call *c) {
    told[0] = sundewfrill_convert(c->part[0], c->length[0], c->part[1], c->length[1], output, c->number[4], scratch, c->number[5], c->number[0],
                                  c->number[1], c->number[2], c->number[3], &told[1], &told[2]);
}

static void ceiling(const struct call *c) {
    told[0] = sundewfrill_ceiling(c->part[0], c->length[0], c->part[1], c->length[1], c->number[0], c->number[1], c->number[2], &told[1]);
}

static void typed_date(const struct call *c) {
    told[0] = sundewfrill_typed_date(c->part[0], c->length[0], c->part[1], c->length[1], &told[1], &told[2]);
}

static void algebra(const struct call *c) { told[0] = sundewfrill_algebra(c->part[0], c->length[0], output, c->number[0], &told[1]); }

// The fields of each call, b for bytes, n for a number, l for the length of a buffer; how many numbers it tells, and whether the last of them is
// the length of an answer.
static const struct form {
    const char *name, *fields;
    void (*run)(const struct call *);
    size_t tells;
    int answers;
} FORMS[] = {
    {"find", "bnnn", find, 4, 0},
    {"replace", "bnnnbl", replace, 2, 1},
    {"check", "b", check, 6, 0},
    {"convert", "bbnnnnll", convert, 3, 1},
    {"ceilingof", "bbnnn", ceiling, 2, 0},
    {"date", "bb", typed_date, 3, 0},
    {"acode", "bl", algebra, 2, 1},
};

static void fail(const char *why) {
    fprintf(stderr, "page/measure: the native side: %s\n", why);
    exit(1);
}

static const struct form *form_of(const char *name) {
    for (size_t i = 0; i < sizeof FORMS / sizeof *FORMS; i++)
        if (strcmp(name, FORMS[i].name) == 0) return &FORMS[i];
    fail("a call that it does not know");
    return NULL;
}

static char *next_field(void) {
    char *field = strtok(NULL, "\t\n");
    if (!field) fail("a call with a field too few");
    return field;
}

static u8 digit(char letter) { return letter <= '9' ? letter - '0' : letter - 'a' + 10; }

static void read_bytes(const char *field, u8 **part, u64 *length) {
    *length = strcmp(field, "-") == 0 ? 0 : strlen(field) / 2;
    *part = malloc(*length + 1);
    if (!*part) fail("no memory");
    for (u64 i = 0; i < *length; i++) (*part)[i] = digit(field[2 * i]) << 4 | digit(field[2 * i + 1]);
}

static void read_call(char *line) {
    if (count == CALLS || !strtok(line, "\t\n")) fail("a list that is too long, or an empty line in it");
    struct call *call = &calls[count++];
    call->form = form_of(next_field());
    size_t parts = 0, numbers = 0;
    for (const char *kind = call->form->fields; *kind; kind++) {
        char *field = next_field();
        if (*kind == 'b') {
            read_bytes(field, &call->part[parts], &call->length[parts]);
            parts++;
            continue;
        }
        u64 number = strtoull(field, NULL, 10);
        if (*kind == 'l' && number > BUFFER) fail("a buffer that is too long");
        call->number[numbers++] = number;
    }
}

static void read_list(const char *name) {
    char *line = NULL;
    size_t room = 0;
    FILE *list = fopen(name, "r");
    if (!list) fail("no list of calls");
    while (getline(&line, &room, list) > 0) read_call(line);
    free(line);
    fclose(list);
}

// Numbers and then the bytes of the answer, parted by blanks; on dirty buffers, so that what is not written is seen.
static void give(const struct call *call) {
    memset(output, DIRT, sizeof output);
    memset(scratch, DIRT, sizeof scratch);
    memset(told, 0xff, sizeof told);
    call->form->run(call);
    for (size_t i = 0; i < call->form->tells; i++) printf(i == 0 ? "%lu" : " %lu", told[i]);
    u64 length = call->form->answers ? told[call->form->tells - 1] : 0;
    if (call->form->answers) printf(length == 0 ? " -" : " ");
    for (u64 i = 0; i < length && i < BUFFER; i++) printf("%02x", output[i]);
    printf("\n");
}

static double now(void) {
    struct timespec time;
    clock_gettime(CLOCK_MONOTONIC, &time);
    return time.tv_sec * 1e9 + time.tv_nsec;
}

// One round: the call over and over, twice as often each time, until that takes long enough.
static double round_of(const struct call *call) {
    for (u64 times = 1;; times *= 2) {
        double started = now();
        for (u64 i = 0; i < times; i++) call->form->run(call);
        double taken = now() - started;
        if (taken >= ROUND_NS) return taken / times;
    }
}

int main(int words, char **word) {
    char asked[5];
    size_t number;
    if (words != 2) fail("it takes the list of calls");
    read_list(word[1]);
    while (scanf("%4s %zu", asked, &number) == 2) {
        if (number >= count) fail("a call that is not in the list");
        if (strcmp(asked, "give") == 0) give(&calls[number]);
        else printf("%.1f\n", round_of(&calls[number]));
        fflush(stdout);
    }
    return 0;
}
