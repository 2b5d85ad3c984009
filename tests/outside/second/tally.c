#define _GNU_SOURCE
#include "tally.h"

#include <signal.h>
#include <stdio.h>
#include <stdlib.h>
#include <string.h>
#include <unistd.h>

/* What is compared now */

enum { PIECES = 8, NUMBERS = 16, WATCHED = 16 };

static struct {
    uint64_t seed, number;
    const char *kind, *call;
    enum placing placing;
    struct { const char *name; const uint8_t *bytes; size_t size; } pieces[PIECES];
    struct { const char *name; long long value; } numbers[NUMBERS];
    unsigned piece_count, number_count;
} now;

static volatile sig_atomic_t calls;

void case_begins(uint64_t seed, const char *kind, uint64_t number)
{
    now.seed = seed;
    now.kind = kind;
    now.number = number;
    now.call = NULL;
    now.piece_count = now.number_count = 0;
}

void call_begins(const char *call, enum placing placing)
{
    now.call = call;
    now.placing = placing;
    now.piece_count = now.number_count = 0;
    calls++;
}

void call_piece(const char *name, const void *bytes, size_t size)
{
    if (now.piece_count == PIECES)
        abort();
    now.pieces[now.piece_count].name = name;
    now.pieces[now.piece_count].bytes = bytes;
    now.pieces[now.piece_count].size = size;
    now.piece_count++;
}

void call_number(const char *name, long long value)
{
    if (now.number_count == NUMBERS)
        abort();
    now.numbers[now.number_count].name = name;
    now.numbers[now.number_count].value = value;
    now.number_count++;
}

static void print_hex(const uint8_t *bytes, size_t size)
{
    for (size_t i = 0; i < size; i++)
        printf("%s%02X", i % 32 == 0 ? "\n    " : " ", bytes[i]);
    printf("\n");
}

static void print_case(void)
{
    printf("  seed %llu, kind %s, case %llu", (unsigned long long)now.seed, now.kind, (unsigned long long)now.number);
    if (now.call)
        printf(", call %s, lent %s", now.call, placing_names[now.placing]);
    printf("\n");
    for (unsigned i = 0; i < now.number_count; i++)
        printf("  %s = %lld\n", now.numbers[i].name, now.numbers[i].value);
    for (unsigned i = 0; i < now.piece_count; i++) {
        printf("  %s, %zu bytes:", now.pieces[i].name, now.pieces[i].size);
        print_hex(now.pieces[i].bytes, now.pieces[i].size);
    }
}

static void ends(void)
{
    print_case();
    printf("second: FAILED\n");
    fflush(stdout);
    exit(1);
}

/* Whose values are compared. */
struct sides { const char *both, *left, *right; };
static const struct sides implementations = {"the library and the second implementation", "library", "second"};
static const struct sides definitions = {"the library and the definition", "library", "definition"};
static const struct sides gifts = {"what is read back and what was given", "library", "given"};
static const struct sides histories = {"two histories", "one", "other"};

static void compare(const struct sides *s, const char *names, const long long *left, const long long *right, unsigned count)
{
    unsigned first = 0;
    while (first < count && left[first] == right[first])
        first++;
    if (first == count)
        return;
    printf("second: %s differ:\n", s->both);
    char word[64];
    for (unsigned i = 0; i < count; i++) {
        size_t n = strcspn(names, " ");
        snprintf(word, sizeof word, "%.*s", (int)n, names);
        names += n + (names[n] == ' ');
        printf("  %-24s %s %lld, %s %lld%s\n", word, s->left, left[i], s->right, right[i], left[i] == right[i] ? "" : "   <--");
    }
    ends();
}

static void compare_bytes(const struct sides *s, const char *name, const uint8_t *left, const uint8_t *right, size_t size)
{
    if (size == 0 || memcmp(left, right, size) == 0)
        return;
    size_t at = 0;
    while (left[at] == right[at])
        at++;
    printf("second: the bytes of %s differ at %zu: %s %02X, %s %02X\n", name, at, s->left, left[at], s->right, right[at]);
    printf("  %s by the %s, %zu bytes:", name, s->left, size);
    print_hex(left, size);
    printf("  %s by the %s, %zu bytes:", name, s->right, size);
    print_hex(right, size);
    ends();
}

void same(const char *names, const long long *library, const long long *second, unsigned count)
{
    compare(&implementations, names, library, second, count);
}

void same_bytes(const char *name, const uint8_t *library, const uint8_t *second, size_t size)
{
    compare_bytes(&implementations, name, library, second, size);
}

void as_defined(const char *names, const long long *library, const long long *definition, unsigned count)
{
    compare(&definitions, names, library, definition, count);
}

void as_given(const char *names, const long long *library, const long long *given, unsigned count)
{
    compare(&gifts, names, library, given, count);
}

void as_given_bytes(const char *name, const uint8_t *library, const uint8_t *given, size_t size)
{
    compare_bytes(&gifts, name, library, given, size);
}

void alike(const char *names, const long long *one, const long long *other, unsigned count)
{
    compare(&histories, names, one, other, count);
}

void alike_bytes(const char *name, const uint8_t *one, const uint8_t *other, size_t size)
{
    compare_bytes(&histories, name, one, other, size);
}

void must(int holds, const char *what)
{
    if (holds)
        return;
    printf("second: this does not hold: %s\n", what);
    ends();
}

/* Faults */

static struct { const char *name; const struct room *room; } watched[WATCHED];
static unsigned watched_count;
static sig_atomic_t calls_before;

void watch_room(const char *name, const struct room *room)
{
    watched[watched_count].name = name;
    watched[watched_count].room = room;
    watched_count++;
}

static void on_fault(int signal, siginfo_t *info, void *context)
{
    (void)context;
    printf("second: the call touched the address %p, outside what it was lent (signal %d)\n", info->si_addr, signal);
    for (unsigned i = 0; i < watched_count; i++) {
        const struct room *r = watched[i].room;
        const uint8_t *a = info->si_addr;
        if (room_guards(r, a))
            printf("  that is a guard page of %s\n", watched[i].name);
        else if (a >= r->pages && a < r->pages + r->capacity)
            printf("  that is a write to %s, which is lent for reading\n", watched[i].name);
    }
    ends();
}

/* A call takes microseconds: the same one, still there after a whole minute, does not come back. */
static void on_alarm(int signal)
{
    (void)signal;
    if (calls == calls_before && now.call) {
        printf("second: the call does not come back\n");
        ends();
    }
    calls_before = calls;
    alarm(60);
}

void watch(void)
{
    static uint8_t stack[65536];
    stack_t other = {.ss_sp = stack, .ss_size = sizeof stack};
    struct sigaction fault = {.sa_sigaction = on_fault, .sa_flags = SA_SIGINFO | SA_ONSTACK};
    struct sigaction late = {.sa_handler = on_alarm};
    sigaltstack(&other, NULL);
    sigaction(SIGSEGV, &fault, NULL);
    sigaction(SIGBUS, &fault, NULL);
    sigaction(SIGILL, &fault, NULL);
    sigaction(SIGTRAP, &fault, NULL);
    sigaction(SIGFPE, &fault, NULL);
    sigaction(SIGALRM, &late, NULL);
    alarm(60);
}

/* How often */

enum { CALLS = 192, ANSWERS = 24 };

static struct {
    const char *call;
    struct { char answer[24]; unsigned long times; int wanted; } answers[ANSWERS];
    unsigned count;
} table[CALLS];
static unsigned table_size;

static void met(const char *call, const char *answer, size_t length, unsigned long times, int wanted)
{
    unsigned i = 0, j = 0;
    while (i < table_size && strcmp(table[i].call, call) != 0)
        i++;
    if (i == table_size) {
        if (table_size == CALLS)
            abort();
        table[table_size++].call = call;
    }
    while (j < table[i].count && (strlen(table[i].answers[j].answer) != length ||
                                  memcmp(table[i].answers[j].answer, answer, length) != 0))
        j++;
    if (j == table[i].count) {
        if (j == ANSWERS || length >= sizeof table[i].answers[j].answer)
            abort();
        memcpy(table[i].answers[j].answer, answer, length);
        table[i].count++;
    }
    table[i].answers[j].times += times;
    table[i].answers[j].wanted |= wanted;
}

void met_word(const char *call, const char *word, unsigned long times) { met(call, word, strlen(word), times, 0); }

void met_number(const char *call, unsigned number)
{
    char text[12];
    size_t at = sizeof text;
    do
        text[--at] = (char)('0' + number % 10);
    while (number /= 10);
    met(call, text + at, sizeof text - at, 1, 0);
}

void must_meet(const char *call, const char *answers)
{
    while (*answers) {
        size_t n = strcspn(answers, " ");
        met(call, answers, n, 0, 1);
        answers += n + (answers[n] == ' ');
    }
}

int print_met(void)
{
    int all = 1;
    for (unsigned i = 0; i < table_size; i++) {
        printf("%-20s:", table[i].call);
        for (unsigned j = 0; j < table[i].count; j++) {
            printf("  %s: %lu", table[i].answers[j].answer, table[i].answers[j].times);
            if (table[i].answers[j].wanted && table[i].answers[j].times == 0) {
                printf(" NEVER MET");
                all = 0;
            }
        }
        printf("\n");
    }
    return all;
}
