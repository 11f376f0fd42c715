/* How much of the stack the calls take: each runs in a thread whose stack is filled before, and what is no longer as it was filled
   was used. The arguments are question files. Prints the most; the status is 0 only where that is at most TURMEXOL_STACK. */
#define _POSIX_C_SOURCE 200809L
#include "turmexol.h"

#include <pthread.h>
#include <stdio.h>
#include <stdlib.h>
#include <string.h>
#include <unistd.h>

#define STACK (1u << 20)
#define FILLED 0xa5

static uint8_t *stack;
static uint8_t question[TURMEXOL_QUESTION_BYTES], out[TURMEXOL_SHEET_BYTES], answers[TURMEXOL_EVENTS];
static size_t question_len, answer_count;
static int64_t status;

/* ---- the calls, each as a thread */
static void *nothing(void *none)
{
    return none;
}

static void *call_sheet(void *none)
{
    status = paper_sheet(question, question_len, out, sizeof out);
    return none;
}

static void *call_mark(void *none)
{
    static uint32_t right, counted;
    status = paper_mark(question, question_len, answers, answer_count, &right, &counted);
    return none;
}

static void *call_probability(void *none)
{
    static double p;
    status = rate_decode_probability(1.0, 2.0, 0.5, &p);
    return none;
}

/* A table of 32 rungs, all on the front. */
static double thresholds[32], times[32], limits[32];
static uint32_t payloads[32];
static uint8_t known[32];

static void *call_modes(void *none)
{
    static uint32_t modes[32];
    status = rate_usable_modes(thresholds, 32, payloads, 32, times, 32, &modes) - 32;
    return none;
}

static void *call_refusal(void *none)
{
    status = rate_table_refusal(thresholds, 32, payloads, 32, payloads, 32, times, 32, 6, known, 32, limits, 32);
    return none;
}

static void fill_table(void)
{
    for (uint32_t r = 0; r < 32; r++) {
        thresholds[r] = r;
        payloads[r] = 10 + r;
        times[r] = 1.0;
        known[r] = 1;
        limits[r] = 0.5;
    }
}

/* ---- measuring */
static void stop(const char *what)
{
    fprintf(stderr, "stack: %s\n", what);
    exit(2);
}

/* How much of its stack a thread used, the system's own part included. */
static size_t used(void *(*call)(void *))
{
    pthread_attr_t attributes;
    pthread_t thread;
    size_t at = 0;
    memset(stack, FILLED, STACK);
    status = -1;
    if (pthread_attr_init(&attributes) || pthread_attr_setstack(&attributes, stack, STACK) ||
        pthread_create(&thread, &attributes, call, NULL) || pthread_join(thread, NULL))
        stop("no thread on a stack of its own");
    pthread_attr_destroy(&attributes);
    while (at < STACK && stack[at] == FILLED)
        at++;
    return STACK - at;
}

static size_t most;

/* Measures an accepted call against a thread that calls nothing. */
static void measure(const char *name, void *(*call)(void *))
{
    size_t own = used(nothing), with = used(call);
    size_t taken = with > own ? with - own : 0;
    if (status < 0) stop(name);
    if (taken > most) {
        most = taken;
        printf("stack: %s took %zu bytes\n", name, taken);
    }
}

static void load(const char *path)
{
    FILE *from = fopen(path, "rb");
    if (!from) {
        perror(path);
        exit(2);
    }
    question_len = fread(question, 1, sizeof question, from);
    fclose(from);
    answer_count = question[0] + 256u * question[1];
}

int main(int count, char **words)
{
    long page = sysconf(_SC_PAGESIZE);
    if (count < 2) stop("no question file is given");
    if (page <= 0 || posix_memalign((void **)&stack, (size_t)page, STACK)) stop("no memory");
    fill_table();
    measure("rate_decode_probability", call_probability);
    measure("rate_usable_modes", call_modes);
    measure("rate_table_refusal", call_refusal);
    for (int i = 1; i < count; i++) {
        load(words[i]);
        measure("paper_sheet", call_sheet);
        measure("paper_mark", call_mark);
    }
    printf("stack: at most %zu bytes of %d\n", most, TURMEXOL_STACK);
    return most > TURMEXOL_STACK;
}
