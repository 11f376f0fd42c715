/* paper_sheet and paper_mark: the sample papers, files made here at each limit and one past it, each refusal, and what a refused
   call leaves alone. */
#include "papers.h"
#include "check.h"

#include <stdio.h>
#include <stdlib.h>
#include <string.h>

/* One byte more than a question file may have, so that one too long has room. */
#define FILE_ROOM (TURMEXOL_QUESTION_BYTES + 1)
#define FILLED 0x5a

struct file {
    uint8_t bytes[FILE_ROOM];
    size_t len;
};

static struct file paper;
static uint8_t out[TURMEXOL_SHEET_BYTES];
static uint8_t answers[TURMEXOL_EVENTS + 1];

/* ---- question files */
static void put32(struct file *f, size_t at, uint32_t value)
{
    for (int i = 0; i < 4; i++)
        f->bytes[at + i] = (uint8_t)(value >> 8 * i);
}

/* A file of events of one length, whose bodies are zero but for their kind. */
static void start(struct file *f, uint32_t air, uint32_t events, uint32_t len, uint8_t kind)
{
    memset(f, 0, sizeof *f);
    put32(f, 0, events);
    put32(f, 4, air);
    f->len = 8 + 8 * (size_t)events;
    for (uint32_t i = 0; i < events; i++) {
        put32(f, 8 + 8 * i, (uint32_t)f->len);
        put32(f, 12 + 8 * i, len);
        f->bytes[f->len] = kind;
        f->len += len;
    }
}

/* A file of one event. */
static void one(struct file *f, uint8_t kind, uint32_t len)
{
    start(f, 1, 1, len, kind);
}

/* The one event's byte at a place of its body. */
static void set(struct file *f, size_t at, uint8_t byte)
{
    f->bytes[16 + at] = byte;
}

static uint32_t events_of(const struct file *f)
{
    return f->bytes[0] + 256u * f->bytes[1];
}

static void load(struct file *f, const char *folder, const char *name, const char *end)
{
    char path[4096];
    FILE *from;
    snprintf(path, sizeof path, "%s/%s.%s", folder, name, end);
    memset(f, 0, sizeof *f);
    from = fopen(path, "rb");
    if (!from) {
        perror(path);
        exit(2);
    }
    f->len = fread(f->bytes, 1, sizeof f->bytes, from);
    fclose(from);
}

/* ---- sheets */
/* Whether all of the output from a byte on is as it was filled. */
static int untouched(size_t from)
{
    for (size_t at = from; at < sizeof out; at++)
        if (out[at] != FILLED) return 0;
    return 1;
}

/* The sheet into so much room. */
static int64_t sheet(const struct file *f, size_t room)
{
    memset(out, FILLED, sizeof out);
    return paper_sheet(f->bytes, f->len, out, room);
}

/* The sheet is this text, also in room of just its length, and in less there is none. */
static int sheet_is(const struct file *f, const void *text, size_t len)
{
    return sheet(f, len) == (int64_t)len && memcmp(out, text, len) == 0 && untouched(len) &&
           sheet(f, sizeof out) == (int64_t)len && memcmp(out, text, len) == 0 && untouched(len) &&
           (len == 0 || (sheet(f, len - 1) == -TURMEXOL_SHEET_ROOM && untouched(0)));
}

static int prints(const struct file *f, const char *text)
{
    return sheet_is(f, text, strlen(text));
}

/* ---- marks */
static int64_t marked(const struct file *f, size_t count, uint32_t *right, uint32_t *counted)
{
    *right = *counted = 77;
    return paper_mark(f->bytes, f->len, answers, count, right, counted);
}

static int marks(const struct file *f, uint32_t right, uint32_t counted)
{
    uint32_t r, c;
    return marked(f, events_of(f), &r, &c) == 0 && r == right && c == counted;
}

static int mark_refused(const struct file *f, size_t count, int cause)
{
    uint32_t r, c;
    return marked(f, count, &r, &c) == -cause && r == 77 && c == 77;
}

/* Both calls turn the file away with the cause, and leave what they were lent. */
static int refused(const struct file *f, int cause)
{
    return sheet(f, sizeof out) == -cause && untouched(0) && mark_refused(f, events_of(f), cause);
}

/* ---- the sample papers */
/* The choices of a sheet as answers; how many there are. Where an event is refused, an answer that no rung has. */
static uint32_t choices(const struct file *text)
{
    uint32_t counted = 0, event;
    unsigned choice;
    const char *line = (const char *)text->bytes;
    while (*line && sscanf(line, "%u", &event) == 1) {
        answers[event - 1] = 255;
        if (sscanf(line, "%u %u", &event, &choice) == 2) {
            answers[event - 1] = (uint8_t)choice;
            counted++;
        }
        line = strchr(line, '\n') + 1;
    }
    return counted;
}

static void check_sample(const char *folder, const char *name)
{
    static struct file text;
    uint32_t counted, events;
    load(&paper, folder, name, "q");
    load(&text, folder, name, "sheet");
    CHECK(sheet_is(&paper, text.bytes, text.len));

    events = events_of(&paper);
    counted = choices(&text);
    CHECK(counted > 0 && marks(&paper, counted, counted));
    for (uint32_t i = 0; i < events; i++) {
        uint8_t choice = answers[i];
        answers[i] = (uint8_t)(choice ^ 64);
        CHECK(marks(&paper, choice == 255 ? counted : counted - 1, counted));
        answers[i] = choice;
    }
    CHECK(mark_refused(&paper, events - 1, TURMEXOL_ANSWER_COUNT));
    CHECK(mark_refused(&paper, events + 1, TURMEXOL_ANSWER_COUNT));
    CHECK(mark_refused(&paper, 0, TURMEXOL_ANSWER_COUNT));
}

/* Document 01's own four lines, and the first byte of each of its forms made wrong. */
static void check_four_lines(const char *folder)
{
    load(&paper, folder, "four-lines", "q");
    CHECK(prints(&paper, "1 19 - 0 0 0\n2 17 - 0 0 0\n3 0 - 0 0 0\n4 refused 8\n"));
    memcpy(answers, "\023\021\000\000", 4);
    CHECK(marks(&paper, 3, 3));
    paper.bytes[8]++;
    CHECK(refused(&paper, TURMEXOL_FILE_PAIRS));
    paper.bytes[8]--;
    paper.len--;
    CHECK(refused(&paper, TURMEXOL_FILE_PAIRS));
    paper.len += 2;
    CHECK(refused(&paper, TURMEXOL_FILE_PAIRS));
    paper.len--;
    paper.bytes[40] = 8;
    CHECK(refused(&paper, TURMEXOL_FILE_BODY));
    paper.bytes[4] = 3;
    CHECK(refused(&paper, TURMEXOL_FILE_HEADER));
}

/* ---- the limits of a file */
static void check_sizes(void)
{
    start(&paper, 1, 0, 0, 0);
    CHECK(prints(&paper, "") && marks(&paper, 0, 0));
    CHECK(mark_refused(&paper, 1, TURMEXOL_ANSWER_COUNT));
    paper.len = 7;
    CHECK(refused(&paper, TURMEXOL_FILE_HEADER));
    paper.len = 0;
    CHECK(refused(&paper, TURMEXOL_FILE_HEADER));
    paper.len = 9;
    CHECK(refused(&paper, TURMEXOL_FILE_PAIRS));
    start(&paper, 0, 0, 0, 0);
    CHECK(refused(&paper, TURMEXOL_FILE_HEADER));

    /* prices with 16,359 and 16,372 burst counts */
    start(&paper, 2, 2, 32743, 6);
    put32(&paper, 20, 32769);
    paper.len = 65536;
    paper.bytes[24 + 32743] = 6;
    CHECK(prints(&paper, "1 refused 9\n2 refused 9\n"));
    one(&paper, 6, 25 + 2 * 32748);
    CHECK(paper.len == 65537 && refused(&paper, TURMEXOL_FILE_HEADER));
    one(&paper, 6, 25 + 2 * 32747);
    CHECK(paper.len == 65535 && prints(&paper, "1 refused 9\n"));
}

/* 1,000 silences leave place 0: 11 bytes a line besides the event's number, and the numbers have 2,893 digits. */
static void check_events(void)
{
    start(&paper, 1, TURMEXOL_EVENTS, 5, 3);
    CHECK(sheet(&paper, sizeof out) == 2893 + 11 * TURMEXOL_EVENTS);
    CHECK(memcmp(out, "1 0 - 0 0 0\n2 0 - 0 0 0\n", 24) == 0);
    CHECK(memcmp(out + 2893 + 11 * TURMEXOL_EVENTS - 15, "1000 0 - 0 0 0\n", 15) == 0);
    CHECK(untouched(2893 + 11 * TURMEXOL_EVENTS));
    memset(answers, 0, sizeof answers);
    CHECK(marks(&paper, TURMEXOL_EVENTS, TURMEXOL_EVENTS));
    answers[TURMEXOL_EVENTS - 1] = 1;
    CHECK(marks(&paper, TURMEXOL_EVENTS - 1, TURMEXOL_EVENTS));
    start(&paper, 1, TURMEXOL_EVENTS + 1, 5, 3);
    CHECK(refused(&paper, TURMEXOL_FILE_HEADER));
}

/* ---- the limits of a body */
/* A frame at rung 0 with these flags, no SNR, an air of 2 s and no capacity. */
static void frame(uint8_t flags)
{
    one(&paper, 1, 22);
    set(&paper, 11, flags);
    set(&paper, 21, 0x40);
}

static void check_frames(void)
{
    for (uint8_t flags = 0; flags < 8; flags++) {
        frame(flags);
        CHECK(prints(&paper, "1 0 - 0 0 0\n"));
    }
    frame(8);
    CHECK(refused(&paper, TURMEXOL_FILE_BODY));
    frame(0);
    set(&paper, 10, 20);
    CHECK(prints(&paper, "1 refused 6\n"));
    one(&paper, 1, 10 + 12 * 257);
    CHECK(prints(&paper, "1 refused 7\n"));
}

/* A family is 0 or 1, the own one and the other. */
static void check_families(size_t at)
{
    for (uint8_t byte = 0; byte < 2; byte++) {
        one(&paper, 5, 3);
        set(&paper, at, byte);
        CHECK(prints(&paper, "1 0 - 0 0 0\n"));
    }
    set(&paper, at, 2);
    CHECK(refused(&paper, TURMEXOL_FILE_BODY));
}

/* A missing reading has no bits, -0.0's included; and there is no kind 8. */
static void check_readings(void)
{
    one(&paper, 4, 10);
    CHECK(prints(&paper, "1 0 - 0 0 0\n"));
    set(&paper, 9, 0x80);
    CHECK(refused(&paper, TURMEXOL_FILE_BODY));
    set(&paper, 1, 1);
    CHECK(prints(&paper, "1 0 - 0 0 0\n"));
    set(&paper, 1, 2);
    CHECK(refused(&paper, TURMEXOL_FILE_BODY));
    one(&paper, 8, 5);
    CHECK(refused(&paper, TURMEXOL_FILE_BODY));
}

void check_papers(const char *folder)
{
    static const char *const names[] = {"climb-and-fade", "echo-narrow", "first-try", "four-lines", "turned-away"};
    for (size_t i = 0; i < sizeof names / sizeof names[0]; i++)
        check_sample(folder, names[i]);
    check_four_lines(folder);
    check_sizes();
    check_events();
    check_frames();
    check_families(1);
    check_families(2);
    check_readings();
}
