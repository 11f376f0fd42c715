/* Calls every function of turmexol.h with good and bad input and holds what it answers, writes and leaves alone to document 01's
   numbers and to the sample papers, whose folder is the one argument. Its status is 0 only where all checks hold. */
#include "check.h"
#include "papers.h"
#include "tables.h"

#include <stdio.h>
#include <string.h>

static unsigned checked, failed;

void check_at(const char *file, int line, int holds, const char *what)
{
    checked++;
    if (!holds) {
        failed++;
        printf("%s:%d: does not hold: %s\n", file, line, what);
    }
}

/* The status of a refused call. */
static void check_statuses(void)
{
    static const int causes[] = {
        TURMEXOL_COLUMN_SIZE,     TURMEXOL_COLUMNS_DIFFER, TURMEXOL_TABLE_VALUE,     TURMEXOL_FLOOR_COUNT,     TURMEXOL_EMPTY_FRONT,
        TURMEXOL_UNKNOWN_RUNG,    TURMEXOL_TOO_MANY_FRAMES, TURMEXOL_OUTSIDE_LIMITS, TURMEXOL_TOO_MANY_BURSTS, TURMEXOL_FILE_HEADER,
        TURMEXOL_FILE_PAIRS,      TURMEXOL_FILE_BODY,      TURMEXOL_SHEET_ROOM,      TURMEXOL_ANSWER_COUNT,
    };
    int count = (int)(sizeof causes / sizeof causes[0]);
    CHECK(count == 14);
    for (int i = 0; i < count; i++)
        CHECK(causes[i] == i + 1);
}

int main(int count, char **words)
{
    if (count != 2) {
        fprintf(stderr, "usage: %s PAPERS-FOLDER\n", words[0]);
        return 2;
    }
    check_statuses();
    check_tables();
    check_papers(words[1]);
    printf("c: %u checks, %u failed\n", checked, failed);
    return failed > 0;
}
