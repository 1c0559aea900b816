/*
 * The facetings of a square, from C. Makes the bytes of the job, asks the register
 * with a longer buffer as often as it takes, and prints each figure's parts.
 *
 *     ./library register
 *     cc -I include examples/figures.c target/staticlib/libregister.a -o figures
 *     ./figures
 */
#include "register.h"

#include <inttypes.h>
#include <stdio.h>
#include <stdlib.h>
#include <string.h>

/* The job's bytes, put in one behind another. */
struct bytes {
    uint8_t at[512];
    size_t length;
};

/* The lowest bytes of a number, the lowest first. */
static void put(struct bytes *to, uint64_t number, int count)
{
    for (int i = 0; i < count; i++)
        to->at[to->length++] = (uint8_t)(number >> (8 * i));
}

static void put_double(struct bytes *to, double number)
{
    uint64_t bits;
    memcpy(&bits, &number, sizeof bits);
    put(to, bits, 8);
}

/* A square with its eight symmetries; docs/FORMAT.md has the same bytes. */
static struct bytes square(void)
{
    static const double numbers[] = {
        0, 0,                   /* offset */
        1, 0, 0, 1,             /* basis */
        0, 0, 1, 0, 1, 1, 0, 1, /* points */
    };
    static const uint8_t rows[8][4] = {
        {0, 1, 2, 3}, {0, 3, 2, 1}, {1, 0, 3, 2}, {1, 2, 3, 0},
        {3, 0, 1, 2}, {3, 2, 1, 0}, {2, 1, 0, 3}, {2, 3, 0, 1},
    };
    struct bytes job = {.length = 0};

    put(&job, 'F', 1);
    put(&job, 'C', 1);
    put(&job, 'T', 1);
    put(&job, 1, 2); /* version */
    put(&job, 3, 1); /* rank */
    put(&job, 2, 1); /* coordinates */
    put(&job, 4, 1); /* points */
    put(&job, 8, 2); /* rows */
    put(&job, 0, 1); /* flags: no min, no max, no entry limit */
    put(&job, 1000000, 4); /* budget */
    for (size_t i = 0; i < sizeof numbers / sizeof *numbers; i++)
        put_double(&job, numbers[i]);
    for (size_t i = 0; i < sizeof rows; i++)
        put(&job, rows[i / 4][i % 4], 1);
    return job;
}

/*
 * The answer, to be freed, and its length; or no answer and minus the refusal
 * number, or 0 where there is no memory.
 */
static uint8_t *ask(const struct bytes *job, int64_t *length)
{
    size_t workspace_length = REGISTER_WORKSPACE_RANK_4;
    uint8_t *workspace = malloc(workspace_length);
    uint8_t *answer = NULL;
    size_t room = 64;

    *length = -REGISTER_ROOM;
    while (workspace && *length == -REGISTER_ROOM) {
        room *= 4;
        free(answer);
        answer = malloc(room);
        if (!answer)
            break;
        *length = register_answer(job->at, job->length, workspace,
                                  workspace_length, answer, room);
    }
    if (!workspace || !answer)
        *length = 0;
    free(workspace);
    if (*length > 0)
        return answer;
    free(answer);
    return NULL;
}

/* The next number of the answer. */
static uint32_t next(const uint8_t **at)
{
    const uint8_t *b = *at;
    *at += 4;
    return b[0] | (uint32_t)b[1] << 8 | (uint32_t)b[2] << 16 | (uint32_t)b[3] << 24;
}

/* Passes over a figure: ranks of elements of subs. */
static void skip_figure(const uint8_t **at)
{
    for (uint32_t ranks = next(at); ranks > 0; ranks--)
        for (uint32_t elements = next(at); elements > 0; elements--)
            for (uint32_t subs = next(at); subs > 0; subs--)
                next(at);
}

static void print_entries(const uint8_t *at)
{
    next(&at); /* lists examined */
    for (uint32_t orbits = next(&at); orbits > 0; orbits--)
        next(&at); /* an orbit's count */
    uint32_t entries = next(&at);
    printf("figures: %" PRIu32 "\n", entries);
    for (uint32_t e = 0; e < entries; e++) {
        printf("%" PRIu32 ":", e);
        for (uint32_t pairs = next(&at); pairs > 0; pairs--) {
            uint32_t orbit = next(&at);
            printf(" %" PRIu32 ".%" PRIu32, orbit, next(&at));
        }
        printf("\n");
        for (uint32_t pairs = next(&at); pairs > 0; pairs--)
            next(&at), next(&at); /* the list before splitting */
        skip_figure(&at);
    }
}

int main(void)
{
    struct bytes job = square();
    int64_t length;
    uint8_t *answer = ask(&job, &length);

    if (!answer && length < 0)
        fprintf(stderr, "figures: refused %" PRId64 "\n", -length);
    else if (!answer)
        fprintf(stderr, "figures: there is not enough memory\n");
    if (!answer)
        return 1;
    print_entries(answer);
    free(answer);
    return 0;
}
