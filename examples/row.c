/*
 * Three jobs in one call, from C: two points, a job of no bytes, and the same two
 * points of another version. Prints for each the length of its answer, or the number
 * of its refusal.
 *
 *     ./library register
 *     cc -I include examples/row.c target/staticlib/libregister.a -o row
 *     ./row
 */
#include "register.h"

#include <inttypes.h>
#include <stdio.h>
#include <string.h>

/* The row's bytes, put in one behind another. */
struct bytes {
    uint8_t at[512];
    size_t length;
};

/* The lowest bytes of a number, the lowest first. */
static void put(struct bytes *to, uint64_t number, int count)
{
    for (int i = 0; i < count; i++)
        to->at[to->length++] = (uint8_t)(number >> (8 * i));
}

static void put_double(struct bytes *to, double number)
{
    uint64_t bits;
    memcpy(&bits, &number, sizeof bits);
    put(to, bits, 8);
}

/* Two points on a line, as a job of rank 2. */
static struct bytes segment(unsigned version)
{
    struct bytes job = {.length = 0};

    put(&job, 'F', 1);
    put(&job, 'C', 1);
    put(&job, 'T', 1);
    put(&job, version, 2);
    put(&job, 2, 1); /* rank */
    put(&job, 1, 1); /* coordinates */
    put(&job, 2, 1); /* points */
    put(&job, 1, 2); /* rows */
    put(&job, 0, 1); /* flags: no min, no max, no entry limit */
    put(&job, 1000, 4); /* budget */
    put_double(&job, 0); /* offset */
    put_double(&job, 1); /* basis */
    put_double(&job, 0);
    put_double(&job, 1);
    put(&job, 0, 1); /* the identity */
    put(&job, 1, 1);
    return job;
}

/* A job behind its length. */
static void add(struct bytes *row, const struct bytes *job)
{
    put(row, job->length, 4);
    memcpy(row->at + row->length, job->at, job->length);
    row->length += job->length;
}

/* A number of so many bytes. */
static uint32_t number(const uint8_t *at, int count)
{
    uint32_t value = 0;
    while (count-- > 0)
        value = value << 8 | at[count];
    return value;
}

int main(void)
{
    static const struct bytes empty = {.length = 0};
    struct bytes one = segment(1), other = segment(65535), row = {.length = 0};
    uint8_t workspace[1], answer[4096];

    add(&row, &one);
    add(&row, &empty);
    add(&row, &other);
    int64_t length = register_batch(row.at, row.length, workspace,
                                    REGISTER_WORKSPACE_RANK_2, answer,
                                    sizeof answer);
    if (length < 0) {
        fprintf(stderr, "row: refused %" PRId64 "\n", -length);
        return 1;
    }
    for (const uint8_t *at = answer; at < answer + length;) {
        uint32_t many = number(at, 4), refusal = number(at + 4, 2);
        if (refusal)
            printf("refused %" PRIu32 "\n", refusal);
        else
            printf("answered, %" PRIu32 " bytes\n", many);
        at += 6 + many;
    }
    return 0;
}
