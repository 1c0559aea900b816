/*
 * Reads an answer on standard input and prints what it says: each figure with its split
 * list, its list before splitting and the number of its elements by rank, and the
 * compounds.
 *
 *     cc -I include examples/reader.c -o reader
 *     ./register --raw examples/cube.txt | ./reader
 */
#include "register_reader.h"

#include <inttypes.h>
#include <stdio.h>
#include <stdlib.h>

enum { MOST_RANKS = 8 };

/* All of standard input; the caller frees it. */
static uint8_t *read_all(size_t *length)
{
    size_t room = 1 << 16;
    uint8_t *bytes = malloc(room);

    *length = 0;
    while (bytes != NULL) {
        *length += fread(bytes + *length, 1, room - *length, stdin);
        if (*length < room)
            return bytes;
        uint8_t *longer = realloc(bytes, room *= 2);
        if (longer == NULL)
            free(bytes);
        bytes = longer;
    }
    return NULL;
}

static void print_list(struct register_reader *reader)
{
    uint32_t pairs = register_count(reader);

    for (uint32_t i = 0; i < pairs && !reader->spoilt; i++) {
        uint32_t orbit = register_word(reader);
        printf(" %" PRIu32 ".%" PRIu32, orbit, register_word(reader));
    }
}

static void print_entry(struct register_reader *reader, uint32_t number)
{
    uint32_t elements[MOST_RANKS];

    printf("%" PRIu32 ":", number);
    print_list(reader);
    printf("; before splitting");
    print_list(reader);
    uint32_t ranks = register_figure(reader, elements, MOST_RANKS);
    printf("; elements");
    for (uint32_t r = 0; r < ranks && r < MOST_RANKS; r++)
        printf(" %" PRIu32, elements[r]);
    printf("\n");
}

static void print_answer(struct register_reader *reader)
{
    uint32_t unused[1];
    printf("examined: %" PRIu32 "\n", register_word(reader));
    uint32_t orbits = register_count(reader);
    register_skip(reader, orbits);
    uint32_t entries = register_count(reader);
    printf("figures: %" PRIu32 "\n", entries);
    for (uint32_t e = 0; e < entries && !reader->spoilt; e++)
        print_entry(reader, e);
    for (uint32_t o = 0; o < orbits && !reader->spoilt; o++) {
        uint32_t facets = register_count(reader);
        for (uint32_t f = 0; f < facets && !reader->spoilt; f++)
            register_figure(reader, unused, 0);
    }
    uint32_t compounds = register_count(reader);
    for (uint32_t c = 0; c < compounds && !reader->spoilt; c++) {
        uint32_t whole = register_word(reader), first = register_word(reader);
        printf("%" PRIu32 " is made of %" PRIu32 " and %" PRIu32 "\n", whole, first,
               register_word(reader));
    }
    register_skip(reader, (size_t)3 * entries);
}

int main(void)
{
    size_t length;
    uint8_t *answer = read_all(&length);
    if (answer == NULL)
        return 3;
    struct register_reader reader = register_reader(answer, length);
    print_answer(&reader);
    int fine = register_ended(&reader);
    free(answer);
    if (!fine)
        fprintf(stderr, "reader: the bytes are no answer\n");
    return fine ? 0 : 1;
}
