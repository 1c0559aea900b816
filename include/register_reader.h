/*
 * A small reader of answers (docs/FORMAT.md): walks the words of an answer and never reads
 * behind them, whatever they say. Everything is in this header; examples/reader.c uses it.
 *
 *     struct register_reader reader = register_reader(answer, length);
 *     uint32_t examined = register_word(&reader);
 *     uint32_t orbits = register_count(&reader);
 *     ..
 *     if (!register_ended(&reader)) the bytes are no answer
 *
 * A word that is not there reads as 0, and so does a count that asks for more words than
 * follow it; the reader is then spoilt, and register_ended says so in the end.
 */
#ifndef REGISTER_READER_H
#define REGISTER_READER_H

#include <stddef.h>
#include <stdint.h>

struct register_reader {
    const uint8_t *bytes;
    size_t words; /* how many there are */
    size_t at;    /* how many were read */
    int spoilt;   /* whether the bytes cannot be an answer */
};

/* From the front of these bytes. */
static inline struct register_reader register_reader(const uint8_t *bytes, size_t length)
{
    struct register_reader reader = {bytes, length / 4, 0, length % 4 != 0};
    return reader;
}

/* The next word. */
static inline uint32_t register_word(struct register_reader *reader)
{
    if (reader->at == reader->words) {
        reader->spoilt = 1;
        return 0;
    }
    const uint8_t *word = reader->bytes + 4 * reader->at++;
    return (uint32_t)word[0] | (uint32_t)word[1] << 8 | (uint32_t)word[2] << 16 |
           (uint32_t)word[3] << 24;
}

/* The next word as a count of things that take a word each at least. */
static inline uint32_t register_count(struct register_reader *reader)
{
    uint32_t count = register_word(reader);
    if (count > reader->words - reader->at) {
        reader->spoilt = 1;
        return 0;
    }
    return count;
}

/* Passes over so many words. */
static inline void register_skip(struct register_reader *reader, size_t words)
{
    if (words > reader->words - reader->at) {
        reader->spoilt = 1;
        words = reader->words - reader->at;
    }
    reader->at += words;
}

/*
 * Passes over a figure; elements[r] is the number of its elements in rank r, for the first
 * `most` ranks, 0 where there are fewer. Returns the number of ranks.
 */
static inline uint32_t register_figure(struct register_reader *reader, uint32_t *elements,
                                       uint32_t most)
{
    uint32_t ranks = register_count(reader);
    for (uint32_t r = 0; r < most; r++)
        elements[r] = 0;
    for (uint32_t r = 0; r < ranks && !reader->spoilt; r++) {
        uint32_t count = register_count(reader);
        if (r < most)
            elements[r] = count;
        for (uint32_t e = 0; e < count && !reader->spoilt; e++)
            register_skip(reader, register_count(reader));
    }
    return ranks;
}

/* Whether all words were read and made up an answer. */
static inline int register_ended(const struct register_reader *reader)
{
    return !reader->spoilt && reader->at == reader->words;
}

#endif
