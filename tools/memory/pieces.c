// Finds words of 8 bytes in an image of a memory, at every byte. tools/memory/audit uses this program.
//
//     pieces PIECES DUMP
//
// PIECES is a file of different words, sorted as little-endian numbers. For each place a line is printed: the place's
// offset in DUMP, and the number of the word, counted from 0. The lines are in no order.
#include "image.h"

enum { PIECE = 8, BITS = 24, SHIFT = 64 - BITS };

static const uint64_t *pieces;
static size_t piece_count;
static uint64_t maybe[1 << (BITS - 6)]; // a bit for each hash that some piece has

static uint64_t hash_of(uint64_t word) { return word * 0x9E3779B97F4A7C15u >> SHIFT; }

static void look_up(uint64_t word, size_t at) {
    size_t low = 0, high = piece_count;
    while (low < high) {
        size_t middle = low + (high - low) / 2;
        if (pieces[middle] < word)
            low = middle + 1;
        else
            high = middle;
    }
    if (low < piece_count && pieces[low] == word)
        printf("%zu %zu\n", at, low); // one call, so that threads do not mix their lines
}

static void search_part(const struct image *image, size_t from, size_t to) {
    size_t last = image->size < PIECE ? 0 : image->size - PIECE + 1;
    if (to > last)
        to = last;
    for (size_t at = from; at < to; at++) {
        uint64_t word, hash;
        memcpy(&word, image->bytes + at, PIECE);
        if (!word)
            continue;
        hash = hash_of(word);
        if (maybe[hash >> 6] >> (hash & 63) & 1)
            look_up(word, at);
    }
}

int main(int count, char **words) {
    image_program = "pieces";
    if (count != 3)
        return fputs("usage: pieces PIECES DUMP\n", stderr), FAULT;
    struct image table = open_image(words[1]), image = open_image(words[2]);
    pieces = (const uint64_t *)table.bytes;
    piece_count = table.size / PIECE;
    for (size_t i = 0; i < piece_count; i++) {
        uint64_t hash = hash_of(pieces[i]);
        maybe[hash >> 6] |= (uint64_t)1 << (hash & 63);
        if (i && pieces[i] <= pieces[i - 1])
            fail("%s is not sorted", words[1]);
    }
    search_all(&image, 0, image.size, threads_by_default(), search_part);
    if (fflush(stdout) || ferror(stdout))
        fail("standard output: %s", strerror(errno));
    return 0;
}
