/* The floor of a check's time: a plain loop, a byte a turn, that counts tabs and line ends. */

#include <stddef.h>

struct counts {
    size_t tabs;
    size_t line_ends;
};

struct counts count(const unsigned char *text, size_t length)
{
    struct counts counts = {0, 0};
    for (size_t i = 0; i < length; i++) {
        counts.tabs += text[i] == '\t';
        counts.line_ends += text[i] == '\n';
    }
    return counts;
}

/* The nodes of a bit mask, bit by bit: how many, and each into the table. */
size_t list_bits(const unsigned char *mask, size_t length, unsigned short *nodes)
{
    size_t n = 0;
    for (size_t bit = 0; bit < 8 * length; bit++) {
        if (mask[bit / 8] >> bit % 8 & 1) {
            nodes[n++] = (unsigned short)(bit + 1);
        }
    }
    return n;
}

/* How many bits are set, bit by bit. */
size_t count_bits(const unsigned char *mask, size_t length)
{
    size_t n = 0;
    for (size_t bit = 0; bit < 8 * length; bit++) {
        n += mask[bit / 8] >> bit % 8 & 1;
    }
    return n;
}

/* The same by words of eight bytes, the last one shorter. */
size_t count_words(const unsigned char *mask, size_t length)
{
    size_t n = 0, at = 0;
    for (; at + 8 <= length; at += 8) {
        unsigned long long word;
        __builtin_memcpy(&word, mask + at, 8);
        n += (size_t)__builtin_popcountll(word);
    }
    if (at < length) {
        unsigned long long word = 0;
        __builtin_memcpy(&word, mask + at, length - at);
        n += (size_t)__builtin_popcountll(word);
    }
    return n;
}
