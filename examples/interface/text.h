/* Words of a line, with blanks between them, and its sum behind them: CRC-32 of all before the sum, in eight digits. */
#ifndef TEXT_H
#define TEXT_H

#include <stdint.h>

#define TEXT_BYTES 64

struct text {
    uint8_t count;
    char bytes[TEXT_BYTES];
};

/* Writes a word, or a number in so many digits to base 16. */
void text_word(struct text *text, const char *word);
void text_number(struct text *text, uint32_t number, int digits);

/* Writes the sum, and the end of the line. */
void text_end(struct text *text);

/* Whether so many bytes end with their sum; if they do, how many stand before it, without the blank. */
int text_is_whole(const char *bytes, uint8_t *count);

/* Reads a word, or a number of so many digits, with the blank behind it. 0 if it stands not there; then nothing is read. */
int read_word(const char **at, const char *word);
int read_number(const char **at, int digits, uint32_t *number);

#endif
