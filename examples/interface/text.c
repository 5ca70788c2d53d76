#include "text.h"

#define SUM_DIGITS 8

static void add(struct text *text, char byte)
{
    if (text->count < TEXT_BYTES)
        text->bytes[text->count++] = byte;
}

static void add_blank(struct text *text)
{
    if (text->count > 0)
        add(text, ' ');
}

void text_word(struct text *text, const char *word)
{
    if (*word != 0)
        add_blank(text);
    for (; *word != 0; word++)
        add(text, *word);
}

void text_number(struct text *text, uint32_t number, int digits)
{
    add_blank(text);
    while (digits-- > 0)
        add(text, "0123456789ABCDEF"[number >> 4 * digits & 15]);
}

static uint32_t sum_of(const char *bytes, uint8_t count)
{
    uint32_t sum = UINT32_C(0xFFFFFFFF);

    for (uint8_t at = 0; at < count; at++) {
        sum ^= (uint8_t)bytes[at];
        for (int bit = 0; bit < 8; bit++)
            sum = sum & 1 ? sum >> 1 ^ UINT32_C(0xEDB88320) : sum >> 1;
    }
    return ~sum;
}

void text_end(struct text *text)
{
    text_number(text, sum_of(text->bytes, text->count), SUM_DIGITS);
    add(text, '\n');
}

int text_is_whole(const char *bytes, uint8_t *count)
{
    const char *at = bytes;
    uint8_t before;
    uint32_t sum;

    if (*count < SUM_DIGITS + 1)
        return 0;
    before = (uint8_t)(*count - SUM_DIGITS - 1);
    at += before + 1;
    if (bytes[before] != ' ' || !read_number(&at, SUM_DIGITS, &sum) || at != bytes + *count || sum != sum_of(bytes, before))
        return 0;
    *count = before;
    return 1;
}

/* Whether a word ends here; then the blank behind it is read. None stands at the end of a line. */
static int ends(const char **at, const char *here)
{
    if (*here != 0 && (*here != ' ' || here[1] == 0))
        return 0;
    *at = *here == ' ' ? here + 1 : here;
    return 1;
}

int read_word(const char **at, const char *word)
{
    const char *here = *at;

    for (; *word != 0; word++, here++) {
        if (*here != *word)
            return 0;
    }
    return ends(at, here);
}

int read_number(const char **at, int digits, uint32_t *number)
{
    const char *here = *at;
    uint32_t read = 0;

    for (; digits > 0; digits--, here++) {
        if (*here >= '0' && *here <= '9')
            read = read << 4 | (uint32_t)(*here - '0');
        else if (*here >= 'A' && *here <= 'F')
            read = read << 4 | (uint32_t)(*here - 'A' + 10);
        else
            return 0;
    }
    if (!ends(at, here))
        return 0;
    *number = read;
    return 1;
}
