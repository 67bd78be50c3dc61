/* What the examples need of files: a whole file in memory, and the notes in it, one to a line. */
#ifndef FILES_H
#define FILES_H

#include <allstar.h>
#include <stdio.h>
#include <stdlib.h>

/* The bytes of a file, a zero behind them; null if it cannot be read. The caller frees them. */
static inline char *read_file(const char *name, size_t *length)
{
    FILE *file = fopen(name, "rb");
    size_t room = 4096;
    char *bytes = file ? malloc(room) : NULL;
    *length = 0;
    while (bytes) {
        *length += fread(bytes + *length, 1, room - 1 - *length, file);
        if (*length < room - 1) {
            bytes[*length] = '\0';
            break;
        }
        room *= 2;
        char *longer = realloc(bytes, room);
        if (!longer)
            free(bytes);
        bytes = longer;
    }
    if (file && ferror(file)) {
        free(bytes);
        bytes = NULL;
    }
    if (file)
        fclose(file);
    return bytes;
}

/* What a line of notes says. */
struct note {
    uint16_t tokens[ALLSTAR_TOKENS_MAX + 1]; /* one more than is allowed: a longer note is refused for it */
    size_t length;
    int is_bad; /* the line is no row of numbers */
};

/* Reads the line at `text`, and answers where the next one begins: null behind the last. */
static inline const char *next_note(const char *text, struct note *note)
{
    note->length = 0;
    note->is_bad = 0;
    while (*text && *text != '\n') {
        unsigned long token = 0;
        const char *digits = text;
        for (; *text >= '0' && *text <= '9' && token <= UINT16_MAX; text++)
            token = 10 * token + (unsigned long)(*text - '0');
        if (text == digits || token > UINT16_MAX)
            note->is_bad = 1;
        else if (note->length <= ALLSTAR_TOKENS_MAX)
            note->tokens[note->length++] = (uint16_t)token;
        if (*text == ' ' && text[1] >= '0' && text[1] <= '9')
            text++;
        else if (*text && *text != '\n')
            note->is_bad = 1;
        while (note->is_bad && *text && *text != '\n')
            text++;
    }
    if (*text == '\n')
        text++;
    return *text ? text : NULL;
}

/* Prints why something was refused, and where. */
static inline void print_refusal(uint32_t number, uint64_t place)
{
    printf("refused (%u): %s", (unsigned)number, allstar_text(number));
    switch (number) {
    case ALLSTAR_UNFINISHED:
    case ALLSTAR_MALFORMED:
    case ALLSTAR_OVER_LIMIT:
    case ALLSTAR_UNKNOWN_SYMBOL:
    case ALLSTAR_TRAILING:
        printf(", at byte %u", (unsigned)place);
        break;
    case ALLSTAR_UNPRODUCTIVE:
    case ALLSTAR_LEFT_RECURSIVE:
        printf(": %u", (unsigned)place);
        break;
    case ALLSTAR_UNKNOWN_TOKEN:
    case ALLSTAR_NOT_A_SENTENCE:
        printf(", at token %u", (unsigned)place);
        break;
    default:
        break;
    }
    putchar('\n');
}

#endif
