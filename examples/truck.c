/* Reads the notes of a file by the grammar of another, up to 64 in a call, and prints the entries of each.
 *
 *   truck GRAMMAR NOTES
 *
 * GRAMMAR has a grammar's bytes, NOTES a note to a line, its tokens as decimal numbers. One cache is begun for the
 * grammar and kept for all notes. The exit status is 0 whatever the notes say, 1 if the grammar is refused or a
 * file cannot be read. */
#include "files.h"
#include <string.h>

#define SLOTS 64
#define PART 256 /* entries of the row for each note: one with a longer derivation is refused */

static uint16_t tokens[ALLSTAR_NOTES_MAX * (ALLSTAR_TOKENS_MAX + 1)], lengths[ALLSTAR_NOTES_MAX];
static uint64_t answers[3 * ALLSTAR_NOTES_MAX];
static uint16_t row[PART * ALLSTAR_NOTES_MAX];
static uint32_t cache[ALLSTAR_CACHE_WORDS(SLOTS)], space[ALLSTAR_WORKSPACE_MAX];

int main(int count, char **words)
{
    if (count != 3) {
        fprintf(stderr, "usage: truck GRAMMAR NOTES\n");
        return 1;
    }
    size_t grammar_length, text_length;
    char *grammar_file = read_file(words[1], &grammar_length);
    char *text_file = read_file(words[2], &text_length);
    if (!grammar_file || !text_file) {
        fprintf(stderr, "truck: a file cannot be read\n");
        return 1;
    }
    const uint8_t *grammar = (const uint8_t *)grammar_file;
    uint64_t place;
    uint32_t number = allstar_begin(grammar, grammar_length, cache, ALLSTAR_CACHE_WORDS(SLOTS), &place);
    if (number != ALLSTAR_OK) {
        printf("grammar: ");
        print_refusal(number, place);
        return 1;
    }

    unsigned line = 0;
    for (const char *text = text_length ? text_file : NULL; text;) {
        /* The next lines: the notes among them, one behind the other, and their lengths. */
        size_t lines = 0, notes = 0, used = 0;
        int is_bad[ALLSTAR_NOTES_MAX];
        for (; text && lines < ALLSTAR_NOTES_MAX; lines++) {
            struct note note;
            text = next_note(text, &note);
            is_bad[lines] = note.is_bad;
            if (!note.is_bad) {
                memcpy(tokens + used, note.tokens, note.length * sizeof *tokens);
                used += note.length;
                lengths[notes++] = (uint16_t)note.length;
            }
        }
        if (notes > 0) {
            number = allstar_batch(grammar, grammar_length, tokens, used, lengths, notes, answers, 3 * notes, row,
                                   PART * notes, cache, ALLSTAR_CACHE_WORDS(SLOTS), space, ALLSTAR_WORKSPACE_MAX,
                                   &place);
            if (number != ALLSTAR_OK) { /* The cache has begun, and all fits together: this program has a fault. */
                print_refusal(number, place);
                return 1;
            }
        }
        /* Of note k: number, place and count, and its part of the row. */
        for (size_t nth = 0, k = 0; nth < lines; nth++) {
            printf("note %u: ", ++line);
            if (is_bad[nth]) {
                printf("no row of numbers\n");
                continue;
            }
            const uint64_t *answer = answers + 3 * k;
            const uint16_t *entries = row + PART * k++;
            if (answer[0] != ALLSTAR_OK) {
                print_refusal((uint32_t)answer[0], answer[1]);
                continue;
            }
            printf("read,");
            for (size_t entry = 0; entry < answer[2]; entry++)
                printf(" %u", (unsigned)entries[entry]);
            putchar('\n');
        }
    }
    free(text_file);
    free(grammar_file);
    return 0;
}
