/* Reads notes over a cache that is kept in a file: a restart goes on with what was learned before it.
 *
 *   keep_cache GRAMMAR CACHE NOTES
 *
 * The first run begins a cache and saves it to the file CACHE; every later one lends it again, and saves what
 * it learned. The library sees whether a cache was begun for another grammar or length, and refuses it; it
 * does not see whether other words of it changed on the disk. So the file ends with a sum of its words, a
 * file whose sum is wrong is not used, and a new file takes the place of the old one only when it is
 * complete. Words are written as this machine has them: the file is for this machine. */
#include "files.h"
#include <string.h>

#define SLOTS 64
#define CACHE_LENGTH ALLSTAR_CACHE_WORDS(SLOTS)
#define ROW_LENGTH 4096

struct kept {
    uint32_t words[CACHE_LENGTH];
    uint64_t sum;
};
static struct kept kept, before;
static uint16_t row[ROW_LENGTH];

/* FNV-1a, 64 bits: against torn and rotten files, not against people. */
static uint64_t sum(const uint32_t *words, size_t length)
{
    uint64_t sum = UINT64_C(0xcbf29ce484222325);
    for (size_t k = 0; k < length; k++)
        for (int shift = 0; shift < 32; shift += 8)
            sum = (sum ^ ((words[k] >> shift) & 0xff)) * UINT64_C(0x100000001b3);
    return sum;
}

/* Whether the file has a whole cache; it is in `kept` then. */
static int is_loaded(const char *name)
{
    size_t length;
    char *bytes = read_file(name, &length);
    int is_whole = bytes && length == sizeof kept;
    if (is_whole)
        memcpy(&kept, bytes, sizeof kept);
    free(bytes);
    return is_whole && kept.sum == sum(kept.words, CACHE_LENGTH);
}

/* Whether `kept` is in the file now. */
static int is_saved(const char *name)
{
    char new_name[4096];
    if (snprintf(new_name, sizeof new_name, "%s.new", name) >= (int)sizeof new_name)
        return 0;
    kept.sum = sum(kept.words, CACHE_LENGTH);
    FILE *file = fopen(new_name, "wb");
    if (!file)
        return 0;
    size_t written = fwrite(&kept, sizeof kept, 1, file);
    return (fclose(file) == 0) & (written == 1) && rename(new_name, name) == 0;
}

int main(int count, char **words)
{
    if (count != 4) {
        fprintf(stderr, "usage: keep_cache GRAMMAR CACHE NOTES\n");
        return 1;
    }
    size_t grammar_length, notes_length;
    char *grammar_file = read_file(words[1], &grammar_length);
    char *notes = read_file(words[3], &notes_length);
    if (!grammar_file || !notes) {
        fprintf(stderr, "keep_cache: a file cannot be read\n");
        return 1;
    }
    const uint8_t *grammar = (const uint8_t *)grammar_file;
    uint64_t place, kinds, nonterminals, places, entries;
    uint32_t number = allstar_measure(grammar, grammar_length, &place, &kinds, &nonterminals, &places);
    if (number != ALLSTAR_OK) {
        printf("grammar: ");
        print_refusal(number, place);
        return 1;
    }
    size_t space_length = ALLSTAR_WORKSPACE_WORDS(places, ALLSTAR_TOKENS_MAX);
    uint32_t *space = malloc(space_length * sizeof *space);
    if (!space) {
        fprintf(stderr, "keep_cache: no memory\n");
        return 1;
    }

    /* A reading with no row predicts nothing: it tells whether the cache is for this grammar, and leaves it
     * as it is. */
    int is_again = is_loaded(words[2]);
    if (is_again) {
        uint16_t none = 0;
        number = allstar_quick(grammar, grammar_length, &none, 0, row, 0, kept.words, CACHE_LENGTH, space,
                               space_length, &place, &entries);
        is_again = number != ALLSTAR_FOREIGN_CACHE;
    }
    if (!is_again)
        allstar_begin(grammar, grammar_length, kept.words, CACHE_LENGTH, &place);
    printf("cache: %s\n", is_again ? "lent again" : "begun");
    before = kept;

    const char *text = notes_length ? notes : NULL;
    for (unsigned line = 1; text; line++) {
        struct note note;
        text = next_note(text, &note);
        printf("note %u: ", line);
        if (note.is_bad) {
            printf("no row of numbers\n");
            continue;
        }
        number = allstar_quick(grammar, grammar_length, note.tokens, note.length, row, ROW_LENGTH, kept.words,
                               CACHE_LENGTH, space, space_length, &place, &entries);
        if (number == ALLSTAR_OK)
            printf("read, %u entries\n", (unsigned)entries);
        else
            print_refusal(number, place);
    }

    int is_new = memcmp(before.words, kept.words, sizeof kept.words) != 0;
    if (is_new && !is_saved(words[2])) {
        fprintf(stderr, "keep_cache: %s cannot be written\n", words[2]);
        return 1;
    }
    printf("cache: %s\n", is_new ? "has learned, and is saved" : "has learned nothing new");
    free(space);
    free(notes);
    free(grammar_file);
    return 0;
}
