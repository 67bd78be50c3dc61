/* Reads the notes of a file by the grammar of another, and prints each derivation as an indented tree.
 *
 *   read_notes GRAMMAR NOTES [NAMES]
 *
 * GRAMMAR has a grammar's bytes, NOTES a note to a line, its tokens as decimal numbers. NAMES says what they
 * are called: the line that begins with `tokens` names the kinds 1, 2, ..., and every other line begins with
 * the name of nonterminal 0, 1, ...; the rest of it, and lines that begin with `#`, are for people.
 *
 * One cache is begun for the grammar and kept for all notes. The exit status is 0 whatever the notes say, 1
 * if the grammar is refused or a file cannot be read. */
#include "files.h"
#include <string.h>

/* The longest derivation that is printed. Few tokens can have very many entries: there has to be some end. */
#define LONGEST_ROW ((size_t)1 << 20)

/* States that the cache can learn. */
#define SLOTS 64

/* The symbols of each production, and what they are called. */
struct rule {
    size_t first, length;
};
static struct rule rules[ALLSTAR_NONTERMINALS_MAX][17]; /* alternatives count from 1 */
static unsigned symbols[ALLSTAR_PLACES_MAX];
static char *token_names[ALLSTAR_KINDS_MAX + 1], *nonterminal_names[ALLSTAR_NONTERMINALS_MAX];

/* Takes the next number of a grammar. */
static unsigned take_number(const uint8_t **bytes)
{
    unsigned number = 0, shift = 0;
    do {
        number |= (unsigned)(**bytes & 0x7f) << shift;
        shift += 7;
    } while (*(*bytes)++ & 0x80);
    return number;
}

/* Finds the productions. The grammar is sound: its numbers are within their limits, and it is complete. */
static void find_productions(const uint8_t *bytes)
{
    size_t used = 0;
    take_number(&bytes);
    unsigned nonterminals = take_number(&bytes);
    for (unsigned a = 0; a < nonterminals; a++) {
        unsigned productions = take_number(&bytes);
        for (unsigned b = 1; b <= productions; b++) {
            rules[a][b].first = used;
            rules[a][b].length = take_number(&bytes);
            for (size_t k = 0; k < rules[a][b].length; k++)
                symbols[used++] = take_number(&bytes);
        }
    }
}

/* Finds the names; they stay in `text`. */
static void find_names(char *text)
{
    size_t nonterminals = 0;
    for (char *line = text; line;) {
        char *next = strchr(line, '\n');
        if (next)
            *next++ = '\0';
        char *word = strtok(line, " \t\r");
        if (word && strcmp(word, "tokens") == 0) {
            for (size_t kind = 1; kind <= ALLSTAR_KINDS_MAX && word; kind++)
                token_names[kind] = word = strtok(NULL, " \t\r");
        } else if (word && *word != '#' && nonterminals < ALLSTAR_NONTERMINALS_MAX) {
            nonterminal_names[nonterminals++] = strtok(word, ":");
        }
        line = next;
    }
}

/* Prints the tree under a symbol, and answers the entries that are left. Without left recursion a tree has at
 * most ALLSTAR_NONTERMINALS_MAX * (ALLSTAR_TOKENS_MAX + 1) levels. */
static const uint16_t *print_tree(unsigned symbol, const uint16_t *entries, int depth)
{
    unsigned it = symbol / 2;
    const char *name = symbol % 2 ? nonterminal_names[it] : token_names[it];
    printf("%*s", 2 * depth, "");
    if (name)
        printf("%s", name);
    else
        printf("%s %u", symbol % 2 ? "nonterminal" : "token", it);
    if (symbol % 2 == 0) {
        putchar('\n');
        return entries;
    }
    struct rule rule = rules[it][*entries];
    printf(" (%u)\n", (unsigned)*entries++);
    for (size_t k = 0; k < rule.length; k++)
        entries = print_tree(symbols[rule.first + k], entries, depth + 1);
    return entries;
}

int main(int count, char **words)
{
    if (count < 3 || count > 4) {
        fprintf(stderr, "usage: read_notes GRAMMAR NOTES [NAMES]\n");
        return 1;
    }
    size_t grammar_length, notes_length, names_length;
    char *grammar_file = read_file(words[1], &grammar_length);
    char *notes = read_file(words[2], &notes_length);
    char *names = count == 4 ? read_file(words[3], &names_length) : NULL;
    if (!grammar_file || !notes || (count == 4 && !names)) {
        fprintf(stderr, "read_notes: a file cannot be read\n");
        return 1;
    }
    const uint8_t *grammar = (const uint8_t *)grammar_file;

    uint64_t place, kinds, nonterminals, places;
    uint32_t number = allstar_measure(grammar, grammar_length, &place, &kinds, &nonterminals, &places);
    if (number != ALLSTAR_OK) {
        printf("grammar: ");
        print_refusal(number, place);
        return 1;
    }
    printf("grammar: %u token kinds, %u nonterminals, %u places\n", (unsigned)kinds, (unsigned)nonterminals,
           (unsigned)places);
    find_productions(grammar);
    if (names)
        find_names(names);

    /* What is lent: working space for the longest note, the cache, and a row that grows. */
    size_t space_length = ALLSTAR_WORKSPACE_WORDS(places, ALLSTAR_TOKENS_MAX);
    size_t cache_length = ALLSTAR_CACHE_WORDS(SLOTS), row_length = 16;
    uint32_t *space = malloc(space_length * sizeof *space);
    uint32_t *cache = malloc(cache_length * sizeof *cache);
    uint16_t *row = malloc(row_length * sizeof *row);
    if (!space || !cache || !row || allstar_begin(grammar, grammar_length, cache, cache_length, &place)) {
        fprintf(stderr, "read_notes: no memory\n");
        return 1;
    }

    const char *text = notes_length ? notes : NULL;
    for (unsigned line = 1; text; line++) {
        struct note note;
        text = next_note(text, &note);
        printf("note %u: ", line);
        if (note.is_bad) {
            printf("no row of numbers\n");
            continue;
        }
        for (;;) {
            uint64_t entries;
            number = allstar_quick(grammar, grammar_length, note.tokens, note.length, row, row_length, cache,
                                   cache_length, space, space_length, &place, &entries);
            if (number != ALLSTAR_SHORT_ROW || row_length == LONGEST_ROW)
                break;
            row_length *= 2;
            free(row);
            row = malloc(row_length * sizeof *row);
            if (!row) {
                fprintf(stderr, "read_notes: no memory\n");
                return 1;
            }
        }
        switch (number) {
        case ALLSTAR_OK:
            printf("read\n");
            print_tree(1, row, 1); /* nonterminal 0, the start */
            break;
        case ALLSTAR_LONG_NOTE:
        case ALLSTAR_UNKNOWN_TOKEN:
        case ALLSTAR_NOT_A_SENTENCE:
        case ALLSTAR_SHORT_ROW:
            print_refusal(number, place);
            break;
        default: /* The grammar was checked, and space and cache are long enough: this program has a fault. */
            print_refusal(number, place);
            return 1;
        }
    }
    free(row);
    free(cache);
    free(space);
    free(names);
    free(notes);
    free(grammar_file);
    return 0;
}
