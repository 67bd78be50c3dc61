/* The header, included twice and used whole: compiled as C99, C11 and C++17 with all warnings, and run. */
#include <allstar.h>
#include <allstar.h>
#include <stdio.h>
#include <string.h>

#define SAME(name, one, other) typedef char name[(one) == (other) ? 1 : -1]
SAME(cache_min, ALLSTAR_CACHE_MIN, 2368);
SAME(cache_max, ALLSTAR_CACHE_MAX, 329728);
SAME(cache_of_six_slots, ALLSTAR_CACHE_WORDS(6), 3968);
SAME(workspace_max, ALLSTAR_WORKSPACE_MAX, 271352);
SAME(workspace_of_g1, ALLSTAR_WORKSPACE_WORDS(10, 16), 9552);
SAME(listed_last, ALLSTAR_KIND_LISTED + ALLSTAR_LISTED_MAX - 1, ALLSTAR_KINDS_MAX);
SAME(notes_max, ALLSTAR_NOTES_MAX, 64);
SAME(version, ALLSTAR_VERSION, 10400);

static const uint8_t too_long[ALLSTAR_LINE_MAX + 1] = {0};
static uint32_t cache[ALLSTAR_CACHE_MIN], space[ALLSTAR_WORKSPACE_WORDS(10, 2)];

int main(void)
{
    const uint8_t g1[] = {2, 2, 2, 1, 3, 2, 3, 4, 2, 1, 2, 2, 2, 4};
    const uint8_t line[] = {'k', 'g', '1', ' ', '2', '.', '5', 'a'};
    const uint8_t list[] = {'k', 'g', '1'};
    const uint16_t note[] = {1, 2}, notes[] = {1, 2, 1, 1, 1}, lengths[] = {2, 2, 1};
    uint16_t row[2], again[2], tokens[4], parts[6];
    uint64_t place, count, kinds, nonterminals, places, answers[9];
    uint32_t number, other;
    if (allstar_version() != ALLSTAR_VERSION)
        return 1;
    if (allstar_check(g1, sizeof g1, &place) != ALLSTAR_OK || place != 0)
        return 2;
    if (allstar_measure(g1, sizeof g1, &place, &kinds, &nonterminals, &places) != ALLSTAR_OK || kinds != 2 ||
        nonterminals != 2 || places != 10)
        return 3;
    if (allstar_plain(g1, sizeof g1, note, 2, row, 2, space, ALLSTAR_WORKSPACE_WORDS(places, 2), &place,
                      &count) != ALLSTAR_OK || count != 2 || row[0] != 1 || row[1] != 2)
        return 4;
    if (allstar_plain(g1, sizeof g1, note, 2, row, 2, space, ALLSTAR_WORKSPACE_WORDS(places, 2) - 1, &place,
                      &count) != ALLSTAR_SHORT_WORKSPACE)
        return 5;
    if (allstar_begin(g1, sizeof g1, cache, ALLSTAR_CACHE_MIN - 1, &place) != ALLSTAR_SHORT_CACHE ||
        allstar_begin(g1, sizeof g1, cache, ALLSTAR_CACHE_MIN, &place) != ALLSTAR_OK)
        return 6;
    if (allstar_quick(g1, sizeof g1, note, 2, again, 2, cache, ALLSTAR_CACHE_MIN, space,
                      ALLSTAR_WORKSPACE_WORDS(places, 2), &place, &count) != ALLSTAR_OK || count != 2 ||
        memcmp(row, again, sizeof row) != 0)
        return 7;
    if (allstar_split(line, sizeof line, list, sizeof list, tokens, 4, &place, &count) != ALLSTAR_OK || count != 3 ||
        tokens[0] != ALLSTAR_KIND_LISTED || tokens[1] != ALLSTAR_KIND_NUMBER || tokens[2] != ALLSTAR_KIND_WORD ||
        tokens[3] != 0)
        return 8;
    if (allstar_split(line, sizeof line, list, sizeof list, tokens, 2, &place, &count) != ALLSTAR_SHORT_ROW ||
        count != 0 || tokens[0] != 0)
        return 9;
    if (allstar_split(too_long, sizeof too_long, list, sizeof list, tokens, 4, &place, &count) != ALLSTAR_LONG_LINE ||
        allstar_split(too_long, ALLSTAR_LINE_MAX, list, sizeof list, tokens, 4, &place, &count) !=
            ALLSTAR_FOREIGN_BYTE || place != 0)
        return 10;
    if (allstar_batch(g1, sizeof g1, notes, 5, lengths, 3, answers, 9, parts, 6, cache, ALLSTAR_CACHE_MIN, space,
                      ALLSTAR_WORKSPACE_WORDS(places, 2), &place) != ALLSTAR_OK || place != 0)
        return 11;
    if (answers[0] != ALLSTAR_OK || answers[2] != 2 || memcmp(row, parts, sizeof row) != 0 ||
        answers[3] != ALLSTAR_NOT_A_SENTENCE || answers[4] != 1 || answers[5] != 0 ||
        parts[2] != 0 || parts[3] != 0 ||
        answers[6] != ALLSTAR_OK || answers[8] != 2 || parts[4] != 1 || parts[5] != 1)
        return 12;
    if (allstar_batch(g1, sizeof g1, notes, 5, lengths, 3, answers, 8, parts, 6, cache, ALLSTAR_CACHE_MIN, space,
                      ALLSTAR_WORKSPACE_WORDS(places, 2), &place) != ALLSTAR_BAD_BATCH || place != 0 ||
        allstar_batch(g1, sizeof g1 - 1, notes, 5, lengths, 3, answers, 8, parts, 6, cache, ALLSTAR_CACHE_MIN, space,
                      ALLSTAR_WORKSPACE_WORDS(places, 2), &place) != ALLSTAR_UNFINISHED || place != 13)
        return 13;
    if (allstar_audit(g1, sizeof g1, cache, ALLSTAR_CACHE_MIN, &place) != ALLSTAR_OK || place != 0 ||
        allstar_audit(g1, sizeof g1, cache, ALLSTAR_CACHE_MIN - 1, &place) != ALLSTAR_SHORT_CACHE ||
        allstar_audit(g1, sizeof g1 - 1, cache, ALLSTAR_CACHE_MIN, &place) != ALLSTAR_UNFINISHED || place != 13)
        return 14;
    cache[0] = 1;
    if (allstar_audit(g1, sizeof g1, cache, ALLSTAR_CACHE_MIN, &place) != ALLSTAR_NOT_COHERENT || place != 0)
        return 15;
    cache[1] = 1;
    if (allstar_audit(g1, sizeof g1, cache, ALLSTAR_CACHE_MIN, &place) != ALLSTAR_FOREIGN_CACHE || place != 0)
        return 16;
    /* Each number has a text of its own. */
    for (number = 0; number <= ALLSTAR_NOT_COHERENT + 1; number++)
        for (other = 0; other < number; other++)
            if (strcmp(allstar_text(number), allstar_text(other)) == 0)
                return 17;
    return strcmp(allstar_text(99), allstar_text(ALLSTAR_NOT_COHERENT + 1)) == 0 ? 0 : 18;
}
