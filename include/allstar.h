/* The delivery-note reader, for C and C++. Link liballstar_c.a; x86-64 Linux.
 *
 * A grammar is a row of bytes that says which rows of numbered tokens are sentences. A note is a row of
 * tokens. A derivation is a row of alternatives, counted from 1: one for each nonterminal that is expanded,
 * always the leftmost that is left.
 *
 *   allstar_check     is this grammar sound?
 *   allstar_measure   the same, and how large it is: what a reading's working space is worked out from
 *   allstar_plain     reads a note
 *   allstar_begin     makes a cache for a grammar
 *   allstar_quick     reads a note over a cache: the same answer, and faster the more the cache has learned
 *   allstar_batch     reads up to 64 notes over a cache in one call: the same answers
 *   allstar_audit     may this cache, whoever wrote its words, be trusted for this grammar?
 *   allstar_split     makes a note of a typed line: its words, numbers and marks become tokens
 *
 * Every call is safe for any bytes, tokens and words of any number. Memory stays the caller's: a call reads
 * what is lent as const, writes what is lent otherwise, and keeps nothing. A pointer is never null, also
 * where the length is 0, and is aligned for its type. Lengths count elements, not bytes. What is lent
 * otherwise than as const overlaps nothing else that is lent. Calls that share only what is const may run at
 * the same time.
 */
#ifndef ALLSTAR_H
#define ALLSTAR_H

#include <stddef.h>
#include <stdint.h>

/* The version of this header; allstar_version() tells that of the library that is linked. */
#define ALLSTAR_VERSION_MAJOR 1
#define ALLSTAR_VERSION_MINOR 4
#define ALLSTAR_VERSION_PATCH 0
#define ALLSTAR_VERSION (ALLSTAR_VERSION_MAJOR * 10000 + ALLSTAR_VERSION_MINOR * 100 + ALLSTAR_VERSION_PATCH)

/* What a call answers: ALLSTAR_OK, or the number of the refusal. With each comes a place, 0 where none is
 * named here. allstar_text(number) has the same in words. */
enum allstar_number {
    ALLSTAR_OK = 0,
    /* The grammar is refused. The place is a byte of it, counted from 0; for the last two, a nonterminal. */
    ALLSTAR_UNFINISHED = 1,      /* the bytes end before the grammar does; at the start of that number */
    ALLSTAR_MALFORMED = 2,       /* a number is not in its shortest form, or above 65,535; at its start */
    ALLSTAR_OVER_LIMIT = 3,      /* a number breaks its limit; at its start */
    ALLSTAR_UNKNOWN_SYMBOL = 4,  /* no such token kind or nonterminal; at its start */
    ALLSTAR_TRAILING = 5,        /* bytes follow a complete grammar; at the first of them */
    ALLSTAR_UNPRODUCTIVE = 6,    /* a nonterminal derives no row of tokens; the lowest such */
    ALLSTAR_LEFT_RECURSIVE = 7,  /* a nonterminal is left recursive; the lowest such */
    /* The note is refused. The place is a token of it, counted from 0. */
    ALLSTAR_LONG_NOTE = 8,       /* it has more than ALLSTAR_TOKENS_MAX tokens */
    ALLSTAR_UNKNOWN_TOKEN = 9,   /* a token is 0 or above the highest kind; the first such */
    ALLSTAR_NOT_A_SENTENCE = 10, /* the first token that no sentence allows there, or the note's length */
    /* What is lent does not do. */
    ALLSTAR_SHORT_WORKSPACE = 11, /* fewer than ALLSTAR_WORKSPACE_WORDS words */
    ALLSTAR_SHORT_CACHE = 12,     /* fewer than ALLSTAR_CACHE_MIN words */
    ALLSTAR_FOREIGN_CACHE = 13,   /* the cache was not begun for these grammar bytes at this length */
    ALLSTAR_SHORT_ROW = 14,       /* what is to be written has more entries than the row */
    /* A typed line, or the list lent with it, is refused. The place is a byte of the line, counted from 0. */
    ALLSTAR_LONG_LINE = 15,       /* it has more than ALLSTAR_LINE_MAX bytes */
    ALLSTAR_FOREIGN_BYTE = 16,    /* a byte is below 32 or above 126; the first such */
    ALLSTAR_BAD_LIST = 17,        /* not words with single blanks between, more than 66, or one of them twice */
    /* What is lent for a batch does not fit together. */
    ALLSTAR_BAD_BATCH = 18,       /* notes, lengths, answers and row are not as allstar_batch wants them */
    /* A no of the audit. */
    ALLSTAR_NOT_COHERENT = 19     /* words of the cache are not as allstar_audit wants them */
};

/* The limits of grammars and notes, and the most notes of a batch. */
#define ALLSTAR_KINDS_MAX 100
#define ALLSTAR_NONTERMINALS_MAX 32
#define ALLSTAR_PLACES_MAX 255
#define ALLSTAR_TOKENS_MAX 128
#define ALLSTAR_NOTES_MAX 64

/* The limits of typed lines: their bytes, and the words of a list. */
#define ALLSTAR_LINE_MAX 512
#define ALLSTAR_LISTED_MAX 66

/* The kinds of a typed line's tokens: a word that is not listed, a number, the first mark and the first listed
 * word. The 32 marks follow each other in the order of their bytes, listed words in the order of the list. */
#define ALLSTAR_KIND_WORD 1
#define ALLSTAR_KIND_NUMBER 2
#define ALLSTAR_KIND_MARK 3
#define ALLSTAR_KIND_LISTED 35

#ifdef __cplusplus
#define ALLSTAR_SIZE(number) (static_cast<size_t>(number))
#else
#define ALLSTAR_SIZE(number) ((size_t)(number))
#endif

/* The words of a cache with so many slots: so many states it can learn. 1 to 1,024 slots are used; a slot
 * more or less changes how fast a reading is, never what it answers. */
#define ALLSTAR_CACHE_WORDS(slots) (ALLSTAR_SIZE(2048) + ALLSTAR_SIZE(320) * ALLSTAR_SIZE(slots))
#define ALLSTAR_CACHE_MIN ALLSTAR_CACHE_WORDS(1)
#define ALLSTAR_CACHE_MAX ALLSTAR_CACHE_WORDS(1024)

/* The words of working space that a reading asks for: so many places has the grammar (allstar_measure tells),
 * so many tokens the note. ALLSTAR_WORKSPACE_MAX is enough for every grammar and note. */
#define ALLSTAR_WORKSPACE_WORDS(places, tokens) \
    (ALLSTAR_SIZE(8192) + ALLSTAR_SIZE(8) * ALLSTAR_SIZE(places) * (ALLSTAR_SIZE(tokens) + ALLSTAR_SIZE(1)))
#define ALLSTAR_WORKSPACE_MAX ALLSTAR_WORKSPACE_WORDS(ALLSTAR_PLACES_MAX, ALLSTAR_TOKENS_MAX)

#ifdef __cplusplus
extern "C" {
#endif

/* The version of the library: major * 10000 + minor * 100 + patch. */
uint32_t allstar_version(void);

/* Checks a grammar. Answers 0 if it is sound, else the number of the refusal, and stores the place: a byte for
 * 1 to 5, a nonterminal for 7 and 6, else 0. 1 to 5 are given as the bytes come, then 7, then 6: a grammar that
 * has a left recursive nonterminal and one that derives no row is refused with 7. */
uint32_t allstar_check(const uint8_t *grammar, size_t length, uint64_t *place);

/* Checks a grammar and measures it. Answers and stores the place as allstar_check does. If the grammar is
 * sound, stores its highest token kind, how many nonterminals it has, and how many places: a production of m
 * symbols has m + 1, all together have at most 255. Stores 0 in all three if it is refused. */
uint32_t allstar_measure(const uint8_t *grammar, size_t length, uint64_t *place, uint64_t *kinds,
                         uint64_t *nonterminals, uint64_t *places);

/* Begins a cache for a grammar. Lent are
 *   the grammar     bytes of any length; they are checked
 *   the cache       words of any number; it may hold anything. A cache of L words has S slots, S the whole
 *                   part of (L - 2048) / 320, at most 1024: so many states can be learned, and longer caches
 *                   hold no more. The shortest has one slot, 2,368 words; 329,728 words have 1,024
 * Answers 0 if the cache has begun, else the number of the refusal, the first that applies in this order:
 *   1 to 5, 7, 6   the grammar, as in allstar_check
 *   12             the cache has fewer than 2,368 words
 * and stores the place: as in allstar_check for 1 to 7, else 0.
 *
 * The cache afterwards: begun, each of its words is settled, whatever it held: it holds the grammar bytes and
 * its own length, and nothing is learned. After a refusal it is untouched. A begun cache belongs to these
 * grammar bytes and to this length; a caller keeps both, lends the whole cache, and leaves its words alone.
 * Its words may be stored, and lent again later, as long as every one of them is the same. */
uint32_t allstar_begin(const uint8_t *grammar, size_t grammar_length, uint32_t *cache, size_t cache_length,
                       uint64_t *place);

/* Reads a note by a grammar, without a cache: the plain reading. Lent are
 *   the grammar     bytes of any length; they are checked in every call
 *   the note        its tokens, at most 128
 *   the row         any length, 0 too; it takes the derivation: the alternative, counted from 1, of each
 *                   expansion in leftmost order, always the lowest one by which the rest of the note can
 *                   still be derived. There can be far more expansions than tokens
 *   the workspace   at least 8192 + 8 * P * (note_length + 1) words, P the places of the grammar (a
 *                   production of m symbols has m + 1; at most 255). 271,352 words are enough for every
 *                   grammar and note. It may hold anything before the call and holds anything after it
 * Answers 0 if the note is a sentence and its derivation fits the row, else the number of the refusal, the
 * first that applies in this order:
 *   1 to 5, 7, 6   the grammar, as in allstar_check
 *   8              the note has more than 128 tokens
 *   9              a token is 0 or above the grammar's highest kind
 *   11             the workspace is too short
 *   10             the note is no sentence
 *   14             the note is a sentence, and its derivation has more entries than the row
 * and stores the place: as in allstar_check for 1 to 7; for 9 the first such token, counted from 0; for 10
 * the first token that no sentence allows there, or note_length if the note breaks off; else 0. It stores the
 * count of entries too, 0 where refused.
 *
 * The row afterwards: accepted, it holds the entries, and zeros behind them; after 10 and 14 it holds zeros
 * alone; after any other refusal it is untouched. */
uint32_t allstar_plain(const uint8_t *grammar, size_t grammar_length,
                       const uint16_t *note, size_t note_length,
                       uint16_t *row, size_t row_length,
                       uint32_t *workspace, size_t workspace_length,
                       uint64_t *place, uint64_t *count);

/* Reads a note by a grammar over a begun cache: the quick reading. The cache learns, and later readings over
 * it go faster. Lent are
 *   the grammar     bytes of any length; they are checked in every call
 *   the note        its tokens, at most 128
 *   the row         as in allstar_plain
 *   the cache       begun by allstar_begin for the same grammar bytes at the same length, at least 2,368
 *                   words; lent whole, as the last reading over it left it; or one that allstar_audit said
 *                   yes to. It stays the caller's, and two calls at the same time never share it
 *   the workspace   as in allstar_plain, of the same least length; it may hold anything before the call and
 *                   holds anything after it
 * Answers 0 if the note is a sentence and its derivation fits the row, else the number of the refusal, the
 * first that applies in this order:
 *   1 to 5, 7, 6   the grammar, as in allstar_check
 *   8              the note has more than 128 tokens
 *   9              a token is 0 or above the grammar's highest kind
 *   11             the workspace is too short
 *   12             the cache has fewer than 2,368 words
 *   13             the cache was not begun for these grammar bytes at this length
 *   10             the note is no sentence
 *   14             the note is a sentence, and its derivation has more entries than the row
 * and stores the place and the count of entries, as in allstar_plain; the place is 0 for 12 and 13. Where 12
 * and 13 do not apply and the cache is as told above, number, place, count and row are those of
 * allstar_plain, whatever was learned.
 *
 * The row afterwards: as in allstar_plain; after 12 and 13 it is untouched.
 * The cache afterwards: accepted, and after 10 and 14, it holds what it held and what this reading learned;
 * after any other refusal it is untouched.
 *
 * Only the words that hold the grammar bytes and the length are looked at for 13. If other words of the cache
 * are not what allstar_begin and allstar_quick left there, and allstar_audit has not said yes to them, the
 * answer can be wrong, and nothing else: the call still ends, and writes nothing but what is lent to it. */
uint32_t allstar_quick(const uint8_t *grammar, size_t grammar_length,
                       const uint16_t *note, size_t note_length,
                       uint16_t *row, size_t row_length,
                       uint32_t *cache, size_t cache_length,
                       uint32_t *workspace, size_t workspace_length,
                       uint64_t *place, uint64_t *count);

/* Reads a batch of notes by a grammar over a begun cache: up to 64 quick readings, one after the other, in one
 * call that checks the grammar once. Lent are
 *   the grammar     bytes of any length; they are checked
 *   the tokens      those of all notes in a row, each note's behind those of the one before it
 *   the lengths     how many tokens each note has, note by note: as many lengths as notes, 1 to 64, and their
 *                   sum is tokens_length
 *   the answers     three for each note, note by note: answers[3 * k], [3 * k + 1] and [3 * k + 2] take number,
 *                   place and count of note k, counted from 0
 *   the row         any length that is a multiple of lengths_length, 0 too; it is cut into equal parts, one for
 *                   each note. With m notes, part k is the row_length / m entries from k * (row_length / m) on
 *   the cache       as in allstar_quick
 *   the workspace   as in allstar_quick; each note has all of it, so what the longest one asks for is enough
 * Answers 0 if every note was read, or refused by itself: see the answers. Else no note is read, and it answers
 * the number of the refusal, the first that applies in this order:
 *   1 to 5, 7, 6   the grammar, as in allstar_check
 *   18             there are no notes, or more than 64; or the lengths do not add up to tokens_length; or
 *                  answers_length is not 3 * lengths_length; or row_length is no multiple of lengths_length
 * and stores the place: as in allstar_check for 1 to 7, else 0.
 *
 * If it answers 0, then number, place and count of each note, its part of the row, and the cache are those of
 * calls of allstar_quick, one for each note in their order, each lent the same grammar, the note, its part of
 * the row, the cache as the one before left it, and the workspace. So a note is refused with 8, 9, 11, 12, 13,
 * 10 or 14, the first that applies in this order; its place counts the note's own tokens; and the next note is
 * read whatever became of it. 12 and 13 are answers of notes as well, never of the call.
 *
 * The answers afterwards: all are stored; after 1 to 7 and 18 they are untouched.
 * The row afterwards: the part of an accepted note holds its entries, and zeros behind them; after 10 and 14 of
 * a note its part holds zeros alone; after any other refusal of a note its part is untouched. After 1 to 7 and
 * 18 the whole row is untouched.
 * The cache afterwards: it holds what it held and what the readings learned; after 1 to 7 and 18 it is
 * untouched, and so is the workspace. */
uint32_t allstar_batch(const uint8_t *grammar, size_t grammar_length,
                       const uint16_t *tokens, size_t tokens_length,
                       const uint16_t *lengths, size_t lengths_length,
                       uint64_t *answers, size_t answers_length,
                       uint16_t *row, size_t row_length,
                       uint32_t *cache, size_t cache_length,
                       uint32_t *workspace, size_t workspace_length,
                       uint64_t *place);

/* Audits a cache whose words another program wrote, or that may have been damaged. Lent are
 *   the grammar     bytes of any length; they are checked
 *   the cache       words of any number, to be looked at alone
 * Answers 0 for a yes, else the number of the refusal, the first that applies in this order:
 *   1 to 5, 7, 6   the grammar, as in allstar_check
 *   12             the cache has fewer than 2,368 words
 *   13             the cache was not begun for these grammar bytes at this length
 *   19             the words are laid out otherwise than they must be, or a decision holds two equal states, or
 *                  a start or step is recorded that the learning rules do not give
 * and stores the place: as in allstar_check for 1 to 7, else 0. It writes nothing else.
 *
 * After a yes the cache may be lent to allstar_quick and allstar_batch, with the same grammar bytes and at the
 * same length, as if allstar_begin and they alone had written it: they answer what allstar_plain does, and a
 * note that was read before teaches nothing more. What those calls leave gets a yes again, always. It need not
 * be asked again. docs/CACHE.md tells each word, for whoever writes such a program, and each test.
 *
 * It works out every outcome that is recorded once more, and looks at every word. */
uint32_t allstar_audit(const uint8_t *grammar, size_t grammar_length,
                       const uint32_t *cache, size_t cache_length,
                       uint64_t *place);

/* Makes a note of a typed line. Lent are
 *   the line        its bytes, at most 512, without a line end
 *   the words       the list: up to 66 words with single blanks between and nothing before or behind them, none
 *                   of them twice; of any length. An empty list has no words
 *   the tokens      the row that takes the kinds; any length, 0 too. 128 entries are enough for every line
 * A letter is A to Z or a to z, a digit 0 to 9, a blank byte 32, a mark one of the other 32 bytes from 33 to
 * 126; any other byte is foreign. From left to right, each as long as it can be: a word is a letter and all
 * letters and digits behind it; a number all digits of a run, and where a point and at least one digit follow,
 * the point and all digits of that run; a mark stands alone. Blanks separate. The kinds are
 *   1               a word that is not listed
 *   2               a number
 *   3 to 34         a mark, by the order of the bytes: ! is 3, ~ is 34
 *   35 to 100       a word of the list, byte for byte, by its order: the first is 35
 * So 12ab is a number and a word, 1.2.3 a number, a point and a number, `12.` a number and a point.
 * Answers 0 if the row holds the tokens, else the number of the refusal, the first that applies in this order:
 *   15       the line has more than 512 bytes
 *   17       the list is no list
 *   16       a byte of the line is foreign
 *   8        the line has more than 128 tokens
 *   14       the line has more tokens than the row has entries
 * and stores the place: for 16 the first foreign byte, counted from 0; else 0. It stores the count of tokens
 * too, 0 where refused.
 *
 * The row afterwards: accepted, it holds the kinds, and zeros behind them; after 14 it holds zeros alone; after
 * any other refusal it is untouched. */
uint32_t allstar_split(const uint8_t *line, size_t line_length,
                       const uint8_t *words, size_t words_length,
                       uint16_t *tokens, size_t tokens_length,
                       uint64_t *place, uint64_t *count);

/* What a number says, in words. The string is never null and lasts for ever. */
static inline const char *allstar_text(uint32_t number)
{
    switch (number) {
    case ALLSTAR_OK:
        return "accepted";
    case ALLSTAR_UNFINISHED:
        return "the bytes end before the grammar does";
    case ALLSTAR_MALFORMED:
        return "a number of the grammar is malformed";
    case ALLSTAR_OVER_LIMIT:
        return "a number of the grammar breaks its limit";
    case ALLSTAR_UNKNOWN_SYMBOL:
        return "a symbol of the grammar does not exist";
    case ALLSTAR_TRAILING:
        return "bytes follow the grammar";
    case ALLSTAR_UNPRODUCTIVE:
        return "a nonterminal derives no row of tokens";
    case ALLSTAR_LEFT_RECURSIVE:
        return "a nonterminal is left recursive";
    case ALLSTAR_LONG_NOTE:
        return "the note has more than 128 tokens";
    case ALLSTAR_UNKNOWN_TOKEN:
        return "the grammar does not know a token of the note";
    case ALLSTAR_NOT_A_SENTENCE:
        return "the note is no sentence";
    case ALLSTAR_SHORT_WORKSPACE:
        return "the working space is too short";
    case ALLSTAR_SHORT_CACHE:
        return "the cache is too short";
    case ALLSTAR_FOREIGN_CACHE:
        return "the cache was not begun for this grammar at this length";
    case ALLSTAR_SHORT_ROW:
        return "the row is too short";
    case ALLSTAR_LONG_LINE:
        return "the line has more than 512 bytes";
    case ALLSTAR_FOREIGN_BYTE:
        return "the line has a foreign byte";
    case ALLSTAR_BAD_LIST:
        return "the list of words is no list";
    case ALLSTAR_BAD_BATCH:
        return "the parts of the batch do not fit together";
    case ALLSTAR_NOT_COHERENT:
        return "the words of the cache are not coherent";
    default:
        return "no number of this library";
    }
}

#ifdef __cplusplus
}
#endif

#endif
