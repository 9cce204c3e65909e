/*
 * shelf.h: editions of a persistent hash trie in a lent arena of 64-bit words.
 *
 * An edition maps elements, each a hash and a key, to values. An update makes a new edition beside the old
 * one, and the two share what they have in common. No edition ever loses an entry that no call on that
 * edition took away.
 *
 * The functions are those of libshelf_c.a, which `rt lib`, in crates/shelf_c, makes of proved code for 64-bit x86.
 * They allocate nothing, keep nothing between calls, and need nothing but memcpy and memset of the C library.
 *
 *     uint64_t words[SHELF_WORDS(16, 100, 100, 8)];
 *     size_t length = sizeof words / sizeof *words;
 *     shelf_format(words, length, 16, 100, 100, 8);
 *     uint64_t empty = shelf_new_edition(words, length).a;
 *     shelf_answer put = shelf_insert(words, length, empty, hash, key, place);
 *     if (put.number == SHELF_DONE) {
 *         // put.a is an edition with the entry; `empty` still has none.
 *     }
 *
 * A slice is a pointer and then a length in words. On any words, formatted or not, each call ends, stays
 * inside the slices that it is lent, and answers one of the numbers below. What is the caller's to see to:
 *
 *   - A slice is real. Its pointer is aligned and not null, not even where the length is 0, and so many words
 *     can be read there, and written where it is not const.
 *   - The slices of one call do not overlap.
 *   - While a call writes a slice, no other thread reads or writes it. Calls that take an arena as const may
 *     run at once.
 *   - Nothing but these calls writes the words of an arena. After anything else, shelf_check says whether it
 *     is still sound.
 */
#ifndef SHELF_H
#define SHELF_H

#include <stddef.h>
#include <stdint.h>

#ifdef __cplusplus
extern "C" {
#endif

/* What each call answers: a number of enum shelf_number, and up to three values, zeros where there is none. */
typedef struct {
    uint64_t number, a, b, c;
} shelf_answer;

/*
 * The numbers. Every number but 0 is a refusal: the values beside it are zeros, and the call has altered
 * nothing. The one exception is a shelf_check that finds a fault, which leaves zeros in its work words.
 *
 * shelf_format tests in the order 1, 2, 3. All others: 4, then 12 for shelf_check or 5 (the first edition,
 * then the second), then 6, 7, 8, 9; shelf_list 11, then 10.
 */
enum shelf_number {
    SHELF_DONE = 0,              /* none of those below applies */
    SHELF_BAD_DEGREE = 1,        /* format: not 2, 4, 8, 16, 32 or 64 */
    SHELF_BAD_SIZES = 2,         /* format: branches, entries or editions out of range */
    SHELF_SLICE_TOO_SHORT = 3,   /* format: fewer words than the total */
    SHELF_DAMAGED = 4,           /* words 0 to 7 wrong, or the slice too short for them; check: not sound */
    SHELF_NO_SUCH_EDITION = 5,   /* the number is not below that of the slots, or its slot is not held */
    SHELF_ABSENT = 6,            /* get, change, remove: the key is not there */
    SHELF_NO_SLOT = 7,           /* a new edition is wanted, and all slots are held */
    SHELF_NO_BRANCH_CELLS = 8,   /* more are needed than are free */
    SHELF_NO_ENTRY_CELLS = 9,    /* more are needed than are free */
    SHELF_OUTPUT_TOO_SHORT = 10, /* list: room under three words, and the place is below the size */
    SHELF_BEYOND_THE_END = 11,   /* list: the place is above the size */
    SHELF_WORK_TOO_SHORT = 12    /* check: fewer work words than cells */
};

/* The classes of a tag: see shelf_tag_class. */
enum shelf_class {
    SHELF_PUBLIC = 0,          /* the group is even */
    SHELF_CREATOR = 1,         /* the creator of a block of a private group */
    SHELF_PRIVATE_ELEMENT = 2, /* an element of a block of a private group */
    SHELF_UNASSIGNED = 3       /* an element of a private group that belongs to no block */
};

/* The limits: an arena has at least one of each, and at most so many. */
#define SHELF_MOST_BRANCHES 1048576
#define SHELF_MOST_ENTRIES 4194304
#define SHELF_MOST_EDITIONS 4096

/* Words of the header, a slot of an edition, a branch cell, an entry cell, and of an entry in a listing. */
#define SHELF_HEADER_WORDS 12
#define SHELF_SLOT_WORDS 3
#define SHELF_BRANCH_WORDS(degree) ((size_t)(degree) + 3)
#define SHELF_ENTRY_WORDS 6
#define SHELF_LISTED_WORDS 3

/* How many words an arena takes, where shelf_format does not refuse the sizes: 26 to 95,432,716. */
#define SHELF_WORDS(degree, branches, entries, editions)                          \
    ((size_t)SHELF_HEADER_WORDS + (size_t)SHELF_SLOT_WORDS * (size_t)(editions) + \
     SHELF_BRANCH_WORDS(degree) * (size_t)(branches) + (size_t)SHELF_ENTRY_WORDS * (size_t)(entries))

/* How many work words a check takes: one for each cell. */
#define SHELF_WORK_WORDS(branches, entries) ((size_t)(branches) + (size_t)(entries))

/*
 * Makes an arena of the words: no edition is held then, and every cell is free; every edition that was in it
 * ends. The degree is 2, 4, 8, 16, 32 or 64. Words beyond SHELF_WORDS are never touched, by this call or any
 * other.
 */
shelf_answer shelf_format(uint64_t *arena, size_t words, uint64_t degree, uint64_t branches,
                          uint64_t entries, uint64_t editions);

/*
 * Whether the arena is sound, by a test of every word. If it is, the work words hold each branch cell's, then
 * each entry cell's count. If it is not, the number is 4, and they are zeros. Work words beyond
 * SHELF_WORK_WORDS stay as they are.
 */
shelf_answer shelf_check(const uint64_t *arena, size_t words, uint64_t *work, size_t work_words);

/* An edition without entries, in the lowest free slot; it takes no cell. a: its number. */
shelf_answer shelf_new_edition(uint64_t *arena, size_t words);

/*
 * The same edition once more, in the lowest free slot; it takes no cell, and each of the two is dropped by
 * itself. a: its number.
 */
shelf_answer shelf_share(uint64_t *arena, size_t words, uint64_t edition);

/* How many entries an edition has. a: its size. */
shelf_answer shelf_size(const uint64_t *arena, size_t words, uint64_t edition);

/* How many cells are in use: those that held editions reach, each once. a: branch cells, b: entry cells. */
shelf_answer shelf_in_use(const uint64_t *arena, size_t words);

/* Looks for a hash and a key in an edition. a: the value. */
shelf_answer shelf_get(const uint64_t *arena, size_t words, uint64_t edition, uint64_t hash, uint64_t key);

/*
 * Writes hash, key and value of each entry from a place in the edition's listing on, while three words of room
 * remain; the remaining room stays as it is. a: how many entries were written, 0 where the place is the size.
 */
shelf_answer shelf_list(const uint64_t *arena, size_t words, uint64_t edition, uint64_t place,
                        uint64_t *out, size_t out_words);

/* Whether two editions have the same entries with the same values. a: 1 if they have, 0 if not. */
shelf_answer shelf_equal(const uint64_t *arena, size_t words, uint64_t first, uint64_t second);

/*
 * An edition with an entry put in it, in the lowest free slot; a value that stood under the hash and the key is
 * replaced. The old edition stays as it is. a: the new edition, b: branch cells taken, c: entry cells taken.
 */
shelf_answer shelf_insert(uint64_t *arena, size_t words, uint64_t edition, uint64_t hash, uint64_t key,
                          uint64_t value);

/* An insert where the hash and the key are there already, else refused with 6. a, b, c: as for an insert. */
shelf_answer shelf_change(uint64_t *arena, size_t words, uint64_t edition, uint64_t hash, uint64_t key,
                          uint64_t value);

/*
 * An edition with an entry taken out, in the lowest free slot. The old edition stays as it is. a: the new
 * edition, b: branch cells taken, c: entry cells taken.
 */
shelf_answer shelf_remove(uint64_t *arena, size_t words, uint64_t edition, uint64_t hash, uint64_t key);

/*
 * Lets an edition go, and every cell that no other edition reaches. Its number may then be given to another.
 * a: branch cells freed, b: entry cells freed.
 */
shelf_answer shelf_drop(uint64_t *arena, size_t words, uint64_t edition);

/*
 * The class of a tag. a: its number in enum shelf_class, b: the block of a creator or of a private element,
 * c: the low byte of a private element.
 */
shelf_answer shelf_tag_class(uint16_t group, uint16_t element);

/* The key of a tag by rule 1, group times 65,536 plus element. a: the key. */
shelf_answer shelf_key_1(uint16_t group, uint16_t element);

#ifdef __cplusplus
}
#endif

#endif
