/*
 * Document 01's shelf table, and each refusal, through the calls that shelf.h declares. Prints a line for each
 * case, marked where it is not what the document says, and at the end how many there were and how many were wrong.
 */
#include "shelf.h"

#include <inttypes.h>
#include <stdio.h>
#include <string.h>

/* The sizes of the smallest and the largest arena, as the compiler computes them. */
typedef char smallest_is_right[SHELF_WORDS(2, 1, 1, 1) == 26 ? 1 : -1];
typedef char largest_is_right
    [SHELF_WORDS(64, SHELF_MOST_BRANCHES, SHELF_MOST_ENTRIES, SHELF_MOST_EDITIONS) == 95432716 ? 1 : -1];

enum { BRANCHES = 160, ENTRIES = 40, EDITIONS = 24 };

/* The words are one more than the largest arena here takes, so that a call which writes too far shows. */
static const uint64_t BEYOND = UINT64_C(0x1234567890abcdef);
static const uint64_t DE_HASH = UINT64_C(0x7000000000000008);
static uint64_t words[SHELF_WORDS(64, BRANCHES, ENTRIES, EDITIONS) + 1];
static uint64_t before[sizeof words / sizeof *words];
static size_t length;

static unsigned cases, wrong;

/* Ends the line of a case. */
static void settle(int is_right) {
    cases += 1;
    wrong += !is_right;
    puts(is_right ? "" : "  WRONG");
}

/* A case that is done, with three values. */
static void gives(const char *name, shelf_answer got, uint64_t a, uint64_t b, uint64_t c) {
    printf("%s: %" PRIu64 " %" PRIu64 " %" PRIu64, name, got.a, got.b, got.c);
    settle(got.number == SHELF_DONE && got.a == a && got.b == b && got.c == c);
}

/* A case that is done and makes an edition: the cells that it takes. Returns the edition. */
static uint64_t takes(const char *name, shelf_answer got, uint64_t branches, uint64_t entries) {
    printf("%s: %" PRIu64 " %" PRIu64, name, got.b, got.c);
    settle(got.number == SHELF_DONE && got.b == branches && got.c == entries);
    return got.a;
}

/* A case that is refused, with zeros beside the number and every word as it was before. */
static void refuses(const char *name, shelf_answer got, enum shelf_number number) {
    int has_zeros = got.a == 0 && got.b == 0 && got.c == 0;
    printf("%s: %" PRIu64, name, got.number);
    settle(got.number == (uint64_t)number && has_zeros && memcmp(words, before, sizeof words) == 0);
}

/* A case that holds or does not. */
static void holds(const char *name, int is_right) {
    printf("%s", name);
    settle(is_right);
}

/* Makes an arena of these sizes, with no words to spare but the one beyond it. */
static void make(uint64_t degree, uint64_t branches, uint64_t entries, uint64_t editions) {
    memset(words, 0, sizeof words);
    length = SHELF_WORDS(degree, branches, entries, editions);
    words[length] = BEYOND;
    shelf_format(words, length, degree, branches, entries, editions);
}

static shelf_answer insert(uint64_t edition, uint64_t hash, uint64_t key, uint64_t value) {
    return shelf_insert(words, length, edition, hash, key, value);
}

static shelf_answer take_out(uint64_t edition, uint64_t hash, uint64_t key) {
    return shelf_remove(words, length, edition, hash, key);
}

/* A case that lists an edition whole: hash in hexadecimal, key and value of each entry. */
static void lists(const char *name, uint64_t edition, const char *wanted) {
    uint64_t out[SHELF_LISTED_WORDS * 8];
    char text[512] = "";
    size_t at = 0;
    shelf_answer got = shelf_list(words, length, edition, 0, out, sizeof out / sizeof *out);
    for (uint64_t i = 0; got.number == SHELF_DONE && i < got.a; i += 1) {
        const uint64_t *entry = out + SHELF_LISTED_WORDS * i;
        at += (size_t)snprintf(text + at, sizeof text - at, " (%" PRIx64 ",%" PRIu64 ",%" PRIu64 ")", entry[0],
                               entry[1], entry[2]);
    }
    printf("%s:%s", name, text);
    settle(got.number == SHELF_DONE && strcmp(text, wanted) == 0);
}

/* The reference of an edition's root, as it lies in the edition's slot. */
static uint64_t root_of(uint64_t edition) {
    return words[SHELF_HEADER_WORDS + SHELF_SLOT_WORDS * edition + 1];
}

/* The editions that the table speaks of, by their number; the first is empty. */
static uint64_t k[11];

static void makes_k1_to_k5(void) {
    make(16, BRANCHES, ENTRIES, EDITIONS);
    gives("new edition", shelf_new_edition(words, length), 0, 0, 0);
    k[0] = 0;
    k[1] = takes("K1", insert(k[0], 0x26, 1, 10), 1, 1);
    k[2] = takes("K2", insert(k[1], 0x16, 2, 20), 2, 1);
    k[3] = takes("K3", insert(k[2], 0x42, 3, 30), 1, 1);
    k[4] = takes("K4", insert(k[3], DE_HASH, 4, 40), 1, 1);
    k[5] = takes("K5", insert(k[4], DE_HASH, 5, 50), 16, 1);
    lists("K5 lists", k[5],
          " (42,3,30) (16,2,20) (26,1,10) (7000000000000008,5,50) (7000000000000008,4,40)");
    gives("in use with K1 to K5", shelf_in_use(words, length), 21, 5, 0);
}

static void goes_on_from_k5(void) {
    k[6] = takes("K6", insert(k[5], DE_HASH, 4, 41), 16, 2);
    lists("K6 lists", k[6],
          " (42,3,30) (16,2,20) (26,1,10) (7000000000000008,4,41) (7000000000000008,5,50)");
    k[7] = takes("K7", take_out(k[5], DE_HASH, 4), 1, 1);
    lists("K7 lists", k[7], " (42,3,30) (16,2,20) (26,1,10) (7000000000000008,5,50)");
    k[8] = takes("K8", take_out(k[5], DE_HASH, 5), 1, 0);
    lists("K8 lists", k[8], " (42,3,30) (16,2,20) (26,1,10) (7000000000000008,4,40)");
    k[9] = takes("K9", take_out(k[2], 0x26, 1), 0, 0);
    lists("K9 lists", k[9], " (16,2,20)");
    holds("K9 has an entry as its root", root_of(k[9]) % 2 == 1);
    k[10] = takes("K10", insert(k[9], 0x26, 1, 10), 2, 1);
    lists("K10 lists", k[10], " (16,2,20) (26,1,10)");
}

static void also_runs(void) {
    uint64_t with_6 = takes("K5, key 6 under D's hash", insert(k[5], DE_HASH, 6, 60), 16, 1);
    uint64_t without_6 = takes("K5, key 6 in and out", take_out(with_6, DE_HASH, 6), 16, 0);
    gives("K5 and K5, key 6 in and out, are equal", shelf_equal(words, length, k[5], without_6), 1, 0, 0);
    takes("K6, remove D", take_out(k[6], DE_HASH, 4), 1, 0);
    takes("K5, key 4 under hash 42", insert(k[5], 0x42, 4, 44), 16, 1);
    uint64_t bare = takes("K1, remove A", take_out(k[1], 0x26, 1), 0, 0);
    holds("K1, remove A leaves root 0", root_of(bare) == 0);
}

static void looks(void) {
    uint64_t changed = takes("K5, change D to 41", shelf_change(words, length, k[5], DE_HASH, 4, 41), 16, 2);
    gives("it equals K6", shelf_equal(words, length, changed, k[6]), 1, 0, 0);
    gives("it does not equal K5", shelf_equal(words, length, changed, k[5]), 0, 0, 0);
    gives("D in K5", shelf_get(words, length, k[5], DE_HASH, 4), 40, 0, 0);
    gives("D in K6", shelf_get(words, length, k[6], DE_HASH, 4), 41, 0, 0);
    gives("size of K5", shelf_size(words, length, k[5]), 5, 0, 0);
    gives("size of K10", shelf_size(words, length, k[10]), 2, 0, 0);
    shelf_answer twin = shelf_share(words, length, k[5]);
    gives("K5 shared equals K5", shelf_equal(words, length, twin.a, k[5]), 1, 0, 0);
    gives("K5 shared, dropped", shelf_drop(words, length, twin.a), 0, 0, 0);
}

/* Whether the work words of a check are the counts, which are the first words of the cells. */
static int are_counts(const uint64_t *work) {
    int are = 1;
    for (uint64_t i = 0; i < BRANCHES; i += 1) {
        are &= work[i] == words[words[6] + SHELF_BRANCH_WORDS(16) * i];
    }
    for (uint64_t i = 0; i < ENTRIES; i += 1) {
        are &= work[BRANCHES + i] == words[words[7] + SHELF_ENTRY_WORDS * i];
    }
    return are;
}

static void checks(void) {
    static uint64_t work[SHELF_WORK_WORDS(BRANCHES, ENTRIES) + 1];
    work[SHELF_WORK_WORDS(BRANCHES, ENTRIES)] = BEYOND;
    gives("check", shelf_check(words, length, work, sizeof work / sizeof *work), 0, 0, 0);
    holds("the work words are the counts", are_counts(work));
    holds("further work words stay", work[SHELF_WORK_WORDS(BRANCHES, ENTRIES)] == BEYOND);
}

/* Drops every edition, K1 to K5 last, and looks at what is in use on the way. */
static void lets_go(void) {
    for (uint64_t edition = 0; edition < EDITIONS; edition += 1) {
        int is_k1_to_k5 = edition == k[1] || edition == k[2] || edition == k[3] || edition == k[4] || edition == k[5];
        if (!is_k1_to_k5 && shelf_size(words, length, edition).number == SHELF_DONE) {
            shelf_drop(words, length, edition);
        }
    }
    gives("in use with K1 to K5 again", shelf_in_use(words, length), 21, 5, 0);
    gives("K1 dropped", shelf_drop(words, length, k[1]), 1, 0, 0);
    gives("K2 dropped", shelf_drop(words, length, k[2]), 1, 0, 0);
    gives("K3 dropped", shelf_drop(words, length, k[3]), 1, 0, 0);
    gives("K4 dropped", shelf_drop(words, length, k[4]), 1, 0, 0);
    gives("in use with K5 alone", shelf_in_use(words, length), 17, 5, 0);
    gives("K5 dropped", shelf_drop(words, length, k[5]), 17, 5, 0);
    gives("in use with none", shelf_in_use(words, length), 0, 0, 0);
    holds("further words of the slice stay", words[length] == BEYOND);
}

/* Two hashes that differ in their highest bit alone. */
static void parts_late(const char *name, uint64_t degree, uint64_t branches) {
    make(degree, BRANCHES, ENTRIES, EDITIONS);
    uint64_t first = insert(shelf_new_edition(words, length).a, 0, 1, 10).a;
    takes(name, insert(first, UINT64_C(1) << 63, 2, 20), branches, 1);
    holds("its further words stay", words[length] == BEYOND);
}

static void refuses_sizes(void) {
    make(16, 4, 2, 3);
    memcpy(before, words, sizeof words);
    refuses("degree 3", shelf_format(words, length, 3, 4, 2, 3), SHELF_BAD_DEGREE);
    refuses("no branch cell", shelf_format(words, length, 16, 0, 2, 3), SHELF_BAD_SIZES);
    refuses("too many entry cells", shelf_format(words, length, 16, 4, SHELF_MOST_ENTRIES + 1, 3), SHELF_BAD_SIZES);
    refuses("a word too few to format", shelf_format(words, length - 1, 16, 4, 2, 3), SHELF_SLICE_TOO_SHORT);
    refuses("a word too few for the header", shelf_in_use(words, length - 1), SHELF_DAMAGED);
}

static void refuses_damage(void) {
    uint64_t work[SHELF_WORK_WORDS(4, 2)] = {7, 7, 7, 7, 7, 7};
    static const uint64_t zeros[SHELF_WORK_WORDS(4, 2)];
    make(16, 4, 2, 3);
    memcpy(before, words, sizeof words);
    refuses("a work word too few", shelf_check(words, length, work, SHELF_WORK_WORDS(4, 2) - 1), SHELF_WORK_TOO_SHORT);
    holds("the work words stay", work[0] == 7 && work[5] == 7);
    words[10] = before[10] = 1;
    refuses("check of a wrong count", shelf_check(words, length, work, SHELF_WORK_WORDS(4, 2)), SHELF_DAMAGED);
    holds("the work words are zeros", memcmp(work, zeros, sizeof work) == 0);
    words[0] = before[0] = 2;
    refuses("another layout", shelf_new_edition(words, length), SHELF_DAMAGED);
}

static void refuses_editions_and_keys(void) {
    uint64_t out[SHELF_LISTED_WORDS] = {0};
    make(16, 4, 2, 2);
    uint64_t first = insert(shelf_new_edition(words, length).a, 0x26, 1, 10).a;
    memcpy(before, words, sizeof words);
    refuses("a number not below the slots", shelf_size(words, length, 2), SHELF_NO_SUCH_EDITION);
    refuses("get of a missing key", shelf_get(words, length, first, 0x26, 2), SHELF_ABSENT);
    refuses("change of a missing key", shelf_change(words, length, first, 0x26, 2, 20), SHELF_ABSENT);
    refuses("remove of a missing key", take_out(first, 0x27, 1), SHELF_ABSENT);
    refuses("a third edition of two", shelf_share(words, length, first), SHELF_NO_SLOT);
    refuses("list into two words", shelf_list(words, length, first, 0, out, 2), SHELF_OUTPUT_TOO_SHORT);
    refuses("list from place 2 of 1", shelf_list(words, length, first, 2, out, 3), SHELF_BEYOND_THE_END);
    gives("list from place 1 of 1", shelf_list(words, length, first, 1, out, 0), 0, 0, 0);
    shelf_drop(words, length, first);
    memcpy(before, words, sizeof words);
    refuses("an edition that was dropped", shelf_drop(words, length, first), SHELF_NO_SUCH_EDITION);
}

static void refuses_room(void) {
    make(16, 1, 2, 3);
    uint64_t first = insert(shelf_new_edition(words, length).a, 0x26, 1, 10).a;
    memcpy(before, words, sizeof words);
    refuses("an insert with no branch cell free", insert(first, 0x42, 3, 30), SHELF_NO_BRANCH_CELLS);
    make(16, 2, 1, 3);
    first = insert(shelf_new_edition(words, length).a, 0x26, 1, 10).a;
    memcpy(before, words, sizeof words);
    refuses("an insert with no entry cell free", insert(first, 0x42, 3, 30), SHELF_NO_ENTRY_CELLS);
}

static void tells_tags(void) {
    gives("(0010,0010)", shelf_tag_class(0x0010, 0x0010), SHELF_PUBLIC, 0, 0);
    gives("(3005,0010)", shelf_tag_class(0x3005, 0x0010), SHELF_CREATOR, 0x10, 0);
    gives("(3005,1042)", shelf_tag_class(0x3005, 0x1042), SHELF_PRIVATE_ELEMENT, 0x10, 0x42);
    gives("(3005,0100)", shelf_tag_class(0x3005, 0x0100), SHELF_UNASSIGNED, 0, 0);
    gives("key of (3005,1042)", shelf_key_1(0x3005, 0x1042), UINT64_C(0x30051042), 0, 0);
}

int main(void) {
    makes_k1_to_k5();
    goes_on_from_k5();
    also_runs();
    looks();
    checks();
    lets_go();
    parts_late("K11", 64, 11);
    parts_late("K12", 8, 22);
    refuses_sizes();
    refuses_damage();
    refuses_editions_and_keys();
    refuses_room();
    tells_tags();
    printf("table: %u cases, %u wrong\n", cases, wrong);
    return wrong == 0 ? 0 : 1;
}
