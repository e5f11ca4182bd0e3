/* Holds fenstubble.h to the library: what the header says of sizes, lending, numbers and layouts is so. It ends with status 1 at the first thing
 * that is not. */
#define _XOPEN_SOURCE 700
#include <fenstubble.h>
#include <stdio.h>
#include <stdlib.h>
#include <string.h>
#include <ucontext.h>

/* ---- sizes, each as a plain number */

_Static_assert(FENSTUBBLE_USERS == 64 && FENSTUBBLE_RESOURCES == 256, "users and folders");
_Static_assert(FENSTUBBLE_INNER_TOKENS == 4096 && FENSTUBBLE_OUTER_TOKENS == 4096 && FENSTUBBLE_OUTER_GROUPS == 448, "tokens and groups");
_Static_assert(FENSTUBBLE_INNER_VERTICES_ROWS == 320 && FENSTUBBLE_OUTER_VERTICES_ROWS == 512, "rows of vertices");
_Static_assert(FENSTUBBLE_INNER_TOKENS_ROWS == 4096 && FENSTUBBLE_OUTER_TOKENS_ROWS == 4096, "rows of tokens");
_Static_assert(FENSTUBBLE_RESOURCES_ROWS == 256, "rows of resources");
_Static_assert(FENSTUBBLE_INNER_VERTICES_WIDTH == 8 && FENSTUBBLE_OUTER_VERTICES_WIDTH == 8, "widths of vertices");
_Static_assert(FENSTUBBLE_INNER_TOKENS_WIDTH == 5 && FENSTUBBLE_OUTER_TOKENS_WIDTH == 4, "widths of tokens");
_Static_assert(FENSTUBBLE_RESOURCES_WIDTH == 12 && FENSTUBBLE_SET_BYTES == 8, "widths of resources and sets");
_Static_assert(FENSTUBBLE_INNER_VERTICES_BYTES == 2560 && FENSTUBBLE_OUTER_VERTICES_BYTES == 4096, "bytes of vertices");
_Static_assert(FENSTUBBLE_INNER_TOKENS_BYTES == 20480 && FENSTUBBLE_OUTER_TOKENS_BYTES == 16384, "bytes of tokens");
_Static_assert(FENSTUBBLE_RESOURCES_BYTES == 3072, "bytes of resources");
_Static_assert(FENSTUBBLE_BOOK_HEADER == 17 && FENSTUBBLE_BOOK_BYTES == 46617, "bytes of a book");
_Static_assert(FENSTUBBLE_BOOK_LEAVERS == 17 && FENSTUBBLE_BOOK_ROWS == 25, "the set of leavers, and the rows behind it");
_Static_assert(FENSTUBBLE_BOOK_BYTES == FENSTUBBLE_BOOK_ROWS + FENSTUBBLE_INNER_VERTICES_BYTES + FENSTUBBLE_INNER_TOKENS_BYTES +
                                            FENSTUBBLE_OUTER_VERTICES_BYTES + FENSTUBBLE_OUTER_TOKENS_BYTES + FENSTUBBLE_RESOURCES_BYTES,
               "the largest book is the header, the set of leavers and all tables");
_Static_assert(FENSTUBBLE_HEAD_LEN == 11 && FENSTUBBLE_HEAD_LEAVERS == 7 && FENSTUBBLE_HEAD_MODE == 0, "the head");
_Static_assert(FENSTUBBLE_HEAD_USERS == 1 && FENSTUBBLE_HEAD_RESOURCES == 2, "the head's users and folders");
_Static_assert(FENSTUBBLE_HEAD_INNER_VERTICES == 3 && FENSTUBBLE_HEAD_INNER_TOKENS == 4, "the head's inner layer");
_Static_assert(FENSTUBBLE_HEAD_OUTER_VERTICES == 5 && FENSTUBBLE_HEAD_OUTER_TOKENS == 6, "the head's outer layer");
_Static_assert(FENSTUBBLE_SECTION_INNER_VERTICES == 0 && FENSTUBBLE_SECTION_INNER_TOKENS == 1, "the inner sections");
_Static_assert(FENSTUBBLE_SECTION_OUTER_VERTICES == 2 && FENSTUBBLE_SECTION_OUTER_TOKENS == 3, "the outer sections");
_Static_assert(FENSTUBBLE_SECTION_RESOURCES == 4 && FENSTUBBLE_SECTIONS == 5, "the last section");
_Static_assert(FENSTUBBLE_ORDER_WIDTH == 3 && FENSTUBBLE_REQUEST_WIDTH == 3 && FENSTUBBLE_ANSWER_WIDTH == 3, "rows of three");
_Static_assert(FENSTUBBLE_ORDER_ROWS == 4608 && FENSTUBBLE_ORDERS_LEN == 13824 && FENSTUBBLE_GRANT_ROWS == 385, "most rows of a request");
_Static_assert(FENSTUBBLE_ORDER_ROWS == FENSTUBBLE_OUTER_TOKENS + 2 * FENSTUBBLE_RESOURCES, "a leave: all tokens, a vertex and a lock for each folder");
_Static_assert(FENSTUBBLE_CHAIN_ROWS == 63 && FENSTUBBLE_OPEN_ROWS == 126, "most rows of an open");
_Static_assert(FENSTUBBLE_NO_OUTER == 65535 && FENSTUBBLE_NO_ROW == 65535 && FENSTUBBLE_ROW_INNER == 'i' && FENSTUBBLE_ROW_OUTER == 'o', "marks");

/* ---- a book to lend */

static struct book {
    uint16_t head[FENSTUBBLE_HEAD_LEN];
    uint8_t tables[5][FENSTUBBLE_INNER_TOKENS_BYTES + 1]; /* each at an odd address or not, as it comes: bytes need no alignment */
    uint8_t *table[5];
    size_t length[5];
} book, before;

static uint16_t orders[FENSTUBBLE_ORDERS_LEN], count;

#define TABLES                                                                                                                                       \
    book.table[0], book.length[0], book.table[1], book.length[1], book.table[2], book.length[2], book.table[3], book.length[3], book.table[4],       \
        book.length[4]
#define BOOK book.head, FENSTUBBLE_HEAD_LEN, TABLES
#define ORDERS orders, FENSTUBBLE_ORDERS_LEN, &count

static void expect_at(int met, int line) {
    if (!met) {
        fprintf(stderr, "header.c:%d: not as the header says\n", line);
        exit(1);
    }
}
#define expect(met) expect_at(met, __LINE__)

/* The empty book in tables of noise, each as long as it has to be and no longer. */
static void begin(uint16_t mode) {
    static const size_t lengths[] = {FENSTUBBLE_INNER_VERTICES_BYTES, FENSTUBBLE_INNER_TOKENS_BYTES, FENSTUBBLE_OUTER_VERTICES_BYTES,
                                     FENSTUBBLE_OUTER_TOKENS_BYTES, FENSTUBBLE_RESOURCES_BYTES};
    memset(&book, 0xA5, sizeof book);
    memset(book.head, 0, sizeof book.head);
    book.head[FENSTUBBLE_HEAD_MODE] = mode;
    for (int t = 0; t < 5; t++) {
        book.table[t] = book.tables[t] + t % 2;
        book.length[t] = lengths[t];
    }
    count = 999;
}

/* Three users, folder 0 for users 0 and 1; the set's second eight bytes are noise that does not count. */
static void story(uint16_t mode) {
    static const uint8_t set[16] = {3, 0, 0, 0, 0, 0, 0, 0, 255, 255, 255, 255, 255, 255, 255, 255};
    begin(mode);
    for (int user = 0; user < 3; user++)
        expect(fenstubble_join(BOOK, ORDERS) == FENSTUBBLE_DONE);
    expect(fenstubble_insert(BOOK, ORDERS, set, sizeof set) == FENSTUBBLE_DONE);
}

/* ---- what the header says */

static void versions(void) {
    char text[32];
    snprintf(text, sizeof text, "%d.%d.%d", FENSTUBBLE_VERSION / 10000, FENSTUBBLE_VERSION / 100 % 100, FENSTUBBLE_VERSION % 100);
    expect(fenstubble_version() == FENSTUBBLE_VERSION && strcmp(text, FENSTUBBLE_VERSION_TEXT) == 0);
}

static int is_told(unsigned number) {
    return number <= FENSTUBBLE_HAS_LEFT || (number >= FENSTUBBLE_WRONG_MARK && number <= FENSTUBBLE_WRONG_LENGTH) ||
           (number >= FENSTUBBLE_BROKEN_S1 && number <= FENSTUBBLE_BROKEN_S8);
}

/* A line for each refusal, no two alike; the view beside a number does not change it; any other number has none. */
static void reasons(void) {
    for (unsigned result = 0; result <= 65535; result++) {
        const char *reason = fenstubble_reason((uint16_t)result);
        expect(is_told(result % 256) == (strcmp(reason, "no such refusal") != 0));
        expect(strcmp(reason, fenstubble_reason(result % 256)) == 0 && reason[0] != 0);
    }
    expect(strcmp(fenstubble_reason(FENSTUBBLE_DONE), "done") == 0);
    for (uint16_t a = 0; a <= FENSTUBBLE_BROKEN_S8; a++)
        for (uint16_t b = 0; b < a; b++)
            expect(!is_told(a) || strcmp(fenstubble_reason(a), fenstubble_reason(b)) != 0);
    expect(fenstubble_reason(FENSTUBBLE_CLOSED + 256 * FENSTUBBLE_VIEW_LOCKED) == fenstubble_reason(FENSTUBBLE_CLOSED));
}

/* A table, head or set that is one short is 13, and NULL with length 0 too; nothing is touched then. */
static void lengths(void) {
    static const uint8_t set[FENSTUBBLE_SET_BYTES] = {1};
    story(FENSTUBBLE_MODE_DELTA);
    expect(fenstubble_check(BOOK) == FENSTUBBLE_DONE);
    for (int t = 0; t < 5; t++) {
        uint8_t *table = book.table[t];
        book.length[t]--;
        expect(fenstubble_check(BOOK) == FENSTUBBLE_SHORT_TABLE && fenstubble_join(BOOK, ORDERS) == FENSTUBBLE_SHORT_TABLE);
        book.length[t]++;
        size_t length = book.length[t];
        book.table[t] = NULL;
        book.length[t] = 0;
        expect(fenstubble_check(BOOK) == FENSTUBBLE_SHORT_TABLE && fenstubble_join(BOOK, ORDERS) == FENSTUBBLE_SHORT_TABLE);
        book.table[t] = table;
        book.length[t] = length;
    }
    expect(fenstubble_check(book.head, FENSTUBBLE_HEAD_LEN - 1, TABLES) == FENSTUBBLE_SHORT_TABLE);
    expect(fenstubble_leave(book.head, FENSTUBBLE_HEAD_LEN - 1, TABLES, ORDERS, 0) == FENSTUBBLE_SHORT_TABLE);
    expect(fenstubble_check(NULL, 0, TABLES) == FENSTUBBLE_SHORT_TABLE);
    expect(fenstubble_join(NULL, 0, TABLES, ORDERS) == FENSTUBBLE_SHORT_TABLE);
    expect(fenstubble_insert(BOOK, ORDERS, set, FENSTUBBLE_SET_BYTES - 1) == FENSTUBBLE_SHORT_TABLE);
    expect(fenstubble_insert(BOOK, ORDERS, NULL, 0) == FENSTUBBLE_SHORT_TABLE);
    expect(fenstubble_insert(BOOK, ORDERS, set, FENSTUBBLE_SET_BYTES) == FENSTUBBLE_DONE);
}

/* NULL with length 0 for a list or bytes: room for nothing, or no book. */
static void nulls(void) {
    uint16_t inner = 9, outer = 9;
    size_t length = 9, start = 9, used = 9, place = 9;
    story(FENSTUBBLE_MODE_DELTA);
    before = book;
    count = 9;
    expect(fenstubble_join(BOOK, NULL, 0, &count) == FENSTUBBLE_SHORT_ANSWER);
    expect(fenstubble_join(BOOK, orders, 2 * FENSTUBBLE_ORDER_WIDTH - 1, &count) == FENSTUBBLE_SHORT_ANSWER);
    expect(fenstubble_grant(BOOK, NULL, 0, &count, 0, 2) == FENSTUBBLE_SHORT_ANSWER);
    expect(fenstubble_revoke(BOOK, NULL, 0, &count, 0, 1) == FENSTUBBLE_SHORT_ANSWER);
    expect(fenstubble_leave(BOOK, NULL, 0, &count, 1) == FENSTUBBLE_SHORT_ANSWER);
    expect(fenstubble_open(BOOK, 1, 0, NULL, 0, &inner, &outer) == FENSTUBBLE_SHORT_ANSWER);
    expect(fenstubble_write(BOOK, NULL, 0, &length) == FENSTUBBLE_SHORT_ANSWER);
    expect(fenstubble_section(NULL, 0, 0, &start, &length, &place) == FENSTUBBLE_WRONG_LENGTH && place == 0);
    place = 9;
    expect(fenstubble_read(NULL, 0, BOOK, &place) == FENSTUBBLE_WRONG_LENGTH && place == 0);
    expect(memcmp(&before, &book, sizeof book) == 0 && count == 9 && inner == 9 && outer == 9 && length == 9 && start == 9);
    expect(fenstubble_serve(BOOK, NULL, 0, NULL, 0, NULL, 0, &used) == FENSTUBBLE_DONE && used == 0);
    expect(memcmp(&before, &book, sizeof book) == 0);
}

/* Whose the numbers are that requests make, and what an open shows. */
static void numbers(void) {
    uint16_t rows[FENSTUBBLE_OPEN_ROWS], inner, outer, view = 9;
    begin(FENSTUBBLE_MODE_FULL);
    for (uint16_t user = 0; user < 3; user++) {
        uint16_t vertex = book.head[FENSTUBBLE_HEAD_INNER_VERTICES], other = book.head[FENSTUBBLE_HEAD_OUTER_VERTICES];
        expect(book.head[FENSTUBBLE_HEAD_USERS] == user && fenstubble_join(BOOK, ORDERS) == FENSTUBBLE_DONE && count == 2);
        expect(book.head[FENSTUBBLE_HEAD_USERS] == user + 1);
        expect(orders[0] == FENSTUBBLE_ORDER_INNER_KEY && orders[1] == vertex && orders[2] == 0);
        expect(orders[3] == FENSTUBBLE_ORDER_OUTER_KEY && orders[4] == other && orders[5] == 0);
    }
    /* folder 0 for user 0 alone, whose own keys serve */
    static const uint8_t own[FENSTUBBLE_SET_BYTES] = {1};
    static const uint16_t locked[] = {FENSTUBBLE_ORDER_LOCK, 0, 0, FENSTUBBLE_ORDER_ENCRYPT, 0, 0};
    expect(fenstubble_insert(BOOK, ORDERS, own, sizeof own) == FENSTUBBLE_DONE && count == 2 && memcmp(orders, locked, sizeof locked) == 0);
    expect(book.head[FENSTUBBLE_HEAD_RESOURCES] == 1);
    expect(fenstubble_open(BOOK, 0, 0, NULL, 0, &inner, &outer) == FENSTUBBLE_DONE && inner == 0 && outer == 0);
    /* both get an outer key; then user 1 gets a token to the access key */
    static const uint16_t shared[] = {FENSTUBBLE_ORDER_OUTER_KEY, 3, 0, FENSTUBBLE_ORDER_OUTER_TOKEN,  0, 3, FENSTUBBLE_ORDER_OUTER_TOKEN, 1, 3,
                                      FENSTUBBLE_ORDER_LOCK,      0, 3, FENSTUBBLE_ORDER_ACCESS_TOKEN, 1, 0};
    expect(fenstubble_grant(BOOK, ORDERS, 0, 1) == FENSTUBBLE_DONE && count == 5 && memcmp(orders, shared, sizeof shared) == 0);
    expect(fenstubble_open(BOOK, 1, 0, rows, FENSTUBBLE_OPEN_ROWS, &inner, &outer) == FENSTUBBLE_DONE && inner == 1 && outer == 1);
    expect(rows[0] == 0 && rows[1] == 1);
    expect(book.table[1][4] == FENSTUBBLE_TOKEN_ACCESS);
    /* user 2 stays out, by both locks */
    uint16_t result = fenstubble_open(BOOK, 2, 0, rows, FENSTUBBLE_OPEN_ROWS, &inner, &outer);
    expect(FENSTUBBLE_NUMBER(result) == FENSTUBBLE_CLOSED && FENSTUBBLE_VIEW(result) == FENSTUBBLE_VIEW_LOCKED);
    expect(fenstubble_view(BOOK, 2, 0, &view) == FENSTUBBLE_DONE && view == FENSTUBBLE_VIEW_LOCKED);
    /* folder 1 for users 0 and 1 */
    static const uint8_t both[FENSTUBBLE_SET_BYTES] = {3};
    static const uint16_t made[] = {FENSTUBBLE_ORDER_INNER_KEY, 3, 0, FENSTUBBLE_ORDER_INNER_TOKEN, 0, 3, FENSTUBBLE_ORDER_INNER_TOKEN, 1, 3,
                                    FENSTUBBLE_ORDER_LOCK,      1, 3, FENSTUBBLE_ORDER_ENCRYPT,     1, 3};
    expect(fenstubble_insert(BOOK, ORDERS, both, sizeof both) == FENSTUBBLE_DONE && count == 5 && memcmp(orders, made, sizeof made) == 0);
    /* a folder without an outer lock, and a user whom its inner one keeps out; one whom the outer lock keeps out */
    story(FENSTUBBLE_MODE_DELTA);
    expect(fenstubble_view(BOOK, 2, 0, &view) == FENSTUBBLE_DONE && view == FENSTUBBLE_VIEW_INNER_LOCKED);
    expect(fenstubble_revoke(BOOK, ORDERS, 0, 1) == FENSTUBBLE_DONE);
    expect(fenstubble_view(BOOK, 1, 0, &view) == FENSTUBBLE_DONE && view == FENSTUBBLE_VIEW_OUTER_LOCKED);
    expect(fenstubble_view(BOOK, 0, 0, &view) == FENSTUBBLE_DONE && view == FENSTUBBLE_VIEW_OPEN);
}

/* What a leave does to lists, locks and head, and what is refused afterwards. */
static void leaves(void) {
    static const uint8_t own[FENSTUBBLE_SET_BYTES] = {2}, gone[FENSTUBBLE_SET_BYTES] = {3}, strange[FENSTUBBLE_SET_BYTES] = {10};
    static const uint16_t orders_of[] = {FENSTUBBLE_ORDER_LOCK, 0, 0, FENSTUBBLE_ORDER_OUTER_KEY, 3, 0, FENSTUBBLE_ORDER_LOCK, 1, 3};
    uint16_t longer[FENSTUBBLE_HEAD_LEN + 1];
    /* folder 1 is for user 1 alone: nobody remains there */
    story(FENSTUBBLE_MODE_DELTA);
    expect(fenstubble_insert(BOOK, ORDERS, own, sizeof own) == FENSTUBBLE_DONE);
    before = book;
    count = 9;
    expect(fenstubble_leave(BOOK, orders, 3 * FENSTUBBLE_ORDER_WIDTH - 1, &count, 1) == FENSTUBBLE_SHORT_ANSWER);
    expect(fenstubble_leave(BOOK, ORDERS, 3) == FENSTUBBLE_NO_SUCH && memcmp(&before, &book, sizeof book) == 0 && count == 9);
    expect(fenstubble_leave(BOOK, orders, 3 * FENSTUBBLE_ORDER_WIDTH, &count, 1) == FENSTUBBLE_DONE && count == 3);
    expect(memcmp(orders, orders_of, sizeof orders_of) == 0 && book.table[4][0] == 1 && book.table[4][12] == 0);
    /* the head: no user less, and one leaver */
    expect(book.head[FENSTUBBLE_HEAD_USERS] == 3 && book.head[FENSTUBBLE_HEAD_LEAVERS] == 2);
    for (unsigned user = 0; user <= 65535; user++)
        expect(fenstubble_has_left(book.head, (uint16_t)user) == (user == 1));
    before = book;
    count = 9;
    expect(fenstubble_leave(BOOK, ORDERS, 1) == FENSTUBBLE_HAS_LEFT && fenstubble_grant(BOOK, ORDERS, 0, 1) == FENSTUBBLE_HAS_LEFT);
    expect(fenstubble_insert(BOOK, ORDERS, gone, sizeof gone) == FENSTUBBLE_HAS_LEFT);
    expect(fenstubble_insert(BOOK, ORDERS, strange, sizeof strange) == FENSTUBBLE_NO_SUCH);
    expect(fenstubble_revoke(BOOK, ORDERS, 0, 1) == FENSTUBBLE_NOT_LISTED && memcmp(&before, &book, sizeof book) == 0 && count == 9);
    /* one who is on no list: no orders, and a list of length 0 is enough */
    expect(fenstubble_leave(BOOK, NULL, 0, &count, 2) == FENSTUBBLE_DONE && count == 0 && book.head[FENSTUBBLE_HEAD_LEAVERS] == 6);
    expect(fenstubble_join(BOOK, ORDERS) == FENSTUBBLE_DONE && book.head[FENSTUBBLE_HEAD_USERS] == 4);
    /* a number behind the eleventh is neither looked at nor changed */
    memcpy(longer, book.head, sizeof book.head);
    longer[FENSTUBBLE_HEAD_LEN] = 0xA5A5;
    expect(fenstubble_leave(longer, FENSTUBBLE_HEAD_LEN + 1, TABLES, ORDERS, 0) == FENSTUBBLE_DONE && longer[FENSTUBBLE_HEAD_LEN] == 0xA5A5);
    expect(longer[FENSTUBBLE_HEAD_LEAVERS] == 7);
    /* leavers who have not joined, in each of the four numbers; one whom a list names */
    story(FENSTUBBLE_MODE_DELTA);
    for (int k = 0; k < 4; k++) {
        book.head[FENSTUBBLE_HEAD_LEAVERS + k] = 8;
        expect(fenstubble_has_left(book.head, (uint16_t)(16 * k + 3)) && fenstubble_check(BOOK) == FENSTUBBLE_UNSOUND);
        book.head[FENSTUBBLE_HEAD_LEAVERS + k] = 0;
    }
    book.head[FENSTUBBLE_HEAD_LEAVERS] = 2;
    expect(fenstubble_check(BOOK) == FENSTUBBLE_UNSOUND);
    book.head[FENSTUBBLE_HEAD_LEAVERS] = 4;
    expect(fenstubble_check(BOOK) == FENSTUBBLE_DONE);
}

/* ---- every refusal of a request, and the limit that it stands for */

/* 64 users in an empty book. */
static void crowd(uint16_t mode) {
    begin(mode);
    for (int user = 0; user < FENSTUBBLE_USERS; user++)
        expect(fenstubble_join(BOOK, ORDERS) == FENSTUBBLE_DONE);
}

/* A folder for all but two users, or one where they are the same, or for these alone. */
static uint16_t insert(int without, unsigned one, unsigned other) {
    uint8_t set[FENSTUBBLE_SET_BYTES];
    memset(set, without ? 255 : 0, sizeof set);
    set[one / 8] ^= (uint8_t)(1 << one % 8);
    if (other != one)
        set[other / 8] ^= (uint8_t)(1 << other % 8);
    return fenstubble_insert(BOOK, ORDERS, set, sizeof set);
}

static void requests_refused(void) {
    static const uint8_t nobody[FENSTUBBLE_SET_BYTES];
    crowd(FENSTUBBLE_MODE_FULL);
    expect(fenstubble_join(BOOK, ORDERS) == FENSTUBBLE_USERS_FULL);
    expect(fenstubble_insert(BOOK, ORDERS, nobody, sizeof nobody) == FENSTUBBLE_EMPTY_LIST);
    expect(fenstubble_grant(BOOK, ORDERS, 0, 0) == FENSTUBBLE_NO_SUCH);
    for (int folder = 0; folder < FENSTUBBLE_RESOURCES; folder++)
        expect(insert(0, 0, 0) == FENSTUBBLE_DONE);
    expect(insert(0, 0, 0) == FENSTUBBLE_RESOURCES_FULL);
    expect(fenstubble_grant(BOOK, ORDERS, 0, 0) == FENSTUBBLE_LISTED && fenstubble_revoke(BOOK, ORDERS, 0, 1) == FENSTUBBLE_NOT_LISTED);
    story(FENSTUBBLE_MODE_DELTA);
    expect(insert(0, 0, 3) == FENSTUBBLE_NO_SUCH);
}

/* A pair for each of 256 folders, then a third user for each: every list a group of its own. */
static void groups_full(void) {
    unsigned one = 0, other = 1;
    uint16_t folder, result = FENSTUBBLE_DONE;
    crowd(FENSTUBBLE_MODE_FULL);
    for (folder = 0; folder < FENSTUBBLE_RESOURCES; folder++) {
        expect(insert(0, one, other) == FENSTUBBLE_DONE);
        if (++other == FENSTUBBLE_USERS - 1) {
            one++;
            other = one + 1;
        }
    }
    for (folder = 0; result == FENSTUBBLE_DONE && folder < FENSTUBBLE_RESOURCES; folder++)
        result = fenstubble_grant(BOOK, ORDERS, folder, FENSTUBBLE_USERS - 1);
    expect(result == FENSTUBBLE_GROUPS_FULL);
    expect(book.head[FENSTUBBLE_HEAD_OUTER_VERTICES] == FENSTUBBLE_USERS + FENSTUBBLE_OUTER_GROUPS);
}

/* A set of all users but one or two has a token from each of its users: 64 of 63 and one of 62 are 4094. */
static void tokens_full(void) {
    crowd(FENSTUBBLE_MODE_DELTA);
    for (unsigned user = 0; user < FENSTUBBLE_USERS; user++)
        expect(insert(1, user, user) == FENSTUBBLE_DONE);
    expect(insert(1, 0, 1) == FENSTUBBLE_DONE && book.head[FENSTUBBLE_HEAD_INNER_TOKENS] == 4094);
    expect(insert(1, 2, 3) == FENSTUBBLE_INNER_TOKENS_FULL);

    crowd(FENSTUBBLE_MODE_DELTA);
    expect(insert(1, 0, 0) == FENSTUBBLE_DONE && fenstubble_grant(BOOK, ORDERS, 0, 0) == FENSTUBBLE_DONE);
    for (uint16_t user = 0; user < FENSTUBBLE_USERS; user++)
        expect(fenstubble_revoke(BOOK, ORDERS, 0, user) == FENSTUBBLE_DONE && fenstubble_grant(BOOK, ORDERS, 0, user) == FENSTUBBLE_DONE);
    expect(fenstubble_revoke(BOOK, ORDERS, 0, 0) == FENSTUBBLE_DONE && fenstubble_revoke(BOOK, ORDERS, 0, 1) == FENSTUBBLE_DONE);
    expect(book.head[FENSTUBBLE_HEAD_OUTER_TOKENS] == 4094 && fenstubble_revoke(BOOK, ORDERS, 0, 2) == FENSTUBBLE_OUTER_TOKENS_FULL);
}

static unsigned at(const uint8_t *bytes, size_t place) { return bytes[place] + 256u * bytes[place + 1]; }

/* The book's bytes: the header's places, then the rows of the tables as they stand there. */
static void layout(void) {
    static uint8_t bytes[FENSTUBBLE_BOOK_BYTES];
    static const size_t widths[] = {FENSTUBBLE_INNER_VERTICES_WIDTH, FENSTUBBLE_INNER_TOKENS_WIDTH, FENSTUBBLE_OUTER_VERTICES_WIDTH,
                                    FENSTUBBLE_OUTER_TOKENS_WIDTH, FENSTUBBLE_RESOURCES_WIDTH};
    static const size_t counts[] = {9, 11, 13, 15, 7};
    size_t length, start, size, place, next = FENSTUBBLE_BOOK_ROWS;
    story(FENSTUBBLE_MODE_DELTA);
    expect(fenstubble_revoke(BOOK, ORDERS, 0, 0) == FENSTUBBLE_DONE && fenstubble_leave(BOOK, ORDERS, 2) == FENSTUBBLE_DONE);
    expect(fenstubble_write(BOOK, bytes, sizeof bytes, &length) == FENSTUBBLE_DONE);
    expect(memcmp(bytes, "TKB\2\0\1\3", 7) == 0 && at(bytes, 7) == book.head[FENSTUBBLE_HEAD_RESOURCES]);
    for (int place = FENSTUBBLE_HEAD_INNER_VERTICES; place < FENSTUBBLE_HEAD_LEN; place++)
        expect(at(bytes, 3 + 2 * (size_t)place) == book.head[place]);
    expect(bytes[FENSTUBBLE_BOOK_LEAVERS] == 1 << 2);
    for (size_t k = 0; k < 5; k++) {
        place = 9;
        expect(fenstubble_section(bytes, length, k, &start, &size, &place) == FENSTUBBLE_DONE && start == next && place == 0);
        expect(size == at(bytes, counts[k]) * widths[k] && memcmp(bytes + start, book.table[k], size) == 0);
        next = start + size;
    }
    place = 9;
    expect(next == length && fenstubble_section(bytes, length, 5, &start, &size, &place) == FENSTUBBLE_NO_SUCH && place == 0);
    /* user 1's own inner vertex; the inner token from user 1; the folder's list, inner and outer vertex */
    expect(book.table[0][8] == 1 << 1 && at(book.table[1], 5) == 1 && at(book.table[1], 7) == 3 && book.table[1][9] == FENSTUBBLE_TOKEN_DERIVATION);
    expect(book.table[4][0] == 1 << 1 && at(book.table[4], 8) == 3 && at(book.table[4], 10) == 1);
    expect(fenstubble_grant(BOOK, ORDERS, 0, 0) == FENSTUBBLE_DONE && count == 1 && orders[2] == FENSTUBBLE_NO_OUTER);
    expect(at(book.table[4], 10) == FENSTUBBLE_NO_OUTER);
}

/* ---- bytes that are no sound book */

/* Two users, and a folder for both: the set of leavers stands at 17, the rows start at 25, 33, 41; 49, 54; 59, 67; 75. */
static const uint8_t pair[] = {84, 75, 66, 2, 0, 1, 2, 1, 0, 3, 0, 2, 0, 2, 0, 0, 0, 0, 0, 0, 0, 0, 0, 0, 0, 1, 0, 0, 0,
                               0,  0,  0,  0, 2, 0, 0, 0, 0, 0, 0, 0, 3, 0, 0, 0, 0, 0, 0, 0, 0, 0, 2, 0, 0, 1, 0, 2, 0,
                               0,  1,  0,  0, 0, 0, 0, 0, 0, 2, 0, 0, 0, 0, 0, 0, 0, 3, 0, 0, 0, 0, 0, 0, 0, 2, 0, 255, 255};

/* The same book in version 1, which has no set of leavers: each row starts 8 bytes earlier. */
static uint8_t old_pair[sizeof pair - FENSTUBBLE_SET_BYTES];

static void make_old_pair(void) {
    memcpy(old_pair, pair, FENSTUBBLE_BOOK_HEADER);
    memcpy(old_pair + FENSTUBBLE_BOOK_HEADER, pair + FENSTUBBLE_BOOK_ROWS, sizeof pair - FENSTUBBLE_BOOK_ROWS);
    old_pair[3] = 1;
}

/* The bytes are refused so by read and by every section; nothing but the place is written. */
static void broken_at(const uint8_t *bytes, size_t length, uint16_t number, size_t place, int line) {
    size_t told = 9, start = 9, size = 9;
    before = book;
    expect_at(fenstubble_read(bytes, length, BOOK, &told) == number && told == place, line);
    expect_at(memcmp(&before, &book, sizeof book) == 0, line);
    for (size_t k = 0; k <= FENSTUBBLE_SECTIONS; k++) {
        told = 9;
        expect_at(fenstubble_section(bytes, length, k, &start, &size, &told) == number && told == place && start == 9 && size == 9, line);
    }
}
#define broken(bytes, length, number, place) broken_at(bytes, length, number, place, __LINE__)

/* The book `pair` with one byte, or two, changed. What stands in its rows is tried in version 1 too. */
static void changed_at(size_t at, uint8_t byte, size_t other_at, uint8_t other, uint16_t number, size_t place, int line) {
    static const size_t less = FENSTUBBLE_SET_BYTES;
    uint8_t bytes[sizeof pair], old[sizeof old_pair];
    memcpy(bytes, pair, sizeof pair);
    bytes[at] = byte;
    bytes[other_at] = other;
    broken_at(bytes, sizeof bytes, number, place, line);
    if (at < FENSTUBBLE_BOOK_ROWS || other_at < FENSTUBBLE_BOOK_ROWS)
        return;
    memcpy(old, old_pair, sizeof old_pair);
    old[at - less] = byte;
    old[other_at - less] = other;
    broken_at(old, sizeof old, number, place == FENSTUBBLE_NO_ROW ? place : place - less, line);
}
#define changed(at, byte, other_at, other, number, place) changed_at(at, byte, other_at, other, number, place, __LINE__)

static void places(void) {
    static uint8_t large[70000] = {84, 75, 66, 2, 0, 1};
    size_t place = 9;
    story(FENSTUBBLE_MODE_DELTA);
    expect(fenstubble_read(pair, sizeof pair, BOOK, &place) == FENSTUBBLE_DONE && place == 0);
    book.length[3]--;
    place = 9;
    expect(fenstubble_read(pair, 0, BOOK, &place) == FENSTUBBLE_SHORT_TABLE && place == 0);
    book.length[3]++;

    for (size_t length = 0; length < sizeof pair; length++)
        broken(pair, length, FENSTUBBLE_WRONG_LENGTH, length);
    for (size_t length = 0; length < sizeof old_pair; length++)
        broken(old_pair, length, FENSTUBBLE_WRONG_LENGTH, length);
    for (large[3] = 1; large[3] <= 2; large[3]++) {
        broken(large, 65535, FENSTUBBLE_WRONG_LENGTH, 65535);
        broken(large, sizeof large, FENSTUBBLE_WRONG_LENGTH, sizeof large);
    }

    changed(0, 85, 5, 2, FENSTUBBLE_WRONG_MARK, 0);
    changed(3, 3, 5, 2, FENSTUBBLE_WRONG_VERSION, 3);
    changed(4, 1, 5, 2, FENSTUBBLE_WRONG_VERSION, 3);
    changed(5, 2, 6, 65, FENSTUBBLE_WRONG_MODE, 5);
    changed(6, 65, 16, 1, FENSTUBBLE_WRONG_COUNT, 6);
    changed(8, 1, 16, 1, FENSTUBBLE_WRONG_COUNT, 7);
    changed(7, 0, 16, 1, FENSTUBBLE_WRONG_COUNT, 9);
    changed(12, 16, 14, 2, FENSTUBBLE_WRONG_COUNT, 11);
    changed(14, 2, 58, 2, FENSTUBBLE_WRONG_COUNT, 13);
    changed(15, 1, 16, 16, FENSTUBBLE_WRONG_COUNT, 15);
    changed(16, 1, 17, 4, FENSTUBBLE_WRONG_LENGTH, sizeof pair);
    changed(3, 1, 17, 4, FENSTUBBLE_WRONG_LENGTH, sizeof pair);

    changed(17, 4, 58, 2, FENSTUBBLE_BROKEN_S1, FENSTUBBLE_BOOK_LEAVERS);
    changed(24, 128, 24, 128, FENSTUBBLE_BROKEN_S1, FENSTUBBLE_BOOK_LEAVERS);
    changed(17, 2, 17, 2, FENSTUBBLE_BROKEN_S1, 75);
    changed(17, 2, 58, 2, FENSTUBBLE_BROKEN_S1, 54);
    changed(17, 2, 41, 0, FENSTUBBLE_BROKEN_S1, 75);
    changed(58, 2, 60, 1, FENSTUBBLE_BROKEN_S1, 54);
    changed(60, 1, 60, 1, FENSTUBBLE_BROKEN_S1, 59);
    changed(85, 0, 85, 0, FENSTUBBLE_BROKEN_S1, 75);
    changed(41, 0, 59, 2, FENSTUBBLE_BROKEN_S2, FENSTUBBLE_NO_ROW);
    changed(41, 0, 41, 0, FENSTUBBLE_BROKEN_S2, 41);
    changed(51, 1, 51, 1, FENSTUBBLE_BROKEN_S2, 49);
    changed(54, 2, 54, 2, FENSTUBBLE_BROKEN_S4, 54);
    changed(58, 1, 58, 1, FENSTUBBLE_BROKEN_S5, 41);
    changed(83, 0, 83, 0, FENSTUBBLE_BROKEN_S7, 75);
    changed(85, 0, 86, 0, FENSTUBBLE_BROKEN_S8, 75);
}

/* Version 1 is read, nobody has left there, and it is written as version 2. */
static void versions_of_bytes(void) {
    static uint8_t bytes[FENSTUBBLE_BOOK_BYTES];
    size_t place = 9, start, size, length;
    story(FENSTUBBLE_MODE_DELTA);
    expect(fenstubble_leave(BOOK, ORDERS, 2) == FENSTUBBLE_DONE && book.head[FENSTUBBLE_HEAD_LEAVERS] == 4);
    expect(fenstubble_section(old_pair, sizeof old_pair, 0, &start, &size, &place) == FENSTUBBLE_DONE && start == FENSTUBBLE_BOOK_HEADER && size == 24);
    expect(fenstubble_read(old_pair, sizeof old_pair, BOOK, &place) == FENSTUBBLE_DONE && place == 0 && book.head[FENSTUBBLE_HEAD_LEAVERS] == 0);
    expect(fenstubble_write(BOOK, bytes, sizeof pair - 1, &length) == FENSTUBBLE_SHORT_ANSWER);
    expect(fenstubble_write(BOOK, bytes, sizeof pair, &length) == FENSTUBBLE_DONE && length == sizeof pair && memcmp(bytes, pair, length) == 0);
    /* with leavers the same both ways */
    expect(fenstubble_leave(BOOK, ORDERS, 1) == FENSTUBBLE_DONE && fenstubble_write(BOOK, bytes, sizeof bytes, &length) == FENSTUBBLE_DONE);
    begin(FENSTUBBLE_MODE_FULL);
    expect(bytes[FENSTUBBLE_BOOK_LEAVERS] == 2 && fenstubble_read(bytes, length, BOOK, &place) == FENSTUBBLE_DONE);
    expect(book.head[FENSTUBBLE_HEAD_LEAVERS] == 2 && fenstubble_has_left(book.head, 1));
}

/* Those of S3 and S6 take more rows: users 0 to 2, group 3 of users 0 and 1, group 4 of users 0 and 2; folder 0 is granted to user 2. */
static void more_places(void) {
    static const uint8_t set[FENSTUBBLE_SET_BYTES] = {5};
    static uint8_t bytes[FENSTUBBLE_BOOK_BYTES];
    size_t length;
    story(FENSTUBBLE_MODE_DELTA);
    expect(fenstubble_insert(BOOK, ORDERS, set, sizeof set) == FENSTUBBLE_DONE && fenstubble_grant(BOOK, ORDERS, 0, 2) == FENSTUBBLE_DONE);
    expect(fenstubble_write(BOOK, bytes, sizeof bytes, &length) == FENSTUBBLE_DONE);
    bytes[25 + 4 * 8] = 3;
    broken(bytes, length, FENSTUBBLE_BROKEN_S3, 25 + 4 * 8);
    bytes[25 + 4 * 8] = 5;
    bytes[25 + 5 * 8 + 4 * 5] = 0;
    broken(bytes, length, FENSTUBBLE_BROKEN_S6, 25 + 5 * 8 + 4 * 5);
}

/* Each byte of a book is one of its row; the header, the set of leavers, and what is behind the rows, of none. */
static void rows_of(const uint8_t *bytes, size_t length, size_t first) {
    static const size_t starts[] = {0, 24, 34, 50, 50, 62}, widths[] = {8, 5, 8, 4, 12};
    for (size_t k = 0; k < FENSTUBBLE_SECTIONS; k++)
        for (size_t at = starts[k]; at < starts[k + 1]; at++) {
            struct fenstubble_row row = fenstubble_row_at(bytes, first + at);
            expect(row.section == k && row.number == (at - starts[k]) / widths[k]);
        }
    for (size_t at = 0; at < first; at++)
        expect(fenstubble_row_at(bytes, at).section == FENSTUBBLE_SECTIONS);
    expect(fenstubble_row_at(bytes, length).section == FENSTUBBLE_SECTIONS);
    expect(fenstubble_row_at(bytes, FENSTUBBLE_NO_ROW).section == FENSTUBBLE_SECTIONS);
}

static void rows(void) {
    rows_of(pair, sizeof pair, FENSTUBBLE_BOOK_ROWS);
    rows_of(old_pair, sizeof old_pair, FENSTUBBLE_BOOK_HEADER);
}

/* The kinds of requests that are served together, and their answers. */
static void served(void) {
    static const uint64_t requests[][FENSTUBBLE_REQUEST_WIDTH] = {{FENSTUBBLE_REQUEST_JOIN, 7, 7},
                                                                  {FENSTUBBLE_REQUEST_JOIN, 0, 0},
                                                                  {FENSTUBBLE_REQUEST_INSERT, 3, 0},
                                                                  {FENSTUBBLE_REQUEST_INSERT, 3, 1},
                                                                  {FENSTUBBLE_REQUEST_OPEN, 1, 0},
                                                                  {FENSTUBBLE_REQUEST_REVOKE, 0, 1},
                                                                  {FENSTUBBLE_REQUEST_OPEN, 1, 0},
                                                                  {FENSTUBBLE_REQUEST_OPEN, 0, 0},
                                                                  {FENSTUBBLE_REQUEST_GRANT, 0, 1},
                                                                  {FENSTUBBLE_REQUEST_GRANT, 0, 65536},
                                                                  {FENSTUBBLE_REQUEST_LEAVE, 65536, 0},
                                                                  {FENSTUBBLE_REQUEST_LEAVE, 1, 7},
                                                                  {FENSTUBBLE_REQUEST_LEAVE, 1, 0},
                                                                  {6, 0, 0}};
    static const uint16_t want[][FENSTUBBLE_ANSWER_WIDTH] = {{0, 0, 2},
                                                             {0, 0, 2},
                                                             {0, 0, 4},
                                                             {FENSTUBBLE_NO_SUCH, 0, 0},
                                                             {0, 0, 1},
                                                             {0, 0, 1},
                                                             {FENSTUBBLE_CLOSED, FENSTUBBLE_VIEW_OUTER_LOCKED, 0},
                                                             {0, 0, 1},
                                                             {0, 0, 1},
                                                             {FENSTUBBLE_NO_SUCH, 0, 0},
                                                             {FENSTUBBLE_NO_SUCH, 0, 0},
                                                             {0, 0, 1},
                                                             {FENSTUBBLE_HAS_LEFT, 0, 0},
                                                             {FENSTUBBLE_NO_SUCH, 0, 0}};
    enum { LEN = sizeof want / sizeof want[0][0] };
    uint16_t answers[LEN];
    size_t used = 9;
    begin(FENSTUBBLE_MODE_DELTA);
    expect(fenstubble_serve(BOOK, requests[0], LEN, answers, LEN - 1, orders, FENSTUBBLE_ORDERS_LEN, &used) == FENSTUBBLE_SHORT_ANSWER && used == 9);
    expect(fenstubble_serve(BOOK, requests[0], LEN, answers, LEN, orders, FENSTUBBLE_ORDERS_LEN, &used) == FENSTUBBLE_DONE && used == 13);
    expect(memcmp(answers, want, sizeof want) == 0);
    expect(orders[8 * 3] == FENSTUBBLE_ROW_INNER && orders[8 * 3 + 1] == 1 && orders[8 * 3 + 2] == 0);

    /* in mode full the outer chain comes too */
    static const uint64_t opens[] = {FENSTUBBLE_REQUEST_OPEN, 1, 0};
    static const uint16_t chains[] = {FENSTUBBLE_ROW_INNER, 1, 0, FENSTUBBLE_ROW_OUTER, 1, 0};
    story(FENSTUBBLE_MODE_FULL);
    expect(fenstubble_serve(BOOK, opens, 3, answers, 3, orders, FENSTUBBLE_ORDERS_LEN, &used) == FENSTUBBLE_DONE && used == 2);
    expect(memcmp(orders, chains, sizeof chains) == 0);
}

/* ---- stack: each call on a stack of its own, painted before */

static uint8_t stack[4 * FENSTUBBLE_STACK_BYTES];
static ucontext_t here, there;
static size_t needed; /* by the call at hand */

/* A call, and how far below the place where it was made its stack was used. */
#define CALL(call) CALL_FOR(FENSTUBBLE_DONE, call)
#define CALL_FOR(result, call)                                                                                                                       \
    do {                                                                                                                                             \
        const uint8_t *top, *low = stack;                                                                                                            \
        __asm__ volatile("mov %%rsp, %0" : "=r"(top));                                                                                               \
        for (uint8_t *p = stack; p < top - 256; p++)                                                                                                 \
            *p = 0xC7;                                                                                                                               \
        expect((call) == (result));                                                                                                                  \
        while (*low == 0xC7)                                                                                                                         \
            low++;                                                                                                                                   \
        needed = (size_t)(top - low);                                                                                                                \
        expect(needed > 4096 && needed <= FENSTUBBLE_STACK_BYTES);                                                                                   \
    } while (0)

static void every_call(void) {
    static uint8_t bytes[FENSTUBBLE_BOOK_BYTES];
    static const uint64_t requests[] = {FENSTUBBLE_REQUEST_OPEN, 1, 0, FENSTUBBLE_REQUEST_GRANT, 0, 2, FENSTUBBLE_REQUEST_LEAVE, 2, 0};
    static const uint8_t set[FENSTUBBLE_SET_BYTES] = {7};
    static uint16_t rows[FENSTUBBLE_OPEN_ROWS], inner, outer, view, answers[9];
    static size_t start, length, used, place;
    CALL(fenstubble_check(BOOK));
    CALL(fenstubble_write(BOOK, bytes, sizeof bytes, &length));
    CALL(fenstubble_section(bytes, length, 4, &start, &used, &place));
    CALL(fenstubble_read(bytes, length, BOOK, &place));
    bytes[length - 4]--; /* the folder has another inner vertex */
    CALL_FOR(FENSTUBBLE_BROKEN_S7, fenstubble_section(bytes, length, 4, &start, &used, &place));
    CALL_FOR(FENSTUBBLE_BROKEN_S7, fenstubble_read(bytes, length, BOOK, &place));
    CALL(fenstubble_join(BOOK, ORDERS));
    CALL(fenstubble_insert(BOOK, ORDERS, set, sizeof set));
    CALL(fenstubble_grant(BOOK, ORDERS, 0, 2));
    CALL(fenstubble_revoke(BOOK, ORDERS, 0, 2));
    CALL(fenstubble_view(BOOK, 1, 0, &view));
    CALL(fenstubble_open(BOOK, 1, 0, rows, FENSTUBBLE_OPEN_ROWS, &inner, &outer));
    CALL(fenstubble_serve(BOOK, requests, 9, answers, 9, orders, FENSTUBBLE_ORDERS_LEN, &used));
    CALL(fenstubble_leave(BOOK, ORDERS, 1));
}

static void stacks(void) {
    story(FENSTUBBLE_MODE_DELTA);
    expect(getcontext(&there) == 0);
    there.uc_stack.ss_sp = stack;
    there.uc_stack.ss_size = sizeof stack;
    there.uc_link = &here;
    makecontext(&there, every_call, 0);
    expect(swapcontext(&here, &there) == 0);
}

int main(void) {
    make_old_pair();
    versions();
    reasons();
    lengths();
    nulls();
    numbers();
    leaves();
    requests_refused();
    groups_full();
    tokens_full();
    layout();
    places();
    more_places();
    versions_of_bytes();
    rows();
    served();
    stacks();
    return 0;
}
