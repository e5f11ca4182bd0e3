/* Keeps a small book in memory through fenstubble.h: three people, two folders, a grant, a revoke; then to a file and back; and
 * somebody leaves.
 *
 *     cc keep.c $(pkg-config --cflags --libs fenstubble) -o keep && ./keep book.tkb
 *
 * The engine decides, the host obeys. This host has no keys and no ciphers: it says each order in words. It ends with status 1 if a call
 * answers anything but what is expected of it here. */
#include <fenstubble.h>
#include <stdio.h>
#include <stdlib.h>
#include <string.h>

/* A book is a head and five tables, all of them ours. A head of zeros but for the mode is the empty book, whatever stands in the tables. */
struct book {
    uint16_t head[FENSTUBBLE_HEAD_LEN];
    uint8_t inner_vertices[FENSTUBBLE_INNER_VERTICES_BYTES], inner_tokens[FENSTUBBLE_INNER_TOKENS_BYTES];
    uint8_t outer_vertices[FENSTUBBLE_OUTER_VERTICES_BYTES], outer_tokens[FENSTUBBLE_OUTER_TOKENS_BYTES];
    uint8_t resources[FENSTUBBLE_RESOURCES_BYTES];
};

/* A head, a table: each is lent as a pointer and a length. */
#define HEAD(b) (b)->head, FENSTUBBLE_HEAD_LEN
#define TABLE(t) (t), sizeof(t)
#define TABLES(b)                                                                                                                          \
    TABLE((b)->inner_vertices), TABLE((b)->inner_tokens), TABLE((b)->outer_vertices), TABLE((b)->outer_tokens), TABLE((b)->resources)
#define BOOK(b) HEAD(b), TABLES(b)

/* The rows of the request at hand. */
static uint16_t orders[FENSTUBBLE_ORDERS_LEN];
static uint16_t count;
#define ORDERS orders, FENSTUBBLE_ORDERS_LEN, &count

static void expect(int met, const char *what) {
    if (!met) {
        fprintf(stderr, "not as expected: %s\n", what);
        exit(1);
    }
}

/* What an order asks of the host. In an insert the lock is asked for before the folder is encrypted: a host with real keys keeps it in mind and
 * stores the folder locked. */
static void obey(const uint16_t *row) {
    unsigned a = row[1], b = row[2];
    switch (row[0]) {
    case FENSTUBBLE_ORDER_OUTER_KEY: printf("  make outer key %u\n", a); break;
    case FENSTUBBLE_ORDER_OUTER_TOKEN: printf("  publish outer token %u -> %u\n", a, b); break;
    case FENSTUBBLE_ORDER_LOCK:
        if (b == FENSTUBBLE_NO_OUTER)
            printf("  take the outer lock off folder %u\n", a);
        else
            printf("  re-lock folder %u with outer key %u\n", a, b);
        break;
    case FENSTUBBLE_ORDER_INNER_KEY: printf("  make inner key %u\n", a); break;
    case FENSTUBBLE_ORDER_INNER_TOKEN: printf("  publish inner token %u -> %u\n", a, b); break;
    case FENSTUBBLE_ORDER_ACCESS_TOKEN: printf("  publish access token %u -> %u\n", a, b); break;
    case FENSTUBBLE_ORDER_ENCRYPT: printf("  encrypt folder %u with access key %u\n", a, b); break;
    default: expect(0, "an order of kind 1 to 7");
    }
}

/* An accepted request has changed the book and filled `count` rows. A host with real keys now
 *   1. keeps the new book (fenstubble_write) and these rows together, in one step: both are there after a stop, or neither;
 *   2. obeys the rows in their order, each so that obeying it twice does no harm;
 *   3. keeps the book without the rows.
 * A host that was stopped goes on from what it kept: where there are rows it obeys them all again, from the first. Wherever it stops, nobody is let
 * in by it: locks are asked for before the token or the folder that needs them. */
static void accepted(uint16_t result) {
    expect(result == FENSTUBBLE_DONE, fenstubble_reason(result));
    for (unsigned row = 0; row < count; row++)
        obey(orders + row * FENSTUBBLE_ORDER_WIDTH);
}

/* A refused request has changed nothing, not even `count`; the result is the reason's number. */
static void refused(uint16_t result, uint16_t number) {
    expect(result == number, fenstubble_reason(result));
    printf("  refused: %u\n", result);
}

/* A new folder for two people. A set of people is bytes: bit i % 8 of byte i / 8 for person i. */
static void insert_for(struct book *book, unsigned one, unsigned other) {
    uint8_t list[FENSTUBBLE_SET_BYTES] = {0};
    list[one / 8] |= 1 << one % 8;
    list[other / 8] |= 1 << other % 8;
    printf("insert folder %u for persons %u and %u\n", book->head[FENSTUBBLE_HEAD_RESOURCES], one, other);
    accepted(fenstubble_insert(BOOK(book), ORDERS, list, sizeof list));
}

/* How a person opens a folder: token rows, first those of the inner chain, then those of the outer. Where the folder is closed the view
 * comes with the result, and `expected` is it. */
static void open_folder(const struct book *book, uint16_t user, uint16_t resource, int expected) {
    static const char *const held_by[] = {"", "the outer lock", "the inner lock", "both locks"};
    uint16_t rows[FENSTUBBLE_OPEN_ROWS], inner, outer;
    uint16_t result = fenstubble_open(BOOK(book), user, resource, rows, FENSTUBBLE_OPEN_ROWS, &inner, &outer);
    printf("open folder %u as person %u\n", resource, user);
    expect(FENSTUBBLE_VIEW(result) == expected, "an open that answers so");
    if (FENSTUBBLE_NUMBER(result) == FENSTUBBLE_CLOSED) {
        printf("  closed by %s\n", held_by[expected]);
        return;
    }
    expect(result == FENSTUBBLE_DONE, fenstubble_reason(result));
    for (unsigned row = 0; row < inner; row++)
        printf("  follow inner token row %u\n", rows[row]);
    for (unsigned row = 0; row < outer; row++)
        printf("  follow outer token row %u\n", rows[inner + row]);
    printf("  open\n");
}

/* A book's bytes into a book. Where they are no sound book, a person is told the number, the place, the row that starts there, and the reason. */
static uint16_t read_book(struct book *book, const uint8_t *bytes, size_t length) {
    static const char *const sections[] = {"inner vertex", "inner token", "outer vertex", "outer token", "folder"};
    size_t place;
    uint16_t result = fenstubble_read(bytes, length, BOOK(book), &place);
    if (result == FENSTUBBLE_DONE)
        return result;
    printf("  refused: %u at %zu", result, place);
    if (result >= FENSTUBBLE_BROKEN_S1 && place != FENSTUBBLE_NO_ROW) {
        struct fenstubble_row row = fenstubble_row_at(bytes, place);
        if (row.section < FENSTUBBLE_SECTIONS)
            printf(", %s row %zu", sections[row.section], row.number);
        else
            printf(", the set of leavers");
    }
    printf(": %s\n", fenstubble_reason(result));
    return result;
}

static void to_file(const char *path, const uint8_t *bytes, size_t length) {
    FILE *file = fopen(path, "wb");
    expect(file && fwrite(bytes, 1, length, file) == length && fclose(file) == 0, "a file that can be written");
}

static size_t from_file(const char *path, uint8_t *bytes, size_t most) {
    FILE *file = fopen(path, "rb");
    expect(file != NULL, "a file that can be read");
    size_t length = fread(bytes, 1, most, file);
    expect(!ferror(file) && fclose(file) == 0, "a file that can be read");
    return length;
}

int main(int argc, char **argv) {
    static struct book book, again;
    static uint8_t bytes[FENSTUBBLE_BOOK_BYTES], back[FENSTUBBLE_BOOK_BYTES + 1]; /* one more: a longer file is refused, as one of that length */
    size_t length, length_back;

    if (argc != 2) {
        fprintf(stderr, "usage: keep FILE\n");
        return 2;
    }
    expect(fenstubble_version() / 10000 == FENSTUBBLE_VERSION / 10000 && fenstubble_version() >= FENSTUBBLE_VERSION, "a library that fits");

    book.head[FENSTUBBLE_HEAD_MODE] = FENSTUBBLE_MODE_DELTA;
    expect(fenstubble_check(BOOK(&book)) == FENSTUBBLE_DONE, "an empty book that is sound");
    printf("an empty delta book\n");

    /* The orders of a join make the new person's own two keys, to be handed to that person. */
    for (int person = 0; person < 3; person++) {
        printf("person %u joins\n", book.head[FENSTUBBLE_HEAD_USERS]);
        accepted(fenstubble_join(BOOK(&book), ORDERS));
    }
    insert_for(&book, 0, 1);
    insert_for(&book, 0, 1);

    /* Both folders have the same inner key: the new reader of one must be kept out of the other, which is locked before the token is published. */
    printf("grant folder 0 to person 2\n");
    accepted(fenstubble_grant(BOOK(&book), ORDERS, 0, 2));
    open_folder(&book, 2, 0, FENSTUBBLE_VIEW_OPEN);
    open_folder(&book, 2, 1, FENSTUBBLE_VIEW_OUTER_LOCKED);

    printf("revoke folder 0 from person 1\n");
    accepted(fenstubble_revoke(BOOK(&book), ORDERS, 0, 1));
    open_folder(&book, 1, 0, FENSTUBBLE_VIEW_OUTER_LOCKED);
    open_folder(&book, 0, 0, FENSTUBBLE_VIEW_OPEN);

    printf("revoke folder 0 from person 1 again\n");
    refused(fenstubble_revoke(BOOK(&book), ORDERS, 0, 1), FENSTUBBLE_NOT_LISTED);
    printf("grant folder 0 to person 9\n");
    refused(fenstubble_grant(BOOK(&book), ORDERS, 0, 9), FENSTUBBLE_NO_SUCH);

    /* To a file, and back into tables that know nothing of it. */
    expect(fenstubble_write(BOOK(&book), bytes, sizeof bytes, &length) == FENSTUBBLE_DONE, "a book that can be written");
    to_file(argv[1], bytes, length);
    length_back = from_file(argv[1], back, sizeof back);
    printf("write the book: %zu bytes\n", length);
    memset(&again, 0xFF, sizeof again);
    expect(read_book(&again, back, length_back) == FENSTUBBLE_DONE, "a book that can be read");
    expect(memcmp(again.head, book.head, sizeof book.head) == 0, "the same head");
    expect(fenstubble_write(BOOK(&again), back, sizeof back, &length_back) == FENSTUBBLE_DONE, "a book that can be written again");
    expect(length_back == length && memcmp(back, bytes, length) == 0, "the same book");
    printf("read it back: the same book\n");
    open_folder(&again, 2, 0, FENSTUBBLE_VIEW_OPEN);
    printf("grant folder 0 to person 1 again\n");
    accepted(fenstubble_grant(BOOK(&again), ORDERS, 0, 1));
    open_folder(&again, 1, 0, FENSTUBBLE_VIEW_OPEN);

    /* Who leaves is taken off every list at once, and is on none again. */
    printf("person 1 leaves\n");
    accepted(fenstubble_leave(BOOK(&again), ORDERS, 1));
    expect(fenstubble_has_left(again.head, 1) && !fenstubble_has_left(again.head, 0), "one who has left, and one who has not");
    open_folder(&again, 1, 1, FENSTUBBLE_VIEW_OUTER_LOCKED);
    printf("grant folder 0 to person 1 once more\n");
    refused(fenstubble_grant(BOOK(&again), ORDERS, 0, 1), FENSTUBBLE_HAS_LEFT);

    /* Nothing that is not a sound book is taken for one. */
    back[length - 4] ^= 1;
    printf("read it with one bit changed\n");
    expect(read_book(&again, back, length) == FENSTUBBLE_BROKEN_S7, "a damaged book that is refused");

    printf("all as expected\n");
    return 0;
}
