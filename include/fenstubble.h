/* SPDX-License-Identifier: Apache-2.0
 *
 * Fenstubble: who may read which folder, under which keys, tokens and locks. This file is all that a host needs to know.
 *
 * The engine decides, the host obeys. The engine holds no key bytes and no cipher: it keeps a book of numbers, and answers each request with orders to
 * the host, which has the keys. Every call is proved: it does what is said here on every input, ends, and reaches nothing but what it was lent.
 *
 *   uint16_t head[FENSTUBBLE_HEAD_LEN] = {FENSTUBBLE_MODE_DELTA};                the empty book, with five tables of any content
 *   result = fenstubble_join(head, .., orders, FENSTUBBLE_ORDERS_LEN, &count);   user 0, and two orders
 *   result = fenstubble_write(head, .., buffer, FENSTUBBLE_BOOK_BYTES, &length); bytes to keep together with the orders; then obey these
 *
 * THE WORLD. Users read folders; a folder is called `resource` in the names below. Each folder has a list, the set of the users who may read it. Keys
 * belong to vertices, and a vertex is a set of users. There are two layers, each with vertices and tokens of its own: the inner one is the owner's, the
 * outer one the storage's. A token leads from the key of one vertex to the key of another: who has the first derives the second. An inner vertex has a
 * derivation key and an access key, which is the hash of the first; an outer vertex has one key. Each folder is encrypted with the access key of an
 * inner vertex, and may be locked once more with the key of an outer vertex. A user is handed the derivation key of the own inner vertex and the key of
 * the own outer vertex, and derives the rest. Proved: after any run of calls a user derives what opens a folder exactly if its list names that user.
 *
 * NUMBERS start at 0, in order of creation, each kind by itself: users, folders, inner vertices, inner tokens, outer vertices, outer tokens. A vertex
 * number says nothing of a user: the own vertices of user 3 may be inner 5 and outer 7. A user's own vertex is the one whose set is that user alone;
 * each layer has exactly one for each user.
 *
 * LEAVING. A user who leaves is taken off every list in one request, and is on none again: the number stays theirs, and counts among the 64. Proved:
 * a leaver opens nothing, whatever requests follow. (A book that is read brings its own leavers: after going back to one from before the leave, ask it
 * again.) The keys that they were handed stay theirs, and give the inner keys that they gave: each folder that listed them gets an outer lock for those
 * who remain.
 *
 * THE BOOK is a head of eleven numbers (enum fenstubble_head_place) and five tables of bytes. They are the caller's, who lends them to each call as the
 * last one left them. A table is at least as long as its limit asks (FENSTUBBLE_.._BYTES), however little of it is used; the head says how many rows
 * count, from the first on, and who has left. What stands behind the rows that count is not looked at, and only new rows are written there. A head may
 * have more numbers, and those behind the eleventh are neither looked at nor changed.
 *
 *   table            bytes of a row               most rows
 *   inner_vertices   set 8                        320, for 64 users and 256 folders
 *   inner_tokens     from 2, to 2, kind 1         4096
 *   outer_vertices   set 8                        512, for 64 users and 448 groups
 *   outer_tokens     from 2, to 2                 4096
 *   resources        list 8, inner 2, outer 2     256
 *
 * A number of 2 bytes is little-endian. `from`, `to`, `inner` and `outer` are vertex numbers of their layer; `outer` is 65535 (FENSTUBBLE_NO_OUTER)
 * where the folder has no outer lock. Kind 0 leads to the derivation key of `to`, kind 1 to its access key alone. A set is 8 bytes: bit i % 8 of byte
 * i / 8 is user i, so that user 0 is bit 0 of the first byte. The set of an inner vertex is that of the users who derive its derivation key.
 *
 * The empty book is a head of zeros but for its mode, with tables of any content. Mode full (0) puts an outer lock on every folder; mode delta (1) only
 * where the inner one lets too many in.
 *
 * AS BYTES a book is a header of 17 bytes (FENSTUBBLE_BOOK_HEADER), the set of leavers, then the rows that count of the five tables, in the order
 * above, and nothing else:
 *
 *   at   bytes                                 at   bytes
 *   0    3   "TKB" (54 4B 42)                  11   2   inner tokens
 *   3    2   2, the version of this layout     13   2   outer vertices
 *   5    1   mode                              15   2   outer tokens
 *   6    1   users                             17   8   the set of leavers (FENSTUBBLE_BOOK_LEAVERS)
 *   7    2   folders                           25       the rows (FENSTUBBLE_BOOK_ROWS)
 *   9    2   inner vertices
 *
 * In version 1 there is no set of leavers: the rows start at 17, and nobody has left. Such a book is read like any other, and written as version 2.
 *
 * THE RESULT of a call is 0 (done) or the number of the refusal; 11 comes as 11 + 256 * view. FENSTUBBLE_NUMBER and FENSTUBBLE_VIEW take it apart, and
 * fenstubble_reason says it in words. Look at it first: a refused call leaves all that it was lent as it was, head, tables, lists and buffers, and the
 * cells for an answer too (count, view, start, length and so on), which then tell nothing; only the cell for a place is always written. An accepted
 * call leaves what stands behind its answer in a list or a buffer.
 *
 * A book is SOUND if its sets, tokens and locks fit each other, as they do in every book that these calls leave from the empty one (RULES.md, S1 to
 * S8, is installed in share/doc/fenstubble). Any content is safe to lend: tables that do not hold a sound book are refused with 12, before anything but
 * lengths.
 *
 * BYTES THAT ARE NO SOUND BOOK are refused with a number and a place. These are judged from top to bottom, and the first that holds is told:
 *
 *   number     holds if                                      place
 *   24         there are fewer than 17 bytes                 how many there are
 *   20         they do not begin with "TKB"                  0
 *   21         the version is neither 1 nor 2                3
 *   22         the mode is neither 0 nor 1                   5
 *   23         a count is over its limit                     where the first such count starts: 6, 7, 9, 11, 13 or 15
 *   24         the length is not that of version and counts  how many bytes there are, be it 65535 or more
 *   31 to 38   S1 to S8, in this order, is broken            where the first row that breaks it starts; 65535 with 32: a user's own vertex is missing;
 *                                                            17 with 31, in version 2: the set of leavers names somebody who has not joined
 *
 * fenstubble_read and fenstubble_section tell it so, and fenstubble_row_at makes section and row of a place.
 *
 * ORDERS are rows of three numbers: kind, a, b (enum fenstubble_order). The host obeys them in their order. By their kinds, where what is not made has
 * no row:
 *
 *   join     4, 1
 *   insert   4, the 5s; for the lock 1, the 2s, 3; 7
 *   grant    for the other folders that its token would open 1, the 2s, a 3 for each; for the folder itself 1, the 2s, 3; 6
 *   revoke   1, the 2s, 3
 *   leave    for each folder that lists the user, by rising number: 1, the 2s, 3
 *
 *   - A new user's number is head[FENSTUBBLE_HEAD_USERS] before the join, which is the number of users less 1 after it. A new folder's is
 *     head[FENSTUBBLE_HEAD_RESOURCES] before the insert, the number of folders less 1 after it.
 *   - A join has two orders, 4 and 1. The keys that they make are the new user's own, to be handed to that user. No other request makes a user's own
 *     vertex, and nobody is handed the keys of the others.
 *
 * A HOST THAT STOPS in the middle of a request, behind any of its orders, has let nobody in. Proved: an encrypted folder that the request does not
 * change opens for exactly its list, and one that it changes (the folder that it names, of a leave each one that lists the user) for all who are on its
 * list both before and after the request, and for nobody who is on neither. A new folder counts once it is encrypted (RULES 6.6). This rests on the
 * order of the rows, and on the host:
 *   - The new book and its orders are kept together, in one step (one file replaced, one transaction), before the first order is obeyed. A host that
 *     was stopped obeys them all again, from the first, before it asks for anything else. What an order asks for and is there already stays as it is: a
 *     key, a token, a lock, a folder. Then the same holds on the way, also if it stops again, and at the end the host has what the new book says (RULES
 *     6.7). Of several requests in one call (fenstubble_serve) each is obeyed so by itself: the host notes when one is done, and after a stop begins
 *     with the first that is not. If it began with an earlier one, a lock that has been changed since would come back for a while.
 *   - Each order is obeyed as a whole or not at all. A 3 exchanges one lock for another in one step: while the old one is off and the new one is not on
 *     yet, the folder would be open to all who have its inner key.
 *   - An insert asks for the lock of its folder before the folder is there: 3, then 7. The host keeps the lock in mind, and at the 7 it stores the
 *     folder with it, in one step: encrypted and locked, never first the one and then the other.
 *
 * LENDING. A pointer is followed by its length: in bytes for a table, a set, a book or a buffer, in numbers (not in rows) for the
 * rest: a head, orders, requests, answers, the list of an open.
 *   - Nothing that a call may write (what is not const) overlaps anything else that it is lent.
 *   - Pointers to uint16_t, uint64_t and size_t are aligned as their type asks; bytes need no alignment.
 *   - A pointer may be NULL only where its length is 0. A head, table or set of length 0 is too short (13); a list of length 0 has room for nothing
 *     (10, where there is a row to give). The cells (count, view, inner, outer, start, length, place, used) are never NULL.
 *   - While a call runs, nobody else writes what it was lent or reads what it may write. There is no state and nothing is kept between calls: threads
 *     may call at once on different books, and on one book in calls that take it as const.
 *   - A call uses at most FENSTUBBLE_STACK_BYTES of stack (measured), its arguments there included, and also where the walk of an open calls itself, at
 *     most 63 deep. It allocates nothing, leaves errno alone, and does no input or output. x86-64, System V calling convention; C99 or C++11 and later.
 *
 * VERSION. FENSTUBBLE_VERSION is that of this file, fenstubble_version() that of the library, which fits if its major number is the same and it is
 * not older:
 *   fenstubble_version() / 10000 == FENSTUBBLE_VERSION / 10000 && fenstubble_version() >= FENSTUBBLE_VERSION */
#ifndef FENSTUBBLE_H
#define FENSTUBBLE_H

#include <stddef.h>
#include <stdint.h>

#ifdef __cplusplus
extern "C" {
#endif

/* major * 10000 + minor * 100 + patch */
#define FENSTUBBLE_VERSION 40000
#define FENSTUBBLE_VERSION_TEXT "4.0.0"

/* ---- limits and sizes */

#define FENSTUBBLE_USERS 64 /* those who have left among them */
#define FENSTUBBLE_RESOURCES 256
#define FENSTUBBLE_INNER_TOKENS 4096 /* of both kinds together */
#define FENSTUBBLE_OUTER_TOKENS 4096
#define FENSTUBBLE_OUTER_GROUPS 448 /* outer vertices that are no user's own; the inner ones are never more than the folders */

#define FENSTUBBLE_SET_BYTES 8

/* rows that a table must have room for */
#define FENSTUBBLE_INNER_VERTICES_ROWS (FENSTUBBLE_USERS + FENSTUBBLE_RESOURCES)
#define FENSTUBBLE_INNER_TOKENS_ROWS FENSTUBBLE_INNER_TOKENS
#define FENSTUBBLE_OUTER_VERTICES_ROWS (FENSTUBBLE_USERS + FENSTUBBLE_OUTER_GROUPS)
#define FENSTUBBLE_OUTER_TOKENS_ROWS FENSTUBBLE_OUTER_TOKENS
#define FENSTUBBLE_RESOURCES_ROWS FENSTUBBLE_RESOURCES

/* bytes of a row */
#define FENSTUBBLE_INNER_VERTICES_WIDTH FENSTUBBLE_SET_BYTES
#define FENSTUBBLE_INNER_TOKENS_WIDTH 5
#define FENSTUBBLE_OUTER_VERTICES_WIDTH FENSTUBBLE_SET_BYTES
#define FENSTUBBLE_OUTER_TOKENS_WIDTH 4
#define FENSTUBBLE_RESOURCES_WIDTH (FENSTUBBLE_SET_BYTES + 4)

/* least length of a table in bytes: 2560, 20480, 4096, 16384, 3072 */
#define FENSTUBBLE_INNER_VERTICES_BYTES (FENSTUBBLE_INNER_VERTICES_ROWS * FENSTUBBLE_INNER_VERTICES_WIDTH)
#define FENSTUBBLE_INNER_TOKENS_BYTES (FENSTUBBLE_INNER_TOKENS_ROWS * FENSTUBBLE_INNER_TOKENS_WIDTH)
#define FENSTUBBLE_OUTER_VERTICES_BYTES (FENSTUBBLE_OUTER_VERTICES_ROWS * FENSTUBBLE_OUTER_VERTICES_WIDTH)
#define FENSTUBBLE_OUTER_TOKENS_BYTES (FENSTUBBLE_OUTER_TOKENS_ROWS * FENSTUBBLE_OUTER_TOKENS_WIDTH)
#define FENSTUBBLE_RESOURCES_BYTES (FENSTUBBLE_RESOURCES_ROWS * FENSTUBBLE_RESOURCES_WIDTH)

#define FENSTUBBLE_BOOK_HEADER 17
#define FENSTUBBLE_BOOK_LEAVERS FENSTUBBLE_BOOK_HEADER                        /* where the set of leavers stands, in version 2 */
#define FENSTUBBLE_BOOK_ROWS (FENSTUBBLE_BOOK_LEAVERS + FENSTUBBLE_SET_BYTES) /* where the rows start; in version 1 right behind the header */
#define FENSTUBBLE_BOOK_BYTES 46617                                           /* of the largest book: header, set of leavers, all tables full */

#define FENSTUBBLE_NO_OUTER 65535 /* in the place of an outer vertex: none */
#define FENSTUBBLE_NO_ROW 65535   /* a place along with 32: a vertex is missing, so that no row is there to be told */

/* numbers of a row in an order list, and in the requests and answers of fenstubble_serve */
#define FENSTUBBLE_ORDER_WIDTH 3
#define FENSTUBBLE_REQUEST_WIDTH 3
#define FENSTUBBLE_ANSWER_WIDTH 3

/* no request gives more order rows: with a list of this length none is refused with 10. Bounds by request: join 2, insert 132, grant 385, revoke
 * 65, leave 4608 */
#define FENSTUBBLE_ORDER_ROWS 4608
#define FENSTUBBLE_ORDERS_LEN (FENSTUBBLE_ORDER_ROWS * FENSTUBBLE_ORDER_WIDTH)
#define FENSTUBBLE_GRANT_ROWS 385 /* of a grant; and of any other request but a leave */

/* no chain has more tokens, in either layer; and no open more rows, of both chains together: a list of this length is never too short for it */
#define FENSTUBBLE_CHAIN_ROWS 63
#define FENSTUBBLE_OPEN_ROWS (2 * FENSTUBBLE_CHAIN_ROWS)

/* stack of a call, at most: measured */
#define FENSTUBBLE_STACK_BYTES (38 * 1024)

/* ---- numbers and their meaning */

/* the head's places */
#define FENSTUBBLE_HEAD_LEN 11
enum fenstubble_head_place {
    FENSTUBBLE_HEAD_MODE = 0,           /* enum fenstubble_mode */
    FENSTUBBLE_HEAD_USERS = 1,          /* users who have joined */
    FENSTUBBLE_HEAD_RESOURCES = 2,      /* folders: rows that count in resources */
    FENSTUBBLE_HEAD_INNER_VERTICES = 3, /* rows that count in inner_vertices, the users' own among them */
    FENSTUBBLE_HEAD_INNER_TOKENS = 4,   /* rows that count in inner_tokens */
    FENSTUBBLE_HEAD_OUTER_VERTICES = 5, /* rows that count in outer_vertices, the users' own among them */
    FENSTUBBLE_HEAD_OUTER_TOKENS = 6,   /* rows that count in outer_tokens */
    FENSTUBBLE_HEAD_LEAVERS = 7         /* the set of leavers, four numbers: user i is bit i % 16 of number 7 + i / 16 (fenstubble_has_left) */
};

enum fenstubble_mode {
    FENSTUBBLE_MODE_FULL = 0, /* an outer lock on every folder */
    FENSTUBBLE_MODE_DELTA = 1 /* an outer lock only where the inner one lets too many in */
};

/* the kind of an inner token */
enum fenstubble_token_kind {
    FENSTUBBLE_TOKEN_DERIVATION = 0, /* leads to the derivation key, and through further tokens to what lies behind it */
    FENSTUBBLE_TOKEN_ACCESS = 1      /* leads to the access key and no further */
};

/* the sections of a book's bytes, with a row of each: that of its table */
#define FENSTUBBLE_SECTIONS 5
enum fenstubble_section_number {
    FENSTUBBLE_SECTION_INNER_VERTICES = 0, /* set */
    FENSTUBBLE_SECTION_INNER_TOKENS = 1,   /* from, to, kind (enum fenstubble_token_kind) */
    FENSTUBBLE_SECTION_OUTER_VERTICES = 2, /* set */
    FENSTUBBLE_SECTION_OUTER_TOKENS = 3,   /* from, to */
    FENSTUBBLE_SECTION_RESOURCES = 4       /* list, inner, outer or FENSTUBBLE_NO_OUTER */
};

/* what a user knows of a folder's two keys. Where there is no outer lock the outer key counts as known */
enum fenstubble_view_number {
    FENSTUBBLE_VIEW_OPEN = 0,         /* both: the user opens the folder */
    FENSTUBBLE_VIEW_OUTER_LOCKED = 1, /* the inner alone: the outer lock keeps the user out */
    FENSTUBBLE_VIEW_INNER_LOCKED = 2, /* the outer alone: the encryption keeps the user out */
    FENSTUBBLE_VIEW_LOCKED = 3        /* neither */
};

/* an order's kind, with its a and b, and what the host does for it: 1 to 3 in the outer layer, the storage's, 4 to 7 in the inner one, the owner's.
 * How keys, tokens and locks are made is the host's affair. A token's row number is its row in its table: inner tokens count orders 5 and 6
 * together, outer tokens orders 2, from 0 since the empty book. */
enum fenstubble_order {
    FENSTUBBLE_ORDER_OUTER_KEY = 1,    /* v 0: make a key for outer vertex v */
    FENSTUBBLE_ORDER_OUTER_TOKEN = 2,  /* v w: publish an outer token, which from the key of vertex v gives the key of vertex w */
    FENSTUBBLE_ORDER_LOCK = 3,         /* r v: take the outer lock of folder r off, if it has one, and lock it with the key of outer vertex v;
                                        * where v is FENSTUBBLE_NO_OUTER it stays off. In an insert r is the folder that the 7 behind it brings:
                                        * it has this lock from the moment when it is there */
    FENSTUBBLE_ORDER_INNER_KEY = 4,    /* v 0: make a derivation key for inner vertex v; its access key is the hash of that one */
    FENSTUBBLE_ORDER_INNER_TOKEN = 5,  /* v w: publish an inner token, which from the derivation key of vertex v gives that of vertex w */
    FENSTUBBLE_ORDER_ACCESS_TOKEN = 6, /* v w: publish an inner token, which from the derivation key of vertex v gives the access key of vertex w,
                                        * and nothing that lies behind it */
    FENSTUBBLE_ORDER_ENCRYPT = 7       /* r v: encrypt the new folder r with the access key of inner vertex v; it comes with the lock of the 3 before
                                        * it, where there is one */
};

/* why a call was refused: fenstubble_reason has the words */
enum fenstubble_refusal {
    FENSTUBBLE_DONE = 0,              /* it was not refused */
    FENSTUBBLE_NO_SUCH = 1,           /* no such user, folder or section, or a list names a user who has not joined */
    FENSTUBBLE_USERS_FULL = 2,        /* a join at 64 users, those who have left among them */
    FENSTUBBLE_RESOURCES_FULL = 3,    /* an insert at 256 folders */
    FENSTUBBLE_EMPTY_LIST = 4,        /* an insert for nobody */
    FENSTUBBLE_LISTED = 5,            /* a grant to a user whom the list names */
    FENSTUBBLE_NOT_LISTED = 6,        /* a revoke from a user whom the list does not name */
    FENSTUBBLE_GROUPS_FULL = 7,       /* the request would leave more than 448 outer groups */
    FENSTUBBLE_INNER_TOKENS_FULL = 8, /* more than 4096 inner tokens */
    FENSTUBBLE_OUTER_TOKENS_FULL = 9, /* more than 4096 outer tokens */
    FENSTUBBLE_SHORT_ANSWER = 10,     /* the list or buffer lent for the answer is too short */
    FENSTUBBLE_CLOSED = 11,           /* an open whose view is not 0: the view comes with it */
    FENSTUBBLE_UNSOUND = 12,          /* the head and tables do not hold a sound book. Judged before all but 13 */
    FENSTUBBLE_SHORT_TABLE = 13,      /* a head of fewer than 11 numbers, a table shorter than its limit, a set of fewer than 8 bytes */
    FENSTUBBLE_MALFORMED = 14,        /* a line that is no request: from the program `fenstubble` alone, never from a call */
    FENSTUBBLE_HAS_LEFT = 15,         /* a grant to a user who has left, a leave of one, an insert whose list names one. Judged right after 1 */

    /* of a book's bytes, each with a place: the header, then the rules of a sound book */
    FENSTUBBLE_WRONG_MARK = 20,    /* not "TKB" */
    FENSTUBBLE_WRONG_VERSION = 21, /* neither 1 nor 2 */
    FENSTUBBLE_WRONG_MODE = 22,    /* neither 0 nor 1 */
    FENSTUBBLE_WRONG_COUNT = 23,   /* over 64 users, 256 folders, users + folders inner vertices, users + 448 outer ones, or 4096 tokens of a layer */
    FENSTUBBLE_WRONG_LENGTH = 24,  /* not that of header, set of leavers (in version 2) and rows */
    FENSTUBBLE_BROKEN_S1 = 31,     /* a kind above 1, a vertex that is not there, a set with a user who has not joined, a list with one who has left */
    FENSTUBBLE_BROKEN_S2 = 32,     /* a user has no own vertex; or a token that is not of kind 1 leads to one; or an inner vertex has the empty set */
    FENSTUBBLE_BROKEN_S3 = 33,     /* a vertex has the set of an earlier one of its layer */
    FENSTUBBLE_BROKEN_S4 = 34,     /* a token that is not of kind 1 starts at the empty set, or at one that is no proper part of that it leads to */
    FENSTUBBLE_BROKEN_S5 = 35,     /* the set of a group is not made of the sets from which tokens lead to it, those of kind 1 apart */
    FENSTUBBLE_BROKEN_S6 = 36,     /* a token of kind 1 starts at no user's own vertex, or leads to a set with that user; or a token is there twice */
    FENSTUBBLE_BROKEN_S7 = 37,     /* a folder's list names a user who does not derive its inner key */
    FENSTUBBLE_BROKEN_S8 = 38      /* a folder's outer lock is not what its mode and its list ask for */
};

/* a result taken apart: the refusal's number or 0, and the view, which is 0 but for 11 */
#define FENSTUBBLE_NUMBER(result) ((result) % 256)
#define FENSTUBBLE_VIEW(result) ((result) / 256)

/* The three functions that follow stand here and not in the library, where every function is proved. */

/* Whether a user has left, by a head as the calls leave it. */
static inline int fenstubble_has_left(const uint16_t *head, uint16_t user) {
    return user < FENSTUBBLE_USERS && (head[FENSTUBBLE_HEAD_LEAVERS + user / 16] >> user % 16 & 1);
}

/* A result in words; "no such refusal" where there is none of that number. */
static inline const char *fenstubble_reason(uint16_t result) {
    switch (FENSTUBBLE_NUMBER(result)) {
    case FENSTUBBLE_DONE: return "done";
    case FENSTUBBLE_NO_SUCH: return "there is no such user, folder or section, or the list names a user who has not joined";
    case FENSTUBBLE_USERS_FULL: return "64 users have joined, and a book has no room for more";
    case FENSTUBBLE_RESOURCES_FULL: return "256 folders are there, and a book has no room for more";
    case FENSTUBBLE_EMPTY_LIST: return "the list is empty: a folder is inserted for at least one user";
    case FENSTUBBLE_LISTED: return "the user may read the folder already";
    case FENSTUBBLE_NOT_LISTED: return "the user may not read the folder anyway";
    case FENSTUBBLE_GROUPS_FULL: return "it takes more than 448 outer groups: use lists that are there already, or begin another book";
    case FENSTUBBLE_INNER_TOKENS_FULL: return "it takes more than 4096 inner tokens: use lists that are there already, or begin another book";
    case FENSTUBBLE_OUTER_TOKENS_FULL: return "it takes more than 4096 outer tokens: use lists that are there already, or begin another book";
    case FENSTUBBLE_SHORT_ANSWER: return "the list or buffer lent for the answer is too short: lend a longer one";
    case FENSTUBBLE_CLOSED: return "the folder is closed to this user";
    case FENSTUBBLE_UNSOUND: return "the tables hold no sound book: go back to the last one that was kept";
    case FENSTUBBLE_SHORT_TABLE: return "a head, table or set that was lent is too short";
    case FENSTUBBLE_MALFORMED: return "the line is not a request: see fenstubble --help";
    case FENSTUBBLE_HAS_LEFT: return "the user has left, or the list names a user who has: whoever comes back joins anew";
    case FENSTUBBLE_WRONG_MARK: return "the bytes do not begin with the mark of a book, TKB";
    case FENSTUBBLE_WRONG_VERSION: return "the book's version is neither 1 nor 2";
    case FENSTUBBLE_WRONG_MODE: return "the book's mode is neither 0 nor 1";
    case FENSTUBBLE_WRONG_COUNT: return "a count in the book's header is over its limit";
    case FENSTUBBLE_WRONG_LENGTH: return "the length is not what the book's version and counts ask for";
    case FENSTUBBLE_BROKEN_S1: return "S1 is broken: a kind above 1, a vertex that is not there, a set with a user who has not joined, or a list with one who has left";
    case FENSTUBBLE_BROKEN_S2: return "S2 is broken: a user has no own vertex, a token that is not of kind 1 leads to one, or an inner vertex has the empty set";
    case FENSTUBBLE_BROKEN_S3: return "S3 is broken: an earlier vertex of the layer has the same set";
    case FENSTUBBLE_BROKEN_S4: return "S4 is broken: the set where the token starts is empty, or no proper part of the set that it leads to";
    case FENSTUBBLE_BROKEN_S5: return "S5 is broken: the group's set is not made of the sets from which tokens lead to it, those of kind 1 apart";
    case FENSTUBBLE_BROKEN_S6: return "S6 is broken: the access token starts at no user's own vertex, or leads to a set with that user, or the token is there twice";
    case FENSTUBBLE_BROKEN_S7: return "S7 is broken: the folder's list names a user who does not derive its inner key";
    case FENSTUBBLE_BROKEN_S8: return "S8 is broken: the folder's outer lock is not what its mode and its list ask for";
    default: return "no such refusal";
    }
}

/* a row of a book's bytes: its section (enum fenstubble_section_number), and its number there */
struct fenstubble_row {
    size_t section, number;
};

/* The row at a place of a book's bytes, such as 31 to 38 tell, by version and counts in their header: FENSTUBBLE_BOOK_HEADER bytes are looked at.
 * Where no row is there, as at FENSTUBBLE_NO_ROW, or in version 2 at FENSTUBBLE_BOOK_LEAVERS, the section is FENSTUBBLE_SECTIONS. */
static inline struct fenstubble_row fenstubble_row_at(const uint8_t *book, size_t place) {
    static const uint8_t counts[] = {9, 11, 13, 15, 7}; /* where the header has them */
    static const uint8_t widths[] = {FENSTUBBLE_INNER_VERTICES_WIDTH, FENSTUBBLE_INNER_TOKENS_WIDTH, FENSTUBBLE_OUTER_VERTICES_WIDTH,
                                     FENSTUBBLE_OUTER_TOKENS_WIDTH, FENSTUBBLE_RESOURCES_WIDTH};
    struct fenstubble_row row = {0, 0};
    size_t start = book[3] == 1 ? FENSTUBBLE_BOOK_HEADER : FENSTUBBLE_BOOK_ROWS;
    for (; row.section < FENSTUBBLE_SECTIONS; row.section++) {
        size_t count = book[counts[row.section]] + 256u * book[counts[row.section] + 1], end = start + count * widths[row.section];
        if (start <= place && place < end) {
            row.number = (place - start) / widths[row.section];
            break;
        }
        start = end;
    }
    return row;
}

/* ---- the calls. Behind each stand the refusals that it can give, in the order in which they are judged: the first that holds is given. */

/* a book's tables, to write and to read */
#define FENSTUBBLE_TABLES                                                                                                                            \
    uint8_t *inner_vertices, size_t inner_vertices_len, uint8_t *inner_tokens, size_t inner_tokens_len, uint8_t *outer_vertices,                     \
        size_t outer_vertices_len, uint8_t *outer_tokens, size_t outer_tokens_len, uint8_t *resources, size_t resources_len

#define FENSTUBBLE_CONST_TABLES                                                                                                                      \
    const uint8_t *inner_vertices, size_t inner_vertices_len, const uint8_t *inner_tokens, size_t inner_tokens_len, const uint8_t *outer_vertices,   \
        size_t outer_vertices_len, const uint8_t *outer_tokens, size_t outer_tokens_len, const uint8_t *resources, size_t resources_len

/* The library's version, as FENSTUBBLE_VERSION. */
uint32_t fenstubble_version(void);

/* Whether the head and tables hold a sound book. Every other call that is lent a book judges this too, before anything else.
 * 13, 12 */
uint16_t fenstubble_check(const uint16_t *head, size_t head_len, FENSTUBBLE_CONST_TABLES);

/* The two calls on a book's bytes. *place is written by each of them, accepted or refused: along with 20 to 24 and 31 to 38 it says where the bytes are
 * broken (see above), and along with any other result it is 0. */

/* Section k of a book's bytes (enum fenstubble_section_number) is the stretch of *length bytes from book + *start on. Section 0 starts at
 * FENSTUBBLE_BOOK_ROWS (in version 1 at FENSTUBBLE_BOOK_HEADER), each other one where the one before it ends, also one without rows.
 * 20 to 24, 31 to 38, then 1 */
uint16_t fenstubble_section(const uint8_t *book, size_t book_len, size_t k, size_t *start, size_t *length, size_t *place);

/* A book's bytes into head and tables; what these held before does not count.
 * 13, then 20 to 24, 31 to 38 */
uint16_t fenstubble_read(const uint8_t *book, size_t book_len, uint16_t *head, size_t head_len, FENSTUBBLE_TABLES, size_t *place);

/* The book as bytes of version 2 into the buffer; *length is how many. With FENSTUBBLE_BOOK_BYTES the buffer is never too short.
 * 13, 12, 10 */
uint16_t fenstubble_write(const uint16_t *head, size_t head_len, FENSTUBBLE_CONST_TABLES, uint8_t *buffer, size_t buffer_len, size_t *length);

/* The requests. *count is how many order rows were given, from the first of the list on. Mind the order: grant and revoke take the folder first, view
 * and open the user. */

/* A new user.
 * 13, 12, 2, 10 */
uint16_t fenstubble_join(uint16_t *head, size_t head_len, FENSTUBBLE_TABLES, uint16_t *orders, size_t orders_len, uint16_t *count);

/* A new folder for the users of `list`, a set: FENSTUBBLE_SET_BYTES bytes, and any behind them are not looked at.
 * 13, 12, 1, 15, 4, 3, 7, 8, 9, 10 */
uint16_t fenstubble_insert(uint16_t *head, size_t head_len, FENSTUBBLE_TABLES, uint16_t *orders, size_t orders_len, uint16_t *count,
                           const uint8_t *list, size_t list_len);

/* The user may read the folder from now on.
 * 13, 12, 1, 15, 5, 7, 8, 9, 10 */
uint16_t fenstubble_grant(uint16_t *head, size_t head_len, FENSTUBBLE_TABLES, uint16_t *orders, size_t orders_len, uint16_t *count, uint16_t resource,
                          uint16_t user);

/* The user may not read the folder any more.
 * 13, 12, 1, 6, 7, 9, 10 */
uint16_t fenstubble_revoke(uint16_t *head, size_t head_len, FENSTUBBLE_TABLES, uint16_t *orders, size_t orders_len, uint16_t *count, uint16_t resource,
                           uint16_t user);

/* The user may read nothing any more, for good: each list that names the user is revoked, by rising number of the folder, and the user is in the set of
 * leavers. It is one request, with one list of orders: 7, 9 and 10 are judged of the whole, and a refused leave has taken nobody off any list. Where no
 * list names the user there are no orders; the head has changed all the same, and is to be kept.
 * 13, 12, 1, 15, 7, 9, 10 */
uint16_t fenstubble_leave(uint16_t *head, size_t head_len, FENSTUBBLE_TABLES, uint16_t *orders, size_t orders_len, uint16_t *count, uint16_t user);

/* What the user knows of the folder's keys: *view is one of enum fenstubble_view_number.
 * 13, 12, 1 */
uint16_t fenstubble_view(const uint16_t *head, size_t head_len, FENSTUBBLE_CONST_TABLES, uint16_t user, uint16_t resource, uint16_t *view);

/* The tokens by which the user opens the folder, by their row numbers: *inner numbers for the inner chain, then *outer for the outer one, each chain in
 * the order in which it is followed, from a key that the user was handed to the folder's. A chain is empty where the user's own key is the folder's, or
 * where there is no outer lock.
 * 13, 12, 1, 11, 10 */
uint16_t fenstubble_open(const uint16_t *head, size_t head_len, FENSTUBBLE_CONST_TABLES, uint16_t user, uint16_t resource, uint16_t *list,
                         size_t list_len, uint16_t *inner, uint16_t *outer);

/* the kind of a request row; any other is answered with 1 */
enum fenstubble_request {
    FENSTUBBLE_REQUEST_JOIN = 0,   /* a and b do not count */
    FENSTUBBLE_REQUEST_INSERT = 1, /* a: the list as a number, bit i for user i. b: 0; any other says that the list names a user above 63, which is 1 */
    FENSTUBBLE_REQUEST_GRANT = 2,  /* a: the folder. b: the user */
    FENSTUBBLE_REQUEST_REVOKE = 3, /* a: the folder. b: the user */
    FENSTUBBLE_REQUEST_OPEN = 4,   /* a: the user. b: the folder */
    FENSTUBBLE_REQUEST_LEAVE = 5   /* a: the user. b does not count */
};
/* an open's rows in the order list: FENSTUBBLE_ROW_INNER, token row, 0 for the inner chain, then FENSTUBBLE_ROW_OUTER, token row, 0 for the outer */
#define FENSTUBBLE_ROW_INNER 105 /* 'i' */
#define FENSTUBBLE_ROW_OUTER 111 /* 'o' */

/* Several requests in one call, each on the book that those before it left and on the order rows left, as its own call would; a refused one leaves the
 * book, uses no order rows, and the next one goes on. A request row is three numbers: its kind (enum fenstubble_request), a, b; none is cut to fewer
 * bits. Its answer row is three numbers: the refusal's number or 0; the view for 11, else 0; and how many order rows it was given, which follow those
 * of the requests before it. *used is how many rows all used; FENSTUBBLE_ORDER_ROWS for each leave, and FENSTUBBLE_GRANT_ROWS for each other request,
 * are always enough. The book is judged once, first, so that no answer row has 13 or 12. Numbers past the last whole row of three do not count. A host
 * notes of each request when its orders are obeyed.
 * 13, 12, 10 (fewer answer rows than request rows) */
uint16_t fenstubble_serve(uint16_t *head, size_t head_len, FENSTUBBLE_TABLES, const uint64_t *requests, size_t requests_len, uint16_t *answers,
                          size_t answers_len, uint16_t *orders, size_t orders_len, size_t *used);

#ifdef __cplusplus
}
#endif

#endif
