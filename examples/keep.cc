// The book of keep.c, kept from C++: the same calls, and the same lines printed.
//
//     c++ keep.cc $(pkg-config --cflags --libs fenstubble) -o keep && ./keep book.tkb
//
// It ends with status 1 if a call answers anything but what is expected of it here. How a host keeps book and orders together: keep.c.
#include <fenstubble.h>

#include <array>
#include <cstdio>
#include <fstream>
#include <initializer_list>
#include <iterator>
#include <stdexcept>
#include <string>
#include <utility>
#include <vector>

namespace {

using Bytes = std::vector<std::uint8_t>;
using Order = std::array<unsigned, FENSTUBBLE_ORDER_WIDTH>;

// A call that said no and changed nothing.
struct Refused : std::runtime_error {
    std::uint16_t result;
    explicit Refused(std::uint16_t r) : Refused(r, fenstubble_reason(r)) {}
    Refused(std::uint16_t r, const std::string &text) : std::runtime_error(text), result(r) {}
};

// Bytes that are no sound book, in words: the number, the place, the row that starts there, and the reason.
std::string broken(const Bytes &bytes, std::uint16_t result, std::size_t place) {
    static const char *const sections[] = {"inner vertex", "inner token", "outer vertex", "outer token", "folder"};
    std::string text = std::to_string(result) + " at " + std::to_string(place);
    if (result >= FENSTUBBLE_BROKEN_S1 && place != FENSTUBBLE_NO_ROW) {
        const fenstubble_row row = fenstubble_row_at(bytes.data(), place);
        if (row.section < FENSTUBBLE_SECTIONS)
            text += std::string(", ") + sections[row.section] + " row " + std::to_string(row.number);
        else
            text += ", the set of leavers";
    }
    return text + ": " + fenstubble_reason(result);
}

void done(std::uint16_t result) {
    if (result != FENSTUBBLE_DONE)
        throw Refused(result);
}

void expect(bool met, const char *what) {
    if (!met)
        throw std::runtime_error(what);
}

// A head and five tables, all of them its own. It begins as the empty book.
class Book {
    std::array<std::uint16_t, FENSTUBBLE_HEAD_LEN> head;
    std::array<std::uint8_t, FENSTUBBLE_INNER_VERTICES_BYTES> inner_vertices;
    std::array<std::uint8_t, FENSTUBBLE_INNER_TOKENS_BYTES> inner_tokens;
    std::array<std::uint8_t, FENSTUBBLE_OUTER_VERTICES_BYTES> outer_vertices;
    std::array<std::uint8_t, FENSTUBBLE_OUTER_TOKENS_BYTES> outer_tokens;
    std::array<std::uint8_t, FENSTUBBLE_RESOURCES_BYTES> resources;

    // A call with the head and tables in their place.
    template <class... Declared, class... Given> std::uint16_t call(std::uint16_t (*f)(Declared...), Given... given) {
        return f(head.data(), head.size(), inner_vertices.data(), inner_vertices.size(), inner_tokens.data(), inner_tokens.size(),
                 outer_vertices.data(), outer_vertices.size(), outer_tokens.data(), outer_tokens.size(), resources.data(), resources.size(),
                 given...);
    }

    // A request, with an order list lent: the rows it was given.
    template <class... Declared, class... Given> std::vector<Order> ordered(std::uint16_t (*f)(Declared...), Given... given) {
        std::array<std::uint16_t, FENSTUBBLE_ORDERS_LEN> list;
        std::uint16_t count;
        done(call(f, list.data(), list.size(), &count, given...));
        std::vector<Order> rows;
        for (std::size_t at = 0; at < std::size_t{count} * FENSTUBBLE_ORDER_WIDTH; at += FENSTUBBLE_ORDER_WIDTH)
            rows.push_back({list[at], list[at + 1], list[at + 2]});
        return rows;
    }

public:
    explicit Book(fenstubble_mode mode) : head{} { head[FENSTUBBLE_HEAD_MODE] = static_cast<std::uint16_t>(mode); }

    // What stands in the tables does not count.
    explicit Book(const Bytes &bytes) {
        std::size_t place;
        std::uint16_t result = fenstubble_read(bytes.data(), bytes.size(), head.data(), head.size(), inner_vertices.data(), inner_vertices.size(),
                                               inner_tokens.data(), inner_tokens.size(), outer_vertices.data(), outer_vertices.size(),
                                               outer_tokens.data(), outer_tokens.size(), resources.data(), resources.size(), &place);
        if (result != FENSTUBBLE_DONE)
            throw Refused(result, broken(bytes, result, place));
    }

    unsigned users() const { return head[FENSTUBBLE_HEAD_USERS]; }
    unsigned folders() const { return head[FENSTUBBLE_HEAD_RESOURCES]; }
    bool has_left(std::uint16_t user) const { return fenstubble_has_left(head.data(), user) != 0; }

    void check() { done(call(fenstubble_check)); }
    std::vector<Order> join() { return ordered(fenstubble_join); }
    std::vector<Order> grant(std::uint16_t folder, std::uint16_t user) { return ordered(fenstubble_grant, folder, user); }
    std::vector<Order> revoke(std::uint16_t folder, std::uint16_t user) { return ordered(fenstubble_revoke, folder, user); }
    std::vector<Order> leave(std::uint16_t user) { return ordered(fenstubble_leave, user); }

    // A set of people is bytes: bit i % 8 of byte i / 8 for person i.
    std::vector<Order> insert(std::initializer_list<unsigned> people) {
        std::array<std::uint8_t, FENSTUBBLE_SET_BYTES> list{};
        for (unsigned i : people)
            list[i / 8] = static_cast<std::uint8_t>(list[i / 8] | 1u << i % 8);
        return ordered(fenstubble_insert, list.data(), list.size());
    }

    // The rows of the inner chain and of the outer.
    std::pair<std::vector<unsigned>, std::vector<unsigned>> open(std::uint16_t user, std::uint16_t folder) {
        std::array<std::uint16_t, FENSTUBBLE_OPEN_ROWS> list;
        std::uint16_t inner, outer;
        done(call(fenstubble_open, user, folder, list.data(), list.size(), &inner, &outer));
        return {{list.begin(), list.begin() + inner}, {list.begin() + inner, list.begin() + inner + outer}};
    }

    Bytes write() {
        Bytes bytes(FENSTUBBLE_BOOK_BYTES);
        std::size_t length;
        done(call(fenstubble_write, bytes.data(), bytes.size(), &length));
        bytes.resize(length);
        return bytes;
    }
};

// What an order asks of the host. In an insert the lock comes before its folder: keep.c.
void obey(const Order &order) {
    unsigned a = order[1], b = order[2];
    switch (order[0]) {
    case FENSTUBBLE_ORDER_OUTER_KEY: std::printf("  make outer key %u\n", a); break;
    case FENSTUBBLE_ORDER_OUTER_TOKEN: std::printf("  publish outer token %u -> %u\n", a, b); break;
    case FENSTUBBLE_ORDER_LOCK:
        if (b == FENSTUBBLE_NO_OUTER)
            std::printf("  take the outer lock off folder %u\n", a);
        else
            std::printf("  re-lock folder %u with outer key %u\n", a, b);
        break;
    case FENSTUBBLE_ORDER_INNER_KEY: std::printf("  make inner key %u\n", a); break;
    case FENSTUBBLE_ORDER_INNER_TOKEN: std::printf("  publish inner token %u -> %u\n", a, b); break;
    case FENSTUBBLE_ORDER_ACCESS_TOKEN: std::printf("  publish access token %u -> %u\n", a, b); break;
    case FENSTUBBLE_ORDER_ENCRYPT: std::printf("  encrypt folder %u with access key %u\n", a, b); break;
    default: expect(false, "an order of kind 1 to 7");
    }
}

void accepted(const std::vector<Order> &orders) {
    for (const Order &order : orders)
        obey(order);
}

// The refusal of a call that must be refused with that number.
template <class Call> Refused refused(Call call, unsigned number) {
    try {
        call();
    } catch (const Refused &no) {
        expect(no.result == number, no.what());
        return no;
    }
    throw std::runtime_error("a call that is refused");
}

void open_folder(Book &book, unsigned user, unsigned folder, int expected) {
    static const char *const held_by[] = {"", "the outer lock", "the inner lock", "both locks"};
    std::printf("open folder %u as person %u\n", folder, user);
    try {
        auto chains = book.open(static_cast<std::uint16_t>(user), static_cast<std::uint16_t>(folder));
        expect(expected == FENSTUBBLE_VIEW_OPEN, "an open that is closed");
        for (unsigned row : chains.first)
            std::printf("  follow inner token row %u\n", row);
        for (unsigned row : chains.second)
            std::printf("  follow outer token row %u\n", row);
        std::printf("  open\n");
    } catch (const Refused &no) {
        expect(FENSTUBBLE_NUMBER(no.result) == FENSTUBBLE_CLOSED && FENSTUBBLE_VIEW(no.result) == expected, no.what());
        std::printf("  closed by %s\n", held_by[expected]);
    }
}

void keep(const std::string &path) {
    expect(fenstubble_version() / 10000 == FENSTUBBLE_VERSION / 10000 && fenstubble_version() >= FENSTUBBLE_VERSION, "a library that fits");

    Book book(FENSTUBBLE_MODE_DELTA);
    book.check();
    std::printf("an empty delta book\n");
    for (int person = 0; person < 3; person++) {
        std::printf("person %u joins\n", book.users());
        accepted(book.join());
    }
    for (int folder = 0; folder < 2; folder++) {
        std::printf("insert folder %u for persons 0 and 1\n", book.folders());
        accepted(book.insert({0, 1}));
    }

    std::printf("grant folder 0 to person 2\n");
    accepted(book.grant(0, 2));
    open_folder(book, 2, 0, FENSTUBBLE_VIEW_OPEN);
    open_folder(book, 2, 1, FENSTUBBLE_VIEW_OUTER_LOCKED);
    std::printf("revoke folder 0 from person 1\n");
    accepted(book.revoke(0, 1));
    open_folder(book, 1, 0, FENSTUBBLE_VIEW_OUTER_LOCKED);
    open_folder(book, 0, 0, FENSTUBBLE_VIEW_OPEN);
    std::printf("revoke folder 0 from person 1 again\n");
    std::printf("  refused: %u\n", refused([&] { book.revoke(0, 1); }, FENSTUBBLE_NOT_LISTED).result);
    std::printf("grant folder 0 to person 9\n");
    std::printf("  refused: %u\n", refused([&] { book.grant(0, 9); }, FENSTUBBLE_NO_SUCH).result);

    // To a file, and back into tables that know nothing of it.
    const Bytes bytes = book.write();
    std::ofstream out(path, std::ios::binary);
    out.write(reinterpret_cast<const char *>(bytes.data()), static_cast<std::streamsize>(bytes.size()));
    out.close();
    expect(out.good(), "a file that can be written");
    std::printf("write the book: %zu bytes\n", bytes.size());
    std::ifstream in(path, std::ios::binary);
    Bytes back{std::istreambuf_iterator<char>(in), std::istreambuf_iterator<char>()};
    Book again(back);
    expect(again.write() == bytes, "the same book");
    std::printf("read it back: the same book\n");
    open_folder(again, 2, 0, FENSTUBBLE_VIEW_OPEN);
    std::printf("grant folder 0 to person 1 again\n");
    accepted(again.grant(0, 1));
    open_folder(again, 1, 0, FENSTUBBLE_VIEW_OPEN);

    // Who leaves is taken off every list at once, and is on none again.
    std::printf("person 1 leaves\n");
    accepted(again.leave(1));
    expect(again.has_left(1) && !again.has_left(0), "one who has left, and one who has not");
    open_folder(again, 1, 1, FENSTUBBLE_VIEW_OUTER_LOCKED);
    std::printf("grant folder 0 to person 1 once more\n");
    std::printf("  refused: %u\n", refused([&] { again.grant(0, 1); }, FENSTUBBLE_HAS_LEFT).result);

    // Nothing that is not a sound book is taken for one.
    back[bytes.size() - 4] ^= 1;
    std::printf("read it with one bit changed\n");
    std::printf("  refused: %s\n", refused([&] { Book damaged(back); }, FENSTUBBLE_BROKEN_S7).what());
    std::printf("all as expected\n");
}

} // namespace

int main(int argc, char **argv) {
    if (argc != 2) {
        std::fprintf(stderr, "usage: keep FILE\n");
        return 2;
    }
    try {
        keep(argv[1]);
        return 0;
    } catch (const std::exception &e) {
        std::fprintf(stderr, "not as expected: %s\n", e.what());
        return 1;
    }
}
