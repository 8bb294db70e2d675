// The calls of include/doorbramble.h, named plain_.., as a good C programmer without proofs would write them: a pass
// that checks and counts, then a pass that fills and makes no check again. No byte outside of a given slice is read,
// and none past what is counted is written; a refusal changes no store. A word is read or written whole where all its
// bytes lie inside; only the last items of a list go byte by byte.
#include <stdbool.h>
#include <stddef.h>
#include <stdint.h>
#include <string.h>

#define INLINE static inline __attribute__((always_inline))

enum {
    OVER_LONG = 1,
    TOO_SHORT = 2,
    BAD_LENGTH = 3,
    BAD_TYPE = 4,
    BAD_MARKER = 6,
    BAD_PREFIX_LENGTH = 7,
    ONE_BYTE_SECTION = 8,
    BAD_SEGMENT_TYPE = 9,
    BAD_AGGREGATOR = 10,
    NO_ROOM = 11,
    LONG_SEGMENT = 12,
    WIDE_NUMBER = 13,
    NOT_WRITABLE = 14,
    REPEATED_MP = 15,
    EMPTY_SEGMENT = 16,
    OTHER_FAMILY = 17,
    BAD_NEXT_HOP = 18,
    NOT_AN_INDEX = 19,
    NO_SUCH_ROUTE = 20,
};

enum { MOST_BYTES = 65535, MOST_BODY = 65516, HEADER = 19, ROW = 6, HAS_ID = 256, GUESSED = 512 };

typedef enum { WITHOUT_ID, WITH_ID, GUESS } form;

INLINE uint64_t answer(uint64_t a, uint64_t b, uint64_t c) { return a | b << 16 | c << 32; }

INLINE uint64_t refused(uint64_t number) { return number << 48; }

INLINE uint64_t refusal_of(uint64_t answered) { return answered >> 48; }

// Of a counted list, whose refusal has neither.
INLINE uint64_t rows_of(uint64_t counted) { return counted & 0xFFFF; }
INLINE uint64_t hosts_of(uint64_t counted) { return counted >> 16 & 0xFFFF; }

// ---- Numbers in network order ----

INLINE uint32_t read2(const uint8_t *from) {
    uint16_t number;
    memcpy(&number, from, 2);
    return __builtin_bswap16(number);
}

INLINE uint32_t read4(const uint8_t *from) {
    uint32_t number;
    memcpy(&number, from, 4);
    return __builtin_bswap32(number);
}

INLINE uint64_t read8(const uint8_t *from) {
    uint64_t number;
    memcpy(&number, from, 8);
    return __builtin_bswap64(number);
}

INLINE void write2(uint8_t *to, uint32_t number) {
    uint16_t swapped = __builtin_bswap16((uint16_t)number);
    memcpy(to, &swapped, 2);
}

INLINE void write4(uint8_t *to, uint32_t number) {
    uint32_t swapped = __builtin_bswap32(number);
    memcpy(to, &swapped, 4);
}

INLINE void write8(uint8_t *to, uint64_t number) {
    uint64_t swapped = __builtin_bswap64(number);
    memcpy(to, &swapped, 8);
}

// ---- Route lists ----

INLINE uint32_t most_bits(bool ipv6) { return ipv6 ? 128 : 32; }

enum { REFUSED_LENGTH = 255 };

// The octets after a length byte, or REFUSED_LENGTH.
static const uint8_t ipv4_octets[256] = {
    [0] = 0, [1 ... 8] = 1, [9 ... 16] = 2, [17 ... 24] = 3, [25 ... 32] = 4, [33 ... 255] = REFUSED_LENGTH,
};

static const uint8_t ipv6_octets[256] = {
    [0] = 0,           [1 ... 8] = 1,      [9 ... 16] = 2,     [17 ... 24] = 3,    [25 ... 32] = 4,   [33 ... 40] = 5,
    [41 ... 48] = 6,   [49 ... 56] = 7,    [57 ... 64] = 8,    [65 ... 72] = 9,    [73 ... 80] = 10,  [81 ... 88] = 11,
    [89 ... 96] = 12,  [97 ... 104] = 13,  [105 ... 112] = 14, [113 ... 120] = 15, [121 ... 128] = 16,
    [129 ... 255] = REFUSED_LENGTH,
};

// A family and its table. With TABLE_A_CALL a call makes the table on its stack, as the proved library must, whose
// language has no static data: so it can be told what that takes.
typedef struct {
    bool ipv6;
    const uint8_t *octets;
} family;

#ifdef TABLE_A_CALL
INLINE family made(uint8_t *table, bool ipv6) {
    memcpy(table, ipv6 ? ipv6_octets : ipv4_octets, 256);
    __asm__ volatile("" : : "r"(table) : "memory");
    return (family){ipv6, table};
}
#define FAMILY(name, ipv6)     \
    uint8_t name##_table[256]; \
    family name = made(name##_table, ipv6)
INLINE family instance(family of, bool ipv6) { return (family){ipv6, of.octets}; }
#else
#define FAMILY(name, ipv6) family name = {ipv6, NULL}
INLINE family instance(family of, bool ipv6) {
    (void)of;
    return (family){ipv6, ipv6 ? ipv6_octets : ipv4_octets};
}
#endif

INLINE uint32_t octets_after(size_t bits, family of) { return of.octets[bits]; }

// By length, the bits of the last octet past it: a multiple of 8 has none.
#define EIGHT_LENGTHS 0, 0x7F, 0x3F, 0x1F, 0x0F, 0x07, 0x03, 0x01
#define MANY_LENGTHS EIGHT_LENGTHS, EIGHT_LENGTHS, EIGHT_LENGTHS, EIGHT_LENGTHS
static const uint8_t host_bits[129] = {MANY_LENGTHS, MANY_LENGTHS, MANY_LENGTHS, MANY_LENGTHS, 0};

// Whether an item whose octets stand at `s` has a host bit. Before them stands the length byte, which is 0 where there
// is no last octet.
INLINE bool has_host(const uint8_t *s, size_t octets, size_t bits) { return s[octets - 1] & host_bits[bits]; }

// The bytes of an id, if there is one.
INLINE uint32_t head_of(bool id) { return id ? 4 : 0; }

// The first octets of a word of four.
INLINE uint32_t mask4(uint32_t octets) { return (uint32_t)(0xFFFFFFFF00000000u >> (8 * octets)); }

// At i + 8, the mask of the first i octets of eight: none up to 8, all from 16 on.
// clang-format off
static const uint64_t octet_masks[25] = {
    0, 0, 0, 0, 0, 0, 0, 0, 0,
    0xFF00000000000000, 0xFFFF000000000000, 0xFFFFFF0000000000, 0xFFFFFFFF00000000,
    0xFFFFFFFFFF000000, 0xFFFFFFFFFFFF0000, 0xFFFFFFFFFFFFFF00,
    ~0ull, ~0ull, ~0ull, ~0ull, ~0ull, ~0ull, ~0ull, ~0ull, ~0ull,
};
// clang-format on

// The first octets of sixteen, as two words of eight.
INLINE uint64_t mask16(uint32_t octets) { return octet_masks[8 + octets]; }
INLINE uint64_t rest16(uint32_t octets) { return octet_masks[octets]; }

// Whether a well-formed item with an id begins at `at`.
INLINE bool item_with_id(const uint8_t *s, size_t n, size_t at, family of) {
    if (n - at < 5) return false;
    uint32_t octets = octets_after(s[at + 4], of);
    return octets != REFUSED_LENGTH && n - at >= 5 + octets;
}

// Whether so many bytes from `s` on end at the end or past it, where no pointer may point.
INLINE bool reach(const uint8_t *s, size_t bytes, const uint8_t *end) { return (uintptr_t)s + bytes >= (uintptr_t)end; }

// The rows of a list whose items have `head` bytes before the length, and those with a host bit; or the refusal. `s` goes
// on from the octets of the item before, so that the next length byte waits for the table alone. An item that is not all
// there is the last: octets are looked at where something follows them, or after the loop.
INLINE uint64_t count_items(const uint8_t *s, size_t n, family of, uint32_t head) {
    if (n <= head) return n ? refused(TOO_SHORT) : 0;
    const uint8_t *end = s + n;
    size_t octets = 0, rows = 0, hosts = 0;
    for (;;) {
        size_t bits = s[octets + head];
        s += octets + head + 1;
        octets = octets_after(bits, of);
        if (octets == REFUSED_LENGTH) return refused(BAD_PREFIX_LENGTH);
        rows++;
        if (reach(s, octets + head, end)) break;
        hosts += has_host(s, octets, bits);
    }
    if (octets != (size_t)(end - s)) return refused(TOO_SHORT);
    return answer(rows, hosts + has_host(s, octets, s[-1]), 0);
}

// The same with the guess: a zero byte where an item without id would begin starts the items with one.
INLINE uint64_t count_guessed(const uint8_t *s, size_t n, family of) {
    if (n == 0) return 0;
    const uint8_t *end = s + n;
    size_t octets = 0, rows = 0, hosts = 0;
    for (;;) {
        size_t bits = s[octets];
        if (bits == 0 && item_with_id(s, end - s, octets, of)) {
            do {
                bits = s[octets + 4];
                s += octets + 5;
                octets = octets_after(bits, of);
                rows++;
                hosts += has_host(s, octets, bits);
            } while (item_with_id(s, end - s, octets, of));
            if (s + octets == end) return answer(rows, hosts, 0);
            bits = s[octets];
        }
        s += octets + 1;
        octets = octets_after(bits, of);
        if (octets == REFUSED_LENGTH) return refused(BAD_PREFIX_LENGTH);
        rows++;
        if (reach(s, octets, end)) break;
        hosts += has_host(s, octets, bits);
    }
    if (octets != (size_t)(end - s)) return refused(TOO_SHORT);
    return answer(rows, hosts + has_host(s, octets, s[-1]), 0);
}

INLINE uint64_t count_list(const uint8_t *s, size_t n, family of, form form) {
    return form == GUESS ? count_guessed(s, n, of) : count_items(s, n, of, head_of(form == WITH_ID));
}

INLINE void put_row(uint32_t *row, uint32_t first, uint32_t id, uint64_t address, uint64_t rest) {
    row[0] = first;
    row[1] = id;
    row[2] = (uint32_t)(address >> 32);
    row[3] = (uint32_t)address;
    row[4] = (uint32_t)(rest >> 32);
    row[5] = (uint32_t)rest;
}

// Puts the row of a checked item, which has an id where the first word has a mark beside the length; `last` where its
// address may end within 16 (IPv4: 4) bytes of the end.
INLINE size_t fill_item(const uint8_t *restrict s, size_t at, family of, uint32_t mark, bool last,
                        uint32_t *restrict row) {
    bool id = mark != 0;
    uint32_t bits = s[at + head_of(id)];
    uint32_t octets = octets_after(bits, of);
    uint32_t first = bits + mark, path = id ? read4(s + at) : 0;
    uint8_t copied[16] = {0};
    const uint8_t *address = s + at + head_of(id) + 1;
    if (last) {
        for (uint32_t i = 0; i < octets; i++) copied[i] = address[i];
        address = copied;
    }
    if (of.ipv6)
        put_row(row, first, path, read8(address) & mask16(octets), read8(address + 8) & rest16(octets));
    else
        put_row(row, first, path, (uint64_t)(read4(address) & mask4(octets)) << 32, 0);
    return at + head_of(id) + 1 + octets;
}

// The bytes of the longest item.
INLINE uint32_t longest(bool ipv6, bool id) { return head_of(id) + 1 + (ipv6 ? 16 : 4); }

INLINE void fill_items(const uint8_t *s, size_t n, family of, bool id, uint32_t *store) {
    size_t at = 0;
    uint32_t mark = id ? HAS_ID : 0;
    for (; at + longest(of.ipv6, id) <= n; store += ROW) at = fill_item(s, at, of, mark, false, store);
    for (; at < n; store += ROW) at = fill_item(s, at, of, mark, true, store);
}

INLINE size_t fill_guessed_item(const uint8_t *s, size_t n, size_t at, family of, bool *tagged, bool last,
                                uint32_t *row) {
    *tagged = (*tagged || s[at] == 0) && (last ? item_with_id(s, n, at, of) : octets_after(s[at + 4], of) != REFUSED_LENGTH);
    return *tagged ? fill_item(s, at, of, HAS_ID + GUESSED, last, row) : fill_item(s, at, of, 0, last, row);
}

INLINE void fill_guessed(const uint8_t *s, size_t n, family of, uint32_t *store) {
    size_t at = 0;
    bool tagged = false;
    for (; at + longest(of.ipv6, true) <= n; store += ROW) at = fill_guessed_item(s, n, at, of, &tagged, false, store);
    for (; at < n; store += ROW) at = fill_guessed_item(s, n, at, of, &tagged, true, store);
}

INLINE void fill_list(const uint8_t *s, size_t n, family of, form form, uint32_t *store) {
    if (form == GUESS)
        fill_guessed(s, n, of, store);
    else
        fill_items(s, n, of, form == WITH_ID, store);
}

// One instance for each family and form.
static uint64_t count_in_form(const uint8_t *s, size_t n, family of, form form) {
    family ipv4 = instance(of, false), ipv6 = instance(of, true);
    if (of.ipv6) {
        if (form == WITHOUT_ID) return count_list(s, n, ipv6, WITHOUT_ID);
        return form == WITH_ID ? count_list(s, n, ipv6, WITH_ID) : count_list(s, n, ipv6, GUESS);
    }
    if (form == WITHOUT_ID) return count_list(s, n, ipv4, WITHOUT_ID);
    return form == WITH_ID ? count_list(s, n, ipv4, WITH_ID) : count_list(s, n, ipv4, GUESS);
}

static void fill_in_form(const uint8_t *s, size_t n, family of, form form, uint32_t *store) {
    family ipv4 = instance(of, false), ipv6 = instance(of, true);
    if (of.ipv6) {
        if (form == WITHOUT_ID) return fill_list(s, n, ipv6, WITHOUT_ID, store);
        return form == WITH_ID ? fill_list(s, n, ipv6, WITH_ID, store) : fill_list(s, n, ipv6, GUESS, store);
    }
    if (form == WITHOUT_ID) return fill_list(s, n, ipv4, WITHOUT_ID, store);
    return form == WITH_ID ? fill_list(s, n, ipv4, WITH_ID, store) : fill_list(s, n, ipv4, GUESS, store);
}

INLINE form form_of(uint8_t settings) { return settings & 1 ? WITH_ID : settings & 2 ? GUESS : WITHOUT_ID; }

uint64_t plain_count_nlri_list(const uint8_t *s, size_t n, uint8_t ipv6, uint8_t settings) {
    if (n > MOST_BYTES) return refused(OVER_LONG);
    FAMILY(of, ipv6);
    return count_in_form(s, n, of, form_of(settings));
}

// What is counted of a list, or the refusal where the rows have no room.
INLINE uint64_t with_room(uint64_t counted, size_t places) {
    return rows_of(counted) > places / ROW ? refused(NO_ROOM) : counted;
}

uint64_t plain_parse_nlri_list(const uint8_t *s, size_t n, uint8_t ipv6, uint8_t settings, uint32_t *store,
                               size_t places) {
    if (n > MOST_BYTES) return refused(OVER_LONG);
    FAMILY(of, ipv6);
    uint64_t counted = with_room(count_in_form(s, n, of, form_of(settings)), places);
    if (!refusal_of(counted)) fill_in_form(s, n, of, form_of(settings), store);
    return counted;
}

// Takes the guess's mark off every row of a store, whose number is the answer: 48 bits hold that of any store.
uint64_t plain_clear_guessed(uint32_t *store, size_t places) {
    if (places % ROW) return refused(NOT_WRITABLE);
    for (size_t at = 0; at < places; at += ROW) store[at] &= ~(uint32_t)GUESSED;
    return places / ROW;
}

// ---- An index of a list, and a route by it ----

// The items from one place of an index to the next.
enum { SPACING = 16 };

// The bytes of the item at `at`, or the refusal.
INLINE uint64_t item_size(const uint8_t *s, size_t n, size_t at, family of, uint32_t head) {
    if (n - at <= head) return refused(TOO_SHORT);
    uint32_t octets = octets_after(s[at + head], of);
    if (octets == REFUSED_LENGTH) return refused(BAD_PREFIX_LENGTH);
    size_t size = head + 1 + octets;
    return size > n - at ? refused(TOO_SHORT) : size;
}

// The place after so many items from `at` on, or the end where there are fewer; or the refusal. While an item is as long
// as the one before, the next place waits for no byte of the list.
INLINE uint64_t pass_items(const uint8_t *s, size_t n, size_t at, size_t left, family of, uint32_t head) {
    while (left && at < n) {
        uint64_t size = item_size(s, n, at, of, head);
        if (refusal_of(size)) return size;
        do {
            at += size;
            left--;
        } while (left && n - at >= size && octets_after(s[at + head], of) == size - head - 1);
    }
    return at;
}

// How many places the index of a list has, or the refusal.
INLINE uint64_t count_places(const uint8_t *s, size_t n, family of, uint32_t head) {
    uint64_t at = 0, places = 0;
    for (; at < n; places++) {
        at = pass_items(s, n, at, SPACING, of, head);
        if (refusal_of(at)) return at;
    }
    return places;
}

// Puts the places of a counted list, whose items are not checked again: all but the last place have so many after them.
INLINE void fill_places(const uint8_t *s, size_t count, family of, uint32_t head, uint16_t *places) {
    size_t at = 0;
    for (size_t i = 0; i < count; i++) {
        places[i] = (uint16_t)at;
        if (i + 1 == count) return;
        for (size_t left = SPACING; left;) {
            uint32_t octets = octets_after(s[at + head], of);
            do {
                at += head + 1 + octets;
                left--;
            } while (left && octets_after(s[at + head], of) == octets);
        }
    }
}

// One instance for each family and form.
static uint64_t places_in_form(const uint8_t *s, size_t n, family of, bool id) {
    family ipv4 = instance(of, false), ipv6 = instance(of, true);
    if (of.ipv6) return id ? count_places(s, n, ipv6, 4) : count_places(s, n, ipv6, 0);
    return id ? count_places(s, n, ipv4, 4) : count_places(s, n, ipv4, 0);
}

static void fill_places_in_form(const uint8_t *s, size_t count, family of, bool id, uint16_t *places) {
    family ipv4 = instance(of, false), ipv6 = instance(of, true);
    if (of.ipv6) return id ? fill_places(s, count, ipv6, 4, places) : fill_places(s, count, ipv6, 0, places);
    return id ? fill_places(s, count, ipv4, 4, places) : fill_places(s, count, ipv4, 0, places);
}

uint64_t plain_count_index(const uint8_t *s, size_t n, uint8_t ipv6, uint8_t add_path) {
    if (n > MOST_BYTES) return refused(OVER_LONG);
    FAMILY(of, ipv6);
    return places_in_form(s, n, of, add_path);
}

uint64_t plain_build_index(const uint8_t *s, size_t n, uint8_t ipv6, uint8_t add_path, uint16_t *places, size_t room) {
    if (n > MOST_BYTES) return refused(OVER_LONG);
    FAMILY(of, ipv6);
    uint64_t counted = places_in_form(s, n, of, add_path);
    if (refusal_of(counted)) return counted;
    if (counted > room) return refused(NO_ROOM);
    fill_places_in_form(s, counted, of, add_path, places);
    return counted;
}

// Whether places are strictly rising from 0 and lie before the end. None decides where to go on, so that many are
// compared at once.
INLINE bool is_index(const uint16_t *index, size_t count, size_t end) {
    if (!count) return true;
    uint16_t falls = index[0];
    for (size_t i = 1; i < count; i++) falls |= index[i - 1] >= index[i];
    return !falls && index[count - 1] < end;
}

// The route that comes so many items after `at`.
INLINE uint64_t route_from(const uint8_t *s, size_t n, size_t at, size_t items, family of, bool id, uint32_t *row,
                           size_t room) {
    uint64_t start = pass_items(s, n, at, items, of, head_of(id));
    if (refusal_of(start)) return start;
    if (start == n) return refused(NO_SUCH_ROUTE);
    uint64_t size = item_size(s, n, start, of, head_of(id));
    if (refusal_of(size)) return size;
    if (room < ROW) return refused(NO_ROOM);
    fill_item(s, start, of, id ? HAS_ID : 0, n - start < longest(of.ipv6, id), row);
    const uint8_t *octets = s + start + head_of(id) + 1;
    return answer(size, has_host(octets, size - head_of(id) - 1, octets[-1]), 0);
}

uint64_t plain_route_at(const uint8_t *s, size_t n, const uint16_t *index, size_t count, size_t number, uint8_t ipv6,
                        uint8_t add_path, uint32_t *row, size_t room) {
    if (n > MOST_BYTES) return refused(OVER_LONG);
    if (!is_index(index, count, n)) return refused(NOT_AN_INDEX);
    if (number / SPACING >= count) return refused(NO_SUCH_ROUTE);
    FAMILY(of, ipv6);
    return route_from(s, n, index[number / SPACING], number % SPACING, instance(of, ipv6), add_path, row, room);
}

// ---- MP_REACH_NLRI and MP_UNREACH_NLRI of IPv6 unicast ----

// The family 2 and the subfamily 1, and the bytes of both; the bytes of an MP_REACH_NLRI before its next hop, and before
// and after it; the most bytes of a short list.
enum { IPV6_UNICAST = 0x000201, PAIR = 3, BEFORE_HOP = 4, AROUND_HOP = 5, SHORT = 64 };

INLINE bool is_next_hop(size_t bytes) { return bytes == 16 || bytes == 32; }

// The refusal of a value that is too long, of another pair, or of fewer than `least` bytes; or 0.
INLINE uint64_t value_refusal(const uint8_t *value, size_t n, size_t least) {
    if (n > MOST_BYTES) return refused(OVER_LONG);
    if (n < PAIR) return refused(TOO_SHORT);
    if ((read2(value) << 8 | value[2]) != IPV6_UNICAST) return refused(OTHER_FAMILY);
    return n < least ? refused(TOO_SHORT) : 0;
}

// What the answer of an MP_REACH_NLRI has of the bytes before its list, and how many they are; or the refusal.
INLINE uint64_t reach_head(const uint8_t *value, size_t n, size_t *bytes) {
    uint64_t refusal = value_refusal(value, n, BEFORE_HOP);
    if (refusal) return refusal;
    size_t hop = value[BEFORE_HOP - 1];
    if (!is_next_hop(hop)) return refused(BAD_NEXT_HOP);
    *bytes = AROUND_HOP + hop;
    if (n < *bytes) return refused(TOO_SHORT);
    return answer(0, 0, hop | (value[*bytes - 1] ? 256 : 0));
}

// The list of a value. A short one goes by instances of the loops in the call itself: most values have a route or two,
// and would feel another call.
INLINE uint64_t count_value(const uint8_t *s, size_t n, family of, form form) {
    if (n > SHORT) return count_in_form(s, n, of, form);
    if (form == WITHOUT_ID) return count_list(s, n, of, WITHOUT_ID);
    return form == WITH_ID ? count_list(s, n, of, WITH_ID) : count_list(s, n, of, GUESS);
}

INLINE void fill_value(const uint8_t *s, size_t n, family of, form form, uint32_t *store) {
    if (n > SHORT) return fill_in_form(s, n, of, form, store);
    if (form == WITHOUT_ID) return fill_list(s, n, of, WITHOUT_ID, store);
    return form == WITH_ID ? fill_list(s, n, of, WITH_ID, store) : fill_list(s, n, of, GUESS, store);
}

INLINE uint64_t count_ipv6(const uint8_t *s, size_t n, uint8_t settings) {
    FAMILY(of, true);
    return count_value(s, n, instance(of, true), form_of(settings));
}

INLINE uint64_t parse_ipv6(const uint8_t *s, size_t n, uint8_t settings, uint32_t *store, size_t places) {
    FAMILY(of, true);
    uint64_t counted = with_room(count_value(s, n, instance(of, true), form_of(settings)), places);
    if (!refusal_of(counted)) fill_value(s, n, instance(of, true), form_of(settings), store);
    return counted;
}

// The answer of a list with that of the bytes before it.
INLINE uint64_t with_head(uint64_t listed, uint64_t head) { return refusal_of(listed) ? listed : listed | head; }

uint64_t plain_count_mp_reach_nlri(const uint8_t *value, size_t n, uint8_t settings) {
    size_t bytes;
    uint64_t head = reach_head(value, n, &bytes);
    return refusal_of(head) ? head : with_head(count_ipv6(value + bytes, n - bytes, settings), head);
}

uint64_t plain_parse_mp_reach_nlri(const uint8_t *value, size_t n, uint8_t settings, uint32_t *store, size_t places) {
    size_t bytes;
    uint64_t head = reach_head(value, n, &bytes);
    return refusal_of(head) ? head : with_head(parse_ipv6(value + bytes, n - bytes, settings, store, places), head);
}

uint64_t plain_count_mp_unreach_nlri(const uint8_t *value, size_t n, uint8_t settings) {
    uint64_t refusal = value_refusal(value, n, PAIR);
    return refusal ? refusal : count_ipv6(value + PAIR, n - PAIR, settings);
}

uint64_t plain_parse_mp_unreach_nlri(const uint8_t *value, size_t n, uint8_t settings, uint32_t *store, size_t places) {
    uint64_t refusal = value_refusal(value, n, PAIR);
    return refusal ? refusal : parse_ipv6(value + PAIR, n - PAIR, settings, store, places);
}

// ---- The UPDATE body ----

typedef struct {
    const uint8_t *withdrawn, *attributes, *announced;
    size_t withdrawn_length, attribute_length, announced_length;
} parts;

// The three sections; a refusal or 0.
INLINE uint64_t split_body(const uint8_t *body, size_t n, parts *parts) {
    if (n > MOST_BODY) return refused(OVER_LONG);
    if (n < 4) return refused(TOO_SHORT);
    size_t withdrawn = read2(body);
    if (withdrawn > n - 4) return refused(TOO_SHORT);
    size_t attributes = read2(body + 2 + withdrawn);
    if (attributes > n - 4 - withdrawn) return refused(TOO_SHORT);
    parts->withdrawn = body + 2;
    parts->withdrawn_length = withdrawn;
    parts->attributes = body + 4 + withdrawn;
    parts->attribute_length = attributes;
    parts->announced = parts->attributes + attributes;
    parts->announced_length = n - 4 - withdrawn - attributes;
    return 0;
}

uint64_t plain_withdrawn_part(const uint8_t *body, size_t n) {
    parts parts;
    uint64_t refusal = split_body(body, n, &parts);
    return refusal ? refusal : answer(2, parts.withdrawn_length, 0);
}

uint64_t plain_attribute_part(const uint8_t *body, size_t n) {
    parts parts;
    uint64_t refusal = split_body(body, n, &parts);
    return refusal ? refusal : answer(parts.attributes - body, parts.attribute_length, 0);
}

uint64_t plain_announced_part(const uint8_t *body, size_t n) {
    parts parts;
    uint64_t refusal = split_body(body, n, &parts);
    return refusal ? refusal : answer(parts.announced - body, parts.announced_length, 0);
}

INLINE uint64_t count_section(const uint8_t *s, size_t n, family of, form form) {
    if (n == 1 && s[0] != 0) return refused(ONE_BYTE_SECTION);
    return count_in_form(s, n, of, form);
}

// The three sections, and what is counted in two of them; a refusal or 0.
INLINE uint64_t count_body(const uint8_t *body, size_t n, family of, form form, parts *parts, uint64_t *withdrawn,
                           uint64_t *announced) {
    uint64_t refusal = split_body(body, n, parts);
    if (refusal) return refusal;
    *withdrawn = count_section(parts->withdrawn, parts->withdrawn_length, of, form);
    *announced = count_section(parts->announced, parts->announced_length, of, form);
    return 0;
}

INLINE uint64_t update_answer(uint64_t withdrawn, uint64_t announced) {
    return answer(rows_of(withdrawn), rows_of(announced), refusal_of(withdrawn) | refusal_of(announced) << 8);
}

uint64_t plain_count_bgp_update_message(const uint8_t *body, size_t n, uint8_t settings) {
    FAMILY(of, false);
    parts parts;
    uint64_t first, second, refusal = count_body(body, n, of, form_of(settings), &parts, &first, &second);
    return refusal ? refusal : update_answer(first, second);
}

uint64_t plain_count_update_hosts(const uint8_t *body, size_t n, uint8_t settings) {
    FAMILY(of, false);
    parts parts;
    uint64_t first, second, refusal = count_body(body, n, of, form_of(settings), &parts, &first, &second);
    return refusal ? refusal : answer(hosts_of(first), hosts_of(second), 0);
}

uint64_t plain_parse_bgp_update_message(const uint8_t *body, size_t n, uint8_t settings, uint32_t *withdrawn,
                                        size_t withdrawn_places, uint32_t *announced, size_t announced_places) {
    FAMILY(of, false);
    parts parts;
    form form = form_of(settings);
    uint64_t first, second, refusal = count_body(body, n, of, form, &parts, &first, &second);
    if (refusal) return refusal;
    if (rows_of(first) > withdrawn_places / ROW || rows_of(second) > announced_places / ROW) return refused(NO_ROOM);
    if (!refusal_of(first)) fill_in_form(parts.withdrawn, parts.withdrawn_length, of, form, withdrawn);
    if (!refusal_of(second)) fill_in_form(parts.announced, parts.announced_length, of, form, announced);
    return update_answer(first, second);
}

// ---- The attribute section ----

enum { MP_REACH = 14, MP_UNREACH = 15, EXTENDED = 0x10 };

// The value of the attribute that starts at `from`, and its length; NULL if it is cut.
INLINE const uint8_t *value_of(const uint8_t *from, const uint8_t *end, size_t *length) {
    if (end - from < 3) return NULL;
    const uint8_t *value = from + 3;
    *length = from[2];
    if (from[0] & EXTENDED) {
        if (end - from < 4) return NULL;
        *length = *length << 8 | from[3];
        value++;
    }
    return (size_t)(end - value) < *length ? NULL : value;
}

INLINE uint64_t attribute_answer(const uint8_t *s, const uint8_t *from, const uint8_t *value, size_t length) {
    return answer(value - s, length, from[1] | (uint32_t)from[0] << 8);
}

uint64_t plain_attribute_at(const uint8_t *s, size_t n, size_t place) {
    if (n > MOST_BYTES) return refused(OVER_LONG);
    if (place >= n) return 0;
    size_t length;
    const uint8_t *value = value_of(s + place, s + n, &length);
    return value ? attribute_answer(s, s + place, value, length) : refused(TOO_SHORT);
}

uint64_t plain_find_attribute(const uint8_t *s, size_t n, uint8_t kind) {
    if (n > MOST_BYTES) return refused(OVER_LONG);
    const uint8_t *from = s, *end = s + n;
    uint64_t found = 0;
    unsigned seen = 0;
    while (from < end) {
        size_t length;
        const uint8_t *value = value_of(from, end, &length);
        if (!value) return refused(TOO_SHORT);
        unsigned type = from[1];
        if (type == MP_REACH || type == MP_UNREACH) {
            if (seen & 1u << (type & 1)) return refused(REPEATED_MP);
            seen |= 1u << (type & 1);
        }
        if (type == kind && !found) found = attribute_answer(s, from, value, length);
        from = value + length;
    }
    return found;
}

// ---- The message header ----

enum { OPEN = 1, UPDATE, NOTIFICATION, KEEPALIVE, ROUTE_REFRESH, MOST_PLAIN = 4096 };

static const uint8_t least_length[6] = {0, 29, 23, 21, 19, 23};

INLINE bool marker_is_good(const uint8_t *s) { return (read8(s) & read8(s + 8)) == ~0ull; }

uint64_t plain_parse_bgp_message(const uint8_t *s, size_t n) {
    if (n < HEADER) return refused(TOO_SHORT);
    size_t claimed = read2(s + 16);
    unsigned kind = s[18];
    if (claimed < HEADER) return refused(BAD_LENGTH);
    if (kind < OPEN || kind > ROUTE_REFRESH) return refused(BAD_TYPE);
    if ((kind == OPEN || kind == KEEPALIVE) && claimed > MOST_PLAIN) return refused(BAD_LENGTH);
    uint64_t flags = (marker_is_good(s) ? 0 : 256) | (claimed > n ? 512 : 0) | (claimed < n ? 1024 : 0);
    return answer(claimed, claimed < n ? claimed : n, kind | flags);
}

// A message of `most` bytes at most, and an OPEN never of more than MOST_PLAIN. A length under HEADER wraps around, and
// is over the most too.
INLINE uint64_t parse_strictly(const uint8_t *s, size_t n, size_t most) {
    if (n < HEADER) return refused(TOO_SHORT);
    if (!marker_is_good(s)) return refused(BAD_MARKER);
    size_t claimed = read2(s + 16);
    unsigned kind = s[18];
    if (claimed - HEADER > most - HEADER) return refused(BAD_LENGTH);
    if (kind < OPEN || kind > ROUTE_REFRESH) return refused(BAD_TYPE);
    if (claimed < least_length[kind] || (kind == KEEPALIVE && claimed != HEADER)) return refused(BAD_LENGTH);
    if (kind == OPEN && claimed > MOST_PLAIN) return refused(BAD_LENGTH);
    if (claimed > n) return refused(TOO_SHORT);
    return answer(claimed, claimed, kind | (claimed < n ? 1024 : 0));
}

uint64_t plain_parse_bgp_message_strict(const uint8_t *s, size_t n) { return parse_strictly(s, n, MOST_PLAIN); }

uint64_t plain_parse_bgp_message_by_edition(const uint8_t *s, size_t n, uint8_t edition) {
    return edition ? parse_strictly(s, n, MOST_BYTES) : parse_strictly(s, n, MOST_PLAIN);
}

// ---- AS_PATH and AGGREGATOR ----

INLINE uint64_t count_path(const uint8_t *s, size_t n, size_t width, bool strict) {
    size_t at = 0, segments = 0, numbers = 0;
    while (at + 1 < n) {
        size_t kind = s[at], count = s[at + 1];
        at += 2;
        if (n - at < width * count) return refused(TOO_SHORT);
        if (kind - 1 > 3) return refused(BAD_SEGMENT_TYPE);
        if (strict && count == 0) return refused(EMPTY_SEGMENT);
        at += width * count;
        segments++;
        numbers += count;
    }
    return at == n ? answer(segments, numbers, 0) : refused(TOO_SHORT);
}

INLINE void fill_path(const uint8_t *restrict s, size_t n, uint32_t width, uint32_t *restrict pairs,
                      uint32_t *restrict numbers) {
    const uint8_t *end = s + n;
    while (s < end) {
        uint32_t count = s[1];
        *pairs++ = s[0];
        *pairs++ = count;
        s += 2;
        for (uint32_t i = 0; i < count; i++) numbers[i] = width == 4 ? read4(s + 4 * i) : read2(s + 2 * i);
        s += width * count;
        numbers += count;
    }
}

// One instance for each width and rule, here and below.
INLINE uint64_t count_as_path(const uint8_t *value, size_t n, uint8_t four_bytes, bool strict) {
    if (n > MOST_BYTES) return refused(OVER_LONG);
    return four_bytes ? count_path(value, n, 4, strict) : count_path(value, n, 2, strict);
}

uint64_t plain_count_as_path(const uint8_t *value, size_t n, uint8_t four_bytes) {
    return count_as_path(value, n, four_bytes, false);
}

uint64_t plain_count_as_path_strict(const uint8_t *value, size_t n, uint8_t four_bytes) {
    return count_as_path(value, n, four_bytes, true);
}

// Puts a path of which this was counted, if there is room.
INLINE uint64_t fill_counted(uint64_t counted, const uint8_t *value, size_t n, uint8_t four_bytes, uint32_t *pairs,
                             size_t pair_places, uint32_t *numbers, size_t number_places) {
    if (refusal_of(counted)) return counted;
    if (2 * (counted & 0xFFFF) > pair_places || counted >> 16 > number_places) return refused(NO_ROOM);
    if (four_bytes)
        fill_path(value, n, 4, pairs, numbers);
    else
        fill_path(value, n, 2, pairs, numbers);
    return counted;
}

uint64_t plain_parse_as_path(const uint8_t *value, size_t n, uint8_t four_bytes, uint32_t *pairs, size_t pair_places,
                             uint32_t *numbers, size_t number_places) {
    uint64_t counted = plain_count_as_path(value, n, four_bytes);
    return fill_counted(counted, value, n, four_bytes, pairs, pair_places, numbers, number_places);
}

uint64_t plain_parse_as_path_strict(const uint8_t *value, size_t n, uint8_t four_bytes, uint32_t *pairs,
                                    size_t pair_places, uint32_t *numbers, size_t number_places) {
    uint64_t counted = plain_count_as_path_strict(value, n, four_bytes);
    return fill_counted(counted, value, n, four_bytes, pairs, pair_places, numbers, number_places);
}

uint64_t plain_parse_aggregator(const uint8_t *value, size_t n, uint8_t four_bytes, uint32_t *words, size_t places) {
    if (n > MOST_BYTES) return refused(OVER_LONG);
    if (n != 6 && n != 8) return refused(BAD_AGGREGATOR);
    if (places < 2) return refused(NO_ROOM);
    words[0] = n == 8 ? read4(value) : read2(value);
    words[1] = read4(value + n - 4);
    return answer(2, (n == 8) != (four_bytes != 0), 0);
}

// ---- Old and new AS numbers side by side ----

enum { SET = 1, SEQUENCE = 2, AS_TRANS = 23456, AT_ONCE = 8 };

uint64_t plain_standing_aggregator(const uint8_t *aggregator, size_t n, const uint8_t *as4_aggregator, size_t m) {
    (void)as4_aggregator;
    if ((n && n != 6) || (m && m != 8)) return refused(BAD_AGGREGATOR);
    return n && m && read2(aggregator) == AS_TRANS ? answer(0, m, 2) : answer(0, n, 1);
}

#define NUMBER (1ull << 16)
#define HOP (1ull << 32)

// A path is counted as in an answer, with its hops in the third field. What a segment of each type adds, and what each of
// its numbers does, first without the segments of confederations and then with them: a table in place of branches.
static const uint64_t for_segment[2][5] = {{0, 1 + HOP, 1, 0, 0}, {0, 1 + HOP, 1, 1, 1}};
static const uint64_t for_number[2][5] = {{0, NUMBER, NUMBER + HOP, 0, 0}, {0, NUMBER, NUMBER + HOP, NUMBER, NUMBER}};

INLINE uint64_t added_by(size_t kind, size_t count, bool confederations) {
    return for_segment[confederations][kind] + count * for_number[confederations][kind];
}

INLINE size_t hops_of(uint64_t counted) { return counted >> 32; }

// Judges a path as count_path does; its counts or the refusal.
INLINE uint64_t count_hops(const uint8_t *s, size_t n, size_t width, bool confederations) {
    if (n > MOST_BYTES) return refused(OVER_LONG);
    size_t at = 0;
    uint64_t counted = 0;
    while (at + 1 < n) {
        size_t kind = s[at], count = s[at + 1];
        at += 2;
        if (n - at < width * count) return refused(TOO_SHORT);
        if (kind - 1 > 3) return refused(BAD_SEGMENT_TYPE);
        at += width * count;
        counted += added_by(kind, count, confederations);
    }
    return at == n ? counted : refused(TOO_SHORT);
}

// A merged path: its answer; the bytes and the counts of the whole segments that it has of AS_PATH; how many numbers it
// has of the sequence after them; and whether AS4_PATH follows.
typedef struct {
    uint64_t counted, front;
    size_t bytes, split;
    bool has_as4_path;
} merged;

// Walks the front of a judged AS_PATH that makes up so many hops.
INLINE void find_front(const uint8_t *s, size_t n, size_t missing, merged *path) {
    size_t at = 0;
    uint64_t front = 0;
    while (at < n) {
        size_t kind = s[at], count = s[at + 1];
        uint64_t added = added_by(kind, count, true);
        if (hops_of(added) > missing || (!missing && kind <= SEQUENCE)) break;
        missing -= hops_of(added);
        at += 2 + 2 * count;
        front += added;
    }
    path->bytes = at;
    path->front = front;
    path->split = missing;
}

INLINE merged plan_merge(const uint8_t *as_path, size_t n, const uint8_t *as4_path, size_t m, const uint8_t *aggregator,
                         size_t aggregator_size, const uint8_t *as4_aggregator, size_t as4_aggregator_size) {
    merged path = {.bytes = n};
    uint64_t standing = plain_standing_aggregator(aggregator, aggregator_size, as4_aggregator, as4_aggregator_size);
    path.counted = refusal_of(standing) ? standing : count_hops(as_path, n, 2, true);
    if (refusal_of(path.counted)) return path;
    uint64_t kept = count_hops(as4_path, m, 4, false);
    bool ignored = aggregator_size && as4_aggregator_size && standing >> 32 == 1;
    if (refusal_of(kept)) {
        path.counted = kept;
    } else if (ignored || !(kept & 0xFFFF) || hops_of(path.counted) < hops_of(kept)) {
        path.counted &= 0xFFFFFFFF;
    } else {
        find_front(as_path, n, hops_of(path.counted) - hops_of(kept), &path);
        path.has_as4_path = true;
        path.counted = ((path.front + kept) & 0xFFFFFFFF) + answer(path.split > 0, path.split, 0);
    }
    return path;
}

uint64_t plain_count_merged_as_path(const uint8_t *as_path, size_t n, const uint8_t *as4_path, size_t m,
                                    const uint8_t *aggregator, size_t aggregator_size, const uint8_t *as4_aggregator,
                                    size_t as4_aggregator_size) {
    return plan_merge(as_path, n, as4_path, m, aggregator, aggregator_size, as4_aggregator, as4_aggregator_size)
        .counted;
}

INLINE void fill_numbers(const uint8_t *restrict s, size_t count, size_t width, uint32_t *restrict numbers) {
    for (size_t i = 0; i < count; i++) numbers[i] = width == 4 ? read4(s + 4 * i) : read2(s + 2 * i);
}

// Puts the first bytes of a judged path, which are whole segments. The value goes on up to `end`, and the merged path's
// numbers up to `last`. Eight go at once where that many are there: what is too much, the next numbers overwrite.
INLINE void fill_segments(const uint8_t *s, size_t bytes, const uint8_t *end, size_t width, bool confederations,
                          uint32_t *pairs, uint32_t *numbers, const uint32_t *last) {
    const uint8_t *stop = s + bytes;
    while (s < stop) {
        uint32_t kind = s[0], count = s[1];
        s += 2;
        if (confederations || kind <= SEQUENCE) {
            *pairs++ = kind;
            *pairs++ = count;
            if ((size_t)(end - s) >= AT_ONCE * width && last - numbers >= AT_ONCE && count <= AT_ONCE)
                fill_numbers(s, AT_ONCE, width, numbers);
            else
                fill_numbers(s, count, width, numbers);
            numbers += count;
        }
        s += width * count;
    }
}

uint64_t plain_merge_as_path(const uint8_t *as_path, size_t n, const uint8_t *as4_path, size_t m,
                             const uint8_t *aggregator, size_t aggregator_size, const uint8_t *as4_aggregator,
                             size_t as4_aggregator_size, uint32_t *pairs, size_t pair_places, uint32_t *numbers,
                             size_t number_places) {
    merged path = plan_merge(as_path, n, as4_path, m, aggregator, aggregator_size, as4_aggregator, as4_aggregator_size);
    uint64_t counted = path.counted;
    if (refusal_of(counted)) return counted;
    if (2 * (counted & 0xFFFF) > pair_places || counted >> 16 > number_places) return refused(NO_ROOM);
    const uint32_t *last = numbers + (counted >> 16);
    fill_segments(as_path, path.bytes, as_path + n, 2, true, pairs, numbers, last);
    if (!path.has_as4_path) return counted;
    pairs += 2 * (path.front & 0xFFFF);
    numbers += path.front >> 16 & 0xFFFF;
    if (path.split) {
        *pairs++ = SEQUENCE;
        *pairs++ = (uint32_t)path.split;
        fill_numbers(as_path + path.bytes + 2, path.split, 2, numbers);
        numbers += path.split;
    }
    fill_segments(as4_path, m, as4_path + m, 4, false, pairs, numbers, last);
    return counted;
}

// ---- Writers ----

INLINE uint64_t joined(const uint32_t *words) { return (uint64_t)words[0] << 32 | words[1]; }

// A writer computes what a reader has in the tables: the octets of a length, and the bytes of an item with `head` bytes before it.
INLINE uint32_t octets_of(uint32_t bits) { return (bits + 7) >> 3; }

INLINE uint32_t item_bytes(uint32_t bits, uint32_t head) { return (bits + 8 * head + 15) >> 3; }

// The bytes of checked rows, or the refusal.
INLINE uint64_t measure_rows(const uint32_t *rows, size_t places, bool ipv6, bool id) {
    if (places % ROW) return refused(NOT_WRITABLE);
    uint64_t bytes = 0;
    for (const uint32_t *row = rows, *end = rows + places; row < end; row += ROW) {
        uint32_t bits = row[0] - (id ? HAS_ID : 0);
        if (bits > most_bits(ipv6) || (!id && row[1])) return refused(NOT_WRITABLE);
        uint32_t octets = octets_of(bits);
        uint64_t past = ipv6 ? (joined(row + 2) & ~mask16(octets)) | (joined(row + 4) & ~rest16(octets))
                             : (row[2] & ~mask4(octets)) | row[3] | row[4] | row[5];
        if (past) return refused(NOT_WRITABLE);
        bytes += item_bytes(bits, head_of(id));
    }
    return bytes;
}

INLINE uint8_t *write_row(const uint32_t *row, bool ipv6, bool id, bool last, uint8_t *out) {
    if (id) {
        write4(out, row[1]);
        out += 4;
    }
    uint8_t bits = (uint8_t)row[0];
    uint32_t octets = octets_of(bits);
    *out++ = bits;
    if (last) {
        uint32_t i = 0;
        for (; i + 4 <= octets; i += 4) write4(out + i, row[2 + i / 4]);
        uint32_t w = row[2 + (i < 16 ? i / 4 : 0)];
        for (; i < octets; i++, w <<= 8) out[i] = (uint8_t)(w >> 24);
    } else if (ipv6) {
        write8(out, joined(row + 2));
        write8(out + 8, joined(row + 4));
    } else {
        write4(out, row[2]);
    }
    return out + octets;
}

// Writes checked rows, which are `bytes` long: a whole address where it does not reach past them.
INLINE void write_rows(const uint32_t *row, bool ipv6, bool id, uint8_t *out, size_t bytes) {
    uint8_t *end = out + bytes;
    for (; (size_t)(end - out) >= longest(ipv6, id); row += ROW) out = write_row(row, ipv6, id, false, out);
    for (; out < end; row += ROW) out = write_row(row, ipv6, id, true, out);
}

static uint64_t measure_in_form(const uint32_t *rows, size_t places, bool ipv6, bool id) {
    if (ipv6) return id ? measure_rows(rows, places, true, true) : measure_rows(rows, places, true, false);
    return id ? measure_rows(rows, places, false, true) : measure_rows(rows, places, false, false);
}

static void write_in_form(const uint32_t *rows, bool ipv6, bool id, uint8_t *out, size_t bytes) {
    if (!bytes) return;
    if (ipv6) return id ? write_rows(rows, true, true, out, bytes) : write_rows(rows, true, false, out, bytes);
    return id ? write_rows(rows, false, true, out, bytes) : write_rows(rows, false, false, out, bytes);
}

uint64_t plain_encode_nlri_prefixes(const uint32_t *rows, size_t places, uint8_t ipv6, uint8_t add_path, uint8_t *out,
                                    size_t room) {
    uint64_t bytes = measure_in_form(rows, places, ipv6, add_path);
    if (refusal_of(bytes)) return bytes;
    if (bytes > MOST_BYTES) return refused(OVER_LONG);
    if (bytes > room) return refused(NO_ROOM);
    write_in_form(rows, ipv6, add_path, out, bytes);
    return bytes;
}

// The bytes of a value whose rows come after `head` bytes, or the refusal. Its loops stand in the call itself, as those
// of reading.
INLINE uint64_t measure_value(size_t head, const uint32_t *rows, size_t places, bool id, size_t room) {
    uint64_t bytes = id ? measure_rows(rows, places, true, true) : measure_rows(rows, places, true, false);
    if (refusal_of(bytes)) return bytes;
    if (head + bytes > MOST_BYTES) return refused(OVER_LONG);
    return head + bytes > room ? refused(NO_ROOM) : head + bytes;
}

INLINE void write_value(const uint32_t *rows, bool id, uint8_t *out, size_t bytes) {
    return id ? write_rows(rows, true, true, out, bytes) : write_rows(rows, true, false, out, bytes);
}

uint64_t plain_encode_mp_reach_nlri(const uint8_t *next_hop, size_t hop, const uint32_t *rows, size_t places,
                                    uint8_t add_path, uint8_t *out, size_t room) {
    if (!is_next_hop(hop)) return refused(BAD_NEXT_HOP);
    size_t head = AROUND_HOP + hop;
    uint64_t bytes = measure_value(head, rows, places, add_path, room);
    if (refusal_of(bytes)) return bytes;
    write4(out, IPV6_UNICAST << 8 | (uint32_t)hop);
    memcpy(out + BEFORE_HOP, next_hop, 16);
    if (hop == 32) memcpy(out + BEFORE_HOP + 16, next_hop + 16, 16);
    out[head - 1] = 0;
    write_value(rows, add_path, out + head, bytes - head);
    return bytes;
}

uint64_t plain_encode_mp_unreach_nlri(const uint32_t *rows, size_t places, uint8_t add_path, uint8_t *out,
                                      size_t room) {
    uint64_t bytes = measure_value(PAIR, rows, places, add_path, room);
    if (refusal_of(bytes)) return bytes;
    write2(out, IPV6_UNICAST >> 8);
    out[2] = IPV6_UNICAST & 0xFF;
    write_value(rows, add_path, out + PAIR, bytes - PAIR);
    return bytes;
}

// The first refusal of a path to write that has one.
static uint64_t path_refusal(const uint32_t *pairs, size_t pair_places, const uint32_t *numbers, size_t width,
                             bool strict) {
    for (size_t i = 0; i < pair_places; i += 2) {
        if (pairs[i] < 1 || pairs[i] > 4) return refused(BAD_SEGMENT_TYPE);
        if (strict && pairs[i + 1] == 0) return refused(EMPTY_SEGMENT);
        if (pairs[i + 1] > 255) return refused(LONG_SEGMENT);
        for (uint32_t j = 0; j < pairs[i + 1]; j++)
            if (*numbers++ > 0xFFFF && width == 2) return refused(WIDE_NUMBER);
    }
    return 0;
}

// The bytes of a path to write, or the refusal. The order of refusals matters only where there is one.
INLINE uint64_t measure_path(const uint32_t *pairs, size_t pair_places, const uint32_t *numbers, size_t count,
                             size_t width, bool strict) {
    uint32_t least = strict ? 1 : 0;
    if (pair_places % 2) return refused(NOT_WRITABLE);
    uint64_t counted = 0;
    bool good = true;
    for (size_t i = 0; i < pair_places; i += 2) {
        counted += pairs[i + 1];
        good &= pairs[i] - 1 < 4 && pairs[i + 1] - least <= 255 - least;
    }
    if (counted != count) return refused(NOT_WRITABLE);
    uint32_t any = 0;
    for (size_t i = 0; width == 2 && i < count; i++) any |= numbers[i];
    if (!good || any > 0xFFFF) return path_refusal(pairs, pair_places, numbers, width, strict);
    return pair_places + width * count;
}

INLINE void write_path(const uint32_t *pairs, size_t pair_places, const uint32_t *numbers, size_t width,
                       uint8_t *restrict out) {
    for (size_t i = 0; i < pair_places; i += 2) {
        uint32_t count = pairs[i + 1];
        *out++ = (uint8_t)pairs[i];
        *out++ = (uint8_t)count;
        for (uint32_t j = 0; j < count; j++) {
            if (width == 4)
                write4(out + 4 * j, numbers[j]);
            else
                write2(out + 2 * j, numbers[j]);
        }
        out += width * count;
        numbers += count;
    }
}

INLINE uint64_t encode_as_path(const uint32_t *pairs, size_t pair_places, const uint32_t *numbers, size_t count,
                               uint8_t four_bytes, bool strict, uint8_t *out, size_t room) {
    uint64_t bytes = four_bytes ? measure_path(pairs, pair_places, numbers, count, 4, strict)
                                : measure_path(pairs, pair_places, numbers, count, 2, strict);
    if (refusal_of(bytes)) return bytes;
    if (bytes > MOST_BYTES) return refused(OVER_LONG);
    if (bytes > room) return refused(NO_ROOM);
    if (four_bytes)
        write_path(pairs, pair_places, numbers, 4, out);
    else
        write_path(pairs, pair_places, numbers, 2, out);
    return bytes;
}

uint64_t plain_encode_as_path(const uint32_t *pairs, size_t pair_places, const uint32_t *numbers, size_t count,
                              uint8_t four_bytes, uint8_t *out, size_t room) {
    return encode_as_path(pairs, pair_places, numbers, count, four_bytes, false, out, room);
}

uint64_t plain_encode_as_path_strict(const uint32_t *pairs, size_t pair_places, const uint32_t *numbers, size_t count,
                                     uint8_t four_bytes, uint8_t *out, size_t room) {
    return encode_as_path(pairs, pair_places, numbers, count, four_bytes, true, out, room);
}

uint64_t plain_encode_aggregator(uint32_t asn, uint32_t identifier, uint8_t four_bytes, uint8_t *out, size_t room) {
    if (!four_bytes && asn > 0xFFFF) return refused(WIDE_NUMBER);
    size_t bytes = four_bytes ? 8 : 6;
    if (bytes > room) return refused(NO_ROOM);
    if (four_bytes)
        write4(out, asn);
    else
        write2(out, asn);
    write4(out + bytes - 4, identifier);
    return bytes;
}

uint64_t plain_encode_bgp_message(uint8_t kind, const uint8_t *body, size_t n, uint8_t *out, size_t room) {
    if (kind < OPEN || kind > ROUTE_REFRESH) return refused(BAD_TYPE);
    if (n > MOST_BYTES - HEADER || HEADER + n < least_length[kind]) return refused(BAD_LENGTH);
    if ((kind == OPEN && n > MOST_PLAIN - HEADER) || (kind == KEEPALIVE && n)) return refused(BAD_LENGTH);
    if (HEADER + n > room) return refused(NO_ROOM);
    memset(out, 0xFF, 16);
    write2(out + 16, (uint32_t)(HEADER + n));
    out[18] = kind;
    memcpy(out + HEADER, body, n);
    return HEADER + n;
}

uint64_t plain_encode_bgp_update_message(const uint32_t *withdrawn, size_t withdrawn_places, const uint8_t *attributes,
                                         size_t attribute_length, const uint32_t *announced, size_t announced_places,
                                         uint8_t add_path, uint8_t *out, size_t room) {
    uint64_t first = measure_in_form(withdrawn, withdrawn_places, false, add_path);
    if (refusal_of(first)) return first;
    uint64_t second = measure_in_form(announced, announced_places, false, add_path);
    if (refusal_of(second)) return second;
    if (first > MOST_BODY || second > MOST_BODY || attribute_length > MOST_BODY) return refused(OVER_LONG);
    size_t bytes = 4 + first + attribute_length + second;
    if (bytes > MOST_BODY) return refused(OVER_LONG);
    if (bytes > room) return refused(NO_ROOM);
    write2(out, (uint32_t)first);
    write_in_form(withdrawn, false, add_path, out + 2, first);
    write2(out + 2 + first, (uint32_t)attribute_length);
    memcpy(out + 4 + first, attributes, attribute_length);
    write_in_form(announced, false, add_path, out + 4 + first + attribute_length, second);
    return bytes;
}
