/* Every call of the library on a small input that it takes and on ones that it refuses: the whole answer, what the stores and outputs have
 * afterwards, and that a refusal leaves them as they were. Prints what fails, and then how many checks there were; exit status 1 where one
 * fails. */
#include <stdio.h>
#include <string.h>

#include "doorbramble.h"

/* what a store or an output has before each call */
#define FILL_BYTE 0xA5
#define FILL_PLACE 0xA5A5u
#define FILL_WORD 0xA5A5A5A5u

enum { PLACES = 64 };

static uint8_t out[PLACES];
static uint32_t one[PLACES];
static uint32_t two[PLACES];
static uint16_t places[PLACES];
static unsigned checks;
static unsigned failures;

static void clear(void) {
    memset(out, FILL_BYTE, sizeof out);
    memset(one, FILL_BYTE, sizeof one);
    memset(two, FILL_BYTE, sizeof two);
    memset(places, FILL_BYTE, sizeof places);
}

static uint64_t accepted(uint64_t a, uint64_t b, uint64_t c) { return a | b << 16 | c << 32; }

static uint64_t refused(uint64_t number) { return number << 48; }

static void expect(const char *what, int holds) {
    checks++;
    if (!holds) {
        failures++;
        printf("fails: %s\n", what);
    }
}

/* `words` at the front of a store, and nothing else changed */
static int has_words(const uint32_t *store, const uint32_t *words, size_t count) {
    size_t i;
    for (i = 0; i < PLACES; i++)
        if (store[i] != (i < count ? words[i] : FILL_WORD))
            return 0;
    return 1;
}

static int has_bytes(const uint8_t *bytes, size_t count) {
    size_t i;
    for (i = 0; i < PLACES; i++)
        if (out[i] != (i < count ? bytes[i] : FILL_BYTE))
            return 0;
    return 1;
}

static int has_places(const uint16_t *wanted, size_t count) {
    size_t i;
    for (i = 0; i < PLACES; i++)
        if (places[i] != (i < count ? wanted[i] : FILL_PLACE))
            return 0;
    return 1;
}

/* an answer; the words that each store has, and the bytes that the output has */
static void check(const char *what, uint64_t answer, uint64_t wanted, const uint32_t *first, size_t first_count, const uint32_t *second,
                  size_t second_count, const uint8_t *bytes, size_t byte_count) {
    expect(what,
           answer == wanted && has_words(one, first, first_count) && has_words(two, second, second_count) && has_bytes(bytes, byte_count));
    clear();
}

static void check_answer(const char *what, uint64_t answer, uint64_t wanted) { check(what, answer, wanted, NULL, 0, NULL, 0, NULL, 0); }

static void check_store(const char *what, uint64_t answer, uint64_t wanted, const uint32_t *words, size_t count) {
    check(what, answer, wanted, words, count, NULL, 0, NULL, 0);
}

static void check_out(const char *what, uint64_t answer, uint64_t wanted, const uint8_t *bytes, size_t count) {
    check(what, answer, wanted, NULL, 0, NULL, 0, bytes, count);
}

static void check_places(const char *what, uint64_t answer, uint64_t wanted, const uint16_t *index, size_t count) {
    expect(what, answer == wanted && has_places(index, count));
    clear();
}

/* the first word of a row with an id, where the guess found it */
#define GUESSED(length) ((length) + DOORBRAMBLE_ROW_HAS_ID + DOORBRAMBLE_ROW_GUESSED)

#define MARKER 0xFF, 0xFF, 0xFF, 0xFF, 0xFF, 0xFF, 0xFF, 0xFF, 0xFF, 0xFF, 0xFF, 0xFF, 0xFF, 0xFF, 0xFF, 0xFF

static void messages(void) {
    static const uint8_t keepalive[] = {MARKER, 0, 19, 4};
    /* a marker that starts with 0, so that the length is FF 1B: 65,307 */
    static const uint8_t cut[] = {0, MARKER, 27, 2};
    static const uint8_t short_claim[] = {MARKER, 0, 18, 9};
    static const uint8_t two_of_them[] = {MARKER, 0, 19, 4, 0xFF};
    static const uint8_t body[] = {7};
    uint64_t answer;

    check_answer("parse_bgp_message: a KEEPALIVE", doorbramble_parse_bgp_message(keepalive, 19), accepted(19, 19, 4));
    check_answer("parse_bgp_message: bytes follow", doorbramble_parse_bgp_message(two_of_them, 20), accepted(19, 19, 4 + 1024));
    check_answer("parse_bgp_message: 2", doorbramble_parse_bgp_message(keepalive, 18), refused(DOORBRAMBLE_TRUNCATED));
    check_answer("parse_bgp_message: 2, of nothing", doorbramble_parse_bgp_message(NULL, 0), refused(DOORBRAMBLE_TRUNCATED));
    check_answer("parse_bgp_message: 3", doorbramble_parse_bgp_message(short_claim, 19), refused(DOORBRAMBLE_MESSAGE_LENGTH));
    answer = doorbramble_parse_bgp_message(cut, 19);
    check_answer("parse_bgp_message: cut, another marker", answer, accepted(65307, 19, 2 + 256 + 512));
    expect("the fields of a message", doorbramble_refusal(answer) == 0 && doorbramble_claimed(answer) == 65307 &&
                                          doorbramble_taken(answer) == 19 && doorbramble_kind(answer) == DOORBRAMBLE_UPDATE &&
                                          doorbramble_bad_marker(answer) && doorbramble_marker(answer) && doorbramble_cut(answer) &&
                                          !doorbramble_trailing(answer));

    check_answer("parse_bgp_message_strict: a KEEPALIVE", doorbramble_parse_bgp_message_strict(two_of_them, 20),
                 accepted(19, 19, 4 + 1024));
    check_answer("parse_bgp_message_strict: 6", doorbramble_parse_bgp_message_strict(cut, 19), refused(DOORBRAMBLE_BAD_MARKER));

    check_out("encode_bgp_message: a KEEPALIVE", doorbramble_encode_bgp_message(DOORBRAMBLE_KEEPALIVE, NULL, 0, out, PLACES),
              accepted(19, 0, 0), keepalive, 19);
    check_answer("encode_bgp_message: 4", doorbramble_encode_bgp_message(6, NULL, 0, out, PLACES), refused(DOORBRAMBLE_MESSAGE_TYPE));
    check_answer("encode_bgp_message: 3", doorbramble_encode_bgp_message(DOORBRAMBLE_KEEPALIVE, body, 1, out, PLACES),
                 refused(DOORBRAMBLE_MESSAGE_LENGTH));
    check_answer("encode_bgp_message: 11", doorbramble_encode_bgp_message(DOORBRAMBLE_KEEPALIVE, NULL, 0, out, 18),
                 refused(DOORBRAMBLE_NO_ROOM));
}

/* the first bytes of a message of zeros of this type, which claims so many */
static const uint8_t *claiming(size_t claimed, uint8_t kind) {
    static uint8_t message[65536] = {MARKER};
    message[16] = (uint8_t)(claimed >> 8);
    message[17] = (uint8_t)claimed;
    message[18] = kind;
    return message;
}

static void editions(void) {
    static const uint8_t marked[] = {0, MARKER, 27, 2};
    const uint8_t kind = DOORBRAMBLE_NOTIFICATION, old = DOORBRAMBLE_RFC_4271, new = DOORBRAMBLE_RFC_8654;
    const uint64_t truncated = refused(DOORBRAMBLE_TRUNCATED), length = refused(DOORBRAMBLE_MESSAGE_LENGTH);
    const uint64_t marker = refused(DOORBRAMBLE_BAD_MARKER), type = refused(DOORBRAMBLE_MESSAGE_TYPE);
    const uint8_t *message = claiming(4097, kind);

    check_answer("by_edition: a long message", doorbramble_parse_bgp_message_by_edition(message, 4097, new), accepted(4097, 4097, kind));
    check_answer("by_edition: bytes follow it", doorbramble_parse_bgp_message_by_edition(message, 65536, new),
                 accepted(4097, 4097, kind + 1024));
    check_answer("by_edition: 3 by RFC 4271", doorbramble_parse_bgp_message_by_edition(message, 4097, old), length);
    check_answer("by_edition: 2, a byte less", doorbramble_parse_bgp_message_by_edition(message, 4096, new), truncated);
    check_answer("by_edition: 3 by RFC 4271 before 2", doorbramble_parse_bgp_message_by_edition(message, 19, old), length);
    check_answer("by_edition: 2, under a header", doorbramble_parse_bgp_message_by_edition(message, 18, new), truncated);
    check_answer("by_edition: 2, of nothing", doorbramble_parse_bgp_message_by_edition(NULL, 0, new), truncated);
    check_answer("by_edition: 6", doorbramble_parse_bgp_message_by_edition(marked, 19, new), marker);
    check_answer("by_edition: 6 before 3", doorbramble_parse_bgp_message_by_edition(marked, 19, old), marker);
    check_answer("by_edition: 3 before 4", doorbramble_parse_bgp_message_by_edition(claiming(18, 9), 19, new), length);
    check_answer("by_edition: 4 before 2", doorbramble_parse_bgp_message_by_edition(claiming(65535, 9), 19, new), type);
    check_answer("by_edition: 3 by RFC 4271 before 4", doorbramble_parse_bgp_message_by_edition(claiming(4097, 9), 19, old), length);
    message = claiming(4097, DOORBRAMBLE_OPEN);
    check_answer("by_edition: 3, a long OPEN", doorbramble_parse_bgp_message_by_edition(message, 4097, new), length);
    check_answer("by_edition: 3, a long OPEN, before 2", doorbramble_parse_bgp_message_by_edition(message, 19, new), length);
    message = claiming(65535, DOORBRAMBLE_KEEPALIVE);
    check_answer("by_edition: 3, a long KEEPALIVE", doorbramble_parse_bgp_message_by_edition(message, 65535, new), length);
    check_answer("by_edition: 3, a long KEEPALIVE, before 2", doorbramble_parse_bgp_message_by_edition(message, 19, new), length);
}

/* each number as the edition, of which all but 0 are RFC 8654; and as a type, of which all but five are 4 */
static void edition_numbers(void) {
    const uint64_t length = refused(DOORBRAMBLE_MESSAGE_LENGTH), type = refused(DOORBRAMBLE_MESSAGE_TYPE);
    unsigned wrong = 0, wrong_types = 0, i;
    for (i = 0; i < 256; i++) {
        const uint64_t first = i ? accepted(4097, 4097, 2) : length, last = i ? accepted(65535, 65535, 5) : length;
        const uint8_t number = (uint8_t)i;
        wrong += doorbramble_parse_bgp_message_by_edition(claiming(19, 4), 19, number) != accepted(19, 19, 4);
        wrong += doorbramble_parse_bgp_message_by_edition(claiming(4096, 2), 4096, number) != accepted(4096, 4096, 2);
        wrong += doorbramble_parse_bgp_message_by_edition(claiming(4097, 2), 4097, number) != first;
        wrong += doorbramble_parse_bgp_message_by_edition(claiming(65535, 5), 65535, number) != last;
        wrong += doorbramble_parse_bgp_message_by_edition(claiming(4097, 1), 4097, number) != length;
        wrong += doorbramble_parse_bgp_message_by_edition(claiming(4097, 6), 4097, number) != (i ? type : length);
        if (1 <= i && i <= 5)
            continue;
        wrong_types += doorbramble_parse_bgp_message_by_edition(claiming(19, number), 19, DOORBRAMBLE_RFC_4271) != type;
        wrong_types += doorbramble_parse_bgp_message_by_edition(claiming(65535, number), 65535, DOORBRAMBLE_RFC_4271) != length;
        wrong_types += doorbramble_parse_bgp_message_by_edition(claiming(19, number), 19, DOORBRAMBLE_RFC_8654) != type;
        wrong_types += doorbramble_parse_bgp_message_by_edition(claiming(65535, number), 65535, DOORBRAMBLE_RFC_8654) != type;
    }
    expect("by_edition: editions of every number", wrong == 0);
    expect("by_edition: types of every number", wrong_types == 0);
}

/* the columns of the header's table of lengths */
enum { BY_CRATE, BY_RFC_4271, BY_RFC_8654, WRITTEN, WAYS };

/* what each way answers to a message of this type and length, and what it is to answer where it takes it */
static void try_length(uint8_t kind, size_t claimed, uint64_t found[WAYS], uint64_t good[WAYS]) {
    static uint8_t written[65536];
    const uint8_t *message = claiming(claimed, kind);
    found[BY_CRATE] = doorbramble_parse_bgp_message(message, 19);
    found[BY_RFC_4271] = doorbramble_parse_bgp_message_strict(message, 65535);
    found[BY_RFC_8654] = doorbramble_parse_bgp_message_by_edition(message, 65535, DOORBRAMBLE_RFC_8654);
    found[WRITTEN] = claimed < 19 ? refused(DOORBRAMBLE_MESSAGE_LENGTH)
                                  : doorbramble_encode_bgp_message(kind, message, claimed - 19, written, sizeof written);
    good[BY_CRATE] = accepted(claimed, 19, kind + (claimed > 19 ? 512 : 0));
    good[BY_RFC_4271] = good[BY_RFC_8654] = accepted(claimed, claimed, kind + (claimed < 65535 ? 1024 : 0));
    good[WRITTEN] = accepted(claimed, 0, 0);
}

/* The header's table of lengths: the least and the most that each reading and the writer take of each type. */
static void lengths(void) {
    static const struct {
        uint8_t kind;
        unsigned least[WAYS], most[WAYS];
    } types[] = {{DOORBRAMBLE_OPEN, {19, 29, 29, 29}, {4096, 4096, 4096, 4096}},
                 {DOORBRAMBLE_UPDATE, {19, 23, 23, 23}, {65535, 4096, 65535, 65535}},
                 {DOORBRAMBLE_NOTIFICATION, {19, 21, 21, 21}, {65535, 4096, 65535, 65535}},
                 {DOORBRAMBLE_KEEPALIVE, {19, 19, 19, 19}, {4096, 19, 19, 19}},
                 {DOORBRAMBLE_ROUTE_REFRESH, {19, 23, 23, 23}, {65535, 4096, 65535, 65535}}};
    static const char *const whats[WAYS] = {"the lengths of a type: parse_bgp_message", "the lengths of a type: parse_bgp_message_strict",
                                            "the lengths of a type: by_edition, RFC 8654", "the lengths of a type: encode_bgp_message"};
    size_t i, n, way;
    for (i = 0; i < sizeof types / sizeof types[0]; i++) {
        const uint8_t kind = types[i].kind;
        unsigned wrong[WAYS] = {0}, apart = 0;
        for (n = 0; n <= 65536; n++) {
            uint64_t found[WAYS], good[WAYS];
            try_length(kind, n, found, good);
            apart += doorbramble_parse_bgp_message_by_edition(claiming(n, kind), 65535, DOORBRAMBLE_RFC_4271) != found[BY_RFC_4271];
            /* two bytes claim 65,535 at most */
            for (way = n < 65536 ? 0 : WRITTEN; way < WAYS; way++) {
                const int taken = types[i].least[way] <= n && n <= types[i].most[way];
                wrong[way] += found[way] != (taken ? good[way] : refused(DOORBRAMBLE_MESSAGE_LENGTH));
            }
        }
        for (way = 0; way < WAYS; way++)
            expect(whats[way], wrong[way] == 0);
        expect("the lengths of a type: by_edition, RFC 4271", apart == 0);
    }
}

static void updates(void) {
    /* withdraws 10.0.0.0/8, has two bytes of attributes, announces 10.1.8.0/24 */
    static const uint8_t body[] = {0, 2, 8, 10, 0, 2, 0xAA, 0xBB, 24, 10, 1, 8};
    static const uint8_t malformed[] = {0, 1, 8, 0, 0, 33};
    static const uint8_t attributes[] = {0xAA, 0xBB};
    static const uint32_t ten[] = {8, 0, 0x0A000000, 0, 0, 0};
    static const uint32_t ten_one[] = {24, 0, 0x0A010800, 0, 0, 0};
    uint64_t answer;

    check_answer("withdrawn_part", doorbramble_withdrawn_part(body, 12), accepted(2, 2, 0));
    check_answer("withdrawn_part: 2", doorbramble_withdrawn_part(body, 3), refused(DOORBRAMBLE_TRUNCATED));
    check_answer("attribute_part", doorbramble_attribute_part(body, 12), accepted(6, 2, 0));
    check_answer("attribute_part: 2", doorbramble_attribute_part(body, 7), refused(DOORBRAMBLE_TRUNCATED));
    answer = doorbramble_announced_part(body, 12);
    check_answer("announced_part", answer, accepted(8, 4, 0));
    expect("the fields of a part", doorbramble_offset(answer) == 8 && doorbramble_length(answer) == 4);
    check_answer("announced_part: 2", doorbramble_announced_part(NULL, 0), refused(DOORBRAMBLE_TRUNCATED));

    check_answer("count_bgp_update_message", doorbramble_count_bgp_update_message(body, 12, 0), accepted(1, 1, 0));
    check_answer("count_bgp_update_message: 2", doorbramble_count_bgp_update_message(body, 1, 0), refused(DOORBRAMBLE_TRUNCATED));
    answer = doorbramble_count_bgp_update_message(malformed, 6, 0);
    check_answer("count_bgp_update_message: verdicts 8 and 8", answer, accepted(0, 0, 8 + 8 * 256));
    answer = doorbramble_count_bgp_update_message(body, 9, 0);
    check_answer("count_bgp_update_message: an announced section cut to a byte", answer, accepted(1, 0, 8 * 256));
    expect("the fields of an UPDATE", doorbramble_withdrawn_rows(answer) == 1 && doorbramble_announced_rows(answer) == 0 &&
                                          doorbramble_withdrawn_verdict(answer) == 0 &&
                                          doorbramble_announced_verdict(answer) == DOORBRAMBLE_ONE_BYTE_SECTION);
    check_answer("count_bgp_update_message: Add-Path", doorbramble_count_bgp_update_message(body, 12, DOORBRAMBLE_ADD_PATH),
                 accepted(0, 0, 2 + 2 * 256));

    check("parse_bgp_update_message", doorbramble_parse_bgp_update_message(body, 12, 0, one, PLACES, two, PLACES), accepted(1, 1, 0), ten,
          6, ten_one, 6, NULL, 0);
    check_answer("parse_bgp_update_message: 11", doorbramble_parse_bgp_update_message(body, 12, 0, one, 6, two, 5),
                 refused(DOORBRAMBLE_NO_ROOM));
    check_answer("parse_bgp_update_message: 2", doorbramble_parse_bgp_update_message(body, 7, 0, one, PLACES, two, PLACES),
                 refused(DOORBRAMBLE_TRUNCATED));

    check_out("encode_bgp_update_message", doorbramble_encode_bgp_update_message(ten, 6, attributes, 2, ten_one, 6, 0, out, PLACES),
              accepted(12, 0, 0), body, 12);
    check_answer("encode_bgp_update_message: 14", doorbramble_encode_bgp_update_message(ten, 6, attributes, 2, ten_one, 6, 1, out, PLACES),
                 refused(DOORBRAMBLE_NOT_WRITABLE));
    check_answer("encode_bgp_update_message: 11", doorbramble_encode_bgp_update_message(ten, 6, attributes, 2, ten_one, 6, 0, out, 11),
                 refused(DOORBRAMBLE_NO_ROOM));
    check_out("encode_bgp_update_message: of nothing", doorbramble_encode_bgp_update_message(NULL, 0, NULL, 0, NULL, 0, 0, out, PLACES),
              accepted(4, 0, 0), (const uint8_t *)"\0\0\0", 4);
}

/* the type and the flags of an attribute, as a field */
static uint64_t type_of(uint64_t kind, uint64_t flags) { return kind | flags << 8; }

/* ORIGIN; AS_PATH, its length in two bytes; MP_REACH_NLRI; ORIGIN again; MP_UNREACH_NLRI */
static const uint8_t section[] = {0x40, 1, 1, 0, 0x50, 2, 0, 4, 2, 1, 0xFD, 0xE9, 0x80, 14, 0, 0x40, 1, 1, 2, 0x80, 15, 0};

static void attributes(void) {
    static const uint8_t kinds[] = {1, 2, 14, 1, 15};
    const uint64_t origin = type_of(1, 0x40), path = type_of(DOORBRAMBLE_AS_PATH, 0x50), reach = type_of(DOORBRAMBLE_MP_REACH_NLRI, 0x80);
    uint64_t answer = doorbramble_attribute_at(section, 22, 4);
    unsigned wrong = 0, i;

    check_answer("attribute_at: two bytes of length", answer, accepted(8, 4, path));
    expect("the fields of an attribute", doorbramble_attribute_found(answer) == 1 && doorbramble_offset(answer) == 8 &&
                                             doorbramble_length(answer) == 4 && doorbramble_attribute_kind(answer) == 2 &&
                                             doorbramble_attribute_flags(answer) == 0x50 && doorbramble_attribute_next(answer) == 12);
    check_answer("attribute_at: the first", doorbramble_attribute_at(section, 22, 0), accepted(3, 1, origin));
    check_answer("attribute_at: no value", doorbramble_attribute_at(section, 22, 12), accepted(15, 0, reach));
    check_answer("attribute_at: a repeat", doorbramble_attribute_at(section, 22, 15), accepted(18, 1, origin));
    check_answer("attribute_at: within another", doorbramble_attribute_at(section, 22, 1), accepted(4, 0, type_of(1, 1)));
    answer = doorbramble_attribute_at(section, 22, 0);
    for (i = 0; doorbramble_attribute_found(answer) && i < sizeof kinds; i++) {
        wrong += doorbramble_attribute_kind(answer) != kinds[i];
        answer = doorbramble_attribute_at(section, 22, doorbramble_attribute_next(answer));
    }
    expect("attribute_at: each of a section, and none is left", wrong == 0 && i == sizeof kinds && answer == 0);
    check_answer("attribute_at: at the end", doorbramble_attribute_at(section, 22, 22), accepted(0, 0, 0));
    check_answer("attribute_at: past the end", doorbramble_attribute_at(section, 22, 23), accepted(0, 0, 0));
    check_answer("attribute_at: far past the end", doorbramble_attribute_at(section, 22, SIZE_MAX), accepted(0, 0, 0));
    check_answer("attribute_at: of nothing", doorbramble_attribute_at(NULL, 0, 0), accepted(0, 0, 0));
    check_answer("attribute_at: of nothing, past it", doorbramble_attribute_at(NULL, 0, SIZE_MAX), accepted(0, 0, 0));
    for (i = 1; i < 4; i++)
        check_answer("attribute_at: 2", doorbramble_attribute_at(section, i, 0), refused(DOORBRAMBLE_TRUNCATED));
    for (i = 5; i < 12; i++)
        check_answer("attribute_at: 2, two bytes of length", doorbramble_attribute_at(section, i, 4), refused(DOORBRAMBLE_TRUNCATED));
    check_answer("attribute_at: one before a cut one", doorbramble_attribute_at(section, 11, 0), accepted(3, 1, origin));
}

/* each number of flags: the length has two bytes exactly where 0x10 is set; and each type, which a search finds where it stands */
static void flags_and_types(void) {
    unsigned wrong_flags = 0, wrong_types = 0, i, k;
    for (i = 0; i < 256; i++) {
        const uint8_t one_attribute[] = {(uint8_t)i, 9, 0, 1, 7}, other[] = {0, (uint8_t)i, 0};
        wrong_flags +=
            doorbramble_attribute_at(one_attribute, 5, 0) != (i & 0x10 ? accepted(4, 1, type_of(9, i)) : accepted(3, 0, type_of(9, i)));
        for (k = 0; k < 256; k++)
            wrong_types += doorbramble_find_attribute(other, 3, (uint8_t)k) != (k == i ? accepted(3, 0, type_of(k, 0)) : 0);
    }
    expect("attribute_at: flags of every number", wrong_flags == 0);
    expect("find_attribute: types of every number", wrong_types == 0);
}

static void searches(void) {
    /* MP_REACH_NLRI twice, and a byte; MP_UNREACH_NLRI twice, and a byte; MP_REACH_NLRI twice, the second cut */
    static const uint8_t reach[] = {0x80, 14, 0, 0x90, 14, 0, 0, 0x40}, unreach[] = {0x80, 15, 0, 0x90, 15, 0, 0, 0x40};
    static const uint8_t cut[] = {0x80, 14, 0, 0x80, 14, 1};
    static const uint8_t wanted[] = {1, 7, DOORBRAMBLE_MP_REACH_NLRI, DOORBRAMBLE_MP_UNREACH_NLRI};
    const uint64_t none = accepted(0, 0, 0), repeated = refused(DOORBRAMBLE_REPEATED_MP_NLRI), truncated = refused(DOORBRAMBLE_TRUNCATED);
    unsigned i;

    check_answer("find_attribute: the first of two", doorbramble_find_attribute(section, 22, 1), accepted(3, 1, type_of(1, 0x40)));
    check_answer("find_attribute: AS_PATH", doorbramble_find_attribute(section, 22, DOORBRAMBLE_AS_PATH), accepted(8, 4, type_of(2, 0x50)));
    check_answer("find_attribute: one MP_REACH_NLRI", doorbramble_find_attribute(section, 22, 14), accepted(15, 0, type_of(14, 0x80)));
    check_answer("find_attribute: one MP_UNREACH_NLRI", doorbramble_find_attribute(section, 22, 15), accepted(22, 0, type_of(15, 0x80)));
    check_answer("find_attribute: absent", doorbramble_find_attribute(section, 22, DOORBRAMBLE_AGGREGATOR), none);
    check_answer("find_attribute: of nothing", doorbramble_find_attribute(NULL, 0, 1), none);
    for (i = 0; i < sizeof wanted; i++) {
        check_answer("find_attribute: 2 at the end", doorbramble_find_attribute(section, 21, wanted[i]), truncated);
        check_answer("find_attribute: 2, a byte", doorbramble_find_attribute(section, 1, wanted[i]), truncated);
        check_answer("find_attribute: 15, MP_REACH_NLRI", doorbramble_find_attribute(reach, 7, wanted[i]), repeated);
        check_answer("find_attribute: 15, MP_UNREACH_NLRI", doorbramble_find_attribute(unreach, 7, wanted[i]), repeated);
        check_answer("find_attribute: 15 before a later 2", doorbramble_find_attribute(reach, 8, wanted[i]), repeated);
        check_answer("find_attribute: 2, the second is cut", doorbramble_find_attribute(cut, 6, wanted[i]), truncated);
    }
    expect("the fields of a refused attribute", !doorbramble_attribute_found(repeated) && doorbramble_attribute_kind(repeated) == 0 &&
                                                    doorbramble_attribute_flags(repeated) == 0 &&
                                                    doorbramble_attribute_next(repeated) == 0);
    check_answer("attribute_at: a second MP_REACH_NLRI", doorbramble_attribute_at(reach, 7, 3), accepted(7, 0, type_of(14, 0x90)));
    check_answer("attribute_at: a second MP_UNREACH_NLRI", doorbramble_attribute_at(unreach, 7, 3), accepted(7, 0, type_of(15, 0x90)));
}

static void lists(void) {
    static const uint8_t tagged[] = {0, 0, 0, 7, 8, 10};
    static const uint8_t wide[] = {0x40, 0x20, 0x01, 0x0D, 0xB8, 0, 0, 0, 1};
    static const uint8_t guess[] = {0, 0, 0, 0, 8, 10, 8, 11};
    static const uint32_t seven[] = {8 + DOORBRAMBLE_ROW_HAS_ID, 7, 0x0A000000, 0, 0, 0};
    static const uint32_t six[] = {64, 0, 0x20010DB8, 1, 0, 0};
    static const uint32_t guessed[] = {GUESSED(8), 0, 0x0A000000, 0, 0, 0, 8, 0, 0x0B000000, 0, 0, 0};
    uint64_t answer;

    answer = doorbramble_count_nlri_list(tagged, 6, 0, DOORBRAMBLE_ADD_PATH);
    check_answer("count_nlri_list: Add-Path", answer, accepted(1, 0, 0));
    expect("the fields of a list", doorbramble_rows(answer) == 1 && doorbramble_hosts(answer) == 0);
    check_answer("count_nlri_list: both settings are Add-Path", doorbramble_count_nlri_list(tagged, 6, 0, 3), accepted(1, 0, 0));
    check_answer("count_nlri_list: 2 without Add-Path", doorbramble_count_nlri_list(tagged, 6, 0, 0), refused(DOORBRAMBLE_TRUNCATED));
    check_answer("count_nlri_list: no other bit is read", doorbramble_count_nlri_list(tagged, 6, 0, 0xFC), refused(DOORBRAMBLE_TRUNCATED));
    check_answer("count_nlri_list: 7 for IPv4", doorbramble_count_nlri_list(wide, 9, 0, 0), refused(DOORBRAMBLE_PREFIX_LENGTH));
    check_answer("count_nlri_list: an empty list", doorbramble_count_nlri_list(NULL, 0, 0, 0), accepted(0, 0, 0));

    check_store("parse_nlri_list: Add-Path", doorbramble_parse_nlri_list(tagged, 6, 0, DOORBRAMBLE_ADD_PATH, one, PLACES),
                accepted(1, 0, 0), seven, 6);
    check_store("parse_nlri_list: IPv6, by any flag", doorbramble_parse_nlri_list(wide, 9, 200, 0, one, 6), accepted(1, 0, 0), six, 6);
    check_store("parse_nlri_list: the guess", doorbramble_parse_nlri_list(guess, 8, 0, DOORBRAMBLE_GUESS, one, PLACES), accepted(2, 0, 0),
                guessed, 12);
    check_answer("parse_nlri_list: 11", doorbramble_parse_nlri_list(guess, 8, 0, DOORBRAMBLE_GUESS, one, 11), refused(DOORBRAMBLE_NO_ROOM));
    check_answer("parse_nlri_list: 11, no store", doorbramble_parse_nlri_list(wide, 9, 1, 0, NULL, 0), refused(DOORBRAMBLE_NO_ROOM));
    check_answer("parse_nlri_list: 2 before 11", doorbramble_parse_nlri_list(wide, 8, 1, 0, NULL, 0), refused(DOORBRAMBLE_TRUNCATED));

    answer = doorbramble_encode_nlri_prefixes(seven, 6, 0, 1, out, PLACES);
    expect("the field of a writer", doorbramble_bytes(answer) == 6);
    check_out("encode_nlri_prefixes", answer, accepted(6, 0, 0), tagged, 6);
    check_out("encode_nlri_prefixes: IPv6", doorbramble_encode_nlri_prefixes(six, 6, 1, 0, out, 9), accepted(9, 0, 0), wide, 9);
    check_answer("encode_nlri_prefixes: 14", doorbramble_encode_nlri_prefixes(seven, 6, 0, 0, out, PLACES),
                 refused(DOORBRAMBLE_NOT_WRITABLE));
    check_answer("encode_nlri_prefixes: 11", doorbramble_encode_nlri_prefixes(six, 6, 1, 0, out, 8), refused(DOORBRAMBLE_NO_ROOM));
}

/* lists with host bits and without: the rows, and how many have them; 0 with every refusal */
static void list_hosts(void) {
    static const uint8_t nine[] = {9, 10, 0xFF}, meant[] = {9, 10, 0x80};
    /* 10.255.0.0/9, 255.0.0.0/8, 0.0.0.0/0, 10.0.0.129/25, 255.255.255.255/32, and then a length of 33 */
    static const uint8_t several[] = {9, 10, 0xFF, 8, 0xFF, 0, 25, 10, 0, 0, 0x81, 32, 0xFF, 0xFF, 0xFF, 0xFF, 33};
    static const uint8_t wide[] = {65, 0x20, 0x01, 0x0D, 0xB8, 0, 0, 0, 1, 0x40, 64, 0x20, 0x01, 0x0D, 0xB8, 0, 0, 0, 0xFF};
    static const uint8_t tagged[] = {0, 0, 0, 7, 9, 10, 0xFF, 0xFF, 0xFF, 0xFF, 0xFF, 8, 0xFF};
    static const uint8_t guess[] = {0, 0, 0, 7, 9, 10, 0xFF, 9, 10, 0xFF};
    static const uint32_t row[] = {9, 0, 0x0AFF0000, 0, 0, 0};
    uint64_t answer = doorbramble_count_nlri_list(nine, 3, 0, 0);

    check_answer("count_nlri_list: host bits", answer, accepted(1, 1, 0));
    expect("the fields of a list with host bits", doorbramble_rows(answer) == 1 && doorbramble_hosts(answer) == 1);
    check_answer("count_nlri_list: no host bits", doorbramble_count_nlri_list(meant, 3, 0, 0), accepted(1, 0, 0));
    check_answer("count_nlri_list: host bits of some", doorbramble_count_nlri_list(several, 16, 0, 0), accepted(5, 2, 0));
    check_answer("count_nlri_list: host bits, IPv6", doorbramble_count_nlri_list(wide, 19, 1, 0), accepted(2, 1, 0));
    check_answer("count_nlri_list: host bits, Add-Path", doorbramble_count_nlri_list(tagged, 13, 0, DOORBRAMBLE_ADD_PATH),
                 accepted(2, 1, 0));
    check_answer("count_nlri_list: host bits, the guess", doorbramble_count_nlri_list(guess, 10, 0, DOORBRAMBLE_GUESS), accepted(2, 2, 0));
    check_store("parse_nlri_list: host bits", doorbramble_parse_nlri_list(nine, 3, 0, 0, one, PLACES), accepted(1, 1, 0), row, 6);

    answer = doorbramble_count_nlri_list(several, 17, 0, 0);
    check_answer("count_nlri_list: 7 after host bits", answer, refused(DOORBRAMBLE_PREFIX_LENGTH));
    expect("the fields of a refused list", doorbramble_rows(answer) == 0 && doorbramble_hosts(answer) == 0);
    check_answer("count_nlri_list: 2 after host bits", doorbramble_count_nlri_list(several, 15, 0, 0), refused(DOORBRAMBLE_TRUNCATED));
    check_answer("parse_nlri_list: 7 after host bits", doorbramble_parse_nlri_list(several, 17, 0, 0, one, PLACES),
                 refused(DOORBRAMBLE_PREFIX_LENGTH));
    check_answer("parse_nlri_list: 2 after host bits", doorbramble_parse_nlri_list(several, 15, 0, 0, one, PLACES),
                 refused(DOORBRAMBLE_TRUNCATED));
    check_answer("parse_nlri_list: 11 with host bits", doorbramble_parse_nlri_list(nine, 3, 0, 0, one, 5), refused(DOORBRAMBLE_NO_ROOM));
}

/* an item of this length, whose last octet is given and whose other octets and id, if it has one, are all FF; answers its size */
static size_t item_of(unsigned length, uint8_t last, size_t id_size, uint8_t *item) {
    const size_t octets = (length + 7) / 8;
    memset(item, 0xFF, id_size + octets);
    item[id_size + octets] = last;
    item[id_size] = (uint8_t)length;
    return id_size + 1 + octets;
}

/* how many of the lengths up to the most, each with every last octet, are not answered as one row that has host bits exactly where a bit
 * past the length is set */
static unsigned wrong_hosts(unsigned most, uint8_t ipv6, uint8_t settings) {
    uint8_t item[PLACES];
    unsigned wrong = 0, length, last;
    for (length = 0; length <= most; length++)
        for (last = 0; last < 256; last++) {
            const size_t size = item_of(length, (uint8_t)last, settings == DOORBRAMBLE_ADD_PATH ? 4 : 0, item);
            const unsigned past_length = length % 8 == 0 ? 0 : last & 0xFFu >> length % 8;
            const uint64_t wanted = accepted(1, past_length != 0, 0);
            wrong += doorbramble_count_nlri_list(item, size, ipv6, settings) != wanted;
            wrong += doorbramble_parse_nlri_list(item, size, ipv6, settings, one, PLACES) != wanted;
        }
    clear();
    return wrong;
}

static void host_lengths(void) {
    expect("host bits: every length of IPv4", wrong_hosts(32, 0, 0) == 0);
    expect("host bits: every length of IPv4, Add-Path", wrong_hosts(32, 0, DOORBRAMBLE_ADD_PATH) == 0);
    expect("host bits: every length of IPv4, the guess", wrong_hosts(32, 0, DOORBRAMBLE_GUESS) == 0);
    expect("host bits: every length of IPv6", wrong_hosts(128, 1, 0) == 0);
    expect("host bits: every length of IPv6, Add-Path", wrong_hosts(128, 1, DOORBRAMBLE_ADD_PATH) == 0);
    expect("host bits: every length of IPv6, the guess", wrong_hosts(128, 1, DOORBRAMBLE_GUESS) == 0);
}

/* withdraws 10.255.0.0/9 and 10.0.0.0/8; announces 10.255.0.0/9, 10.1.8.0/24 and 172.31.255.0/20 */
static const uint8_t host_body[] = {0, 5, 9, 10, 0xFF, 8, 10, 0, 2, 0xAA, 0xBB, 9, 10, 0xFF, 24, 10, 1, 8, 20, 172, 31, 0xFF};

static void update_hosts(void) {
    static const uint8_t good[] = {0, 2, 8, 10, 0, 2, 0xAA, 0xBB, 24, 10, 1, 8};
    static const uint8_t tagged[] = {0, 7, 0, 0, 0, 7, 9, 10, 0xFF, 0, 0, 0, 0, 0, 8, 8, 10, 0, 0, 0, 9, 9, 10, 0xFF};
    static const uint32_t withdrawn[] = {9, 0, 0x0AFF0000, 0, 0, 0, 8, 0, 0x0A000000, 0, 0, 0};
    static const uint32_t announced[] = {9, 0, 0x0AFF0000, 0, 0, 0, 24, 0, 0x0A010800, 0, 0, 0, 20, 0, 0xAC1FFF00, 0, 0, 0};
    uint64_t answer = doorbramble_count_update_hosts(host_body, 22, 0);

    check_answer("count_update_hosts", answer, accepted(1, 2, 0));
    expect("the fields of an UPDATE's host bits", doorbramble_withdrawn_hosts(answer) == 1 && doorbramble_announced_hosts(answer) == 2);
    check_answer("count_bgp_update_message: host bits", doorbramble_count_bgp_update_message(host_body, 22, 0), accepted(2, 3, 0));
    check("parse_bgp_update_message: host bits", doorbramble_parse_bgp_update_message(host_body, 22, 0, one, PLACES, two, PLACES),
          accepted(2, 3, 0), withdrawn, 12, announced, 18, NULL, 0);
    check_answer("parse_bgp_update_message: 11 with host bits",
                 doorbramble_parse_bgp_update_message(host_body, 22, 0, one, PLACES, two, 17), refused(DOORBRAMBLE_NO_ROOM));
    check_answer("count_update_hosts: none", doorbramble_count_update_hosts(good, 12, 0), accepted(0, 0, 0));
    check_answer("count_update_hosts: withdrawn alone", doorbramble_count_update_hosts(host_body, 11, 0), accepted(1, 0, 0));
    check_answer("count_update_hosts: Add-Path", doorbramble_count_update_hosts(tagged, 24, DOORBRAMBLE_ADD_PATH), accepted(1, 1, 0));
    check_answer("count_update_hosts: both settings are Add-Path", doorbramble_count_update_hosts(tagged, 24, 3), accepted(1, 1, 0));
    check_answer("count_update_hosts: the guess", doorbramble_count_update_hosts(tagged, 24, DOORBRAMBLE_GUESS), accepted(1, 1, 0));
    check_answer("count_update_hosts: ids without Add-Path", doorbramble_count_update_hosts(tagged, 24, 0), accepted(0, 0, 0));
    check_answer("count_update_hosts: no other bit is read", doorbramble_count_update_hosts(tagged, 24, 0xFC), accepted(0, 0, 0));
}

/* a malformed section counts 0, and the other as it would; a body that is refused has 0 in both */
static void malformed_hosts(void) {
    static const uint8_t first_bad[] = {0, 4, 9, 10, 0xFF, 33, 0, 0, 9, 10, 0xFF};
    static const uint8_t second_bad[] = {0, 3, 9, 10, 0xFF, 0, 0, 9, 10, 0xFF, 33};
    static const uint8_t bytes[] = {0, 1, 7, 0, 0, 7};
    unsigned apart = 0;
    size_t size;

    check_answer("count_update_hosts: 7 withdrawn", doorbramble_count_update_hosts(first_bad, 11, 0), accepted(0, 1, 0));
    check_answer("count_update_hosts: 7 announced", doorbramble_count_update_hosts(second_bad, 11, 0), accepted(1, 0, 0));
    check_answer("count_update_hosts: 2 announced", doorbramble_count_update_hosts(host_body, 21, 0), accepted(1, 0, 0));
    check_answer("count_update_hosts: 8 and 8", doorbramble_count_update_hosts(bytes, 6, 0), accepted(0, 0, 0));
    check_answer("count_update_hosts: 2", doorbramble_count_update_hosts(host_body, 6, 0), refused(DOORBRAMBLE_TRUNCATED));
    check_answer("count_update_hosts: 2, attributes", doorbramble_count_update_hosts(host_body, 10, 0), refused(DOORBRAMBLE_TRUNCATED));
    check_answer("count_update_hosts: 2, of nothing", doorbramble_count_update_hosts(NULL, 0, 0), refused(DOORBRAMBLE_TRUNCATED));
    for (size = 0; size <= sizeof host_body; size++)
        apart += doorbramble_refusal(doorbramble_count_update_hosts(host_body, size, 0)) !=
                 doorbramble_refusal(doorbramble_count_bgp_update_message(host_body, size, 0));
    expect("count_update_hosts: refuses what count_bgp_update_message does", apart == 0);
}

/* the most rows with host bits, each of two bytes, of a list and of either section; and one byte more */
static void host_limits(void) {
    static uint8_t list[65536], body[65517] = {DOORBRAMBLE_BODY_ROWS >> 8, DOORBRAMBLE_BODY_ROWS & 0xFF};
    size_t i;
    for (i = 0; i < sizeof list; i++)
        list[i] = i % 2 == 0 ? 7 : 0xFF;
    list[65534] = 0;
    memcpy(body + 2, list, DOORBRAMBLE_BODY_ROWS);
    check_answer("count_nlri_list: 32,767 rows with host bits", doorbramble_count_nlri_list(list, 65535, 0, 0), accepted(32768, 32767, 0));
    check_answer("count_nlri_list: 1 with host bits", doorbramble_count_nlri_list(list, 65536, 0, 0), refused(DOORBRAMBLE_TOO_LONG));
    check_answer("count_update_hosts: the most withdrawn", doorbramble_count_update_hosts(body, 65516, 0), accepted(32756, 0, 0));
    check_answer("count_update_hosts: 1", doorbramble_count_update_hosts(body, 65517, 0), refused(DOORBRAMBLE_TOO_LONG));
    memset(body, 0, 4);
    memcpy(body + 4, list, DOORBRAMBLE_BODY_ROWS);
    check_answer("count_update_hosts: the most announced", doorbramble_count_update_hosts(body, 65516, 0), accepted(0, 32756, 0));
    check_answer("count_update_hosts: 1 announced", doorbramble_count_update_hosts(body, 65517, 0), refused(DOORBRAMBLE_TOO_LONG));
}

/* a sequence of two numbers of four bytes, and what it is read to */
static const uint8_t path[] = {2, 2, 0, 0, 0xFD, 0xE9, 0, 0, 0xFD, 0xEA};
static const uint32_t path_pairs[] = {2, 2}, path_numbers[] = {65001, 65002};

static void paths(void) {
    static const uint8_t type_five[] = {5, 0};
    static const uint32_t wide[] = {65001, 65536};
    static const uint32_t bad_type[] = {5, 2};
    uint64_t answer;

    answer = doorbramble_count_as_path(path, 10, 1);
    check_answer("count_as_path", answer, accepted(1, 2, 0));
    expect("the fields of a path", doorbramble_segments(answer) == 1 && doorbramble_numbers(answer) == 2);
    check_answer("count_as_path: 9 at width 2", doorbramble_count_as_path(path, 10, 0), refused(DOORBRAMBLE_SEGMENT_TYPE));
    check_answer("count_as_path: 2", doorbramble_count_as_path(path, 9, 1), refused(DOORBRAMBLE_TRUNCATED));

    check("parse_as_path", doorbramble_parse_as_path(path, 10, 1, one, PLACES, two, PLACES), accepted(1, 2, 0), path_pairs, 2, path_numbers,
          2, NULL, 0);
    check_answer("parse_as_path: 11 for a pair", doorbramble_parse_as_path(path, 10, 1, one, 1, two, PLACES), refused(DOORBRAMBLE_NO_ROOM));
    check_answer("parse_as_path: 11 for a number", doorbramble_parse_as_path(path, 10, 1, one, PLACES, two, 1),
                 refused(DOORBRAMBLE_NO_ROOM));
    check_answer("parse_as_path: 9", doorbramble_parse_as_path(type_five, 2, 1, one, PLACES, two, PLACES),
                 refused(DOORBRAMBLE_SEGMENT_TYPE));

    check_out("encode_as_path", doorbramble_encode_as_path(path_pairs, 2, path_numbers, 2, 1, out, PLACES), accepted(10, 0, 0), path, 10);
    check_answer("encode_as_path: 14", doorbramble_encode_as_path(path_pairs, 2, path_numbers, 1, 1, out, PLACES),
                 refused(DOORBRAMBLE_NOT_WRITABLE));
    check_answer("encode_as_path: 9", doorbramble_encode_as_path(bad_type, 2, path_numbers, 2, 1, out, PLACES),
                 refused(DOORBRAMBLE_SEGMENT_TYPE));
    check_answer("encode_as_path: 13", doorbramble_encode_as_path(path_pairs, 2, wide, 2, 0, out, PLACES),
                 refused(DOORBRAMBLE_WIDE_NUMBER));
    check_answer("encode_as_path: 11", doorbramble_encode_as_path(path_pairs, 2, path_numbers, 2, 1, out, 9), refused(DOORBRAMBLE_NO_ROOM));
}

/* the same path by the strict calls, which answer as the others do where no segment is empty */
static void strict_paths(void) {
    static const uint32_t wide[] = {65001, 65536};

    check_answer("count_as_path_strict", doorbramble_count_as_path_strict(path, 10, 1), accepted(1, 2, 0));
    check_answer("count_as_path_strict: of nothing", doorbramble_count_as_path_strict(NULL, 0, 1), accepted(0, 0, 0));
    check_answer("count_as_path_strict: 9 at width 2", doorbramble_count_as_path_strict(path, 10, 0), refused(DOORBRAMBLE_SEGMENT_TYPE));
    check_answer("count_as_path_strict: 2", doorbramble_count_as_path_strict(path, 9, 1), refused(DOORBRAMBLE_TRUNCATED));
    check_answer("count_as_path_strict: 2, a byte", doorbramble_count_as_path_strict(path, 1, 1), refused(DOORBRAMBLE_TRUNCATED));

    check("parse_as_path_strict", doorbramble_parse_as_path_strict(path, 10, 1, one, PLACES, two, PLACES), accepted(1, 2, 0), path_pairs, 2,
          path_numbers, 2, NULL, 0);
    check_answer("parse_as_path_strict: 11 for a pair", doorbramble_parse_as_path_strict(path, 10, 1, one, 1, two, PLACES),
                 refused(DOORBRAMBLE_NO_ROOM));
    check_answer("parse_as_path_strict: 11 for a number", doorbramble_parse_as_path_strict(path, 10, 1, one, PLACES, two, 1),
                 refused(DOORBRAMBLE_NO_ROOM));

    check_out("encode_as_path_strict", doorbramble_encode_as_path_strict(path_pairs, 2, path_numbers, 2, 1, out, PLACES),
              accepted(10, 0, 0), path, 10);
    check_answer("encode_as_path_strict: of nothing", doorbramble_encode_as_path_strict(NULL, 0, NULL, 0, 1, NULL, 0), accepted(0, 0, 0));
    check_answer("encode_as_path_strict: 13", doorbramble_encode_as_path_strict(path_pairs, 2, wide, 2, 0, out, PLACES),
                 refused(DOORBRAMBLE_WIDE_NUMBER));
    check_answer("encode_as_path_strict: 11", doorbramble_encode_as_path_strict(path_pairs, 2, path_numbers, 2, 1, out, 9),
                 refused(DOORBRAMBLE_NO_ROOM));
}

/* an empty sequence, alone and after a segment of one number; one of type 5 after it */
static const uint8_t empty[] = {2, 0, 5, 0}, late[] = {2, 1, 0, 7, 2, 0};
static const uint32_t empty_pairs[] = {2, 0, 5, 0}, late_pairs[] = {2, 1, 2, 0}, seventh[] = {7};

static void empty_segments(void) {
    check_answer("count_as_path: an empty segment", doorbramble_count_as_path(empty, 2, 0), accepted(1, 0, 0));
    check("parse_as_path: an empty segment", doorbramble_parse_as_path(empty, 2, 0, one, PLACES, two, PLACES), accepted(1, 0, 0),
          empty_pairs, 2, NULL, 0, NULL, 0);
    check("parse_as_path: the last is empty", doorbramble_parse_as_path(late, 6, 0, one, PLACES, two, PLACES), accepted(2, 1, 0),
          late_pairs, 4, seventh, 1, NULL, 0);
    check_out("encode_as_path: an empty segment", doorbramble_encode_as_path(empty_pairs, 2, NULL, 0, 0, out, PLACES), accepted(2, 0, 0),
              empty, 2);
    check_out("encode_as_path: the last is empty", doorbramble_encode_as_path(late_pairs, 4, seventh, 1, 0, out, PLACES), accepted(6, 0, 0),
              late, 6);
}

/* Empty segments by the strict calls: 16; in one segment after 9, in the order of segments, and before 11; 14 before it. */
static void strict_empty_segments(void) {
    static const uint32_t long_pairs[] = {2, 0, 2, 256};
    static uint32_t numbers[256];
    const uint64_t refusal = refused(DOORBRAMBLE_EMPTY_SEGMENT), bad_type = refused(DOORBRAMBLE_SEGMENT_TYPE);

    check_answer("count_as_path_strict: 16", doorbramble_count_as_path_strict(empty, 2, 0), refusal);
    check_answer("count_as_path_strict: 16, the last", doorbramble_count_as_path_strict(late, 6, 0), refusal);
    check_answer("count_as_path_strict: 16 before a later 9", doorbramble_count_as_path_strict(empty, 4, 0), refusal);
    check_answer("count_as_path_strict: 16 before a later 2", doorbramble_count_as_path_strict(empty, 3, 0), refusal);
    check_answer("count_as_path_strict: 9 before 16", doorbramble_count_as_path_strict(empty + 2, 2, 0), bad_type);

    check_answer("parse_as_path_strict: 16", doorbramble_parse_as_path_strict(empty, 2, 0, one, PLACES, two, PLACES), refusal);
    check_answer("parse_as_path_strict: 16, the last", doorbramble_parse_as_path_strict(late, 6, 0, one, PLACES, two, PLACES), refusal);
    check_answer("parse_as_path_strict: 16 before 11", doorbramble_parse_as_path_strict(empty, 2, 0, NULL, 0, NULL, 0), refusal);
    check_answer("parse_as_path_strict: 9 before 16", doorbramble_parse_as_path_strict(empty + 2, 2, 0, one, PLACES, two, PLACES),
                 bad_type);

    check_answer("encode_as_path_strict: 16", doorbramble_encode_as_path_strict(empty_pairs, 2, NULL, 0, 0, out, PLACES), refusal);
    check_answer("encode_as_path_strict: 16, the last", doorbramble_encode_as_path_strict(late_pairs, 4, seventh, 1, 0, out, PLACES),
                 refusal);
    check_answer("encode_as_path_strict: 16 before a later 9", doorbramble_encode_as_path_strict(empty_pairs, 4, NULL, 0, 0, out, PLACES),
                 refusal);
    check_answer("encode_as_path_strict: 16 before a later 12",
                 doorbramble_encode_as_path_strict(long_pairs, 4, numbers, 256, 0, out, PLACES), refusal);
    check_answer("encode_as_path_strict: 16 before 11", doorbramble_encode_as_path_strict(empty_pairs, 2, NULL, 0, 0, NULL, 0), refusal);
    check_answer("encode_as_path_strict: 9 before 16", doorbramble_encode_as_path_strict(empty_pairs + 2, 2, NULL, 0, 0, out, PLACES),
                 bad_type);
    check_answer("encode_as_path_strict: 14 before 16", doorbramble_encode_as_path_strict(empty_pairs, 2, seventh, 1, 0, out, PLACES),
                 refused(DOORBRAMBLE_NOT_WRITABLE));
}

/* an empty segment of every type, at both widths: those of types 1 to 4 are taken, and refused with 16 by the strict calls; others are 9 */
static void segment_types(void) {
    unsigned wrong = 0, i;
    uint8_t four_bytes;
    for (i = 0; i < 256; i++) {
        const uint8_t value[] = {(uint8_t)i, 0};
        const uint32_t pair[] = {i, 0};
        const int is_type = i >= 1 && i <= 4;
        const uint64_t strict = refused(is_type ? DOORBRAMBLE_EMPTY_SEGMENT : DOORBRAMBLE_SEGMENT_TYPE);
        const uint64_t counted = is_type ? accepted(1, 0, 0) : strict, written = is_type ? accepted(2, 0, 0) : strict;
        for (four_bytes = 0; four_bytes < 2; four_bytes++) {
            wrong += doorbramble_count_as_path(value, 2, four_bytes) != counted;
            wrong += doorbramble_parse_as_path(value, 2, four_bytes, one, PLACES, two, PLACES) != counted;
            wrong += doorbramble_encode_as_path(pair, 2, NULL, 0, four_bytes, out, PLACES) != written;
            clear();
            wrong += doorbramble_count_as_path_strict(value, 2, four_bytes) != strict;
            wrong += doorbramble_parse_as_path_strict(value, 2, four_bytes, one, PLACES, two, PLACES) != strict;
            wrong += doorbramble_encode_as_path_strict(pair, 2, NULL, 0, four_bytes, out, PLACES) != strict;
            wrong += !has_words(one, NULL, 0) || !has_words(two, NULL, 0) || !has_bytes(NULL, 0);
        }
    }
    expect("empty segments of types of every number", wrong == 0);
}

/* each number as the flag of the width, of which all but 0 are four bytes, by both rules */
static void width_flags(void) {
    const uint64_t refusal = refused(DOORBRAMBLE_EMPTY_SEGMENT), none = accepted(1, 0, 0);
    unsigned wrong = 0, i;
    for (i = 0; i < 256; i++) {
        const uint64_t counted = i ? accepted(1, 2, 0) : refused(DOORBRAMBLE_SEGMENT_TYPE), written = accepted(i ? 10 : 6, 0, 0);
        const uint8_t flag = (uint8_t)i;
        wrong += doorbramble_count_as_path(path, 10, flag) != counted;
        wrong += doorbramble_count_as_path_strict(path, 10, flag) != counted;
        wrong += doorbramble_parse_as_path(path, 10, flag, one, PLACES, two, PLACES) != counted;
        wrong += doorbramble_parse_as_path_strict(path, 10, flag, one, PLACES, two, PLACES) != counted;
        wrong += doorbramble_encode_as_path(path_pairs, 2, path_numbers, 2, flag, out, PLACES) != written;
        wrong += doorbramble_encode_as_path_strict(path_pairs, 2, path_numbers, 2, flag, out, PLACES) != written;
        wrong += doorbramble_count_as_path(empty, 2, flag) != none;
        wrong += doorbramble_count_as_path_strict(empty, 2, flag) != refusal;
        wrong += doorbramble_parse_as_path(empty, 2, flag, one, PLACES, two, PLACES) != none;
        wrong += doorbramble_parse_as_path_strict(empty, 2, flag, one, PLACES, two, PLACES) != refusal;
        wrong += doorbramble_encode_as_path(empty_pairs, 2, NULL, 0, flag, out, PLACES) != accepted(2, 0, 0);
        wrong += doorbramble_encode_as_path_strict(empty_pairs, 2, NULL, 0, flag, out, PLACES) != refusal;
    }
    clear();
    expect("paths: flags of the width of every number", wrong == 0);
}

static void aggregators(void) {
    static const uint8_t value[] = {0xFD, 0xE9, 10, 0, 0, 1};
    static const uint8_t long_value[] = {0, 1, 0, 0, 10, 0, 0, 1};
    static const uint32_t words[] = {65001, 0x0A000001};
    uint64_t answer;

    check_store("parse_aggregator", doorbramble_parse_aggregator(value, 6, 0, one, 2), accepted(2, 0, 0), words, 2);
    answer = doorbramble_parse_aggregator(value, 6, 1, one, PLACES);
    expect("the fields of an AGGREGATOR", doorbramble_words(answer) == 2 && doorbramble_differs(answer));
    check_store("parse_aggregator: of another width", answer, accepted(2, 1, 0), words, 2);
    check_answer("parse_aggregator: 11", doorbramble_parse_aggregator(value, 6, 0, one, 1), refused(DOORBRAMBLE_NO_ROOM));
    check_answer("parse_aggregator: 10 before 11", doorbramble_parse_aggregator(long_value, 7, 0, NULL, 0),
                 refused(DOORBRAMBLE_AGGREGATOR_LENGTH));

    check_out("encode_aggregator", doorbramble_encode_aggregator(65001, 0x0A000001, 0, out, PLACES), accepted(6, 0, 0), value, 6);
    check_out("encode_aggregator: of four bytes", doorbramble_encode_aggregator(65536, 0x0A000001, 1, out, 8), accepted(8, 0, 0),
              long_value, 8);
    check_answer("encode_aggregator: 13", doorbramble_encode_aggregator(65536, 0x0A000001, 0, out, PLACES),
                 refused(DOORBRAMBLE_WIDE_NUMBER));
    check_answer("encode_aggregator: 11", doorbramble_encode_aggregator(65001, 0x0A000001, 0, out, 5), refused(DOORBRAMBLE_NO_ROOM));
}

/* AGGREGATORs of AS_TRANS and of 65001, and an AS4_AGGREGATOR of 70000 */
static const uint8_t trans_aggregator[] = {0x5B, 0xA0, 10, 0, 0, 1}, aggregator[] = {0xFD, 0xE9, 10, 0, 0, 1};
static const uint8_t as4_aggregator[] = {0, 1, 0x11, 0x70, 10, 0, 0, 1};

static void standing_aggregators(void) {
    const uint64_t first = accepted(0, 6, 1), second = accepted(0, 8, 2), absent = accepted(0, 0, 1);
    static const uint8_t zeros[8];
    uint64_t answer;

    check_answer("standing_aggregator: the first", doorbramble_standing_aggregator(aggregator, 6, as4_aggregator, 8), first);
    answer = doorbramble_standing_aggregator(trans_aggregator, 6, as4_aggregator, 8);
    check_answer("standing_aggregator: the second", answer, second);
    expect("the fields of two AGGREGATORs",
           doorbramble_standing(answer) == 2 && doorbramble_offset(answer) == 0 && doorbramble_length(answer) == 8);
    check_answer("standing_aggregator: the second, of zeros", doorbramble_standing_aggregator(trans_aggregator, 6, zeros, 8), second);
    check_answer("standing_aggregator: no second", doorbramble_standing_aggregator(aggregator, 6, NULL, 0), first);
    check_answer("standing_aggregator: AS_TRANS and no second", doorbramble_standing_aggregator(trans_aggregator, 6, NULL, 0), first);
    check_answer("standing_aggregator: no first", doorbramble_standing_aggregator(NULL, 0, as4_aggregator, 8), absent);
    check_answer("standing_aggregator: neither", doorbramble_standing_aggregator(NULL, 0, NULL, 0), absent);
}

/* each length of both, of which 0 and 6, and 0 and 8, are taken; and each AS number of the first */
static void aggregator_lengths(void) {
    static const uint8_t zeros[300];
    const uint64_t refusal = refused(DOORBRAMBLE_AGGREGATOR_LENGTH);
    uint8_t value[] = {0, 0, 10, 0, 0, 1};
    unsigned wrong = 0, wrong_numbers = 0, i, k;
    for (i = 0; i < 300; i++)
        for (k = 0; k < 300; k++) {
            const int is_good = (i == 0 || i == 6) && (k == 0 || k == 8);
            wrong += doorbramble_standing_aggregator(zeros, i, zeros, k) != (is_good ? accepted(0, i, 1) : refusal);
            wrong += doorbramble_count_merged_as_path(zeros, 2, zeros, 1, zeros, i, zeros, k) !=
                     (is_good ? refused(DOORBRAMBLE_SEGMENT_TYPE) : refusal);
        }
    for (i = 0; i < 65536; i++) {
        value[0] = (uint8_t)(i >> 8);
        value[1] = (uint8_t)i;
        wrong_numbers += doorbramble_standing_aggregator(value, 6, as4_aggregator, 8) !=
                         (i == DOORBRAMBLE_AS_TRANS ? accepted(0, 8, 2) : accepted(0, 6, 1));
    }
    expect("AGGREGATORs of every length", wrong == 0);
    expect("AGGREGATORs of every number", wrong_numbers == 0);
}

struct value {
    const uint8_t *bytes;
    size_t size;
};

#define VALUE(bytes) ((struct value){bytes, sizeof bytes})

static const struct value none = {NULL, 0};

/* what is merged, and the AGGREGATORs beside it */
struct merge {
    struct value as_path, as4_path, aggregator, as4_aggregator;
};

static uint64_t count_merged(struct merge of) {
    return doorbramble_count_merged_as_path(of.as_path.bytes, of.as_path.size, of.as4_path.bytes, of.as4_path.size, of.aggregator.bytes,
                                            of.aggregator.size, of.as4_aggregator.bytes, of.as4_aggregator.size);
}

static uint64_t merge(struct merge of, size_t pair_places, size_t number_places) {
    return doorbramble_merge_as_path(of.as_path.bytes, of.as_path.size, of.as4_path.bytes, of.as4_path.size, of.aggregator.bytes,
                                     of.aggregator.size, of.as4_aggregator.bytes, of.as4_aggregator.size, one, pair_places, two,
                                     number_places);
}

/* a path of so many segments and numbers: counted, merged with room for it and with more, and refused with a place less of either */
static void check_merged(const char *what, struct merge of, const uint32_t *pairs, size_t segments, const uint32_t *numbers, size_t count) {
    const uint64_t wanted = accepted(segments, count, 0), no_room = refused(DOORBRAMBLE_NO_ROOM);
    check_answer(what, count_merged(of), wanted);
    check(what, merge(of, 2 * segments, count), wanted, pairs, 2 * segments, numbers, count, NULL, 0);
    check(what, merge(of, PLACES, PLACES), wanted, pairs, 2 * segments, numbers, count, NULL, 0);
    if (segments > 0)
        check_answer(what, merge(of, 2 * segments - 1, PLACES), no_room);
    if (count > 0)
        check_answer(what, merge(of, PLACES, count - 1), no_room);
}

static void check_merge_refused(const char *what, struct merge of, unsigned number) {
    check_answer(what, count_merged(of), refused(number));
    check_answer(what, merge(of, 0, 0), refused(number));
    check_answer(what, merge(of, PLACES, PLACES), refused(number));
}

/* a sequence of 65001 and AS_TRANS twice, and one of 70000 and 70001 in four bytes */
static const uint8_t old_path[] = {2, 3, 0xFD, 0xE9, 0x5B, 0xA0, 0x5B, 0xA0}, new_path[] = {2, 2, 0, 1, 0x11, 0x70, 0, 1, 0x11, 0x71};
static const uint32_t old_pairs[] = {2, 3}, old_numbers[] = {65001, DOORBRAMBLE_AS_TRANS, DOORBRAMBLE_AS_TRANS};

static void merged_paths(void) {
    static const uint32_t pairs[] = {2, 1, 2, 2}, numbers[] = {65001, 70000, 70001};
    const struct value old = VALUE(old_path), new = VALUE(new_path);
    const struct value first = VALUE(aggregator), trans = VALUE(trans_aggregator), second = VALUE(as4_aggregator);

    check_merged("merge_as_path", (struct merge){old, new, none, none}, pairs, 2, numbers, 3);
    check_merged("merge_as_path: AS4_AGGREGATOR stands", (struct merge){old, new, trans, second}, pairs, 2, numbers, 3);
    check_merged("merge_as_path: no AS4_AGGREGATOR", (struct merge){old, new, first, none}, pairs, 2, numbers, 3);
    check_merged("merge_as_path: no AGGREGATOR", (struct merge){old, new, none, second}, pairs, 2, numbers, 3);
    check_merged("merge_as_path: AGGREGATOR stands", (struct merge){old, new, first, second}, old_pairs, 1, old_numbers, 3);
    check_merged("merge_as_path: no AS4_PATH", (struct merge){old, none, none, none}, old_pairs, 1, old_numbers, 3);
    check_merged("merge_as_path: no AS_PATH", (struct merge){none, new, none, none}, NULL, 0, NULL, 0);
    check_merged("merge_as_path: neither", (struct merge){none, none, none, none}, NULL, 0, NULL, 0);
}

/* what counts, which segments are taken, and where the front of AS_PATH ends */
static void merged_segments(void) {
    /* a confederation sequence of 1, a set of 2 and 3, a sequence of 4 and 5, a confederation set of 6, an empty sequence */
    static const uint8_t mixed[] = {3, 1, 0, 1, 1, 2, 0, 2, 0, 3, 2, 2, 0, 4, 0, 5, 4, 1, 0, 6, 2, 0};
    static const uint32_t pairs[] = {3, 1, 1, 2, 2, 2, 4, 1, 2, 0}, numbers[] = {1, 2, 3, 4, 5, 6};
    /* a confederation set of 9 and a set of 7 and 8; an empty set; an empty sequence; a confederation sequence of 9 */
    static const uint8_t as4_set[] = {4, 1, 0, 0, 0, 9, 1, 2, 0, 0, 0, 7, 0, 0, 0, 8}, empty_set[] = {1, 0};
    static const uint8_t empty_sequence[] = {2, 0}, confederation[] = {3, 1, 0, 0, 0, 9}, as4_three[] = {1, 0, 1, 0, 1, 0};
    static const uint8_t as4_four[] = {1, 0, 1, 0, 1, 0, 1, 0};
    static const uint32_t with_set[] = {3, 1, 1, 2, 2, 1, 1, 2}, set_numbers[] = {1, 2, 3, 4, 7, 8};
    static const uint32_t with_empty_set[] = {3, 1, 1, 2, 2, 1, 1, 0}, with_sets[] = {3, 1, 1, 0, 1, 0, 1, 0};
    const struct value old = VALUE(mixed);

    check_merged("merge_as_path: a set counts as one", (struct merge){old, VALUE(as4_set), none, none}, with_set, 4, set_numbers, 6);
    check_merged("merge_as_path: so does an empty one", (struct merge){old, VALUE(empty_set), none, none}, with_empty_set, 4, numbers, 4);
    check_merged("merge_as_path: nothing to make up", (struct merge){old, VALUE(as4_three), none, none}, with_sets, 4, numbers, 1);
    check_merged("merge_as_path: AS_PATH counts fewer", (struct merge){old, VALUE(as4_four), none, none}, pairs, 5, numbers, 6);
    check_merged("merge_as_path: AS4_PATH of a confederation", (struct merge){old, VALUE(confederation), none, none}, pairs, 5, numbers, 6);
    check_merged("merge_as_path: an empty sequence ends the front, another follows", (struct merge){old, VALUE(empty_sequence), none, none},
                 pairs, 5, numbers, 6);
}

/* 10, those of AS_PATH, those of AS4_PATH, even where it is ignored, and then 11, for which check_merged has more */
static void refused_merges(void) {
    static const uint8_t bad_type[] = {5, 0};
    const struct value old = VALUE(old_path), new = VALUE(new_path), type_five = VALUE(bad_type), cut = {new_path, 9};
    const struct value first = VALUE(aggregator), second = VALUE(as4_aggregator), seven = {as4_aggregator, 7};

    check_merge_refused("merge_as_path: 10, AGGREGATOR", (struct merge){cut, cut, seven, none}, DOORBRAMBLE_AGGREGATOR_LENGTH);
    check_merge_refused("merge_as_path: 10, AS4_AGGREGATOR", (struct merge){cut, cut, none, seven}, DOORBRAMBLE_AGGREGATOR_LENGTH);
    check_merge_refused("merge_as_path: 10, exchanged", (struct merge){old, new, second, first}, DOORBRAMBLE_AGGREGATOR_LENGTH);
    check_merge_refused("merge_as_path: 9 of AS_PATH before 2", (struct merge){type_five, cut, none, none}, DOORBRAMBLE_SEGMENT_TYPE);
    check_merge_refused("merge_as_path: 2 of AS_PATH before 9", (struct merge){cut, type_five, none, none}, DOORBRAMBLE_TRUNCATED);
    check_merge_refused("merge_as_path: 2 of AS4_PATH", (struct merge){old, cut, none, none}, DOORBRAMBLE_TRUNCATED);
    check_merge_refused("merge_as_path: 2 of AS4_PATH, ignored", (struct merge){old, cut, first, second}, DOORBRAMBLE_TRUNCATED);
    check_merge_refused("merge_as_path: 9 of AS4_PATH, ignored", (struct merge){old, type_five, first, second}, DOORBRAMBLE_SEGMENT_TYPE);
    check_answer("merge_as_path: 11, no stores", doorbramble_merge_as_path(old_path, 8, new_path, 10, NULL, 0, NULL, 0, NULL, 0, NULL, 0),
                 refused(DOORBRAMBLE_NO_ROOM));
}

/* the longest values, and one byte more; the most segments */
static void merge_limits(void) {
    static uint8_t segments[65536], as4_segments[65536];
    const struct value old = {segments, 65534}, new = {as4_segments, 65534}, longer = {segments, 65536}, longer_new = {as4_segments, 65536};
    size_t i;

    check_merge_refused("merge_as_path: 1 of AS_PATH before 9", (struct merge){longer, old, none, none}, DOORBRAMBLE_TOO_LONG);
    for (i = 0; i < sizeof segments; i += 2) {
        segments[i] = 3;
        as4_segments[i] = 2;
    }
    check_merge_refused("merge_as_path: 1 of AS4_PATH", (struct merge){old, longer_new, none, none}, DOORBRAMBLE_TOO_LONG);
    check_merge_refused("merge_as_path: 1 of AS4_PATH, ignored", (struct merge){old, longer_new, VALUE(aggregator), VALUE(as4_aggregator)},
                        DOORBRAMBLE_TOO_LONG);
    check_answer("count_merged_as_path: 65,534 segments", count_merged((struct merge){old, new, none, none}), accepted(65534, 0, 0));
    check_answer("merge_as_path: 11 for 65,534 segments", merge((struct merge){old, new, none, none}, PLACES, PLACES),
                 refused(DOORBRAMBLE_NO_ROOM));
}

/* rows that the header says cannot be written, and one with bits past its length, which can */
static void rows(void) {
    static const uint32_t seven[] = {8 + DOORBRAMBLE_ROW_HAS_ID, 7, 0x0A000000, 0, 0, 0};
    static const uint32_t host_bits[] = {4, 0, 0xFF000000, 0, 0, 0};
    static const uint32_t past_octets[] = {8, 0, 0x0A010000, 0, 0, 0};
    static const uint32_t second_word[] = {32, 0, 0x0A000001, 1, 0, 0};
    static const uint32_t long_prefix[] = {33, 0, 0, 0, 0, 0};
    static const uint32_t long_tagged[] = {33 + DOORBRAMBLE_ROW_HAS_ID, 0, 0, 0, 0, 0};
    static const uint32_t longer_prefix[] = {129, 0, 0, 0, 0, 0};
    static const uint32_t unmarked_id[] = {8, 7, 0x0A000000, 0, 0, 0};
    static const uint32_t mixed[] = {8 + DOORBRAMBLE_ROW_HAS_ID, 0, 0x0A000000, 0, 0, 0, 8, 0, 0x0B000000, 0, 0, 0};
    static const uint32_t guessed[] = {GUESSED(8), 7, 0x0A000000, 0, 0, 0};
    static const uint32_t mark_alone[] = {8 + DOORBRAMBLE_ROW_GUESSED, 0, 0x0A000000, 0, 0, 0};
    static const uint8_t four_bits[] = {4, 0xFF};
    static const uint8_t wide[] = {33, 0, 0, 0, 0, 0};
    const uint64_t not_writable = refused(DOORBRAMBLE_NOT_WRITABLE);

    check_out("rows: host bits are written", doorbramble_encode_nlri_prefixes(host_bits, 6, 0, 0, out, 2), accepted(2, 0, 0), four_bits, 2);
    check_store("rows: host bits are read", doorbramble_parse_nlri_list(four_bits, 2, 0, 0, one, 6), accepted(1, 1, 0), host_bits, 6);
    check_answer("rows: 14, a part of a row", doorbramble_encode_nlri_prefixes(host_bits, 5, 0, 0, out, PLACES), not_writable);
    check_answer("rows: 14, past the octets", doorbramble_encode_nlri_prefixes(past_octets, 6, 0, 0, out, PLACES), not_writable);
    check_answer("rows: 14, a second word", doorbramble_encode_nlri_prefixes(second_word, 6, 0, 0, out, PLACES), not_writable);
    check_answer("rows: 14, 33 bits", doorbramble_encode_nlri_prefixes(long_prefix, 6, 0, 0, out, PLACES), not_writable);
    check_answer("rows: 14, 33 bits and an id", doorbramble_encode_nlri_prefixes(long_tagged, 6, 0, 1, out, PLACES), not_writable);
    check_out("rows: 33 bits of IPv6", doorbramble_encode_nlri_prefixes(long_prefix, 6, 1, 0, out, PLACES), accepted(6, 0, 0), wide, 6);
    check_answer("rows: 14, 129 bits", doorbramble_encode_nlri_prefixes(longer_prefix, 6, 1, 0, out, PLACES), not_writable);
    check_answer("rows: 14, an id with no mark", doorbramble_encode_nlri_prefixes(unmarked_id, 6, 0, 0, out, PLACES), not_writable);
    check_answer("rows: 14, no mark with add_path", doorbramble_encode_nlri_prefixes(host_bits, 6, 0, 1, out, PLACES), not_writable);
    check_answer("rows: 14, a mark without", doorbramble_encode_nlri_prefixes(seven, 6, 0, 0, out, PLACES), not_writable);
    check_answer("rows: 14, mixed forms", doorbramble_encode_nlri_prefixes(mixed, 12, 0, 0, out, PLACES), not_writable);
    check_answer("rows: 14, mixed forms, add_path", doorbramble_encode_nlri_prefixes(mixed, 12, 0, 1, out, PLACES), not_writable);
    check_answer("rows: 14, a guessed id", doorbramble_encode_nlri_prefixes(guessed, 6, 0, 1, out, PLACES), not_writable);
    check_answer("rows: 14, a guessed id of IPv6", doorbramble_encode_nlri_prefixes(guessed, 6, 1, 1, out, PLACES), not_writable);
    check_answer("rows: 14, a guessed id without add_path", doorbramble_encode_nlri_prefixes(guessed, 6, 0, 0, out, PLACES), not_writable);
    check_answer("rows: 14, the guess's mark alone", doorbramble_encode_nlri_prefixes(mark_alone, 6, 0, 0, out, PLACES), not_writable);
    check_answer("rows: 14, a guessed id announced",
                 doorbramble_encode_bgp_update_message(NULL, 0, NULL, 0, guessed, 6, 1, out, PLACES), not_writable);
    check_answer("rows: 14, a guessed id withdrawn",
                 doorbramble_encode_bgp_update_message(guessed, 6, NULL, 0, NULL, 0, 1, out, PLACES), not_writable);
    check_answer("rows: 14, a guessed id in MP_UNREACH_NLRI", doorbramble_encode_mp_unreach_nlri(guessed, 6, 1, out, PLACES),
                 not_writable);
    check_answer("rows: DOORBRAMBLE_GUESS as add_path is a yes",
                 doorbramble_encode_nlri_prefixes(host_bits, 6, 0, DOORBRAMBLE_GUESS, out, 2), not_writable);
}

/* what the guess marks, and marks taken off: the rows are then as with Add-Path, and are written where each has an id */
static void marks(void) {
    static const uint8_t tagged[] = {0, 0, 0, 7, 8, 10, 0, 0, 0, 8, 9, 10, 0xFF};
    static const uint32_t guessed[] = {GUESSED(8), 7, 0x0A000000, 0, 0, 0, GUESSED(9), 8, 0x0AFF0000, 0, 0, 0};
    static const uint32_t sent[] = {8 + DOORBRAMBLE_ROW_HAS_ID, 7, 0x0A000000, 0, 0, 0, 9 + DOORBRAMBLE_ROW_HAS_ID, 8, 0x0AFF0000, 0, 0, 0};
    static const uint8_t body[] = {0, 6, 0, 0, 0, 7, 8, 10, 0, 0, 0, 0, 0, 8, 9, 10, 0xFF, 8, 11};
    static const uint32_t announced[] = {GUESSED(9), 8, 0x0AFF0000, 0, 0, 0, 8, 0, 0x0B000000, 0, 0, 0};
    uint64_t answer;

    check_store("parse_nlri_list: no mark with Add-Path", doorbramble_parse_nlri_list(tagged, 13, 0, DOORBRAMBLE_ADD_PATH, one, PLACES),
                accepted(2, 1, 0), sent, 12);
    check_store("parse_nlri_list: no mark with both settings", doorbramble_parse_nlri_list(tagged, 13, 0, 3, one, PLACES),
                accepted(2, 1, 0), sent, 12);
    check("parse_bgp_update_message: the guess's marks",
          doorbramble_parse_bgp_update_message(body, 19, DOORBRAMBLE_GUESS, one, PLACES, two, PLACES), accepted(1, 2, 0), guessed, 6,
          announced, 12, NULL, 0);

    doorbramble_parse_nlri_list(tagged, 13, 0, DOORBRAMBLE_GUESS, one, PLACES);
    expect("parse_nlri_list: the guess's marks", has_words(one, guessed, 12));
    expect("clear_guessed: 14, seven words", doorbramble_clear_guessed(one, 7) == refused(DOORBRAMBLE_NOT_WRITABLE));
    expect("clear_guessed: 14, a word less", doorbramble_clear_guessed(one, 11) == refused(DOORBRAMBLE_NOT_WRITABLE));
    expect("clear_guessed: 14 changes nothing", has_words(one, guessed, 12));
    answer = doorbramble_clear_guessed(one, 12);
    expect("the field of cleared rows", doorbramble_refusal(answer) == 0 && doorbramble_cleared_rows(answer) == 2);
    expect("clear_guessed: once more", doorbramble_clear_guessed(one, 12) == 2);
    check_store("clear_guessed", answer, accepted(2, 0, 0), sent, 12);
    check_out("clear_guessed: such rows are written", doorbramble_encode_nlri_prefixes(sent, 12, 0, 1, out, PLACES), accepted(13, 0, 0),
              tagged, 13);
}

/* the mark taken off words of every kind: no other bit is changed, nor a word that is not a row's first; and stores of no rows and of many */
static void cleared_stores(void) {
    static const uint32_t bits[] = {UINT32_MAX, UINT32_MAX, DOORBRAMBLE_ROW_GUESSED, 1, 2, 3, DOORBRAMBLE_ROW_GUESSED, 4, 5, 6, 7, 8};
    static const uint32_t off[] = {UINT32_MAX - DOORBRAMBLE_ROW_GUESSED, UINT32_MAX, DOORBRAMBLE_ROW_GUESSED, 1, 2, 3, 0, 4, 5, 6, 7, 8};
    static uint32_t many[6 * 65537];
    unsigned wrong = 0, i;

    memcpy(one, bits, sizeof bits);
    check_store("clear_guessed: every other bit stays", doorbramble_clear_guessed(one, 12), accepted(2, 0, 0), off, 12);
    check_answer("clear_guessed: no rows", doorbramble_clear_guessed(NULL, 0), accepted(0, 0, 0));
    for (i = 0; i < PLACES; i++)
        wrong += doorbramble_clear_guessed(two, i) != (i % 6 == 0 ? i / 6 : refused(DOORBRAMBLE_NOT_WRITABLE));
    expect("clear_guessed: stores of every size", wrong == 0);
    clear();
    for (i = 0; i < 6 * 65537; i += 6)
        many[i] = GUESSED(i % 33);
    expect("clear_guessed: more rows than a field holds", doorbramble_cleared_rows(doorbramble_clear_guessed(many, 6 * 65537)) == 65537);
    for (i = 0; i < 6 * 65537; i++)
        wrong += many[i] != (i % 6 == 0 ? i % 33 + DOORBRAMBLE_ROW_HAS_ID : 0);
    expect("clear_guessed: all of them", wrong == 0);
}

/* a list of so many items, with ids or without, whose lengths up to the most come again and again; answers its size */
static size_t list_of(unsigned items, unsigned most, size_t id_size, uint8_t *list) {
    size_t size = 0;
    unsigned i;
    for (i = 0; i < items; i++)
        size += item_of(i * 7 % (most + 1), (uint8_t)(i % 3 == 0 ? 0xFF : 0), id_size, list + size);
    return size;
}

static void indexes(void) {
    /* sixteen default routes, then 10.0.0.0/8, 11.0.0.0/8 and a length of 33 */
    static const uint8_t list[] = {0, 0, 0, 0, 0, 0, 0, 0, 0, 0, 0, 0, 0, 0, 0, 0, 8, 10, 8, 11, 33};
    static const uint8_t tagged[] = {0, 0, 0, 7, 8, 10}, wide[] = {0x40, 0x20, 0x01, 0x0D, 0xB8, 0, 0, 0, 1};
    static const uint16_t index[] = {0, 16};
    uint64_t answer = doorbramble_count_index(list, 20, 0, 0);

    check_answer("count_index: 18 items", answer, accepted(2, 0, 0));
    expect("the field of an index", doorbramble_places(answer) == 2);
    check_answer("count_index: 17 items", doorbramble_count_index(list, 18, 0, 0), accepted(2, 0, 0));
    check_answer("count_index: 16 items", doorbramble_count_index(list, 16, 0, 0), accepted(1, 0, 0));
    check_answer("count_index: 1 item", doorbramble_count_index(list, 1, 0, 0), accepted(1, 0, 0));
    check_answer("count_index: an empty list", doorbramble_count_index(NULL, 0, 0, 0), accepted(0, 0, 0));
    check_answer("count_index: Add-Path, by any flag", doorbramble_count_index(tagged, 6, 0, 200), accepted(1, 0, 0));
    check_answer("count_index: IPv6, by any flag", doorbramble_count_index(wide, 9, 200, 0), accepted(1, 0, 0));
    check_answer("count_index: 2, the guess is off", doorbramble_count_index(tagged, 6, 0, 0), refused(DOORBRAMBLE_TRUNCATED));
    check_answer("count_index: 7 for IPv4", doorbramble_count_index(wide, 9, 0, 0), refused(DOORBRAMBLE_PREFIX_LENGTH));
    check_answer("count_index: 2, a byte of a section", doorbramble_count_index(list + 16, 1, 0, 0), refused(DOORBRAMBLE_TRUNCATED));
    check_answer("count_index: 7, a byte of a section", doorbramble_count_index(list + 20, 1, 0, 0), refused(DOORBRAMBLE_PREFIX_LENGTH));

    check_places("build_index", doorbramble_build_index(list, 20, 0, 0, places, PLACES), accepted(2, 0, 0), index, 2);
    check_places("build_index: no room to spare", doorbramble_build_index(list, 20, 0, 0, places, 2), accepted(2, 0, 0), index, 2);
    check_places("build_index: Add-Path", doorbramble_build_index(tagged, 6, 0, 1, places, 1), accepted(1, 0, 0), index, 1);
    check_places("build_index: IPv6", doorbramble_build_index(wide, 9, 1, 0, places, 1), accepted(1, 0, 0), index, 1);
    check_places("build_index: an empty list", doorbramble_build_index(NULL, 0, 0, 0, NULL, 0), accepted(0, 0, 0), NULL, 0);
    check_places("build_index: 11", doorbramble_build_index(list, 20, 0, 0, places, 1), refused(DOORBRAMBLE_NO_ROOM), NULL, 0);
    check_places("build_index: 11, no store", doorbramble_build_index(list, 1, 0, 0, NULL, 0), refused(DOORBRAMBLE_NO_ROOM), NULL, 0);
    check_places("build_index: 7 before 11", doorbramble_build_index(list, 21, 0, 0, places, 0), refused(DOORBRAMBLE_PREFIX_LENGTH), NULL,
                 0);
    check_places("build_index: 2", doorbramble_build_index(list, 19, 0, 0, places, PLACES), refused(DOORBRAMBLE_TRUNCATED), NULL, 0);
}

/* how many routes of a list of 800 are not, by its index, the row that reading all of it gives, and the refusal past the last */
static unsigned wrong_routes(unsigned most, uint8_t ipv6, uint8_t add_path) {
    static uint8_t list[800 * 21];
    static uint32_t rows[800 * DOORBRAMBLE_ROW_WORDS];
    uint32_t row[DOORBRAMBLE_ROW_WORDS];
    size_t size = list_of(800, most, add_path ? 4 : 0, list), sum = 0;
    unsigned wrong = doorbramble_rows(doorbramble_parse_nlri_list(list, size, ipv6, add_path, rows, 800 * DOORBRAMBLE_ROW_WORDS)) != 800;
    unsigned count = doorbramble_places(doorbramble_build_index(list, size, ipv6, add_path, places, PLACES)), n;
    for (n = 0; n < 800; n++) {
        uint64_t answer = doorbramble_route_at(list, size, places, count, n, ipv6, add_path, row, DOORBRAMBLE_ROW_WORDS);
        uint64_t host = doorbramble_hosts(doorbramble_count_nlri_list(list + sum, doorbramble_route_bytes(answer), ipv6, add_path));
        wrong += doorbramble_refusal(answer) != 0 || memcmp(row, rows + n * DOORBRAMBLE_ROW_WORDS, sizeof row) != 0;
        wrong += (uint64_t)doorbramble_route_host(answer) != host || (n % 16 == 0 && places[n / 16] != sum);
        sum += doorbramble_route_bytes(answer);
    }
    wrong += doorbramble_route_at(list, size, places, count, 800, ipv6, add_path, row, 6) != refused(DOORBRAMBLE_NO_SUCH_ROUTE);
    clear();
    return wrong + (count != 50) + (sum != size);
}

static void routes_by_index(void) {
    static const uint8_t list[] = {8, 10, 9, 10, 0xFF}, tagged[] = {0, 0, 0, 7, 8, 10};
    static const uint32_t ten[] = {8, 0, 0x0A000000, 0, 0, 0}, nine[] = {9, 0, 0x0AFF0000, 0, 0, 0};
    static const uint32_t seven[] = {8 + DOORBRAMBLE_ROW_HAS_ID, 7, 0x0A000000, 0, 0, 0};
    static const uint16_t index[] = {0};
    uint64_t answer = doorbramble_route_at(list, 5, index, 1, 1, 0, 0, one, PLACES);

    expect("the fields of a route", doorbramble_route_bytes(answer) == 3 && doorbramble_route_host(answer));
    check_store("route_at: the last of two, with host bits", answer, accepted(3, 1, 0), nine, 6);
    check_store("route_at: the first of two", doorbramble_route_at(list, 5, index, 1, 0, 0, 0, one, 6), accepted(2, 0, 0), ten, 6);
    check_store("route_at: Add-Path, by any flag", doorbramble_route_at(tagged, 6, index, 1, 0, 0, 200, one, 6), accepted(6, 0, 0), seven,
                6);
    expect("route_at: each of 800 of IPv4", wrong_routes(32, 0, 0) == 0);
    expect("route_at: each of 800 of IPv4 with ids", wrong_routes(32, 0, 1) == 0);
    expect("route_at: each of 800 of IPv6", wrong_routes(128, 1, 0) == 0);
    expect("route_at: each of 800 of IPv6 with ids", wrong_routes(128, 1, 1) == 0);
}

/* a route that is asked of a list of IPv4 without ids, with room for it */
static uint64_t route(const uint8_t *list, size_t size, const uint16_t *index, size_t count, size_t number) {
    return doorbramble_route_at(list, size, index, count, number, 0, 0, one, PLACES);
}

/* 19, and what comes before and after it */
static void refused_indexes(void) {
    static const uint8_t list[] = {8, 10, 8, 11, 33};
    static const uint16_t late[] = {1, 2}, equal[] = {0, 2, 2}, falls[] = {0, 3, 2}, end[] = {0, 4}, past[] = {0, 65535};
    const uint64_t wrong = refused(DOORBRAMBLE_NOT_AN_INDEX), none = refused(DOORBRAMBLE_NO_SUCH_ROUTE);

    check_answer("route_at: 19, not from 0", route(list, 4, late, 2, 0), wrong);
    check_answer("route_at: 19, one place that is not 0", route(list, 4, late, 1, 0), wrong);
    check_answer("route_at: 19, the same place again", route(list, 4, equal, 3, 0), wrong);
    check_answer("route_at: 19, a lower place", route(list, 4, falls, 3, 0), wrong);
    check_answer("route_at: 19, a place at the end", route(list, 4, end, 2, 0), wrong);
    check_answer("route_at: 19, a place past the end", route(list, 4, past, 2, 0), wrong);
    check_answer("route_at: 19, a place of an empty list", route(NULL, 0, end, 1, 0), wrong);
    check_answer("route_at: 19 before 20", route(list, 4, late, 1, 1000), wrong);
    check_answer("route_at: 19 before 7", route(list + 4, 1, late, 1, 0), wrong);
    check_answer("route_at: 19 before 11", doorbramble_route_at(list, 4, late, 1, 0, 0, 0, NULL, 0), wrong);
    check_answer("route_at: 20, no places and an empty list", route(NULL, 0, NULL, 0, 0), none);
    check_answer("route_at: 20, no places", route(list, 4, NULL, 0, 0), none);
    check_answer("route_at: 20, no place for it", route(list, 4, end, 1, 16), none);
    check_answer("route_at: 20, the greatest number", route(list, 4, end, 1, SIZE_MAX), none);
    check_answer("route_at: 20, no place for it, before 7", route(list, 5, end, 1, 16), none);
}

/* what is refused once the index is good */
static void refused_routes(void) {
    static const uint8_t list[] = {8, 10, 8, 11, 33}, cut[] = {8, 10, 24, 11, 12}, tagged[] = {0, 0, 0, 7, 8, 10, 0, 0, 0, 8};
    static const uint16_t index[] = {0};
    const uint64_t length = refused(DOORBRAMBLE_PREFIX_LENGTH), truncated = refused(DOORBRAMBLE_TRUNCATED);
    const uint64_t none = refused(DOORBRAMBLE_NO_SUCH_ROUTE), room = refused(DOORBRAMBLE_NO_ROOM);
    static const uint32_t eleven[] = {8, 0, 0x0B000000, 0, 0, 0};

    check_store("route_at: what follows the route is not looked at", route(list, 5, index, 1, 1), accepted(2, 0, 0), eleven, 6);
    check_answer("route_at: 7, the route itself", route(list, 5, index, 1, 2), length);
    check_answer("route_at: 7, a route before it", route(list, 5, index, 1, 15), length);
    check_answer("route_at: 2, the route itself", route(cut, 5, index, 1, 1), truncated);
    check_answer("route_at: 2, a route before it", route(cut, 5, index, 1, 2), truncated);
    check_answer("route_at: 20, right past the last", route(list, 4, index, 1, 2), none);
    check_answer("route_at: 20, further past the last", route(list, 4, index, 1, 15), none);
    check_answer("route_at: 2, an id alone", doorbramble_route_at(tagged, 10, index, 1, 1, 0, 1, one, PLACES), truncated);
    check_answer("route_at: 20 with ids", doorbramble_route_at(tagged, 6, index, 1, 1, 0, 1, one, PLACES), none);
    check_answer("route_at: 11", doorbramble_route_at(list, 5, index, 1, 1, 0, 0, one, 5), room);
    check_answer("route_at: 11, no store", doorbramble_route_at(list, 5, index, 1, 1, 0, 0, NULL, 0), room);
    check_answer("route_at: 7 before 11", doorbramble_route_at(list, 5, index, 1, 2, 0, 0, NULL, 0), length);
    check_answer("route_at: 2 before 11", doorbramble_route_at(cut, 5, index, 1, 1, 0, 0, NULL, 0), truncated);
    check_answer("route_at: 20 before 11", doorbramble_route_at(list, 4, index, 1, 2, 0, 0, NULL, 0), none);
}

/* an index of other bytes: what is read from the places that it has */
static void other_indexes(void) {
    static const uint8_t list[] = {8, 10, 16, 8, 11, 33};
    static const uint16_t index[] = {0, 3, 4};
    static const uint32_t eleven[] = {8, 0, 0x0B000000, 0, 0, 0}, ten[] = {8, 0, 0x0A000000, 0, 0, 0};

    check_store("route_at: from a place within an item", route(list, 5, index, 2, 16), accepted(2, 0, 0), eleven, 6);
    check_store("route_at: from the front, by the same index", route(list, 5, index, 2, 0), accepted(2, 0, 0), ten, 6);
    check_answer("route_at: 20 after a place within an item", route(list, 5, index, 2, 17), refused(DOORBRAMBLE_NO_SUCH_ROUTE));
    check_answer("route_at: 2 from a place within an item", route(list, 5, index, 3, 32), refused(DOORBRAMBLE_TRUNCATED));
    check_answer("route_at: 7 after a place within an item", route(list, 6, index, 2, 17), refused(DOORBRAMBLE_PREFIX_LENGTH));
}

/* a list of the most items, and one byte more; and the longest items */
static void index_limits(void) {
    static uint8_t zeros[65536];
    static uint16_t most[DOORBRAMBLE_INDEX_PLACES];
    static const uint16_t wrong[] = {1};
    static const uint32_t none[6];
    const uint64_t too_long = refused(DOORBRAMBLE_TOO_LONG), whole = accepted(DOORBRAMBLE_INDEX_PLACES, 0, 0);
    unsigned differ = 0, i;

    check_answer("count_index: the most places", doorbramble_count_index(zeros, 65535, 0, 0), whole);
    check_answer("build_index: 11, a place less", doorbramble_build_index(zeros, 65535, 0, 0, most, DOORBRAMBLE_INDEX_PLACES - 1),
                 refused(DOORBRAMBLE_NO_ROOM));
    check_answer("build_index: the most places", doorbramble_build_index(zeros, 65535, 0, 0, most, DOORBRAMBLE_INDEX_PLACES), whole);
    for (i = 0; i < DOORBRAMBLE_INDEX_PLACES; i++)
        differ += most[i] != DOORBRAMBLE_INDEX_SPACING * i;
    expect("build_index: each of the most places", differ == 0);
    check_store("route_at: the last of the most", route(zeros, 65535, most, DOORBRAMBLE_INDEX_PLACES, 65534), accepted(1, 0, 0), none, 6);
    check_answer("route_at: 20 past the most", route(zeros, 65535, most, DOORBRAMBLE_INDEX_PLACES, 65535),
                 refused(DOORBRAMBLE_NO_SUCH_ROUTE));
    check_answer("count_index: 1", doorbramble_count_index(zeros, 65536, 0, 0), too_long);
    check_answer("build_index: 1 before 11", doorbramble_build_index(zeros, 65536, 0, 0, NULL, 0), too_long);
    check_answer("route_at: 1 before 19", route(zeros, 65536, wrong, 1, 0), too_long);
    check_answer("route_at: 1 before 20", route(zeros, 65536, NULL, 0, 0), too_long);
}

#define GLOBAL 0x20, 0x01, 0x0D, 0xB8, 0, 0, 0, 0, 0, 0, 0, 0, 0, 0, 0, 1
#define LINK_LOCAL 0xFE, 0x80, 0, 0, 0, 0, 0, 0, 0, 0, 0, 0, 0, 0, 0, 2
#define ROUTE 64, 0x20, 0x01, 0x0D, 0xB8, 0, 0, 0, 1

/* 2001:db8:0:1::/64 announced by one next hop and by two, and withdrawn; the row that each is read to */
static const uint8_t reach[] = {0, 2, 1, 16, GLOBAL, 0, ROUTE}, reach_both[] = {0, 2, 1, 32, GLOBAL, LINK_LOCAL, 0, ROUTE};
static const uint8_t unreach[] = {0, 2, 1, ROUTE};
static const uint32_t mp_row[] = {64, 0, 0x20010DB8, 1, 0, 0};

/* the two readings of an attribute, and where its list starts in the shortest value */
struct mp_reader {
    uint64_t (*count)(const uint8_t *, size_t, uint8_t);
    uint64_t (*parse)(const uint8_t *, size_t, uint8_t, uint32_t *, size_t);
    size_t list;
};

static const struct mp_reader by_reach = {doorbramble_count_mp_reach_nlri, doorbramble_parse_mp_reach_nlri, 21};
static const struct mp_reader by_unreach = {doorbramble_count_mp_unreach_nlri, doorbramble_parse_mp_unreach_nlri, 3};

/* both readings answer so, and the one that is lent a store puts these words there; with a place less there is no room for them */
static void check_mp(const char *what, struct mp_reader by, const uint8_t *value, size_t size, uint8_t settings, uint64_t wanted,
                     const uint32_t *words, size_t count) {
    check_answer(what, by.count(value, size, settings), wanted);
    check_store(what, by.parse(value, size, settings, one, count), wanted, words, count);
    if (count > 0)
        check_answer(what, by.parse(value, size, settings, one, count - 1), refused(DOORBRAMBLE_NO_ROOM));
}

/* both readings refuse a value so, with a store and with none, since every other refusal comes before 11 */
static void check_mp_refused(const char *what, struct mp_reader by, const uint8_t *value, size_t size, unsigned refusal) {
    check_answer(what, by.count(value, size, 0), refused(refusal));
    check_answer(what, by.parse(value, size, 0, one, PLACES), refused(refusal));
    check_answer(what, by.parse(value, size, 0, NULL, 0), refused(refusal));
}

/* a value of either attribute: its first bytes as those above, and then this list */
static const uint8_t *mp_value(struct mp_reader by, const uint8_t *list, size_t size) {
    static uint8_t value[PLACES];
    memcpy(value, reach, by.list);
    memcpy(value + by.list, list, size);
    return value;
}

static void mp_reach(void) {
    uint8_t reserved[sizeof reach];
    uint64_t answer = doorbramble_count_mp_reach_nlri(reach_both, sizeof reach_both, 0);
    unsigned wrong = 0, i;

    check_mp("mp_reach_nlri: a next hop", by_reach, reach, sizeof reach, 0, accepted(1, 0, 16), mp_row, 6);
    check_mp("mp_reach_nlri: two next hops", by_reach, reach_both, sizeof reach_both, 0, accepted(1, 0, 32), mp_row, 6);
    expect("the fields of an MP_REACH_NLRI", doorbramble_rows(answer) == 1 && doorbramble_hosts(answer) == 0 &&
                                                 doorbramble_next_hop_length(answer) == 32 && !doorbramble_reserved_set(answer));
    expect("the next hop", memcmp(reach + DOORBRAMBLE_NEXT_HOP_OFFSET, (const uint8_t[]){GLOBAL}, 16) == 0);
    memcpy(reserved, reach, sizeof reach);
    for (i = 0; i < 256; i++) {
        reserved[20] = (uint8_t)i;
        answer = doorbramble_count_mp_reach_nlri(reserved, sizeof reserved, 0);
        wrong += answer != accepted(1, 0, 16 + (i == 0 ? 0 : 256)) || doorbramble_reserved_set(answer) != (i != 0);
    }
    expect("count_mp_reach_nlri: reserved bytes of every number", wrong == 0);
    check_mp("mp_reach_nlri: a reserved byte", by_reach, reserved, sizeof reserved, 0, accepted(1, 0, 16 + 256), mp_row, 6);
    check_out("encode_mp_reach_nlri: which is written as 0", doorbramble_encode_mp_reach_nlri(reserved + 4, 16, mp_row, 6, 0, out, 30),
              accepted(30, 0, 0), reach, sizeof reach);
    answer = doorbramble_count_mp_reach_nlri(reserved, sizeof reserved - 1, 0);
    check_answer("count_mp_reach_nlri: 2 after a reserved byte", answer, refused(DOORBRAMBLE_TRUNCATED));
    expect("the fields of a refused MP_REACH_NLRI", doorbramble_rows(answer) == 0 && doorbramble_hosts(answer) == 0 &&
                                                        doorbramble_next_hop_length(answer) == 0 && !doorbramble_reserved_set(answer));
}

/* the lists of either attribute, each read by `settings` as a list alone, without the rule for one byte */
static void mp_lists(struct mp_reader by, uint64_t head) {
    static const uint8_t tagged[] = {0, 0, 0, 7, 8, 0x20}, zero[] = {0}, byte[] = {7}, host[] = {3, 0x3F},
                         mixed[] = {0, 0, 0, 0, 8, 0x20, 8, 0xFC};
    static const uint32_t seven[] = {8 + DOORBRAMBLE_ROW_HAS_ID, 7, 0x20000000, 0, 0, 0}, all[] = {0, 0, 0, 0, 0, 0};
    static const uint32_t bits[] = {3, 0, 0x3F000000, 0, 0, 0};
    static const uint32_t found[] = {GUESSED(8), 7, 0x20000000, 0, 0, 0};
    static const uint32_t guessed[] = {GUESSED(8), 0, 0x20000000, 0, 0, 0, 8, 0, 0xFC000000, 0, 0, 0};
    const size_t list = by.list;

    check_mp("mp_nlri: an empty list", by, mp_value(by, zero, 0), list, 0, accepted(0, 0, head), NULL, 0);
    check_mp("mp_nlri: one byte, 0", by, mp_value(by, zero, 1), list + 1, 0, accepted(1, 0, head), all, 6);
    check_mp_refused("mp_nlri: one byte, another: 2 and not 8", by, mp_value(by, byte, 1), list + 1, DOORBRAMBLE_TRUNCATED);
    check_mp("mp_nlri: host bits", by, mp_value(by, host, 2), list + 2, 0, accepted(1, 1, head), bits, 6);
    check_mp("mp_nlri: Add-Path", by, mp_value(by, tagged, 6), list + 6, DOORBRAMBLE_ADD_PATH, accepted(1, 0, head), seven, 6);
    check_mp("mp_nlri: both settings are Add-Path", by, mp_value(by, tagged, 6), list + 6, 3, accepted(1, 0, head), seven, 6);
    check_mp("mp_nlri: the guess", by, mp_value(by, tagged, 6), list + 6, DOORBRAMBLE_GUESS, accepted(1, 0, head), found, 6);
    check_mp("mp_nlri: the guess in one form and the other", by, mp_value(by, mixed, 8), list + 8, DOORBRAMBLE_GUESS, accepted(2, 0, head),
             guessed, 12);
    check_answer("mp_nlri: no other bit is read", by.count(mp_value(by, tagged, 6), list + 6, 0xFC), refused(DOORBRAMBLE_TRUNCATED));
}

/* 7 in either list, before a later 2; and each family and subfamily, of which one pair is taken, and in either attribute after 2 alone */
static void mp_families(struct mp_reader by, uint64_t taken) {
    static const uint8_t long_prefix[] = {0, 129}, before_cut[] = {129, 8}, after_cut[] = {16, 129};
    static const uint8_t pairs[][3] = {{0, 1, 1}, {0, 2, 2}, {0, 2, 0}, {1, 2, 1}, {2, 0, 1}, {0, 0, 0}};
    uint8_t value[sizeof reach];
    unsigned wrong = 0, i;

    check_mp_refused("mp_nlri: 7", by, mp_value(by, long_prefix, 2), by.list + 2, DOORBRAMBLE_PREFIX_LENGTH);
    check_mp_refused("mp_nlri: 7 before a later 2", by, mp_value(by, before_cut, 2), by.list + 2, DOORBRAMBLE_PREFIX_LENGTH);
    check_mp_refused("mp_nlri: 2 where a 7 might follow", by, mp_value(by, after_cut, 2), by.list + 2, DOORBRAMBLE_TRUNCATED);
    for (i = 0; i < sizeof pairs / sizeof pairs[0]; i++)
        check_mp_refused("mp_nlri: 17 of three bytes", by, pairs[i], 3, DOORBRAMBLE_OTHER_FAMILY);
    for (i = 0; i < 3; i++) {
        check_mp_refused("mp_nlri: 2 under three bytes", by, reach, i, DOORBRAMBLE_TRUNCATED);
        check_mp_refused("mp_nlri: 2 under three bytes, whatever they are", by, (const uint8_t[]){0xFF, 0xFF}, i, DOORBRAMBLE_TRUNCATED);
    }
    check_mp_refused("mp_nlri: 2 of nothing", by, NULL, 0, DOORBRAMBLE_TRUNCATED);
    memcpy(value, reach, sizeof reach);
    for (i = 0; i < 65536; i++) {
        value[0] = (uint8_t)(i >> 8);
        value[1] = (uint8_t)i;
        wrong += by.count(value, by.list, 0) != (i == 2 ? taken : refused(DOORBRAMBLE_OTHER_FAMILY));
    }
    expect("mp_nlri: families of every number", wrong == 0);
    value[0] = 0, value[1] = 2, wrong = 0;
    for (i = 0; i < 256; i++) {
        value[2] = (uint8_t)i;
        wrong += by.count(value, by.list, 0) != (i == 1 ? taken : refused(DOORBRAMBLE_OTHER_FAMILY));
    }
    expect("mp_nlri: subfamilies of every number", wrong == 0);
}

/* next hops of each length, read and to write, of which two are taken; and each size that a value may be cut to */
static void next_hops(void) {
    static uint8_t zeros[5 + 255] = {0, 2, 1}, other[4] = {0, 1, 1, 24};
    const uint64_t length = refused(DOORBRAMBLE_NEXT_HOP_LENGTH), cut = refused(DOORBRAMBLE_TRUNCATED);
    unsigned wrong = 0, wrong_cut = 0, wrong_written = 0, i;

    for (i = 0; i < 256; i++) {
        const int taken = i == 16 || i == 32;
        zeros[3] = (uint8_t)i;
        wrong += doorbramble_count_mp_reach_nlri(zeros, 5 + i, 0) != (taken ? accepted(0, 0, i) : length);
        wrong_cut += doorbramble_count_mp_reach_nlri(zeros, 4, 0) != (taken ? cut : length);
        wrong_cut += doorbramble_count_mp_reach_nlri(zeros, 3, 0) != cut;
    }
    expect("count_mp_reach_nlri: next hops of every length", wrong == 0);
    expect("count_mp_reach_nlri: 18 before the bytes of the next hop, and after a 2 for its length", wrong_cut == 0);
    check_mp_refused("mp_reach_nlri: 18", by_reach, zeros, sizeof zeros, DOORBRAMBLE_NEXT_HOP_LENGTH);
    check_mp_refused("mp_reach_nlri: 17 before 18", by_reach, other, 4, DOORBRAMBLE_OTHER_FAMILY);
    for (i = 0, wrong_cut = 0; i < sizeof reach_both; i++)
        wrong_cut += doorbramble_count_mp_reach_nlri(reach_both, i, 0) != (i == 37 ? accepted(0, 0, 32) : cut);
    for (i = 0; i < sizeof reach; i++)
        wrong_cut += doorbramble_count_mp_reach_nlri(reach, i, 0) != (i == 21 ? accepted(0, 0, 16) : cut);
    for (i = 0; i < sizeof unreach; i++)
        wrong_cut += doorbramble_count_mp_unreach_nlri(unreach, i, 0) != (i == 3 ? accepted(0, 0, 0) : cut);
    expect("mp_nlri: 2 of every size", wrong_cut == 0);
    for (i = 0; i < sizeof zeros; i++) {
        const uint64_t answer = doorbramble_encode_mp_reach_nlri(zeros, i, NULL, 0, 0, out, PLACES);
        wrong_written += answer != (i == 16 || i == 32 ? accepted(5 + i, 0, 0) : length);
    }
    expect("encode_mp_reach_nlri: next hops of every length", wrong_written == 0);
    clear();
}

static void mp_writers(void) {
    static const uint8_t tagged[] = {0, 2, 1, 0, 0, 0, 7, 8, 0x20};
    static const uint32_t seven[] = {8 + DOORBRAMBLE_ROW_HAS_ID, 7, 0x20000000, 0, 0, 0}, past_octets[] = {8, 0, 0x20010000, 0, 0, 0};
    const uint64_t not_writable = refused(DOORBRAMBLE_NOT_WRITABLE), no_room = refused(DOORBRAMBLE_NO_ROOM);
    const uint8_t *next_hops = reach_both + DOORBRAMBLE_NEXT_HOP_OFFSET;

    check_out("encode_mp_reach_nlri: a next hop", doorbramble_encode_mp_reach_nlri(next_hops, 16, mp_row, 6, 0, out, PLACES),
              accepted(30, 0, 0), reach, sizeof reach);
    check_out("encode_mp_reach_nlri: two next hops", doorbramble_encode_mp_reach_nlri(next_hops, 32, mp_row, 6, 0, out, 46),
              accepted(46, 0, 0), reach_both, sizeof reach_both);
    check_out("encode_mp_reach_nlri: no rows", doorbramble_encode_mp_reach_nlri(next_hops, 16, NULL, 0, 0, out, 21), accepted(21, 0, 0),
              reach, 21);
    check_answer("encode_mp_reach_nlri: 18 before 14", doorbramble_encode_mp_reach_nlri(next_hops, 17, mp_row, 5, 0, out, PLACES),
                 refused(DOORBRAMBLE_NEXT_HOP_LENGTH));
    check_answer("encode_mp_reach_nlri: 18, no next hop", doorbramble_encode_mp_reach_nlri(NULL, 0, mp_row, 6, 0, NULL, 0),
                 refused(DOORBRAMBLE_NEXT_HOP_LENGTH));
    check_answer("encode_mp_reach_nlri: 14, a part of a row", doorbramble_encode_mp_reach_nlri(next_hops, 16, mp_row, 5, 0, out, PLACES),
                 not_writable);
    check_answer("encode_mp_reach_nlri: 14, no mark", doorbramble_encode_mp_reach_nlri(next_hops, 16, mp_row, 6, 1, out, PLACES),
                 not_writable);
    check_answer("encode_mp_reach_nlri: 14 before 11", doorbramble_encode_mp_reach_nlri(next_hops, 16, past_octets, 6, 0, NULL, 0),
                 not_writable);
    check_answer("encode_mp_reach_nlri: 11", doorbramble_encode_mp_reach_nlri(next_hops, 16, mp_row, 6, 0, out, 29), no_room);
    check_answer("encode_mp_reach_nlri: 11, two next hops", doorbramble_encode_mp_reach_nlri(next_hops, 32, mp_row, 6, 0, out, 45),
                 no_room);

    check_out("encode_mp_unreach_nlri", doorbramble_encode_mp_unreach_nlri(mp_row, 6, 0, out, 12), accepted(12, 0, 0), unreach,
              sizeof unreach);
    check_out("encode_mp_unreach_nlri: by any flag", doorbramble_encode_mp_unreach_nlri(seven, 6, 200, out, PLACES), accepted(9, 0, 0),
              tagged, 9);
    check_out("encode_mp_unreach_nlri: no rows", doorbramble_encode_mp_unreach_nlri(NULL, 0, 0, out, 3), accepted(3, 0, 0), unreach, 3);
    check_answer("encode_mp_unreach_nlri: 14", doorbramble_encode_mp_unreach_nlri(seven, 6, 0, out, PLACES), not_writable);
    check_answer("encode_mp_unreach_nlri: 14 before 11", doorbramble_encode_mp_unreach_nlri(mp_row, 7, 0, NULL, 0), not_writable);
    check_answer("encode_mp_unreach_nlri: 11", doorbramble_encode_mp_unreach_nlri(mp_row, 6, 0, out, 11), no_room);
}

/* The longest values, of rows of a byte each, and one byte more. The limit is of the whole value: such a list would be taken alone. */
static void mp_limits(void) {
    static uint32_t rows[65533 * DOORBRAMBLE_ROW_WORDS];
    static uint8_t value[65536], written[65535], zeros[65536];
    const uint8_t *hops = reach_both + DOORBRAMBLE_NEXT_HOP_OFFSET;
    const uint64_t too_long = refused(DOORBRAMBLE_TOO_LONG), longest = accepted(65535, 0, 0), no_room = refused(DOORBRAMBLE_NO_ROOM);

    memcpy(value, reach_both, 36);
    check_answer("count_mp_reach_nlri: 65,498 rows", doorbramble_count_mp_reach_nlri(value, 65535, 0), accepted(65498, 0, 32));
    check_mp_refused("mp_reach_nlri: 1", by_reach, value, 65536, DOORBRAMBLE_TOO_LONG);
    memset(value + 3, 0, 33);
    check_answer("count_mp_unreach_nlri: 65,532 rows", doorbramble_count_mp_unreach_nlri(value, 65535, 0), accepted(65532, 0, 0));
    check_mp_refused("mp_unreach_nlri: 1", by_unreach, value, 65536, DOORBRAMBLE_TOO_LONG);
    check_mp_refused("mp_reach_nlri: 1 before 17", by_reach, zeros, 65536, DOORBRAMBLE_TOO_LONG);
    check_mp_refused("mp_unreach_nlri: 1 before 17", by_unreach, zeros, 65536, DOORBRAMBLE_TOO_LONG);
    check_mp_refused("mp_unreach_nlri: 17 at the limit", by_unreach, zeros, 65535, DOORBRAMBLE_OTHER_FAMILY);

    check_answer("encode_mp_reach_nlri: the longest", doorbramble_encode_mp_reach_nlri(hops, 16, rows, 6 * 65514, 0, written, 65535),
                 longest);
    check_answer("encode_mp_reach_nlri: 11 at the limit", doorbramble_encode_mp_reach_nlri(hops, 16, rows, 6 * 65514, 0, written, 65534),
                 no_room);
    check_answer("encode_mp_reach_nlri: 1 before 11", doorbramble_encode_mp_reach_nlri(hops, 16, rows, 6 * 65515, 0, NULL, 0), too_long);
    check_answer("encode_mp_reach_nlri: the longest, two", doorbramble_encode_mp_reach_nlri(hops, 32, rows, 6 * 65498, 0, written, 65535),
                 longest);
    check_answer("encode_mp_reach_nlri: 1, two", doorbramble_encode_mp_reach_nlri(hops, 32, rows, 6 * 65499, 0, written, 65535), too_long);
    check_answer("encode_mp_unreach_nlri: the longest", doorbramble_encode_mp_unreach_nlri(rows, 6 * 65532, 0, written, 65535), longest);
    expect("encode_mp_unreach_nlri: the longest, as it was read", memcmp(written, value, 65535) == 0);
    check_answer("encode_mp_unreach_nlri: 1 before 11", doorbramble_encode_mp_unreach_nlri(rows, 6 * 65533, 0, NULL, 0), too_long);
}

static void mp_values(void) {
    mp_reach();
    mp_lists(by_reach, 16);
    mp_lists(by_unreach, 0);
    mp_families(by_reach, accepted(0, 0, 16));
    mp_families(by_unreach, accepted(0, 0, 0));
    next_hops();
    mp_writers();
    mp_limits();
}

static void slots(void) {
    static uint8_t longest[DOORBRAMBLE_RECORD_SIZE + DOORBRAMBLE_KEPT_LIMIT + 1] = {0xC5, 0x3A, 0xFF, 0xFF, 2};
    static const uint8_t settings[] = {0, DOORBRAMBLE_ADD_PATH, DOORBRAMBLE_GUESS, DOORBRAMBLE_ADD_PATH};
    static const uint8_t states[] = {DOORBRAMBLE_SLOT_MORE, DOORBRAMBLE_SLOT_STOP};
    const uint64_t more = accepted(0, 0, DOORBRAMBLE_SLOT_MORE), stop = accepted(0, 0, DOORBRAMBLE_SLOT_STOP);
    uint8_t record[] = {0xC5, 0x3A, 0, 2, 0, 7, 8, 0xC5};
    uint64_t answer;
    uint8_t i, last;

    check_answer("next_slot: nothing yet", doorbramble_next_slot(NULL, 0, 0), more);
    check_answer("next_slot: the end", doorbramble_next_slot(NULL, 0, 1), accepted(0, 0, DOORBRAMBLE_SLOT_END));
    check_answer("next_slot: the end, by any flag", doorbramble_next_slot(record, 0, 200), accepted(0, 0, DOORBRAMBLE_SLOT_END));
    for (last = 0; last < 2; last++) {
        for (i = 1; i < 7; i++)
            check_answer("next_slot: a part of a record", doorbramble_next_slot(record, i, last), accepted(0, 0, states[last]));
        for (i = 0; i < 4; i++) {
            record[4] = i;
            check_answer("next_slot: a record", doorbramble_next_slot(record, 7, last), accepted(2, settings[i], DOORBRAMBLE_SLOT_RECORD));
            check_answer("next_slot: and the next", doorbramble_next_slot(record, 8, last),
                         accepted(2, settings[i], DOORBRAMBLE_SLOT_RECORD));
        }
        record[4] = 4;
        check_answer("next_slot: settings over 3", doorbramble_next_slot(record, 7, last), stop);
        check_answer("next_slot: settings over 3, at once", doorbramble_next_slot(record, 5, last), stop);
        record[4] = 0;
        check_answer("next_slot: no mark", doorbramble_next_slot(record + 1, 1, last), stop);
        check_answer("next_slot: half a mark", doorbramble_next_slot(record + 7, 1, last), accepted(0, 0, states[last]));
    }
    record[3] = 0;
    check_answer("next_slot: nothing kept", doorbramble_next_slot(record, 5, 0), accepted(0, 0, DOORBRAMBLE_SLOT_RECORD));
    record[1] = 0xC5;
    check_answer("next_slot: another second byte", doorbramble_next_slot(record, 2, 0), stop);
    check_answer("next_slot: a byte less than the longest", doorbramble_next_slot(longest, sizeof longest - 2, 0), more);
    answer = doorbramble_next_slot(longest, sizeof longest - 1, 0);
    check_answer("next_slot: the longest record", answer, accepted(65535, 2, DOORBRAMBLE_SLOT_RECORD));
    expect("the fields of a slot", doorbramble_refusal(answer) == 0 && doorbramble_slot_state(answer) == DOORBRAMBLE_SLOT_RECORD &&
                                       doorbramble_slot_kept(answer) == DOORBRAMBLE_KEPT_LIMIT &&
                                       doorbramble_slot_settings(answer) == DOORBRAMBLE_GUESS);
}

static void version(void) {
    uint64_t answer = doorbramble_version();
    check_answer("version", answer, accepted(2, 1, 0));
    expect("the version of the header", doorbramble_version_major(answer) == DOORBRAMBLE_VERSION_MAJOR &&
                                            doorbramble_version_minor(answer) == DOORBRAMBLE_VERSION_MINOR);
}

/* an attribute section of 65,535 bytes, and of one more */
static void section_limit(void) {
    static uint8_t zeros[65536], longest[65536] = {0x10, 14, 0xFF, 0xFB}, repeats[65536] = {0, 14, 0, 0, 14, 0};
    const uint64_t too_long = refused(DOORBRAMBLE_TOO_LONG), value = accepted(4, 65531, type_of(14, 0x10));

    check_answer("attribute_at: the longest value", doorbramble_attribute_at(longest, 65535, 0), value);
    check_answer("find_attribute: the longest value", doorbramble_find_attribute(longest, 65535, 14), value);
    check_answer("attribute_at: 2, a byte less", doorbramble_attribute_at(longest, 65534, 0), refused(DOORBRAMBLE_TRUNCATED));
    check_answer("attribute_at: a value at the end", doorbramble_attribute_at(zeros, 65535, 65532), accepted(65535, 0, 0));
    check_answer("attribute_at: 1", doorbramble_attribute_at(longest, 65536, 0), too_long);
    check_answer("attribute_at: 1, however little is left", doorbramble_attribute_at(zeros, 65536, 65533), too_long);
    check_answer("attribute_at: 1, and none would be left", doorbramble_attribute_at(zeros, 65536, SIZE_MAX), too_long);
    check_answer("find_attribute: 21,845 attributes", doorbramble_find_attribute(zeros, 65535, 0), accepted(3, 0, 0));
    check_answer("find_attribute: absent among 21,845", doorbramble_find_attribute(zeros, 65535, 1), accepted(0, 0, 0));
    check_answer("find_attribute: 2 after 21,844", doorbramble_find_attribute(zeros, 65534, 0), refused(DOORBRAMBLE_TRUNCATED));
    check_answer("find_attribute: 1 before 2", doorbramble_find_attribute(zeros, 65536, 0), too_long);
    check_answer("find_attribute: 1 before 15", doorbramble_find_attribute(repeats, 65536, 0), too_long);
    check_answer("find_attribute: 15 at the limit", doorbramble_find_attribute(repeats, 65535, 0), refused(DOORBRAMBLE_REPEATED_MP_NLRI));
}

/* the limits of 65,535 and 65,516 bytes, a body of the most rows, and a segment of 256 numbers */
static void limits(void) {
    static uint8_t zeros[65536];
    static uint8_t most_rows[DOORBRAMBLE_BODY_LIMIT] = {DOORBRAMBLE_BODY_ROWS >> 8, DOORBRAMBLE_BODY_ROWS & 0xFF};
    static uint32_t numbers[256];
    static const uint32_t pair[] = {2, 256};

    check_answer("count_nlri_list: 65,535 rows", doorbramble_count_nlri_list(zeros, 65535, 0, 0), accepted(65535, 0, 0));
    check_answer("count_nlri_list: 1", doorbramble_count_nlri_list(zeros, 65536, 0, 0), refused(DOORBRAMBLE_TOO_LONG));
    check_answer("announced_part: 65,512 bytes", doorbramble_announced_part(zeros, 65516), accepted(4, 65512, 0));
    check_answer("announced_part: 1", doorbramble_announced_part(zeros, 65517), refused(DOORBRAMBLE_TOO_LONG));
    check_answer("count_bgp_update_message: 1", doorbramble_count_bgp_update_message(zeros, 65517, 0), refused(DOORBRAMBLE_TOO_LONG));
    check_answer("count_bgp_update_message: the most rows withdrawn", doorbramble_count_bgp_update_message(most_rows, sizeof most_rows, 0),
                 accepted(DOORBRAMBLE_BODY_ROWS, 0, 0));
    check_answer("count_bgp_update_message: the most rows announced", doorbramble_count_bgp_update_message(zeros, sizeof most_rows, 0),
                 accepted(0, DOORBRAMBLE_BODY_ROWS, 0));
    check_answer("parse_aggregator: 1", doorbramble_parse_aggregator(zeros, 65536, 0, one, PLACES), refused(DOORBRAMBLE_TOO_LONG));
    check_answer("count_as_path: 1", doorbramble_count_as_path(zeros, 65536, 0), refused(DOORBRAMBLE_TOO_LONG));
    zeros[0] = 2;
    check_answer("count_as_path_strict: 1 before 16", doorbramble_count_as_path_strict(zeros, 65536, 0), refused(DOORBRAMBLE_TOO_LONG));
    check_answer("count_as_path_strict: 16 at the limit", doorbramble_count_as_path_strict(zeros, 65535, 0),
                 refused(DOORBRAMBLE_EMPTY_SEGMENT));
    zeros[0] = 0;
    check_answer("encode_bgp_update_message: 1", doorbramble_encode_bgp_update_message(NULL, 0, zeros, 65513, NULL, 0, 0, out, PLACES),
                 refused(DOORBRAMBLE_TOO_LONG));
    check_answer("encode_as_path: 12", doorbramble_encode_as_path(pair, 2, numbers, 256, 1, out, PLACES),
                 refused(DOORBRAMBLE_LONG_SEGMENT));
    check_answer("encode_as_path_strict: 12", doorbramble_encode_as_path_strict(pair, 2, numbers, 256, 1, out, PLACES),
                 refused(DOORBRAMBLE_LONG_SEGMENT));
}

int main(void) {
    clear();
    messages();
    editions();
    edition_numbers();
    lengths();
    updates();
    attributes();
    flags_and_types();
    searches();
    lists();
    list_hosts();
    host_lengths();
    update_hosts();
    malformed_hosts();
    host_limits();
    rows();
    marks();
    cleared_stores();
    indexes();
    refused_indexes();
    routes_by_index();
    refused_routes();
    other_indexes();
    index_limits();
    mp_values();
    paths();
    strict_paths();
    empty_segments();
    strict_empty_segments();
    segment_types();
    width_flags();
    aggregators();
    standing_aggregators();
    aggregator_lengths();
    merged_paths();
    merged_segments();
    refused_merges();
    merge_limits();
    slots();
    version();
    section_limit();
    limits();
    printf("%u checks, %u failed\n", checks, failures);
    return failures == 0 ? 0 : 1;
}
