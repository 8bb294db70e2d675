/* Reads the slot records of a file and prints the IPv6 routes of each UPDATE in them: those that its MP_UNREACH_NLRI withdraws, and the
 * next hops and the routes of its MP_REACH_NLRI. Either attribute of another family is passed over, with a word.
 *
 * usage: list_ipv6 FILE     `-` is standard input
 *
 * Exit status: 0 where every message and value was read or passed over; 1 where one was refused; 2 as list_slots in slots.h says. */
#include "slots.h"

enum { GROUPS = 8, ADDRESS_SIZE = 16 };

/* of one value at a time; enough for every value that stands in an UPDATE */
static uint32_t routes[DOORBRAMBLE_BODY_ROWS * DOORBRAMBLE_ROW_WORDS];

static const char *value_reason(unsigned refusal) {
    switch (refusal) {
    case DOORBRAMBLE_PREFIX_LENGTH:
        return "prefix length over 128";
    case DOORBRAMBLE_NEXT_HOP_LENGTH:
        return "next hop of neither 16 nor 32 bytes";
    default:
        return reason(refusal);
    }
}

/* How many groups from one on are 0. */
static unsigned zeros_at(const unsigned *groups, unsigned from) {
    unsigned end = from;
    while (end < GROUPS && groups[end] == 0)
        end++;
    return end - from;
}

/* An address by RFC 5952: `::` stands for its longest run of two zero groups or more, the first of those that are as long. */
static void print_address(const unsigned *groups) {
    unsigned longest = 0, i;
    for (i = 1; i < GROUPS; i++)
        if (zeros_at(groups, i) > zeros_at(groups, longest))
            longest = i;
    for (i = 0; i < GROUPS; i++) {
        if (i == longest && zeros_at(groups, i) > 1) {
            i += zeros_at(groups, i) - 1;
            printf(i == GROUPS - 1 ? "::" : ":");
        } else {
            printf("%s%x", i == 0 ? "" : ":", groups[i]);
        }
    }
}

/* The routes of a store of rows, whose address words hold two groups each. */
static void print_routes(const char *what, unsigned rows) {
    const uint32_t *row;
    for (row = routes; row < routes + rows * DOORBRAMBLE_ROW_WORDS; row += DOORBRAMBLE_ROW_WORDS) {
        unsigned groups[GROUPS], i;
        for (i = 0; i < GROUPS; i++)
            groups[i] = row[2 + i / 2] >> (i % 2 == 0 ? 16 : 0) & 0xFFFF;
        printf("%s ", what);
        print_address(groups);
        print_rest(row);
    }
}

/* A next hop: a global address and, where it has 32 bytes, a link-local one after it. */
static void print_next_hop(const uint8_t *next_hop, unsigned size) {
    const uint8_t *address;
    for (address = next_hop; address < next_hop + size; address += ADDRESS_SIZE) {
        unsigned groups[GROUPS], i;
        for (i = 0; i < GROUPS; i++)
            groups[i] = (unsigned)address[2 * i] << 8 | address[2 * i + 1];
        printf(address == next_hop ? "next hop " : ", link-local ");
        print_address(groups);
    }
    printf("\n");
}

/* Why a value was not read. Answers whether that is no fault of its own: one of another family, which has three bytes at least, is passed
 * over. */
static int print_refusal(const char *what, const uint8_t *value, unsigned refusal) {
    if (refusal == DOORBRAMBLE_OTHER_FAMILY) {
        printf("%s of family %u, subfamily %u: passed over\n", what, (unsigned)value[0] << 8 | value[1], (unsigned)value[2]);
        return 1;
    }
    printf("%s refused %u: %s\n", what, refusal, value_reason(refusal));
    return 0;
}

static int print_withdrawn(const uint8_t *value, size_t size, uint8_t settings) {
    uint64_t found = doorbramble_parse_mp_unreach_nlri(value, size, settings, routes, sizeof routes / sizeof routes[0]);
    if (doorbramble_refusal(found) != 0)
        return print_refusal("MP_UNREACH_NLRI", value, doorbramble_refusal(found));
    print_routes("withdrawn", doorbramble_rows(found));
    return 1;
}

static int print_announced(const uint8_t *value, size_t size, uint8_t settings) {
    uint64_t found = doorbramble_parse_mp_reach_nlri(value, size, settings, routes, sizeof routes / sizeof routes[0]);
    if (doorbramble_refusal(found) != 0)
        return print_refusal("MP_REACH_NLRI", value, doorbramble_refusal(found));
    print_next_hop(value + DOORBRAMBLE_NEXT_HOP_OFFSET, doorbramble_next_hop_length(found));
    if (doorbramble_reserved_set(found))
        printf("reserved byte not 0\n");
    print_routes("announced", doorbramble_rows(found));
    return 1;
}

/* Both attributes of a body, of which either may be absent. A search judges the whole section, so what refuses one refuses the other. */
static int print_update(const uint8_t *body, size_t size, uint8_t settings) {
    uint64_t part = doorbramble_attribute_part(body, size), unreach, reach;
    const uint8_t *section = body + doorbramble_offset(part);
    int good = 1;
    if (doorbramble_refusal(part) != 0) {
        printf("refused %u: %s\n", doorbramble_refusal(part), reason(doorbramble_refusal(part)));
        return 0;
    }
    unreach = doorbramble_find_attribute(section, doorbramble_length(part), DOORBRAMBLE_MP_UNREACH_NLRI);
    reach = doorbramble_find_attribute(section, doorbramble_length(part), DOORBRAMBLE_MP_REACH_NLRI);
    if (doorbramble_refusal(reach) != 0) {
        printf("attributes refused %u: %s\n", doorbramble_refusal(reach), reason(doorbramble_refusal(reach)));
        return 0;
    }
    if (doorbramble_attribute_found(unreach))
        good = print_withdrawn(section + doorbramble_offset(unreach), doorbramble_length(unreach), settings);
    if (doorbramble_attribute_found(reach))
        good = print_announced(section + doorbramble_offset(reach), doorbramble_length(reach), settings) && good;
    return good;
}

int main(int argc, char **argv) { return list_slots("list_ipv6", argc, argv, print_update); }
