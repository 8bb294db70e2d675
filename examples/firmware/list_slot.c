/* Reads the slot records of a file and prints the routes of each UPDATE in them, marked where their id is guessed or they have host bits, and
 * the types of its attributes.
 *
 * usage: list_slot FILE     `-` is standard input
 *
 * Exit status: 0 where every message and section was read; 1 where one was refused; 2 as list_slots in slots.h says. */
#include "slots.h"

static uint32_t withdrawn[DOORBRAMBLE_BODY_ROWS * DOORBRAMBLE_ROW_WORDS];
static uint32_t announced[DOORBRAMBLE_BODY_ROWS * DOORBRAMBLE_ROW_WORDS];

static const char *section_reason(unsigned verdict) {
    switch (verdict) {
    case DOORBRAMBLE_PREFIX_LENGTH:
        return "prefix length over 32";
    case DOORBRAMBLE_ONE_BYTE_SECTION:
        return "section of one nonzero byte";
    default:
        return reason(verdict);
    }
}

/* The routes of a section, or why it has none. Answers whether it is good. */
static int print_section(const char *what, unsigned rows, unsigned verdict, const uint32_t *store) {
    unsigned i;
    if (verdict != 0)
        printf("%s refused %u: %s\n", what, verdict, section_reason(verdict));
    for (i = 0; i < rows; i++) {
        printf("%s ", what);
        print_ipv4(store + i * DOORBRAMBLE_ROW_WORDS);
    }
    return verdict == 0;
}

/* The types of the attributes of a section, repeats too, before one that is cut. Answers whether it is good: a search judges all of it,
 * whatever type is searched for. */
static int print_attributes(const uint8_t *section, unsigned size) {
    uint64_t found = doorbramble_attribute_at(section, size, 0);
    unsigned refusal = doorbramble_refusal(doorbramble_find_attribute(section, size, DOORBRAMBLE_MP_REACH_NLRI));
    printf("attributes %u bytes%s", size, doorbramble_attribute_found(found) ? ":" : "");
    while (doorbramble_attribute_found(found)) {
        printf(" %u", doorbramble_attribute_kind(found));
        found = doorbramble_attribute_at(section, size, doorbramble_attribute_next(found));
    }
    printf("\n");
    if (refusal != 0)
        printf("attributes refused %u: %s\n", refusal, reason(refusal));
    return refusal == 0;
}

/* How many routes of each section have host bits, where any has. */
static void print_hosts(const uint8_t *body, size_t size, uint8_t settings) {
    uint64_t found = doorbramble_count_update_hosts(body, size, settings);
    if (doorbramble_withdrawn_hosts(found) != 0 || doorbramble_announced_hosts(found) != 0)
        printf("host bits: %u withdrawn, %u announced\n", doorbramble_withdrawn_hosts(found), doorbramble_announced_hosts(found));
}

static int print_update(const uint8_t *body, size_t size, uint8_t settings) {
    uint64_t found = doorbramble_parse_bgp_update_message(body, size, settings, withdrawn, sizeof withdrawn / sizeof withdrawn[0],
                                                          announced, sizeof announced / sizeof announced[0]);
    uint64_t attributes = doorbramble_attribute_part(body, size);
    unsigned refusal = doorbramble_refusal(found);
    int good;
    if (refusal != 0) {
        printf("refused %u: %s\n", refusal, reason(refusal));
        return 0;
    }
    good = print_section("withdrawn", doorbramble_withdrawn_rows(found), doorbramble_withdrawn_verdict(found), withdrawn);
    good = print_attributes(body + doorbramble_offset(attributes), doorbramble_length(attributes)) && good;
    good = print_section("announced", doorbramble_announced_rows(found), doorbramble_announced_verdict(found), announced) && good;
    print_hosts(body, size, settings);
    return good;
}

int main(int argc, char **argv) { return list_slots("list_slot", argc, argv, print_update); }
