/* Reads the slot records of a file and pages through the routes that each UPDATE in them announces: an index of the section is built once,
 * and its first page of ten routes, the middle one and the last are read by it. The page that the section ends in shows the refusal past
 * its end. A section that is to be read with the guess is passed over, since there is no index of it.
 *
 * usage: page_routes FILE     `-` is standard input
 *
 * Exit status: 0 where every section was read or passed over; 1 where one was refused; 2 as list_slots in slots.h says. */
#include "slots.h"

enum { PAGE_ROUTES = 10 };

/* enough for the index of every section */
static uint16_t index_places[DOORBRAMBLE_INDEX_PLACES];

/* A section, and how many places its index has. */
struct list {
    const uint8_t *bytes;
    size_t size;
    uint8_t add_path;
    size_t places;
};

static const char *list_reason(unsigned refusal) {
    switch (refusal) {
    case DOORBRAMBLE_PREFIX_LENGTH:
        return "prefix length over 32";
    case DOORBRAMBLE_NO_SUCH_ROUTE:
        return "no such route";
    default:
        return reason(refusal);
    }
}

/* The route of a number, or why there is none. Answers whether there is one. */
static int print_route(struct list list, unsigned number) {
    uint32_t row[DOORBRAMBLE_ROW_WORDS];
    uint64_t found =
        doorbramble_route_at(list.bytes, list.size, index_places, list.places, number, 0, list.add_path, row, DOORBRAMBLE_ROW_WORDS);
    unsigned refusal = doorbramble_refusal(found);
    printf("%u: ", number);
    if (refusal == 0)
        print_ipv4(row);
    else
        printf("refused %u: %s\n", refusal, list_reason(refusal));
    return refusal == 0;
}

static void print_page(struct list list, unsigned page) {
    unsigned number = page * PAGE_ROUTES;
    printf("page %u\n", page);
    while (print_route(list, number) && ++number < (page + 1) * PAGE_ROUTES)
        ;
}

/* Three pages of a section. Answers whether it is good: what refuses counting refuses the index. */
static int print_pages(struct list list) {
    uint64_t counted = doorbramble_count_nlri_list(list.bytes, list.size, 0, list.add_path);
    uint64_t built = doorbramble_build_index(list.bytes, list.size, 0, list.add_path, index_places, DOORBRAMBLE_INDEX_PLACES);
    unsigned refusal = doorbramble_refusal(built), rows = doorbramble_rows(counted);
    unsigned pages = (rows + PAGE_ROUTES - 1) / PAGE_ROUTES;
    if (refusal != 0) {
        printf("announced refused %u: %s\n", refusal, list_reason(refusal));
        return 0;
    }
    list.places = doorbramble_places(built);
    printf("announced routes: %u, places of their index: %u\n", rows, doorbramble_places(built));
    if (pages > 0)
        print_page(list, 0);
    if (pages > 2)
        print_page(list, pages / 2);
    if (pages > 1)
        print_page(list, pages - 1);
    return 1;
}

static int print_update(const uint8_t *body, size_t size, uint8_t settings) {
    uint64_t part = doorbramble_announced_part(body, size);
    struct list list = {body + doorbramble_offset(part), doorbramble_length(part), settings & DOORBRAMBLE_ADD_PATH, 0};
    unsigned refusal = doorbramble_refusal(part);
    if (refusal != 0) {
        printf("refused %u: %s\n", refusal, reason(refusal));
        return 0;
    }
    if (settings == DOORBRAMBLE_GUESS) {
        printf("announced by the guess: passed over\n");
        return 1;
    }
    return print_pages(list);
}

int main(int argc, char **argv) { return list_slots("page_routes", argc, argv, print_update); }
