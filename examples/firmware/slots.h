/* What the examples share: they read the slot records of a file, print a line for each message, and hand the body of each UPDATE to the
 * example. */
#ifndef SLOTS_H
#define SLOTS_H

#include <errno.h>
#include <stdio.h>
#include <string.h>

#include "doorbramble.h"

/* Prints what an UPDATE body has. Answers whether all of it could be read. */
typedef int update_printer(const uint8_t *body, size_t size, uint8_t settings);

/* room for the longest record, so that a full buffer never needs more bytes */
enum { BUFFER_SIZE = DOORBRAMBLE_RECORD_SIZE + DOORBRAMBLE_KEPT_LIMIT };

static uint8_t buffer[BUFFER_SIZE];

/* An input: its bytes in the buffer that are not read yet, how many stood before them, and whether none follow. */
struct input {
    const char *name;
    FILE *file;
    const uint8_t *front;
    size_t size;
    unsigned long long before;
    uint8_t last;
};

static const char *const KINDS[] = {"?", "OPEN", "UPDATE", "NOTIFICATION", "KEEPALIVE", "ROUTE-REFRESH"};

/* of a message, and of its body's sections as such; an example adds the refusals of what it reads in them */
static const char *reason(unsigned refusal) {
    switch (refusal) {
    case DOORBRAMBLE_TOO_LONG:
        return "too long";
    case DOORBRAMBLE_TRUNCATED:
        return "fewer bytes than the field needs";
    case DOORBRAMBLE_MESSAGE_LENGTH:
        return "message length not allowed";
    case DOORBRAMBLE_MESSAGE_TYPE:
        return "message type not 1 to 5";
    case DOORBRAMBLE_REPEATED_MP_NLRI:
        return "a second MP_REACH_NLRI or MP_UNREACH_NLRI";
    default:
        return "no such refusal here";
    }
}

/* Whether a row has a bit set past its length. Every octet past those of the prefix is 0, so all such bits stand in one word. */
static int has_host_bits(const uint32_t *row) {
    uint32_t length = row[0] % DOORBRAMBLE_ROW_HAS_ID;
    return length % 32 != 0 && (row[2 + length / 32] & UINT32_MAX >> length % 32) != 0;
}

/* The rest of a route's line, after its address: whether an id was sent or only guessed stands in the row. */
static void print_rest(const uint32_t *row) {
    printf("/%u", (unsigned)(row[0] % DOORBRAMBLE_ROW_HAS_ID));
    if (row[0] >= DOORBRAMBLE_ROW_HAS_ID)
        printf(" %sid %u", (row[0] & DOORBRAMBLE_ROW_GUESSED) != 0 ? "guessed " : "", (unsigned)row[1]);
    printf("%s\n", has_host_bits(row) ? " host bits" : "");
}

/* A route of IPv4. */
static inline void print_ipv4(const uint32_t *row) {
    uint32_t a = row[2];
    printf("%u.%u.%u.%u", (unsigned)(a >> 24), (unsigned)(a >> 16 & 0xFF), (unsigned)(a >> 8 & 0xFF), (unsigned)(a & 0xFF));
    print_rest(row);
}

/* What a slot keeps. Answers whether all of it could be read. */
static int print_slot(unsigned long number, const uint8_t *s, size_t size, uint8_t settings, update_printer *print_update) {
    uint64_t found = doorbramble_parse_bgp_message(s, size);
    unsigned refusal = doorbramble_refusal(found);
    if (refusal != 0) {
        printf("slot %lu: refused %u: %s\n", number, refusal, reason(refusal));
        return 0;
    }
    printf("slot %lu: %s, %u of %u bytes%s%s%s\n", number, KINDS[doorbramble_kind(found)], doorbramble_taken(found),
           doorbramble_claimed(found), doorbramble_cut(found) ? ", cut" : "", doorbramble_trailing(found) ? ", other bytes follow" : "",
           doorbramble_bad_marker(found) ? ", marker not all FF" : "");
    if (doorbramble_kind(found) != DOORBRAMBLE_UPDATE)
        return 1;
    return print_update(s + DOORBRAMBLE_HEADER_SIZE, doorbramble_taken(found) - DOORBRAMBLE_HEADER_SIZE, settings);
}

static void skip(struct input *in, size_t bytes) {
    in->front += bytes;
    in->size -= bytes;
    in->before += bytes;
}

/* As many more bytes as the buffer has room for. Answers whether they could be read. */
static int read_more(struct input *in) {
    size_t room = BUFFER_SIZE - in->size, got;
    memmove(buffer, in->front, in->size);
    got = fread(buffer + in->size, 1, room, in->file);
    in->front = buffer;
    in->size += got;
    in->last = got < room;
    return !ferror(in->file);
}

/* Every slot of an input, with the refused ones counted, while the output can be written. Answers why the input ends before its end, and
 * NULL where it does not. */
static const char *print_slots(struct input *in, unsigned long *refused, update_printer *print_update) {
    unsigned long number = 1;
    while (!ferror(stdout)) {
        uint64_t found = doorbramble_next_slot(in->front, in->size, in->last);
        unsigned kept = doorbramble_slot_kept(found);
        switch (doorbramble_slot_state(found)) {
        case DOORBRAMBLE_SLOT_RECORD:
            if (!print_slot(number++, in->front + DOORBRAMBLE_RECORD_SIZE, kept, doorbramble_slot_settings(found), print_update))
                ++*refused;
            skip(in, DOORBRAMBLE_RECORD_SIZE + kept);
            break;
        case DOORBRAMBLE_SLOT_MORE:
            if (!read_more(in))
                return strerror(errno);
            break;
        case DOORBRAMBLE_SLOT_END:
            return NULL;
        default:
            found = doorbramble_next_slot(in->front, in->size, 0);
            return doorbramble_slot_state(found) == DOORBRAMBLE_SLOT_MORE ? "the input ends within a record" : "no slot record";
        }
    }
    return NULL;
}

/* All of an example: the file that its one argument names, `-` for standard input, to the end. Answers the exit status: 0 where every
 * message and all of it that the example reads was good; 1 where something was refused; 2 where the input cannot be read to its end as
 * records, or the output cannot be written, with a sentence on standard error. */
static int list_slots(const char *me, int argc, char **argv, update_printer *print_update) {
    struct input in = {NULL, stdin, buffer, 0, 0, 0};
    unsigned long refused = 0;
    const char *trouble;
    int from_stdin;
    if (argc != 2) {
        fprintf(stderr, "usage: %s FILE\n", me);
        return 2;
    }
    from_stdin = strcmp(argv[1], "-") == 0;
    in.name = from_stdin ? "standard input" : argv[1];
    if (!from_stdin && (in.file = fopen(argv[1], "rb")) == NULL) {
        fprintf(stderr, "%s: %s: %s\n", me, in.name, strerror(errno));
        return 2;
    }
    trouble = print_slots(&in, &refused, print_update);
    if (fflush(stdout) != 0 || ferror(stdout)) {
        fprintf(stderr, "%s: the output cannot be written: %s\n", me, strerror(errno));
        return 2;
    }
    if (trouble != NULL) {
        fprintf(stderr, "%s: %s: byte %llu: %s\n", me, in.name, in.before, trouble);
        return 2;
    }
    return refused == 0 ? 0 : 1;
}

#endif
