/* Doorbramble for C: slot records and attribute sections read; BGP messages, UPDATE bodies, route lists, MP_REACH_NLRI, MP_UNREACH_NLRI,
 * AS_PATH and AGGREGATOR read and written; a route of a list found by its number; AS_PATH and AS4_PATH merged; the mark of guessed path ids
 * taken off rows.
 *
 * The functions are those of the static library that `tools/staticlib` writes, target/staticlib/libfirmware.a. Each is proved to
 * give the answer that its contract in crates/firmware_c/src names, for every input, and to end. None keeps a pointer, allocates, or
 * has state of its own.
 *
 * Slices. A slice is two arguments: a pointer to its first element, and its length in elements. The caller owes
 *   - that so many elements stand there, aligned for their type, for as long as the call runs;
 *   - that no slice without `const` overlaps another slice of the same call.
 * A slice of length 0 may have any pointer, NULL too: it is not followed.
 *
 * Flags. `last`, `ipv6`, `add_path` and `four_bytes` are flags: 0 is no, and any other number is yes. `edition` is DOORBRAMBLE_RFC_4271, which
 * is 0, or DOORBRAMBLE_RFC_8654, as which any other number is read. `settings` is no flag but a slot's settings byte, DOORBRAMBLE_ADD_PATH or
 * DOORBRAMBLE_GUESS or 0. One given as `add_path` would mean path ids wherever it is not 0.
 *
 * Answers. Every call answers with one number of 64 bits: three fields of 16 bits, and above them a refusal number, which is 0 where the
 * call did its work. doorbramble_clear_guessed alone has one number in all three fields. The functions at the end of this file take an answer
 * apart. With a refusal the fields are 0 and every slice is as it was. Without one, elements of a written slice past those that the answer
 * counts are as they were.
 *
 * Rows. A route is six words: its length in bits, plus DOORBRAMBLE_ROW_HAS_ID where it has a path id, plus DOORBRAMBLE_ROW_GUESSED too where
 * it was DOORBRAMBLE_GUESS that found the id; the id, or 0; four address words, the first byte highest, of which IPv4 uses the first and
 * leaves 0 in the others. Bits past the length in the last octet of the prefix are kept as they were sent; what is past that octet is 0. A
 * row takes a byte at least, and one with a path id five. So a list has at most 65,535 rows, or 13,107 where each has an id; a body has at
 * most DOORBRAMBLE_BODY_ROWS, in one section or both together, or 13,102.
 *
 * Host bits. A row has host bits where a bit past its length is set, as 10.255.0.0/9 has, which is sent as `09 0A FF` where 10.128.0.0/9 is
 * meant. All of them stand in the last octet of the prefix, so a row whose length is a multiple of 8 has none. Answers count the rows that
 * have host bits, and not the bits.
 *
 * Rows to write. Refusal 14 is given exactly where
 *   - the length of a store of rows is not a multiple of DOORBRAMBLE_ROW_WORDS;
 *   - the first word of a row is not a length up to 32 for IPv4 or 128 for IPv6, plus DOORBRAMBLE_ROW_HAS_ID where add_path is set: one with
 *     DOORBRAMBLE_ROW_GUESSED never is;
 *   - the id is not 0, and add_path is not set;
 *   - an octet of the address words past those of the prefix, its length rounded up to whole octets, is not 0: for IPv4 any octet of the
 *     last three words.
 * Host bits are written as they are. So rows that were read with DOORBRAMBLE_GUESS are written where it found an id in none of them. A caller
 * who takes guessed ids for sent ones takes the marks off first, with doorbramble_clear_guessed; where some rows have ids and others none, it
 * is still 14, whatever add_path is.
 *
 * The machine. x86-64, by the calling convention of Linux. No call uses more stack than DOORBRAMBLE_STACK_LIMIT; none is recursive, calls
 * anything outside the library, or keeps data. They use the red zone, the 128 bytes below the stack pointer, and SSE registers, with no
 * instruction past SSE2. So whatever interrupts a call on its own stack must leave those 128 bytes alone; and a kernel or an interrupt
 * handler that makes a call must have SSE on, and keep the SSE registers of what it interrupted. */
#ifndef DOORBRAMBLE_H
#define DOORBRAMBLE_H

#include <stddef.h>
#include <stdint.h>

#ifdef __cplusplus
extern "C" {
#endif

/* ---- version */

/* of this header: the major number rises when a caller that was compiled before would break, the minor one when calls or fields are
 * added. doorbramble_version() is that of the library. */
#define DOORBRAMBLE_VERSION_MAJOR 2
#define DOORBRAMBLE_VERSION_MINOR 1

/* ---- refusal numbers */

/* a list, value or section, read or to write, is over 65,535 bytes; an UPDATE body, read or to write, is over 65,516 */
#define DOORBRAMBLE_TOO_LONG 1
/* there are fewer bytes than the field needs */
#define DOORBRAMBLE_TRUNCATED 2
/* the message length is not allowed */
#define DOORBRAMBLE_MESSAGE_LENGTH 3
/* the message type is not 1 to 5 */
#define DOORBRAMBLE_MESSAGE_TYPE 4

/* never given (a message body is shorter than the measured length) */
#define DOORBRAMBLE_SHORT_BODY 5
/* the marker is not all FF (strict) */
#define DOORBRAMBLE_BAD_MARKER 6
/* a prefix length is over 32 (IPv4) or 128 (IPv6) */
#define DOORBRAMBLE_PREFIX_LENGTH 7
/* a whole section is one nonzero byte: the withdrawn or the announced one of an UPDATE */
#define DOORBRAMBLE_ONE_BYTE_SECTION 8
/* a segment type is not 1 to 4 */
#define DOORBRAMBLE_SEGMENT_TYPE 9
/* an AGGREGATOR is not 6 or 8 bytes; in a call on both, AGGREGATOR is neither empty nor 6 bytes, or AS4_AGGREGATOR neither empty
 * nor 8 */
#define DOORBRAMBLE_AGGREGATOR_LENGTH 10
/* there are too few places in the store or output */
#define DOORBRAMBLE_NO_ROOM 11
/* a segment to write has over 255 numbers */
#define DOORBRAMBLE_LONG_SEGMENT 12
/* an AS number to write in two bytes is over 65,535 */
#define DOORBRAMBLE_WIDE_NUMBER 13
/* a row or a path cannot be written; a store whose marks are taken off is not whole rows: see "Rows to write" and
 * doorbramble_encode_as_path */
#define DOORBRAMBLE_NOT_WRITABLE 14
/* an attribute section that is searched has a second MP_REACH_NLRI or a second MP_UNREACH_NLRI */
#define DOORBRAMBLE_REPEATED_MP_NLRI 15
/* a segment has no AS numbers (strict) */
#define DOORBRAMBLE_EMPTY_SEGMENT 16
/* MP_REACH_NLRI or MP_UNREACH_NLRI is of another family pair than IPv6 unicast (2, 1) */
#define DOORBRAMBLE_OTHER_FAMILY 17
/* a next hop, read or to write, is not 16 or 32 bytes */
#define DOORBRAMBLE_NEXT_HOP_LENGTH 18
/* an index is not strictly rising from 0, or has a place at or past its list's end */
#define DOORBRAMBLE_NOT_AN_INDEX 19
/* an index lacks the start that a route's number needs, or the items run out before that route */
#define DOORBRAMBLE_NO_SUCH_ROUTE 20

/* ---- message types, settings, sizes */

/* The lengths that a message may have, its header of 19 bytes in it:
 *                  parse_bgp_message   parse_bgp_message_strict   parse_bgp_message_by_edition   encode_bgp_message
 *                                      or _by_edition, RFC 4271   RFC 8654
 *   OPEN           19 to 4,096         29 to 4,096                29 to 4,096                    29 to 4,096
 *   UPDATE         19 to 65,535        23 to 4,096                23 to 65,535                   23 to 65,535
 *   NOTIFICATION   19 to 65,535        21 to 4,096                21 to 65,535                   21 to 65,535
 *   KEEPALIVE      19 to 4,096         19                         19                             19
 *   ROUTE-REFRESH  19 to 65,535        23 to 4,096                23 to 65,535                   23 to 65,535 */
#define DOORBRAMBLE_OPEN 1
#define DOORBRAMBLE_UPDATE 2
#define DOORBRAMBLE_NOTIFICATION 3
#define DOORBRAMBLE_KEEPALIVE 4
#define DOORBRAMBLE_ROUTE_REFRESH 5

/* the editions: RFC 4271, by which no message is over 4,096 bytes; and RFC 8654, for peers that both said they take long messages (BGP Extended
 * Message Capability), by which UPDATE, NOTIFICATION and ROUTE-REFRESH may have up to 65,535 */
#define DOORBRAMBLE_RFC_4271 0
#define DOORBRAMBLE_RFC_8654 1

/* the bits of `settings`, the settings byte of a slot: every item has a path id; or the crate's guess, item by item, which is for lists
 * without DOORBRAMBLE_ADD_PATH alone. Other bits are not read. */
#define DOORBRAMBLE_ADD_PATH 1
#define DOORBRAMBLE_GUESS 2

/* the bytes of a slot record before those it keeps, and the most that it keeps */
#define DOORBRAMBLE_RECORD_SIZE 5
#define DOORBRAMBLE_KEPT_LIMIT 65535
/* the bytes of a message's header: its body starts there */
#define DOORBRAMBLE_HEADER_SIZE 19
/* the most bytes of a list, of an attribute section or of an attribute's value, and of an UPDATE body; the most rows of a body, in both
 * sections together */
#define DOORBRAMBLE_LIST_LIMIT 65535
#define DOORBRAMBLE_BODY_LIMIT 65516
#define DOORBRAMBLE_BODY_ROWS 65512
/* the words of a row, and what a path id adds to the first of them */
#define DOORBRAMBLE_ROW_WORDS 6
#define DOORBRAMBLE_ROW_HAS_ID 256
/* what is added beside it where the guess found the id, so that the peer may have sent none; such a row is not written: 14 */
#define DOORBRAMBLE_ROW_GUESSED 512
/* the items from one place of an index to the next, and the most places that the index of a list has */
#define DOORBRAMBLE_INDEX_SPACING 16
#define DOORBRAMBLE_INDEX_PLACES 4096
/* the words of a segment in a store of pairs, its type and its count, and of an AGGREGATOR, its AS number and its identifier */
#define DOORBRAMBLE_PAIR_WORDS 2
#define DOORBRAMBLE_AGGREGATOR_WORDS 2

/* the most bytes of stack that a call uses, its return address included; tools/stack-use measures 504 in the library of the kit that README.md
 * names */
#define DOORBRAMBLE_STACK_LIMIT 512

/* ---- the version of the library */

/* Answer: version_major, version_minor. */
uint64_t doorbramble_version(void);

/* ---- slots */

/* a record, with all that it keeps */
#define DOORBRAMBLE_SLOT_RECORD 0
/* a part of a record, or nothing: more bytes are needed */
#define DOORBRAMBLE_SLOT_MORE 1
/* what is no record, nor becomes one */
#define DOORBRAMBLE_SLOT_STOP 2
/* nothing, and no more bytes follow */
#define DOORBRAMBLE_SLOT_END 3

/* What stands at the front of s, a drive's input or as much of it as is at hand; the flag last says that no bytes follow. A record is the
 * bytes C5 3A, the number of kept bytes in two bytes, a settings byte up to 3, and the kept bytes, from DOORBRAMBLE_RECORD_SIZE on; the next
 * record follows them. Answer: slot_state, one of the four above; for a record also slot_kept and slot_settings, which other calls take as
 * `settings`: 0, DOORBRAMBLE_GUESS, or DOORBRAMBLE_ADD_PATH for the settings bytes 1 and 3. No refusal is given.
 * Without last, a record and a stop stay so whatever bytes follow, and more bytes are asked for of fewer than DOORBRAMBLE_RECORD_SIZE +
 * DOORBRAMBLE_KEPT_LIMIT alone. With last, none are asked for: a record that is not all there is a stop. */
uint64_t doorbramble_next_slot(const uint8_t *s, size_t s_len, uint8_t last);

/* ---- messages */

/* The header at the front of s, as the crate reads it: a message may be cut short, or followed by other bytes, and may have any marker.
 * Answer: claimed, taken, kind, and the flags bad_marker, cut and trailing. The body is the bytes of s from DOORBRAMBLE_HEADER_SIZE up to
 * taken. Refusals: 2 under 19 bytes; 3 where under 19 are claimed; 4; 3 where the type may not claim so many. */
uint64_t doorbramble_parse_bgp_message(const uint8_t *s, size_t s_len);

/* The header at the front of s by RFC 4271: the marker is all FF, the length is right for the type, and the message is all there.
 * Answer: as above; bad_marker and cut are never set, and trailing says that bytes of a next message follow. Refusals: 2 under 19 bytes; 6; 3
 * where under 19 or over 4,096 are claimed; 4; 3 where the type may not claim so many; 2 where they are not all there. */
uint64_t doorbramble_parse_bgp_message_strict(const uint8_t *s, size_t s_len);

/* The same by an edition; with DOORBRAMBLE_RFC_4271 it answers as the call above does. With DOORBRAMBLE_RFC_8654 the refusals are: 2 under 19
 * bytes; 6; 3 where under 19 are claimed; 4; 3 where the type may not claim so many, as an OPEN or a KEEPALIVE over 4,096; 2 where they are not
 * all there. What is accepted by RFC 4271 is answered the same by RFC 8654. */
uint64_t doorbramble_parse_bgp_message_by_edition(const uint8_t *s, size_t s_len, uint8_t edition);

/* A message of a type and a body, with an all-FF marker, at the front of out. Answer: bytes. Refusals: 4, 3, then 11. */
uint64_t doorbramble_encode_bgp_message(uint8_t kind, const uint8_t *body, size_t body_len, uint8_t *out, size_t out_len);

/* ---- UPDATE bodies */

/* Where the withdrawn section, the attribute section and the announced section of a body stand. Answer: offset, length. Refusals: 1, 2. */
uint64_t doorbramble_withdrawn_part(const uint8_t *body, size_t body_len);
uint64_t doorbramble_attribute_part(const uint8_t *body, size_t body_len);
uint64_t doorbramble_announced_part(const uint8_t *body, size_t body_len);

/* How many routes, all IPv4, the withdrawn and the announced section have. A malformed section does not refuse the body: it has no rows,
 * and its verdict is 2, 7 or 8. Answer: withdrawn_rows, announced_rows, withdrawn_verdict, announced_verdict. Refusals: 1, 2. */
uint64_t doorbramble_count_bgp_update_message(const uint8_t *body, size_t body_len, uint8_t settings);

/* The same, with the rows of each section at the front of its store. Refusals: 1, 2, then 11 where either store has no room for the rows of
 * its section. */
uint64_t doorbramble_parse_bgp_update_message(const uint8_t *body, size_t body_len, uint8_t settings, uint32_t *withdrawn,
                                              size_t withdrawn_len, uint32_t *announced, size_t announced_len);

/* How many rows of each section have host bits: a call of its own, since the answer of the two above has no field left. It counts both sections
 * anew and takes about a third longer than doorbramble_count_bgp_update_message. It is lent no store, so it also tells of a body that the
 * reading call refuses with 11. A malformed section has no rows, and 0 here. Answer: withdrawn_hosts, announced_hosts. Refusals: 1, 2. */
uint64_t doorbramble_count_update_hosts(const uint8_t *body, size_t body_len, uint8_t settings);

/* A body of rows to withdraw, attribute bytes and rows to announce, all IPv4, both lists with path ids or both without, at the front of out.
 * Answer: bytes. Refusals: 14 of either list, 1, then 11. */
uint64_t doorbramble_encode_bgp_update_message(const uint32_t *withdrawn, size_t withdrawn_len, const uint8_t *attributes,
                                               size_t attributes_len, const uint32_t *announced, size_t announced_len,
                                               uint8_t add_path, uint8_t *out, size_t out_len);

/* ---- attributes */

/* types whose values have calls below; of the last two a section that is searched has no second */
#define DOORBRAMBLE_AS_PATH 2
#define DOORBRAMBLE_AGGREGATOR 7
#define DOORBRAMBLE_AS4_PATH 17
#define DOORBRAMBLE_AS4_AGGREGATOR 18
#define DOORBRAMBLE_MP_REACH_NLRI 14
#define DOORBRAMBLE_MP_UNREACH_NLRI 15

/* The attribute that starts at a place of an attribute section, 0 for the first: a byte of flags, one of its type, its value's length in one
 * byte or, where the flags have 0x10 set, in two, and the value. Answer: attribute_found; where the value stands in the section, offset and
 * length; attribute_kind and attribute_flags; attribute_next, the place of the next attribute. None is left at the section's end and past it:
 * all are 0. One that repeats an earlier one is answered as any other. Refusals: 1 for the section, wherever the place is; then 2 where the
 * attribute is not all there. Each of a section, as doorbramble_attribute_part found it:
 *
 *     uint64_t found = doorbramble_attribute_at(section, size, 0);
 *     while (doorbramble_attribute_found(found)) {
 *         use(doorbramble_attribute_kind(found), section + doorbramble_offset(found), doorbramble_length(found));
 *         found = doorbramble_attribute_at(section, size, doorbramble_attribute_next(found));
 *     }
 *     if (doorbramble_refusal(found) != 0)
 *         refuse(found); */
uint64_t doorbramble_attribute_at(const uint8_t *section, size_t section_len, size_t place);

/* The first attribute of a type in a section, all of which is judged first. Answer: as above; where the type is absent, all are 0.
 * Refusals: 1; then in byte order 2 for an attribute that is not all there, and 15 for a second MP_REACH_NLRI or a second MP_UNREACH_NLRI
 * that is, whatever type is searched for. A second of any other type is passed over. */
uint64_t doorbramble_find_attribute(const uint8_t *section, size_t section_len, uint8_t kind);

/* ---- route lists */

/* How many routes a list has, and how many of these have host bits. Answer: rows, hosts. Refusals: 1, then 2 and 7 in byte order. */
uint64_t doorbramble_count_nlri_list(const uint8_t *s, size_t s_len, uint8_t ipv6, uint8_t settings);

/* The same, with the rows at the front of store. Refusals: as above, then 11. */
uint64_t doorbramble_parse_nlri_list(const uint8_t *s, size_t s_len, uint8_t ipv6, uint8_t settings, uint32_t *store, size_t store_len);

/* Rows as a list, with path ids or without, at the front of out. Answer: bytes. Refusals: 14, 1, then 11. */
uint64_t doorbramble_encode_nlri_prefixes(const uint32_t *rows, size_t rows_len, uint8_t ipv6, uint8_t add_path, uint8_t *out,
                                          size_t out_len);

/* Takes DOORBRAMBLE_ROW_GUESSED off the first word of every row of a store, whichever call filled it; all other bits stay, whatever they are.
 * The store is its rows alone, so lend as many words as were filled. Answer: cleared_rows, all rows of the store, marked or not. Refusals: 14
 * where store_len is not a multiple of DOORBRAMBLE_ROW_WORDS. */
uint64_t doorbramble_clear_guessed(uint32_t *store, size_t store_len);

/* ---- a route of a list by its number */

/* The index of a list has the places in its bytes where items 0, 16, 32 and so on start, each DOORBRAMBLE_INDEX_SPACING items after the one
 * before. By it a route is read from the nearest such place, and not from the front of the list. A list of no items has an index of no places.
 *
 * An index is good for the very bytes, family and add_path that it was built from. With these, route n is row n, counted from 0, of
 * doorbramble_parse_nlri_list with DOORBRAMBLE_ADD_PATH or 0 as `settings`. With another index that is not refused, it is what is read from the
 * place that stands there. There is no index of a list read with DOORBRAMBLE_GUESS.
 *
 * A section of an UPDATE is a list here: one byte that is not 0 is refused with 2 or 7, and not with 8. Ten routes from a number on:
 *
 *     uint64_t built = doorbramble_build_index(list, size, 0, add_path, index, DOORBRAMBLE_INDEX_PLACES);
 *     size_t n, places = doorbramble_places(built);
 *     for (n = from; n < from + 10; n++) {
 *         uint64_t found = doorbramble_route_at(list, size, index, places, n, 0, add_path, row, DOORBRAMBLE_ROW_WORDS);
 *         if (doorbramble_refusal(found) != 0)
 *             break;
 *         use(row);
 *     } */

/* How many places the index of a list has. Answer: places. Refusals: 1, then 2 and 7 in byte order. */
uint64_t doorbramble_count_index(const uint8_t *s, size_t s_len, uint8_t ipv6, uint8_t add_path);

/* The same, with the index at the front of places. Refusals: as above, then 11. DOORBRAMBLE_INDEX_PLACES are enough for every list. */
uint64_t doorbramble_build_index(const uint8_t *s, size_t s_len, uint8_t ipv6, uint8_t add_path, uint16_t *places, size_t places_len);

/* Route n of a list, counted from 0, by an index: its row in the first six words of row. The index is its places alone, so lend as many as were
 * built. Answer: route_bytes, which its item takes; route_host, where it has host bits. Refusals, in this order:
 *    1 for the list
 *   19 where the index does not start with 0, has a place that is not greater than the one before it, or has one at or past the end of the
 *      list; an index of no places has none of these
 *   20 where the index has no place n / DOORBRAMBLE_INDEX_SPACING
 *   in byte order from that place on, 2 and 7 of the items up to route n, and 20 where the list ends before it
 *   11 where row has under six words */
uint64_t doorbramble_route_at(const uint8_t *s, size_t s_len, const uint16_t *index, size_t index_len, size_t n, uint8_t ipv6,
                              uint8_t add_path, uint32_t *row, size_t row_len);

/* ---- MP_REACH_NLRI and MP_UNREACH_NLRI, of IPv6 unicast routes (RFC 4760 sections 3 and 4, RFC 2545 section 3) */

/* where the next hop stands in the value of an MP_REACH_NLRI */
#define DOORBRAMBLE_NEXT_HOP_OFFSET 4

/* A value is its family in two bytes and its subfamily in one; in MP_REACH_NLRI then the length of the next hop in one byte, the next hop and
 * a reserved byte; and last the list, all IPv6, which may be empty, and which `settings` says how to read as for doorbramble_parse_nlri_list.
 * Of a value of another family nothing past the subfamily is looked at. Its 17 is no fault of the peer: these calls are not for it. */

/* How many routes an MP_REACH_NLRI announces, and how many of these have host bits. Its next hop is the bytes of the value from
 * DOORBRAMBLE_NEXT_HOP_OFFSET on: 16 are a global address, and 32 a global one and then a link-local one. Answer: rows, hosts,
 * next_hop_length; reserved_set, where the reserved byte is not 0, which is no refusal. Refusals: 1, then in byte order 2, 17, 18, and 2 and 7
 * of the list. Under three bytes are 2 whatever they are, and 18 comes before a 2 for the next hop's own bytes. */
uint64_t doorbramble_count_mp_reach_nlri(const uint8_t *value, size_t value_len, uint8_t settings);

/* The same, with the rows at the front of store. Refusals: as above, then 11. Room for DOORBRAMBLE_BODY_ROWS rows is enough for every value of
 * an UPDATE. */
uint64_t doorbramble_parse_mp_reach_nlri(const uint8_t *value, size_t value_len, uint8_t settings, uint32_t *store, size_t store_len);

/* An MP_REACH_NLRI of a next hop and rows, with path ids or without, at the front of out. The reserved byte is 0: a value that was read with
 * reserved_set is not written back the same. Answer: bytes. Refusals: 18, 14, 1 where the whole value is over 65,535 bytes, then 11. */
uint64_t doorbramble_encode_mp_reach_nlri(const uint8_t *next_hop, size_t next_hop_len, const uint32_t *rows, size_t rows_len,
                                          uint8_t add_path, uint8_t *out, size_t out_len);

/* The same three of an MP_UNREACH_NLRI, which withdraws its routes, and has no next hop and no reserved byte. Answers: rows, hosts; the same;
 * bytes. Refusals: those above but 18. */
uint64_t doorbramble_count_mp_unreach_nlri(const uint8_t *value, size_t value_len, uint8_t settings);
uint64_t doorbramble_parse_mp_unreach_nlri(const uint8_t *value, size_t value_len, uint8_t settings, uint32_t *store, size_t store_len);
uint64_t doorbramble_encode_mp_unreach_nlri(const uint32_t *rows, size_t rows_len, uint8_t add_path, uint8_t *out, size_t out_len);

/* ---- AS_PATH and AGGREGATOR, of AS numbers of two bytes or of four */

/* How many segments an AS_PATH has, and how many AS numbers they have together. Answer: segments, numbers. Refusals: 1, then 2 and 9 in
 * byte order. A segment of no AS numbers is one, as the crate has it: `02 00` is an empty sequence. */
uint64_t doorbramble_count_as_path(const uint8_t *value, size_t value_len, uint8_t four_bytes);

/* The same, with a pair of type and count for each segment at the front of pairs, and the AS numbers of all of them back to back at the
 * front of numbers. Types: 1 set, 2 sequence, 3 confederation sequence, 4 confederation set. Refusals: as above, then 11. */
uint64_t doorbramble_parse_as_path(const uint8_t *value, size_t value_len, uint8_t four_bytes, uint32_t *pairs, size_t pairs_len,
                                   uint32_t *numbers, size_t numbers_len);

/* Such pairs and numbers as an AS_PATH, at the front of out. Answer: bytes. Refusals: 14 where pairs has an odd length or its counts do not
 * add up to numbers_len; then 9, 12 and 13 segment by segment; 1; 11. */
uint64_t doorbramble_encode_as_path(const uint32_t *pairs, size_t pairs_len, const uint32_t *numbers, size_t numbers_len,
                                    uint8_t four_bytes, uint8_t *out, size_t out_len);

/* The same three by RFC 7606 section 7.2, which calls a segment of no AS numbers malformed: 16 for such a segment. In one segment it comes
 * after 9, and before 12 and 13. Everything else is answered as above. */
uint64_t doorbramble_count_as_path_strict(const uint8_t *value, size_t value_len, uint8_t four_bytes);
uint64_t doorbramble_parse_as_path_strict(const uint8_t *value, size_t value_len, uint8_t four_bytes, uint32_t *pairs, size_t pairs_len,
                                          uint32_t *numbers, size_t numbers_len);
uint64_t doorbramble_encode_as_path_strict(const uint32_t *pairs, size_t pairs_len, const uint32_t *numbers, size_t numbers_len,
                                           uint8_t four_bytes, uint8_t *out, size_t out_len);

/* The AS number and the identifier of an AGGREGATOR, at the front of words. Its own length says how wide its AS number is, and differs that
 * this is not the width given. Answer: words, differs. Refusals: 1, 10, then 11. */
uint64_t doorbramble_parse_aggregator(const uint8_t *value, size_t value_len, uint8_t four_bytes, uint32_t *words, size_t words_len);

/* An AGGREGATOR at the front of out. Answer: bytes. Refusals: 13, then 11. */
uint64_t doorbramble_encode_aggregator(uint32_t asn, uint32_t identifier, uint8_t four_bytes, uint8_t *out, size_t out_len);

/* ---- old and new AS numbers side by side (RFC 6793 section 4.2.3) */

/* what a peer with AS numbers of two bytes writes for one over 65,535. The number itself stands in AS4_PATH or AS4_AGGREGATOR. */
#define DOORBRAMBLE_AS_TRANS 23456

/* These calls take the values of one UPDATE of such a peer: AS_PATH and AGGREGATOR with AS numbers of two bytes, AS4_PATH and AS4_AGGREGATOR
 * with AS numbers of four. One that the UPDATE does not have is empty. */

/* Which of two AGGREGATORs stands. Where both are there, it is AGGREGATOR if its AS number is not DOORBRAMBLE_AS_TRANS, and AS4_AGGREGATOR if
 * it is; where either is absent, it is AGGREGATOR, be it there or not. Answer: standing; offset and length, which are all of the value that
 * stands, as doorbramble_parse_aggregator reads it. Refusals: 10. */
uint64_t doorbramble_standing_aggregator(const uint8_t *aggregator, size_t aggregator_len, const uint8_t *as4_aggregator,
                                         size_t as4_aggregator_len);

/* How many segments and AS numbers the path has that AS_PATH and AS4_PATH make together:
 *   - Where AGGREGATOR and AS4_AGGREGATOR are both there and AGGREGATOR stands, AS4_PATH is ignored: the path is AS_PATH.
 *   - Otherwise a set counts as one, a sequence as its AS numbers, and a confederation segment as none; and AS4_PATH is taken without its
 *     confederation segments. Where it then has no segment, or AS_PATH counts fewer, the path is AS_PATH.
 *   - Otherwise the path is the front of AS_PATH, which makes up the difference of the two counts, and then AS4_PATH. The front has whole
 *     segments, those of confederations too. It ends before a set or a sequence, even an empty one, once nothing is left to make up, or with
 *     the first AS numbers of a sequence that counts more than is left. Segments are not joined: a sequence of 65001 23456 23456, and in
 *     AS4_PATH one of 70000 70001, make a sequence of 65001 and then one of 70000 70001.
 * Answer: segments, numbers. Refusals: 10; those of doorbramble_count_as_path for AS_PATH; those for AS4_PATH, even where it is ignored. */
uint64_t doorbramble_count_merged_as_path(const uint8_t *as_path, size_t as_path_len, const uint8_t *as4_path, size_t as4_path_len,
                                          const uint8_t *aggregator, size_t aggregator_len, const uint8_t *as4_aggregator,
                                          size_t as4_aggregator_len);

/* The same, with pairs and numbers as doorbramble_parse_as_path has them. Refusals: as above, then 11. There is room for every path of two
 * values where there is room for the segments and the AS numbers of both: 65,534 segments, in twice as many words, and 48,990 AS numbers are
 * enough for all. As an AS_PATH of four bytes the path can be over 65,535 bytes, which doorbramble_encode_as_path refuses with 1. */
uint64_t doorbramble_merge_as_path(const uint8_t *as_path, size_t as_path_len, const uint8_t *as4_path, size_t as4_path_len,
                                   const uint8_t *aggregator, size_t aggregator_len, const uint8_t *as4_aggregator,
                                   size_t as4_aggregator_len, uint32_t *pairs, size_t pairs_len, uint32_t *numbers, size_t numbers_len);

#ifdef __cplusplus
}
#endif

/* ---- the fields of an answer */

/* the refusal number, 0 where there is none */
static inline unsigned doorbramble_refusal(uint64_t answer) { return (unsigned)(answer >> 48); }

/* the three fields, and the two bytes of the third */
static inline unsigned doorbramble_field_a(uint64_t answer) { return (unsigned)(answer & 0xFFFF); }
static inline unsigned doorbramble_field_b(uint64_t answer) { return (unsigned)(answer >> 16 & 0xFFFF); }
static inline unsigned doorbramble_field_c_low(uint64_t answer) { return (unsigned)(answer >> 32 & 0xFF); }
static inline unsigned doorbramble_field_c_high(uint64_t answer) { return (unsigned)(answer >> 40 & 0xFF); }

/* of the library's version */
static inline unsigned doorbramble_version_major(uint64_t answer) { return doorbramble_field_a(answer); }
static inline unsigned doorbramble_version_minor(uint64_t answer) { return doorbramble_field_b(answer); }

/* of a slot: what stands there; the bytes that a record keeps and its settings, 0 where there is none */
static inline unsigned doorbramble_slot_state(uint64_t answer) { return doorbramble_field_c_low(answer); }
static inline unsigned doorbramble_slot_kept(uint64_t answer) { return doorbramble_field_a(answer); }
static inline uint8_t doorbramble_slot_settings(uint64_t answer) { return (uint8_t)doorbramble_field_b(answer); }

/* of a message: the length that its header claims, the bytes of it that are there, its type; whether its marker is not all FF, it claims
 * more bytes than there are, or fewer. doorbramble_marker is the old name of doorbramble_bad_marker. */
static inline unsigned doorbramble_claimed(uint64_t answer) { return doorbramble_field_a(answer); }
static inline unsigned doorbramble_taken(uint64_t answer) { return doorbramble_field_b(answer); }
static inline unsigned doorbramble_kind(uint64_t answer) { return doorbramble_field_c_low(answer); }
static inline int doorbramble_bad_marker(uint64_t answer) { return (doorbramble_field_c_high(answer) & 1) != 0; }
static inline int doorbramble_marker(uint64_t answer) { return doorbramble_bad_marker(answer); }
static inline int doorbramble_cut(uint64_t answer) { return (doorbramble_field_c_high(answer) & 2) != 0; }
static inline int doorbramble_trailing(uint64_t answer) { return (doorbramble_field_c_high(answer) & 4) != 0; }

/* of a part */
static inline unsigned doorbramble_offset(uint64_t answer) { return doorbramble_field_a(answer); }
static inline unsigned doorbramble_length(uint64_t answer) { return doorbramble_field_b(answer); }

/* of an attribute, whose value is such a part: 1 where there is one; its type and its flags; the place of the next one. Each is 0 where there
 * is none, or a refusal: 0 as the next place is the first again, so a loop asks attribute_found. */
static inline int doorbramble_attribute_found(uint64_t answer) { return doorbramble_offset(answer) != 0; }
static inline unsigned doorbramble_attribute_kind(uint64_t answer) { return doorbramble_field_c_low(answer); }
static inline unsigned doorbramble_attribute_flags(uint64_t answer) { return doorbramble_field_c_high(answer); }
static inline unsigned doorbramble_attribute_next(uint64_t answer) { return doorbramble_offset(answer) + doorbramble_length(answer); }

/* of an UPDATE body; a verdict is 0 where the section is good, and else a refusal number */
static inline unsigned doorbramble_withdrawn_rows(uint64_t answer) { return doorbramble_field_a(answer); }
static inline unsigned doorbramble_announced_rows(uint64_t answer) { return doorbramble_field_b(answer); }
static inline unsigned doorbramble_withdrawn_verdict(uint64_t answer) { return doorbramble_field_c_low(answer); }
static inline unsigned doorbramble_announced_verdict(uint64_t answer) { return doorbramble_field_c_high(answer); }

/* of doorbramble_count_update_hosts alone: the rows of each section that have host bits */
static inline unsigned doorbramble_withdrawn_hosts(uint64_t answer) { return doorbramble_field_a(answer); }
static inline unsigned doorbramble_announced_hosts(uint64_t answer) { return doorbramble_field_b(answer); }

/* of a list, and of an MP_REACH_NLRI or MP_UNREACH_NLRI: its rows, and how many of them have host bits */
static inline unsigned doorbramble_rows(uint64_t answer) { return doorbramble_field_a(answer); }
static inline unsigned doorbramble_hosts(uint64_t answer) { return doorbramble_field_b(answer); }

/* of doorbramble_clear_guessed alone: the rows of the store, which may be more than a list has; 0 with a refusal */
static inline uint64_t doorbramble_cleared_rows(uint64_t answer) { return answer & 0xFFFFFFFFFFFF; }

/* of an index */
static inline unsigned doorbramble_places(uint64_t answer) { return doorbramble_field_a(answer); }

/* of a route by an index: the bytes that its item takes, and 0 with a refusal; whether it has host bits */
static inline unsigned doorbramble_route_bytes(uint64_t answer) { return doorbramble_field_a(answer); }
static inline int doorbramble_route_host(uint64_t answer) { return doorbramble_field_b(answer) != 0; }

/* of an MP_REACH_NLRI alone: the bytes of its next hop, 16 or 32, and 0 with a refusal; whether its reserved byte is not 0 */
static inline unsigned doorbramble_next_hop_length(uint64_t answer) { return doorbramble_field_c_low(answer); }
static inline int doorbramble_reserved_set(uint64_t answer) { return doorbramble_field_c_high(answer) != 0; }

/* of an AS_PATH, read or merged */
static inline unsigned doorbramble_segments(uint64_t answer) { return doorbramble_field_a(answer); }
static inline unsigned doorbramble_numbers(uint64_t answer) { return doorbramble_field_b(answer); }

/* of an AGGREGATOR */
static inline unsigned doorbramble_words(uint64_t answer) { return doorbramble_field_a(answer); }
static inline int doorbramble_differs(uint64_t answer) { return doorbramble_field_b(answer) != 0; }

/* of two AGGREGATORs: 1 where AGGREGATOR stands, and 2 where AS4_AGGREGATOR does, of which the value is such a part; 0 with a refusal */
static inline unsigned doorbramble_standing(uint64_t answer) { return doorbramble_field_c_low(answer); }

/* of a writer: the bytes that it wrote */
static inline unsigned doorbramble_bytes(uint64_t answer) { return doorbramble_field_a(answer); }

#endif
