/*
 * Specksonne: the policy gate of an IPsec gateway (RFC 4301, IPv4).
 *
 * Each function is proved to end, for any arguments, to touch no memory but what it is lent, and to
 * answer by document 01's rules. Link with crates/specksonne/out/libspecksonne.a,
 * which `rt lib` in crates/specksonne proves and writes (x86-64).
 *
 * What the caller owes:
 * - A pointer beside a count is to that many elements, a pointer to an array to as many as the
 *   array has, and aligned for its type. A pointer beside the count 0 may be null; no other may.
 * - What a function may write overlaps nothing else that the call is lent, and nobody else uses
 *   it during the call. Constant arguments may overlap.
 * - specksonne_policy, specksonne_normalise and specksonne_same need up to 1 MiB of stack, every
 *   other function less than 64 KiB.
 *
 * Threads: the library has no state of its own, and constant arguments are only read. So threads
 * may share one policy and one table, each with caches of its own, as long as nobody writes to the
 * policy or the table meanwhile (specksonne_policy, specksonne_add, specksonne_remove).
 *
 * Caches: a cache holds rows of the policy that was searched. When a policy is accepted, every
 * cache that was used before must be emptied before it is used again, or it may pass in clear what
 * the new policy forbids. specksonne_policy empties the two that it is given; a further cache, of
 * another thread, is emptied by its owner: zeros are an empty cache.
 *
 * Time, as measured (docs/PERFORMANCE.md): a packet takes up to 2 microseconds. Laying a policy
 * out (specksonne_policy for both directions, specksonne_normalise for one) and comparing two
 * (specksonne_same) take milliseconds, and up to 0.2 s for each direction of the hardest policy of
 * 256 rows that was found. What is proved is that they end, not when: call them where a wait does
 * no harm.
 *
 * Numbers returned are those of document 01's table, and `carries` is what the answer carries,
 * zeros where nothing is listed. Any words may be lent as a policy, a table or a cache: then a
 * call still ends and says what it does, but only words that began with specksonne_fresh and were
 * changed by these functions alone are those of a gateway.
 */
#ifndef SPECKSONNE_H
#define SPECKSONNE_H

#include <stdbool.h>
#include <stddef.h>
#include <stdint.h>

#ifdef __cplusplus
extern "C" {
#endif

/*
 * The number of the binary interface. A program refers to the function that carries it in its name,
 * so that one which was compiled for another number does not link. It is raised whenever a program
 * that was compiled before could no longer be right: a size below, what a word means, a parameter,
 * a result or what an answer carries has changed. A function that is new raises the version alone.
 */
#define SPECKSONNE_ABI 1
uint64_t specksonne_abi_1(void);
#if defined(__has_attribute)
#if __has_attribute(retain)
#define SPECKSONNE_KEPT __attribute__((used, retain))
#endif
#endif
#ifndef SPECKSONNE_KEPT
#define SPECKSONNE_KEPT __attribute__((used))
#endif
static uint64_t (*const specksonne_abi_wanted)(void) SPECKSONNE_KEPT = specksonne_abi_1;
#undef SPECKSONNE_KEPT

/* Directions: 1 is out, and any other number in. */
#define SPECKSONNE_OUT 1
#define SPECKSONNE_IN 2

/*
 * A row: 22 words. Word 0 is its direction (1 out, 2 in, any other both), word 1 its action (0
 * discard, 1 bypass, N + 2 protect-N), then four for each of five fields: local address, remote
 * address, protocol, local port, remote port. The four are the low end and the high end, each two
 * words, the upper first (0 for IPv4). An absent port is 65536.
 */
#define SPECKSONNE_ROW_WORDS 22
struct specksonne_row {
    uint64_t words[SPECKSONNE_ROW_WORDS];
};

/* The most rows of a policy, and of a normal form for one direction. */
#define SPECKSONNE_MOST_ROWS 256

/*
 * The table of SA pairs: 64 places of 24 words. Word 0 of a place is the pair's protocol (50 ESP,
 * 51 AH; any other: the place is free), then inbound SPI, outbound SPI, protect number, and four
 * words for each of the five fields, as in a row.
 */
#define SPECKSONNE_TABLE_WORDS 1536

/*
 * The policy of a gateway: word 0 is the gateway's address (10.0.0.1 is 0x0a000001), words 1 and 2
 * the counts of normal-form rows for out and for in, then room for 256 rows for out and as much
 * for in.
 */
#define SPECKSONNE_POLICY_WORDS 11267

/* A cache: 32 slots for rows, the count of slots in use (the first ones), the slot that is next.
   Zeros are an empty one. */
#define SPECKSONNE_CACHE_WORDS 706

/* Bytes that are enough for every normal-form file. */
#define SPECKSONNE_MOST_FORM_BYTES (9 + SPECKSONNE_MOST_ROWS * 120)

/* Document 01's answers. */
enum {
    SPECKSONNE_PASS = 0,                 /* pass in clear */
    SPECKSONNE_DELIVER = 1,              /* deliver */
    SPECKSONNE_PROTECT = 2,              /* protect: N, the pair's protocol, outbound SPI */
    SPECKSONNE_WANTED = 3,               /* association wanted: N */
    SPECKSONNE_TO_IPSEC = 4,             /* to AH/ESP: protocol, inbound SPI */
    SPECKSONNE_DONE = 5,                 /* done: for a print the count of bytes, for a parsed
                                            policy the count of rows */
    SPECKSONNE_NOT_READABLE = 10,        /* not readable */
    SPECKSONNE_DISCARDED = 11,           /* policy discards */
    SPECKSONNE_CAME_IN_CLEAR = 12,       /* came in clear, policy says protect */
    SPECKSONNE_NO_SUCH_PAIR = 13,        /* no such pair */
    SPECKSONNE_DOES_NOT_FIT = 14,        /* doesn't fit the pair */
    SPECKSONNE_IPSEC_FRAGMENT = 15,      /* AH/ESP fragment */
    SPECKSONNE_IPSEC_TOO_SHORT = 16,     /* AH/ESP too short */
    SPECKSONNE_TRIGGER_UNREADABLE = 17,  /* returned header unreadable */
    SPECKSONNE_TRIGGER_DOES_NOT_FIT = 18,/* returned header doesn't fit */
    SPECKSONNE_BAD_ROW = 20,             /* bad row: its number, first row 1 */
    SPECKSONNE_TOO_MANY_ROWS = 21,       /* more than 256 rows */
    SPECKSONNE_FORM_TOO_LARGE = 22,      /* normal form over 256 rows: 1 for out, 2 for in */
    SPECKSONNE_NOT_HEADER = 23,          /* first nine bytes aren't the header line */
    SPECKSONNE_NOT_ENDED = 24,           /* last byte isn't LF */
    SPECKSONNE_RESERVED_SPI = 25,        /* either SPI below 256 */
    SPECKSONNE_ALREADY_LIVE = 26,        /* pair already live */
    SPECKSONNE_TABLE_FULL = 27,          /* 64 pairs live */
    SPECKSONNE_BAD_PAIR = 28,            /* protocol not 50 or 51, number not 1 to 255, a range
                                            value beyond its field, or low above high */
    SPECKSONNE_NOTHING_TO_REMOVE = 29,   /* nothing to remove */
    SPECKSONNE_NO_ROOM = 31              /* lent room too short */
};

/* The version: major * 1000000 + minor * 1000 + patch. */
uint64_t specksonne_version(void);

/* The sizes above, as the library was built with them. */
size_t specksonne_policy_words(void);
size_t specksonne_table_words(void);
size_t specksonne_cache_words(void);
size_t specksonne_row_words(void);
size_t specksonne_most_rows(void);
size_t specksonne_most_form_bytes(void);

/* A fresh gateway with this address: the policy without rows, no pair, empty caches. */
void specksonne_fresh(uint64_t policy[SPECKSONNE_POLICY_WORDS],
                      uint64_t table[SPECKSONNE_TABLE_WORDS],
                      uint64_t outbound[SPECKSONNE_CACHE_WORDS],
                      uint64_t inbound[SPECKSONNE_CACHE_WORDS], uint32_t address);

/* Hands a policy file to the gateway: 5, 23, 24, 21, 20 or 22. An accepted policy empties both
   caches that are lent here, and no other; a refusal changes nothing. */
uint64_t specksonne_policy(uint64_t policy[SPECKSONNE_POLICY_WORDS],
                           uint64_t outbound[SPECKSONNE_CACHE_WORDS],
                           uint64_t inbound[SPECKSONNE_CACHE_WORDS], const uint8_t *file,
                           size_t length, uint64_t *carries);

/* Adds a pair: 5, 25, 28, 26 or 27. `ranges` is four words for each field, as in a row. A refusal
   changes nothing. */
uint64_t specksonne_add(uint64_t table[SPECKSONNE_TABLE_WORDS], uint64_t protocol,
                        uint32_t inbound_spi, uint32_t outbound_spi, uint64_t number,
                        const uint64_t ranges[20]);

/* Removes the pair of that protocol and inbound SPI: 5 or 29. */
uint64_t specksonne_remove(uint64_t table[SPECKSONNE_TABLE_WORDS], uint64_t protocol,
                           uint32_t inbound_spi);

/* Whether the pair of that protocol and inbound SPI is live. */
bool specksonne_is_live(const uint64_t table[SPECKSONNE_TABLE_WORDS], uint64_t protocol,
                        uint32_t inbound_spi);

/* A packet going out, IP header first: 0, 2, 3, 10 or 11. `cache` is that of outbound packets;
   only it and `carries` are written. */
uint64_t specksonne_outbound(const uint64_t policy[SPECKSONNE_POLICY_WORDS],
                             const uint64_t table[SPECKSONNE_TABLE_WORDS],
                             uint64_t cache[SPECKSONNE_CACHE_WORDS], const uint8_t *packet,
                             size_t length, uint64_t carries[3]);

/* A packet coming in from outside: 0, 4, 10, 11, 12, 13, 15 or 16. `cache` is that of inbound
   packets. */
uint64_t specksonne_inbound(const uint64_t policy[SPECKSONNE_POLICY_WORDS],
                            const uint64_t table[SPECKSONNE_TABLE_WORDS],
                            uint64_t cache[SPECKSONNE_CACHE_WORDS], const uint8_t *packet,
                            size_t length, uint64_t carries[3]);

/* A packet coming in from an association, AH or ESP taken off by the pair of that protocol and
   inbound SPI: 1, 10, 13, 14, 17 or 18. */
uint64_t specksonne_from_sa(const uint64_t table[SPECKSONNE_TABLE_WORDS], uint64_t protocol,
                            uint32_t inbound_spi, const uint8_t *packet, size_t length,
                            uint64_t carries[3]);

/* Writes the normal-form file of a policy file for one direction to the start of `out`: 5, 23, 24,
   21, 20, 22 or 31. A refusal leaves `out` as it was. */
uint64_t specksonne_normalise(const uint8_t *file, size_t length, uint64_t direction, uint8_t *out,
                              size_t room, uint64_t *carries);

/* Whether two policy files treat every packet of one direction alike: 5, with 1 in `carries[0]`
   where they do and 0 where they do not; or 23, 24, 21 or 20 of the first file that is refused,
   with its row in `carries[0]`. `carries[1]` says which file was refused, 1 or 2. */
uint64_t specksonne_same(const uint8_t *first, size_t first_length, const uint8_t *second,
                         size_t second_length, uint64_t direction, uint64_t carries[2]);

/* Parses a policy file and writes its rows to the start of `rows`: 5, 23, 24, 21, 20, or 31 where
   there are fewer words than the rows need (256 rows need 5632). A refusal leaves `rows` as it
   was. */
uint64_t specksonne_parse(const uint8_t *file, size_t length, uint64_t *rows, size_t words,
                          uint64_t *carries);

/* Prints rows as a policy file whose rows are all of one direction: 5 or 31. */
uint64_t specksonne_print(const uint64_t *rows, size_t words, uint64_t direction, uint8_t *out,
                          size_t room, uint64_t *carries);

/* The ordered search of rows: 0 discard, 1 bypass, 2 protect, with its N in `number`. `selectors`
   are two words for each field, the upper first. */
uint64_t specksonne_search(const uint64_t *rows, size_t words, uint64_t direction,
                           const uint64_t selectors[10], uint64_t *number);

/* The same over a list of `count` rows. */
uint64_t specksonne_search_records(const struct specksonne_row *rows, size_t count,
                                   uint64_t direction, const uint64_t selectors[10],
                                   uint64_t *number);

/* Whether a row matches, and the place of the first that does, counted from 0. */
bool specksonne_first_match(const uint64_t *rows, size_t words, uint64_t direction,
                            const uint64_t selectors[10], uint64_t *place);

/* Whether a packet is readable, and its selectors, zeros where it is not. */
bool specksonne_read(uint64_t direction, const uint8_t *packet, size_t length,
                     uint64_t selectors[10]);

/* Whether a packet is readable, and where the triggering header of an ICMP error message would
   stand in it: start and length, zeros where it is not readable. */
bool specksonne_trigger(const uint8_t *packet, size_t length, uint64_t part[2]);

#ifdef __cplusplus
}
#endif

#endif
