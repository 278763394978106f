/*
 * A gateway with one policy and one SA pair decides two packets, and the rows of the policy file
 * are searched for the second by themselves.
 *
 *     cc -std=c99 -Wall -Wextra -Wpedantic -o example c/example.c crates/specksonne/out/libspecksonne.a
 */
#include "specksonne.h"

#include <inttypes.h>
#include <stdio.h>
#include <string.h>

static const char file[] =
    "policy\t1\n"
    "out\tprotect-7\t10.1.0.0/255.255.255.0\tany\t6\tany\t22\n"
    "both\tbypass\tany\tany\t17\t500\t500\n";

/* An IPv4 packet of 24 bytes that begins with two ports. */
static void make_packet(uint8_t packet[24], uint8_t protocol, uint16_t from, uint16_t to) {
    memset(packet, 0, 24);
    packet[0] = 0x45;
    packet[3] = 24;
    packet[9] = protocol;
    memcpy(packet + 12, "\x0a\x01\x00\x05", 4);
    memcpy(packet + 16, "\xc0\x00\x02\x09", 4);
    packet[20] = from >> 8;
    packet[21] = from & 255;
    packet[22] = to >> 8;
    packet[23] = to & 255;
}

/* The action of the first row of the file that holds a packet going out. */
static uint64_t search_file(const uint8_t *packet, size_t length, uint64_t *number) {
    static struct specksonne_row rows[SPECKSONNE_MOST_ROWS];
    uint64_t answer, count, selectors[10];

    answer = specksonne_parse((const uint8_t *)file, sizeof file - 1, (uint64_t *)rows,
                              SPECKSONNE_MOST_ROWS * SPECKSONNE_ROW_WORDS, &count);
    if (answer != SPECKSONNE_DONE || !specksonne_read(SPECKSONNE_OUT, packet, length, selectors))
        return 0;
    return specksonne_search_records(rows, (size_t)count, SPECKSONNE_OUT, selectors, number);
}

int main(void) {
    static uint64_t policy[SPECKSONNE_POLICY_WORDS], table[SPECKSONNE_TABLE_WORDS];
    static uint64_t outbound[SPECKSONNE_CACHE_WORDS], inbound[SPECKSONNE_CACHE_WORDS];
    static const uint64_t any[20] = {
        0, 0, 0, UINT32_MAX, 0, 0, 0, UINT32_MAX, 0, 0, 0, 255, 0, 0, 0, 65536, 0, 0, 0, 65536,
    };
    uint8_t packet[24];
    uint64_t number, row, carries[3];

    specksonne_fresh(policy, table, outbound, inbound, 0xc0000201);
    number = specksonne_policy(policy, outbound, inbound, (const uint8_t *)file, sizeof file - 1,
                               &row);
    printf("policy %" PRIu64 "\n", number);
    printf("add %" PRIu64 "\n", specksonne_add(table, 50, 256, 300, 7, any));

    make_packet(packet, 6, 40000, 22);
    number = specksonne_outbound(policy, table, outbound, packet, sizeof packet, carries);
    printf("ssh %" PRIu64 ": %" PRIu64 " %" PRIu64 " %" PRIu64 "\n", number, carries[0],
           carries[1], carries[2]);

    make_packet(packet, 17, 500, 500);
    number = specksonne_outbound(policy, table, outbound, packet, sizeof packet, carries);
    printf("ike %" PRIu64 "\n", number);
    number = search_file(packet, sizeof packet, carries);
    printf("ike by the file's rows %" PRIu64 "\n", number);
    return 0;
}
