/* example.c: reads a problem of 14 records, writes it back, solves it and prints the answer of its one hole. */

#include "tanczotka.h"

#include <stdio.h>
#include <string.h>

enum { ROOM = 64, PAIRS = 16 };

#define NONE TANCZOTKA_NONE

/* \x.U[x] = \x.f x, as pairs of a mark and its three fields. */
static const struct {
    char mark[3];
    uint32_t fields[3];
} records[14] = {
    {"BT", {0, 0, 0}},    {"AR", {0, 0, 0}},   {"KO", {1, 0, 0}},    {"CE", {0, NONE, 0}}, {"HO", {3, 0, 0}},
    {"VA", {0, NONE, 0}}, {"CE", {5, NONE, 0}}, {"HA", {4, 6, 0}},    {"LA", {7, 0, 0}},    {"VA", {0, NONE, 0}},
    {"CE", {9, NONE, 0}}, {"CA", {2, 10, 0}},  {"LA", {11, 0, 0}},   {"EQ", {8, 12, 1}},
};

static size_t write_file(uint8_t *file) {
    size_t at = 0;
    for (size_t k = 0; k < sizeof records / sizeof records[0]; k++) {
        memcpy(file + at, records[k].mark, 2);
        at += 2;
        for (int f = 0; f < 3; f++)
            for (int byte = 0; byte < 4; byte++)
                file[at++] = (uint8_t)(records[k].fields[f] >> 8 * byte);
    }
    return at;
}

/* Prints a term of a shown answer. */
static void print_term(const uint32_t *output, uint32_t number) {
    const uint32_t *term = output + 4 * number;
    if (term[0] == TANCZOTKA_LA) {
        putchar('\\');
        print_term(output, term[1]);
        return;
    }
    printf("%c%u", term[0] == TANCZOTKA_CA ? 'c' : term[0] == TANCZOTKA_VA ? 'v' : 'h', (unsigned)term[1]);
    for (uint32_t cell = term[2]; cell != NONE; cell = output[4 * cell + 2]) {
        putchar(cell == term[2] ? '(' : ',');
        print_term(output, output[4 * cell + 1]);
    }
    if (term[2] != NONE)
        putchar(')');
}

static void print_reply(uint64_t reply) {
    printf("%u %u %u\n", tanczotka_answer(reply), tanczotka_place(reply), tanczotka_used(reply));
}

int main(void) {
    uint8_t file[14 * 14], again[14 * 14];
    uint32_t table[4 * ROOM], solutions[ROOM], queue[2 * PAIRS], output[4 * ROOM];

    uint64_t reply = tanczotka_read(file, write_file(file), table, 4 * ROOM);
    if (tanczotka_answer(reply) != TANCZOTKA_SOLVED) {
        print_reply(reply);
        return 1;
    }
    size_t n = tanczotka_used(reply);
    reply = tanczotka_write(table, 4 * ROOM, n, again, sizeof again);
    if (tanczotka_answer(reply) != TANCZOTKA_SOLVED || memcmp(file, again, sizeof file) != 0) {
        print_reply(reply);
        return 1;
    }
    reply = tanczotka_solve(table, 4 * ROOM, n, solutions, ROOM, queue, 2 * PAIRS);
    print_reply(reply);
    if (tanczotka_answer(reply) != TANCZOTKA_SOLVED)
        return 1;
    for (size_t hole = 0; hole < n; hole++) {
        if (table[4 * hole] != TANCZOTKA_HO)
            continue;
        reply = tanczotka_show(table, 4 * ROOM, n, solutions, ROOM, queue, 2 * PAIRS, hole, output, 4 * ROOM);
        printf("h%zu = ", hole);
        if (tanczotka_answer(reply) == TANCZOTKA_SOLVED)
            print_term(output, tanczotka_used(reply) - 1);
        else
            putchar('?');
        putchar('\n');
    }
    return 0;
}
