/* One call of the library, to be counted: jobs NAME. Without a name: the stack that each call needs, by painting. */
#include "../include/kqs.h"
#include <stdio.h>
#include <string.h>

static uint8_t payload[700], out[KQS_MOST_MODULES], matrix[KQS_MOST_MODULES], back[KQS_PAYLOAD_ROOM];
static uint16_t list[KQS_LIST_ROOM];

struct job { const char *name; int reads; uint32_t version, level, mask; size_t bytes; int damage; };
static const struct job jobs[] = {
    {"draw 1-M 14 chosen", 0, 1, 1, 8, 14, 0},   {"draw 1-M 14 forced", 0, 1, 1, 2, 14, 0},
    {"draw 5-M 84 chosen", 0, 5, 1, 8, 84, 0},   {"draw 5-M 84 forced", 0, 5, 1, 2, 84, 0},
    {"draw 10-L 271 chosen", 0, 10, 0, 8, 271, 0}, {"draw 10-L 271 forced", 0, 10, 0, 2, 271, 0},
    {"read 1-M clean", 1, 1, 1, 2, 14, 0},       {"read 1-M bound", 1, 1, 1, 2, 14, 1},
    {"read 5-M clean", 1, 5, 1, 2, 84, 0},       {"read 5-M bound", 1, 5, 1, 2, 84, 1},
    {"read 10-L clean", 1, 10, 0, 2, 271, 0},    {"read 10-L bound", 1, 10, 0, 2, 271, 1},
};

/* Turns over one module of each of the first codewords in the order in which they are sent, so that every block of the three sizes above is at its
 * bound: 5 of 1-M, 24 of 5-M, 36 of 10-L. They lie in the eight columns at the right, below the finder. */
static int aligned(uint32_t version, uint32_t i, uint32_t j) {
    if (version == 5) return i >= 28 && i <= 32 && j >= 28 && j <= 32;
    if (version == 10) return j >= 48 && j <= 52 && ((i >= 26 && i <= 30) || (i >= 48 && i <= 52));
    return 0;
}

static void damage(uint32_t version, uint32_t side) {
    int codewords = version == 1 ? 5 : version == 5 ? 24 : 36, met = 0;
    for (uint32_t pair = 0; pair < 4; pair++)
        for (uint32_t r = 0; r < side - 9; r++)
            for (uint32_t h = 0; h < 2; h++) {
                uint32_t i = pair % 2 ? 9 + r : side - 1 - r, j = side - 1 - 2 * pair - h;
                if (aligned(version, i, j)) continue;
                if (met % 8 == 0 && met / 8 < codewords) matrix[i * side + j] ^= 1;
                met++;
            }
}

static void run(const struct job *k, kqs_drawn *d, kqs_reading *r) {
    if (k->reads) *r = kqs_read(matrix, (size_t)d->side * d->side, back, sizeof back, list, KQS_LIST_ROOM);
    else *d = kqs_write(payload, k->bytes, list, 2, k->level, k->version, k->mask, out, sizeof out);
}

static void prepare(const struct job *k, kqs_drawn *d) {
    for (size_t n = 0; n < k->bytes; n++) payload[n] = (uint8_t)(n * 37 + 11);
    list[0] = 4;
    list[1] = (uint16_t)k->bytes;
    if (k->reads) {
        *d = kqs_write(payload, k->bytes, list, 2, k->level, k->version, k->mask, matrix, sizeof matrix);
        if (k->damage) damage(k->version, d->side);
    }
}

#define PAINT 65536
__attribute__((noinline)) static void paint(void) {
    volatile uint8_t room[PAINT];
    for (int n = 0; n < PAINT; n++) room[n] = 0xA5;
    (void)room[0];
}
__attribute__((noinline)) static size_t painted(void) {
    volatile uint8_t room[PAINT];
    size_t n = 0;
    while (n < PAINT && room[n] == 0xA5) n++;
    return PAINT - n;
}

int main(int argc, char **argv) {
    for (size_t n = 0; n < sizeof jobs / sizeof *jobs; n++) {
        const struct job *k = &jobs[n];
        kqs_drawn d = {0, 0, 0, 0};
        kqs_reading r = {0, 0, 0, 0, 0, 0, 0, 0};
        if (argc > 1 && strcmp(argv[1], k->name)) continue;
        prepare(k, &d);
        if (argc > 1) {
            run(k, &d, &r);
            printf("%s: refusal %u, differing %u\n", k->name, k->reads ? r.refusal : d.refusal, r.differing);
        } else {
            paint();
            run(k, &d, &r);
            printf("%-22s stack %zu bytes, refusal %u, differing %u\n", k->name, painted(), k->reads ? r.refusal : d.refusal, r.differing);
        }
    }
    return 0;
}
