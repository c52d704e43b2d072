/* One call of one part, to be counted, and the stack that it needs, by painting. usage: parts-of syndromes|correct LENGTH CHECKS WRONG UNREADABLE, or
 * parts-of lay|finish|score MASK KIND: of version 10, level L; KIND 0 has every codeword 0. KIND 2 and 3 score a matrix that is no symbol: every module light, or
 * rows and columns that repeat 10111010000. */
#include <stddef.h>
#include <stdint.h>
#include <stdio.h>
#include <stdlib.h>
#include <string.h>

size_t part_correct(uint8_t *word, size_t word_length, const uint8_t *flags, size_t flags_length, size_t n, size_t room);
uint8_t part_syndrome(const uint8_t *word, size_t word_length, size_t n);
void part_lay(size_t v, const uint8_t *codewords, size_t count, uint8_t *base, size_t base_length);
void part_finish(const uint8_t *base, size_t base_length, size_t v, size_t level, size_t mask, uint8_t *out, size_t out_length);
uint32_t part_score(const uint8_t *m, size_t length, size_t side);

#define PAINT 65536
__attribute__((noinline)) static void paint(void) {
    volatile uint8_t room[PAINT];
    for (int n = 0; n < PAINT; n++) room[n] = 0xA5;
    (void)room[0];
}
__attribute__((noinline)) static size_t painted(void) {
    volatile uint8_t room[PAINT];
    size_t n = 0;
    while (n < PAINT && room[n] == 0xA5) n++;
    return PAINT - n;
}

static uint8_t word[255], flags[255], codewords[346], base[3249], out[3249];

/* The word that is 0 everywhere is a codeword: wrong ones are spread over its front, unreadable ones stand at its end. */
static size_t block(size_t length, size_t n, size_t wrong, size_t lost, int correct) {
    for (size_t k = 0; k < wrong; k++) word[k * (length - lost) / wrong] = (uint8_t)(k * 7 + 5);
    for (size_t k = 0; k < lost; k++) flags[length - 1 - k] = 1;
    paint();
    size_t answer = correct ? part_correct(word, length, flags, length, n, n) : part_syndrome(word, length, n);
    size_t stack = painted();
    for (size_t k = 0; k < length; k++)
        if (word[k]) return 0;
    return answer == wrong ? stack : 0;
}

/* Each call in a function of its own, so that what it pushes for its callee is above what was painted. */
__attribute__((noinline)) static void lay(void) { part_lay(10, codewords, sizeof codewords, base, sizeof base); }
__attribute__((noinline)) static void finish(size_t mask) { part_finish(base, sizeof base, 10, 0, mask, out, sizeof out); }
__attribute__((noinline)) static uint32_t score(void) { return part_score(out, sizeof out, 57); }

int main(int argc, char **argv) {
    size_t a[4] = {0, 0, 0, 0}, stack = 0;
    if (argc < 2) return 2;
    for (int k = 0; k < 4 && k + 2 < argc; k++) a[k] = (size_t)atoi(argv[k + 2]);
    if (!strcmp(argv[1], "syndromes") || !strcmp(argv[1], "correct")) {
        stack = block(a[0], a[1], a[2], a[3], argv[1][0] == 'c');
        printf("| %s: %zu codewords, n = %zu, %zu wrong, %zu unreadable | COUNT | %zu |\n", argv[1], a[0], a[1], a[2], a[3], stack);
        return !stack;
    }
    for (size_t k = 0; k < sizeof codewords; k++) codewords[k] = (uint8_t)(k * 37 + 11) * (uint8_t)a[1];
    paint();
    lay();
    if (!strcmp(argv[1], "lay")) stack = painted();
    paint();
    finish(a[0]);
    if (!strcmp(argv[1], "finish")) stack = painted();
    for (size_t k = 0; a[1] > 1 && k < sizeof out; k++) out[k] = a[1] == 2 ? 0 : "\1\0\1\1\1\0\1\0\0\0"[(k / 57 + k % 57) % 11];
    paint();
    score();
    if (!strcmp(argv[1], "score")) stack = painted();
    static const char *kinds[] = {"codewords all 0", "codewords of all kinds", "but every module light", "but 10111010000 again and again"};
    printf("| %s: version 10, mask %zu, %s | COUNT | %zu |\n", argv[1], a[0], kinds[a[1] & 3], stack);
    return !stack;
}
