/* A controller swap in one program: draws a sheet of loop settings, shows it, stores symbol.kqs, dirties it, and reads it back. */
#include "kqs.h"
#include <stdio.h>
#include <string.h>

static const char *const LEVELS[] = {"L", "M", "Q", "H"};

/* Two modules to a character, with a quiet zone of four modules; light is drawn, so that it shows on a dark terminal. */
static void show(const uint8_t *m, int side) {
    for (int i = -4; i < side + 4; i += 2) {
        for (int j = -4; j < side + 4; j++) {
            int dark[2];
            for (int h = 0; h < 2; h++) {
                int r = i + h;
                dark[h] = r >= 0 && r < side && j >= 0 && j < side ? m[r * side + j] == 1 : 0;
            }
            fputs(dark[0] ? (dark[1] ? " " : "\xE2\x96\x84") : (dark[1] ? "\xE2\x96\x80" : "\xE2\x96\x88"), stdout);
        }
        putchar('\n');
    }
}

static int store(const char *name, const uint8_t *m, uint32_t side) {
    FILE *f = fopen(name, "wb");
    const uint8_t head[6] = {'K', 'Q', 'S', 0, 1, (uint8_t)side};
    if (!f) return 0;
    size_t n = fwrite(head, 1, 6, f) + fwrite(m, 1, (size_t)side * side, f);
    return fclose(f) == 0 && n == 6 + (size_t)side * side;
}

int main(int argc, char **argv) {
    static uint8_t modules[KQS_MOST_MODULES], payload[KQS_PAYLOAD_ROOM];
    static uint16_t list[KQS_LIST_ROOM];
    char text[KQS_PAYLOAD_ROOM + 1] = "";
    uint16_t segments[4];
    size_t pairs = 1;

    if (argc > 1) {
        for (int k = 1; k < argc; k++) {
            if (strlen(text) + strlen(argv[k]) + 1 > KQS_PAYLOAD_ROOM) return fprintf(stderr, "the text is too long\n"), 1;
            if (k > 1) strcat(text, " ");
            strcat(text, argv[k]);
        }
        segments[0] = 4;
        segments[1] = (uint16_t)strlen(text);
    } else {
        /* two segments: the sheet's words, then its serial number in digits */
        const char *sheet = "LOOP 7 SP 1240 P 2.5 I 180 D 30 MAX 1310 ";
        const char *serial = "20261115003";
        strcat(strcat(text, sheet), serial);
        segments[0] = 2;
        segments[1] = (uint16_t)strlen(sheet);
        segments[2] = 1;
        segments[3] = (uint16_t)strlen(serial);
        pairs = 2;
    }

    kqs_drawn d = kqs_write((const uint8_t *)text, strlen(text), segments, 2 * pairs, 1, KQS_CHOOSE_VERSION, KQS_CHOOSE_MASK, modules, sizeof modules);
    if (d.refusal) return fprintf(stderr, "refused %u\n", d.refusal), 1;
    printf("drawn: version %u, level M, mask %u, side %u\n\n", d.version, d.mask, d.side);
    show(modules, (int)d.side);
    if (!store("symbol.kqs", modules, d.side)) return fprintf(stderr, "symbol.kqs cannot be written\n"), 1;
    puts("\nstored in symbol.kqs");

    /* dirt: a patch that cannot be read, and some modules read wrong */
    uint32_t s = d.side;
    for (uint32_t i = s - 5; i < s - 2; i++)
        for (uint32_t j = s - 5; j < s - 3; j++) modules[i * s + j] = 2;
    modules[9 * s + s - 2] ^= 1;
    modules[8] ^= 1;
    puts("wiped a patch of 6 modules, and turned over 2");

    kqs_reading r = kqs_read(modules, (size_t)s * s, payload, sizeof payload, list, KQS_LIST_ROOM);
    if (r.refusal) return fprintf(stderr, "refused %u\n", r.refusal), 1;
    printf("read: version %u, level %s, mask %u; %u codewords differing, %u unreadable\n", r.version, LEVELS[r.level], r.mask, r.differing, r.unreadable);
    for (size_t k = 0; k < r.segments; k++) {
        kqs_span part = kqs_part(payload, r.payload_len, list, 2 * (size_t)r.segments, k);
        printf("segment %zu, mode %u: %.*s\n", k + 1, list[2 * k], (int)part.len, (const char *)payload + part.start);
    }
    if (r.payload_len != strlen(text) || memcmp(payload, text, r.payload_len) != 0) return fprintf(stderr, "what was read is not what was drawn\n"), 1;
    puts("what was read is what was drawn");
    return 0;
}
