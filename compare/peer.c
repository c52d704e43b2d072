/* The same drawing jobs by Debian's libqrencode, which chooses the mask: peer VERSION LEVEL BYTES. */
#include <qrencode.h>
#include <stdio.h>
#include <stdlib.h>

int main(int argc, char **argv) {
    static const QRecLevel levels[] = {QR_ECLEVEL_L, QR_ECLEVEL_M, QR_ECLEVEL_Q, QR_ECLEVEL_H};
    unsigned char bytes[700];
    if (argc != 4) return 1;
    int n = atoi(argv[3]);
    for (int k = 0; k < n; k++) bytes[k] = (unsigned char)(k * 37 + 11);
    QRcode *q = QRcode_encodeData(n, bytes, atoi(argv[1]), levels[atoi(argv[2])]);
    printf("version %d\n", q ? q->version : 0);
    return 0;
}
