// Runs the column run over rows of 16 bytes (p in MPa, T in K) from standard input, all in one call, and writes for each 10 bytes: the letter's
// byte, the refusal, the density. tools/compare --columns builds it. It includes no standard header, so that the kit's clang alone can.
#include "../bindings/c/region3.h"

long read(int, void *, r3_size);
long write(int, const void *, r3_size);
void *malloc(r3_size);
void *realloc(void *, r3_size);
void *memcpy(void *, const void *, r3_size);

int main(void) {
    r3_size have = 0, room = 1 << 20;
    r3_byte *in = malloc(room);
    long got;
    while ((got = read(0, in + have, room - have)) > 0)
        if ((have += got) == room) in = realloc(in, room *= 2);
    r3_size rows = have / 16;
    double *p = malloc(8 * rows + 8), *t = malloc(8 * rows + 8), *d = malloc(8 * rows + 8);
    r3_byte *l = malloc(rows + 1), *k = malloc(rows + 1), *out = malloc(10 * rows + 1);
    for (r3_size i = 0; i < rows; i++) {
        memcpy(p + i, in + 16 * i, 8);
        memcpy(t + i, in + 16 * i + 8, 8);
    }
    if (r3_columns(p, rows, t, rows, l, rows, d, rows, k, rows) != R3_ACCEPTED) return 1;
    for (r3_size i = 0; i < rows; i++) {
        out[10 * i] = l[i];
        out[10 * i + 1] = k[i];
        memcpy(out + 10 * i + 2, d + i, 8);
    }
    for (r3_size at = 0; at < 10 * rows; at += got)
        if ((got = write(1, out + at, 10 * rows - at)) <= 0) return 1;
    return 0;
}
