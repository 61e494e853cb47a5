// What both drivers share: a clock, rows from a written generator, a median.
// No system headers: it is compiled for x86-64 by the kit's clang where the host is another.
typedef unsigned long size;
typedef unsigned char byte;

struct timespec { long seconds, nanoseconds; };
int clock_gettime(int, struct timespec *);
int printf(const char *, ...);
int memcmp(const void *, const void *, size);
void *malloc(size);
long atol(const char *);

// the processor time of this process, so that other work on the machine counts as little as can be
static double now(void) {
    struct timespec t;
    clock_gettime(2, &t);
    return t.seconds * 1e9 + t.nanoseconds;
}

static size state = 1;
static double uniform(double from, double to) {
    size z = state += 0x9e3779b97f4a7c15;
    z = (z ^ z >> 30) * 0xbf58476d1ce4e5b9;
    z = (z ^ z >> 27) * 0x94d049bb133111eb;
    return from + (to - from) * ((z ^ z >> 31) >> 11) * 0x1p-53;
}

static double median(double *x, size n) {
    for (size i = 1; i < n; i++)
        for (size j = i; j > 0 && x[j] < x[j - 1]; j--) {
            double y = x[j];
            x[j] = x[j - 1];
            x[j - 1] = y;
        }
    return x[n / 2];
}
