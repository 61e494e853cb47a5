// Calls every function of region3.h on a million rows and prints for each a hash of all that it answered: refusals, numbers, letters, bit by bit.
// bindings/c/calls.hashes has what the x86-64 archive gave; tools/native holds an archive for another processor to it. The rows come from a
// written generator: most lie in or just outside the ranges, one in sixteen is any pattern of bits, one an end of a range.
// Compile with -ffp-contract=off, so that the rows are the same everywhere. With -DALONE it needs no C library.
#include "region3.h"

typedef unsigned long word;

#ifdef ALONE
void *memset(void *to, int byte, r3_size n) {
    for (r3_size i = 0; i < n; i++) ((volatile r3_byte *)to)[i] = (r3_byte)byte;
    return to;
}

void *memcpy(void *to, const void *from, r3_size n) {
    for (r3_size i = 0; i < n; i++) ((volatile r3_byte *)to)[i] = ((const r3_byte *)from)[i];
    return to;
}

static void put(const char *text, r3_size n) {
#if defined(__x86_64__)
    long number = 1;
    __asm__ volatile("syscall" : "+a"(number) : "D"(1), "S"(text), "d"(n) : "rcx", "r11", "memory");
#elif defined(__aarch64__)
    register long number __asm__("x8") = 64, to __asm__("x0") = 1, length __asm__("x2") = (long)n;
    register const char *from __asm__("x1") = text;
    __asm__ volatile("svc 0" : "+r"(to) : "r"(number), "r"(from), "r"(length) : "memory");
#else
#error "the system calls of this processor are not known here"
#endif
}

static void leave(void) {
#if defined(__x86_64__)
    __asm__ volatile("syscall" : : "a"(231), "D"(0));
#elif defined(__aarch64__)
    register long number __asm__("x8") = 94, status __asm__("x0") = 0;
    __asm__ volatile("svc 0" : : "r"(number), "r"(status));
#endif
}
#else
long write(int, const void *, r3_size);
static void put(const char *text, r3_size n) { (void)!write(1, text, n); }
#endif

enum { ROWS = 1000000, PAGE = 1000 };

static word state;
static word next(void) {
    word z = state += 0x9e3779b97f4a7c15;
    z = (z ^ z >> 30) * 0xbf58476d1ce4e5b9;
    z = (z ^ z >> 27) * 0x94d049bb133111eb;
    return z ^ z >> 31;
}

union bits {
    word w;
    double x;
};

// A number in or around a range.
static double any(double from, double to) {
    word z = next();
    switch (z & 15) {
    case 0: {
        union bits b = {next()};
        return b.x;
    }
    case 1: return z & 16 ? from : to;
    }
    double wide = (to - from) * 0.02;
    return from - wide + (to - from + 2 * wide) * (double)(z >> 11) * 0x1p-53;
}

static word hash;
static void mix(word w) {
    hash = (hash ^ w) * 0x9e3779b97f4a7c15;
    hash ^= hash >> 32;
}

static void mix_number(double x) {
    union bits b;
    b.x = x;
    mix(b.w);
}

static void begin(word seed) {
    state = seed;
    hash = 0;
}

static void say(const char *name) {
    char line[64];
    r3_size n = 0;
    while (name[n]) {
        line[n] = name[n];
        n++;
    }
    line[n++] = ' ';
    for (int k = 60; k >= 0; k -= 4) line[n++] = "0123456789abcdef"[hash >> k & 15];
    line[n++] = '\n';
    put(line, n);
}

static void records(const char *name, word seed, r3_byte (*call)(double, double, double *), double a0, double a1, double b0, double b1) {
    begin(seed);
    for (int i = 0; i < ROWS; i++) {
        double out[R3_FIELDS], a = any(a0, a1), b = any(b0, b1);
        mix(call(a, b, out));
        for (int k = 0; k < R3_FIELDS; k++) mix_number(out[k]);
    }
    say(name);
}

static void numbers(const char *name, word seed, r3_byte (*call)(double, double *), double from, double to) {
    begin(seed);
    for (int i = 0; i < ROWS; i++) {
        double out, x = any(from, to);
        mix(call(x, &out));
        mix_number(out);
    }
    say(name);
}

static void powers(void) {
    begin(11);
    for (int i = 0; i < ROWS; i++) {
        double out, a = any(-3, 3);
        int n = (int)(next() % 133) - 66;
        mix(r3_power(a, n, &out));
        mix_number(out);
    }
    say("r3_power");
}

static void properties(void) {
    begin(12);
    for (int i = 0; i < ROWS; i++) {
        double out, t = any(623.15, 863.15), d = any(100, 800);
        int n = (int)(next() % 38) - 1;
        mix(r3_property(n, t, d, &out));
        mix_number(out);
    }
    say("r3_property");
}

static void heat_and_sound(void) {
    begin(15);
    for (int i = 0; i < ROWS; i++) {
        double cp, w, t = any(623.15, 863.15), d = any(100, 800);
        r3_byte beside;
        mix(r3_cp_w(t, d, &cp, &w, &beside));
        mix(beside);
        mix_number(cp);
        mix_number(w);
    }
    say("r3_cp_w");
}

// Where `property` is none, uniform p and 1/v. Else T and the h or s of a state, since a search for none can make 20,000 trials: a few rows alone take any.
static void searches(const char *name, word seed, r3_byte (*call)(double, double, double *, unsigned *), int fields, int property, double from, double to) {
    begin(seed);
    for (int i = 0; i < ROWS; i++) {
        double out[R3_FIELDS], first, second;
        unsigned trials;
        if (property < 0) {
            first = any(from, to);
            second = 1.0 / any(100, 800);
        } else {
            double d = any(100, 800);
            first = any(623.15, 863.15);
            if (i % 4096 == 0) second = any(from, to);
            else r3_property(property, first, d, &second);
        }
        mix(call(first, second, out, &trials));
        mix(trials);
        for (int k = 0; k < fields; k++) mix_number(out[k]);
    }
    say(name);
}

static void letters(void) {
    begin(13);
    for (int i = 0; i < ROWS; i++) {
        int narrow = i & 1; // every other row around the critical point, where the letters are small
        double p = narrow ? any(21, 25) : any(16.529, 100), t = narrow ? any(640, 680) : any(623.15, 863.15);
        r3_byte letter;
        mix(r3_letter(p, t, &letter));
        mix(letter);
    }
    say("r3_letter");
}

static void columns(void) {
    static double p[PAGE], t[PAGE], density[PAGE];
    static r3_byte letter[PAGE], refusal[PAGE];
    begin(14);
    for (int page = 0; page < ROWS / PAGE; page++) {
        for (int i = 0; i < PAGE; i++) {
            int narrow = i & 1;
            p[i] = narrow ? any(21, 25) : any(16.529, 100);
            t[i] = narrow ? any(640, 680) : any(623.15, 863.15);
        }
        mix(r3_columns(p, PAGE, t, PAGE, letter, PAGE, density, PAGE, refusal, PAGE));
        for (int i = 0; i < PAGE; i++) {
            mix(letter[i] + 256ul * refusal[i]);
            mix_number(density[i]);
        }
    }
    say("r3_columns");
}

// Two fields of a pair, a skipped one between them in every fourth record, one byte changed in every eighth, and one in sixteen cut.
static void reads(void) {
    static const struct {
        r3_byte first, second;
        double a0, a1, b0, b1;
    } pairs[] = {{1, 2, 16.529, 100, 623.15, 863.15}, {2, 3, 623.15, 863.15, 100, 800}, {1, 4, 16.529, 100, 1500, 2900}, {1, 5, 16.529, 100, 3.3, 5.3}, {4, 5, 1500, 2900, 3.3, 5.3}};
    begin(15);
    for (int i = 0; i < ROWS; i++) {
        word z = next();
        int k = (int)(z % 5);
        r3_byte bytes[32], pair;
        r3_size n = 0;
        double out[R3_FIELDS];
        for (int half = 0; half < 2; half++) {
            union bits b;
            b.x = half ? any(pairs[k].b0, pairs[k].b1) : any(pairs[k].a0, pairs[k].a1);
            bytes[n++] = half ? pairs[k].second : pairs[k].first;
            bytes[n++] = 0;
            bytes[n++] = 8;
            for (int shift = 56; shift >= 0; shift -= 8) bytes[n++] = (r3_byte)(b.w >> shift);
            if (half == 0 && (z >> 8 & 3) == 0) {
                bytes[n++] = (r3_byte)(128 + (z >> 16 & 127));
                bytes[n++] = 0;
                bytes[n++] = 1;
                bytes[n++] = 77;
            }
        }
        if ((z >> 24 & 7) == 0) bytes[(z >> 32) % n] = (r3_byte)(z >> 40);
        if ((z >> 48 & 15) == 0) n = (z >> 52) % n;
        mix(r3_read(bytes, n, &pair, out));
        mix(pair);
        for (int f = 0; f < R3_FIELDS; f++) mix_number(out[f]);
    }
    say("r3_read");
}

// Rooms of every size up to 40, and a pair byte that names none in every eighth row.
static void writes(void) {
    static const double from[5][2] = {{16.529, 623.15}, {623.15, 100}, {16.529, 1500}, {16.529, 3.3}, {1500, 3.3}};
    static const double to[5][2] = {{100, 863.15}, {863.15, 800}, {100, 2900}, {100, 5.3}, {2900, 5.3}};
    begin(16);
    for (int i = 0; i < ROWS; i++) {
        word z = next();
        int k = (int)(z % 5);
        r3_byte room[40], pair = (z >> 8 & 7) == 0 ? (r3_byte)(z >> 16) : (r3_byte)(k + 1);
        for (int n = 0; n < 40; n++) room[n] = (r3_byte)(z >> 24);
        double a = any(from[k][0], to[k][0]), b = any(from[k][1], to[k][1]);
        mix(r3_write(pair, a, b, room, (z >> 32 & 3) == 0 ? (z >> 40) % 41 : 40));
        for (int n = 0; n < 40; n += 8) {
            word w = 0;
            for (int m = 0; m < 8; m++) w = w << 8 | room[n + m];
            mix(w);
        }
    }
    say("r3_write");
}

static void all(void) {
    records("r3_td", 1, r3_td, 623.15, 863.15, 100, 800);
    records("r3_pt", 2, r3_pt, 16.529, 100, 623.15, 863.15);
    records("r3_ph", 3, r3_ph, 16.529, 100, 1500, 2900);
    records("r3_ps", 4, r3_ps, 16.529, 100, 3.3, 5.3);
    records("r3_hs", 5, r3_hs, 1500, 2900, 3.3, 5.3);
    numbers("r3_p_saturation", 6, r3_p_saturation, 623.15, 647.096);
    numbers("r3_t_saturation", 7, r3_t_saturation, 16.529, 22.064);
    numbers("r3_p_border", 15, r3_p_border, 623.15, 863.15);
    numbers("r3_t_border", 16, r3_t_border, 16.529, 100);
    numbers("r3_root", 8, r3_root, 0, 100);
    numbers("r3_logarithm", 9, r3_logarithm, 0, 100);
    numbers("r3_exponential", 10, r3_exponential, -700, 700);
    powers();
    properties();
    letters();
    columns();
    heat_and_sound();
    reads();
    writes();
    searches("r3_pv", 17, r3_pv, R3_FIELDS, -1, 16.529, 100);
    searches("r3_th", 18, r3_th, R3_FIELDS, R3_OH, 1500, 2900);
    searches("r3_ts", 19, r3_ts, R3_FIELDS, R3_OS, 3.3, 5.3);
    searches("r3_pv2t", 20, r3_pv2t, 1, -1, 16.529, 100);
    searches("r3_th2d", 21, r3_th2d, 1, R3_OH, 1500, 2900);
    searches("r3_ts2d", 22, r3_ts2d, 1, R3_OS, 3.3, 5.3);
}

#ifdef ALONE
#if defined(__x86_64__)
__attribute__((force_align_arg_pointer))
#endif
void _start(void) {
    all();
    leave();
    __builtin_unreachable();
}
#else
int main(void) {
    all();
    return 0;
}
#endif
