// The proved column run, the plain Rust in its two forms and untouched seuif97 on the same columns:
//   compare ROWS         letter, density and refusal of the first three byte by byte, on rows made on purpose
//   time ROWS REPEATS    a table of medians
//   calls NAME ROWS      one of the four over each set in turn, for a simulator that counts instructions
#include "../timing.h"

void *memset(void *, int, size);
int strcmp(const char *, const char *);

unsigned char r3_columns(const double *p, size np, const double *t, size nt, byte *letter, size nl, double *density, size nd, byte *refusal, size nr);
void plain_columns(const double *p, const double *t, size n, byte *letter, double *density, byte *refusal);
void once_columns(const double *p, const double *t, size n, byte *letter, double *density, byte *refusal);
void untouched_columns(const double *p, const double *t, size n, double *density);
double zero_base(byte letter, byte of_t);

enum { PROVED, PLAIN, ONCE, UNTOUCHED, SIDES };
static const char *const names[SIDES] = {"proved", "plain", "once", "untouched"};

struct answers { byte *letter, *refusal; double *density; };

static struct answers room(size n, int filled_with) {
    struct answers a = {malloc(n), malloc(n), malloc(8 * n)};
    memset(a.letter, filled_with, n);
    memset(a.refusal, filled_with, n);
    memset(a.density, filled_with, 8 * n);
    return a;
}

static void work(int side, const double *p, const double *t, size n, struct answers a) {
    switch (side) {
    case PROVED: r3_columns(p, n, t, n, a.letter, n, a.density, n, a.refusal, n); break;
    case PLAIN: plain_columns(p, t, n, a.letter, a.density, a.refusal); break;
    case ONCE: once_columns(p, t, n, a.letter, a.density, a.refusal); break;
    default: untouched_columns(p, t, n, a.density);
    }
}

static size whole(size below) { return (size)uniform(0.0, (double)below); }
static double of_bits(size bits) {
    union { size bits; double number; } u = {.bits = bits};
    return u.number;
}
static size bits_of(double number) {
    union { double number; size bits; } u = {.number = number};
    return u.bits;
}
// A positive number so many f64 further on.
static double further(double x, long units) { return of_bits(bits_of(x) + units); }
static double near(double x, size below) { return further(x, (long)whole(2 * below + 1) - (long)below); }

// From none to 2^27 units, each size alike often.
static long some_units(void) { return (long)(uniform(0.5, 1.0) * (1ul << whole(28))); }
static long units_either_way(void) { return whole(2) ? some_units() : -some_units(); }

struct box { double p0, p1, t0, t1; };
static const struct box whole_box = {16.529, 100.0, 623.15, 863.15}, narrow = {21.0, 25.0, 640.0, 680.0};
static const struct box around_whole_box = {16.4, 100.5, 622.0, 864.0}, around_narrow = {20.9, 25.1, 639.0, 681.0};
// around 19.00881189173929, which is not the 19.0088 of the saturation line
static const struct box around_19 = {19.0087, 19.0089, 630.0, 640.0};

static void anywhere(struct box b, double *p, double *t) {
    *p = uniform(b.p0, b.p1);
    *t = uniform(b.t0, b.t1);
}

// Numbers that a test or a letter's choice names, and some that are none; the numbers around them too.
static double odd(int of_t) {
    static const double ends[2][13] = {
        {16.529, 100.0, 40.0, 25.0, 23.5, 23.0, 22.5, 22.11, 22.064, 21.93161551, 21.90096265, 20.5, 19.00881189173929},
        {623.15, 863.15, 647.096, 643.15, 650.0, 640.0, 660.0, 670.0, 680.0, 663.0, 700.0, 760.0, 860.0},
    };
    static const size bits[10] = {
        0x7ff8000000000000, 0xfff8000000000000, 0x7ff0000000000001, 0x7ff0000000000000, 0xfff0000000000000, 0, 0x8000000000000000, 1,
        0x7fefffffffffffff, 0xc037000000000000,
    };
    size kind = whole(8);
    if (kind == 0) return of_bits(bits[whole(10)]);
    if (kind == 1) return of_bits(whole(0x100000000) << 32 | whole(0x100000000));
    return near(ends[of_t][whole(13)], 3);
}

// Rows next to where letter or refusal changes along p or along T, found by halving with the proved run: five in a row for each place.
static void changes(double *p, double *t, size n) {
    size places = n / 5;
    double *low_p = malloc(8 * places), *low_t = malloc(8 * places), *high_p = malloc(8 * places), *high_t = malloc(8 * places);
    double *mid_p = malloc(8 * places), *mid_t = malloc(8 * places);
    struct answers low = room(places, 0), mid = room(places, 0);
    for (size i = 0; i < places; i++) {
        struct box b = i % 16 < 2 ? around_19 : i % 4 < 2 ? around_whole_box : around_narrow;
        anywhere(b, low_p + i, low_t + i);
        anywhere(b, high_p + i, high_t + i);
        if (i % 2) high_p[i] = low_p[i];
        else high_t[i] = low_t[i];
    }
    work(PROVED, low_p, low_t, places, low);
    for (int round = 0; round < 56; round++) {
        for (size i = 0; i < places; i++) {
            mid_p[i] = of_bits(bits_of(low_p[i]) + ((long)(bits_of(high_p[i]) - bits_of(low_p[i])) / 2));
            mid_t[i] = of_bits(bits_of(low_t[i]) + ((long)(bits_of(high_t[i]) - bits_of(low_t[i])) / 2));
        }
        work(PROVED, mid_p, mid_t, places, mid);
        for (size i = 0; i < places; i++) {
            int as_low = mid.letter[i] == low.letter[i] && mid.refusal[i] == low.refusal[i];
            double *to_p = as_low ? low_p : high_p, *to_t = as_low ? low_t : high_t;
            to_p[i] = mid_p[i];
            to_t[i] = mid_t[i];
        }
    }
    for (size i = 0; i < n; i++) {
        size place = i / 5 < places ? i / 5 : 0;
        long units = (long)(i % 5) - 2;
        p[i] = place % 2 ? low_p[place] : further(low_p[place], units);
        t[i] = place % 2 ? further(low_t[place], units) : low_t[place];
    }
}

// Of ten rows three lie in the box, two in the narrow set, one next to p = 23 (letter m loses its powers there), one next to where a base of a letter's
// table is 0, one is odd, and two lie next to where the answer changes.
static void rows_to_compare(double *p, double *t, size n) {
    size even = n / 10 * 8;
    for (size i = 0; i < even; i++) {
        size kind = i % 8;
        if (kind < 3) anywhere(whole_box, p + i, t + i);
        else if (kind < 5) anywhere(narrow, p + i, t + i);
        else if (kind == 5) {
            p[i] = further(23.0, whole(8) ? -some_units() : some_units());
            t[i] = uniform(649.4, 650.4);
        } else if (kind == 6) {
            byte letter = 'a' + whole(26);
            anywhere(whole(2) ? whole_box : narrow, p + i, t + i);
            if (whole(2)) p[i] = further(zero_base(letter, 0), units_either_way());
            if (whole(2)) t[i] = further(zero_base(letter, 1), units_either_way());
        } else {
            anywhere(whole_box, p + i, t + i);
            size which = whole(3);
            if (which != 0) p[i] = odd(0);
            if (which != 1) t[i] = odd(1);
        }
    }
    changes(p + even, t + even, n - even);
}

// Whether two sides answer the very same bytes in n rows from i on.
static int equal(struct answers a, struct answers b, size i, size n) {
    return !memcmp(a.letter + i, b.letter + i, n) && !memcmp(a.refusal + i, b.refusal + i, n) && !memcmp(a.density + i, b.density + i, 8 * n);
}

static void say(int side, struct answers a, size i, const char *end) {
    printf(" %s letter %u density %016lx refusal %u%s", names[side], a.letter[i], bits_of(a.density[i]), a.refusal[i], end);
}

static int compare(size rows) {
    double *p = malloc(8 * rows), *t = malloc(8 * rows);
    struct answers a[3];
    rows_to_compare(p, t, rows);
    for (int side = PROVED; side <= ONCE; side++) {
        a[side] = room(rows, 0x51 + side);
        work(side, p, t, rows, a[side]);
    }
    size differ = 0, refused[256] = {0}, letters[256] = {0}, lost = 0, unfinite = 0, kinds = 0;
    for (size i = 0; i < rows; i++) {
        refused[a[PROVED].refusal[i]]++;
        letters[a[PROVED].letter[i]]++;
        unfinite += p[i] - p[i] != 0.0 || t[i] - t[i] != 0.0;
        lost += a[PROVED].refusal[i] == 5 && p[i] < 23.0 && p[i] > 22.999;
        for (int side = PLAIN; side <= ONCE; side++)
            if (!equal(a[PROVED], a[side], i, 1) && differ++ < 10) {
                printf("p %016lx T %016lx:", bits_of(p[i]), bits_of(t[i]));
                say(PROVED, a[PROVED], i, ",");
                say(side, a[side], i, "\n");
            }
    }
    for (int letter = 'a'; letter <= 'z'; letter++) kinds += letters[letter] > 0;
    printf("compared, letter, density and refusal, byte by byte, with either form: rows %lu, differ %lu\n", rows, differ);
    printf("of them by refusal:");
    for (int k = 0; k < 256; k++)
        if (refused[k]) printf(" %d: %lu", k, refused[k]);
    printf("; letters %lu; NaN or infinite %lu; a power lost next to p = 23 %lu\n", kinds, unfinite, lost);
    // a comparison that meets no such row shows less than it says
    return differ != 0 || kinds != 26 || lost == 0 || unfinite == 0;
}

// Whether region 2 begins below T at p, by equation 5 of R7-97.
static int beyond(double p, double t) { return p < 0.34805185628969e3 + (-0.11671859879975e1 + 0.10192970039326e-2 * t) * t; }

// Rows of a box: all of it, or region 3 alone.
static void rows_to_time(struct box b, int region3, double *p, double *t, size rows) {
    for (size i = 0; i < rows; i++)
        do anywhere(b, p + i, t + i);
        while (region3 && beyond(p[i], t[i]));
}

static const struct set { const char *name; int region3; const struct box *box; } sets[4] = {
    {"region 3, evenly over the box", 1, &whole_box},
    {"region 3, 21 to 25 MPa by 640 to 680 K", 1, &narrow},
    {"the whole box", 0, &whole_box},
    {"21 to 25 MPa by 640 to 680 K", 0, &narrow},
};

static int times(size rows, size repeats) {
    double *p = malloc(8 * rows), *t = malloc(8 * rows), took[SIDES][64], apart = 0.0;
    int same = 1;
    size off = 0;
    if (repeats > 63) repeats = 63;
    if (repeats % 2 == 0) repeats++;
    printf("%lu rows a set, medians of %lu, processor time, ns a row; the ratios are of this library to each\n", rows, repeats);
    printf("| rows | accepted | this library | plain Rust, powers term by term | powers once a base | untouched seuif97, density alone |\n");
    printf("|---|---|---|---|---|---|\n");
    for (const struct set *s = sets; s < sets + 4; s++) {
        struct answers a[SIDES];
        rows_to_time(*s->box, s->region3, p, t, rows);
        for (int side = 0; side < SIDES; side++) a[side] = room(rows, 0x51 + side);
        for (size r = 0; r < repeats; r++)
            for (int k = 0; k < SIDES; k++) {
                int side = (k + r) % SIDES;
                double before = now();
                work(side, p, t, rows, a[side]);
                took[side][r] = (now() - before) / rows;
            }
        size accepted = 0;
        for (size i = 0; i < rows; i++)
            if (a[PROVED].refusal[i] == 0) {
                double by = a[UNTOUCHED].density[i] / a[PROVED].density[i] - 1.0;
                if (by < 0.0) by = -by;
                accepted++;
                off += !(by < 0.01);
                if (by > apart) apart = by;
            }
        same &= equal(a[PROVED], a[PLAIN], 0, rows) && equal(a[PROVED], a[ONCE], 0, rows);
        double ours = median(took[PROVED], repeats);
        printf("| %s | %.0f %% | %.1f |", s->name, 100.0 * accepted / rows, ours);
        for (int side = PLAIN; side < SIDES; side++) {
            double theirs = median(took[side], repeats);
            printf(" %.1f, ratio %.2f |", theirs, ours / theirs);
        }
        printf("\n");
    }
    printf(same ? "bits equal in every row timed, both forms" : "BITS DIFFER in a row timed");
    printf("; seuif97's density, which is rounded otherwise, differs by at most %.1e of it\n", apart);
    // a density further off than a percent is not seuif97's
    return !same || off != 0;
}

static int calls(const char *name, size rows) {
    double *p = malloc(8 * rows), *t = malloc(8 * rows);
    for (const struct set *s = sets; s < sets + 4; s++) {
        struct answers a = room(rows, 0);
        rows_to_time(*s->box, s->region3, p, t, rows);
        for (int side = 0; side < SIDES; side++)
            if (!strcmp(name, names[side])) work(side, p, t, rows, a);
    }
    return 0;
}

int main(int n, char **words) {
    if (n == 3 && !strcmp(words[1], "compare")) return compare(atol(words[2]));
    if (n == 4 && !strcmp(words[1], "time")) return times(atol(words[2]), atol(words[3]));
    if (n == 4 && !strcmp(words[1], "calls")) return calls(words[2], atol(words[3]));
    return 2;
}
