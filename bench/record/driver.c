// Times the record of (T,d), of (p,T), and cp and w by number, of two archives in one run, the calls taking turns, and compares every bit: ROWS REPEATS.
// With the word `calls` before, ROWS records of (T,d) of one archive alone, for an instruction counter: calls before|after ROWS.
#include "../timing.h"

byte before_r3_td(double, double, double *), after_r3_td(double, double, double *);
byte before_r3_pt(double, double, double *), after_r3_pt(double, double, double *);
byte before_r3_property(int, double, double, double *), after_r3_property(int, double, double, double *);
byte after_r3_cp_w(double, double, double *, double *, byte *);

typedef byte call(double, double, double *);

enum { OCP = 8, OW = 10 };
static byte cp_before(double t, double d, double *out) { return before_r3_property(OCP, t, d, out); }
static byte cp_after(double t, double d, double *out) { return after_r3_property(OCP, t, d, out); }
static byte two_before(double t, double d, double *out) { return before_r3_property(OCP, t, d, out) + 16 * before_r3_property(OW, t, d, out + 1); }
static byte joint_after(double t, double d, double *out) {
    byte w, cp = after_r3_cp_w(t, d, out, out + 1, &w);
    return cp + 16 * w;
}

static void set(const char *name, call *before, call *after, double a0, double a1, double b0, double b1, size rows, size repeats) {
    double *a = malloc(8 * rows), *b = malloc(8 * rows), old[64], new[64], ratio[64];
    size accepted = 0, differ = 0;
    for (size i = 0; i < rows; i++) {
        double x[10] = {0}, y[10] = {0};
        a[i] = uniform(a0, a1);
        b[i] = uniform(b0, b1);
        byte k = before(a[i], b[i], x);
        accepted += k == 0;
        differ += k != after(a[i], b[i], y) || memcmp(x, y, sizeof x) != 0;
    }
    for (size r = 0; r < repeats; r++) {
        double out[10], t0 = now();
        for (size i = 0; i < rows; i++) before(a[i], b[i], out);
        double t1 = now();
        for (size i = 0; i < rows; i++) after(a[i], b[i], out);
        double t2 = now();
        old[r] = (t1 - t0) / rows;
        new[r] = (t2 - t1) / rows;
        ratio[r] = new[r] / old[r];
    }
    printf("%s: rows %lu accepted %lu differ %lu; before %.0f ns, after %.0f ns (medians of %lu); ratio %.3f (its median)\n", name, rows, accepted, differ,
        median(old, repeats), median(new, repeats), repeats, median(ratio, repeats));
}

int main(int n, char **words) {
    if (n == 4) {
        call *one = words[2][0] == 'b' ? before_r3_td : after_r3_td;
        double out[10];
        for (size i = atol(words[3]); i > 0; i--) {
            double t = uniform(623.15, 863.15);
            one(t, uniform(100.0, 800.0), out);
        }
        return 0;
    }
    size rows = n > 1 ? atol(words[1]) : 20000, repeats = n > 2 ? atol(words[2]) : 31;
    if (repeats > 63) repeats = 63;
    set("record of (T,d)", before_r3_td, after_r3_td, 623.15, 863.15, 100.0, 800.0, rows, repeats);
    set("record of (p,T)", before_r3_pt, after_r3_pt, 16.529, 100.0, 623.15, 863.15, rows, repeats);
    set("cp by number", cp_before, cp_after, 623.15, 863.15, 100.0, 800.0, rows, repeats);
    set("cp and w: two properties by number, and both together", two_before, joint_after, 623.15, 863.15, 100.0, 800.0, rows, repeats);
    return 0;
}
