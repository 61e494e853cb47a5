// Times the calls that search for a state beside the plain Rust in one run, call by call in turns, and compares every bit: ROWS REPEATS. The rows are the
// p, v, h or s of states of region 3. Then the searches that find nothing and make 20,000 trials.
// With the word `calls` before, ROWS searches for a d at T and h of one side alone, for an instruction counter: calls proved|plain ROWS.
#include "../timing.h"

typedef byte search(double, double, double *, unsigned *);
typedef byte plain(double, double, double *);
search r3_pv, r3_th, r3_ts, r3_pv2t, r3_th2d, r3_ts2d;
plain plain_pv, plain_th, plain_ts, plain_pv2t, plain_th2d, plain_ts2d;
byte r3_pt(double, double, double *);
byte r3_t_border(double, double *);
enum { V = 2, P = 3, H = 4, S = 5 };

// A state of region 3: its record.
static void any_state(double *r) {
    double p, border;
    do {
        p = uniform(16.6, 99.9);
        r3_t_border(p, &border);
    } while (r3_pt(p, uniform(623.15, border), r) != 0);
}

static void row(int kind, double *a, double *b) {
    double r[10];
    do any_state(r);
    while ((kind == H && (r[H] < 1500 || r[H] > 2900)) || (kind == S && (r[S] < 3.3 || r[S] > 5.3)));
    *a = kind == V ? r[P] : r[0];
    *b = r[kind];
}

static void set(const char *name, int kind, search *ours, plain *theirs, size rows, size repeats) {
    double *a = malloc(8 * rows), *b = malloc(8 * rows), proved[64], other[64], ratio[64];
    size accepted = 0, differ = 0, least = 99999, most = 0, all = 0;
    for (size i = 0; i < rows; i++) {
        double x[10] = {0}, y[10] = {0};
        unsigned trials;
        row(kind, a + i, b + i);
        byte k = ours(a[i], b[i], x, &trials);
        differ += k != theirs(a[i], b[i], y) || memcmp(x, y, sizeof x) != 0;
        if (k != 0) continue;
        accepted++;
        all += trials;
        if (trials < least) least = trials;
        if (trials > most) most = trials;
    }
    for (size r = 0; r < repeats; r++) {
        double out[10], t0 = now();
        unsigned trials;
        for (size i = 0; i < rows; i++) ours(a[i], b[i], out, &trials);
        double t1 = now();
        for (size i = 0; i < rows; i++) theirs(a[i], b[i], out);
        double t2 = now();
        proved[r] = (t1 - t0) / rows;
        other[r] = (t2 - t1) / rows;
        ratio[r] = proved[r] / other[r];
    }
    printf("%s: rows %lu accepted %lu differ %lu, trials %lu to %lu, %.1f on average; proved %.0f ns, plain Rust %.0f ns a call (medians of %lu); ratio %.2f (its median)\n",
        name, rows, accepted, differ, least, most, (double)all / accepted, median(proved, repeats), median(other, repeats), repeats, median(ratio, repeats));
}

// One search to its last trial.
static void last(const char *name, search *ours, plain *theirs, double a, double b) {
    double x, proved[9], other[9];
    unsigned trials;
    for (int r = 0; r < 9; r++) {
        double t0 = now();
        ours(a, b, &x, &trials);
        double t1 = now();
        theirs(a, b, &x);
        double t2 = now();
        proved[r] = t1 - t0;
        other[r] = t2 - t1;
    }
    printf("%s, 20,000 trials: proved %.1f ms, plain Rust %.1f ms (medians of 9)\n", name, median(proved, 9) / 1e6, median(other, 9) / 1e6);
}

int main(int n, char **words) {
    if (n == 4) {
        for (size i = atol(words[3]); i > 0; i--) {
            double a, b, x;
            unsigned trials;
            row(H, &a, &b);
            if (words[2][1] == 'r') r3_th2d(a, b, &x, &trials);
            else if (words[2][1] == 'l') plain_th2d(a, b, &x);
        }
        return 0;
    }
    size rows = n > 1 ? atol(words[1]) : 20000, repeats = n > 2 ? atol(words[2]) : 15;
    if (repeats > 63) repeats = 63;
    set("T at p and v", V, r3_pv2t, plain_pv2t, rows, repeats);
    set("d at T and h", H, r3_th2d, plain_th2d, rows, repeats);
    set("d at T and s", S, r3_ts2d, plain_ts2d, rows, repeats);
    set("record of (p,v)", V, r3_pv, plain_pv, rows, repeats);
    set("record of (T,h)", H, r3_th, plain_th, rows, repeats);
    set("record of (T,s)", S, r3_ts, plain_ts, rows, repeats);
    last("d at T and h", r3_th2d, plain_th2d, 856.2225878410742, 1575.9363733204323);
    last("d at T and s", r3_ts2d, plain_ts2d, 743.5006480648088, 3.3230225561443656);
    return 0;
}
