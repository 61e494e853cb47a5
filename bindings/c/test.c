// Calls every function of region3.h: the published values, the refusals and the columns. It prints each failure and a count, and exits with 1
// where there is any. It includes no standard header, so that the kit's clang alone can compile it.
#include "region3.h"

int printf(const char *, ...);
int memcmp(const void *, const void *, r3_size);
void *memset(void *, int, r3_size);
void *memcpy(void *, const void *, r3_size);
r3_size strlen(const char *);
int fesetround(int);
int fegetround(void);

static int tried, failed;

static void expect(int holds, const char *what, double a, double b) {
    tried++;
    if (!holds) {
        failed++;
        printf("failed: %s at %.17g %.17g\n", what, a, b);
    }
}

static int same(double x, double y) { return memcmp(&x, &y, sizeof x) == 0; }

static int zeros(const double *x, int n) {
    for (int i = 0; i < n; i++)
        if (!same(x[i], 0.0)) return 0;
    return 1;
}

// x, rounded to the digits of a printed value, is that value
static int printed(double x, double value, int digits) {
    double unit = 1.0;
    while (unit <= value) unit *= 10.0;
    while (unit > value) unit /= 10.0;
    for (int i = 1; i < digits; i++) unit /= 10.0;
    double off = x - value;
    return -0.5000001 * unit <= off && off <= 0.5000001 * unit;
}

// what the test of a search lets pass
static int near(double x, double asked) { return x - asked <= 1e-6 && asked - x <= 1e-6; }

typedef r3_byte record_call(double, double, double *);

// The check values that IAPWS prints: what is called, its arguments, the field, the letter or 0, the value.
static const struct {
    record_call *call;
    double first, second;
    int field;
    r3_byte letter;
    double value;
} values[] = {
    /* R7-97 table 33 */
    {r3_td, 650, 500, R3_P, 0, 2.55837018e+01},
    {r3_td, 650, 500, R3_H, 0, 1.86343019e+03},
    {r3_td, 650, 500, R3_U, 0, 1.81226279e+03},
    {r3_td, 650, 500, R3_S, 0, 4.05427273e+00},
    {r3_td, 650, 500, R3_CP, 0, 1.38935717e+01},
    {r3_td, 650, 500, R3_W, 0, 5.02005554e+02},
    {r3_td, 650, 200, R3_P, 0, 2.22930643e+01},
    {r3_td, 650, 200, R3_H, 0, 2.37512401e+03},
    {r3_td, 650, 200, R3_U, 0, 2.26365868e+03},
    {r3_td, 650, 200, R3_S, 0, 4.85438792e+00},
    {r3_td, 650, 200, R3_CP, 0, 4.46579342e+01},
    {r3_td, 650, 200, R3_W, 0, 3.83444594e+02},
    {r3_td, 750, 500, R3_P, 0, 7.83095639e+01},
    {r3_td, 750, 500, R3_H, 0, 2.25868845e+03},
    {r3_td, 750, 500, R3_U, 0, 2.10206932e+03},
    {r3_td, 750, 500, R3_S, 0, 4.46971906e+00},
    {r3_td, 750, 500, R3_CP, 0, 6.34165359e+00},
    {r3_td, 750, 500, R3_W, 0, 7.60696041e+02},
    /* S03rev */
    {r3_ph, 20, 1700, R3_T, 0, 6.293083892e+02},
    {r3_ph, 50, 2000, R3_T, 0, 6.905718338e+02},
    {r3_ph, 100, 2100, R3_T, 0, 7.336163014e+02},
    {r3_ph, 20, 2500, R3_T, 0, 6.418418053e+02},
    {r3_ph, 50, 2400, R3_T, 0, 7.351848618e+02},
    {r3_ph, 100, 2700, R3_T, 0, 8.420460876e+02},
    {r3_ph, 20, 1700, R3_V, 0, 1.749903962e-03},
    {r3_ph, 50, 2000, R3_V, 0, 1.908139035e-03},
    {r3_ph, 100, 2100, R3_V, 0, 1.676229776e-03},
    {r3_ph, 20, 2500, R3_V, 0, 6.670547043e-03},
    {r3_ph, 50, 2400, R3_V, 0, 2.801244590e-03},
    {r3_ph, 100, 2700, R3_V, 0, 2.404234998e-03},
    {r3_ps, 20, 3.8, R3_T, 0, 6.282959869e+02},
    {r3_ps, 50, 3.6, R3_T, 0, 6.297158726e+02},
    {r3_ps, 100, 4.0, R3_T, 0, 7.056880237e+02},
    {r3_ps, 20, 5.0, R3_T, 0, 6.401176443e+02},
    {r3_ps, 50, 4.5, R3_T, 0, 7.163687517e+02},
    {r3_ps, 100, 5.0, R3_T, 0, 8.474332825e+02},
    {r3_ps, 20, 3.8, R3_V, 0, 1.733791463e-03},
    {r3_ps, 50, 3.6, R3_V, 0, 1.469680170e-03},
    {r3_ps, 100, 4.0, R3_V, 0, 1.555893131e-03},
    {r3_ps, 20, 5.0, R3_V, 0, 6.262101987e-03},
    {r3_ps, 50, 4.5, R3_V, 0, 2.332634294e-03},
    {r3_ps, 100, 5.0, R3_V, 0, 2.449610757e-03},
    /* S04rev */
    {r3_hs, 1700, 3.8, R3_P, 0, 2.555703246e+01},
    {r3_hs, 2000, 4.2, R3_P, 0, 4.540873468e+01},
    {r3_hs, 2100, 4.3, R3_P, 0, 6.078123340e+01},
    {r3_hs, 2600, 5.1, R3_P, 0, 3.434999263e+01},
    {r3_hs, 2400, 4.7, R3_P, 0, 6.363924887e+01},
    {r3_hs, 2700, 5.0, R3_P, 0, 8.839043281e+01},
    /* S05rev */
    {r3_pt, 50.0, 630.0, R3_V, 'a', 1.470853100e-03},
    {r3_pt, 80.0, 670.0, R3_V, 'a', 1.503831359e-03},
    {r3_pt, 50.0, 710.0, R3_V, 'b', 2.204728587e-03},
    {r3_pt, 80.0, 750.0, R3_V, 'b', 1.973692940e-03},
    {r3_pt, 20.0, 630.0, R3_V, 'c', 1.761696406e-03},
    {r3_pt, 30.0, 650.0, R3_V, 'c', 1.819560617e-03},
    {r3_pt, 26.0, 656.0, R3_V, 'd', 2.245587720e-03},
    {r3_pt, 30.0, 670.0, R3_V, 'd', 2.506897702e-03},
    {r3_pt, 26.0, 661.0, R3_V, 'e', 2.970225962e-03},
    {r3_pt, 30.0, 675.0, R3_V, 'e', 3.004627086e-03},
    {r3_pt, 26.0, 671.0, R3_V, 'f', 5.019029401e-03},
    {r3_pt, 30.0, 690.0, R3_V, 'f', 4.656470142e-03},
    {r3_pt, 23.6, 649.0, R3_V, 'g', 2.163198378e-03},
    {r3_pt, 24.0, 650.0, R3_V, 'g', 2.166044161e-03},
    {r3_pt, 23.6, 652.0, R3_V, 'h', 2.651081407e-03},
    {r3_pt, 24.0, 654.0, R3_V, 'h', 2.967802335e-03},
    {r3_pt, 23.6, 653.0, R3_V, 'i', 3.273916816e-03},
    {r3_pt, 24.0, 655.0, R3_V, 'i', 3.550329864e-03},
    {r3_pt, 23.5, 655.0, R3_V, 'j', 4.545001142e-03},
    {r3_pt, 24.0, 660.0, R3_V, 'j', 5.100267704e-03},
    {r3_pt, 23.0, 660.0, R3_V, 'k', 6.109525997e-03},
    {r3_pt, 24.0, 670.0, R3_V, 'k', 6.427325645e-03},
    {r3_pt, 22.6, 646.0, R3_V, 'l', 2.117860851e-03},
    {r3_pt, 23.0, 646.0, R3_V, 'l', 2.062374647e-03}, /* printed 2.062374674e-3: the Rust drops this table's last term, docs/DIFFERENCES.md */
    {r3_pt, 22.6, 648.6, R3_V, 'm', 2.533063780e-03},
    {r3_pt, 22.8, 649.3, R3_V, 'm', 2.572971781e-03},
    {r3_pt, 22.6, 649.0, R3_V, 'n', 2.923432711e-03},
    {r3_pt, 22.8, 649.7, R3_V, 'n', 2.913311494e-03},
    {r3_pt, 22.6, 649.1, R3_V, 'o', 3.131208996e-03},
    {r3_pt, 22.8, 649.9, R3_V, 'o', 3.221160278e-03},
    {r3_pt, 22.6, 649.4, R3_V, 'p', 3.715596186e-03},
    {r3_pt, 22.8, 650.2, R3_V, 'p', 3.664754790e-03},
    {r3_pt, 21.1, 640.0, R3_V, 'q', 1.970999272e-03},
    {r3_pt, 21.8, 643.0, R3_V, 'q', 2.043919161e-03},
    {r3_pt, 21.1, 644.0, R3_V, 'r', 5.251009921e-03},
    {r3_pt, 21.8, 648.0, R3_V, 'r', 5.256844741e-03},
    {r3_pt, 19.1, 635.0, R3_V, 's', 1.932829079e-03},
    {r3_pt, 20.0, 638.0, R3_V, 's', 1.985387227e-03},
    {r3_pt, 17.0, 626.0, R3_V, 't', 8.483262001e-03},
    {r3_pt, 20.0, 640.0, R3_V, 't', 6.227528101e-03},
    {r3_pt, 21.5, 644.6, R3_V, 'u', 2.268366647e-03},
    {r3_pt, 22.0, 646.1, R3_V, 'u', 2.296350553e-03},
    {r3_pt, 22.5, 648.6, R3_V, 'v', 2.832373260e-03},
    {r3_pt, 22.3, 647.9, R3_V, 'v', 2.811424405e-03},
    {r3_pt, 22.15, 647.5, R3_V, 'w', 3.694032281e-03},
    {r3_pt, 22.3, 648.1, R3_V, 'w', 3.622226305e-03},
    {r3_pt, 22.11, 648.0, R3_V, 'x', 4.528072649e-03},
    {r3_pt, 22.3, 649.0, R3_V, 'x', 4.556905799e-03},
    {r3_pt, 22.0, 646.84, R3_V, 'y', 2.698354719e-03},
    {r3_pt, 22.064, 647.05, R3_V, 'y', 2.717655648e-03},
    {r3_pt, 22.0, 646.89, R3_V, 'z', 3.798732962e-03},
    {r3_pt, 22.064, 647.15, R3_V, 'z', 3.701940009e-03},
};

static void published(void) {
    double r[R3_FIELDS];
    r3_byte letter;
    for (r3_size i = 0; i < sizeof values / sizeof *values; i++) {
        double a = values[i].first, b = values[i].second;
        expect(values[i].call(a, b, r) == R3_ACCEPTED, "a published point is accepted", a, b);
        expect(printed(r[values[i].field], values[i].value, values[i].call == r3_td ? 9 : 10), "a published value", a, b);
        if (values[i].letter) {
            expect(r3_letter(a, b, &letter) == R3_ACCEPTED && letter == values[i].letter, "a published letter", a, b);
            double d;
            r3_byte refusal;
            expect(r3_columns(&a, 1, &b, 1, &letter, 1, &d, 1, &refusal, 1) == R3_ACCEPTED, "a column of one row", a, b);
            expect(letter == values[i].letter && same(d, r[R3_D]) && refusal == R3_ACCEPTED, "a row is the record's", a, b);
        }
    }
    double x;
    expect(r3_p_saturation(643.15, &x) == R3_ACCEPTED && printed(x, 21.04336732, 10), "p_saturation(643.15), S05rev", 643.15, 0);
    expect(r3_p_saturation(623.15, &x) == R3_ACCEPTED && printed(x, 16.5291643, 9), "p_saturation(623.15), R7-97", 623.15, 0);
    expect(r3_t_saturation(22.064, &x) == R3_ACCEPTED && printed(x, 647.096, 6), "T_saturation(22.064), R7-97", 22.064, 0);
}

// a property by number is the record's field
static void properties(void) {
    static const int numbers[] = {R3_OV, R3_OP, R3_OH, R3_OS, R3_OU, R3_OCV, R3_OCP, R3_OW};
    double r[R3_FIELDS], x = 1;
    r3_td(750, 500, r);
    for (int i = 0; i < 8; i++)
        expect(r3_property(numbers[i], 750, 500, &x) == R3_ACCEPTED && same(x, r[R3_V + i]), "a property is the record's", numbers[i], x);
    expect(r3_property(R3_OE, 750, 500, &x) == R3_ACCEPTED && printed(x, 928.679, 6), "OE by the Rust's formula", 750, 500);
    for (int n = -1; n < 3; n++)
        if (n != R3_OP) expect(r3_property(n, 750, 500, &x) == R3_PROPERTY && same(x, 0.0), "no such property", n, x);
    expect(r3_property(36, 0.0 / 0.0, 500, &x) == R3_PROPERTY, "6 comes before 1", 36, 0);
}

// cp and w together are the properties asked one by one; each is refused by itself, and both where an argument is at fault
static void heat_and_sound(void) {
    double cp, w, x;
    r3_byte beside;
    for (int i = 0; i < 200; i++) {
        double t = 623.15 + 1.2 * i, d = 100 + 3.5 * ((37 * i) % 200);
        r3_byte refusal = r3_cp_w(t, d, &cp, &w, &beside);
        expect(r3_property(R3_OCP, t, d, &x) == refusal && same(x, cp), "cp of both is R3_OCP", t, d);
        expect(r3_property(R3_OW, t, d, &x) == beside && same(x, w), "w of both is R3_OW", t, d);
    }
    expect(r3_cp_w(650, 500, &cp, &w, &beside) == R3_ACCEPTED && printed(cp, 13.8935717, 9), "cp of R7-97 table 33", 650, 500);
    expect(beside == R3_ACCEPTED && printed(w, 502.005554, 9), "w of R7-97 table 33", 650, 500);
    cp = w = 7;
    expect(r3_cp_w(0.0 / 0.0, 99, &cp, &w, &beside) == R3_NOT_FINITE && beside == R3_NOT_FINITE, "1 of both", 0, 99);
    expect(same(cp, 0.0) && same(w, 0.0), "a refused pair is +0.0", cp, w);
    expect(r3_cp_w(900, 99, &cp, &w, &beside) == R3_FIRST && beside == R3_FIRST, "2 of both", 900, 99);
    expect(r3_cp_w(650, 99, &cp, &w, &beside) == R3_SECOND && beside == R3_SECOND, "3 of both", 650, 99);
}

// The places that look odd and are right, with their trials, and the T or d alone beside each.
static void searches(void) {
    typedef r3_byte search_call(double, double, double *, unsigned *);
    static const struct {
        search_call *record, *alone;
        double first, second;
        int number, of_alone, field;
        unsigned trials;
        double found;
    } places[] = {
        {r3_pv, r3_pv2t, 50, 0.002, R3_ACCEPTED, R3_ACCEPTED, R3_T, 5, 697.54983343387},
        {r3_pv, r3_pv2t, 100, 0.001533061262553137, R3_STATE, R3_STATE, R3_T, 0, 0},
        {r3_pv, r3_pv2t, 16.529164252604808, 0.0013157015192282405, R3_UNFOUND, R3_UNFOUND, R3_T, 0, 0},
        {r3_pv, r3_pv2t, 0.0 / 0.0, 0, R3_NOT_FINITE, R3_NOT_FINITE, R3_T, 0, 0},
        {r3_pv, r3_pv2t, 101, 0, R3_FIRST, R3_FIRST, R3_T, 0, 0},
        {r3_pv, r3_pv2t, 50, 0, R3_SECOND, R3_SECOND, R3_T, 0, 0},
        {r3_pv, r3_pv2t, 50, -0.0, R3_SECOND, R3_SECOND, R3_T, 0, 0},
        {r3_pv, r3_pv2t, 50, 0x1p-1074, R3_SECOND, R3_SECOND, R3_T, 0, 0},
        {r3_pv, r3_pv2t, 50, 0.010000000000000002, R3_SECOND, R3_SECOND, R3_T, 0, 0},
        {r3_pv, r3_pv2t, 50, 0.01, R3_STATE, R3_STATE, R3_T, 0, 0},
        {r3_th, r3_th2d, 700, 2500, R3_ACCEPTED, R3_ACCEPTED, R3_D, 7, 235.3422999307922},
        {r3_th, r3_th2d, 700, 1924.8708156845616, R3_ACCEPTED, R3_ACCEPTED, R3_D, 0, 651.8112674503902},
        {r3_th, r3_th2d, 863.15, 2820, R3_ACCEPTED, R3_ACCEPTED, R3_D, 5, 381.83445187797275},
        {r3_th, r3_th2d, 863.1499999999539, 2500, R3_UNFOUND, R3_UNFOUND, R3_D, 0, 0},
        {r3_th, r3_th2d, 859.1136650031038, 2620.270705157618, R3_STATE, R3_ACCEPTED, R3_D, 8, 555.121869599535},
        {r3_th, r3_th2d, 716.7091396139051, 1523.5036123394186, R3_STATE, R3_STATE, R3_D, 0, 0},
        {r3_th, r3_th2d, 856.2225878410742, 1575.9363733204323, R3_UNFOUND, R3_UNFOUND, R3_D, 0, 0},
        {r3_th, r3_th2d, 640, 2100, R3_ACCEPTED, R3_ACCEPTED, R3_D, 9, 292.09255280798175},
        {r3_th, r3_th2d, 637, 2110, R3_ACCEPTED, R3_ACCEPTED, R3_D, 10, 277.4177712016782},
        {r3_ts, r3_ts2d, 625, 4.36, R3_ACCEPTED, R3_ACCEPTED, R3_D, 10, 271.0344006817296},
        {r3_ts, r3_ts2d, 863.15, 4.5, R3_STEP, R3_STEP, R3_D, 0, 0},
        {r3_ts, r3_ts2d, 743.5006480648088, 3.3230225561443656, R3_UNFOUND, R3_UNFOUND, R3_D, 0, 0},
    };
    double r[R3_FIELDS], q[R3_FIELDS], x;
    unsigned trials;
    for (r3_size i = 0; i < sizeof places / sizeof *places; i++) {
        double a = places[i].first, b = places[i].second;
        r[0] = r[9] = x = -7;
        trials = 77;
        int number = places[i].record(a, b, r, &trials), accepted = number == R3_ACCEPTED;
        expect(number == places[i].number && trials == (accepted ? places[i].trials : 0), "a searched record's number and trials", a, b);
        expect(accepted ? same(r[places[i].field], places[i].found) : zeros(r, R3_FIELDS), "a searched record", a, b);
        if (accepted) expect(r3_td(r[R3_T], r[R3_D], q) == R3_ACCEPTED && memcmp(r, q, sizeof r) == 0, "it is the record of what was found", a, b);
        trials = 77;
        expect(places[i].alone(a, b, &x, &trials) == places[i].of_alone && same(x, places[i].found) && trials == places[i].trials, "found alone", a, b);
    }
    // the record's v is 1/(1/v), which is not the v asked
    expect(r3_pv(24.99, 0.0068327097557721594, r, &trials) == R3_ACCEPTED && same(r[R3_V], 0.00683270975577216), "v worked anew", 24.99, 0);
    // states that exist are found again, within what the test lets pass
    for (int i = 0; i < 300; i++) {
        double t = 625 + 0.6 * i, p = 25 + 0.2 * ((41 * i) % 300);
        if (r3_pt(p, t, r) != R3_ACCEPTED) continue;
        expect(r3_pv(r[R3_P], r[R3_V], q, &trials) == R3_ACCEPTED && trials <= 20 && near(q[R3_P], r[R3_P]), "p and v of a state", t, p);
        if (r[R3_H] >= 1500 && r[R3_H] <= 2900) expect(r3_th(t, r[R3_H], q, &trials) == R3_ACCEPTED && near(q[R3_H], r[R3_H]), "T and h of a state", t, p);
        if (r[R3_S] >= 3.3 && r[R3_S] <= 5.3) expect(r3_ts(t, r[R3_S], q, &trials) == R3_ACCEPTED && near(q[R3_S], r[R3_S]), "T and s of a state", t, p);
    }
}

static void rules(void) {
    double x;
    expect(r3_power(2, -3, &x) == R3_ACCEPTED && x == 0.125, "2^-3", 2, -3);
    expect(r3_power(0, 0, &x) == R3_ACCEPTED && x == 1, "0^0", 0, 0);
    expect(r3_power(2, 65, &x) == R3_SECOND && same(x, 0.0), "an exponent above 64", 2, 65);
    expect(r3_power(1e200, 2, &x) == R3_STEP && same(x, 0.0), "a power that is lost", 1e200, 2);
    expect(r3_root(2, &x) == R3_ACCEPTED && same(x, 0x1.6a09e667f3bcdp0), "a root", 2, 0);
    expect(r3_root(-0.0, &x) == R3_ACCEPTED && same(x, -0.0), "the root of -0", 0, 0);
    expect(r3_root(-1, &x) == R3_STEP && same(x, 0.0), "a root of a negative", -1, 0);
    expect(r3_logarithm(1, &x) == R3_ACCEPTED && x == 0, "ln 1", 1, 0);
    expect(r3_logarithm(0, &x) == R3_STEP && same(x, 0.0), "ln 0", 0, 0);
    expect(r3_exponential(0, &x) == R3_ACCEPTED && x == 1, "exp 0", 0, 0);
    expect(r3_exponential(701, &x) == R3_FIRST && same(x, 0.0), "exp 701", 701, 0);
    expect(r3_exponential(1.0 / 0.0, &x) == R3_NOT_FINITE && same(x, 0.0), "exp of an infinity", 0, 0);
}

static void refusals(void) {
    static record_call *const calls[] = {r3_td, r3_pt, r3_ph, r3_ps, r3_hs};
    double r[R3_FIELDS], nan = 0.0 / 0.0;
    for (int i = 0; i < 5; i++) {
        r[3] = r[9] = 7;
        expect(calls[i](nan, 1e9, r) == R3_NOT_FINITE && zeros(r, R3_FIELDS), "1 comes before 3", i, 1e9);
        expect(calls[i](1e9, 1e9, r) == R3_FIRST && zeros(r, R3_FIELDS), "2 comes before 3", i, 1e9);
    }
    expect(r3_td(623.15, 99, r) == R3_SECOND && zeros(r, R3_FIELDS), "a density below 100", 623.15, 99);
    expect(r3_td(863.15, 800, r) == R3_STATE && zeros(r, R3_FIELDS), "a pressure above 100", 863.15, 800);
    expect(r3_pt(24, 623.149, r) == R3_SECOND, "a temperature below 623.15", 24, 623.149);
    expect(r3_pt(24, 623.15, r) == R3_ACCEPTED, "the end of a range is inside", 24, 623.15);
    expect(r3_pt(100, 679.5125318168051, r) == R3_STATE && zeros(r, R3_FIELDS), "the found state's p above 100", 100, 679.5125318168051);
    expect(r3_pt(22.064, 647.096, r) == R3_ACCEPTED && same(r[R3_V], 1.0 / 322.0), "the critical point", 22.064, 647.096);
    r3_byte letter = 'q';
    expect(r3_letter(22.064, 647.096, &letter) == R3_ACCEPTED && letter == 'z', "the letter alone knows no critical point", 22.064, 647.096);
    expect(r3_letter(101, 650, &letter) == R3_FIRST && letter == 0, "a refused letter", 101, 650);
    double x;
    expect(r3_p_saturation(650, &x) == R3_FIRST && same(x, 0.0), "above the saturation line", 650, 0);
    expect(r3_p_border(623.15, &x) == R3_ACCEPTED && printed(x, 16.5291643, 9), "p_border(623.15), R7-97", 623.15, 0);
    expect(r3_t_border(16.5291643, &x) == R3_ACCEPTED && printed(x, 623.15, 9), "t_border(16.5291643), R7-97", 16.5291643, 0);
    expect(r3_t_border(101, &x) == R3_FIRST && same(x, 0.0), "above the border's pressures", 101, 0);
    expect(r3_pt(18, 640, r) == R3_BORDER && zeros(r, R3_FIELDS), "beyond the border with region 2", 18, 640);
    expect(r3_pt(18, 635.8209528593616, r) == R3_ACCEPTED, "on the border with region 2", 18, 635.8209528593616);
    expect(r3_pt(18, 635.8209528593617, r) == R3_BORDER, "the next double above the border", 18, 635.8209528593617);
    expect(r3_pt(101, 900, r) == R3_FIRST && r3_pt(18, 900, r) == R3_SECOND, "8 comes after 2 and 3", 101, 900);
    expect(r3_letter(100, 863.15, &letter) == R3_BORDER && letter == 0, "both ends of the box", 100, 863.15);
    expect(r3_t_saturation(16.5, &x) == R3_FIRST && same(x, 0.0), "below the saturation line", 16.5, 0);
}

static void columns(void) {
    double p[5] = {24, 24, 101, 22.064, 0.0 / 0.0}, t[5] = {650, 655, 650, 647.096, 650}, d[5];
    r3_byte letter[5], refusal[5];
    expect(r3_columns(p, 5, t, 5, letter, 5, d, 5, refusal, 5) == R3_ACCEPTED, "five rows", 5, 5);
    expect(memcmp(letter, "gi\0\0\0", 5) == 0, "the letters of five rows", 5, 5);
    expect(memcmp(refusal, "\0\0\2\0\1", 5) == 0, "the refusals of five rows", 5, 5);
    expect(same(d[3], 1.0 / (1.0 / 322.0)) && zeros(d + 2, 1) && zeros(d + 4, 1), "the densities of five rows", d[2], d[3]);
    for (int short_one = 0; short_one < 5; short_one++) {
        r3_size n[5] = {5, 5, 5, 5, 5};
        n[short_one] = 4;
        letter[0] = 'A';
        d[0] = -7;
        refusal[0] = 9;
        expect(r3_columns(p, n[0], t, n[1], letter, n[2], d, n[3], refusal, n[4]) == R3_COLUMNS, "a short column", short_one, 4);
        expect(letter[0] == 'A' && d[0] == -7 && refusal[0] == 9, "7 writes nothing", short_one, 4);
    }
    expect(r3_columns(p, 0, t, 0, letter, 0, d, 0, refusal, 0) == R3_ACCEPTED && d[0] == -7, "no rows", 0, 0);
}

// The exchange record: README's example, with fields to skip, cut at every byte, and a refusal of each kind.
static void exchange(void) {
    static const r3_byte record[] = {200, 0, 0, 1, 0, 8, 0x40, 0x38, 0, 0, 0, 0, 0, 0, 128, 0, 3, 'a', 'b', 'c', 2, 0, 8, 0x40, 0x84, 0x50, 0, 0, 0, 0, 0};
    static const r3_byte nan[] = {1, 0, 8, 0x7f, 0xf8, 0, 0, 0, 0, 0, 0, 2, 0, 8, 0x40, 0x84, 0x50, 0, 0, 0, 0, 0};
    static const struct {
        r3_byte bytes[24];
        int length, number;
    } wrong[] = {
        {{6}, 1, R3_PAST_END},
        {{6, 0, 9, 0, 0, 0, 0, 0, 0, 0, 0}, 11, R3_PAST_END},
        {{127, 0, 0}, 3, R3_UNKNOWN_TAG},
        {{0, 0, 8, 0, 0, 0, 0, 0, 0, 0, 0}, 11, R3_UNKNOWN_TAG},
        {{1, 0, 7, 0, 0, 0, 0, 0, 0, 0}, 10, R3_WRONG_LENGTH},
        {{2, 0, 8, 0, 0, 0, 0, 0, 0, 0, 0, 1, 0, 8, 0, 0, 0, 0, 0, 0, 0, 0}, 22, R3_OUT_OF_ORDER},
        {{2, 0, 8, 0, 0, 0, 0, 0, 0, 0, 0, 4, 0, 8, 0, 0, 0, 0, 0, 0, 0, 0}, 22, R3_NOT_A_PAIR},
        {{0}, 0, R3_NOT_A_PAIR},
    };
    double r[R3_FIELDS], q[R3_FIELDS];
    r3_byte pair = 9;
    expect(r3_pt(24, 650, q) == R3_ACCEPTED && r3_read(record, sizeof record, &pair, r) == R3_ACCEPTED && pair == R3_PAIR_PT, "a record", 24, 650);
    expect(memcmp(r, q, sizeof r) == 0 && same(r[R3_D], 461.6711044147961), "the record's state is the pair's", 24, 650);
    for (r3_size n = 0; n < sizeof record; n++) {
        r[3] = pair = 9;
        int ends = n == 0 || n == 3 || n == 14 || n == 20; // between two fields
        expect(r3_read(record, n, &pair, r) == (ends ? R3_NOT_A_PAIR : R3_PAST_END) && pair == 0 && zeros(r, R3_FIELDS), "a record cut", (double)n, 0);
    }
    expect(r3_read(nan, sizeof nan, &pair, r) == R3_NOT_FINITE && pair == R3_PAIR_PT && zeros(r, R3_FIELDS), "a NaN is the pair's matter", 0, 650);
    for (int i = 0; i < 8; i++) {
        r[0] = pair = 9;
        expect(r3_read(wrong[i].bytes, (r3_size)wrong[i].length, &pair, r) == wrong[i].number && pair == 0 && zeros(r, R3_FIELDS), "a record refused", i, wrong[i].number);
    }
}

// The exchange record written: the request's own rows, read back, and every byte of the room.
static void forward(void) {
    static const r3_byte wanted[] = {1, 0, 8, 0x40, 0x38, 0, 0, 0, 0, 0, 0, 2, 0, 8, 0x40, 0x84, 0x50, 0, 0, 0, 0, 0};
    double nan = 0.0 / 0.0, r[R3_FIELDS];
    r3_byte room[30], pair;
    memset(room, 0xaa, sizeof room);
    expect(r3_write(R3_PAIR_PT, 24, 650, room, 21) == R3_NO_ROOM && room[0] == 0xaa, "no room", 24, 650);
    expect(r3_write(R3_PAIR_PT, nan, 1, room, 0) == R3_NOT_FINITE && room[0] == 0xaa, "the pair's own number comes first", 0, 1);
    expect(r3_write(R3_PAIR_PT, 24, 600, room, 30) == R3_SECOND && room[0] == 0xaa, "a refused pair is not written", 24, 600);
    expect(r3_write(0, 24, 650, room, 30) == R3_NO_SUCH_PAIR && r3_write(6, 24, 650, room, 30) == R3_NO_SUCH_PAIR && room[0] == 0xaa, "no such pair", 24, 650);
    expect(r3_write(R3_PAIR_PT, 24, 650, room, 30) == R3_ACCEPTED && memcmp(room, wanted, R3_RECORD) == 0, "a record", 24, 650);
    for (int i = R3_RECORD; i < 30; i++) expect(room[i] == 0xaa, "room that is not needed", i, room[i]);
    static const double points[5][2] = {{24, 650}, {650, 500}, {25, 2095}, {50, 4.5}, {2000, 4.2}};
    for (r3_byte k = R3_PAIR_PT; k <= R3_PAIR_HS; k++) {
        double a = points[k - 1][0], b = points[k - 1][1];
        expect(r3_write(k, a, b, room, R3_RECORD) == R3_ACCEPTED && r3_read(room, R3_RECORD, &pair, r) == R3_ACCEPTED && pair == k, "written, then read", a, b);
    }
}

// The version of the archive is the header's, as a number and in its name, and the header's two forms of it agree.
static void versions(void) {
    unsigned parts[3] = {0, 0, 0};
    int dots = 0;
    for (const char *c = R3_VERSION; *c; c++) {
        if (*c == '.') dots++;
        else if (dots < 3) parts[dots] = 10 * parts[dots] + (unsigned)(*c - '0');
    }
    expect(dots == 2 && R3_VERSION_NUMBER == 10000 * parts[0] + 100 * parts[1] + parts[2], "the header's version in words and as a number", R3_VERSION_NUMBER, dots);
    expect(r3_library_version() == R3_VERSION_NUMBER, "the archive's version is the header's", r3_library_version(), R3_VERSION_NUMBER);
    expect(r3_library_version_0_3_0() == R3_VERSION_NUMBER, "the name with the version in it is of this version", r3_library_version_0_3_0(), R3_VERSION_NUMBER);
}

// What this header says by itself.
static void texts(void) {
    static const int numbers[] = {R3_ACCEPTED,     R3_NOT_FINITE,   R3_FIRST,    R3_SECOND,      R3_STATE,        R3_STEP,      R3_PROPERTY,
                                  R3_COLUMNS,      R3_BORDER,       R3_PAST_END, R3_UNKNOWN_TAG, R3_WRONG_LENGTH, R3_OUT_OF_ORDER, R3_NOT_A_PAIR,
                                  R3_UNFOUND,      R3_NO_ROOM,      R3_NO_SUCH_PAIR};
    enum { KNOWN = sizeof numbers / sizeof *numbers };
    expect(memcmp(r3_version(), R3_VERSION, sizeof R3_VERSION) == 0, "the version", 0, 0);
    for (int i = 0; i < KNOWN; i++) {
        for (int k = 0; k < i; k++) {
            expect(numbers[i] != numbers[k] && r3_refusal_text(numbers[i]) != r3_refusal_text(numbers[k]), "each refusal has its own text", i, k);
        }
        expect(r3_refusal_text(numbers[i]) != r3_refusal_text(-1), "a known number's text", i, numbers[i]);
    }
    expect(strlen(r3_refusal_text(254)) > 0 && r3_refusal_text(254) == r3_refusal_text(-1), "an unknown number has a text", 254, -1);
}

// The rounding modes of fenv.h on this processor: to nearest, downward, upward, toward zero.
#if defined(__x86_64__)
static const int modes[] = {0, 0x400, 0x800, 0xc00};
#elif defined(__aarch64__)
static const int modes[] = {0, 0x800000, 0x400000, 0xc00000};
#else
#error "the rounding modes of this processor are not known here"
#endif

enum { CALLS = 25, POINTS = 1000 };
static const char *const call_names[CALLS] = {"td", "pt", "ph", "ps", "hs", "property", "letter", "columns", "p_saturation", "t_saturation", "power",
                                              "root", "logarithm", "exponential", "cp_w", "p_border", "t_border", "pv", "th", "ts", "pv2t", "th2d",
                                              "ts2d", "read", "write"};

struct answer {
    double numbers[R3_FIELDS];
    r3_byte refusal, letter, of_row, bytes[R3_RECORD];
    unsigned trials;
};

static unsigned long seed = 1;
static double uniform(double from, double to) {
    seed = seed * 6364136223846793005ul + 1442695040888963407ul;
    return from + (to - from) * (seed >> 11) * (1.0 / 9007199254740992.0);
}

struct point {
    double p, t, d, h, s, saturated_p, saturated_t, x, of_state_h, of_state_s;
    r3_byte record[R3_RECORD];
};

static struct point any_point(void) {
    struct point z = {uniform(17, 99), uniform(624, 800), uniform(150, 700), uniform(1600, 2800), uniform(3.5, 5.1),
                      uniform(16.6, 22), uniform(624, 647), uniform(0.5, 2), 0, 0, {1, 0, 8}};
    // a search for a state that is none can make 20,000 trials
    r3_property(R3_OH, z.t, z.d, &z.of_state_h);
    r3_property(R3_OS, z.t, z.d, &z.of_state_s);
    // the exchange record of p and T, the high byte first
    r3_byte bytes[16];
    memcpy(bytes, &z.p, 8);
    memcpy(bytes + 8, &z.t, 8);
    for (int i = 0; i < 8; i++) {
        z.record[3 + i] = bytes[7 - i];
        z.record[14 + i] = bytes[15 - i];
    }
    z.record[11] = 2;
    z.record[13] = 8;
    return z;
}

static void call_all(struct point z, struct answer *a) {
    memset(a, 0, CALLS * sizeof *a);
    a[0].refusal = r3_td(z.t, z.d, a[0].numbers);
    a[1].refusal = r3_pt(z.p, z.t, a[1].numbers);
    a[2].refusal = r3_ph(z.p, z.h, a[2].numbers);
    a[3].refusal = r3_ps(z.p, z.s, a[3].numbers);
    a[4].refusal = r3_hs(z.h, z.s, a[4].numbers);
    a[5].refusal = r3_property(R3_OZ, z.t, z.d, a[5].numbers);
    a[6].refusal = r3_letter(z.p, z.t, &a[6].letter);
    a[7].refusal = r3_columns(&z.p, 1, &z.t, 1, &a[7].letter, 1, a[7].numbers, 1, &a[7].of_row, 1);
    a[8].refusal = r3_p_saturation(z.saturated_t, a[8].numbers);
    a[9].refusal = r3_t_saturation(z.saturated_p, a[9].numbers);
    a[10].refusal = r3_power(z.x, 13, a[10].numbers);
    a[11].refusal = r3_root(z.x, a[11].numbers);
    a[12].refusal = r3_logarithm(z.x, a[12].numbers);
    a[13].refusal = r3_exponential(z.x, a[13].numbers);
    a[14].refusal = r3_cp_w(z.t, z.d, a[14].numbers, a[14].numbers + 1, &a[14].of_row);
    a[15].refusal = r3_p_border(z.t, a[15].numbers);
    a[16].refusal = r3_t_border(z.p, a[16].numbers);
    a[17].refusal = r3_pv(z.p, 1 / z.d, a[17].numbers, &a[17].trials);
    a[18].refusal = r3_th(z.t, z.of_state_h, a[18].numbers, &a[18].trials);
    a[19].refusal = r3_ts(z.t, z.of_state_s, a[19].numbers, &a[19].trials);
    a[20].refusal = r3_pv2t(z.p, 1 / z.d, a[20].numbers, &a[20].trials);
    a[21].refusal = r3_th2d(z.t, z.of_state_h, a[21].numbers, &a[21].trials);
    a[22].refusal = r3_ts2d(z.t, z.of_state_s, a[22].numbers, &a[22].trials);
    a[23].refusal = r3_read(z.record, R3_RECORD, &a[23].letter, a[23].numbers);
    a[24].refusal = r3_write(R3_PAIR_PT, z.p, z.t, a[24].bytes, R3_RECORD);
}

// The check of the rounding mode agrees with fegetround. Why it is there: all calls but three answer other bits in another mode.
static void rounding(void) {
    static const char *names[] = {"to nearest", "downward", "upward", "toward zero"};
    static struct answer usual[CALLS], other[CALLS];
    int in_any[CALLS] = {0}, all = 0;
    for (int m = 0; m < 4; m++) {
        int changed[CALLS] = {0}, calls = 0;
        fesetround(modes[m]);
        int says = r3_rounds_to_nearest(), mode = fegetround();
        fesetround(modes[0]);
        expect(says == (m == 0) && mode == modes[m], "the check of the rounding mode is fegetround's", m, says);
        for (int i = 0; i < POINTS; i++) {
            struct point z = any_point();
            call_all(z, usual);
            fesetround(modes[m]);
            call_all(z, other);
            fesetround(modes[0]);
            for (int k = 0; k < CALLS; k++) changed[k] |= memcmp(usual + k, other + k, sizeof *usual) != 0;
        }
        for (int k = 0; k < CALLS; k++) {
            calls += changed[k];
            in_any[k] |= changed[k];
        }
        if (m == 0) expect(calls == 0, "a call gives the same bits again", m, calls);
        else printf("rounding %s: %d of %d calls answer other bits at some of %d points\n", names[m], calls, CALLS, POINTS);
    }
    printf("in no mode other bits at these points:");
    for (int k = 0; k < CALLS; k++) {
        all += in_any[k];
        if (!in_any[k]) printf(" r3_%s", call_names[k]);
    }
    printf("\n");
    expect(all == 22 && !in_any[6] && !in_any[11] && !in_any[24], "as region3.h has it: all but r3_letter, r3_root and r3_write", all, CALLS);
}

int main(void) {
    published();
    properties();
    heat_and_sound();
    searches();
    rules();
    refusals();
    columns();
    exchange();
    forward();
    versions();
    texts();
    rounding();
    printf("region3.h: %d tried, %d failed\n", tried, failed);
    return failed != 0;
}
