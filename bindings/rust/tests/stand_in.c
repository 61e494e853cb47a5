/* A stand-in for libregion3_c.a that answers every call with 200, a number that the crate does not know, beside numbers that look fair.
 * bindings/test makes an archive of it and runs tests/stand_in.rs over that. */
#include "../../c/region3.h"

#define RECORD(name) r3_byte name(double a, double b, double out[R3_FIELDS]) { for (int i = 0; i < R3_FIELDS; i++) out[i] = a + b; return 200; }
RECORD(r3_td)
RECORD(r3_pt)
RECORD(r3_ph)
RECORD(r3_ps)
RECORD(r3_hs)

#define SEARCHED_RECORD(name) r3_byte name(double a, double b, double out[R3_FIELDS], unsigned *trials) { for (int i = 0; i < R3_FIELDS; i++) out[i] = a + b; *trials = 5; return 200; }
SEARCHED_RECORD(r3_pv)
SEARCHED_RECORD(r3_th)
SEARCHED_RECORD(r3_ts)

#define SEARCHED(name) r3_byte name(double a, double b, double *out, unsigned *trials) { *out = a + b; *trials = 5; return 200; }
SEARCHED(r3_pv2t)
SEARCHED(r3_th2d)
SEARCHED(r3_ts2d)

#define NUMBER(name) r3_byte name(double x, double *out) { *out = x; return 200; }
NUMBER(r3_p_saturation)
NUMBER(r3_t_saturation)
NUMBER(r3_p_border)
NUMBER(r3_t_border)
NUMBER(r3_root)
NUMBER(r3_logarithm)
NUMBER(r3_exponential)

r3_byte r3_power(double a, int n, double *out) { *out = a + n; return 200; }
r3_byte r3_property(int number, double t, double d, double *out) { *out = number + t + d; return 200; }
r3_byte r3_cp_w(double t, double d, double *cp, double *w, r3_byte *w_refusal) { *cp = t; *w = d; *w_refusal = 201; return 200; }
r3_byte r3_letter(double p, double t, r3_byte *letter) { *letter = p < t ? 'g' : 'h'; return 200; }

r3_byte r3_columns(
    const double *p, r3_size p_rows, const double *t, r3_size t_rows, r3_byte *letter, r3_size letter_rows,
    double *density, r3_size density_rows, r3_byte *refusal, r3_size refusal_rows) {
    return p && t && letter && density && refusal && p_rows == t_rows && letter_rows == density_rows && refusal_rows == p_rows ? 200 : 201;
}

r3_byte r3_read(const r3_byte *bytes, r3_size length, r3_byte *pair, double out[R3_FIELDS]) {
    *pair = bytes && length ? bytes[0] : 0;
    out[0] = 7;
    return 200;
}

r3_byte r3_write(r3_byte pair, double a, double b, r3_byte *out, r3_size length) {
    if (length) out[0] = pair + (a < b);
    return 200;
}

unsigned r3_library_version(void) { return R3_VERSION_NUMBER; }
unsigned r3_library_version_0_3_0(void) { return R3_VERSION_NUMBER; }
