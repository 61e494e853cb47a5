/* Region 3 of IAPWS-IF97: the functions of libregion3_c.a, which tools/staticlib writes for x86-64 Linux and `tools/native aarch64` for aarch64 Linux.
 *
 * Units: p in MPa, t in K, d in kg/m3, v in m3/kg, h in kJ/kg, s in kJ/(kg K).
 *
 * A call returns its refusal's number, R3_ACCEPTED where there is none, and always writes through its pointers: +0.0 in a number and in every
 * field of a record, 0 for a letter, where it is refused. (r3_columns with R3_COLUMNS, and a refused r3_write, write nothing.) Every double is a fair argument, NaN and
 * the infinities too. Calls keep no state: any number of threads may call at once. The number returned is a byte: a caller in another language
 * takes the low byte of the result alone, as C does.
 *
 * What the caller owes:
 *  - A pointer is to live memory of the size that its type or its length says, aligned, and no memory that a call writes overlaps other memory
 *    of that call.
 *  - The processor rounds to nearest, ties to even, as every C program starts. In another rounding mode (fesetround, or a library that sets one)
 *    all calls that work with numbers but r3_letter, r3_root and r3_write, 22 of 25, answered other bits at some of a thousand points; of those
 *    three none was seen to. r3_rounds_to_nearest() tells which it is. Flush-to-zero changed none of the first 14 calls, tried at a point each;
 *    where a step is subnormal it can: 1e-160 squared by r3_power is then 0.
 *
 * What a number is worth (docs/DIFFERENCES.md has each with its input):
 *  - Letter l lacks the last term of its published equation, as the Rust has it: v is up to 4.1 percent low, and on an even grid over l 12
 *    percent of the points come back from r3_pt with a p more than 1e-4 of it off, at most 0.5 percent.
 *  - R3_OE, R3_OIJTC, R3_OFI and R3_OFU are the Rust's formulas and not what their names say: see each below.
 *  - Of (T,d) the ranges are wider than region 3: inside the saturation dome, and where the p of a state lies beyond the border with region 2, the
 *    calls answer numbers that mean nothing, a cp below 0 among them. A p and a T beyond that border are refused with R3_BORDER.
 *  - At p = 100, the end of the range, half of all r3_pt calls are R3_STATE: the p of the found state comes out a little above 100. At 99.99 none
 *    of 4,001 was.
 *
 * The archive calls no mathematical function of the C library: the one symbol that it leaves to the linker is memset.
 *
 * This header includes no other, but for stddef.h where the compiler does not name the type of a size by itself (GCC and Clang do).
 */
#ifndef REGION3_H
#define REGION3_H

#define R3_VERSION "0.3.0"
#define R3_VERSION_NUMBER 300 /* 10000 * first + 100 * second + third */

#ifdef __SIZE_TYPE__
typedef __SIZE_TYPE__ r3_size;
#else
#include <stddef.h>
typedef size_t r3_size;
#endif
typedef unsigned char r3_byte;

/* A function of this header: inline where the language has the word. */
#if defined(__cplusplus) || (defined(__STDC_VERSION__) && __STDC_VERSION__ >= 199901L)
#define R3_INLINE static inline
#elif defined(__GNUC__)
#define R3_INLINE static __inline__
#else
#define R3_INLINE static
#endif

#ifdef __cplusplus
extern "C" {
#endif

/* Why a call is refused, in the order in which it is found: 7, 6, 1, 2, 3, 8, then 4 or 5 at the first step that meets either; of a search its 5, 4 of
 * what it proposes, 5 or 4 of the test, 15, then the record's 4 or 5. Later versions add numbers: anything but 0 is a refusal. */
enum {
    R3_ACCEPTED = 0,    /* accepted */
    R3_NOT_FINITE = 1,  /* an argument is NaN or infinite */
    R3_FIRST = 2,       /* the first argument is outside its range */
    R3_SECOND = 3,      /* the second argument is outside its range */
    R3_STATE = 4,       /* a p, T or d of the state, worked out by the call, is outside its range */
    R3_STEP = 5,        /* a step gives a number that is not finite, a power has lost its digits, or a root of a negative or a logarithm of a number not above 0 is taken */
    R3_PROPERTY = 6,    /* the property's number is unknown */
    R3_COLUMNS = 7,     /* the columns are of unequal length */
    R3_BORDER = 8,      /* T is above the border with region 2 at p */
    R3_UNFOUND = 15,    /* what a search proposes has not the property that was asked for */
    /* of r3_read alone, before the pair's own numbers: at the first field that meets one, and 14 at the end */
    R3_PAST_END = 10,      /* a field or its header runs past the end */
    R3_UNKNOWN_TAG = 11,   /* a field's tag is unknown */
    R3_WRONG_LENGTH = 12,  /* a known field is not of 8 bytes */
    R3_OUT_OF_ORDER = 13,  /* a known tag is not above the one before */
    R3_NOT_A_PAIR = 14,    /* the known tags are not one of the five pairs */
    /* of r3_write alone, after the pair's own numbers */
    R3_NO_ROOM = 16,       /* fewer than 22 bytes are lent */
    R3_NO_SUCH_PAIR = 255  /* the pair byte is none of R3_PAIR_.. */
};

/* The pairs of an exchange record, as r3_read writes them; 0 is none. */
enum {
    R3_PAIR_PT = 1,
    R3_PAIR_TD = 2,
    R3_PAIR_PH = 3,
    R3_PAIR_PS = 4,
    R3_PAIR_HS = 5
};

/* The places of a record. */
enum {
    R3_T = 0,   /* K */
    R3_D = 1,   /* kg/m3 */
    R3_V = 2,   /* m3/kg */
    R3_P = 3,   /* MPa */
    R3_H = 4,   /* kJ/kg */
    R3_S = 5,   /* kJ/(kg K) */
    R3_U = 6,   /* kJ/kg */
    R3_CV = 7,  /* kJ/(kg K) */
    R3_CP = 8,  /* kJ/(kg K) */
    R3_W = 9,   /* m/s */
    R3_FIELDS = 10
};

/* The 25 properties at a T and a d: number as in seuif97's common/property_id.rs, name, unit. Those marked "Rust" are formulas of the Rust, not
 * all of which IAPWS defines; those marked WARNING are not what their names say. */
enum {
    R3_OP = 0,      /* pressure, MPa; R3_STATE outside 16.529 to 100 */
    R3_OV = 3,      /* specific volume, m3/kg */
    R3_OH = 4,      /* specific enthalpy, kJ/kg */
    R3_OS = 5,      /* specific entropy, kJ/(kg K) */
    R3_OE = 6,      /* exergy, kJ/kg; Rust. WARNING: multiplies tau by (phi_tau - phi) where entropy has tau*phi_tau - phi: 315 below to 18 above
                       h - 273.16 K * s over region 3, or -22 to +2.5 percent */
    R3_OU = 7,      /* specific internal energy, kJ/kg */
    R3_OCP = 8,     /* isobaric heat capacity, kJ/(kg K) */
    R3_OCV = 9,     /* isochoric heat capacity, kJ/(kg K) */
    R3_OW = 10,     /* speed of sound, m/s */
    R3_OKS = 11,    /* isentropic exponent, 1; Rust */
    R3_OF = 12,     /* Helmholtz free energy, kJ/kg; Rust */
    R3_OG = 13,     /* Gibbs free energy, kJ/kg; Rust */
    R3_OZ = 14,     /* compressibility factor, 1; Rust */
    R3_OEC = 17,    /* isobaric cubic expansion coefficient, 1/K; Rust */
    R3_OKT = 18,    /* isothermal compressibility, 1/MPa; Rust */
    R3_ODVDT = 19,  /* (dv/dT) at constant p, m3/(kg K); Rust */
    R3_ODVDP = 20,  /* (dv/dp) at constant T, m3/(kg MPa); Rust */
    R3_ODPDT = 21,  /* (dp/dT) at constant v, MPa/K; Rust */
    R3_OIJTC = 22,  /* isothermal throttling coefficient (dh/dp) at constant T; Rust. WARNING: a thousandth of kJ/(kg MPa), the unit that the Rust
                       states; the number is in kJ/(kg kPa) */
    R3_OJTC = 23,   /* Joule-Thomson coefficient (dT/dp) at constant h, K/MPa; Rust */
    R3_OPC = 31,    /* isochoric pressure coefficient (1/p)(dp/dT) at constant v, 1/K; Rust */
    R3_OBETAP = 32, /* isothermal stress coefficient, kg/m3; Rust */
    R3_OFI = 33,    /* fugacity coefficient, 1; Rust. WARNING: exp(g/(R T)) with no ideal-gas reference: over region 3 a factor of 1.2 to 33 below the
                       coefficient with the ideal gas of R7-97 equation 16 as reference */
    R3_OFU = 34,    /* fugacity, MPa; Rust. WARNING: p times R3_OFI, so off by the same factor */
    R3_OALFAP = 35  /* relative pressure coefficient, 1/K; Rust. The quantity of R3_OPC by another formula, up to 1.1e-15 of it apart */
};

/* The record of a state. In r3_hs the record's p is the backward equation's; in the others, r3_pt too, it is worked from
 * the found state, so it need not be the caller's. */
r3_byte r3_td(double t, double d, double out[R3_FIELDS]);
r3_byte r3_pt(double p, double t, double out[R3_FIELDS]);
r3_byte r3_ph(double p, double h, double out[R3_FIELDS]);
r3_byte r3_ps(double p, double s, double out[R3_FIELDS]);
r3_byte r3_hs(double h, double s, double out[R3_FIELDS]);

/* The record of a state that is searched for: the T at a p and a v, the d at a T and an h, the d at a T and an s. The Rust's secant search proposes it;
 * then a test that does not trust the search works the p, h or s there and accepts it within 1e-6 (MPa, kJ/kg, kJ/(kg K)) of the asked one, or
 * refuses it with R3_UNFOUND. Writes how many trials the search made, 0 beside a refusal. The range of v is that of 1/v, and the record's v is
 * 1/(1/v), which need not be the asked one. Two things that an accepted answer does not say: that no other state has the asked property, and that the
 * state lies inside the border with region 2. A search that finds makes up to some 14 trials; one that does not can make 20,000, some
 * milliseconds. At p = 100 and at p = 16.529 about half of the states that exist are R3_STATE, their p coming out a little outside; r3_ts refuses every
 * T from 863.149999999954 up with R3_STEP. */
r3_byte r3_pv(double p, double v, double out[R3_FIELDS], unsigned *trials);
r3_byte r3_th(double t, double h, double out[R3_FIELDS], unsigned *trials);
r3_byte r3_ts(double t, double s, double out[R3_FIELDS], unsigned *trials);

/* The T or d that the test accepted, alone. The record there can still be refused: its p has a range of its own. */
r3_byte r3_pv2t(double p, double v, double *t, unsigned *trials);
r3_byte r3_th2d(double t, double h, double *d, unsigned *trials);
r3_byte r3_ts2d(double t, double s, double *d, unsigned *trials);

/* One property at a T and a d, by its number. */
r3_byte r3_property(int number, double t, double d, double *out);

/* Isobaric heat capacity, kJ/(kg K), and speed of sound, m/s, at a T and a d, for the price of one: R3_OCP and R3_OW, bit for bit. Each is refused by
 * itself: returns cp's refusal and writes w's, so look at both. Where the arguments are at fault both are refused with the same number. */
r3_byte r3_cp_w(double t, double d, double *cp, double *w, r3_byte *w_refusal);

/* The subregion's letter at a p and a T, in ASCII. At the critical point, (22.064, 647.096), it is z, the letter that the boundaries give; r3_columns,
 * whose density there is the critical one and no letter's, has 0 there. */
r3_byte r3_letter(double p, double t, r3_byte *letter);

/* A letter, a density and a refusal for each row of p and t: each column is a pointer and its length, and the five lengths are equal.
 * An accepted row at the critical point has letter 0; a refused row has letter 0 and density +0.0. Returns R3_ACCEPTED or R3_COLUMNS. */
r3_byte r3_columns(
    const double *p, r3_size p_rows, const double *t, r3_size t_rows, r3_byte *letter, r3_size letter_rows,
    double *density, r3_size density_rows, r3_byte *refusal, r3_size refusal_rows);

/* An exchange record of `length` bytes: fields of a tag, a length in two bytes, the high byte first, and that many bytes. Tag 1 is p, 2 T, 3 d, 4 h,
 * 5 s, each 8 bytes, a double, the high byte first; two of them that are a pair, in rising order; tags from 128 up are skipped. Writes the pair that
 * was read, 0 where the record is refused (10 to 14), and the record of the pair's own call, with its number. */
r3_byte r3_read(const r3_byte *bytes, r3_size length, r3_byte *pair, double out[R3_FIELDS]);

/* Writes the exchange record of a pair and its two numbers, R3_RECORD bytes in two fields, at the front of the `length` bytes behind `out`, if the pair's
 * own call accepts it: else its number, then R3_NO_ROOM, and nothing is written. Bytes that the record does not need stay as they are. */
enum { R3_RECORD = 22 };
r3_byte r3_write(r3_byte pair, double a, double b, r3_byte *out, r3_size length);

/* The saturation line: MPa at a T from 623.15 to 647.096, K at a p from 16.529 to 22.064. */
r3_byte r3_p_saturation(double t, double *out);
r3_byte r3_t_saturation(double p, double *out);

/* The border with region 2 (R7-97, equations 5 and 6): MPa at a T from 623.15 to 863.15, K at a p from 16.529 to 100. A T that equals
 * r3_t_border's is accepted by the calls that take p and T; the next double above it is R3_BORDER. */
r3_byte r3_p_border(double t, double *out);
r3_byte r3_t_border(double p, double *out);

/* The four written rules: a to the n, n from -64 to 64; the nearest root; the logarithm's series; the exponential's, x from -700 to 700. */
r3_byte r3_power(double a, int n, double *out);
r3_byte r3_root(double x, double *out);
r3_byte r3_logarithm(double x, double *out);
r3_byte r3_exponential(double x, double *out);

/* The version of the archive that is linked, as R3_VERSION_NUMBER is this header's: a program whose header and archive may differ compares the two. The
 * second answers the same, under a name that has the version in it: a program that names it does not link with the archive of another version. */
unsigned r3_library_version(void);
unsigned r3_library_version_0_3_0(void);

/* The version of this header. */
R3_INLINE const char *r3_version(void) { return R3_VERSION; }

/* What a refusal's number means, in English; never null. */
R3_INLINE const char *r3_refusal_text(int number) {
    switch (number) {
    case R3_ACCEPTED: return "accepted";
    case R3_NOT_FINITE: return "an argument is NaN or infinite";
    case R3_FIRST: return "the first argument is outside its range";
    case R3_SECOND: return "the second argument is outside its range";
    case R3_STATE: return "a p, T or d of the state, worked out by the call, is outside its range";
    case R3_STEP: return "a step gives a number that is not finite, a power has lost its digits, or a root of a negative or a logarithm of a number not above 0 is taken";
    case R3_PROPERTY: return "the property's number is unknown";
    case R3_COLUMNS: return "the columns are of unequal length";
    case R3_BORDER: return "T is above the border with region 2 at p";
    case R3_PAST_END: return "a field or its header runs past the end";
    case R3_UNKNOWN_TAG: return "a field's tag is unknown";
    case R3_WRONG_LENGTH: return "a known field is not of 8 bytes";
    case R3_OUT_OF_ORDER: return "a known tag is not above the one before";
    case R3_NOT_A_PAIR: return "the known tags are not one of the five pairs";
    case R3_UNFOUND: return "what a search proposes has not the property that was asked for";
    case R3_NO_ROOM: return "fewer than 22 bytes are lent";
    case R3_NO_SUCH_PAIR: return "no pair has this byte";
    }
    return "refused, by a number that this header does not know";
}

/* Whether this thread's arithmetic rounds to nearest, as the library must find it: 1 or 0. By three sums, so that no header and no library is
 * needed; it says what fegetround() == FE_TONEAREST of fenv.h says. */
R3_INLINE int r3_rounds_to_nearest(void) {
    /* the unit above 1, half of it and three quarters of it */
    const double unit = 2.220446049250313080847263336181640625e-16;
    volatile double one = 1.0, half = unit / 2.0, more = unit * 0.75;
    volatile double up = one + more, stays = one + half, down = -one - half;
    return up == 1.0 + unit && stays == 1.0 && down == -1.0;
}

#ifdef __cplusplus
}
#endif

#endif
