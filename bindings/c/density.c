/* The density at a pressure and a temperature: density 24 650.
 * Status: 0 the density is printed; 1 the point is refused, with its number; 2 wrong usage; 3 the processor does not round to nearest. */
#include "region3.h"

int printf(const char *, ...);
int dprintf(int, const char *, ...);
double strtod(const char *, char **);

/* Whether the whole word is a number: with nothing before it that strtod passes over, and nothing after it. */
static int number(const char *word, double *x) {
    char *end;
    *x = strtod(word, &end);
    return *word > ' ' && end != word && *end == 0;
}

int main(int n, char **words) {
    double p, t, state[R3_FIELDS];
    if (n != 3 || !number(words[1], &p) || !number(words[2], &t)) {
        dprintf(2, "usage: density P T, a pressure in MPa and a temperature in K, as in density 24 650\n");
        return 2;
    }
    if (!r3_rounds_to_nearest()) {
        dprintf(2, "density: the processor does not round to nearest\n");
        return 3;
    }
    r3_byte refusal = r3_pt(p, t, state);
    if (refusal != R3_ACCEPTED) {
        printf("refused with %d: %s\n", refusal, r3_refusal_text(refusal));
        return 1;
    }
    printf("%.6f kg/m3\n", state[R3_D]);
    return 0;
}
