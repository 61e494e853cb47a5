// The functions of region3.h.
extern "C" {
    pub fn r3_td(t: f64, d: f64, out: *mut [f64; 10]) -> u8;
    pub fn r3_pt(p: f64, t: f64, out: *mut [f64; 10]) -> u8;
    pub fn r3_ph(p: f64, h: f64, out: *mut [f64; 10]) -> u8;
    pub fn r3_ps(p: f64, s: f64, out: *mut [f64; 10]) -> u8;
    pub fn r3_hs(h: f64, s: f64, out: *mut [f64; 10]) -> u8;
    pub fn r3_pv(p: f64, v: f64, out: *mut [f64; 10], trials: *mut u32) -> u8;
    pub fn r3_th(t: f64, h: f64, out: *mut [f64; 10], trials: *mut u32) -> u8;
    pub fn r3_ts(t: f64, s: f64, out: *mut [f64; 10], trials: *mut u32) -> u8;
    pub fn r3_pv2t(p: f64, v: f64, t: *mut f64, trials: *mut u32) -> u8;
    pub fn r3_th2d(t: f64, h: f64, d: *mut f64, trials: *mut u32) -> u8;
    pub fn r3_ts2d(t: f64, s: f64, d: *mut f64, trials: *mut u32) -> u8;
    pub fn r3_property(number: i32, t: f64, d: f64, out: *mut f64) -> u8;
    pub fn r3_cp_w(t: f64, d: f64, cp: *mut f64, w: *mut f64, w_refusal: *mut u8) -> u8;
    pub fn r3_letter(p: f64, t: f64, letter: *mut u8) -> u8;
    pub fn r3_columns(
        p: *const f64,
        p_rows: usize,
        t: *const f64,
        t_rows: usize,
        letter: *mut u8,
        letter_rows: usize,
        density: *mut f64,
        density_rows: usize,
        refusal: *mut u8,
        refusal_rows: usize,
    ) -> u8;
    pub fn r3_read(bytes: *const u8, length: usize, pair: *mut u8, out: *mut [f64; 10]) -> u8;
    pub fn r3_write(pair: u8, a: f64, b: f64, out: *mut u8, length: usize) -> u8;
    pub fn r3_p_saturation(t: f64, out: *mut f64) -> u8;
    pub fn r3_t_saturation(p: f64, out: *mut f64) -> u8;
    pub fn r3_p_border(t: f64, out: *mut f64) -> u8;
    pub fn r3_t_border(p: f64, out: *mut f64) -> u8;
    pub fn r3_power(a: f64, n: i32, out: *mut f64) -> u8;
    pub fn r3_root(x: f64, out: *mut f64) -> u8;
    pub fn r3_logarithm(x: f64, out: *mut f64) -> u8;
    pub fn r3_exponential(x: f64, out: *mut f64) -> u8;
}

// The version of the archive, by the name that this version alone has.
extern "C" {
    pub fn r3_library_version_0_3_0() -> u32;
}
