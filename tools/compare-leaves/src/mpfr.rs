//! hypot by GNU MPFR, rounded once to binary32. Only with the feature `mpfr`.

use std::ffi::{CStr, c_char, c_int, c_long};
use std::mem::MaybeUninit;

/// `__mpfr_struct` of mpfr.h where `mpfr_prec_t` and `mpfr_exp_t` are long, as they are unless MPFR was built otherwise.
#[repr(C)]
struct Number {
    precision: c_long,
    sign: c_int,
    exponent: c_long,
    limbs: *mut u64,
}

// Nothing checks these declarations against mpfr.h, so they are as few as do.
unsafe extern "C" {
    fn mpfr_get_version() -> *const c_char;
    fn mpfr_set_emin(exponent: c_long) -> c_int;
    fn mpfr_set_emax(exponent: c_long) -> c_int;
    fn mpfr_init2(x: *mut Number, precision: c_long);
    fn mpfr_clear(x: *mut Number);
    fn mpfr_set_flt(x: *mut Number, value: f32, rounding: c_int) -> c_int;
    fn mpfr_get_flt(x: *const Number, rounding: c_int) -> f32;
    fn mpfr_hypot(r: *mut Number, x: *const Number, y: *const Number, rounding: c_int) -> c_int;
    fn mpfr_subnormalize(r: *mut Number, ternary: c_int, rounding: c_int) -> c_int;
}

/// MPFR_RNDN: to nearest, ties to even.
const NEAREST: c_int = 0;
const PRECISION: c_long = 24;
/// MPFR's significands are below 1: the least positive f32, 2^-149, is 0.5 * 2^-148, and the largest is below 2^128.
const LEAST_EXPONENT: c_long = -148;
const LARGEST_EXPONENT: c_long = 128;

/// A number of 24 bits with the exponents of binary32: every f32 is one.
struct Held(Number);

impl Held {
    fn new(value: f32) -> Held {
        let mut number = MaybeUninit::uninit();
        // SAFETY: mpfr_init2 fills the whole record, and mpfr_set_flt takes what it made.
        let (number, ternary) = unsafe {
            mpfr_init2(number.as_mut_ptr(), PRECISION);
            let ternary = mpfr_set_flt(number.as_mut_ptr(), value, NEAREST);
            (number.assume_init(), ternary)
        };
        assert_eq!(ternary, 0, "{value:?} was rounded");
        Held(number)
    }
}

impl Drop for Held {
    fn drop(&mut self) {
        // SAFETY: the number was made by mpfr_init2 and is cleared once. It may be moved, as MPFR keeps no pointer to it.
        unsafe { mpfr_clear(&mut self.0) }
    }
}

pub fn hypot(x: f32, y: f32) -> f32 {
    // SAFETY: these take plain numbers, and both exponents are within MPFR's own bounds.
    let refused = unsafe { mpfr_set_emin(LEAST_EXPONENT) | mpfr_set_emax(LARGEST_EXPONENT) };
    assert_eq!(refused, 0, "MPFR does not take binary32's exponents");
    let (x, y, mut root) = (Held::new(x), Held::new(y), Held::new(0.0));
    // SAFETY: all three were made by mpfr_init2. The root has the bits and the exponents of an f32, so that
    // mpfr_get_flt does not round; what mpfr_hypot rounded away is in the ternary, by which mpfr_subnormalize rounds
    // a subnormal root once and not twice.
    unsafe {
        let ternary = mpfr_hypot(&mut root.0, &x.0, &y.0, NEAREST);
        mpfr_subnormalize(&mut root.0, ternary, NEAREST);
        mpfr_get_flt(&root.0, NEAREST)
    }
}

pub fn version() -> String {
    // SAFETY: MPFR gives a text that ends with a zero byte and stays.
    unsafe { CStr::from_ptr(mpfr_get_version()) }
        .to_string_lossy()
        .into_owned()
}
