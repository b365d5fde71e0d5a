//! The C entries of libreferee_c.a. Nothing checks these declarations against its source, so they are two and no more.

unsafe extern "C" {
    fn referee_hypot(x: f32, y: f32) -> f32;
    fn referee_rem_euclid(x: f32, y: f32) -> f32;
}

#[inline(always)]
pub fn hypot(x: f32, y: f32) -> f32 {
    // SAFETY: the entry takes and gives plain numbers, for every bit pattern, and touches no memory of ours.
    unsafe { referee_hypot(x, y) }
}

#[inline(always)]
pub fn rem_euclid(x: f32, y: f32) -> f32 {
    // SAFETY: as above.
    unsafe { referee_rem_euclid(x, y) }
}
