//! The C entries of libreferee_c.a. Nothing checks these declarations against include/referee.h.

unsafe extern "C" {
    fn referee_sheet(
        words: *const u32,
        words_len: usize,
        xs: *const f32,
        xs_len: usize,
        ys: *const f32,
        ys_len: usize,
        sheet: *mut u8,
        sheet_len: usize,
    ) -> i64;
    fn referee_display(
        words: *const u32,
        words_len: usize,
        xs: *const f32,
        xs_len: usize,
        ys: *const f32,
        ys_len: usize,
        sheet: *mut u8,
        sheet_len: usize,
    ) -> i64;
    fn referee_coach(
        words: *const u32,
        words_len: usize,
        xs: *const f32,
        xs_len: usize,
        ys: *const f32,
        ys_len: usize,
        side: u32,
        number: u32,
        text: *mut u8,
        text_len: usize,
    ) -> i64;
    fn referee_place(
        words: *const u32,
        words_len: usize,
        xs: *const f32,
        xs_len: usize,
        ys: *const f32,
        ys_len: usize,
        place: *mut u32,
        place_len: usize,
    ) -> i64;
    fn referee_read_sheet(text: *const u8, text_len: usize) -> i64;
    fn referee_read_item(text: *const u8, text_len: usize, line: u64, item: *mut u32, item_len: usize) -> i64;
    fn referee_check(words: *const u32, words_len: usize) -> i64;
    fn referee_candidates(start: f32, min: f32, max: f32, step: f32, list: *mut f32, list_len: usize) -> i64;
    fn referee_hypot(x: f32, y: f32) -> f32;
    fn referee_normalize_angle(angle: f32) -> f32;
    fn referee_rem_euclid(x: f32, y: f32) -> f32;
}

/// Whom a sheet is for; each has an entry of its own.
#[derive(Clone, Copy, Debug, PartialEq)]
pub enum For {
    Desk,
    Display,
}

type SheetEntry = unsafe extern "C" fn(*const u32, usize, *const f32, usize, *const f32, usize, *mut u8, usize) -> i64;

impl For {
    pub const BOTH: [For; 2] = [For::Desk, For::Display];

    fn entry(self) -> SheetEntry {
        match self {
            For::Desk => referee_sheet,
            For::Display => referee_display,
        }
    }
}

pub fn sheet(to: For, words: &[u32], xs: &[f32], ys: &[f32], sheet: &mut [u8]) -> i64 {
    let entry = to.entry();
    // SAFETY: each pointer comes with the length of its slice and is aligned, of an empty slice too; the borrows keep what is
    // written apart from what is read.
    unsafe { entry(words.as_ptr(), words.len(), xs.as_ptr(), xs.len(), ys.as_ptr(), ys.len(), sheet.as_mut_ptr(), sheet.len()) }
}

/// The same with `room` bytes of the vector's capacity, which hold nothing yet; the vector then holds what was written.
pub fn sheet_fresh(to: For, words: &[u32], xs: &[f32], ys: &[f32], lent: &mut Vec<u8>, room: usize) -> i64 {
    assert!(lent.is_empty() && room <= lent.capacity());
    let entry = to.entry();
    // SAFETY: as above; the entry writes the bytes that it counts, so that these are initialised.
    unsafe {
        let n = entry(words.as_ptr(), words.len(), xs.as_ptr(), xs.len(), ys.as_ptr(), ys.len(), lent.as_mut_ptr(), room);
        lent.set_len(usize::try_from(n).unwrap_or(0));
        n
    }
}

/// The player that a coach asks for: the side and the number, which may be none.
pub type Asked = (u32, u32);

pub fn coach(words: &[u32], xs: &[f32], ys: &[f32], (side, number): Asked, text: &mut [u8]) -> i64 {
    let (at, room) = (text.as_mut_ptr(), text.len());
    // SAFETY: as of the sheet.
    unsafe { referee_coach(words.as_ptr(), words.len(), xs.as_ptr(), xs.len(), ys.as_ptr(), ys.len(), side, number, at, room) }
}

/// The same with `room` bytes of the vector's capacity, which hold nothing yet; the vector then holds what was written.
pub fn coach_fresh(words: &[u32], xs: &[f32], ys: &[f32], (side, number): Asked, lent: &mut Vec<u8>, room: usize) -> i64 {
    assert!(lent.is_empty() && room <= lent.capacity());
    let at = lent.as_mut_ptr();
    // SAFETY: as of the sheet.
    unsafe {
        let n = referee_coach(words.as_ptr(), words.len(), xs.as_ptr(), xs.len(), ys.as_ptr(), ys.len(), side, number, at, room);
        lent.set_len(usize::try_from(n).unwrap_or(0));
        n
    }
}

pub fn place(words: &[u32], xs: &[f32], ys: &[f32], place: &mut [u32]) -> i64 {
    // SAFETY: as of the sheet.
    unsafe {
        referee_place(words.as_ptr(), words.len(), xs.as_ptr(), xs.len(), ys.as_ptr(), ys.len(), place.as_mut_ptr(), place.len())
    }
}

/// The same with `room` words of the vector's capacity, which hold nothing yet; the vector then holds what was written.
pub fn place_fresh(words: &[u32], xs: &[f32], ys: &[f32], lent: &mut Vec<u32>, room: usize) -> i64 {
    assert!(lent.is_empty() && room <= lent.capacity());
    // SAFETY: as of the sheet; beside the answer 1, and no other, five words are written.
    unsafe {
        let n = referee_place(words.as_ptr(), words.len(), xs.as_ptr(), xs.len(), ys.as_ptr(), ys.len(), lent.as_mut_ptr(), room);
        lent.set_len(if n == 1 { room.min(5) } else { 0 });
        n
    }
}

pub fn read_sheet(text: &[u8]) -> i64 {
    // SAFETY: as of the sheet.
    unsafe { referee_read_sheet(text.as_ptr(), text.len()) }
}

pub fn read_item(text: &[u8], line: u64, item: &mut [u32]) -> i64 {
    // SAFETY: as of the sheet.
    unsafe { referee_read_item(text.as_ptr(), text.len(), line, item.as_mut_ptr(), item.len()) }
}

/// The same with `room` words of the vector's capacity, which hold nothing yet; the vector then holds what was written.
pub fn read_item_fresh(text: &[u8], line: u64, lent: &mut Vec<u32>, room: usize) -> i64 {
    assert!(lent.is_empty() && room <= lent.capacity());
    // SAFETY: as of the sheet; beside the answer 1, and no other, four words are written.
    unsafe {
        let n = referee_read_item(text.as_ptr(), text.len(), line, lent.as_mut_ptr(), room);
        lent.set_len(if n == 1 { room.min(4) } else { 0 });
        n
    }
}

pub fn candidates_fresh(start: f32, min: f32, max: f32, step: f32, lent: &mut Vec<f32>, room: usize) -> i64 {
    assert!(lent.is_empty() && room <= lent.capacity());
    // SAFETY: as above.
    unsafe {
        let n = referee_candidates(start, min, max, step, lent.as_mut_ptr(), room);
        lent.set_len(usize::try_from(n).unwrap_or(0));
        n
    }
}

pub fn check(words: &[u32]) -> i64 {
    // SAFETY: as above.
    unsafe { referee_check(words.as_ptr(), words.len()) }
}

pub fn candidates(start: f32, min: f32, max: f32, step: f32, list: &mut [f32]) -> i64 {
    // SAFETY: as above.
    unsafe { referee_candidates(start, min, max, step, list.as_mut_ptr(), list.len()) }
}

pub fn hypot(x: f32, y: f32) -> f32 {
    // SAFETY: plain numbers in and out, for every bit pattern.
    unsafe { referee_hypot(x, y) }
}

pub fn normalize_angle(angle: f32) -> f32 {
    // SAFETY: as above.
    unsafe { referee_normalize_angle(angle) }
}

pub fn rem_euclid(x: f32, y: f32) -> f32 {
    // SAFETY: as above.
    unsafe { referee_rem_euclid(x, y) }
}
