//! The command `stack`: how many bytes of stack a call of the sheet's entry takes, one of the display's, the coach's and the place's, and one of each that reads a sheet. The call runs
//! on a stack of its own that was filled with a pattern before; what is no longer the pattern was used. A use that happens to write the pattern at the far end would not be seen.

use crate::exact_build::oracle::settled;
use crate::generate::{self, CLASSES};
use crate::library::{self, Asked, For};
use crate::random::Random;
use crate::reading::{self, reader};
use crate::refusals;
use crate::situation::Situation;
use std::arch::asm;

const SIZE: usize = 1 << 20;
const PATTERN: u8 = 0xa7;

struct Call<'a> {
    words: &'a [u32],
    xs: &'a [f32],
    ys: &'a [f32],
    sheet: &'a mut [u8],
    place: &'a mut [u32],
    /// The situation's sheet, empty where it is refused; the first words of `place` are lent for its last item.
    text: &'a [u8],
    /// The player that the coach's entry is asked for.
    asked: Asked,
    answer: i64,
}

extern "C" fn run_call(call: *mut Call) {
    // SAFETY: `on_stack` hands over a call that it has alone.
    let call = unsafe { &mut *call };
    call.answer = library::sheet(For::Desk, call.words, call.xs, call.ys, call.sheet);
}

extern "C" fn run_display(call: *mut Call) {
    // SAFETY: as above.
    let call = unsafe { &mut *call };
    call.answer = library::sheet(For::Display, call.words, call.xs, call.ys, call.sheet);
}

extern "C" fn run_coach(call: *mut Call) {
    // SAFETY: as above.
    let call = unsafe { &mut *call };
    call.answer = library::coach(call.words, call.xs, call.ys, call.asked, call.sheet);
}

extern "C" fn run_place(call: *mut Call) {
    // SAFETY: as above.
    let call = unsafe { &mut *call };
    call.answer = library::place(call.words, call.xs, call.ys, call.place);
}

extern "C" fn run_read(call: *mut Call) {
    // SAFETY: as above.
    let call = unsafe { &mut *call };
    call.answer = library::read_sheet(call.text);
}

extern "C" fn run_item(call: *mut Call) {
    // SAFETY: as above.
    let call = unsafe { &mut *call };
    let last = (call.text.len() / reader::LINE).saturating_sub(1) as u64;
    call.answer = library::read_item(call.text, last, call.place);
}

extern "C" fn run_nothing(_: *mut Call) {}

/// Runs the function on the other stack and says how many of its bytes were used.
fn on_stack(stack: &mut [u8], function: extern "C" fn(*mut Call), call: &mut Call) -> usize {
    stack.fill(PATTERN);
    let top = (stack.as_mut_ptr() as usize + stack.len()) & !63;
    // SAFETY: the stack pointer is changed for the call alone, to memory that nothing else uses, aligned as the C convention asks; the old one is kept in a register
    // that the called function keeps.
    unsafe {
        asm!("mov r12, rsp", "mov rsp, {top}", "call {function}", "mov rsp, r12",
            top = in(reg) top, function = in(reg) function, in("rdi") call, out("r12") _, clobber_abi("C"));
    }
    let kept = stack.iter().position(|&byte| byte != PATTERN).unwrap_or(stack.len());
    top - (stack.as_ptr() as usize + kept)
}

/// The first player that does not stand legally, so that a line is written, else Home 1.
fn asked(s: &Situation) -> Asked {
    let verdicts = refusals::refusal(s).is_none().then(|| settled(s));
    let place = verdicts.and_then(|v| v.iter().flatten().position(|told| told.0 != 0)).unwrap_or(0) as u32;
    (place / 20, place % 20 + 1)
}

pub fn run(count: u64, seed: u64) -> bool {
    let mut random = Random::new(seed);
    let mut stack = vec![0; SIZE];
    let mut sheet = vec![0; 7470];
    let mut place = [0; 5];
    let entries: [(&str, extern "C" fn(*mut Call)); 6] = [
        ("sheet", run_call),
        ("display", run_display),
        ("coach", run_coach),
        ("place", run_place),
        ("reading of a sheet", run_read),
        ("reading of an item", run_item),
    ];
    let (mut most, mut least) = ([0; 6], [usize::MAX; 6]);
    for turn in 0..count {
        let s = generate::situation(&mut random, CLASSES[turn as usize % CLASSES.len()]);
        let words = s.to_words(None);
        let text = reading::sheet(&s).unwrap_or_default();
        let mut call =
            Call { words: &words, xs: &s.xs, ys: &s.ys, sheet: &mut sheet, place: &mut place, text: &text, asked: asked(&s), answer: 0 };
        let nothing = on_stack(&mut stack, run_nothing, &mut call);
        for (i, (_, entry)) in entries.into_iter().enumerate() {
            let used = on_stack(&mut stack, entry, &mut call) - nothing;
            (most[i], least[i]) = (most[i].max(used), least[i].min(used));
        }
    }
    println!("stack: {count} situations");
    for (i, (name, _)) in entries.into_iter().enumerate() {
        println!("stack: from {} to {} bytes a call of the entry for the {name}", least[i], most[i]);
    }
    most.into_iter().all(|most| most < SIZE)
}
