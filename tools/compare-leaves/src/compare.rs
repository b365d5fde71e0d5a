//! The commands `compare` and `mpfr`: the library and std against the exact answers, over every class of inputs.

use crate::exact::{self, SIGN, Ties};
use crate::inputs::{Class, Pair, total_weight};
#[cfg(feature = "mpfr")]
use crate::mpfr;
use crate::wrong::{self, Wrong};
use crate::{hypot_inputs, library, rem_inputs};
use std::fmt;
use std::mem;
use std::process::ExitCode;

pub struct Function {
    name: &'static str,
    classes: &'static [Class],
    ours: fn(f32, f32) -> f32,
    std: fn(f32, f32) -> f32,
    exact: fn(f32, f32) -> f32,
    /// Another way to the exact answer, and where it has one.
    again: fn(f32, f32) -> Option<f32>,
    /// What the two ways are.
    ways: [&'static str; 2],
    wrong: &'static [Wrong],
    known: &'static [(f32, f32, f32)],
}

pub static FUNCTIONS: [Function; 2] = [
    Function {
        name: "hypot",
        classes: &hypot_inputs::CLASSES,
        ours: library::hypot,
        std: f32::hypot,
        exact: exact::hypot_by_squares,
        again: |x, y| exact::hypot_by_root(x, y, Ties::Even),
        ways: ["squares", "a root"],
        wrong: &wrong::HYPOT,
        known: &KNOWN_HYPOT,
    },
    Function {
        name: "rem_euclid",
        classes: &rem_inputs::CLASSES,
        ours: library::rem_euclid,
        std: f32::rem_euclid,
        exact: exact::rem_euclid_by_powers,
        again: |x, y| Some(exact::rem_euclid_by_doubling(x, y)),
        ways: ["powers", "doubling"],
        wrong: &wrong::REM_EUCLID,
        known: &KNOWN_REM_EUCLID,
    },
];

/// hypot held to MPFR's answers, and these to the whole numbers'.
#[cfg(feature = "mpfr")]
pub static BY_MPFR: [Function; 1] = [Function {
    name: "hypot",
    classes: &hypot_inputs::CLASSES,
    ours: library::hypot,
    std: f32::hypot,
    exact: mpfr::hypot,
    again: |x, y| Some(exact::hypot_by_squares(x, y)),
    ways: ["MPFR", "squares"],
    wrong: &wrong::HYPOT,
    known: &KNOWN_HYPOT,
}];

const UNIT: f32 = f32::from_bits(1);
const SIGNALING: f32 = f32::from_bits(0x7f80_0001);
const TWO_103: f32 = f32::from_bits(0x7300_0000);

/// Answers found by hand, to which the exact ways are held.
const KNOWN_HYPOT: [(f32, f32, f32); 16] = [
    (3.0, -4.0, 5.0),
    (0.0, -0.0, 0.0),
    (-0.0, -7.0, 7.0),
    (UNIT, UNIT, UNIT),
    (2.0 * UNIT, 2.0 * UNIT, 3.0 * UNIT),
    // The root is 16777217, in the middle, and the even neighbour is below.
    (16_777_215.0, 8192.0, 16_777_216.0),
    // The root is 16953603, in the middle, and the even neighbour is above.
    (14_786_397.0, 8_293_800.0, 16_953_604.0),
    // The root is 2^128 - 2^103, in the middle between the last float and 2^128.
    (
        12_091_519.0 * TWO_103,
        31_300_080.0 * TWO_103,
        f32::INFINITY,
    ),
    (12_091_518.0 * TWO_103, 31_300_080.0 * TWO_103, f32::MAX),
    (f32::MAX, f32::MAX, f32::INFINITY),
    (f32::MAX, UNIT, f32::MAX),
    // 1 + 2^-24 is in the middle, and the root of 1 + 2^-23 just below it.
    (1.0, 3.452_669_8e-4, 1.0),
    (f32::NEG_INFINITY, f32::NAN, f32::INFINITY),
    (SIGNALING, f32::INFINITY, f32::INFINITY),
    (f32::NAN, 1.0, f32::NAN),
    (0.0, f32::NAN, f32::NAN),
];

const TWO_127: f32 = f32::from_bits(0x7f00_0000);

const KNOWN_REM_EUCLID: [(f32, f32, f32); 19] = [
    (5.0, 3.0, 2.0),
    (5.0, -3.0, 2.0),
    (-5.0, 3.0, 1.0),
    (-5.0, -3.0, 1.0),
    (-6.0, 3.0, -0.0),
    (6.0, -3.0, 0.0),
    (-0.0, 3.0, -0.0),
    // The powers of 2 by 5 leave 1, 2, 4, 3 in turn, and 2^127 is 2^276 units.
    (TWO_127, 5.0, 3.0),
    (-TWO_127, 5.0, 2.0),
    (TWO_127, 5.0 * UNIT, UNIT),
    (-TWO_127, 5.0 * UNIT, 4.0 * UNIT),
    // The sum is in the middle between 1 - 2^-24 and 1, which is even; and just below the middle.
    (f32::from_bits(0xb300_0000), 1.0, 1.0),
    (
        f32::from_bits(0xb300_0001),
        1.0,
        f32::from_bits(0x3f7f_ffff),
    ),
    (-UNIT, f32::MAX, f32::MAX),
    (7.0, f32::NEG_INFINITY, 7.0),
    (-7.0, f32::NEG_INFINITY, f32::INFINITY),
    (f32::INFINITY, 3.0, f32::NAN),
    (3.0, -0.0, f32::NAN),
    (f32::NAN, 3.0, f32::NAN),
];

/// Which NaN comes out is left open; the sign of a zero is not.
pub fn same(a: f32, b: f32) -> bool {
    a.to_bits() == b.to_bits() || a.is_nan() && b.is_nan()
}

/// A place on the line of floats: neighbours differ by 1.
fn place(x: f32) -> i64 {
    let p = i64::from(exact::magnitude(x));
    if x.to_bits() & SIGN == 0 { p } else { -p }
}

#[derive(Clone, Copy)]
struct Difference {
    name: &'static str,
    pair: Pair,
    got: f32,
    exact: f32,
}

impl Difference {
    fn kind(&self) -> String {
        let (got, exact) = (self.got, self.exact);
        if got.is_nan() {
            let instead = if exact.is_infinite() {
                "infinity"
            } else {
                "a number"
            };
            return format!("NaN for {instead}");
        }
        if exact.is_nan() {
            return "a number for NaN".to_string();
        }
        if got == exact {
            return "sign of a zero".to_string();
        }
        if exact.is_infinite() {
            return "a finite number for infinity".to_string();
        }
        if got.is_infinite() {
            return "infinity for a finite number".to_string();
        }
        let ulps = place(got) - place(exact);
        let side = if ulps < 0 { "below" } else { "above" };
        format!("{} ulp {side}", ulps.abs())
    }
}

impl fmt::Display for Difference {
    fn fmt(&self, f: &mut fmt::Formatter) -> fmt::Result {
        let ((x, y), got, exact) = (self.pair, self.got, self.exact);
        write!(
            f,
            "{}({:#010x}, {:#010x}) is {:#010x} and not {:#010x}: at ({x:?}, {y:?}) {got:?} and not {exact:?}, {}",
            self.name,
            x.to_bits(),
            y.to_bits(),
            got.to_bits(),
            exact.to_bits(),
            self.kind()
        )
    }
}

/// How many differences there were, and the first few.
#[derive(Default)]
struct Differences {
    count: u64,
    first: Vec<Difference>,
}

const SHOWN: usize = 3;

impl Differences {
    fn note(&mut self, found: Option<Difference>) {
        if let Some(difference) = found {
            self.count += 1;
            if self.first.len() < SHOWN {
                self.first.push(difference);
            }
        }
    }
}

struct Kind {
    name: String,
    count: u64,
    first: Difference,
}

/// What the inputs of one function have shown.
struct Report {
    function: &'static Function,
    /// Between the two ways to the exact answer, and at how many inputs both have one.
    ways: Differences,
    twice: u64,
    /// Std's differences by kind, and the first in each class.
    kinds: Vec<Kind>,
    std_first: Vec<(&'static str, Difference)>,
    /// Of each deliberately wrong implementation.
    wrong: Vec<Differences>,
    failures: Vec<String>,
}

impl Report {
    fn new(function: &'static Function) -> Report {
        Report {
            function,
            ways: Differences::default(),
            twice: 0,
            kinds: Vec::new(),
            std_first: Vec::new(),
            wrong: function
                .wrong
                .iter()
                .map(|_| Differences::default())
                .collect(),
            failures: Vec::new(),
        }
    }

    fn against(&self, pair: Pair, got: f32, exact: f32) -> Option<Difference> {
        let name = self.function.name;
        (!same(got, exact)).then_some(Difference {
            name,
            pair,
            got,
            exact,
        })
    }

    fn fail(&mut self, what: &str, differences: &[Difference]) {
        self.failures.extend(
            differences
                .iter()
                .map(|difference| format!("{what}: {difference}")),
        );
    }

    fn known_answers(&mut self) {
        for &(x, y, answer) in self.function.known {
            let ways = [
                Some((self.function.exact)(x, y)),
                (self.function.again)(x, y),
            ];
            for found in ways.into_iter().flatten() {
                let difference = self.against((x, y), found, answer);
                self.fail("an exact way and a known answer", difference.as_slice());
            }
        }
    }

    fn input(&mut self, pair: Pair, ours: &mut Differences, std: &mut Differences) {
        let (function, (x, y)) = (self.function, pair);
        let exact = (function.exact)(x, y);
        if let Some(again) = (function.again)(x, y) {
            self.twice += 1;
            self.ways.note(self.against(pair, again, exact));
        }
        ours.note(self.against(pair, (function.ours)(x, y), exact));
        let by_std = self.against(pair, (function.std)(x, y), exact);
        std.note(by_std);
        if let Some(difference) = by_std {
            let name = difference.kind();
            match self.kinds.iter_mut().find(|kind| kind.name == name) {
                Some(kind) => kind.count += 1,
                None => self.kinds.push(Kind {
                    name,
                    count: 1,
                    first: difference,
                }),
            }
        }
        for (i, &(_, wrong)) in function.wrong.iter().enumerate() {
            let difference = self.against(pair, wrong(x, y), exact);
            self.wrong[i].note(difference);
        }
    }

    fn inputs(&mut self, count: u64, seed: u64) {
        let row = |name: &str, inputs: u64, ours: u64, std: u64| {
            println!("{name:32}{inputs:>12}{ours:>16}{std:>12}");
        };
        println!(
            "{:32}{:>12}{:>16}{:>12}",
            "class", "inputs", "library differs", "std differs"
        );
        let weight = total_weight(self.function.classes);
        let mut all = [0; 3];
        for class in self.function.classes {
            let (mut inputs, mut ours, mut std) =
                (0, Differences::default(), Differences::default());
            class.each(weight, count, seed, |pair| {
                inputs += 1;
                self.input(pair, &mut ours, &mut std);
            });
            row(class.name, inputs, ours.count, std.count);
            self.fail("the library", &ours.first);
            self.std_first
                .extend(std.first.first().map(|&first| (class.name, first)));
            for (sum, part) in all.iter_mut().zip([inputs, ours.count, std.count]) {
                *sum += part;
            }
        }
        row("all", all[0], all[1], all[2]);
    }

    fn print_ways(&mut self) {
        let (twice, differ, [one, other]) = (self.twice, self.ways.count, self.function.ways);
        println!(
            "\nthe exact answer was found by {one} and by {other} at {twice} inputs, and they differ at {differ}"
        );
        let first = mem::take(&mut self.ways.first);
        self.fail("the two exact ways", &first);
    }

    fn print_std(&self) {
        if self.kinds.is_empty() {
            println!("\nstd differs nowhere");
            return;
        }
        println!("\nstd's differences by kind, with the first of each:");
        for kind in &self.kinds {
            println!("  {}: {}\n    {}", kind.name, kind.count, kind.first);
        }
        println!("std's first difference in each class that has one:");
        for (class, difference) in &self.std_first {
            println!("  {class}\n    {difference}");
        }
    }

    fn print_wrong(&mut self) {
        println!("\ndeliberately wrong ones, over the same inputs:");
        println!("{:32}{:>12}", "what is wrong", "differs");
        for (&(what, _), differences) in self.function.wrong.iter().zip(&self.wrong) {
            println!("{what:32}{:>12}", differences.count);
            if differences.count == 0 {
                self.failures.push(format!(
                    "no input tells a wrong one from the exact answer: {what}"
                ));
            }
        }
    }
}

pub fn run(command: &str, functions: &'static [Function], count: u64, seed: u64) -> ExitCode {
    let mut failed = false;
    for function in functions {
        println!("{}, seed {seed}", function.name);
        let mut report = Report::new(function);
        report.known_answers();
        report.inputs(count, seed);
        report.print_ways();
        report.print_std();
        report.print_wrong();
        println!();
        for failure in &report.failures {
            println!("FAILED {failure}");
        }
        failed |= !report.failures.is_empty();
    }
    println!("{command}: {}", if failed { "failed" } else { "ok" });
    ExitCode::from(u8::from(failed))
}
