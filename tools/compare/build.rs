//! Links libreferee_c.a and makes the oracle's text from the original Rust, which is not part of this repository.
//!
//! The original files are read from REFEREE_RUST_DIR, else from ../shared/docs/src beside the repository. They are rewritten only so
//! far that they compile here: leading module comments go (an included text may not begin with them), paths of `use` point to
//! the stand-ins, serde's attributes and the derives of absent crates go, and hypot, min and max of f32 become methods of a trait
//! `Leaves`, which each build supplies. Every rule says how often it must match; if it does not, the build fails.
//!
//! One thing is another rule, by request 4 of document 02, in every build: where `carpet_excess` is called, the robot's radius is subtracted from what
//! it gives. The function itself stays as it is.
//!
//! A second text has each test of docs/COACH.md record its number where it holds (src/told.rs), and changes nothing else: it serves the
//! coach's lines alone, so that what is timed and what mutants.py edits is as it was.
//!
//! A third text has deliberate slips in it besides, each behind a switch (src/slips.rs). It serves only to show that the comparison fails.

use std::env;
use std::fs;
use std::path::{Path, PathBuf};

fn main() {
    println!("cargo:rerun-if-env-changed=REFEREE_LIB_DIR");
    println!("cargo:rerun-if-env-changed=REFEREE_RUST_DIR");
    println!("cargo:rerun-if-changed=build.rs");
    let project = PathBuf::from(env::var_os("CARGO_MANIFEST_DIR").expect("cargo sets CARGO_MANIFEST_DIR"));
    let out = PathBuf::from(env::var_os("OUT_DIR").expect("cargo sets OUT_DIR"));
    link(&folder(&project, "REFEREE_LIB_DIR", "../../crates/referee_c/out"));
    oracle(&folder(&project, "REFEREE_RUST_DIR", "../../../shared/docs/src"), &out);
}

/// The folder that a variable names, else the one beside this project.
fn folder(project: &Path, variable: &str, default: &str) -> PathBuf {
    match env::var_os(variable) {
        // A build script runs in the project's folder and not where cargo was called: a relative path would mislead.
        Some(given) if !Path::new(&given).is_absolute() => panic!("{variable} must be an absolute path"),
        Some(given) => PathBuf::from(given),
        None => project.join(default),
    }
}

fn link(folder: &Path) {
    let archive = folder.join("libreferee_c.a");
    println!("cargo:rerun-if-changed={}", archive.display());
    if !archive.is_file() {
        panic!(
            "{} is missing: run `tools/make referee_c` in the repository's root, or set REFEREE_LIB_DIR",
            archive.display()
        );
    }
    println!("cargo:rustc-link-search=native={}", folder.display());
    println!("cargo:rustc-link-lib=static=referee_c");
    println!("cargo:rustc-link-lib=m");
}

fn oracle(folder: &Path, out: &Path) {
    let read = |name: &str| {
        let path = folder.join(name);
        println!("cargo:rerun-if-changed={}", path.display());
        let text = fs::read_to_string(&path)
            .unwrap_or_else(|e| panic!("{}: {e}; REFEREE_RUST_DIR names the folder of the original Rust", path.display()));
        Text { name: name.to_string(), text }
    };
    let write = |name: &str, text: &str| fs::write(out.join(name), text).expect("OUT_DIR can be written");

    let mut types = read("game_controller_core/src/types.rs");
    types.without_module_comment();
    types.replace("use enum_map::{Enum, EnumMap};", "use crate::stand_ins::enum_map::EnumMap;", 1);
    types.replace("use serde::{Deserialize, Serialize};\n", "", 1);
    types.replace("use crate::timer::Timer;", "use crate::stand_ins::game_controller_core::timer::Timer;", 1);
    types.without_absent_derives();
    write("types.rs", &types.text);

    let mut rules = read("game_controller_autoreferee/src/rules.rs");
    rules.without_module_comment();
    rules.replace("use enum_map::EnumMap;", "use crate::stand_ins::enum_map::EnumMap;", 1);
    rules.replace("use game_controller_core::types::{", "use crate::stand_ins::game_controller_core::types::{", 1);
    rules.replace("use crate::{index,", "use super::leaves::Leaves;\nuse super::{index,", 1);
    rules.replace(".hypot(", ".leaf_hypot(", 6);
    rules.replace(".min(", ".leaf_min(", 5);
    rules.replace(".max(", ".leaf_max(", 1);
    rules.absent("f32::min");
    rules.absent("f32::max");
    // Request 4, at both calls of `carpet_excess`; the other text of its name is where it stands.
    rules.counted("carpet_excess(", 2);
    rules.replace("carpet_excess(&pose, field) > allowance", "carpet_excess(&pose, field) - pose.radius > allowance", 1);
    write("rules.rs", &rules.text);

    let mut lib = read("game_controller_autoreferee/src/lib.rs");
    lib.without_module_comment();
    lib.replace("use bitflags::bitflags;", "use crate::stand_ins::bitflags::bitflags;", 1);
    lib.replace("use enum_map::EnumMap;", "use crate::stand_ins::enum_map::EnumMap;\nuse self::leaves::Leaves;", 1);
    lib.replace("use game_controller_core::{", "use crate::stand_ins::game_controller_core::{", 1);
    lib.replace(".hypot(", ".leaf_hypot(", 11);
    lib.replace("f32::min)", "<f32 as Leaves>::leaf_min)", 1);
    lib.absent("f32::min");
    lib.absent("f32::max");
    lib.absent(".min(");
    // The third `.max(` is of durations.
    lib.replace(".max(0.0)", ".leaf_max(0.0)", 2);
    lib.counted(".max(", 1);
    lib.counted(".max(since)", 1);
    lib.counted("carpet_excess(", 1);
    lib.replace(
        "rules::carpet_excess(&pose, &self.config.field).leaf_max(0.0)",
        "(rules::carpet_excess(&pose, &self.config.field) - pose.radius).leaf_max(0.0)",
        1,
    );
    let with_rules = |lib: &Text, file: &str| {
        let mut lib = lib.clone();
        let module = format!("mod rules {{ include!(concat!(env!(\"OUT_DIR\"), \"/{file}\")); }}");
        lib.replace("\nmod rules;\n", &format!("\n{module}\n"), 1);
        lib.text
    };
    write("lib.rs", &with_rules(&lib, "rules.rs"));

    record_tests(&mut rules);
    write("rules_told.rs", &rules.text);
    write("lib_told.rs", &with_rules(&lib, "rules_told.rs"));

    slips(&mut lib, &mut rules);
    ask_earlier(&mut rules);
    write("rules_slips.rs", &rules.text);
    write("lib_slips.rs", &with_rules(&lib, "rules_slips.rs"));
}

/// Has each of the fifteen tests of docs/COACH.md record its number. Tests joined by "and" are one; those joined by "or" record
/// themselves one by one, so that the first that holds is the only one that does; the else records that the test before it failed.
fn record_tests(rules: &mut Text) {
    rules.record(1, "if ", "game.state == State::Set && distance_to_center < field.mark_radius + r", " {\n");
    rules.record(2, "} else if ", "!in_center_circle", " {\n");
    let arm = "} else {\n                    ";
    rules.replace(&format!("{arm}IllegalUnlessKicker\n"), &format!("{arm}{RECORD}3, true);\nIllegalUnlessKicker\n"), 1);
    rules.record(4, "} else if ", "in_opponent_half", " || ");
    rules.record(5, " || ", "in_center_circle", " {\n");
    rules.record(6, "if (", "game.state == State::Set && distance_to_mark < field.mark_radius + r", ")\n");
    rules.record(7, "|| ", "team_x > mark_x", "\n");
    rules.record(8, "} else if ", "m.opponent_penalty_area > 0.0", "\n");
    rules.record(9, "|| ", "distance_to_mark < field.center_circle_radius + r", "\n");
    rules.record(10, "if ", "m.own_penalty_area > 0.0", "\n");
    rules.record(11, "|| ", "team_x < own_mark_x", "\n");
    rules.record(12, "|| ", "distance_to_own_mark < field.center_circle_radius + r", "\n");
    rules.record(
        13,
        ";\n    ",
        "(pose.x - ball_x).leaf_hypot(pose.y - ball_y) < field.center_circle_radius + pose.radius",
        "\n        || ",
    );
    rules.record(14, "|| (", "game.set_play == SetPlay::GoalKick && m.opponent_penalty_area > 0.0", ")\n");
    rules.record(15, "|| (", "ball_in_own_penalty_area && m.own_penalty_area > 0.0", ")\n");
    rules.counted(RECORD, 15);
}

/// Has of tests joined by "or" a later one asked before an earlier one too, behind a switch. The other slips are in the text before.
fn ask_earlier(rules: &mut Text) {
    for (later, earlier) in [(5, 4), (7, 6), (9, 8), (11, 10), (12, 10), (12, 11), (14, 13), (15, 13), (15, 14)] {
        let (asked, test) = (rules.recorded(later), rules.recorded(earlier));
        let first = asked.replace(&format!("{RECORD}{later}, "), &format!("crate::told::earlier({later}, {earlier}, "));
        rules.replace(&test, &format!("{first} || {test}"), 1);
    }
}

/// Puts the slips of src/slips.rs into the text, each behind its switch.
fn slips(lib: &mut Text, rules: &mut Text) {
    // Squares in f32 instead of the rounded distance, at the three distances that decide a verdict with one comparison.
    rules.replace(
        "(pose.x - ball_x).leaf_hypot(pose.y - ball_y) < field.center_circle_radius + pose.radius",
        "crate::slips::nearer(pose.x - ball_x, pose.y - ball_y, field.center_circle_radius + pose.radius)",
        1,
    );
    rules.replace(
        "distance_to_center < field.center_circle_radius + r;",
        "crate::slips::nearer(pose.x, pose.y, field.center_circle_radius + r);",
        1,
    );
    rules.replace("margin1.total_cmp(margin2)", "crate::slips::by_margin(*margin1, *margin2)", 1);
    rules.replace("u8::from(*player2).cmp(&u8::from(*player1))", "crate::slips::by_number(u8::from(*player1), u8::from(*player2))", 1);
    rules.replace("m.own_goal_area >= 0.0", "crate::slips::in_area(m.own_goal_area)", 1);
    rules.replace("saturating_sub(MAX_PLAYERS_IN_GOAL_AREA)", "saturating_sub(crate::slips::most_players(MAX_PLAYERS_IN_GOAL_AREA))", 1);
    rules.replace("m.opponent_penalty_area > 0.0", "crate::slips::in_penalty_area(m.opponent_penalty_area)", 2);
    rules.replace("team_x > -(field.line_width * 0.5 + r)", "crate::slips::in_half(team_x, -(field.line_width * 0.5 + r))", 1);
    rules.replace(
        "carpet_excess(&pose, field) - pose.radius > allowance",
        "crate::slips::leaves(crate::slips::near_edge(carpet_excess(&pose, field), [pose.x, pose.y], \
         [field.length, field.width].map(|size| size * 0.5 + field.border_strip_width), pose.radius), allowance)",
        1,
    );
    rules.replace("pose.y.abs() <= field.goal_width * 0.5", "crate::slips::between_posts(pose.y.abs(), field.goal_width * 0.5)", 1);
    rules.replace("towards_halfway_line <= max", "crate::slips::up_to(towards_halfway_line, max)", 1);
    rules.replace(
        "distance1.total_cmp(distance2)",
        "crate::slips::by_distance(*distance1, *distance2)",
        1,
    );
    lib.replace(
        ".chain(commands.iter()",
        ".chain(commands.iter().filter(|_| !crate::slips::on(crate::slips::FORGET_PLACES))",
        1,
    );
    lib.replace("clearance(*a).total_cmp(&clearance(*b))", "crate::slips::by_clearance(clearance(*a), clearance(*b))", 1);
    lib.replace("clearance(team_x) >= distance", "crate::slips::reaches(clearance(team_x), distance)", 1);
    lib.replace(
        "x.abs() > field.length * 0.5 + field.ball_radius",
        "crate::slips::past(x.abs(), field.length * 0.5 + field.ball_radius)",
        1,
    );
    lib.replace(
        "y.abs() + field.ball_radius < field.goal_width * 0.5",
        "crate::slips::in_goal(y.abs() + field.ball_radius, field.goal_width * 0.5)",
        1,
    );
    lib.replace("(game.sides, x > 0.0)", "(game.sides, crate::slips::positive(x))", 1);
    lib.replace("> Self::MOTION_ANGLE", "> crate::slips::angle(Self::MOTION_ANGLE)", 1);
    lib.replace(
        "rules::normalize_angle(pose.theta - reference_pose.theta)",
        "crate::slips::normalized(rules::normalize_angle, pose.theta - reference_pose.theta)",
        1,
    );
    lib.replace(".copysign(pose.y)", ".copysign(crate::slips::zero_sign(pose.y))", 1);
    // The numbers of a place, but for the ball of a shoot-out.
    lib.replace("position: [x, y, field.ball_radius]", "position: [x, y, field.ball_radius].map(crate::slips::placed)", 1);
    lib.replace("position: [x, 0.0, field.ball_radius]", "position: [x, 0.0, field.ball_radius].map(crate::slips::placed)", 1);
    lib.replace("x: sign * team_x,", "x: crate::slips::placed(sign * team_x),", 2);
    lib.replace("y: pose.y.clamp(-max_y, max_y),", "y: crate::slips::placed(pose.y.clamp(-max_y, max_y)),", 1);
    lib.replace("theta: pose.theta,", "theta: crate::slips::placed(pose.theta),", 1);
}

/// How a test that records itself begins; its number follows.
const RECORD: &str = "crate::told::told(";

#[derive(Clone)]
struct Text {
    name: String,
    text: String,
}

impl Text {
    fn counted(&self, what: &str, expected: usize) {
        let found = self.text.matches(what).count();
        if found != expected {
            panic!(
                "{}: `{}` stands there {found} times and not {expected}: not the text that this tool was written for",
                self.name, what
            );
        }
    }

    fn absent(&self, what: &str) {
        self.counted(what, 0);
    }

    fn replace(&mut self, what: &str, by: &str, expected: usize) {
        self.counted(what, expected);
        self.text = self.text.replace(what, by);
    }

    /// Has the test that stands between these two record its number.
    fn record(&mut self, number: u8, before: &str, test: &str, after: &str) {
        self.replace(&format!("{before}{test}{after}"), &format!("{before}{RECORD}{number}, {test}){after}"), 1);
    }

    /// The test that records this number, up to its closing parenthesis.
    fn recorded(&self, number: u8) -> String {
        let start = format!("{RECORD}{number}, ");
        self.counted(&start, 1);
        let from = self.text.find(&start).expect("it was counted");
        let mut open = 0;
        let closes = |c: char| {
            open += i32::from(c == '(') - i32::from(c == ')');
            c == ')' && open == 0
        };
        let length = self.text[from..].find(closes).expect("the parenthesis is closed");
        self.text[from..=from + length].to_string()
    }

    fn without_module_comment(&mut self) {
        if !self.text.starts_with("//! ") {
            panic!("{}: no module comment at its head: not the text that this tool was written for", self.name);
        }
        self.text = self.text.lines().skip_while(|line| line.starts_with("//!")).flat_map(|line| [line, "\n"]).collect();
        self.absent("//!");
        self.absent("#![");
    }

    /// Takes serde's attributes and the derives Deserialize, Serialize and Enum out, and implements Enum by the stand-in's macro.
    fn without_absent_derives(&mut self) {
        let mut result = String::new();
        let mut impls = String::new();
        let (mut derives_enum, mut collecting) = (false, false);
        for line in self.text.lines() {
            let trimmed = line.trim();
            if trimmed.starts_with("#[serde(") && trimmed.ends_with(")]") {
                continue;
            }
            if let Some(list) = trimmed.strip_prefix("#[derive(").and_then(|rest| rest.strip_suffix(")]")) {
                derives_enum = list.split(", ").any(|name| name == "Enum");
                let kept: Vec<&str> =
                    list.split(", ").filter(|name| !matches!(*name, "Enum" | "Deserialize" | "Serialize")).collect();
                result += &format!("#[derive({})]\n", kept.join(", "));
                continue;
            }
            if let Some(name) = trimmed.strip_prefix("pub enum ").and_then(|rest| rest.strip_suffix(" {")) {
                if derives_enum {
                    impls += &format!("crate::stand_ins::enum_map::implement_enum!({name}:");
                    (derives_enum, collecting) = (false, true);
                }
            } else if collecting && trimmed == "}" {
                impls += ");\n";
                collecting = false;
            } else if collecting && !trimmed.starts_with("///") {
                let variant = trimmed.strip_suffix(',').filter(|v| v.chars().all(|c| c.is_ascii_alphabetic()));
                impls += &format!(" {}", variant.unwrap_or_else(|| panic!("{}: no plain variant: {trimmed}", self.name)));
            }
            result += line;
            result += "\n";
        }
        if impls.lines().count() != 4 {
            panic!("{}: not four enums that derive Enum: not the text that this tool was written for", self.name);
        }
        self.text = result + &impls;
        self.absent("serde");
        self.absent("Serialize");
    }
}
