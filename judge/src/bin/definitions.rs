//! Wrong rules must not pass. Rules that are wrong in the same way over the wires and in the plain reading agree with each other, so the bench table has to
//! refuse them; a rule that is wrong on one side only is refused by the agreement. Each is tried on a copy of the definitions: the crates' types and specs,
//! no code, with the agreement and the bench sheet over them. The copies lie in a temporary folder, since the gate refuses proofs and code anywhere in the
//! project but in its own crates. Run from the project's folder.

use std::fs;
use std::path::{Path, PathBuf};
use std::process::{Command, ExitCode};

const RULES: [&str; 16] = [
    "lent", "lines", "kinds", "orders", "symbols", "cursor", "controller", "store", "eeprom", "lone_chip", "board", "wires", "bus", "plain", "messages", "reading",
];
const THEOREMS: [&str; 2] = ["agreement", "bench"];

struct Wrong {
    name: &'static str,
    /// file, its text, the wrong text
    edits: &'static [(&'static str, &'static str, &'static str)],
    /// what still holds of the wrong rules
    proved: &'static [&'static str],
    refused: &'static [&'static str],
}

static TRIED: [Wrong; 6] = [
    Wrong { name: "the rules as they are", edits: &[], proved: &["agreement", "bench"], refused: &[] },
    Wrong {
        name: "a page of 64 on both sides",
        edits: &[("store/specs/Pages.antt", "page = 32", "page = 64")],
        proved: &["agreement"],
        refused: &["bench"],
    },
    Wrong {
        name: "busy from the last byte on both sides",
        edits: &[
            ("eeprom/specs/Stages.antt", "cond (due c) asked (n - 1)", "cond (due c) (asked - 4) (n - 1)"),
            ("plain/specs/Plain.antt", "stores asked (symbol w.clock).now", "stores asked w.clock.now"),
        ],
        proved: &[],
        refused: &["bench"],
    },
    Wrong {
        name: "the plain reading does not count STOP",
        edits: &[("plain/specs/Plain.antt", "record { clock = symbol w.clock; cells", "record { clock = w.clock; cells")],
        proved: &[],
        refused: &["agreement"],
    },
    Wrong {
        name: "the clock holder holds a tick too long",
        edits: &[("wires/specs/Holding.antt", "suc (first_hold h.list)", "suc (suc (first_hold h.list))")],
        proved: &[],
        refused: &["agreement"],
    },
    // what is told of an answer would no longer settle it
    Wrong {
        name: "two refusals with one number",
        edits: &[("lent/specs/Refusals.antt", "number_of ListBroken = 2", "number_of ListBroken = 1")],
        proved: &[],
        refused: &["agreement"],
    },
];

/// The types of a source file, with their derives and ghost fields: what the definitions speak of. Functions and methods go, and the names that only they use.
fn types(source: &str) -> String {
    let (mut kept, mut derives) = (String::new(), String::new());
    let has_ghost_fields = source.lines().any(|line| line.trim_start_matches(' ').trim_start_matches("pub ").starts_with("ghost ") && line.starts_with(' '));
    let mut inside = false;
    for line in source.lines() {
        let item = line.strip_prefix("pub ").unwrap_or(line);
        if inside {
            kept += &format!("{line}\n");
            inside = line != "}";
        } else if line.starts_with("#[") {
            derives += &format!("{line}\n");
        } else if item.starts_with("struct ") || item.starts_with("enum ") {
            kept += &format!("{derives}{line}\n");
            derives.clear();
            inside = !line.ends_with('}');
        } else {
            derives.clear();
            if item.starts_with("mod ") || line.starts_with("#!") {
                kept += &format!("{line}\n");
            } else if line.starts_with("ghost use ") && has_ghost_fields {
                kept += &format!("{line}\n");
            } else if item.starts_with("use ") {
                kept += &types_used(line);
            }
        }
    }
    kept
}

/// A `use` line, with the types alone that it brings in; nothing if it brings in none.
fn types_used(line: &str) -> String {
    let (of, names) = line.trim_end_matches(';').rsplit_once("::").unwrap_or((line, ""));
    let is_type = |name: &&str| name.starts_with(|c: char| c.is_uppercase()) && name.contains(|c: char| c.is_lowercase());
    let kept: Vec<&str> = names.trim_matches(['{', '}']).split(',').map(str::trim).filter(is_type).collect();
    if kept.is_empty() { String::new() } else { format!("{of}::{{{}}};\n", kept.join(", ")) }
}

fn copy(from: &Path, to: &Path, change: &dyn Fn(&str) -> String) {
    fs::create_dir_all(to).unwrap();
    for entry in fs::read_dir(from).unwrap_or_else(|e| panic!("{}: {e}", from.display())).map(Result::unwrap) {
        let (from, to) = (entry.path(), to.join(entry.file_name()));
        if from.is_dir() {
            copy(&from, &to, change);
        } else {
            fs::write(&to, change(&fs::read_to_string(&from).unwrap())).unwrap();
        }
    }
}

fn tree(place: &Path, edits: &[(&str, &str, &str)]) {
    let as_it_is = |text: &str| text.to_string();
    let part = |name: &str, part: &str, change: &dyn Fn(&str) -> String| {
        copy(&Path::new("crates").join(name).join(part), &place.join("crates").join(name).join(part), change)
    };
    for name in RULES {
        part(name, "src", &types);
        part(name, "specs", &as_it_is);
    }
    for name in THEOREMS {
        for it in ["src", "specs", "proofs"] {
            part(name, it, &as_it_is);
        }
    }
    let listed: String = fs::read_to_string("crates.txt")
        .unwrap()
        .lines()
        .filter(|line| RULES.iter().chain(&THEOREMS).any(|name| line.split(':').next() == Some(name)))
        .map(|line| format!("{line}\n"))
        .collect();
    fs::write(place.join("crates.txt"), listed).unwrap();
    for (file, old, new) in edits {
        let path = place.join("crates").join(file);
        let text = fs::read_to_string(&path).unwrap();
        assert_eq!(text.matches(old).count(), 1, "{file}: {old}");
        fs::write(&path, text.replace(old, new)).unwrap();
    }
}

/// Gives a tree what the checks of another kept: what a wrong rule does not touch is proved already.
fn proved_as_in(other: &Path, place: &Path) {
    for name in RULES.iter().chain(&THEOREMS) {
        let kept = other.join("crates").join(name).join("out");
        if kept.is_dir() {
            assert!(Command::new("cp").arg("-r").arg(kept).arg(place.join("crates").join(name)).status().unwrap().success());
        }
    }
}

/// Whether the theorem's crate is proved over the rules of the tree. Where it was not even reached, or its text could not be read, nothing was tried: that is
/// an error, with what was said.
fn holds(place: &Path, theorem: &str) -> Result<bool, String> {
    let output = Command::new("rt").arg("check").current_dir(place.join("crates").join(theorem)).output().expect("rt");
    let said = String::from_utf8_lossy(&output.stdout).into_owned() + &String::from_utf8_lossy(&output.stderr);
    let refused = said.lines().any(|line| line.starts_with("logic=not-proved")) && !said.contains("did not build") && !said.contains("is not in scope");
    match output.status.code() {
        Some(0) => Ok(true),
        Some(1) if refused => Ok(false),
        _ => Err(format!("{theorem} could not be tried\n{said}")),
    }
}

/// What is said of one set of rules, and how much of it is not as it must be.
fn try_rules(tried: &Wrong, place: &Path) -> (String, u32) {
    let (mut said, mut wrong) = (String::new(), 0);
    for (theorem, asked) in tried.proved.iter().map(|t| (t, true)).chain(tried.refused.iter().map(|t| (t, false))) {
        let (words, is_right) = match holds(place, theorem) {
            Ok(held) => (format!("{theorem} {}", if held { "proved" } else { "refused" }), held == asked),
            Err(why) => (why, false),
        };
        said += &format!("definitions: {}: {words}\n", tried.name);
        wrong += !is_right as u32;
    }
    (said, wrong)
}

/// A folder outside the project, which goes when the program ends.
struct Room(PathBuf);

impl Drop for Room {
    fn drop(&mut self) {
        let _ = fs::remove_dir_all(&self.0);
    }
}

fn main() -> ExitCode {
    let room = Room(std::env::temp_dir().join(format!("bilvakront-definitions-{}", std::process::id())));
    let (right, ways) = TRIED.split_first().unwrap();
    let first = room.0.join("right");
    tree(&first, right.edits);
    let (said, mut wrong) = try_rules(right, &first);
    print!("{said}");
    std::thread::scope(|all| {
        let start = |(n, tried): (usize, &'static Wrong)| {
            let at = room.0.join(n.to_string());
            tree(&at, tried.edits);
            proved_as_in(&first, &at);
            all.spawn(move || try_rules(tried, &at))
        };
        for way in ways.iter().enumerate().map(start).collect::<Vec<_>>() {
            let (said, more) = way.join().unwrap();
            print!("{said}");
            wrong += more;
        }
    });
    if wrong != 0 {
        println!("definitions: {wrong} not as they must be");
        return ExitCode::FAILURE;
    }
    ExitCode::SUCCESS
}
