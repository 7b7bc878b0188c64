//! docs/MAP.md leads from each sentence of the paper into the tree. Every definition, function, theorem, edit and file that it names must stand where it
//! says, or a reader is sent astray. Run from the project's folder.

use std::fs;
use std::path::Path;
use std::process::exit;

/// Where the name before stood; a single word after a comma is looked for in the same place.
#[derive(Clone)]
enum Place {
    Nowhere,
    /// a file of definitions or theorems
    Text(String),
    /// a crate's source
    Source(String),
    Folder(String),
}

fn read_all(folder: &str) -> String {
    let paths = fs::read_dir(folder).into_iter().flatten().map(|entry| entry.unwrap().path());
    paths.filter(|path| path.is_file()).map(|path| fs::read_to_string(path).unwrap_or_default()).collect()
}

/// A line of the file gives the name's type, or says what kind of thing it is.
fn defines(file: &str, name: &str) -> bool {
    fs::read_to_string(file).unwrap_or_default().lines().any(|line| {
        let words: Vec<&str> = line.split_whitespace().filter(|w| !["pub", "abbrev", "unfoldable", "record", "data"].contains(w)).collect();
        words.first() == Some(&name) || words.iter().take_while(|w| **w != ":").any(|w| *w == name) && words.contains(&":")
    })
}

/// `name`, or `Type::name`, in a crate's source.
fn in_source(source: &str, path: &str) -> bool {
    let text = read_all(source);
    let (owner, name) = path.rsplit_once("::").map_or((None, path), |(o, n)| (Some(o), n));
    let owned = owner.map_or(true, |o| text.contains(&format!("impl {o} ")));
    owned && [format!("fn {name}("), format!("struct {name} "), format!("enum {name} ")].iter().any(|item| text.contains(item.as_str()))
}

fn is_name(word: &str) -> bool {
    !word.is_empty() && word.chars().all(|c| c.is_alphanumeric() || "_-:".contains(c)) && word.starts_with(char::is_alphabetic)
}

/// A path: what it names, whether that is there, and where later names of the clause stand.
fn path(word: &str) -> (bool, Place) {
    if let Some((of, name)) = word.split_once("::") {
        let source = format!("crates/{of}/src");
        return (in_source(&source, name), Place::Source(source));
    }
    let parts: Vec<&str> = word.split('/').collect();
    let (of, last) = (parts[0], parts[parts.len() - 1]);
    if parts.get(1) == Some(&"must-fail") {
        let folder = format!("crates/{of}/must-fail");
        return (parts.len() == 2 && Path::new(&folder).is_dir() || Path::new(&format!("{folder}/{last}.edit")).is_file(), Place::Folder(folder));
    }
    if last.starts_with(char::is_uppercase) && of != "docs" {
        let folder = if parts.len() == 3 { parts[1] } else { "specs" };
        let (file, name) = last.split_once('.').unwrap_or((last, ""));
        let file = format!("crates/{of}/{folder}/{file}.antt");
        let there = Path::new(&file).is_file() && (name.is_empty() || defines(&file, name));
        return (there, Place::Text(file));
    }
    let place = if Path::new("crates").join(of).join("src").is_dir() { format!("crates/{word}") } else { word.to_string() };
    let folder = Path::new(&place).parent().unwrap().display().to_string();
    (Path::new(&place).exists(), Place::Folder(folder))
}

fn again(word: &str, place: &Place) -> bool {
    match place {
        Place::Nowhere => true,
        Place::Text(file) => defines(file, word) || Path::new(file).with_file_name(format!("{word}.antt")).is_file(),
        Place::Source(source) => in_source(source, word),
        Place::Folder(folder) => Path::new(folder).join(word).exists() || Path::new(folder).join(format!("{word}.edit")).is_file(),
    }
}

/// What stands in brackets explains the name before it.
fn without_brackets(cell: &str) -> String {
    let mut depth = 0;
    cell.chars().filter(|c| { depth += (*c == '(') as i32; let keep = depth == 0; depth -= (*c == ')') as i32; keep }).collect()
}

fn main() {
    let map = fs::read_to_string("docs/MAP.md").expect("docs/MAP.md");
    let second = read_all("second/src") + &read_all("second/tests");
    let (mut found, mut missing) = (0, 0);
    for line in map.lines().filter(|l| l.starts_with("| ")) {
        for cell in line.trim_matches('|').split('|').skip(1) {
            for clause in without_brackets(cell).split(';') {
                let tests = clause.trim().strip_prefix("second: ");
                let mut place = Place::Nowhere;
                for item in tests.unwrap_or(clause).split(',') {
                    let words: Vec<&str> = item.split_whitespace().map(|w| w.trim_matches(|c| "`:\"".contains(c)).trim_end_matches("'s")).collect();
                    let mut there = Vec::new();
                    if tests.is_some() {
                        there.extend(words.iter().map(|w| (*w, second.contains(&format!("fn {w}(")) || second.contains(&format!("fn {w}_")))));
                    } else if let Some(word) = words.iter().find(|w| w.contains('/') || w.contains("::") && matches!(place, Place::Nowhere)) {
                        let (is, at) = path(word);
                        place = at;
                        there.push((*word, is));
                    } else if words.len() == 1 && is_name(words[0]) && !matches!(place, Place::Nowhere) {
                        let crate_named = words[0].split_once("::").filter(|(of, _)| Path::new("crates").join(of).is_dir());
                        let is = if crate_named.is_some() { let (is, at) = path(words[0]); place = at; is } else { again(words[0], &place) };
                        there.push((words[0], is));
                    }
                    for (word, is) in there {
                        if is {
                            found += 1;
                        } else {
                            missing += 1;
                            println!("map: not there: {word}, in: {}", line.split('|').nth(1).unwrap().trim());
                        }
                    }
                }
            }
        }
    }
    println!("map: {found} names of docs/MAP.md found in the tree");
    if missing != 0 || found == 0 {
        println!("map: {missing} not");
        exit(1);
    }
}
