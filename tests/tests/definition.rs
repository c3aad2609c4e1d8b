//! docs/DEFINITION.md held to the files under crates/*/specs, to the drawings of the sample club and to the comments
//! that point to it; and the links of all pages.

use second::drawings::drawings;
use second::pages::{anchor, Page};
use std::collections::{BTreeMap, BTreeSet};
use std::fs;
use std::path::{Path, PathBuf};

/// The page, as it is named in comments.
const PAGE: &str = "docs/DEFINITION.md";

/// The section that lists the files whose definitions the page names.
const READ: &str = "The files of definitions";

/// The section that lists the files of definitions that only helpers use.
const HELPERS: &str = "Files that serve helpers";

/// A file or a folder of the repository.
fn file(name: &str) -> PathBuf {
    Path::new(env!("CARGO_MANIFEST_DIR")).join("..").join(name)
}

/// The page itself.
fn page() -> Page {
    Page::read(&file(PAGE))
}

/// Fails with all faults, a line for each, where there are any.
fn no_faults(of: &str, faults: &[String]) {
    assert!(faults.is_empty(), "{of}:\n{}\n", faults.join("\n"));
}

// ---- files

/// What stands in a folder, in the order of names. A folder that is not there has nothing in it.
fn entries(folder: &Path) -> Vec<PathBuf> {
    let Ok(entries) = fs::read_dir(folder) else {
        return vec![];
    };
    let mut paths: Vec<PathBuf> = entries.map(|entry| entry.expect("an entry").path()).collect();
    paths.sort();
    paths
}

/// The files of a folder with this ending.
fn files_ending(folder: &Path, ending: &str) -> Vec<PathBuf> {
    entries(folder).into_iter().filter(|path| path.extension().is_some_and(|own| own == ending)).collect()
}

/// A path's last name, without its ending.
fn stem(path: &Path) -> String {
    path.file_stem().expect("a name").to_string_lossy().into_owned()
}

/// The files of all crates' specs but Lib, as the page names them: algebra/Rules is crates/algebra/specs/Rules.antt.
fn spec_files() -> Vec<String> {
    let mut all = Vec::new();
    for folder in entries(&file("crates")) {
        let names = files_ending(&folder.join("specs"), "antt").into_iter().map(|path| stem(&path));
        all.extend(names.filter(|name| name != "Lib").map(|name| format!("{}/{name}", stem(&folder))));
    }
    assert!(!all.is_empty(), "no file under crates/*/specs");
    all
}

/// The text of a file of specs under the page's name for it, if it is there.
fn spec_text(name: &str) -> Option<String> {
    let (folder, own) = name.split_once('/')?;
    fs::read_to_string(file(&format!("crates/{folder}/specs/{own}.antt"))).ok()
}

// ---- definitions

/// A name as the page writes it: without the marks that a file of specs puts around a word of its language.
fn bare(name: &str) -> &str {
    name.strip_prefix('«').and_then(|inside| inside.strip_suffix('»')).unwrap_or(name)
}

/// The name that a line defines.
fn defined_on(line: &str) -> Option<&str> {
    let openings = ["abbrev pub ", "unfoldable pub ", "pub data ", "pub record "];
    let line = line.trim_start();
    let opened = openings.iter().find_map(|opening| line.strip_prefix(opening));
    // One that no word opens, whose lines below nothing unfolds.
    let plain = || line.strip_prefix("pub ").filter(|after| !after.starts_with("use ") && !after.starts_with("mod "));
    opened.or_else(plain)?.split_whitespace().next().map(bare)
}

/// Whether a line begins a data type or a record.
fn opens_type(line: &str) -> bool {
    let line = line.trim_start();
    line.starts_with("pub data ") || line.starts_with("pub record ")
}

/// How far a line is set in.
fn indentation(line: &str) -> usize {
    line.len() - line.trim_start().len()
}

/// The lines below that belong to a data type or a record, given how far its first line is set in. They end at a line that is not set in
/// deeper, but for an empty one.
fn body_in<'a>(below: &[&'a str], outer: usize) -> Vec<&'a str> {
    let inside = below.iter().take_while(|line| line.trim().is_empty() || indentation(line) > outer);
    inside.copied().collect()
}

/// The definitions of a file of specs. The fields of a record are none.
fn definitions(text: &str) -> Vec<&str> {
    let lines: Vec<&str> = text.lines().collect();
    let (mut all, mut number) = (Vec::new(), 0);
    while number < lines.len() {
        all.extend(defined_on(lines[number]));
        let inside = opens_type(lines[number]).then(|| body_in(&lines[number + 1..], indentation(lines[number])));
        number += 1 + inside.map_or(0, |inside| inside.len());
    }
    all
}

/// The constructors of a data type or the fields of a record, given the lines below its first and how far that one is
/// set in. What one goes on with is set in deeper than itself.
fn members_in<'a>(below: &[&'a str], outer: usize) -> Vec<&'a str> {
    let inside = body_in(below, outer).into_iter().filter(|line| !line.trim().is_empty());
    let lines: Vec<&str> = inside.filter(|line| !line.trim_start().starts_with("--")).collect();
    let own = lines.first().map_or(0, |line| indentation(line));
    let names = lines.into_iter().filter(|line| indentation(line) == own).filter_map(|line| line.split_once(" : "));
    names.flat_map(|(names, _)| names.split_whitespace()).filter(|name| *name != "pub").map(bare).collect()
}

/// The constructors and the fields of a file of specs.
fn members(text: &str) -> Vec<&str> {
    let lines: Vec<&str> = text.lines().collect();
    let openings = (0..lines.len()).filter(|&number| opens_type(lines[number]));
    openings.flat_map(|number| members_in(&lines[number + 1..], indentation(lines[number]))).collect()
}

// ---- what the page says

/// Whether a span is the page's name of a file: a word in lower case, a slash, a word that begins in upper case.
fn is_file_name(span: &str) -> bool {
    span.split_once('/').is_some_and(|(folder, own)| {
        folder.starts_with(char::is_lowercase)
            && folder.chars().all(|letter| letter.is_lowercase() || letter == '_')
            && own.starts_with(char::is_uppercase)
            && own.chars().all(char::is_alphanumeric)
    })
}

/// The names of definitions that the page gives, by files: the spans of the form `algebra/Rules: u3, counted`.
fn references(page: &Page) -> BTreeMap<String, BTreeSet<String>> {
    let mut all: BTreeMap<String, BTreeSet<String>> = BTreeMap::new();
    for span in page.spans() {
        if let Some((file, names)) = span.split_once(": ").filter(|(file, _)| is_file_name(file)) {
            all.entry(file.to_string()).or_default().extend(names.split(',').map(|name| name.trim().to_string()));
        }
    }
    all
}

/// The files that a section of the page lists.
fn files_listed(page: &Page, section: &str) -> Vec<String> {
    let part = page.section(2, section).unwrap_or_else(|| panic!("{PAGE} has no section \"## {section}\""));
    part.spans().into_iter().filter(|span| is_file_name(span)).collect()
}

/// The headings of the page that comments in these lines point to: docs/DEFINITION.md, "One", "Another" and "Third".
/// Lines are read as one text, so that a pointer may go over the end of a line.
fn pointers<'a>(lines: impl Iterator<Item = &'a str>) -> Vec<String> {
    let bare = |line: &'a str| line.trim().trim_start_matches(['-', '/', '!']).trim();
    let text = lines.map(bare).collect::<Vec<_>>().join(" ");
    let mut all = Vec::new();
    for after in text.split(PAGE).skip(1) {
        let mut rest = after.strip_prefix(", \"");
        while let Some(quoted) = rest {
            let (heading, after) = quoted.split_once('"').unwrap_or((quoted, ""));
            all.push(heading.to_string());
            rest = after.strip_prefix(" and \"").or_else(|| after.strip_prefix(", \""));
        }
    }
    all
}

// ---- links

/// The pages whose links are followed, by their places in the repository.
fn linked_pages() -> Vec<PathBuf> {
    let mut pages = vec![file("README.md"), file("tests/README.md"), file("bench/README.md")];
    pages.extend(files_ending(&file("docs"), "md"));
    pages.extend(files_ending(&file("docs/changes"), "md"));
    pages
}

/// What is wrong with a link of a page.
fn link_fault(path: &Path, target: &str) -> Option<String> {
    if target.starts_with("http://") || target.starts_with("https://") {
        return None;
    }
    let (name, part) = target.split_once('#').map_or((target, None), |(name, part)| (name, Some(part)));
    let folder = path.parent().expect("a folder");
    let led_to = if name.is_empty() { path.to_path_buf() } else { folder.join(name) };
    if !led_to.exists() {
        return Some(format!("{}: ({target}) leads to no file", path.display()));
    }
    let part = part?;
    let is_there = Page::read(&led_to).headings().into_iter().any(|heading| anchor(heading) == part);
    (!is_there).then(|| format!("{}: ({target}) leads to no heading", path.display()))
}

// ---- the tests

#[test]
fn every_named_definition_is_there() {
    let mut faults = Vec::new();
    for (file, names) in references(&page()) {
        let Some(text) = spec_text(&file) else {
            faults.push(format!("{file}: no such file"));
            continue;
        };
        let known = [definitions(&text), members(&text)].concat();
        let unknown = names.iter().filter(|name| !known.contains(&name.as_str()));
        faults.extend(unknown.map(|name| format!("{file}: {name} is not defined there")));
    }
    no_faults(&format!("{PAGE} names what is not there"), &faults);
}

#[test]
fn every_file_is_listed_once() {
    let page = page();
    let mut listed = [files_listed(&page, READ), files_listed(&page, HELPERS)].concat();
    let mut files = spec_files();
    listed.sort();
    files.sort();
    assert_eq!(listed, files, "the files under \"{READ}\" and \"{HELPERS}\" of {PAGE}, and those under crates/*/specs");
}

#[test]
fn every_definition_is_named() {
    let page = page();
    let references = references(&page);
    let mut faults = Vec::new();
    for file in files_listed(&page, READ) {
        let text = spec_text(&file).expect("a file");
        let is_named = |name: &&str| references.get(&file).is_some_and(|names| names.contains(*name));
        let unnamed = definitions(&text).into_iter().filter(|name| !is_named(name));
        faults.extend(unnamed.map(|name| format!("{file}: {name} is not named")));
    }
    no_faults(&format!("{PAGE} leaves out"), &faults);
}

#[test]
fn the_drawings_stand_in_the_page() {
    let page = page();
    let stands = |text: &String| page.blocks.iter().any(|(word, block)| word == "text" && block == text);
    let missing = drawings().into_iter().filter(|(_, text)| !stands(text));
    let faults: Vec<String> = missing.map(|(name, text)| format!("{name}:\n{text}")).collect();
    no_faults(&format!("{PAGE} lacks drawings, which `cargo run --release --bin drawings` prints"), &faults);
}

#[test]
fn comments_name_parts_of_the_page() {
    let page = page();
    let headings = page.headings();
    let mut faults = Vec::new();
    for folder in entries(&file("crates")) {
        let specs = files_ending(&folder.join("specs"), "antt");
        for path in specs.into_iter().chain(files_ending(&folder.join("src"), "rt")) {
            let text = fs::read_to_string(&path).expect("a file");
            let wrong = pointers(text.lines()).into_iter().filter(|name| !headings.contains(&name.as_str()));
            faults.extend(wrong.map(|name| format!("{}: \"{name}\" is no heading of it", path.display())));
        }
    }
    for file in files_listed(&page, READ) {
        let text = spec_text(&file).expect("a file");
        if pointers(text.lines().take(3)).is_empty() {
            faults.push(format!("{file}: its first three lines do not point to a heading of it"));
        }
    }
    no_faults(&format!("comments that point to {PAGE}"), &faults);
}

#[test]
fn links_lead_somewhere() {
    let mut faults = Vec::new();
    for path in linked_pages() {
        faults.extend(Page::read(&path).links().iter().filter_map(|target| link_fault(&path, target)));
    }
    no_faults("links", &faults);
}

#[test]
fn a_page_is_read_in_its_parts() {
    let page = Page::of(
        "# One `x/Y: z`\n\nText [`a`](b.md#c) ``d`e`` `x/Y: z,\nw_` and `[f](g)`.\n\n```text\n# no\n`no`\n```\n\
         ## Two: or_3?\n`in/Two`\n### Deeper\n[h](#i)\n## Three\n`no/Three`\n",
    );
    assert_eq!(page.headings(), ["One `x/Y: z`", "Two: or_3?", "Deeper", "Three"]);
    assert_eq!(page.spans(), ["x/Y: z", "a", "d`e", "x/Y: z, w_", "[f](g)", "in/Two", "no/Three"]);
    assert_eq!(page.links(), ["b.md#c", "#i"]);
    assert_eq!(page.blocks, [("text".to_string(), "# no\n`no`\n".to_string())]);
    assert_eq!(page.section(2, "Two: or_3?").expect("a section").spans(), ["in/Two"]);
    assert_eq!(anchor("Two: or_3?"), "two-or_3");
    assert_eq!(references(&page)["x/Y"], BTreeSet::from(["w_".to_string(), "z".to_string()]));
}

#[test]
fn definitions_and_comments_are_read() {
    let text = "-- docs/DEFINITION.md, \"A\" and \"B\", \"C\".\n-- See docs/DEFINITION.md,\n-- \"D\n-- E\".\n\
                module _ where\n  pub data T : Type 0 where\n    a b : T\n    c : {t : T}\n        → d : T\n\n  \
                pub record R : Type 0 where\n    -- e : T\n    pub f : T\n  abbrev pub if_g_ : T\n";
    assert_eq!(definitions(text), ["T", "R", "if_g_"]);
    assert_eq!(members(text), ["a", "b", "c", "f"]);
    assert_eq!(pointers(text.lines()), ["A", "B", "C", "D E"]);
    let text = "pub mod M\npub use M.{a, b}\nabbrev pub if◌then◌else◌ {ℓ} : {A : Type ℓ} → A\nif◌then◌else◌ a = a\n\
                pub record R (T : Type 0) : Type 0 where\n  pub f : T\n\n  pub «data» : T\npub plain : T\nunfoldable pub «use» : T\n";
    assert_eq!(definitions(text), ["if◌then◌else◌", "R", "plain", "use"]);
    assert_eq!(members(text), ["f", "data"]);
}
