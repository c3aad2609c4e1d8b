//! Pages of Markdown: their headings, code spans, links and fenced blocks.

use std::fs;
use std::path::Path;

/// A page, parted into its fenced blocks and what stands outside them.
pub struct Page {
    /// The lines outside the blocks, with an empty one where a block stood.
    prose: Vec<String>,
    /// The blocks, each as the word beside its opening fence and its text.
    pub blocks: Vec<(String, String)>,
}

impl Page {
    /// The page in a file.
    pub fn read(path: &Path) -> Page {
        let text = fs::read_to_string(path).unwrap_or_else(|error| panic!("{}: {error}", path.display()));
        Page::of(&text)
    }

    /// The page with this text. A block that is never closed ends with the page.
    pub fn of(text: &str) -> Page {
        let mut page = Page { prose: Vec::new(), blocks: Vec::new() };
        let mut lines = text.lines();
        while let Some(line) = lines.next() {
            match line.trim_start().strip_prefix("```") {
                None => page.prose.push(line.to_string()),
                Some(word) => {
                    let inside = lines.by_ref().take_while(|line| line.trim() != "```");
                    page.blocks.push((word.trim().to_string(), inside.map(|line| format!("{line}\n")).collect()));
                    page.prose.push(String::new());
                }
            }
        }
        page
    }

    /// The headings, without their marks.
    pub fn headings(&self) -> Vec<&str> {
        self.prose.iter().filter_map(|line| heading(line)).map(|(_, text)| text).collect()
    }

    /// What stands under a heading of this depth, up to the next heading that is not deeper. Its blocks are left out.
    pub fn section(&self, depth: usize, name: &str) -> Option<Page> {
        let start = self.prose.iter().position(|line| heading(line) == Some((depth, name)))? + 1;
        let within = |line: &&String| heading(line).is_none_or(|(other, _)| other > depth);
        let prose = self.prose[start..].iter().take_while(within).cloned().collect();
        Some(Page { prose, blocks: Vec::new() })
    }

    /// The paragraphs, each as one line, so that a code span or a link may go over the end of a line.
    fn paragraphs(&self) -> Vec<String> {
        let parts = self.prose.split(|line| line.trim().is_empty());
        parts.map(|lines| lines.iter().map(|line| line.trim()).collect::<Vec<_>>().join(" ")).collect()
    }

    /// The code spans.
    pub fn spans(&self) -> Vec<String> {
        let in_paragraph = |paragraph: &String| -> Vec<String> {
            pieces(paragraph).into_iter().filter(|piece| piece.is_code).map(|piece| piece.text.trim().into()).collect()
        };
        self.paragraphs().iter().flat_map(in_paragraph).collect()
    }

    /// The targets of the links.
    pub fn links(&self) -> Vec<String> {
        let in_paragraph = |paragraph: &String| -> Vec<String> {
            let text: String =
                pieces(paragraph).into_iter().filter(|piece| !piece.is_code).map(|piece| piece.text).collect();
            let targets = text.split("](").skip(1).filter_map(|rest| rest.split_once(')'));
            targets.map(|(target, _)| target.trim().to_string()).collect()
        };
        self.paragraphs().iter().flat_map(in_paragraph).collect()
    }
}

/// The depth and the text of a heading.
fn heading(line: &str) -> Option<(usize, &str)> {
    let text = line.trim_start_matches('#');
    let depth = line.len() - text.len();
    ((1..=6).contains(&depth) && text.starts_with(' ')).then(|| (depth, text.trim()))
}

/// What a link writes after `#` to lead to a heading.
pub fn anchor(heading: &str) -> String {
    let stays = |letter: &char| letter.is_alphanumeric() || matches!(letter, ' ' | '-' | '_');
    heading.to_lowercase().chars().filter(stays).map(|letter| if letter == ' ' { '-' } else { letter }).collect()
}

/// A piece of a paragraph: a code span, or what stands between two of them.
struct Piece<'a> {
    is_code: bool,
    text: &'a str,
}

/// The pieces of a paragraph. A code span stands between two runs of as many backticks.
fn pieces(paragraph: &str) -> Vec<Piece<'_>> {
    let mut all = Vec::new();
    let mut rest = paragraph;
    while let Some(start) = rest.find('`') {
        let count = backticks(&rest[start..]);
        let (before, after) = (&rest[..start], &rest[start + count..]);
        all.push(Piece { is_code: false, text: before });
        rest = match closing(after, count) {
            Some(end) => {
                all.push(Piece { is_code: true, text: &after[..end] });
                &after[end + count..]
            }
            None => after,
        };
    }
    all.push(Piece { is_code: false, text: rest });
    all
}

/// How many backticks the text begins with.
fn backticks(text: &str) -> usize {
    text.len() - text.trim_start_matches('`').len()
}

/// Where the first run of exactly so many backticks begins.
fn closing(text: &str, count: usize) -> Option<usize> {
    let mut start = 0;
    while let Some(found) = text[start..].find('`') {
        let run = backticks(&text[start + found..]);
        if run == count {
            return Some(start + found);
        }
        start += found + run;
    }
    None
}
