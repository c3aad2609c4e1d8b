//! Prints the drawings of the sample club, each under its name as a block that can stand in a page.

use second::drawings::drawings;

fn main() {
    for (name, text) in drawings() {
        println!("{name}\n```text\n{text}```\n");
    }
}
