//! Prints the page about the course errors, `docs/COURSE.md`, on standard output.

mod errors;
mod lemma;
mod library;
mod page;
mod plain;
mod search;
mod trees;
mod words;
mod wrong;

fn main() {
    print!("{}", page::page());
}
