//! The contracts of the public functions.

use std::fs;
use std::io;
use std::path::Path;

use crate::names::names_in;
use crate::sources::{Id, Sources};
use crate::token::{group_end, tokens};
use crate::uses::Uses;

/// The crates whose public functions are the calls.
const CRATES: &[&str] = &["calls", "weigh", "collapse", "peristhox"];

/// What a public function requires and promises.
#[derive(PartialEq, Eq, Debug)]
pub struct Contract {
    pub function: String,
    pub parameters: Vec<String>,
    /// the text between the braces of each clause
    pub texts: Vec<String>,
}

/// What the contracts of the public functions name. A public function without a contract is an error.
pub fn roots(sources: &Sources, crates: &Path) -> io::Result<Vec<Id>> {
    let mut found = Vec::new();
    for krate in CRATES {
        for entry in fs::read_dir(crates.join(krate).join("src"))? {
            let path = entry?.path();
            if path.extension().is_some_and(|ending| ending == "rt") {
                let source = fs::read_to_string(&path)?;
                let named = named_by(sources, &source);
                found.extend(
                    named.map_err(|error| {
                        io::Error::other(format!("{}: {error}", path.display()))
                    })?,
                );
            }
        }
    }
    Ok(found)
}

fn named_by(sources: &Sources, source: &str) -> Result<Vec<Id>, String> {
    let uses = Uses::read(source);
    let mut found = Vec::new();
    for contract in contracts(source) {
        if contract.texts.is_empty() {
            return Err(format!("{} promises nothing", contract.function));
        }
        for text in &contract.texts {
            for name in names_in(text, contract.parameters.clone()) {
                found.extend(sources.used(&uses, &name)?);
            }
        }
    }
    Ok(found)
}

pub fn contracts(source: &str) -> Vec<Contract> {
    let source = without_comments(source);
    let all = tokens(&source);
    let text = |i: usize| all.get(i).map_or("", |token| token.text);
    let mut found = Vec::new();
    for i in 0..all.len() {
        let name = match (text(i), text(i + 1), text(i + 3)) {
            ("pub", "fn", _) => i + 2,
            ("pub", "extern", "fn") => i + 4,
            _ => continue,
        };
        let open = (name..all.len())
            .find(|&k| text(k) == "(")
            .unwrap_or(all.len());
        let mut at = group_end(&all, open) + 1;
        let parameters = all[open.min(all.len())..at.min(all.len())].iter();
        let mut contract = Contract {
            function: text(name).split('<').next().unwrap_or("").to_string(),
            parameters: parameters
                .filter_map(|token| token.text.strip_suffix(':'))
                .map(str::to_string)
                .collect(),
            texts: Vec::new(),
        };
        while at < all.len() && !matches!(text(at), "{" | ";") {
            if matches!(text(at), "requires" | "ensures") {
                // a clause may have a name
                let open = (at..all.len()).find(|&k| text(k) == "{");
                let open = open.unwrap_or(all.len() - 1);
                let end = group_end(&all, open).min(all.len() - 1);
                contract
                    .texts
                    .push(source[all[open].at + 1..all[end].at].trim().to_string());
                at = end;
            } else if all[at].opens() {
                at = group_end(&all, at);
            }
            at += 1;
        }
        found.push(contract);
    }
    found
}

fn without_comments(source: &str) -> String {
    let lines = source
        .lines()
        .map(|line| line.split("//").next().unwrap_or(""));
    lines.collect::<Vec<_>>().join("\n")
}

#[cfg(test)]
mod tests {
    use super::*;

    const FILE: &str = "
// pub fn none() {}
ghost use Rattle.a.specs.Answers.{Checks, Fits};

fn private(x: u8) -> u8
    ensures { Hidden result }
{
    x
}

pub fn pick<'a>(first: &'a [u8], number: [u8; 4]) -> &'a [u8]
    requires { Fits number {A = ℕ} }
    ensures answer { Checks first.now result }
    ensures same { result ≡ first }
{
    first
}

#[unsafe(no_mangle)]
pub extern \"C\" fn call(Checks: u64) -> u64
    ensures { result ≡ Checks }
{
    Checks
}
";

    #[test]
    fn public_functions_have_contracts() {
        let found = contracts(FILE);
        let names: Vec<&str> = found
            .iter()
            .map(|contract| contract.function.as_str())
            .collect();
        assert_eq!(names, ["pick", "call"]);
        assert_eq!(found[0].parameters, ["first", "number"]);
        assert_eq!(
            found[0].texts,
            [
                "Fits number {A = ℕ}",
                "Checks first.now result",
                "result ≡ first"
            ]
        );
    }

    #[test]
    fn a_contract_names_what_is_no_parameter() {
        let mut sources = Sources::default();
        let definitions = "abbrev Checks : ℕ\nChecks = 0\n\nabbrev Fits : ℕ\nFits = 0\n\nabbrev number : ℕ\nnumber = 0\n";
        sources.add("a/specs/Answers.antt", definitions).unwrap();
        let found = named_by(&sources, FILE).unwrap();
        let names: Vec<&str> = found
            .iter()
            .map(|id| sources.item(id).name.as_str())
            .collect();
        assert_eq!(names, ["Fits", "Checks"]);
    }

    #[test]
    fn a_public_function_promises_something() {
        let sources = Sources::default();
        assert!(named_by(&sources, "pub fn f(x: u8) -> u8 {\n    x\n}\n").is_err());
    }
}
