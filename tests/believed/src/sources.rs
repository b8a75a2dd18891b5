//! All files of definitions, and which definition a name in one of them means.

use std::collections::{BTreeMap, HashMap};
use std::fs;
use std::io;
use std::path::Path;

use crate::item::{bare, Item, Kind};
use crate::names::names_of;
use crate::read::items;
use crate::theorems;
use crate::uses::{Origin, Uses};

/// A declaration: its file, as `model/specs/Tree.antt`, and its place among those of the file.
pub type Id = (String, usize);

#[derive(Default)]
pub struct Sources {
    files: BTreeMap<String, Source>,
}

struct Source {
    items: Vec<Item>,
    uses: Uses,
    /// the declaration of each name, and the type of each constructor
    named: HashMap<String, usize>,
    /// the type of each field: only other files name a field by itself
    fields: HashMap<String, usize>,
}

impl Sources {
    /// Reads the definitions of all crates below a folder, and the theorems that stand in proofs/.
    pub fn load(crates: &Path) -> io::Result<Sources> {
        let mut sources = Sources::default();
        for krate in sorted(crates)? {
            for file in sorted(&crates.join(&krate).join("specs"))? {
                if file.ends_with(".antt") {
                    let text = fs::read_to_string(crates.join(&krate).join("specs").join(&file))?;
                    let path = format!("{krate}/specs/{file}");
                    sources.add(&path, &text).map_err(io::Error::other)?;
                }
            }
        }
        for path in theorems::proof_files() {
            let text = fs::read_to_string(crates.join(path))?;
            sources.add(path, &text).map_err(io::Error::other)?;
        }
        Ok(sources)
    }

    pub fn add(&mut self, path: &str, text: &str) -> Result<(), String> {
        let items = items(text).map_err(|error| format!("{path}: {error}"))?;
        let mut named = HashMap::new();
        let mut fields = HashMap::new();
        for (i, item) in items.iter().enumerate() {
            let before = named.insert(bare(&item.name).to_string(), i);
            if let Some(before) =
                before.filter(|&k: &usize| item.is_definition() || items[k].is_definition())
            {
                let (name, line) = (&item.name, items[before].line);
                return Err(format!(
                    "{path}:{}: {name} is also in line {line}",
                    item.line
                ));
            }
            let members = if item.kind == Kind::Data {
                &mut named
            } else {
                &mut fields
            };
            for member in item.members() {
                members.insert(bare(member).to_string(), i);
            }
        }
        let uses = Uses::read(text);
        let source = Source {
            items,
            uses,
            named,
            fields,
        };
        self.files.insert(path.to_string(), source);
        Ok(())
    }

    pub fn item(&self, id: &Id) -> &Item {
        &self.files[&id.0].items[id.1]
    }

    /// All declarations with a name in a file, or in the files of a folder.
    pub fn find(&self, place: &str, name: &str) -> Vec<Id> {
        let files = self
            .files
            .iter()
            .filter(|(file, _)| file.starts_with(place));
        files
            .flat_map(|(file, source)| (0..source.items.len()).map(move |i| (file.clone(), i)))
            .filter(|id| self.item(id).name == name)
            .collect()
    }

    /// The declarations that a declaration names.
    pub fn named_by(&self, id: &Id) -> Result<Vec<Id>, String> {
        let (file, item) = (&id.0, self.item(id));
        let is_constructor = |name: &str| {
            let meaning = self.meaning(file, bare(name));
            matches!(meaning, Ok(Some(id)) if self.is_constructor(&id, bare(name)))
        };
        let mut found = Vec::new();
        for name in names_of(item, &is_constructor) {
            let meaning = self.meaning(file, &name);
            found.extend(meaning.map_err(|error| format!("{file}:{}: {error}", item.line))?);
        }
        Ok(found)
    }

    /// The declaration that a name in a file means; none if it is a variable or comes from elsewhere.
    fn meaning(&self, file: &str, name: &str) -> Result<Option<Id>, String> {
        let source = &self.files[file];
        match source.named.get(name) {
            Some(&i) => Ok(Some((file.to_string(), i))),
            None => self.used(&source.uses, name),
        }
    }

    /// The declaration that a name means where these lines bring it in; none if it is of the toolchain or of the code.
    pub fn used(&self, uses: &Uses, name: &str) -> Result<Option<Id>, String> {
        match uses.origin(name) {
            None | Some(Origin::Kit | Origin::Declared) => Ok(None),
            Some(Origin::Other(path)) => Err(format!("{path} is not in a file of definitions")),
            Some(Origin::Specs { file, name }) => {
                let source = self.files.get(&file);
                let found = source.and_then(|source| source.declaration(&name));
                let i = found.ok_or(format!("{file} declares no {name}"))?;
                Ok(Some((file, i)))
            }
        }
    }

    /// Whether a name that means this declaration, and stands in a pattern, is one of its constructors.
    fn is_constructor(&self, id: &Id, name: &str) -> bool {
        let item = self.item(id);
        let last = name.rsplit('.').next().unwrap_or(name);
        item.kind == Kind::Data && bare(&item.name) != last
    }
}

impl Source {
    /// What another file means by a name of this one.
    fn declaration(&self, name: &str) -> Option<usize> {
        self.named.get(name).or(self.fields.get(name)).copied()
    }
}

/// The names in a folder, in order; none if there is no such folder.
fn sorted(folder: &Path) -> io::Result<Vec<String>> {
    if !folder.is_dir() {
        return Ok(Vec::new());
    }
    let mut names = Vec::new();
    for entry in fs::read_dir(folder)? {
        names.push(entry?.file_name().to_string_lossy().into_owned());
    }
    names.sort();
    Ok(names)
}
