//! Whether what a name leads to is there.

use super::names::{Kind, Name, Scope};
use crate::known::{Known, Module};

/// What is wrong with a name, if something is.
pub fn wrong(name: &Name<'_>, known: &Known) -> Option<String> {
    (!is_there(name, known)).then(|| match (name.kind, name.scope) {
        (Kind::Module, Scope::Module(of, module)) => format!("no module {}", full(of, module)),
        (Kind::Path(path), _) if known.has_path(path) => format!("{} isn't run", name.kind),
        (Kind::Path(_), _) => format!("{} is no file, folder or must-fail edit", name.kind),
        (Kind::Item(..), _) => format!("{} isn't in its crate's source", name.kind),
        (Kind::Argument(_), _) | (_, Scope::All) => format!("{} isn't defined", name.kind),
        (_, Scope::Module(of, module)) => format!("{} isn't in {}", name.kind, full(of, module)),
        (_, Scope::File(file)) => format!("{} isn't in {file}", name.kind),
    })
}

/// What is wrong with a name among definitions, if something is: each stands behind its module.
pub fn wrong_definition(name: &Name<'_>, known: &Known) -> Option<String> {
    match *name {
        Name { kind: Kind::Word(word), .. } if known.has_crate(word) => None,
        Name { kind: kind @ (Kind::Word(_) | Kind::Field(..)), scope: Scope::All } => {
            Some(format!("{kind} stands behind no module"))
        }
        _ => wrong(name, known),
    }
}

/// Whether what a name leads to is there.
fn is_there(name: &Name<'_>, known: &Known) -> bool {
    let mut modules = known.modules().filter(|module| is_in(module, name.scope));
    match name.kind {
        Kind::Module => modules.next().is_some(),
        Kind::Path(path) => match path.strip_prefix("host/tests/") {
            None | Some("") => known.has_path(path) || known.has_edit(path),
            Some(_) => known.has_path(path) && known.running().has_part(path),
        },
        Kind::Item(within, item) => known.has_item(&format!("{within}::{item}")),
        Kind::Field(of, field) => modules.any(|module| has_field(module, of, field)),
        Kind::Argument(word) => is_defined(word, known),
        Kind::Word(word) if known.has_crate(word) || known.has_export(word) => true,
        Kind::Word(word) => match name.scope {
            Scope::All => is_defined(word, known),
            _ => modules.any(|module| gives(module, word, known)),
        },
    }
}

/// Whether a name in this scope may stand in this file.
fn is_in(module: &Module, scope: Scope<'_>) -> bool {
    match scope {
        Scope::All => module.is_specs,
        Scope::Module(of, name) => {
            module.is_specs && module.name == name && of.is_none_or(|of| of == module.of)
        }
        Scope::File(file) => {
            module.file.ends_with(&format!("/{}", file.trim_start_matches("crates/")))
        }
    }
}

/// Whether a type of a module has this field.
fn has_field(module: &Module, of: &str, field: &str) -> bool {
    module.definitions.fields.contains(&(of.to_string(), field.to_string()))
}

/// Whether a module gives a name, to a field too, or its crate's source has a type or case of it.
fn gives(module: &Module, word: &str, known: &Known) -> bool {
    let definitions = &module.definitions;
    definitions.names.contains(word)
        || definitions.fields.iter().any(|(_, field)| field == word)
        || known.with_type(word).any(|of| of == module.of)
}

/// Whether some specs define a name, or some source has a type or case of it.
fn is_defined(word: &str, known: &Known) -> bool {
    let mut specs = known.modules().filter(|module| module.is_specs);
    specs.any(|module| module.definitions.names.contains(word))
        || known.with_type(word).next().is_some()
}

/// A module with its crate.
fn full(of: Option<&str>, module: &str) -> String {
    of.map_or_else(|| module.to_string(), |of| format!("{of} {module}"))
}
