//! Erases one source.

use crate::edit::{edited, Change, Edit};
use crate::items::Scope;
use crate::names::Names;
use crate::source::{Fault, Source};
use crate::walk::Walk;

/// The result of a source: the same without what is ghost, with its clauses as comments and docs.
///
/// # Errors
///
/// The first form that isn't known.
pub fn erase(source: &Source<'_>, krate: &str, names: &Names) -> Result<String, Fault> {
    let mut walk = Walk::new(source, krate, names);
    walk.items(0, source.len(), Scope::File)?;
    // The imports come before all that is put to the same place.
    let mut edits: Vec<Edit> = imports(&walk).into_iter().collect();
    edits.append(&mut walk.edits);
    let text = edited(source.text, edits);
    let text = text.trim_start_matches('\n');
    Ok(format!(
        "{}\n\n{}",
        header(source.path),
        led_links(text, krate, names)
    ))
}

/// The first line of a result.
pub fn header(path: &str) -> String {
    format!("// Made of {path} by rust/erase. It isn't edited by hand.")
}

/// The imports from the kit, before the first import of the source or its first item.
fn imports(walk: &Walk<'_>) -> Option<Edit> {
    let lines = walk.imports.iter().map(|path| format!("use {path};\n"));
    let mut text: String = lines.collect();
    let at = walk.first_use.or(walk.first_item)?;
    if text.is_empty() {
        return None;
    }
    if walk.first_use.is_none() {
        text.push('\n');
    }
    Some(Edit {
        from: at,
        to: at,
        change: Change::Text(text),
    })
}

/// Links in doc comments lead where the paths of the code lead, and those to `forgeni` to what the
/// package itself shows.
fn led_links(text: &str, krate: &str, names: &Names) -> String {
    let lead = |line: &str| {
        let begin = line.trim_start();
        if !begin.starts_with("///") && !begin.starts_with("//!") {
            return line.to_owned();
        }
        let own = line.replace("](crate::", &format!("]({}::", names.crates[krate]));
        let others = names.crates.iter();
        let led = others.fold(own, |line, (name, path)| {
            line.replace(&format!("]({name}::"), &format!("]({path}::"))
        });
        led.replace("](forgeni::", "](crate::")
    };
    text.split_inclusive('\n').map(lead).collect()
}
