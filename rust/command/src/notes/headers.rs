//! Answer 12: which word of a header was expected.

use super::{Cause, Reading};
use simple::commands::define_fun;

/// The word that was expected, and the one that was found.
pub fn cause(reading: &Reading) -> Option<Cause> {
    let declared = &reading.script.synthesized;
    let items = reading.trees.first()?.items()?;
    let Some(item) = reading.faulty else {
        let missing = declared.get(items.len())?;
        return Some(Cause::said(format!(
            "the list ends here, but a body of `{}` is expected",
            missing.name
        )));
    };
    let index = items.iter().position(|one| one.start() == item.start())?;
    let Some(function) = declared.get(index) else {
        return Some(Cause::said(format!(
            "this definition is one too many: the script declares {}",
            crate::answers::counted(declared.len() as u64, "function")
        )));
    };
    let definition = define_fun(item)?;
    let words = definition.header.words().into_iter().zip(&function.header);
    let mut words = words.enumerate();
    let (at, ((_, found), expected)) =
        words.find(|(_, ((place, _), _))| *place == reading.place)?;
    let why = match at == 0 && declared.iter().any(|other| other.name == *found) {
        true => "bodies stand in the order of the script's functions".to_string(),
        false => format!("the script declares `{}` otherwise", function.name),
    };
    Some(Cause::said(format!(
        "expected `{expected}`, found `{found}`: {why}"
    )))
}
