//! The text by whose hash analysts find files that were made alike, as pefile makes it: all imports of
//! an image in their order, each as library.name in lower case, joined by commas. An import by ordinal
//! has the name `ord` and the number, except of DLLs that programs import by ordinal everywhere: then it
//! has the name that it has there.

use crate::error::Error;
use crate::names;
use crate::rows::{Import, Imported};

// The endings that the name of a DLL loses.
const ENDINGS: [&str; 3] = [".dll", ".ocx", ".sys"];

/// The text of these imports; `None` if there are none, or if a name of the file is cut. An import
/// without a name, one of the ordinal 0 and one of a DLL without a name are left out.
pub fn text<'a>(
    imports: impl Iterator<Item = Result<Import<'a>, Error>>,
) -> Result<Option<String>, Error> {
    let mut text = Vec::new();
    for import in imports {
        let import = import?;
        let ordinal_name;
        let (name, is_named) = match import.name {
            Imported::Name { name, .. } => (name.0, !name.is_empty()),
            Imported::Ordinal(ordinal) => {
                ordinal_name = match names::ordinal(import.dll, ordinal) {
                    Some(name) => name.to_string(),
                    None => format!("ord{ordinal}"),
                };
                (ordinal_name.as_bytes(), ordinal != 0)
            }
        };
        if import.is_name_cut || import.is_library_cut {
            return Ok(None);
        }
        if is_named && !import.dll.is_empty() {
            let pieces = [stem(import.dll.0), b".", name, b","];
            let size = pieces.iter().map(|it| it.len()).sum();
            if text.try_reserve(size).is_err() {
                return Err(Error::memory(None));
            }
            text.extend(pieces.into_iter().flatten().map(u8::to_ascii_lowercase));
        }
    }
    text.pop();
    let lossy = |it: std::string::FromUtf8Error| String::from_utf8_lossy(it.as_bytes()).into_owned();
    let text = String::from_utf8(text).unwrap_or_else(lossy);
    Ok((!text.is_empty()).then_some(text))
}

// The name of a DLL without its ending.
fn stem(dll: &[u8]) -> &[u8] {
    let (stem, ending) = dll.split_at(dll.len().saturating_sub(4));
    let is_ending = |it: &&str| ending.eq_ignore_ascii_case(it.as_bytes());
    if ENDINGS.iter().any(is_ending) {
        stem
    } else {
        dll
    }
}
