//! Texts of a file, and hashes.

use std::borrow::{Borrow, Cow};
use std::fmt::{self, Write};
use std::ops::Deref;

/// A text of the file: bytes that are mostly, but not always, UTF-8.
///
/// `{}` prints the text so that it can't harm a terminal: each byte outside printable ASCII, and the
/// backslash, is printed as `\x` and two hexadecimal digits. So two texts that print alike are equal.
///
/// In all other uses a text is a `[u8]`: it derefs to the bytes, and compares with `str` and `[u8]`.
///
/// ```no_run
/// use goblin_pe::Text;
///
/// let name = Text(b"KERNEL32.dll");
/// assert!(name == "KERNEL32.dll" && name.eq_ignore_ascii_case(b"kernel32.DLL"));
/// assert_eq!(Text(b"a\xFF").to_string(), r"a\xff");
/// ```
#[derive(Clone, Copy, Default, PartialEq, Eq, PartialOrd, Ord, Hash)]
pub struct Text<'a>(pub &'a [u8]);

impl<'a> Text<'a> {
    /// The text as a string; `None` if it is not UTF-8.
    #[must_use]
    pub fn as_str(self) -> Option<&'a str> {
        std::str::from_utf8(self.0).ok()
    }

    /// The text as a string, with the replacement character for what is not UTF-8.
    #[must_use]
    pub fn to_string_lossy(self) -> Cow<'a, str> {
        String::from_utf8_lossy(self.0)
    }

    // The characters that are printed.
    fn escaped(self) -> impl Iterator<Item = char> {
        self.0.iter().flat_map(|&byte| {
            let is_unescaped = matches!(byte, b' '..=b'~') && byte != b'\\';
            let digit = |number: u8| char::from(b"0123456789abcdef"[usize::from(number)]);
            let escape = ['\\', 'x', digit(byte >> 4), digit(byte & 0xF)];
            let unescaped = [char::from(byte); 4];
            let characters = if is_unescaped { unescaped } else { escape };
            characters
                .into_iter()
                .take(if is_unescaped { 1 } else { 4 })
        })
    }
}

impl fmt::Display for Text<'_> {
    /// The escaped text. Width, fill, alignment and precision count its characters.
    fn fmt(&self, f: &mut fmt::Formatter<'_>) -> fmt::Result {
        // (as `pad` does, but without memory)
        let most = f.precision().unwrap_or(usize::MAX);
        let width = f.width().unwrap_or(0);
        let room = width - self.escaped().take(most).take(width).count();
        let before = match f.align() {
            Some(fmt::Alignment::Right) => room,
            Some(fmt::Alignment::Center) => room / 2,
            Some(fmt::Alignment::Left) | None => 0,
        };
        fill(f, before)?;
        self.escaped()
            .take(most)
            .try_for_each(|it| f.write_char(it))?;
        fill(f, room - before)
    }
}

// Writes the fill character this many times.
fn fill(f: &mut fmt::Formatter<'_>, count: usize) -> fmt::Result {
    (0..count).try_for_each(|_| f.write_char(f.fill()))
}

impl fmt::Debug for Text<'_> {
    /// The escaped text between quotation marks.
    fn fmt(&self, f: &mut fmt::Formatter<'_>) -> fmt::Result {
        f.write_char('"')?;
        self.escaped().try_for_each(|it| match it {
            '"' => f.write_str(r"\x22"),
            _ => f.write_char(it),
        })?;
        f.write_char('"')
    }
}

impl Deref for Text<'_> {
    type Target = [u8];

    fn deref(&self) -> &[u8] {
        self.0
    }
}

impl AsRef<[u8]> for Text<'_> {
    fn as_ref(&self) -> &[u8] {
        self.0
    }
}

impl Borrow<[u8]> for Text<'_> {
    fn borrow(&self) -> &[u8] {
        self.0
    }
}

impl<'a> From<&'a str> for Text<'a> {
    fn from(text: &'a str) -> Text<'a> {
        Text(text.as_bytes())
    }
}

impl<'a> From<&'a [u8]> for Text<'a> {
    fn from(bytes: &'a [u8]) -> Text<'a> {
        Text(bytes)
    }
}

impl<'a, const N: usize> From<&'a [u8; N]> for Text<'a> {
    fn from(bytes: &'a [u8; N]) -> Text<'a> {
        Text(bytes)
    }
}

impl From<Text<'_>> for String {
    /// The escaped text, as `{}` prints it.
    fn from(text: Text<'_>) -> String {
        text.to_string()
    }
}

// A text equals what has the same bytes, on either side.
macro_rules! same_bytes {
    ($([$($generic:tt)*] $other:ty;)*) => {$(
        impl<$($generic)*> PartialEq<$other> for Text<'_> {
            fn eq(&self, other: &$other) -> bool {
                *self.0 == *AsRef::<[u8]>::as_ref(other)
            }
        }

        impl<$($generic)*> PartialEq<Text<'_>> for $other {
            fn eq(&self, text: &Text<'_>) -> bool {
                text == self
            }
        }
    )*};
}

same_bytes! {
    [] str;
    [] &str;
    [] [u8];
    [] &[u8];
    [] String;
    [] Vec<u8>;
    [const N: usize] [u8; N];
    [const N: usize] &[u8; N];
}
