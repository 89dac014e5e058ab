//! Stand-in for the parser generator `pest`: the span type that the bought source converts from, and the unicode
//! classes that it classifies identifier characters with. Nothing is parsed through it.
//!
//! The classes are asked only of characters outside ASCII. No name of a table holds such a character, so a word that
//! contains one is refused whichever way it is classified.

/// A piece of a text.
pub struct Span<'i> {
    text: &'i str,
    start: usize,
    end: usize,
}

impl<'i> Span<'i> {
    pub fn new(text: &'i str, start: usize, end: usize) -> Option<Span<'i>> {
        text.get(start..end).map(|_| Span { text, start, end })
    }

    pub fn start(&self) -> usize {
        self.start
    }

    pub fn as_str(&self) -> &'i str {
        &self.text[self.start..self.end]
    }
}

/// Unicode classes, as near as the standard library comes to them.
#[allow(non_snake_case)]
pub mod unicode {
    pub fn LETTER(c: char) -> bool {
        c.is_alphabetic()
    }

    /// Covered by [`LETTER`], which is wider here.
    pub fn LETTER_NUMBER(_: char) -> bool {
        false
    }

    pub fn DECIMAL_NUMBER(c: char) -> bool {
        c.is_numeric()
    }

    pub fn CONNECTOR_PUNCTUATION(c: char) -> bool {
        matches!(c, '_' | '‿' | '⁀' | '⁔')
    }

    pub fn CURRENCY_SYMBOL(c: char) -> bool {
        matches!(c, '¢'..='¥' | '₠'..='₿')
    }

    pub fn MATH_SYMBOL(c: char) -> bool {
        matches!(c, '¬' | '±' | '×' | '÷' | '⁄' | '∀'..='⋿' | '⟀'..='⟿' | '⤀'..='⫿')
    }

    pub fn NONSPACING_MARK(c: char) -> bool {
        matches!(c, '\u{300}'..='\u{36F}')
    }

    pub fn SPACING_MARK(_: char) -> bool {
        false
    }
}
