//! A file's text, and where things stand in it.

/// Bytes of the longest text or book that is taken.
pub const LONGEST: usize = 4 << 20;

/// A piece of a text: the bytes from `start` up to `end`.
#[derive(Clone, Copy, PartialEq, Eq, Debug, Default)]
pub struct Span {
    pub start: usize,
    pub end: usize,
}

impl Span {
    pub fn to(self, last: Span) -> Span {
        Span { start: self.start, end: last.end }
    }
}

/// A line and a column, both from 1. A column counts characters.
#[derive(Clone, Copy, PartialEq, Eq, Debug)]
pub struct Position {
    pub line: usize,
    pub column: usize,
}

pub struct Source {
    pub name: String,
    pub text: String,
    /// Where each line begins.
    lines: Vec<usize>,
}

/// Characters of a line that are shown beside a fault.
const SHOWN: usize = 100;

impl Source {
    /// Bytes that are not UTF-8 become a character that the notation lacks.
    pub fn new(name: &str, bytes: &[u8]) -> Source {
        let text = String::from_utf8_lossy(bytes).into_owned();
        let after = text.bytes().enumerate().filter(|&(_, byte)| byte == b'\n').map(|(at, _)| at + 1);
        let lines = std::iter::once(0).chain(after).collect();
        Source { name: printable(name), text, lines }
    }

    pub fn position(&self, at: usize) -> Position {
        let line = self.lines.partition_point(|&start| start <= at).max(1);
        let before = self.text.get(self.lines[line - 1]..at).unwrap_or("");
        Position { line, column: before.chars().count() + 1 }
    }

    pub fn line_of(&self, at: usize) -> usize {
        self.position(at).line
    }

    pub fn slice(&self, span: Span) -> &str {
        self.text.get(span.start..span.end).unwrap_or("")
    }

    fn line(&self, number: usize) -> &str {
        let start = self.lines[number - 1];
        let end = self.lines.get(number).copied().unwrap_or(self.text.len());
        self.text[start..end].trim_end_matches(['\n', '\r'])
    }

    /// The line of a span, or the part around it of a long one, and a second line with carets below the span.
    pub fn excerpt(&self, span: Span) -> (String, String) {
        let Position { line, column } = self.position(span.start);
        let text: Vec<char> = self.line(line).chars().collect();
        let first = column - 1;
        let wide = self.slice(span).lines().next().map_or(0, |inside| inside.chars().count()).max(1);
        let from = if text.len() <= SHOWN { 0 } else { first.saturating_sub(SHOWN / 2) };
        let to = text.len().min(from + SHOWN);
        let mut shown = String::new();
        let mut carets = String::new();
        if from > 0 {
            shown.push('…');
            carets.push(' ');
        }
        for (at, &character) in text.iter().enumerate().take(to).skip(from) {
            shown.push(visible(character));
            if at < first {
                carets.push(if character == '\t' { '\t' } else { ' ' });
            }
        }
        if to < text.len() {
            shown.push('…');
        }
        let room = to.saturating_sub(first).max(1);
        carets.extend(std::iter::repeat_n('^', wide.min(room)));
        (shown, carets)
    }
}

/// Tabs stay; what would move the cursor or hide text does not.
fn visible(character: char) -> char {
    match character {
        '\t' => '\t',
        '\u{200b}'..='\u{200f}' | '\u{2028}'..='\u{202e}' | '\u{2060}'..='\u{206f}' | '\u{feff}' => '\u{fffd}',
        c if c.is_control() => '\u{fffd}',
        c => c,
    }
}

/// A text that someone else chose, fit to be printed on one line.
pub fn printable(text: &str) -> String {
    text.chars().map(|c| if c == '\t' { ' ' } else { visible(c) }).collect()
}

#[cfg(test)]
mod tests {
    use super::*;

    #[test]
    fn positions_count_lines_and_characters() {
        let source = Source::new("a", "ø(?x)\r\n\tb".as_bytes());
        assert_eq!(source.position(0), Position { line: 1, column: 1 });
        assert_eq!(source.position(2), Position { line: 1, column: 2 });
        assert_eq!(source.position(9), Position { line: 2, column: 2 });
        assert_eq!(source.position(10), Position { line: 2, column: 3 });
        assert_eq!(source.position(999).line, 2);
    }

    #[test]
    fn carets_stand_below_the_span() {
        let source = Source::new("a", b"one\n\ttwo three");
        assert_eq!(source.excerpt(Span { start: 9, end: 14 }), ("\ttwo three".into(), "\t    ^^^^^".into()));
        assert_eq!(source.excerpt(Span { start: 14, end: 14 }).1, "\t         ^");
    }

    #[test]
    fn a_long_line_is_cut() {
        let text = "x".repeat(5_000);
        let source = Source::new("a", text.as_bytes());
        let (line, carets) = source.excerpt(Span { start: 4_000, end: 4_900 });
        assert_eq!(line.chars().count(), SHOWN + 2);
        assert_eq!(carets.find('^'), Some(SHOWN / 2 + 1));
        assert!(carets.len() <= SHOWN + 1);
    }

    #[test]
    fn what_is_not_text_is_shown_as_such() {
        let source = Source::new("a\u{1b}[0m", b"\x1b[2J\xff");
        assert_eq!(source.name, "a\u{fffd}[0m");
        assert_eq!(source.excerpt(Span { start: 0, end: 1 }).0, "\u{fffd}[2J\u{fffd}");
    }
}
