//! No text makes the program panic, and whatever it says is well-formed: 100,000 damaged texts, and a few odd ones.

mod support;

use rulebook::command::Said;
use rulebook::names::Names;
use rulebook::show;
use support::{book, files, folder, said, written, Random};

const TEXTS: usize = 100_000;

const WORDS: &[&str] = &[
    "(",
    ")",
    ",",
    "|",
    ":-",
    ".",
    "?",
    "!",
    "@",
    "%",
    "?x",
    "!y",
    "?0",
    "!7",
    "?8",
    "@declare",
    "@declare q(3) .",
    "p",
    "\n",
    "\r\n",
    "\t",
    "\0",
    "\u{feff}",
    "⋆",
    "→",
    "ø",
    "\u{301}",
    "\u{202e}",
    "a(b(c",
    "99999999999999999999",
    "?x ?x",
    "\"",
    "\\",
];

/// The texts that are damaged: the examples, the golden ones, and books by lot.
fn sound(random: &mut Random) -> Vec<Vec<u8>> {
    let mut texts = Vec::new();
    for part in ["examples", "tests/golden"] {
        let paths = files(&folder().join(part), "rules");
        texts.extend(paths.iter().map(|path| std::fs::read(path).expect("a text")));
    }
    for _ in 0..200 {
        let mut book = book(random);
        book.rules.truncate(5);
        texts.push(show::book(&book, &Names::of_book("by lot", &book)).into_bytes());
    }
    texts
}

fn damage(random: &mut Random, texts: &[Vec<u8>]) -> Vec<u8> {
    let mut text = random.one_of(texts);
    for _ in 0..random.one_of(&[1, 1, 1, 2, 3, 8]) {
        let at = random.below(text.len() + 1);
        let to = (at + random.below(12)).min(text.len());
        match random.below(9) {
            0 => _ = text.drain(at..to),
            1 => text.truncate(at),
            2 => text.insert(at, random.next() as u8),
            3 if at < text.len() => text[at] = random.next() as u8,
            4 if at < text.len() => text[at] ^= 1 << random.below(8),
            5 => {
                let part = text[at..to].to_vec();
                text.splice(at..at, part.repeat(random.one_of(&[1, 2, 5, 70])));
            }
            6 => {
                let other = random.one_of(texts);
                let from = random.below(other.len() + 1);
                text.splice(at..to, other[from..].iter().copied());
            }
            7 => _ = text.drain(..at),
            _ => _ = text.splice(at..at, random.one_of(WORDS).bytes()),
        }
    }
    text
}

/// Goes over one JSON value: what is left behind it.
fn json(text: &[u8]) -> Option<&[u8]> {
    let text = text.trim_ascii_start();
    let (&first, mut rest) = text.split_first()?;
    match first {
        b'"' => loop {
            let (&c, behind) = rest.split_first()?;
            rest = behind;
            match c {
                b'"' => return Some(rest),
                b'\\' => match rest.split_first()? {
                    (b'u', behind) if behind.get(..4)?.iter().all(u8::is_ascii_hexdigit) => rest = &behind[4..],
                    (c, behind) if b"\"\\/bfnrt".contains(c) => rest = behind,
                    _ => return None,
                },
                0..=31 => return None,
                _ => {}
            }
        },
        b'{' | b'[' => {
            let close = if first == b'{' { b'}' } else { b']' };
            if rest.trim_ascii_start().first() == Some(&close) {
                return Some(&rest.trim_ascii_start()[1..]);
            }
            loop {
                if first == b'{' {
                    rest = json(rest)?.trim_ascii_start().strip_prefix(b":")?;
                }
                rest = json(rest)?.trim_ascii_start();
                let (&c, behind) = rest.split_first()?;
                rest = behind;
                match c {
                    b',' => {}
                    c if c == close => return Some(rest),
                    _ => return None,
                }
            }
        }
        b'0'..=b'9' => Some(rest.trim_ascii_start_matches_digits()),
        _ => text.strip_prefix(b"null"),
    }
}

trait Digits {
    fn trim_ascii_start_matches_digits(&self) -> &[u8];
}

impl Digits for [u8] {
    fn trim_ascii_start_matches_digits(&self) -> &[u8] {
        &self[self.iter().take_while(|c| c.is_ascii_digit()).count()..]
    }
}

fn is_json(text: &[u8]) -> bool {
    json(text).is_some_and(|rest| rest == b"\n") && std::str::from_utf8(text).is_ok()
}

/// Something is said, on one of the two ways; each fault has its line and its caret.
fn well_formed(found: &Said, text: &[u8]) {
    let shown = String::from_utf8_lossy(text);
    assert!(found.status <= 2, "{shown}");
    assert!(found.out.is_empty() != found.err.is_empty(), "{shown}");
    assert!(std::str::from_utf8(&found.out).is_ok());
    let said = format!("{}{}", String::from_utf8_lossy(&found.out), found.err);
    assert!(!said.chars().any(|c| c.is_control() && c != '\n' && c != '\t'), "{shown}\n{said}");
    for word in ["endless", "infinite", "for ever"] {
        assert!(!said.contains(word), "{said}");
    }
    let faulty = found.err.contains(" fault");
    if found.status == 2 && !found.err.is_empty() {
        assert!(faulty || found.err.contains("refused"), "{shown}\n{}", found.err);
    }
    if faulty {
        assert!(found.err.contains('^'), "{shown}\n{}", found.err);
    }
}

#[test]
fn damaged_texts() {
    let mut random = Random(100_000);
    let texts = sound(&mut random);
    let mut statuses = [0; 3];
    for number in 0..TEXTS {
        let text = damage(&mut random, &texts);
        let found = match number % 8 {
            0 => {
                let found = said(&["check", "--json", "--facts", "-"], &text);
                assert!(is_json(&found.out), "{}", String::from_utf8_lossy(&found.out));
                found
            }
            1 => said(&["check", "--facts", "--depth", "3", "-"], &text),
            2 => said(&["why", "-"], &text),
            3 => said(&["why", "--dot", "--depth=2", "-"], &text),
            _ => said(&["check", "--text", "-"], &text),
        };
        statuses[usize::from(found.status)] += 1;
        well_formed(&found, &text);
        if number % 50 == 0 {
            let compiled = said(&["compile", "-"], &text);
            assert!(compiled.status == 0 || compiled.status == 2);
            if compiled.status == 0 {
                assert_eq!(said(&["show", "-"], &compiled.out).status, 0);
            }
        }
    }
    println!("{TEXTS} texts: {} accepted, {} cyclic, {} refused or faulty", statuses[0], statuses[1], statuses[2]);
    assert!(statuses.iter().all(|&count| count > TEXTS / 100), "{statuses:?}");
}

#[test]
fn damaged_bytes() {
    let mut random = Random(6_855);
    for _ in 0..20_000 {
        let mut bytes = book(&mut random).write().expect("a book");
        for _ in 0..random.within(1, 4) {
            let at = random.below(bytes.len());
            bytes[at] = random.one_of(&[0, 1, 2, 4, 5, 7, 8, 64, 65, 255]);
        }
        let found = said(&["check", "--book", "-"], &bytes);
        assert!(found.status <= 2 && !found.out.is_empty());
        assert!(is_json(&said(&["check", "--book", "--json", "-"], &bytes).out));
        let shown = said(&["show", "-"], &bytes);
        if shown.status == 0 {
            assert_eq!(said(&["compile", "-"], &shown.out).out, written(&bytes));
        }
    }
}

#[test]
fn odd_texts() {
    let long = |text: &str, count: usize| text.repeat(count);
    for text in [
        long("(", 1_000_000),
        long("p(", 1_000_000),
        long("?", 1_000_000),
        long("→ ", 300_000),
        long("p(?x) :- q(?x) .", 100_000),
        format!("p(?x) :- {} .", long("q(?x), ", 200_000)),
        format!("p({}) :- q(?x) .", long("?x, ", 500_000)),
        format!("p(!x) :- {}q(?x) .", (0..100_000).map(|v| format!("q(?v{v}), ")).collect::<String>()),
        format!("{} :- q(?x) .", (0..100_000).map(|v| format!("p(!v{v})")).collect::<Vec<_>>().join(" | ")),
        format!("{} :- q(?x) .", (0..100_000).map(|v| format!("p{v}(!x)")).collect::<Vec<_>>().join(", ")),
        (0..100_000).map(|p| format!("@declare p{p}({p}) .\n")).collect(),
        format!("{}(?x) :- q(?x) .", long("a", 4_000_000)),
        long("\n", 4_000_000),
        long("% ", 2_000_000),
        format!("p(?x) :- q(?x) .{}", long(" ", 4_100_000)),
        long("p(?x) :- q(?x)\n", 100_000),
        long("@", 1_000_000),
    ] {
        let found = said(&["check", "-"], text.as_bytes());
        assert!(found.status == 2 || text.ends_with(' '), "{}", &text[..40]);
        assert!(found.err.len() < 20_000, "{} {}", &text[..40], found.err.len());
        assert!(is_json(&said(&["check", "--json", "-"], text.as_bytes()).out));
    }
    assert_eq!(said(&["check", "-"], &vec![b'%'; 4 << 20]).status, 2);
    let found = said(&["check", "-"], &vec![b'%'; (4 << 20) + 1]);
    assert_eq!((found.status, found.err.as_str()), (2, "standard input: more than 4194304 bytes\n"));
    let crlf = b"\xef\xbb\xbfp(?x) :- q(?x) .\r\n% no end of line";
    assert_eq!(said(&["check", "-"], crlf).status, 0);
}
