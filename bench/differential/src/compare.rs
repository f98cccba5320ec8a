//! One rule set through the reference and through the library.

use crate::random::Random;
use reference::{book, convert, form, stages, Book, Verdict, Version};
use rulfjen::{books, lists};

/// The versions that the library reads. The reference reads all of them.
pub const OF_LIBRARY: [Version; 2] = [Version::One, Version::Two];

/// Whether a number is that of a version, but of none of these.
fn is_other(number: u16, versions: &[Version]) -> bool {
    Version::of(number).is_some_and(|version| !versions.contains(&version))
}

/// Whether a rule set is of a version that is not to be compared.
pub fn is_left_out(book: &[u8], versions: &[Version]) -> bool {
    book.get(4).is_some_and(|&number| is_other(number as u16, versions))
}

/// A list's length: what is asked for, or some more, or one less now and then.
fn length(random: &mut Random, front: usize) -> usize {
    match random.within(0, 39) {
        0 => front - 1,
        1 => random.within(0, front - 1),
        2..=20 => front,
        _ => front + random.within(1, 40),
    }
}

/// A depth, or now and then a number that is none.
fn depth(random: &mut Random) -> usize {
    match random.within(0, 19) {
        0 => random.one_of(&[0, 4, 255, 256, 257, usize::MAX]),
        1..=9 => 1,
        10..=14 => 2,
        _ => 3,
    }
}

/// A list that is not clear, so that what is left untouched shows.
fn dirt(random: &mut Random, length: usize) -> Vec<u16> {
    let mut x = random.next() | 1;
    (0..length)
        .map(|_| {
            x = x.wrapping_mul(6_364_136_223_846_793_005).wrapping_add(1);
            (x >> 48) as u16
        })
        .collect()
}

fn bytes(numbers: &[u16]) -> Vec<u8> {
    numbers.iter().map(|&n| n as u8).collect()
}

fn same_verdict(of_library: rulfjen::Verdict) -> Verdict {
    match of_library {
        rulfjen::Verdict::Accepted { stage, facts, terms } => Verdict::Accepted { stage, facts, terms },
        rulfjen::Verdict::Cyclic { stage, facts, terms } => Verdict::Cyclic { stage, facts, terms },
        rulfjen::Verdict::Refused(refusal) => Verdict::Refused { number: refusal.number, place: refusal.place },
    }
}

fn same_transfer(of_library: Result<usize, rulfjen::Refusal>) -> Result<usize, reference::Refusal> {
    of_library.map_err(|refusal| reference::Refusal { number: refusal.number, place: refusal.place })
}

fn expect<T: PartialEq + std::fmt::Debug>(what: &str, reference: &T, library: &T) -> Result<(), String> {
    if reference == library {
        return Ok(());
    }
    let mut shown = format!("{what}: reference {reference:?}\n{what}: library   {library:?}");
    if shown.len() > 4_000 {
        shown = format!("{what} differs");
    }
    Err(shown)
}

fn expect_list<T: PartialEq + std::fmt::Debug>(what: &str, reference: &[T], library: &[T]) -> Result<(), String> {
    match (0..reference.len()).find(|&k| reference[k] != library[k]) {
        None => Ok(()),
        Some(k) => Err(format!("{what} {k}: reference {:?}, library {:?}", reference[k], library[k])),
    }
}

/// Compares answers, tables and text at some depth, and forms of these versions; answers what the reference says on lists
/// of the right length, and on these.
pub fn compare(book: &[u8], versions: &[Version], random: &mut Random) -> Result<(stages::Checked, Verdict), String> {
    let depth = depth(random);
    let checked = reference::check_at(book, depth.clamp(1, 3));

    let terms_length = length(random, stages::TERMS_FRONT);
    let facts_length = length(random, stages::FACTS_FRONT);
    let (mut terms, mut facts) = (dirt(random, terms_length), dirt(random, facts_length));
    let (mut library_terms, mut library_facts) = (terms.clone(), facts.clone());
    let verdict = stages::check_into(book, depth, &mut terms, &mut facts);
    let library_verdict = same_verdict(lists::check(book, depth, &mut library_terms, &mut library_facts));
    expect("verdict", &verdict, &library_verdict)?;
    expect_list("number of the terms", &terms, &library_terms)?;
    expect_list("number of the facts", &facts, &library_facts)?;

    let text_length = length(random, reference::print::LONGEST);
    let mut text = bytes(&dirt(random, text_length));
    let mut library_text = text.clone();
    let printed = reference::print::print_into(book, depth, &mut text);
    let library_printed = same_transfer(lists::print(book, depth, &mut library_text));
    expect("length of the text", &printed, &library_printed)?;
    expect_list("byte of the text", &text, &library_text)?;

    compare_forms(book, versions, random)?;
    compare_converted(book, random)?;
    Ok((checked, verdict))
}

/// Numbers on either side of the limits and of what a byte holds; 1 and 2 are versions.
const NUMBERS: [u16; 24] =
    [0, 1, 1, 2, 2, 3, 4, 5, 7, 8, 63, 64, 65, 255, 256, 257, 258, 512, 513, 1_023, 1_024, 1_025, 1_026, 65_535];

/// Numbers on either side of what version 3 has of rule constants, in forms and in bytes.
const CONSTANT_NUMBERS: [u16; 18] = [0, 1, 2, 3, 4, 5, 7, 8, 9, 10, 11, 12, 127, 128, 130, 131, 256, 264];

/// A place of a form and a number for it.
fn change(random: &mut Random) -> (usize, u16) {
    let at = match random.within(0, 5) {
        0 => random.within(0, 1),
        1 => random.within(0, 12),
        2 => 2 + random.within(0, 5) * form::RULE + random.within(0, form::RULE - 1),
        3 => random.within(form::ARITIES, form::VERSION - 1),
        4 => form::VERSION,
        _ => random.within(form::ARITIES, form::LENGTH - 1),
    };
    (at, random.one_of(&NUMBERS))
}

/// The same, often the count of rule constants, or an argument of a rule's first atoms.
fn change_constants(random: &mut Random) -> (usize, u16) {
    let at = match random.within(0, 3) {
        0 => form::CONSTANTS,
        1 => 2 + random.within(0, 3) * form::RULE + random.one_of(&[3, 4, 24, 25, 45]),
        _ => return change(random),
    };
    (at, random.one_of(&CONSTANT_NUMBERS))
}

/// Compares reading, and writing of forms that are whole, changed or short.
fn compare_forms(book: &[u8], versions: &[Version], random: &mut Random) -> Result<(), String> {
    let form_length = length(random, form::LENGTH);
    let mut form = dirt(random, form_length);
    let mut library_form = form.clone();
    let read = form::read_form(book, &mut form);
    let library_read = same_transfer(lists::read(book, &mut library_form));
    expect("read", &read, &library_read)?;
    expect_list("number of the form", &form, &library_form)?;
    if read.is_err() && !random.once_in(8) {
        return Ok(());
    }
    compare_written(&form, versions, random)?;
    let changes = if versions.contains(&Version::Three) { change_constants } else { change };
    for _ in 0..random.within(1, 3) {
        let (at, changed) = changes(random);
        if let Some(number) = form.get_mut(at) {
            *number = changed;
        }
    }
    if random.once_in(10) {
        form.truncate(match random.within(0, 3) {
            0 => form::LENGTH - 1,
            1 => form::VERSION,
            _ => random.within(0, form.len()),
        });
    }
    compare_written(&form, versions, random)
}

fn compare_written(form: &[u16], versions: &[Version], random: &mut Random) -> Result<(), String> {
    let room = form::write_form(form, &mut [0; book::LONGEST]).unwrap_or(100);
    let list_length = match random.within(0, 9) {
        0 => room - 1,
        1 => random.within(0, room - 1),
        2..=5 => room,
        _ => room + random.within(1, 40),
    };
    let mut out = bytes(&dirt(random, list_length));
    // behind the random numbers, so that a seed has the same ones whatever is compared
    if form.get(form::VERSION).is_some_and(|&number| is_other(number, versions)) {
        return Ok(());
    }
    let mut library_out = out.clone();
    let written = form::write_form(form, &mut out);
    let library_written = same_transfer(lists::write(form, &mut library_out));
    expect("written", &written, &library_written)?;
    expect_list("byte written", &out, &library_out)
}

type Converter<Refusal> = fn(&[u8], &mut [u8]) -> Result<usize, Refusal>;

const CONVERTERS: [(&str, Converter<reference::Refusal>, Converter<rulfjen::Refusal>); 2] =
    [("upgrade", convert::upgrade, books::lists::upgrade), ("downgrade", convert::downgrade, books::lists::downgrade)];

/// Compares both converters, on lists of any length that are not clear.
fn compare_converted(book: &[u8], random: &mut Random) -> Result<(), String> {
    for (what, of_reference, of_library) in CONVERTERS {
        let room = length(random, convert::ROOM);
        let mut out = bytes(&dirt(random, room));
        let mut library_out = out.clone();
        let converted = of_reference(book, &mut out);
        let library_converted = same_transfer(of_library(book, &mut library_out));
        expect(what, &converted, &library_converted)?;
        expect_list(&format!("byte of the {what}"), &out, &library_out)?;
    }
    Ok(())
}

/// The rule set in its other version, by the library, if it has one.
fn converted(book: &[u8]) -> Option<Vec<u8>> {
    CONVERTERS.iter().find_map(|(_, _, convert)| {
        let mut out = vec![0; convert::ROOM];
        let length = convert(book, &mut out).ok()?;
        out.truncate(length);
        Some(out)
    })
}

/// The library's verdict at depth 1, with its tables.
fn tables(book: &[u8]) -> (rulfjen::Verdict, Vec<u16>, Vec<u16>) {
    let (mut terms, mut facts) = (vec![0; stages::TERMS_FRONT], vec![0; stages::FACTS_FRONT]);
    let verdict = lists::check(book, 1, &mut terms, &mut facts);
    (verdict, terms, facts)
}

/// Where a rule set has another version: the library gives the same verdict and tables on it, and converts it back to the
/// same bytes. Answers whether it has one.
pub fn same_in_both_versions(book: &[u8]) -> Result<bool, String> {
    let Some(other) = converted(book) else { return Ok(false) };
    if converted(&other).as_deref() != Some(book) {
        return Err("converted back: other bytes".to_string());
    }
    same_tables(book, &other)?;
    Ok(true)
}

/// Where a rule set of version 3 has no rule constants: the library gives the same verdict and tables on it in version 2.
/// Answers whether it is such a one.
pub fn same_without_constants(book: &[u8]) -> Result<bool, String> {
    match reference::read(book) {
        Ok(read) if read.version == Version::Three && read.constants == 0 => {
            same_tables(book, &Book { version: Version::Two, ..read }.bytes())?;
            Ok(true)
        }
        _ => Ok(false),
    }
}

/// The library's verdict and tables are the same on both.
fn same_tables(book: &[u8], other: &[u8]) -> Result<(), String> {
    let ((verdict, terms, facts), (other_verdict, other_terms, other_facts)) = (tables(book), tables(other));
    if verdict != other_verdict {
        return Err(format!("versions {} and {}: {verdict:?}, {other_verdict:?}", book[4], other[4]));
    }
    if terms != other_terms || facts != other_facts {
        return Err(format!("versions {} and {}: other tables", book[4], other[4]));
    }
    Ok(())
}
