//! The reference behind the static library's interface, so that the differential test, the benchmarks and the bindings
//! can be tried without the proved library. `bench/run --standin` links it. A test instrument: unproved.

mod books;
mod columns;

use reference::{form, Refusal, Verdict};

/// # Safety
/// As `rulfjen.h` says.
unsafe fn list<'a, T>(start: *const T, length: usize) -> &'a [T] {
    std::slice::from_raw_parts(start, length)
}

/// # Safety
/// As `rulfjen.h` says.
unsafe fn lent<'a, T>(start: *mut T, length: usize) -> &'a mut [T] {
    std::slice::from_raw_parts_mut(start, length)
}

fn transfer(result: Result<usize, Refusal>, value: &mut usize) -> usize {
    match result {
        Ok(count) => {
            *value = count;
            0
        }
        Err(refusal) => {
            *value = refusal.place;
            refusal.number as usize
        }
    }
}

/// # Safety
/// As `rulfjen.h` says.
#[no_mangle]
pub unsafe extern "C" fn rulfjen_check(
    book: *const u8,
    book_length: usize,
    depth: usize,
    terms: *mut u16,
    terms_length: usize,
    facts: *mut u16,
    facts_length: usize,
    answer: *mut usize,
) -> usize {
    let verdict =
        reference::check_into(list(book, book_length), depth, lent(terms, terms_length), lent(facts, facts_length));
    let (kind, numbers) = match verdict {
        Verdict::Accepted { stage, facts, terms } => (0, [stage, facts, terms]),
        Verdict::Cyclic { stage, facts, terms } => (1, [stage, facts, terms]),
        Verdict::Refused { number, place } => (2, [number as usize, place, 0]),
    };
    lent(answer, 3).copy_from_slice(&numbers);
    kind
}

/// # Safety
/// As `rulfjen.h` says.
#[no_mangle]
pub unsafe extern "C" fn rulfjen_read(
    book: *const u8,
    book_length: usize,
    form: *mut u16,
    form_length: usize,
    value: *mut usize,
) -> usize {
    transfer(form::read_form(list(book, book_length), lent(form, form_length)), &mut *value)
}

/// # Safety
/// As `rulfjen.h` says.
#[no_mangle]
pub unsafe extern "C" fn rulfjen_write(
    form: *const u16,
    form_length: usize,
    book: *mut u8,
    book_length: usize,
    value: *mut usize,
) -> usize {
    transfer(form::write_form(list(form, form_length), lent(book, book_length)), &mut *value)
}

/// # Safety
/// As `rulfjen.h` says.
#[no_mangle]
pub unsafe extern "C" fn rulfjen_print(
    book: *const u8,
    book_length: usize,
    depth: usize,
    text: *mut u8,
    text_length: usize,
    value: *mut usize,
) -> usize {
    transfer(reference::print::print_into(list(book, book_length), depth, lent(text, text_length)), &mut *value)
}
