//! Checks River of document 01, as bytes and as a form, and a pedigree of three generations at each depth, and prints the
//! answers.

use rulfjen::{check, print, read, write, Depth, Tables, Verdict, BOOK, FORM, TEXT};

const RIVER: [u8; 37] = [
    0x00, 0x00, 0x00, 0x21, 0x01, 0x03, 0x01, 0x02, 0x01, 0x03, 0x01, 0x00, 0x00, 0x01, 0x01, 0x01, 0x00, 0x01, 0x01,
    0x01, 0x00, 0x01, 0x02, 0x01, 0x02, 0x01, 0x01, 0x00, 0x01, 0x01, 0x01, 0x00, 0x01, 0x01, 0x01, 0x02, 0x01,
];

/// A(x) → ∃y. B(x,y); B(x,y) ∧ C(x) → A(y); B(x,y) ∧ B(y,z) ∧ C(x) → A(z)
const PEDIGREE: [u8; 41] = [
    0x00, 0x00, 0x00, 0x25, 0x01, 0x03, 0x01, 0x02, 0x01, 0x03, 0x01, 0x00, 0x00, 0x01, 0x01, 0x01, 0x00, 0x01, 0x02,
    0x01, 0x00, 0x01, 0x02, 0x00, 0x01, 0x01, 0x00, 0x01, 0x03, 0x01, 0x00, 0x01, 0x01, 0x01, 0x02, 0x02, 0x00, 0x01,
    0x01, 0x00, 0x02,
];

fn main() {
    let mut tables = Tables::default();
    let verdict = check(&RIVER, Depth::One, &mut tables);
    println!("River: {verdict:?}");
    let Verdict::Accepted { facts, .. } = verdict else {
        std::process::exit(1);
    };
    for number in 0..facts {
        let (predicate, terms) = tables.fact(number);
        println!("predicate {predicate} of term {}", terms[0]);
    }
    let (mark, arguments) = tables.term(1);
    println!("term 1 is Skolem function {mark} over {arguments:?}");

    for depth in [Depth::One, Depth::Two, Depth::Three] {
        println!("three generations at depth {}: {:?}", depth.number(), check(&PEDIGREE, depth, &mut tables));
    }

    let mut form = Box::new([0; FORM]);
    let mut book = [0; BOOK];
    println!("read: {:?}", read(&RIVER, &mut form));
    println!("written: {:?}", write(&form, &mut book));
    assert_eq!(book[..RIVER.len()], RIVER);
    form[0] = 65;
    println!("with 65 predicates: {:?}", write(&form, &mut book));

    let mut text = Box::new([0; TEXT]);
    print!("{}", print(&RIVER, Depth::One, &mut text));
}
