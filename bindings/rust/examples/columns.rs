//! Checks River of document 01, lays its records down by columns, and takes them up again.

use rulfjen::columns::{pack, unpack, STORE};
use rulfjen::{check, Depth, Tables, Verdict};

const RIVER: [u8; 37] = [
    0x00, 0x00, 0x00, 0x21, 0x01, 0x03, 0x01, 0x02, 0x01, 0x03, 0x01, 0x00, 0x00, 0x01, 0x01, 0x01, 0x00, 0x01, 0x01,
    0x01, 0x00, 0x01, 0x02, 0x01, 0x02, 0x01, 0x01, 0x00, 0x01, 0x01, 0x01, 0x00, 0x01, 0x01, 0x01, 0x02, 0x01,
];

fn main() {
    let mut tables = Tables::default();
    let Verdict::Accepted { facts, terms, .. } = check(&RIVER, Depth::One, &mut tables) else {
        std::process::exit(1);
    };
    let mut store = Box::new([0; STORE]);
    let length = pack(terms, facts, &tables, &mut store).expect("an accepted answer has a store");
    println!("River: {terms} terms and {facts} facts in {length} bytes");

    let mut again = Tables::default();
    let counts = unpack(&store[..length], &mut again).expect("a store");
    println!("unpacked: {} terms and {} facts", counts.0, counts.1);
    assert!(counts == (terms, facts) && again == tables);

    println!("a byte less: {:?}", unpack(&store[..length - 1], &mut again));
    println!("513 terms: {:?}", pack(513, facts, &tables, &mut store));
}
