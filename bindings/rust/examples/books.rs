//! Converts River of document 01 to version 2, checks it in both, and converts it back.

use rulfjen::books::{downgrade, upgrade};
use rulfjen::{check, Depth, Tables, BOOK};

const RIVER: [u8; 37] = [
    0x00, 0x00, 0x00, 0x21, 0x01, 0x03, 0x01, 0x02, 0x01, 0x03, 0x01, 0x00, 0x00, 0x01, 0x01, 0x01, 0x00, 0x01, 0x01,
    0x01, 0x00, 0x01, 0x02, 0x01, 0x02, 0x01, 0x01, 0x00, 0x01, 0x01, 0x01, 0x00, 0x01, 0x01, 0x01, 0x02, 0x01,
];

fn main() {
    let (mut wide, mut back) = (Box::new([0; BOOK]), Box::new([0; BOOK]));
    let length = upgrade(&RIVER, &mut wide).expect("a book of version 1");
    println!("River: {} bytes in version {}, {length} in version {}", RIVER.len(), RIVER[4], wide[4]);

    let (mut tables, mut tables_wide) = (Tables::default(), Tables::default());
    let verdict = check(&RIVER, Depth::One, &mut tables);
    assert_eq!(check(&wide[..length], Depth::One, &mut tables_wide), verdict);
    assert!(tables == tables_wide);
    println!("both: {verdict:?}");

    let length_back = downgrade(&wide[..length], &mut back).expect("a book of version 2 with few predicates");
    assert_eq!(back[..length_back], RIVER);
    println!("converted back: the same {length_back} bytes");
    println!("once more: {:?}", downgrade(&back[..length_back], &mut wide));
}
