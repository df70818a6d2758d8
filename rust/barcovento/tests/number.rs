//! Numbers in groups of seven bits.

use barcovento::number::{read, Number};

#[test]
fn every_form_of_a_number() {
    let found = |value, used, shortest| Number::Found { value, used, shortest };
    let cases: [(&[u8], Number); 15] = [
        (&[0], found(0, 1, true)),
        (&[5, 9, 9], found(5, 1, true)),
        (&[0x7F], found(127, 1, true)),
        (&[0x80, 0x01], found(128, 2, true)),
        (&[0x80, 0x80, 0], found(0, 3, false)),
        (&[0x85, 0x80, 0x80, 0x80, 0x00], found(5, 5, false)),
        (&[0x85, 0x80, 0x80, 0x00, 0xFF], found(5, 4, false)),
        (&[0xFF, 0xFF, 0xFF, 0xFF, 0x0F], found(u32::MAX, 5, true)),
        (&[0x80, 0x80, 0x80, 0x80, 0x01, 0x77], found(1 << 28, 5, true)),
        (&[], Number::CutShort),
        (&[0x80], Number::CutShort),
        (&[0xFF, 0xFF, 0xFF, 0xFF], Number::CutShort),
        (&[0xFF, 0xFF, 0xFF, 0xFF, 0x10], Number::IllFormed),
        (&[0x80, 0x80, 0x80, 0x80, 0x80], Number::IllFormed),
        (&[0x80, 0x80, 0x80, 0x80, 0x80, 0], Number::IllFormed),
    ];
    for (bytes, number) in cases {
        assert_eq!(read(bytes), number, "{bytes:02X?}");
    }
}

#[test]
fn every_width() {
    for bits in 0..32 {
        let (first, last) = (1u32 << bits, (2u64.pow(bits + 1) - 1) as u32);
        for value in [first, last] {
            let mut bytes = Vec::new();
            let mut rest = value;
            while rest >= 0x80 {
                bytes.push(rest as u8 | 0x80);
                rest >>= 7;
            }
            bytes.push(rest as u8);
            let used = bytes.len() as u32;
            assert_eq!(read(&bytes), Number::Found { value, used, shortest: true });
        }
    }
}
