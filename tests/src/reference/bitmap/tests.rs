use super::*;

fn form(positions: &[u32]) -> Vec<u8> {
    let mut out = vec![0; 268_390];
    let length = write(positions, &mut out).unwrap();
    out.truncate(length);
    out
}

fn bytes(hex: &str) -> Vec<u8> {
    hex.split_whitespace().map(|byte| u8::from_str_radix(byte, 16).unwrap()).collect()
}

fn members(bytes: &[u8]) -> Result<Vec<u32>, Refusal> {
    Ok(Bitmap::judge(bytes)?.members())
}

fn combined(operation: Operation, first: &[u8], second: &[u8]) -> Vec<u8> {
    let mut out = vec![0; 268_390];
    let length = combine(operation, first, second, &mut out).unwrap();
    out.truncate(length);
    out
}

/// The chunks of the form whose descriptors are these, each at most 32.
fn chunks(descriptors: &[u8]) -> Vec<u8> {
    let members = |(k, &size): (usize, &u8)| (0..u32::from(size)).map(move |i| 256 * k as u32 + i);
    let form = form(&descriptors.iter().enumerate().flat_map(members).collect::<Vec<_>>());
    assert_eq!(usize::from(u16::from_le_bytes([form[4], form[5]])), descriptors.len());
    let containers: usize = descriptors.iter().map(|&size| usize::from(size)).sum();
    form[6..form.len() - containers].to_vec()
}

/// Two ways to write {256}: with b 1, which is the form, and with b 0 and an exception.
const FORM_OF_256: &str = "01 01 00 00 02 00 01 00 00 40 00";
const LONGER_256: &str = "01 01 00 00 02 00 10 01 00 01 80 00";

#[test]
fn the_examples_of_documents_01_and_02() {
    let table: [(&[u32], &str); 5] = [
        (&[], "01 00 00 00 00 00"),
        (&[0], "01 01 00 00 01 00 00 00 01 00"),
        (&[0, 34, 255], "01 03 00 00 01 00 00 00 03 00 22 FF"),
        (&[256], FORM_OF_256),
        (&[0, 256], "01 02 00 00 02 00 00 00 01 00 00"),
    ];
    for (set, hex) in table {
        assert_eq!(form(set), bytes(hex));
        assert_eq!(members(&bytes(hex)).unwrap(), set);
    }
}

#[test]
fn lengths_of_forms() {
    assert_eq!(form(&(0..31).collect::<Vec<_>>()).len(), 40);
    assert_eq!(form(&(0..32).collect::<Vec<_>>()).len(), 41);
    assert_eq!(form(&[2_097_151]).len(), 105);
    assert_eq!(write(&[2_097_152], &mut [0; 200]), Err(12));
    assert_eq!(write(&[1, 1], &mut [0; 200]), Err(12));
    assert_eq!(write(&[5], &mut [0; 9]), Err(13));
}

#[test]
fn one_member_behind_empty_containers() {
    for k in 1..=255 {
        assert_eq!(form(&[256 * k]).len(), if k < 8 { 11 } else { 12 }, "{k}");
    }
}

#[test]
fn widths_of_least_cost() {
    let one_behind = |zeros: usize| [vec![0; zeros], vec![1]].concat();
    let table = [
        (vec![0, 1], "01 00 00 40"),
        (one_behind(7), "01 00 00 01"),
        (one_behind(16), "10 01 00 10 80"),
        ([vec![0], vec![1; 28]].concat(), "01 00 00 7F FF FF F8"),
        // b 0 and 1 cost 2.
        (one_behind(8), "10 01 00 08 80"),
        (one_behind(15), "10 01 00 0F 80"),
        // b 2 and 5 cost 3: the last example of source 002 less 2, as no form has a descriptor over 32.
        (vec![4, 32, 6, 5], "32 01 04 09 01 E0"),
        // b 0 and 6 cost 2; b 1, 2 and 6 cost 3.
        (vec![0, 32], "60 01 00 01 80"),
        (vec![0, 1, 32], "51 01 00 40 02 80"),
    ];
    for (descriptors, hex) in table {
        assert_eq!(chunks(&descriptors), bytes(hex), "{descriptors:?}");
    }
}

#[test]
fn a_tie_in_a_whole_chunk() {
    // b 0 and 1 cost 32.
    let mut expected = bytes("10 1C 00");
    expected.extend(228..=255);
    expected.extend(bytes("FF FF FF F0"));
    assert_eq!(chunks(&[vec![0; 228], vec![1; 28]].concat()), expected);
}

#[test]
fn the_longest_form() {
    let set: Vec<u32> = (0..POSITIONS).filter(|p| (p >> 8) % 256 != 0 && p % 256 < 32).collect();
    let form = form(&set);
    assert_eq!(form.len(), 267_366);
    assert_eq!(members(&form).unwrap(), set);
}

#[test]
fn a_form_that_is_not_the_one_is_rewritten() {
    let other = bytes("01 01 00 00 02 00 10 01 00 00 80 00");
    assert_eq!(members(&other).unwrap(), [0]);
    assert_eq!(form(&members(&other).unwrap()), form(&[0]));
}

#[test]
fn the_longer_256_is_rewritten_as_the_form() {
    let (longer, one_form, empty) = (bytes(LONGER_256), bytes(FORM_OF_256), form(&[]));
    assert_eq!(members(&longer).unwrap(), [256]);
    assert_eq!(form(&members(&longer).unwrap()), one_form);
    for (first, second) in [(&longer, &longer), (&longer, &one_form), (&one_form, &longer)] {
        assert_eq!(combined(Operation::Union, first, second), one_form);
        assert_eq!(combined(Operation::Intersection, first, second), one_form);
        assert_eq!(combined(Operation::Difference, first, second), empty);
        assert_eq!(combined(Operation::SymmetricDifference, first, second), empty);
    }
    assert_eq!(combined(Operation::Union, &empty, &longer), one_form);
    assert_eq!(combined(Operation::Difference, &longer, &empty), one_form);
    assert_eq!(combined(Operation::SymmetricDifference, &longer, &empty), one_form);
}

#[test]
fn either_but_not_both_with_itself_is_empty() {
    let one = form(&[0]);
    let mut out = [0xEE; 20];
    assert_eq!(combine(Operation::SymmetricDifference, &one, &one, &mut out), Ok(6));
    assert_eq!(out[..6], form(&[])[..]);
    assert_eq!(out[6..], [0xEE; 14]);
}

#[test]
fn the_chunk_examples_of_source_002() {
    let mut mixed = vec![0; 8];
    (mixed[4], mixed[7]) = (0xFF, 0xFE);
    let table: [(&str, Vec<u16>); 5] = [
        ("00 00 00", vec![0; 256]),
        ("00 00 05", vec![5; 51]),
        ("80 02 00 04 07 FF FE", mixed),
        ("02 00 06 18", vec![6, 7, 8]),
        ("32 01 06 09 01 E0", vec![6, 34, 8, 7]),
    ];
    for (hex, expected) in table {
        let chunk = bytes(hex);
        let mut values = vec![0; expected.len()];
        assert!(unpack_chunk(&chunk, &mut values).unwrap().is_empty());
        assert_eq!(values, expected);
        let refused = values.iter().any(|&value| value > 63);
        let sizes = read_sizes(&chunk, &mut vec![0; values.len()]);
        assert_eq!(sizes.err(), refused.then_some(8));
        let mut packed = Vec::new();
        pack_chunk(&values.iter().map(|&value| value as u8).collect::<Vec<_>>(), &mut packed);
        assert_eq!(packed, chunk);
    }
}

#[test]
fn packed_bits_of_source_002() {
    let mut out = Vec::new();
    pack(5, 2, |i| [3, 2, 1, 2, 3][i], &mut out);
    assert_eq!(out, [0xE6, 0xC0]);
}

#[test]
fn every_refusal_of_reading() {
    let table = [
        ("01 00 00 00 00", 1),
        ("02 00 00 00 00 00", 2),
        ("01 00 00 00 01 20", 3),
        ("01 00 00 00 01 00 00 00", 4),
        ("01 00 00 00 01 00 09 00 00", 5),
        ("01 00 00 00 01 00 08 01 00 00 00", 5),
        ("01 00 00 00 01 00 11 02 00 00 00 00", 4),
        ("01 00 00 00 01 00 11 01 00 00 01 00", 6),
        ("01 00 00 00 01 00 01 00 00 40", 7),
        ("01 00 00 00 01 00 00 00 40", 8),
        ("01 01 00 00 01 00 00 00 01", 9),
        ("01 00 00 00 00 00 00", 9),
        ("01 02 00 00 01 00 00 00 02 05 05", 10),
        ("01 02 00 00 01 00 00 00 01 05", 11),
    ];
    for (hex, refusal) in table {
        assert_eq!(check(&bytes(hex)), Err(refusal), "{hex}");
    }
    let mut dense = bytes("01 1F 00 00 01 00 00 00 20 FF FF FF FE");
    dense.resize(9 + 32, 0);
    assert_eq!(check(&dense), Err(10));
}

#[test]
fn pages_stop_and_finish() {
    let set: Vec<u32> = (100..180).chain([300, 5000]).collect();
    let form = form(&set);
    let mut list = [7; 50];
    let first = page(&form, 0, false, &mut list).unwrap();
    assert_eq!(first, Page { place: 150, finished: false, given: 50 });
    let second = page(&form, first.place, false, &mut list).unwrap();
    assert_eq!(second, Page { place: 5001, finished: true, given: 32 });
    assert_eq!(list[..32], set[50..]);
    let none = page(&form, 5000, false, &mut []).unwrap();
    assert_eq!(none, Page { place: 5000, finished: false, given: 0 });
    let after = page(&form, 5001, false, &mut []).unwrap();
    assert_eq!(after, Page { place: 5001, finished: true, given: 0 });
    let done = page(&form, 0, true, &mut list).unwrap();
    assert_eq!(done, Page { place: 0, finished: true, given: 0 });
}

#[test]
fn probe_and_rank_take_any_number() {
    let form = form(&[0, 34, 255, 256]);
    assert_eq!(probe(&form, 34), Ok(true));
    assert_eq!(probe(&form, 1 << 24), Ok(false));
    assert_eq!(rank(&form, 255), Ok(2));
    assert_eq!(rank(&form, u32::MAX), Ok(4));
}

/// What is judged chunk by chunk is the same as writing the members again.
#[test]
fn forms_among_accepted_bitmaps() {
    use crate::generate::bitmap as generate;
    let mut random = crate::generate::Random::new(14);
    let mut counts = [0; 3];
    for _ in 0..4000 {
        let set = generate::set(&mut random);
        let bytes = match random.below(3) {
            0 => form(&set),
            1 => generate::sound(&mut random, &set),
            _ => generate::damaged(&mut random, &set),
        };
        let judged = Bitmap::judge(&bytes);
        let rewritten = judged.as_ref().map(|bitmap| form(&bitmap.members()));
        assert_eq!(is_form(&bytes), rewritten.as_ref() == Ok(&bytes));
        if let Ok(bitmap) = &judged {
            assert_eq!(Ok(bitmap.form(&bytes).into_owned()), rewritten.map_err(|_| ()));
        }
        counts[if judged.is_err() { 0 } else { 1 + usize::from(is_form(&bytes)) }] += 1;
    }
    assert!(counts.iter().all(|&count| count > 800), "{counts:?}");
}
