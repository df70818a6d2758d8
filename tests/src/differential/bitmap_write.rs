//! Writing lists of positions.

use super::{edge_number, room_around, same, short, Tally, LONGEST_FORM};
use crate::ffi::{write, Lent};
use crate::generate::bitmap::packing::{packed_by, Width};
use crate::generate::{bitmap as generate, Random};
use crate::reference::bitmap::{self as reference, Bitmap};

pub fn run_case(case: u64, random: &mut Random, tally: &mut Tally) -> Result<(), String> {
    let set = generate::set(random);
    let list = match edge_number(case).and_then(generate::edge_list) {
        Some(list) => list,
        None if random.once_in(5) => generate::damaged_list(random, set),
        None => set,
    };
    let lent = Lent::input("positions", &list, random);
    let mut form = vec![0; LONGEST_FORM];
    let length = reference::write(&list, &mut form).unwrap_or(100);
    form.truncate(length);
    reads_back(&list, &form)?;
    for _ in 0..if list.len() > 5000 { 2 } else { 4 } {
        let room = room_around(random, length);
        let expected = write_in_room(&list, room);
        tally.count(&expected);
        let question = || format!("write with room {room}: {}", short(&list));
        same(question, write::write(&lent, room, random), expected)?;
    }
    compare_whole_chunks(&lent, random)
}

fn write_in_room(list: &[u32], room: usize) -> Result<Vec<u8>, u32> {
    let mut out = vec![0; room];
    let length = reference::write(list, &mut out)?;
    out.truncate(length);
    Ok(out)
}

/// Whole chunks alone are written as the cost of a whole chunk packs them.
fn compare_whole_chunks(lent: &Lent<u32>, random: &mut Random) -> Result<(), String> {
    let list = lent.content();
    let whole = generate::used_containers(list).is_multiple_of(256);
    if !whole || reference::write(list, &mut vec![0; LONGEST_FORM]).is_err() {
        return Ok(());
    }
    let packed = packed_by(list, Width::whole_chunk_cost);
    let question = || format!("write whole chunks: {}", short(&list));
    same(question, write::write(lent, packed.len(), random), Ok(packed))
}

/// The reference holds to its own round trip.
fn reads_back(list: &[u32], form: &[u8]) -> Result<(), String> {
    if let Ok(length) = reference::write(list, &mut vec![0; form.len()]) {
        let members = Bitmap::judge(form).map(|bitmap| bitmap.members());
        same(|| format!("read back {length} bytes"), Ok(members), Ok(list.to_vec()))?;
    }
    Ok(())
}
