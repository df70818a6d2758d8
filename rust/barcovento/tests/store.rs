//! Stores, against what their slots should hold.

mod common;

use barcovento::{bitmap, Bitmap, Store};
use common::{longest, sample, sets, writers, Random};
use std::collections::BTreeMap;

fn form(set: &[u32]) -> Vec<u8> {
    Bitmap::from_positions(set).unwrap().into_bytes()
}

/// The store holds exactly these forms.
fn hold(store: &Store, forms: &BTreeMap<u32, Vec<u8>>) {
    assert!(store.slots().eq(forms.keys().copied()));
    for slot in 0..Store::SLOTS {
        let owner = Store::owner_of(slot);
        let held = store.fetch(owner, slot);
        match forms.get(&slot) {
            Some(form) => {
                assert_eq!(store.length_of(slot), form.len());
                assert_eq!(held.unwrap().as_bytes(), form);
            }
            None => {
                assert_eq!(store.length_of(slot), 0);
                assert_eq!(held.unwrap_err().number(), 41);
            }
        }
        assert_eq!(store.fetch(1 - owner, slot).unwrap_err().number(), 44);
    }
}

/// The saved bytes of these forms, laid by hand.
fn saved(forms: &BTreeMap<u32, Vec<u8>>) -> Vec<u8> {
    let mut out = Vec::new();
    for slot in 0..Store::SLOTS {
        let form = forms.get(&slot).map_or(&[][..], Vec::as_slice);
        let mut length = form.len();
        while length >= 0x80 {
            out.push(length as u8 | 0x80);
            length >>= 7;
        }
        out.push(length as u8);
        out.extend(form);
    }
    out
}

#[test]
fn a_store_holds_what_was_put() {
    let mut random = Random::new(6);
    let sets: Vec<_> = sets().into_iter().filter(|set| set.len() < 60_000).collect();
    let writers = writers();
    let (mut store, mut forms) = (Store::new(3_000_000), BTreeMap::new());
    hold(&store, &forms);
    for turn in 0..300 {
        let slot = random.below(Store::SLOTS);
        let owner = Store::owner_of(slot);
        if turn % 4 == 3 {
            let held = forms.remove(&slot).is_some();
            let answer = store.remove(owner, slot).map_err(|refusal| refusal.number());
            assert_eq!(answer, if held { Ok(()) } else { Err(41) });
        } else {
            let set = &sets[random.below(sets.len() as u32) as usize];
            let bytes = writers[turn % 4].lay(set);
            store.put(owner, slot, &bytes).unwrap();
            forms.insert(slot, form(set));
        }
        if turn % 20 == 0 {
            hold(&store, &forms);
            assert_eq!(store.save(), saved(&forms));
        }
    }
    hold(&store.clone(), &forms);
    let again = Store::load(&store.save(), store.room()).unwrap();
    hold(&again, &forms);
    let words = format!("Store({} bitmaps, 3000000 bytes)", forms.len());
    assert_eq!(format!("{again:?}"), words);
}

#[test]
fn owners_and_slots() {
    let mut store = Store::new(1_000);
    let zone = sample("zone.bitmap");
    let mut out = [7; 64];
    for (owner, slot, number) in
        [(0, 64, 40), (9, u32::MAX, 40), (1, 31, 44), (0, 32, 44), (2, 0, 44), (u32::MAX, 63, 44)]
    {
        assert_eq!(store.put(owner, slot, &zone).unwrap_err().number(), number);
        assert_eq!(store.fetch(owner, slot).unwrap_err().number(), number);
        assert_eq!(store.fetch_into(owner, slot, &mut out).unwrap_err().number(), number);
        assert_eq!(store.remove(owner, slot).unwrap_err().number(), number);
    }
    assert_eq!((Store::owner_of(31), Store::owner_of(32)), (0, 1));
    assert_eq!((store.length_of(64), store.length_of(u32::MAX)), (0, 0));
    store.put(1, 32, &zone).unwrap();
    assert_eq!(store.fetch_into(1, 32, &mut out[..11]).unwrap_err().number(), 13);
    assert_eq!(out, [7; 64]);
    assert_eq!(store.fetch_into(1, 32, &mut out), Ok(12));
    assert_eq!((&out[..12], &out[12..]), (&zone[..], &[7; 52][..]));
    assert_eq!(store.slots().collect::<Vec<_>>(), [32]);
}

/// Each owner has half of the buffer, rounded down, and gaps never count.
#[test]
fn halves() {
    let (zero, zone) = (form(&[0]), sample("zone.bitmap"));
    let mut store = Store::new(45);
    assert_eq!(store.room(), 45);
    store.put(0, 0, &zero).unwrap();
    store.put(0, 31, &zone).unwrap();
    let refusal = store.put(0, 1, &form(&[])).unwrap_err();
    assert_eq!((refusal.number(), refusal.fault()), (13, None));
    store.put(1, 32, &zone).unwrap();
    store.remove(0, 0).unwrap();
    store.put(0, 1, &zero).unwrap();
    assert_eq!(store.put(0, 1, &zone).unwrap_err().number(), 13);
    let forms = [(1, zero), (31, zone.clone()), (32, zone)].into();
    hold(&store, &forms);
    assert_eq!(store.save(), saved(&forms));
    assert_eq!(Store::new(0).put(0, 0, &form(&[])).unwrap_err().number(), 13);
    assert_eq!(Store::new(0).save(), [0; 64]);
}

#[test]
fn saving_and_loading() {
    let bytes = sample("store.saved");
    let forms: BTreeMap<u32, Vec<u8>> = [(0, "zone"), (7, "dense"), (63, "last")]
        .map(|(n, name)| (n, sample(&format!("{name}.bitmap"))))
        .into();
    let mut store = Store::load(&bytes, 210).unwrap();
    hold(&store, &forms);
    assert_eq!(store.save(), bytes);
    let mut out = [7; 224];
    assert_eq!(store.save_into(&mut out[..221]).unwrap_err().number(), 13);
    assert_eq!(out, [7; 224]);
    assert_eq!(store.save_into(&mut out), Ok(222));
    assert_eq!((&out[..222], &out[222..]), (&bytes[..], &[7, 7][..]));
    assert_eq!(Store::load(&bytes, 209).unwrap_err().number(), 42);
    for bad in [&bytes[..221], &[&bytes[..], &[0]].concat(), &[0; 63], &[0; 65], &[1; 64]] {
        assert_eq!(Store::load(bad, 1_000).unwrap_err().number(), 42);
        assert_eq!(store.reload(bad).unwrap_err().number(), 42);
        hold(&store, &forms);
    }
    store.reload(&[0; 64]).unwrap();
    hold(&store, &BTreeMap::new());
    store.reload(&bytes).unwrap();
    hold(&store, &forms);
}

/// 64 of the longest forms.
#[test]
fn the_largest_store() {
    assert_eq!(Store::LARGEST, 64 * bitmap::LONGEST_FORM);
    let form = form(&longest());
    let mut store = Store::new(Store::LARGEST);
    let mut forms = BTreeMap::new();
    for slot in 0..Store::SLOTS {
        store.put(Store::owner_of(slot), slot, &form).unwrap();
        forms.insert(slot, form.clone());
    }
    hold(&store, &forms);
    let bytes = store.save();
    assert_eq!(bytes, saved(&forms));
    assert_eq!(Store::load(&bytes, 64 * form.len()).unwrap().save(), bytes);
    assert_eq!(Store::load(&bytes, 64 * form.len() - 1).unwrap_err().number(), 42);
}
