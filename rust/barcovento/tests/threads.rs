//! Every call of the C interface: on little stack with the largest inputs, and by many threads at once.

mod common;

use barcovento::raw;
use barcovento::{Bitmap, Block, Bucket, Schema, Store};
use common::table::Table;
use common::{longest, with_exceptions, writers, Random};
use std::collections::BTreeSet;
use std::hash::{DefaultHasher, Hash, Hasher};
use std::sync::Barrier;
use std::thread::{scope, Builder};

/// The C header.
const HEADER: &str = include_str!("../../../include/barcovento.h");

/// The stack that is enough for every call, and for the thread that calls it.
const STACK: usize = 65_536;

/// What the calls are asked about.
struct Inputs {
    sets: Vec<Vec<u32>>,
    /// Sound bitmaps, also of other writers.
    bitmaps: Vec<Vec<u8>>,
    /// Bitmaps whose cardinality is wrong, which is found last.
    refused: Vec<Vec<u8>>,
    /// 64 forms, and how many bytes they have.
    saved: Vec<u8>,
    room: usize,
    schema: Vec<u8>,
    block: Vec<u8>,
    bucket: Vec<u8>,
    rows: u32,
    columns: u32,
}

impl Inputs {
    fn new(sets: Vec<Vec<u32>>, columns: usize, rows: u32) -> Inputs {
        let form = |set: &Vec<u32>| Bitmap::from_positions(set).unwrap().into_bytes();
        let mut bitmaps: Vec<_> = sets.iter().map(form).collect();
        let foreign = sets.iter().flat_map(|set| writers().map(|writer| writer.lay(set)));
        let largest = bitmaps.iter().max_by_key(|form| form.len()).unwrap().clone();
        bitmaps.extend(foreign);
        let mut refused = bitmaps.clone();
        refused.iter_mut().for_each(|bytes| bytes[1] ^= 1);
        let mut store = Store::new(64 * largest.len());
        for slot in 0..Store::SLOTS {
            store.put(Store::owner_of(slot), slot, &largest).unwrap();
        }
        let table = Table::new(columns, rows);
        Inputs {
            sets,
            bitmaps,
            refused,
            saved: store.save(),
            room: store.room(),
            schema: table.schema(),
            block: table.block(),
            bucket: table.bucket(),
            rows,
            columns: columns as u32,
        }
    }

    /// 8,192 containers, 65,536 rows and 64 columns.
    fn largest() -> Inputs {
        let every_second = (0..2_097_152).step_by(2).collect();
        let mixed = Random::new(7).set(8_192, 125);
        let inputs =
            Inputs::new(vec![every_second, mixed, longest(), with_exceptions()], 64, 65_536);
        assert!((15 << 20..=16 << 20).contains(&inputs.block.len()), "{}", inputs.block.len());
        inputs
    }

    fn small() -> Inputs {
        let mut random = Random::new(8);
        let sets = [(2, 200), (300, 100), (700, 150)].map(|(n, share)| random.set(n, share));
        Inputs::new(sets.to_vec(), 40, 200)
    }
}

/// What the calls fill, and a sum of all that they answered.
struct Outputs {
    answers: DefaultHasher,
    bytes: Vec<u8>,
    positions: Vec<u32>,
    fields: Vec<u64>,
    buffer: Vec<u8>,
    directory: Vec<u32>,
}

impl Outputs {
    fn new(inputs: &Inputs) -> Outputs {
        let fields = 3 * inputs.rows as usize * inputs.columns as usize;
        Outputs {
            answers: DefaultHasher::new(),
            bytes: vec![0; inputs.saved.len().max(barcovento::bitmap::LONGEST_FORM)],
            positions: vec![0; 2_097_152],
            fields: vec![0; fields],
            buffer: vec![0; inputs.room],
            directory: vec![0; raw::STORE_DIRECTORY],
        }
    }

    /// An answer of a call that was not refused.
    fn accept(&mut self, status: u32, answer: impl Hash) {
        assert_eq!(status, 0);
        answer.hash(&mut self.answers);
    }

    fn accept_bytes(&mut self, status: u32, length: usize) {
        assert_eq!(status, 0);
        self.bytes[..length].hash(&mut self.answers);
    }

    /// The store holds the saved forms again.
    fn fill(&mut self, inputs: &Inputs) {
        let Outputs { buffer, directory, .. } = self;
        let (to, numbers) = (directory.as_mut_ptr(), directory.len());
        let (from, length) = (inputs.saved.as_ptr(), inputs.saved.len());
        let buffer = (buffer.as_mut_ptr(), buffer.len());
        let status = unsafe { raw::bv_store_load(buffer.0, buffer.1, to, numbers, from, length) };
        assert_eq!(status, 0);
    }
}

/// A call by its name, and what asks it everything.
type Call = (&'static str, fn(&Inputs, &mut Outputs));

/// Names a call of the interface within what asks it.
macro_rules! ask {
    ($name:ident, |$call:ident, $inputs:ident, $to:ident| $body:block) => {
        (stringify!($name), |$inputs: &Inputs, $to: &mut Outputs| {
            let $call = raw::$name;
            $body
        })
    };
}

const READING: [Call; 5] = [
    ask!(bv_bitmap_check, |call, inputs, to| {
        for bytes in &inputs.bitmaps {
            let mut cardinality = 0;
            let status = unsafe { call(bytes.as_ptr(), bytes.len(), &mut cardinality) };
            to.accept(status, cardinality);
        }
    }),
    ask!(bv_bitmap_explain, |call, inputs, to| {
        for bytes in inputs.bitmaps.iter().chain(&inputs.refused) {
            let (from, length) = (bytes.as_ptr(), bytes.len());
            let (mut number, [mut a, mut b, mut c, mut d]) = (0, [0; 4]);
            let status = unsafe { call(from, length, &mut number, &mut a, &mut b, &mut c, &mut d) };
            to.accept(status, (number, a, b, c, d));
        }
    }),
    ask!(bv_bitmap_probe, |call, inputs, to| {
        for bytes in &inputs.bitmaps {
            for position in [0, 99_999, 2_097_151, u32::MAX] {
                let mut member = 0;
                let status = unsafe { call(bytes.as_ptr(), bytes.len(), position, &mut member) };
                to.accept(status, member);
            }
        }
    }),
    ask!(bv_bitmap_rank, |call, inputs, to| {
        for bytes in &inputs.bitmaps {
            for position in [0, 99_999, 2_097_151, u32::MAX] {
                let mut below = 0;
                let status = unsafe { call(bytes.as_ptr(), bytes.len(), position, &mut below) };
                to.accept(status, below);
            }
        }
    }),
    ask!(bv_bitmap_page, |call, inputs, to| {
        for bytes in &inputs.bitmaps {
            let (from, length) = (bytes.as_ptr(), bytes.len());
            let (mut place, mut finished, mut given) = (0, 0, 0);
            let (list, room) = (to.positions.as_mut_ptr(), to.positions.len());
            let status =
                unsafe { call(from, length, &mut place, &mut finished, list, room, &mut given) };
            to.accept(status, (place, finished, given));
            to.positions[..given as usize].hash(&mut to.answers);
        }
    }),
];

/// Every bitmap with the next but one.
fn combine(call: raw::Combine, inputs: &Inputs, to: &mut Outputs) {
    let bitmaps = &inputs.bitmaps;
    for (i, a) in bitmaps.iter().enumerate() {
        let b = &bitmaps[(i + 2) % bitmaps.len()];
        let (out, room, mut length) = (to.bytes.as_mut_ptr(), to.bytes.len(), 0);
        let status =
            unsafe { call(a.as_ptr(), a.len(), b.as_ptr(), b.len(), out, room, &mut length) };
        to.accept_bytes(status, length);
    }
}

const WRITING: [Call; 5] = [
    ask!(bv_bitmap_write, |call, inputs, to| {
        for set in &inputs.sets {
            let (out, room, mut length) = (to.bytes.as_mut_ptr(), to.bytes.len(), 0);
            let status = unsafe { call(set.as_ptr(), set.len(), out, room, &mut length) };
            to.accept_bytes(status, length);
        }
    }),
    ask!(bv_bitmap_union, |call, inputs, to| { combine(call, inputs, to) }),
    ask!(bv_bitmap_intersection, |call, inputs, to| { combine(call, inputs, to) }),
    ask!(bv_bitmap_difference, |call, inputs, to| { combine(call, inputs, to) }),
    ask!(bv_bitmap_symmetric_difference, |call, inputs, to| { combine(call, inputs, to) }),
];

const STORING: [Call; 5] = [
    ask!(bv_store_put, |call, inputs, to| {
        to.fill(inputs);
        for (n, mask) in inputs.bitmaps.iter().enumerate() {
            let (owner, slot) = (n as u32 % 2, n as u32 * 32 % 64 + n as u32 % 32);
            let (buffer, len) = (to.buffer.as_mut_ptr(), to.buffer.len());
            let (directory, numbers) = (to.directory.as_mut_ptr(), to.directory.len());
            let (from, length) = (mask.as_ptr(), mask.len());
            let status =
                unsafe { call(buffer, len, directory, numbers, owner, slot, from, length) };
            to.accept(status, slot);
        }
        to.directory.iter().skip(1).step_by(2).for_each(|length| length.hash(&mut to.answers));
    }),
    ask!(bv_store_fetch, |call, inputs, to| {
        to.fill(inputs);
        for slot in 0..64 {
            let (buffer, len) = (to.buffer.as_ptr(), to.buffer.len());
            let (directory, numbers) = (to.directory.as_ptr(), to.directory.len());
            let (out, room, mut length) = (to.bytes.as_mut_ptr(), to.bytes.len(), 0);
            let status = unsafe {
                let length = &mut length;
                call(buffer, len, directory, numbers, slot / 32, slot, out, room, length)
            };
            to.accept_bytes(status, length);
        }
    }),
    ask!(bv_store_drop, |call, inputs, to| {
        to.fill(inputs);
        for slot in 0..64 {
            let (buffer, len) = (to.buffer.as_ptr(), to.buffer.len());
            let (directory, numbers) = (to.directory.as_mut_ptr(), to.directory.len());
            let status = unsafe { call(buffer, len, directory, numbers, slot / 32, slot) };
            to.accept(status, to.directory[2 * slot as usize + 1]);
        }
    }),
    ask!(bv_store_save, |call, inputs, to| {
        to.fill(inputs);
        let (buffer, len) = (to.buffer.as_ptr(), to.buffer.len());
        let (directory, numbers) = (to.directory.as_ptr(), to.directory.len());
        let (out, room, mut length) = (to.bytes.as_mut_ptr(), to.bytes.len(), 0);
        let status = unsafe { call(buffer, len, directory, numbers, out, room, &mut length) };
        assert!(to.bytes[..length] == inputs.saved);
        to.accept_bytes(status, length);
    }),
    ask!(bv_store_load, |call, inputs, to| {
        let (buffer, len) = (to.buffer.as_mut_ptr(), to.buffer.len());
        let (directory, numbers) = (to.directory.as_mut_ptr(), to.directory.len());
        let (from, length) = (inputs.saved.as_ptr(), inputs.saved.len());
        let status = unsafe { call(buffer, len, directory, numbers, from, length) };
        to.accept(status, length);
    }),
];

const SCHEMAS: [Call; 3] = [
    ask!(bv_number_read, |call, inputs, to| {
        let (mut found, mut value, mut used, mut shortest) = (0, 0, 0, 0);
        for start in 0..inputs.schema.len() {
            let (from, len) = (inputs.schema[start..].as_ptr(), inputs.schema.len() - start);
            let status =
                unsafe { call(from, len, &mut found, &mut value, &mut used, &mut shortest) };
            to.accept(status, (found, value, used, shortest));
        }
    }),
    ask!(bv_schema_check, |call, inputs, to| {
        let mut columns = 0;
        let status = unsafe { call(inputs.schema.as_ptr(), inputs.schema.len(), &mut columns) };
        assert_eq!(columns, inputs.columns);
        to.accept(status, columns);
    }),
    ask!(bv_schema_column, |call, inputs, to| {
        let (mut kind, mut nullable, mut size, mut scale) = (0, 0, 0, 0);
        for column in 0..inputs.columns {
            let (from, len) = (inputs.schema.as_ptr(), inputs.schema.len());
            let status =
                unsafe { call(from, len, column, &mut kind, &mut nullable, &mut size, &mut scale) };
            to.accept(status, (kind, nullable, size, scale));
        }
    }),
];

const BLOCKS: [Call; 3] = [
    ask!(bv_block_check, |call, inputs, to| {
        let Inputs { schema, block, .. } = inputs;
        let (layout, from, mut rows) = (schema.as_ptr(), block.as_ptr(), 0);
        let status = unsafe { call(layout, schema.len(), from, block.len(), &mut rows) };
        assert_eq!(rows, inputs.rows);
        to.accept(status, rows);
    }),
    ask!(bv_block_field, |call, inputs, to| {
        let Inputs { schema, block, .. } = inputs;
        let (layout, from) = (schema.as_ptr(), block.as_ptr());
        let (mut kind, mut whole, mut bits, mut nanos) = (0, 0, 0, 0);
        let (mut start, mut length) = (0, 0);
        for column in 0..inputs.columns {
            let status = unsafe {
                let row = inputs.rows - 1;
                let (start, length) = (&mut start, &mut length);
                let (kind, whole, bits) = (&mut kind, &mut whole, &mut bits);
                let (a, b) = (schema.len(), block.len());
                let nanos = &mut nanos;
                call(layout, a, from, b, row, column, kind, whole, bits, nanos, start, length)
            };
            to.accept(status, (kind, whole, bits, nanos, start, length));
        }
    }),
    ask!(bv_block_page, |call, inputs, to| {
        let Inputs { schema, block, .. } = inputs;
        let (layout, from) = (schema.as_ptr(), block.as_ptr());
        let (list, room) = (to.fields.as_mut_ptr(), to.fields.len());
        let (mut place, mut given, mut rows) = (0, 0, 0);
        let status = unsafe {
            let (given, rows) = (&mut given, &mut rows);
            call(layout, schema.len(), from, block.len(), &mut place, list, room, given, rows)
        };
        assert_eq!((place, given, rows), (inputs.rows, inputs.rows, inputs.rows));
        to.accept(status, rows);
        to.fields.hash(&mut to.answers);
    }),
];

const BUCKETS: [Call; 3] = [
    ask!(bv_bucket_check, |call, inputs, to| {
        let Inputs { schema, bucket, rows, .. } = inputs;
        let (layout, from) = (schema.as_ptr(), bucket.as_ptr());
        let status = unsafe { call(layout, schema.len(), *rows, from, bucket.len()) };
        to.accept(status, rows);
    }),
    ask!(bv_bucket_field, |call, inputs, to| {
        let Inputs { schema, bucket, .. } = inputs;
        let (layout, from, n) = (schema.as_ptr(), bucket.as_ptr(), inputs.rows);
        let (mut kind, mut whole, mut bits, mut nanos) = (0, 0, 0, 0);
        let (mut start, mut length) = (0, 0);
        for column in 0..inputs.columns {
            let status = unsafe {
                let row = inputs.rows - 1;
                let (start, length) = (&mut start, &mut length);
                let (kind, whole, bits) = (&mut kind, &mut whole, &mut bits);
                let (a, b) = (schema.len(), bucket.len());
                let nanos = &mut nanos;
                call(layout, a, n, from, b, row, column, kind, whole, bits, nanos, start, length)
            };
            to.accept(status, (kind, whole, bits, nanos, start, length));
        }
    }),
    ask!(bv_bucket_page, |call, inputs, to| {
        let Inputs { schema, bucket, .. } = inputs;
        let (layout, from, n) = (schema.as_ptr(), bucket.as_ptr(), inputs.rows);
        let (list, room) = (to.fields.as_mut_ptr(), 3 * inputs.rows as usize);
        for column in 0..inputs.columns {
            let (mut place, mut given) = (0, 0);
            let status = unsafe {
                let (place, given) = (&mut place, &mut given);
                let (a, b) = (schema.len(), bucket.len());
                call(layout, a, n, from, b, column, place, list, room, given)
            };
            assert_eq!((place, given), (inputs.rows, inputs.rows));
            to.accept(status, column);
            to.fields[..room].hash(&mut to.answers);
        }
    }),
];

fn calls() -> Vec<Call> {
    [&READING[..], &WRITING, &STORING, &SCHEMAS, &BLOCKS, &BUCKETS].concat()
}

/// The names in a text that begin like a call's.
fn names(text: &str) -> BTreeSet<&str> {
    let words = text.split(|letter: char| !letter.is_ascii_alphanumeric() && letter != '_');
    words.filter(|word| word.starts_with("bv_")).collect()
}

/// The header without its comments.
fn declarations() -> String {
    let header = HEADER;
    let mut parts = header.split("/*");
    let first = parts.next().unwrap().to_string();
    parts.fold(first, |text, part| text + part.split_once("*/").unwrap().1)
}

#[test]
fn no_call_is_left_out() {
    let declarations = declarations();
    let declared = names(&declarations);
    assert_eq!(declared.len(), 24);
    let called: BTreeSet<&str> = calls().iter().map(|(name, _)| *name).collect();
    assert_eq!(called, declared);
    let extern_block = include_str!("../src/raw.rs").split("extern \"C\" {").nth(1).unwrap();
    assert_eq!(names(extern_block), declared);
}

#[test]
fn little_stack_is_enough() {
    let inputs = Inputs::largest();
    let mut outputs = Outputs::new(&inputs);
    for (name, ask) in calls() {
        scope(|scope| {
            let asking = || ask(&inputs, &mut outputs);
            let thread = Builder::new().name(name.to_string()).stack_size(STACK);
            thread.spawn_scoped(scope, asking).unwrap().join().unwrap();
        });
    }
}

/// How much of the stack below the caller is painted.
const PAINTED: usize = 262_144;

/// Paints the stack below the caller, and says where the paint begins.
#[inline(never)]
fn paint() -> usize {
    let here = 0u8;
    let top = std::ptr::addr_of!(here) as usize - 256;
    for place in top - PAINTED..top {
        // SAFETY: the thread's stack goes on for longer below this frame, and nothing lies there.
        unsafe { std::ptr::write_volatile(place as *mut u8, 0xA5) };
    }
    top
}

/// How much of the painted stack was written over.
#[inline(never)]
fn touched(top: usize) -> usize {
    // SAFETY: the painted bytes are still the thread's own.
    let painted = |&place: &usize| unsafe { std::ptr::read_volatile(place as *const u8) } == 0xA5;
    PAINTED - (top - PAINTED..top).take_while(painted).count()
}

/// The stack that a call touches, in KiB, rounded up; what asks it takes part in it.
fn stack_of(ask: fn(&Inputs, &mut Outputs), inputs: &Inputs, outputs: &mut Outputs) -> usize {
    scope(|scope| {
        let asking = || {
            let top = paint();
            ask(inputs, outputs);
            touched(top)
        };
        let thread = Builder::new().stack_size(4 * PAINTED).spawn_scoped(scope, asking);
        thread.unwrap().join().unwrap().div_ceil(1_024)
    })
}

/// The header's table of stack: KiB for each call.
fn told_stack() -> Vec<(&'static str, usize)> {
    let table = HEADER.split("Stack, in KiB").nth(1).unwrap().split("Refusals:").next().unwrap();
    let mut told = Vec::new();
    for line in table.lines() {
        let mut words = line.split_whitespace().skip(1);
        if let Some(Ok(kib)) = words.next().map(str::parse) {
            told.extend(words.map(|call| (call, kib)));
        }
    }
    told
}

/// No call touches more stack than the header tells, and none much less.
#[test]
fn the_header_tells_the_stack() {
    let inputs = Inputs::largest();
    let mut outputs = Outputs::new(&inputs);
    let told = told_stack();
    assert_eq!(told.len(), 24);
    for (name, ask) in calls() {
        let kib = stack_of(ask, &inputs, &mut outputs);
        let told = told.iter().find(|(call, _)| *call == name).expect(name).1;
        println!("{name}: {kib} KiB, told {told}");
        assert!(kib <= told && told <= kib + 2 && told <= 64, "{name}: {kib} KiB, told {told}");
    }
}

/// The wrapper's own work, which needs no more stack.
fn wrapped(inputs: &Inputs) {
    let bitmaps: Vec<_> = inputs.bitmaps.iter().map(|bytes| Bitmap::from_bytes(bytes)).collect();
    let [first, second] = [0, 1].map(|n| bitmaps[n].as_ref().unwrap());
    let both = &(first | second) - &(first ^ second);
    assert_eq!(both, first & second);
    assert_eq!(both.iter().count(), both.len() as usize);
    for bytes in &inputs.refused {
        assert_eq!(Bitmap::from_bytes(bytes).unwrap_err().number(), 11);
    }
    let mut store = Store::load(&inputs.saved, inputs.room).unwrap();
    store.put(1, 63, first.as_bytes()).unwrap();
    assert_eq!(store.fetch(1, 63).as_ref(), Ok(first));
    assert!(store.save().len() <= inputs.saved.len());
    let schema = Schema::new(&inputs.schema).unwrap();
    let block = Block::new(&schema, &inputs.block).unwrap();
    let bucket = Bucket::new(&schema, inputs.rows, &inputs.bucket).unwrap();
    assert_eq!(block.rows_from(60_000).count(), bucket.rows_from(60_000).count());
}

#[test]
fn little_stack_is_enough_for_the_wrapper() {
    let inputs = Inputs::largest();
    scope(|scope| {
        let thread = Builder::new().stack_size(STACK).spawn_scoped(scope, || wrapped(&inputs));
        thread.unwrap().join().unwrap();
    });
}

/// What each call answers, asked from this one on.
fn answers(inputs: &Inputs, first: usize) -> Vec<u64> {
    let calls = calls();
    let mut answers = vec![0; calls.len()];
    for turn in 0..calls.len() {
        let (at, mut outputs) = ((first + turn) % calls.len(), Outputs::new(inputs));
        calls[at].1(inputs, &mut outputs);
        answers[at] = outputs.answers.finish();
    }
    answers
}

#[test]
fn threads_get_the_answers_of_one() {
    const THREADS: usize = 12;
    let inputs = Inputs::small();
    let alone = answers(&inputs, 0);
    let (start, inputs) = (Barrier::new(THREADS), &inputs);
    scope(|scope| {
        let ask = |first| {
            start.wait();
            answers(inputs, first)
        };
        let asking = |thread| scope.spawn(move || ask(2 * thread));
        let threads: Vec<_> = (0..THREADS).map(asking).collect();
        threads.into_iter().for_each(|thread| assert_eq!(thread.join().unwrap(), alone));
    });
}
