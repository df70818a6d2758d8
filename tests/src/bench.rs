//! What the benchmark measures.

use crate::generate::Random;

/// The call of an earlier library, of the same type as this library's.
macro_rules! earlier {
    ($call:ident as $type:ty) => {{
        let _: $type = barcovento::raw::$call;
        $crate::bench::earlier::call::<$type>(stringify!($call))
    }};
}

mod combine;
#[cfg(feature = "croaring")]
mod croaring;
mod earlier;
mod numbers;
mod read;
mod store;
mod tables;
mod write;

/// One line of the table; times in seconds for one call.
pub struct Line {
    pub call: String,
    pub input: String,
    pub library: f64,
    pub reference: f64,
    /// The library's time by the second program's.
    pub ratio: f64,
    pub earlier: Option<Earlier>,
    pub roaring: Option<f64>,
}

/// The same call of an earlier library.
pub struct Earlier {
    pub time: f64,
    /// Its time by the second program's.
    pub ratio: f64,
    /// The library's time by its time.
    pub change: f64,
}

pub type Print<'a> = &'a mut dyn FnMut(Line);

/// A group of calls: its name, and what prints its lines.
pub type Group = (&'static str, fn(Print));

pub const GROUPS: [Group; 7] = [
    ("read", read::run),
    ("write", write::run),
    ("combine", combine::run),
    ("store", store::run),
    ("numbers", numbers::run),
    ("rows", tables::run_rows),
    ("buckets", tables::run_buckets),
];

const RUNS: usize = 41;
/// Seconds that a run takes at least.
const RUN: f64 = 0.002;
/// A call of more seconds is slow, and has fewer runs.
const SLOW: f64 = 0.1;
const SLOW_RUNS: usize = 5;

#[repr(C)]
struct TimeSpec {
    seconds: i64,
    nanoseconds: i64,
}

const CLOCK_THREAD_CPUTIME_ID: i32 = 3;

extern "C" {
    fn clock_gettime(clock: i32, time: *mut TimeSpec) -> i32;
}

/// The CPU time of this thread in seconds: other processes on the machine don't count.
fn cpu_seconds() -> f64 {
    let mut time = TimeSpec { seconds: 0, nanoseconds: 0 };
    let code = unsafe { clock_gettime(CLOCK_THREAD_CPUTIME_ID, &mut time) };
    assert_eq!(code, 0, "no CPU clock");
    time.seconds as f64 + time.nanoseconds as f64 * 1e-9
}

/// Seconds for one call, over `calls` calls.
fn once(calls: u32, call: &mut dyn FnMut()) -> f64 {
    let start = cpu_seconds();
    for _ in 0..calls {
        call();
    }
    (cpu_seconds() - start) / f64::from(calls)
}

/// How many calls make a run.
fn calls(call: &mut dyn FnMut()) -> u32 {
    let mut calls = 1;
    while once(calls, call) * f64::from(calls) < RUN {
        calls *= 2;
    }
    calls
}

fn median(mut values: Vec<f64>) -> f64 {
    values.sort_by(f64::total_cmp);
    values[values.len() / 2]
}

/// How many calls make a run, of the second program or of one library.
type Task<C> = (u32, Option<Option<C>>);

/// The times of all tasks, which run by turns; which one begins goes by turns too.
fn take_turns<C: Copy>(
    tasks: &[Task<C>],
    library: &mut dyn FnMut(Option<C>),
    reference: &mut dyn FnMut(),
) -> Vec<Vec<f64>> {
    let mut times = vec![Vec::new(); tasks.len()];
    let mut slow = false;
    for run in 0..RUNS {
        if slow && run == SLOW_RUNS {
            break;
        }
        for turn in 0..tasks.len() {
            let task = (turn + run) % tasks.len();
            let (count, side) = tasks[task];
            let time = match side {
                Some(side) => once(count, &mut || library(side)),
                None => once(count, reference),
            };
            slow |= time > SLOW;
            times[task].push(time);
        }
    }
    times
}

/// Measures all sides. `library` is called with nothing for the library that is linked, and otherwise with
/// the earlier library's call.
fn measure<C: Copy>(
    call: &str,
    input: &str,
    earlier: Option<C>,
    library: &mut dyn FnMut(Option<C>),
    reference: &mut dyn FnMut(),
) -> Line {
    let mut tasks = vec![(calls(reference), None), (calls(&mut || library(None)), Some(None))];
    if earlier.is_some() {
        tasks.push((calls(&mut || library(earlier)), Some(earlier)));
    }
    let times = take_turns(&tasks, library, reference);
    // What the outputs then hold, which the callers look at, is the library's.
    library(None);
    let ratio =
        |a: usize, b: usize| median(times[a].iter().zip(&times[b]).map(|(a, b)| a / b).collect());
    Line {
        call: call.to_string(),
        input: input.to_string(),
        library: median(times[1].clone()),
        reference: median(times[0].clone()),
        ratio: ratio(1, 0),
        earlier: earlier.map(|_| Earlier {
            time: median(times[2].clone()),
            ratio: ratio(2, 0),
            change: ratio(1, 2),
        }),
        roaring: None,
    }
}

/// Each position of the first containers with this chance.
fn random_set(random: &mut Random, containers: usize, chance: f64) -> Vec<u32> {
    let limit = (chance * u64::MAX as f64) as u64;
    (0..containers as u32 * 256).filter(|_| random.word() <= limit).collect()
}

/// The bitmaps of the reading and writing lines.
fn bitmaps() -> [(&'static str, Vec<u32>); 4] {
    let mut random = Random::new(1);
    let thousand = random_set(&mut random, 8192, 1000.0 / 2_097_152.0);
    [
        ("(a) 8,192 dense containers", random_set(&mut random, 8192, 0.5)),
        ("(b) 8,192 containers, 5 %", random_set(&mut random, 8192, 0.05)),
        ("(c) 1,000 members over all", thousand),
        ("(d) two containers", random_set(&mut random, 2, 0.2)),
    ]
}

/// The one written form, by the second program.
fn form(set: &[u32]) -> Vec<u8> {
    let mut out = vec![0; 267_366];
    let length = crate::reference::bitmap::write(set, &mut out).expect("a sound set");
    out.truncate(length);
    out
}
