//! Looks of one reader beside an idle writer and beside one that publishes, in plain Rust, with nothing proved and without
//! code of this repository: the figures of `bench/time-sessions` are compared with these.
//!
//!     mkdir -p bench/out
//!     rustc -O bench/hand_written_left_right.rs -o bench/out/hand_written_left_right
//!     bench/out/hand_written_left_right
//!
//! There are three kinds of looks. A look loads a word that the writer stores, which is the minimum for any look at something
//! published; or it reads a number through left-right, with an epoch and two copies; or it takes a counted pointer through
//! left-right, as a look of a session does. The writer publishes as fast as it can, or pauses for N nanoseconds each time.
//!
//! Prints a line for each kind of look and each pause: the looks per second beside each of the two writers, the publications per
//! second, and the ratio of the looks: medians of five turns, and the ratio of each turn.

use std::cell::UnsafeCell;
use std::hint::{black_box, spin_loop};
use std::sync::atomic::{AtomicBool, AtomicPtr, AtomicUsize, Ordering::*, fence};
use std::sync::{Arc, Barrier};
use std::time::{Duration, Instant};

const LOOKS: u64 = 5_000_000;
const TURNS: usize = 5;
const PAUSES: [u64; 6] = [0, 1_000, 5_000, 20_000, 40_000, 100_000];

/// A value on two cache lines of its own.
#[repr(align(128))]
struct Padded<T>(T);

/// Two copies of a value for one reader and one writer: the reader sees one copy, and the writer writes to the other one.
struct LeftRight<T> {
    /// Odd while the reader reads.
    epoch: Padded<AtomicUsize>,
    shown: Padded<AtomicPtr<T>>,
    copies: [Padded<UnsafeCell<T>>; 2],
}

unsafe impl<T: Send + Sync> Sync for LeftRight<T> {}

impl<T> LeftRight<T> {
    fn new(first: T, second: T) -> Arc<Self> {
        let both = Arc::new(LeftRight {
            epoch: Padded(AtomicUsize::new(0)),
            shown: Padded(AtomicPtr::new(std::ptr::null_mut())),
            copies: [Padded(UnsafeCell::new(first)), Padded(UnsafeCell::new(second))],
        });
        both.shown.0.store(both.copies[0].0.get(), Release);
        both
    }

    #[inline(always)]
    fn look<R>(&self, read: impl Fn(&T) -> R) -> R {
        self.epoch.0.fetch_add(1, AcqRel);
        fence(SeqCst);
        let shown = self.shown.0.load(Acquire);
        let read = read(unsafe { &*shown });
        self.epoch.0.fetch_add(1, AcqRel);
        read
    }

    /// Wait for a reader that still reads the copy that is not shown; put the value there, and show it. `side` is the copy that is
    /// shown, and `seen` is the epoch just after it was shown.
    #[inline(always)]
    fn publish(&self, side: &mut usize, seen: &mut usize, value: T) {
        let mut looks = 0u32;
        while *seen % 2 == 1 && self.epoch.0.load(Acquire) == *seen {
            looks += 1;
            if looks > 20 {
                std::thread::yield_now();
            }
        }
        *side ^= 1;
        unsafe { *self.copies[*side].0.get() = value };
        self.shown.0.swap(self.copies[*side].0.get(), Release);
        fence(SeqCst);
        *seen = self.epoch.0.load(Acquire);
    }
}

/// Return the looks and the publications per second, with one thread each. If the pause is `None`, the writer is idle.
fn rates<W: FnMut(u64) + Send + 'static>(pause: Option<u64>, mut look: impl FnMut(), mut publish: W) -> (f64, f64) {
    let (has_ended, both_ready) = (Arc::new(AtomicBool::new(false)), Arc::new(Barrier::new(2)));
    let (ended, ready) = (has_ended.clone(), both_ready.clone());
    let writer = std::thread::spawn(move || {
        ready.wait();
        let start = Instant::now();
        let mut times = 0u64;
        while let (Some(pause), false) = (pause, ended.load(Relaxed)) {
            times += 1;
            publish(times);
            if pause > 0 {
                let until = Instant::now() + Duration::from_nanos(pause);
                while Instant::now() < until {
                    spin_loop();
                }
            }
        }
        times as f64 / start.elapsed().as_secs_f64()
    });
    both_ready.wait();
    let start = Instant::now();
    for _ in 0..LOOKS {
        look();
    }
    let looked = LOOKS as f64 / start.elapsed().as_secs_f64();
    has_ended.store(true, SeqCst);
    (looked, writer.join().unwrap())
}

fn of_a_word(pause: Option<u64>) -> (f64, f64) {
    let word = Arc::new(Padded(AtomicUsize::new(0)));
    let shared = word.clone();
    rates(
        pause,
        || _ = black_box(word.0.load(Acquire)),
        move |times| shared.0.store(times as usize, Release),
    )
}

fn of_a_number(pause: Option<u64>) -> (f64, f64) {
    let both = LeftRight::new(0u64, 0u64);
    let (shared, mut side, mut seen) = (both.clone(), 0, 0);
    rates(
        pause,
        || _ = black_box(both.look(|number| *number)),
        move |times| shared.publish(&mut side, &mut seen, times),
    )
}

fn of_a_pointer(pause: Option<u64>) -> (f64, f64) {
    let first = Arc::new(Padded(0u64));
    let both = LeftRight::new(first.clone(), first.clone());
    let (shared, mut side, mut seen) = (both.clone(), 0, 0);
    let mut held = first;
    rates(
        pause,
        || held = black_box(both.look(|pointer| pointer.clone())),
        move |times| shared.publish(&mut side, &mut seen, Arc::new(Padded(times))),
    )
}

fn median(mut all: Vec<f64>) -> f64 {
    all.sort_by(f64::total_cmp);
    all[all.len() / 2]
}

fn main() {
    let kinds: [(&str, fn(Option<u64>) -> (f64, f64)); 3] =
        [("a word", of_a_word), ("a number", of_a_number), ("a counted pointer", of_a_pointer)];
    for (kind, run) in kinds {
        for pause in PAUSES {
            let turns: Vec<_> = (0..TURNS).map(|_| (run(None).0, run(Some(pause)))).collect();
            let ratios: Vec<f64> = turns.iter().map(|(idle, (looked, _))| looked / idle).collect();
            let each: Vec<String> = ratios.iter().map(|ratio| format!("{ratio:.2}")).collect();
            println!(
                "{kind}, a pause of {pause} ns: {:.1} million looks a second beside an idle writer, \
                 {:.1} beside one that publishes {:.0} times a second: {:.2} ({})",
                median(turns.iter().map(|(idle, _)| *idle).collect()) / 1e6,
                median(turns.iter().map(|(_, (looked, _))| *looked).collect()) / 1e6,
                median(turns.iter().map(|(_, (_, published))| *published).collect()),
                median(ratios.clone()),
                each.join(" "),
            );
        }
    }
}
