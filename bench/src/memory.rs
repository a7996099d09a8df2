//! Bytes that are lent to this library, and the most that the reference (and the Rust crate) holds during the same call.
//! Prints `memory PART SUBJECT SIZE KIND OURS THEIRS`. The texts, circuits and assignments that are read count on neither side.
mod circuits;
mod colliding;
mod plain;
mod reading;
mod running;
mod scheduling;
mod texts;
mod timing;
mod reference {
    include!(concat!(env!("REFERENCE"), "/src/circuit.rs"));
}

use circuits::{Shape, circuit};
use reading::KINDS;
use std::alloc::{GlobalAlloc, Layout, System};
use std::sync::atomic::{AtomicUsize, Ordering::Relaxed};

static LIVE: AtomicUsize = AtomicUsize::new(0);
static MOST: AtomicUsize = AtomicUsize::new(0);

/// The system's allocator, counting what is held.
struct Counting;

fn more(bytes: usize) {
    let live = LIVE.fetch_add(bytes, Relaxed) + bytes;
    MOST.fetch_max(live, Relaxed);
}

// SAFETY: every call goes to the system's allocator unchanged.
unsafe impl GlobalAlloc for Counting {
    unsafe fn alloc(&self, layout: Layout) -> *mut u8 {
        more(layout.size());
        unsafe { System.alloc(layout) }
    }
    unsafe fn dealloc(&self, memory: *mut u8, layout: Layout) {
        LIVE.fetch_sub(layout.size(), Relaxed);
        unsafe { System.dealloc(memory, layout) }
    }
    unsafe fn alloc_zeroed(&self, layout: Layout) -> *mut u8 {
        more(layout.size());
        unsafe { System.alloc_zeroed(layout) }
    }
    unsafe fn realloc(&self, memory: *mut u8, layout: Layout, size: usize) -> *mut u8 {
        more(size);
        LIVE.fetch_sub(layout.size(), Relaxed);
        unsafe { System.realloc(memory, layout, size) }
    }
}

#[global_allocator]
static ALLOCATOR: Counting = Counting;

/// The most bytes held at a time during a call, beyond those held before it.
fn held<T>(call: impl FnOnce() -> T) -> usize {
    let before = LIVE.load(Relaxed);
    MOST.store(before, Relaxed);
    drop(call());
    MOST.load(Relaxed) - before
}

fn print(part: &str, subject: &str, size: usize, kind: &str, ours: usize, theirs: usize) {
    println!("memory {part} {subject} {size} {kind} {ours} {theirs}");
}

fn main() {
    for (format, naming, kind) in KINDS {
        for size in [10_240, reading::LARGEST] {
            let text = texts::text(format, naming, size);
            let theirs = held(|| reading::reference(format, &text));
            print("read", format.word(), size, kind, reading::Areas::fitting(format, text.as_bytes()).lent(format), theirs);
            print("crate-read", format.word(), size, kind, held(|| reading::crate_read(format, &text)), theirs);
            if (format.word(), kind, size) == ("blif", "n12345", reading::LARGEST) {
                print("read", format.word(), size, "n12345-roomy", reading::Areas::roomy(text.len()).lent(format), theirs);
            }
        }
    }
    for size in [1_000, 100_000] {
        let made = circuit(Shape::Layered, size);
        let theirs = held(|| made.circuit.scheduled_gates_by_key(64, scheduling::key));
        print("schedule", "layered", size, "window-64", scheduling::Areas::new(&made).lent(), theirs);
        let map = running::named(&made, &running::assignment(&made));
        print("evaluate", "layered", size, "known", running::Areas::new(&made).lent(), held(|| made.circuit.evaluate(&map)));
    }
    let made = circuits::swept(16, 100);
    let theirs = held(|| made.circuit.exhaustive_inputs());
    print("sweep", "inputs-16", 100, "all", running::Areas::new(&made).lent() + 16, theirs);
}
