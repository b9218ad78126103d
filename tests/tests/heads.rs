//! Faulty heads, which could ask for a board of 4 GiB: what the Rust package allocates for them, and README's program in C.

#![cfg(not(feature = "standin"))]

use dispatch::{calls, Desk, Refusal, Sizes};
use dispatch_tests::docs::{block, text};
use dispatch_tests::{c, four};
use std::alloc::{GlobalAlloc, Layout, System};
use std::cell::Cell;
use std::fs;
use std::process::Command;

thread_local! {
    static LARGEST: Cell<usize> = const { Cell::new(0) };
}

/// The system's allocator, which notes the largest area of each thread.
struct Noting;

fn note(size: usize) {
    LARGEST.set(LARGEST.get().max(size));
}

// Safe: each call is the system's own.
unsafe impl GlobalAlloc for Noting {
    unsafe fn alloc(&self, layout: Layout) -> *mut u8 {
        note(layout.size());
        unsafe { System.alloc(layout) }
    }

    unsafe fn alloc_zeroed(&self, layout: Layout) -> *mut u8 {
        note(layout.size());
        unsafe { System.alloc_zeroed(layout) }
    }

    unsafe fn realloc(&self, area: *mut u8, layout: Layout, size: usize) -> *mut u8 {
        note(size);
        unsafe { System.realloc(area, layout, size) }
    }

    unsafe fn dealloc(&self, area: *mut u8, layout: Layout) {
        unsafe { System.dealloc(area, layout) }
    }
}

#[global_allocator]
static NOTING: Noting = Noting;

/// The bytes of the largest area that is allocated meanwhile.
fn largest(work: impl FnOnce()) -> usize {
    LARGEST.set(0);
    work();
    LARGEST.get()
}

/// The worked hall's file with other numbers in its head.
fn with_head(h: u16, c: u16, s: u16) -> Vec<u8> {
    let mut file = four::bytes();
    file[3..9].copy_from_slice(&[h, c, s].map(u16::to_be_bytes).concat());
    file
}

/// Heads of which one number is too large, by one and by as much as it can be; all three at last.
const FAULTY: [(u16, u16, u16); 7] =
    [(1_001, 4, 5), (65_535, 4, 5), (12, 1_001, 5), (12, 65_535, 5), (12, 4, 1_281), (12, 4, 65_535), (65_535, 65_535, 65_535)];

/// Such a head sizes nothing, and the desk says of it what the call says.
#[test]
fn in_rust() {
    for (h, c, s) in FAULTY {
        let file = with_head(h, c, s);
        assert_eq!(Sizes::of(&file), None, "H {h}, C {c}, S {s}");
        for (file, refusal) in [(&file[..], Refusal::SiteHead), (&file[..115], Refusal::SiteCut), (&[&file[..], &[0; 65_536]].concat(), Refusal::SiteTooLong)] {
            let most = largest(|| {
                assert_eq!(calls::open(file, &mut []).refusal(), Some(refusal));
                assert_eq!(Desk::open(file), Err(refusal));
                assert_eq!(Desk::resume(file, &[]), Err(refusal));
            });
            assert!(most < 1_000, "{most} bytes for H {h}, C {c}, S {s}");
        }
    }
    let sizes = Sizes::of(&with_head(1_000, 1_000, 1_280));
    assert_eq!(sizes, Some(Sizes { margin: 0, ..Sizes::MOST }));
    assert_eq!(sizes.unwrap().board_bytes(), 1_001_004);
    // What is allocated is noted.
    assert_eq!(largest(|| drop(vec![0u8; 123_456])), 123_456);
    assert!(largest(|| drop(Desk::open(&four::bytes()))) >= 116);
}

/// README's program, but on such a file, in a process that has 64 MiB of memory: it says why the file is refused.
#[test]
fn in_c() {
    let source = block(&text("README.md"), "c", "dispatch_post").replace("crates/day/data/site.bin", "target/c/faulty.bin");
    let program = c::build("cc", "gnu11", "faulty_head", &source);
    for (h, c, s) in FAULTY {
        fs::write(c::root().join("target/c/faulty.bin"), with_head(h, c, s)).unwrap();
        let done = Command::new("sh").args(["-c", "ulimit -v 65536 && exec \"$0\""]).arg(&program).current_dir(c::root()).output().unwrap();
        let said = String::from_utf8(done.stderr).unwrap();
        assert_eq!((done.status.code(), said), (Some(1), format!("open is refused: 3, {}\n", Refusal::SiteHead.text())), "H {h}, C {c}, S {s}");
    }
}
