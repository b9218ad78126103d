//! What include/dispatch.h says of areas, of the stack and of state.

#![cfg(not(feature = "standin"))]

use dispatch_tests::literal::{encode, Centre, Motion, Site, State, Sweep};
use dispatch_tests::literal::{MAX_CELLS, MAX_H, MAX_MARGIN, MAX_MOTIONS, MAX_SITE, MAX_STATES, MAX_SWEEPS, SWEEP_LEN};
use dispatch_tests::{c, four};
use std::fs;
use std::process::Command;
use std::sync::Once;

/// Each area in turn as a null pointer of length 0: the answer is that of an empty area. Between them, an output area that is one byte too
/// short, and one that just suffices (its arrival, 5); at last a draw that is refused with 20, and one that is not (its kind, 2).
#[test]
fn null_areas() {
    let site: Vec<String> = four::drawn_bytes().iter().map(u8::to_string).collect();
    let source = format!(
        r#"
#include <stdio.h>
#include "include/dispatch.h"
static const uint8_t site[] = {{{}}};
enum {{ SITE = sizeof site }};
static uint8_t board[56], light[78];
static uint16_t numbers[14];
static uint32_t work[65];
static void say(uint64_t word) {{ printf("%d ", (int)word); }}
int main(void) {{
    say(dispatch_open(0, 0, board, 56));
    say(dispatch_open(site, SITE, 0, 0));
    say(dispatch_interval(0, 0, board, 56, 0, numbers, 14));
    say(dispatch_interval(site, SITE, 0, 0, 0, numbers, 14));
    say(dispatch_interval(site, SITE, board, 56, 0, 0, 0));
    say(dispatch_route(0, 0, board, 56, 7, 0, 0, 4, 2, light, 78, work, 65));
    say(dispatch_route(site, SITE, 0, 0, 7, 0, 0, 4, 2, light, 78, work, 65));
    say(dispatch_route(site, SITE, board, 56, 7, 0, 0, 4, 2, 0, 0, work, 65));
    say(dispatch_route(site, SITE, board, 56, 7, 0, 0, 4, 2, light, 78, 0, 0));
    say(dispatch_route(site, SITE, board, 56, 7, 0, 0, 4, 2, light, 77, work, 65));
    say(dispatch_route(site, SITE, board, 56, 7, 0, 0, 4, 2, light, 78, work, 65) >> 32);
    say(dispatch_audit(0, 0, board, 56, light, 78));
    say(dispatch_audit(site, SITE, 0, 0, light, 78));
    say(dispatch_audit(site, SITE, board, 56, 0, 0));
    say(dispatch_post(0, 0, board, 56, light, 78));
    say(dispatch_post(site, SITE, 0, 0, light, 78));
    say(dispatch_post(site, SITE, board, 56, 0, 0));
    say(dispatch_close(0, 0, board, 56, 200, 0, 0, 0));
    say(dispatch_close(site, SITE, 0, 0, 200, 0, 0, 0));
    say(dispatch_withdraw(0, 0, board, 56, 200));
    say(dispatch_withdraw(site, SITE, 0, 0, 200));
    say(dispatch_draw(0, 0, light, 33, 0, 0).word);
    say(dispatch_draw(site, SITE, 0, 0, 0, 0).word);
    say(dispatch_draw(site, SITE, light, 33, 0, 17).word);
    say(dispatch_draw(site, SITE, light, 33, 0, 16).word >> 8);
}}
"#,
        site.join(", ")
    );
    assert_eq!(c::run("null_areas", &source), "3 7 3 7 14 3 7 14 14 14 5 3 7 8 3 7 8 3 7 3 7 3 8 20 2 ");
}

/// As many states, cells and motions as a site may have, and the largest margin. Motion k leads from state k to the next one, in a ring. The cells have a
/// state each, but for the last one, which has all the others. The motions behind the ring stay there, where they take few bytes; those that the file still
/// has room for have 16 sweeps, and all of them the longest span.
fn largest() -> Site {
    let cell = |s: usize| s.min(MAX_CELLS - 1) as u16;
    let motion = |from: usize, to: usize, d: u8| {
        let mut sweeps = vec![Sweep { cell: cell(from), a: 0, b: d }];
        if cell(to) != cell(from) {
            sweeps.push(Sweep { cell: cell(to), a: d, b: d });
        }
        Motion { from: from as u16, to: to as u16, d, sweeps }
    };
    let shared = MAX_CELLS - 1..MAX_STATES;
    let mut motions: Vec<Motion> = (0..MAX_STATES).map(|s| motion(s, (s + 1) % MAX_STATES, 1)).collect();
    motions.extend((shared.start..shared.end - 1).cycle().take(MAX_MOTIONS - MAX_STATES).map(|s| motion(s + 1, s, 255)));
    let states = (0..MAX_STATES).map(|s| State { cell: cell(s), speed: 0 }).collect();
    let mut site = Site { h: MAX_H, c: MAX_CELLS, margin: MAX_MARGIN, states, motions, centres: vec![] };
    let mut room = MAX_SITE - encode(&site).len();
    for motion in &mut site.motions[MAX_STATES..] {
        let more = (MAX_SWEEPS - 1).min(room / SWEEP_LEN);
        motion.sweeps.extend((0..more).map(|k| Sweep { cell: k as u16, a: 0, b: 255 }));
        room -= more * SWEEP_LEN;
    }
    site
}

/// The same with a centre for each cell, and as many motions as then have room.
fn largest_with_centres() -> Site {
    let mut site = Site { centres: (0..MAX_CELLS as u16).map(|cell| Centre { x: 65_535 - cell, y: cell }).collect(), ..largest() };
    while encode(&site).len() > MAX_SITE {
        site.motions.pop();
    }
    site
}

/// The calls that are measured, and what the header says of each.
const CALLS: &str = r#"
#define _GNU_SOURCE
#include <pthread.h>
#include <stdio.h>
#include <stdlib.h>
#include <string.h>
#include <sys/mman.h>
#include "include/dispatch.h"
enum { HEAD = 18, FULL = DISPATCH_MOST_LIGHT_BYTES, LONG = HEAD + 5 * 100000, LAST = 21 };
static uint8_t site[DISPATCH_MOST_SITE_BYTES + 1], centred[DISPATCH_MOST_SITE_BYTES + 1], light[LONG], out[FULL];
/* no steps, and a dwell of 1,000 */
static const uint8_t dock[HEAD] = {16, 0, 15, 0, 0, 0, 3, 7, 0, 0, 0, 0, 0, 0, 0, 0, 3, 232};
static uint16_t numbers[DISPATCH_INTERVAL_NUMBERS(DISPATCH_MOST_H)];
static size_t site_len, centred_len, board_len = DISPATCH_BOARD_BYTES(DISPATCH_MOST_H, DISPATCH_MOST_C), work_len = DISPATCH_WORK_WORDS(DISPATCH_MOST_H, DISPATCH_MOST_S);
static uint8_t *board;
static uint32_t *work;
static int call;
static uint64_t word;
static void *run(void *unused) {
    switch (call) {
    case 1: word = dispatch_open(site, site_len, board, board_len); break;
    case 2: word = dispatch_interval(site, site_len, board, board_len, 999, numbers, sizeof numbers / sizeof *numbers); break;
    case 3: word = dispatch_route(site, site_len, board, board_len, 7, 0, 0, 80, 900, out, sizeof out, work, work_len); break;
    case 4: word = dispatch_audit(site, site_len, board, board_len, light, LONG); break;
    case 5: word = dispatch_audit(site, site_len, board, board_len, light, FULL); break;
    case 6: word = dispatch_post(site, site_len, board, board_len, light, FULL); break;
    case 7: word = dispatch_withdraw(site, site_len, board, board_len, 7); break;
    case 8: word = dispatch_close(site, site_len, board, board_len, 200, 999, 0, 1000); break;
    case 9: word = dispatch_audit(site, site_len, board, board_len, dock, HEAD); break;
    case 10: word = dispatch_post(site, site_len, board, board_len, dock, HEAD); break;
    case 11: word = dispatch_travel(511); break;
    case 12: word = dispatch_route(site, site_len, board, board_len, 7, 0, 0, 80, 900, out, sizeof out, work, work_len); break;
    case 13: word = dispatch_route(0, 0, 0, 0, 0, 0, 0, 0, 0, 0, 0, 0, 0); break;
    case 14: word = dispatch_post(0, 0, 0, 0, 0, 0); break;
    /* a light of 980 motions, and a dwell up to the horizon */
    case 15: word = dispatch_route(site, site_len, board, board_len, 8, 1, 0, 981, 20, out, sizeof out, work, work_len); break;
    /* a motion and a step past the last, on a site with centres; without; a light that is too long; refused at once; and opened with centres */
    case 16: word = dispatch_draw(centred, centred_len, light, FULL, 999, 16).word; break;
    case 17: word = dispatch_draw(centred, centred_len, light, FULL, 65535, 16).word; break;
    case 18: word = dispatch_draw(site, site_len, light, FULL, 999, 16).word; break;
    case 19: word = dispatch_draw(centred, centred_len, light, LONG, 999, 16).word; break;
    case 20: word = dispatch_draw(0, 0, 0, 0, 0, 0).word; break;
    case LAST: word = dispatch_open(centred, centred_len, board, board_len); break;
    }
    return unused;
}
static size_t said(void) {
    switch (call) {
    case 3: case 12: case 13: case 15: return DISPATCH_STACK_ROUTE;
    case 4: case 5: case 6: case 9: case 10: case 14: case 16: case 17: case 18: case 19: case 20: return DISPATCH_STACK_LIGHT;
    default: return DISPATCH_STACK;
    }
}
static void in_thread(uint8_t *stack, size_t size) {
    pthread_attr_t attributes;
    pthread_t thread;
    if (pthread_attr_init(&attributes) || pthread_attr_setstack(&attributes, stack, size)) exit(2);
    if (pthread_create(&thread, &attributes, run, 0) || pthread_join(thread, 0)) exit(3);
}
static void prepare(void) {
    static const uint8_t head[HEAD] = {16, 0, 15, 0, 0, 0, 0, 7, 0, 0, 0, 0, 3, 232, 3, 232, 0, 0};
    FILE *file = fopen("target/c/largest.bin", "rb");
    if (!file) exit(4);
    site_len = fread(site, 1, sizeof site, file);
    fclose(file);
    if (!(file = fopen("target/c/largest_with_centres.bin", "rb"))) exit(4);
    centred_len = fread(centred, 1, sizeof centred, file);
    fclose(file);
    board = calloc(board_len, 1);
    work = calloc(work_len, sizeof *work);
    if (!board || !work) exit(5);
    memcpy(light, head, HEAD);
    for (size_t k = 0; k < 100000; k++) {
        uint8_t step[5] = {18, 0, 2, (uint8_t)(k >> 8), (uint8_t)k};
        memcpy(light + HEAD + 5 * k, step, 5);
    }
}
"#;

/// Each call in a thread whose stack is filled with a mark first: how many bytes of it are no longer the mark, less those that a thread takes
/// which makes no call.
const MEASURED: &str = r#"
enum { SIZE = 4 << 20 };
static size_t used(void) {
    uint8_t *stack = mmap(0, SIZE, PROT_READ | PROT_WRITE, MAP_PRIVATE | MAP_ANONYMOUS, -1, 0);
    size_t left = 0;
    if (stack == MAP_FAILED) exit(6);
    memset(stack, 0xa5, SIZE);
    in_thread(stack, SIZE);
    while (left < SIZE && stack[left] == 0xa5) left++;
    munmap(stack, SIZE);
    return SIZE - left;
}
int main(void) {
    prepare();
    call = 0;
    size_t thread = used();
    for (call = 1; call <= LAST; call++) {
        size_t bytes = used() - thread;
        printf("%d %zu %zu\n", DISPATCH_NUMBER(word), bytes, said());
    }
}
"#;

/// Each call in a thread that has just the stack that the header says, 16 KiB for itself, and what is left of a page. Below it nothing can be
/// read or written, for 1 MiB: a call that takes more ends the program.
const JUST: &str = r#"
enum { PAGE = 4096, OWN = 16 << 10, BELOW = 1 << 20 };
int main(void) {
    prepare();
    for (call = 1; call <= LAST; call++) {
        size_t size = (said() + OWN + PAGE - 1) / PAGE * PAGE;
        uint8_t *low = mmap(0, BELOW + size, PROT_NONE, MAP_PRIVATE | MAP_ANONYMOUS, -1, 0);
        if (low == MAP_FAILED || mprotect(low + BELOW, size, PROT_READ | PROT_WRITE)) exit(6);
        in_thread(low + BELOW, size);
        munmap(low, BELOW + size);
        printf("%d ", DISPATCH_NUMBER(word));
    }
}
"#;

/// The numbers of the measured calls, as they come.
const ANSWERS: [u8; 21] = [0, 0, 0, 8, 0, 0, 0, 0, 0, 0, 0, 12, 3, 3, 0, 0, 0, 20, 8, 3, 0];

/// Builds the calls with a main function, and runs them on the largest sites, whose files are written once for all.
fn on_largest(name: &str, main: &str) -> String {
    static WRITTEN: Once = Once::new();
    WRITTEN.call_once(|| {
        let folder = c::root().join("target/c");
        fs::create_dir_all(&folder).unwrap();
        fs::write(folder.join("largest.bin"), encode(&largest())).unwrap();
        fs::write(folder.join("largest_with_centres.bin"), encode(&largest_with_centres())).unwrap();
    });
    c::run(name, &format!("{CALLS}{main}"))
}

/// On the largest site, with a light of 1,000 motions around the ring, one that is too long and one with the longest dwell, and refused at
/// once, each call keeps to what the header says; and the two large figures are not more than a tenth above what is measured.
#[test]
fn stack() {
    let printed = on_largest("stack", MEASURED);
    let measured: Vec<Vec<usize>> = printed.lines().map(|line| line.split(' ').map(|number| number.parse().unwrap()).collect()).collect();
    let answers: Vec<u8> = measured.iter().map(|line| line[0] as u8).collect();
    assert_eq!(answers, ANSWERS);
    for (k, line) in measured.iter().enumerate() {
        assert!(line[1] <= line[2], "call {}: {} bytes of stack, and the header says {}", k + 1, line[1], line[2]);
    }
    for said in [dispatch::STACK_ROUTE, dispatch::STACK_LIGHT] {
        let most = measured.iter().filter(|line| line[2] == said).map(|line| line[1]).max();
        assert!(most.is_some_and(|most| said * 10 <= most * 11), "at most {most:?} bytes of stack, and the header says {said}");
    }
}

#[test]
fn threads_with_just_the_stack() {
    let wanted: String = ANSWERS.iter().map(|number| format!("{number} ")).collect();
    assert_eq!(on_largest("just_the_stack", JUST), wanted);
}

/// The archive has no memory of its own that can be written, defines nothing for others but the calls, and needs one function of the C library.
#[test]
fn no_state() {
    let done = Command::new("nm").arg(c::archive()).output().unwrap();
    assert!(done.status.success());
    let listed = String::from_utf8(done.stdout).unwrap();
    let symbols: Vec<Vec<&str>> =
        listed.lines().map(|line| line.split_whitespace().rev().take(2).collect()).filter(|words: &Vec<_>| words.len() == 2).collect();
    let of = |kind: &str| -> Vec<&str> { symbols.iter().filter(|words| words[1] == kind).map(|words| words[0]).collect() };
    assert_eq!(of("U"), ["memset"]);
    let mut calls = of("T");
    calls.sort_unstable();
    let names = ["audit", "close", "draw", "interval", "open", "post", "route", "travel", "withdraw"];
    assert_eq!(calls, names.map(|name| format!("dispatch_{name}")));
    assert!(symbols.iter().all(|words| ["U", "T", "t", "r"].contains(&words[1])), "{listed}");
}
