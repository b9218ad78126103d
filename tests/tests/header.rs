//! include/dispatch.h as C99, C11, C17 and as C++11, C++17, C++20, and what its macros say against the Rust package.

#![cfg(not(feature = "standin"))]

use dispatch::{Drawn, Refusal, Sizes, Word};
use dispatch_tests::literal::encode;
use dispatch_tests::{c, four};
use std::mem::offset_of;

const HEADS: [(u16, u16, u16); 4] = [(12, 4, 5), (1, 1, 1), (1_000, 1_000, 1_280), (258, 516, 259)];

/// Refused, an interval's, a travel time's, a picture's, a route's, and one that has a bit in every part.
const WORDS: [u64; 7] = [18, 3 << 8, 50 << 8, 2 << 8, 10 << 32 | 38 << 8, 1_000 << 32 | 5_018 << 8, 0x0123_0000_0089_ab00];

/// Steps and frames that are drawn of the light: off the floor, standing and rolling, and refused.
const DRAWS: [(u16, u8); 6] = [(0, 9), (1, 1), (1, 16), (2, 3), (4, 0), (0, 17)];

/// The worked hall with a margin, so that its byte shows, and with its centres.
fn site() -> Vec<u8> {
    encode(&four::with_centres(1))
}

/// Prints every text, every size and every part of a word. It is C and C++ alike.
fn source() -> String {
    let site: Vec<String> = site().iter().map(u8::to_string).collect();
    let heads: String = HEADS.map(|(h, c, s)| format!("    sizes({h}, {c}, {s});\n")).concat();
    let words: String = WORDS.map(|word| format!("    parts(UINT64_C({word}));\n")).concat();
    let draws: String = DRAWS.map(|(step, frame)| format!("    picture({step}, {frame}, DISPATCH_LENGTH(word));\n")).concat();
    format!(
        r#"#define __STDC_CONSTANT_MACROS
#include "include/dispatch.h"
#include <stdio.h>
static const uint8_t site[144] = {{{}}};
/* of constants, so that areas can be arrays */
static uint8_t board[DISPATCH_BOARD_BYTES(12, 4)], light[DISPATCH_LIGHT_BYTES(12)];
static uint32_t work[DISPATCH_WORK_WORDS(12, 5)];
static const uint8_t edition[4] = {{0xf1, 2, 3, 4}};
static uint16_t numbers[DISPATCH_INTERVAL_NUMBERS(12)];
static void sizes(unsigned h, unsigned c, unsigned s) {{
    printf("%zu %zu %zu %zu\n", DISPATCH_BOARD_BYTES(h, c), DISPATCH_LIGHT_BYTES(h), DISPATCH_WORK_WORDS(h, s), DISPATCH_INTERVAL_NUMBERS(h));
}}
static void parts(uint64_t word) {{
    printf("%d %u %u %zu %u %d\n", DISPATCH_NUMBER(word), (unsigned)DISPATCH_COUNT(word), (unsigned)DISPATCH_TICKS(word), DISPATCH_LENGTH(word),
           (unsigned)DISPATCH_ARRIVAL(word), DISPATCH_PICTURE(word));
}}
static void picture(uint16_t step, uint8_t frame, size_t length) {{
    dispatch_drawn drawn = dispatch_draw(site, sizeof site, light, length, step, frame);
    printf("%d %d %.4f %.4f %.4f\n", DISPATCH_NUMBER(drawn.word), DISPATCH_PICTURE(drawn.word), (double)drawn.x, (double)drawn.y, (double)drawn.share);
}}
int main(void) {{
    uint64_t word;
    int number;
    for (number = 0; number < DISPATCH_NUMBER_COUNT; number++) printf("%d %s\n", number, dispatch_text(number));
    printf("%s, %s, %s\n", dispatch_text(DISPATCH_STALE_LIGHT), dispatch_text(DISPATCH_NUMBER_COUNT), dispatch_text(-1));
{heads}{words}    printf("%d %d %d %d %d %d\n", DISPATCH_MOST_H, DISPATCH_MOST_C, DISPATCH_MOST_S, DISPATCH_MOST_M, DISPATCH_MOST_SITE_BYTES, DISPATCH_MOST_LIGHT_BYTES);
    printf("%d %d %d\n", DISPATCH_STACK_ROUTE, DISPATCH_STACK_LIGHT, DISPATCH_STACK);
    printf("%zu %zu %zu %zu\n", DISPATCH_SITE_H(site), DISPATCH_SITE_C(site), DISPATCH_SITE_S(site), DISPATCH_SITE_M(site));
    printf("%zu %zu %zu %zu\n", sizeof board, sizeof light, sizeof work, sizeof numbers);
    printf("%lu\n", (unsigned long)DISPATCH_EDITION(edition));
    word = dispatch_open(site, sizeof site, board, sizeof board);
    printf("%d\n", DISPATCH_NUMBER(word));
    word = dispatch_close(site, sizeof site, board, sizeof board, 200, 3, 0, 3);
    printf("%d\n", DISPATCH_NUMBER(word));
    word = dispatch_route(site, sizeof site, board, sizeof board, 7, 0, 0, 4, 2, light, sizeof light, work, sizeof work / sizeof *work);
    printf("%d %zu %u\n", DISPATCH_NUMBER(word), DISPATCH_LENGTH(word), (unsigned)DISPATCH_ARRIVAL(word));
    printf("%d %d %d %d\n", DISPATCH_OFF_FLOOR, DISPATCH_STANDING, DISPATCH_ROLLING, DISPATCH_LAST_FRAME);
    printf("%zu %zu %zu %zu %zu\n", sizeof(dispatch_drawn), offsetof(dispatch_drawn, word), offsetof(dispatch_drawn, x), offsetof(dispatch_drawn, y),
           offsetof(dispatch_drawn, share));
{draws}    word = dispatch_post(site, sizeof site, board, sizeof board, light, DISPATCH_LENGTH(word));
    printf("%d\n", DISPATCH_NUMBER(word));
    word = dispatch_interval(site, sizeof site, board, sizeof board, 3, numbers, sizeof numbers / sizeof *numbers);
    printf("%d %u\n", DISPATCH_NUMBER(word), (unsigned)DISPATCH_COUNT(word));
    return 0;
}}
"#,
        site.join(", ")
    )
}

/// The same by the Rust package, and from the numbers of the documents.
fn wanted() -> String {
    let mut text = "0 accepted\n".to_string();
    text.extend(Refusal::ALL.iter().map(|refusal| format!("{} {}\n", refusal.number(), refusal.text())));
    text += &format!("{}, not a number of the desk, not a number of the desk\n", Refusal::StaleLight.text());
    for (horizon, cells, states) in HEADS {
        let sizes = Sizes { horizon, cells, states, margin: 0 };
        text += &format!("{} {} {} {}\n", sizes.board_bytes(), sizes.light_bytes(), sizes.work_words(), sizes.interval_numbers());
    }
    for word in WORDS.map(Word) {
        // A count has 32 bits in C and is a usize in Rust: as wide as it can be there.
        text += &format!("{} {} {} {} {} {}\n", word.number(), word.count() as u32, (word.0 >> 8) as u32, word.length(), word.0 >> 32, word.kind());
    }
    let Sizes { horizon, cells, states, margin } = Sizes::MOST;
    text += &format!("{horizon} {cells} {states} {margin} 65536 5018\n");
    assert_eq!((horizon, cells, states, margin), (1_000, 1_000, 1_280, 20));
    text += &format!("{} {} {}\n", dispatch::STACK_ROUTE, dispatch::STACK_LIGHT, dispatch::STACK);
    let sizes = Sizes::of(&site()).unwrap();
    text += &format!("{} {} {} {}\n", sizes.horizon, sizes.cells, sizes.states, sizes.margin);
    text += &format!("56 78 260 28\n{}\n0\n0\n0 38 6\n0 1 2 {}\n", 0xf102_0304u32, dispatch::LAST_FRAME);
    text += &format!("{} {} {} {} {}\n", size_of::<Drawn>(), offset_of!(Drawn, word), offset_of!(Drawn, x), offset_of!(Drawn, y), offset_of!(Drawn, share));
    assert_eq!((size_of::<Drawn>(), offset_of!(Drawn, share)), (24, 16));
    // It waits in state 0 for a tick, and goes on with M0, M1 and M2.
    text += "0 1 0.0000 0.0000 0.0000\n0 2 62.5000 0.0000 0.0625\n0 2 1000.0000 0.0000 1.0000\n0 2 1187.5000 93.7500 0.1875\n";
    text += "0 0 0.0000 0.0000 0.0000\n20 0 0.0000 0.0000 0.0000\n";
    text += "0\n0 1\n";
    text
}

#[test]
fn in_c() {
    for standard in ["c99", "c11", "c17"] {
        assert_eq!(c::run_as("cc", standard, &format!("header_{standard}"), &source()), wanted(), "{standard}");
    }
}

#[test]
fn in_cpp() {
    for standard in ["c++11", "c++17", "c++20"] {
        assert_eq!(c::run_as("c++", standard, &format!("header_{}", standard.replace('+', "p")), &source()), wanted(), "{standard}");
    }
}

/// The parts of a word by the Rust package, by their numbers.
#[test]
fn parts_of_a_word() {
    let granted = Word(10 << 32 | 38 << 8);
    assert_eq!((granted.number(), granted.length(), granted.arrival()), (0, 38, 10));
    assert_eq!((Word(2 << 8).count(), Word(50 << 8).ticks()), (2, 50));
    assert_eq!((Word(16).accepted(), granted.accepted()), (Err(Refusal::StaleLight), Ok(granted)));
    assert_eq!(Word(2 << 8).kind(), 2);
    assert_eq!((granted.refusal(), Refusal::of(0), Refusal::of(21)), (None, None, None));
    assert_eq!((Word(20).accepted(), Refusal::of(20)), (Err(Refusal::NoPicture), Some(Refusal::NoPicture)));
}
