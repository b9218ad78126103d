//! The day program on the simple desk, only with the feature `standin`: it is there to try the day tests.

use dispatch_tests::literal::{number, Site};
use dispatch_tests::standin::{self as desk, fault};
use std::fs::File;
use std::io::Read;
use std::os::fd::AsFd;

fn main() {
    let site = std::fs::read("site.bin").unwrap_or_default();
    let mut area = vec![0u8; if fault("day-wide-area") { 655_360 } else { 65_536 }];
    let len = Site::read(&site).map_or(0, |site| site.board_len());
    let board = if len <= area.len() { &mut area[..len] } else { &mut area[..] };
    let opened = desk::open(&site, board);
    // Not by the library's own standard input, which takes one that is not open for reading for an empty one.
    let mut script = File::from(std::io::stdin().as_fd().try_clone_to_owned().unwrap());
    if opened.number != 0 {
        let empty = fault("quiet-refused") && script.read(&mut [0]).is_ok_and(|n| n == 0);
        println!("{} 0 0", if empty { 0 } else { opened.number });
        return;
    }
    let mut light = Vec::new();
    let mut empty = true;
    loop {
        let mut head = [0u8; 3];
        let (mut got, mut unreadable) = (0, false);
        while got < 3 {
            match script.read(&mut head[got..]) {
                Ok(0) => break,
                Ok(n) => got += n,
                Err(_) => {
                    unreadable = !fault("quiet-unreadable");
                    break;
                }
            }
        }
        if (got == 0 && !unreadable) || (got == 1 && empty && fault("quiet-cut")) {
            if (empty && !fault("quiet-silent")) || fault("quiet-always") {
                println!("0 0 0");
            }
            return;
        }
        empty = false;
        let mut value = vec![0u8; number(&head[1..])];
        if got < 3 || script.read_exact(&mut value).is_err() {
            println!("99 0 0");
            return;
        }
        let n = |i: usize| number(&value[i..i + 2]) as u16;
        let mut arrival = 0;
        let answer = match (head[0], value.len()) {
            (32, 7) => {
                let cell = match n(1) {
                    cell if fault("day-low-close") => cell & 255,
                    cell if fault("day-swapped-close") => cell.swap_bytes(),
                    cell => cell,
                };
                desk::close(&site, board, value[0], cell, n(3), n(5))
            }
            (32, 6) if fault("day-old-close") => desk::close(&site, board, value[0], value[1] as u16, n(2), n(4)),
            (33, 1) => desk::withdraw(&site, board, value[0]),
            (34, len) if len == 9 || (len == 7 && fault("day-dwell-old-field")) => {
                let (mut out, mut work) = (vec![0u8; 65_536], vec![0u32; 16_384]);
                let (start, tick, goal, dwell) = match len {
                    7 => (n(1), n(3), n(5), 0),
                    _ if fault("day-dwell-goal") => (n(1), n(3), n(5), n(5)),
                    _ if fault("day-dwell-first") => (n(3), n(5), n(7), n(1)),
                    _ if fault("day-dwell-swapped") => (n(1), n(3), n(5), n(7).swap_bytes()),
                    _ if fault("day-dwell-low-byte") => (n(1), n(3), n(5), value[8] as u16),
                    _ => (n(1), n(3), n(5), n(7)),
                };
                let answer = desk::route(&site, board, value[0], start, tick, goal, dwell, &mut out, &mut work);
                if answer.number == 0 {
                    light = out[..answer.value as usize].to_vec();
                    arrival = answer.arrival;
                }
                answer
            }
            (35, 0) => desk::post(&site, board, &light),
            _ => {
                println!("99 0 0");
                return;
            }
        };
        println!("{} {} {}", answer.number, number(&board[..4]), arrival);
    }
}
