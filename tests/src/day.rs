//! What the day program must print, for the bytes of site.bin (none if it cannot be read) and a script.

use crate::plain;

/// The areas hold 65,536 bytes each.
const AREA: usize = 65_536;

fn be16(bytes: &[u8]) -> u16 {
    u16::from_be_bytes([bytes[0], bytes[1]])
}

pub fn transcript(site: Option<&[u8]>, script: &[u8]) -> String {
    let site = site.unwrap_or(&[]);
    // The board is the part of its area that the site needs; a board that does not fit has a wrong length.
    let needed = plain::Site::read(site).map_or(0, |site| site.board_len());
    let mut board = vec![0; needed.min(AREA)];
    let opened = plain::open(site, &mut board);
    if opened.number != 0 {
        return format!("{} 0 0\n", opened.number);
    }
    // A shift without movements.
    if script.is_empty() {
        return "0 0 0\n".to_string();
    }
    let mut text = String::new();
    let mut light = Vec::new();
    let mut rest = script;
    while !rest.is_empty() {
        let length = if rest.len() < 3 { usize::MAX } else { be16(&rest[1..]) as usize };
        if length == usize::MAX || rest.len() - 3 < length {
            return text + "99 0 0\n";
        }
        let (tag, value) = (rest[0], &rest[3..3 + length]);
        rest = &rest[3 + length..];
        let mut arrival = 0;
        let number = match (tag, length) {
            (32, 7) => plain::close(site, &mut board, value[0], be16(&value[1..]), be16(&value[3..]), be16(&value[5..])).number,
            (33, 1) => plain::withdraw(site, &mut board, value[0]).number,
            (34, 9) => {
                let mut out = vec![0; AREA];
                let mut work = vec![0; AREA / 4];
                let answer =
                    plain::route(site, &board, value[0], be16(&value[1..]), be16(&value[3..]), be16(&value[5..]), be16(&value[7..]), &mut out, &mut work);
                if answer.number == 0 {
                    out.truncate(answer.value as usize);
                    light = out;
                    arrival = answer.arrival;
                }
                answer.number
            }
            (35, 0) => plain::post(site, &mut board, &light).number,
            _ => return text + "99 0 0\n",
        };
        let edition = u32::from_be_bytes([board[0], board[1], board[2], board[3]]);
        text += &format!("{number} {edition} {arrival}\n");
    }
    text
}
