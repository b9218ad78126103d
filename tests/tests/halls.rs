//! Halls above 255 cells: first what cells, states, motions and older lengths come to, by bytes and boards worked out here; then seeded halls whose cells
//! agree in their low bytes, the desk against the plain program and in part the simple one and the literal reading: number, values and every lent byte. It
//! counts what a lost high byte would change, and fails if something of it is rare.

use dispatch_tests::desk::{self, Answer};
use dispatch_tests::gen::{self, Call, Caller, Rng, Size};
use dispatch_tests::lent::Values;
use dispatch_tests::literal::{encode, fields, number, put, Light, Motion, Site, State, Step, Sweep};
use dispatch_tests::literal::{CENTRE_LEN, MAX_CELLS, MAX_MOTIONS, MAX_STATES, MOTION_LEN, STATE_LEN, SWEEP_LEN};
use dispatch_tests::{four, literal_desk, plain, pull, run};
use std::collections::{BTreeMap, BTreeSet};
use std::io::Write;

/// How often each thing that is counted must occur.
const OFTEN: usize = 20;

/// The number of an open with a board of so many bytes.
fn opened(hex: &str, board: usize) -> u8 {
    let file = four::hex(hex);
    let number = desk::open(&file, &mut vec![9; board]).number;
    assert_eq!(Site::read(&file).err().unwrap_or(0), if number == 7 { 0 } else { number }, "{hex}");
    number
}

/// H 12 and so many cells, with one state.
fn one_state(cells: &str, state: &str) -> u8 {
    let c = usize::from_str_radix(cells, 16).unwrap();
    opened(&format!("01 0007 000C {cells} 0001 00, 02 0003 {state} 00"), 4 + 13 * c)
}

#[test]
fn cells_of_a_hall() {
    for (cells, number) in [("0001", 0), ("00FF", 0), ("0100", 0), ("0280", 0), ("03E8", 0), ("03E9", 3), ("0000", 3), ("0401", 3), ("FF01", 3)] {
        assert_eq!(one_state(cells, "0000"), number, "C {cells}");
    }
    // 999, 1,000 and others whose low bytes are cells.
    for (state, number) in [("0000", 0), ("0100", 0), ("03E7", 0), ("03E8", 5), ("0401", 5), ("E703", 5), ("FFFF", 5)] {
        assert_eq!(one_state("03E8", state), number, "a state in cell {state} of 1,000");
    }
    for (state, number) in [("00FF", 0), ("0100", 5)] {
        assert_eq!(one_state("0100", state), number, "a state in cell {state} of 256");
    }
    // A board for the low byte of C, and one for its bytes in the other order.
    for board in [4 + 13 * 0x80, 4 + 13 * 0x8002, 4 + 13 * 639, 4 + 13 * 641] {
        assert_eq!(opened("01 0007 000C 0280 0001 00, 02 0003 0000 00", board), 7, "a board of {board} bytes");
    }
}

/// A motion within cell 3, with one more sweep, of a cell.
fn one_more_sweep(cell: &str) -> u8 {
    let head = "01 0007 000C 03E8 0002 00, 02 0003 0003 00, 02 0003 0003 00";
    opened(&format!("{head}, 03 000D 0000 0001 01, 0003 00 01, {cell} 00 00"), 4 + 13 * 1_000)
}

#[test]
fn cells_of_sweeps() {
    for (cell, number) in [("0003", 0), ("0100", 0), ("03E7", 0), ("03E8", 6), ("0403", 6), ("E703", 6), ("FFFF", 6)] {
        assert_eq!(one_more_sweep(cell), number, "a sweep of cell {cell} of 1,000");
    }
    // State 1 in another cell than the one that is swept, though its low byte is the same.
    for (state, sweep, number) in [("0103", "0103", 0), ("0103", "0003", 6), ("0003", "0103", 6), ("0103", "0203", 6)] {
        let file = format!("01 0007 000C 03E8 0002 00, 02 0003 0001 00, 02 0003 {state} 00, 03 000D 0000 0001 01, 0001 00 01, {sweep} 01 01");
        assert_eq!(opened(&file, 4 + 13 * 1_000), number, "a motion to cell {state} with a sweep of cell {sweep}");
    }
    // Cells 3 and 259 don't hand over to each other.
    let apart = "01 0007 000C 03E8 0002 00, 02 0003 0003 00, 02 0003 0103 00, 03 000D 0000 0001 01, 0003 00 00, 0103 01 01";
    assert_eq!(opened(apart, 4 + 13 * 1_000), 6);
}

#[test]
fn numbers_of_states_and_motions() {
    let site = |states: usize, motions: usize| {
        let head = format!("01 0007 0001 0001 {states:04X} 00");
        let motion = "03 0009 0000 0001 01 0000 00 01";
        opened(&(head + &"02 0003 0000 00".repeat(states) + &motion.repeat(motions)), 4 + 2)
    };
    for (states, motions, number) in
        [(257, 1, 0), (1_280, 0, 0), (1_280, 4_000, 0), (1_281, 0, 3), (2, 2_001, 0), (2, 4_000, 0), (2, 4_001, 4), (1_280, 4_001, 4)]
    {
        assert_eq!(site(states, motions), number, "{states} states, {motions} motions");
    }
    // 1,280 states are in range, though none of them follows.
    assert_eq!((opened("01 0007 000C 0004 0500 00", 56), opened("01 0007 000C 0004 0501 00", 56)), (4, 3));
    // All at once.
    let largest = encode(&full_hall());
    assert_eq!((largest.len(), desk::open(&largest, &mut vec![9; 1_001_004])), (10 + 1_280 * 6 + 4_000 * 12, Answer::plain(0)));
}

/// 1,000 cells, 1,280 states, 4,000 motions of one sweep each and H 1,000.
fn full_hall() -> Site {
    let states = (0..1_280).map(|s| State { cell: s % 640, speed: 0 }).collect();
    let motion = |k: u16| Motion { from: k % 640, to: k % 640 + 640, d: 1, sweeps: vec![Sweep { cell: k % 640, a: 0, b: 1 }] };
    Site { h: 1_000, c: 1_000, margin: 20, states, motions: (0..4_000).map(motion).collect(), centres: vec![] }
}

/// The lengths from before a cell had two bytes.
#[test]
fn older_lengths() {
    let states = "02 0003 0000 00, 02 0003 0001 00";
    assert_eq!(opened(&format!("01 0006 000C 02 0002 00, {states}"), 30), 3);
    assert_eq!(opened(&format!("01 0005 000C 02 0002, {states}"), 30), 3);
    // A head of 6 and of 5 bytes with a C of two bytes, and one of 8.
    assert_eq!(opened(&format!("01 0006 000C 0002 0002, {states}"), 30), 3);
    assert_eq!(opened(&format!("01 0005 000C 0002 00, {states}"), 30), 3);
    assert_eq!(opened(&format!("01 0008 000C 0002 0002 00 00, {states}"), 30), 3);
    let head = "01 0007 000C 0002 0002 00";
    assert_eq!(opened(&format!("{head}, 02 0003 0000 00, 02 0002 01 00"), 30), 4);
    assert_eq!(opened(&format!("{head}, 02 0002 00 00, 02 0002 01 00"), 30), 4);
    assert_eq!(opened(&format!("{head}, 02 0003 0000 00, 02 0004 0001 00 00"), 30), 4);
    // Sweeps of 3 bytes. Four of them have the length of three sweeps of 4, and are no rule's.
    let old = ["00 00 01", "01 01 01", "00 00 00", "01 01 01"];
    for (n, number) in [(1, 4), (2, 4), (3, 4), (4, 6)] {
        let file = format!("{head}, {states}, 03 {:04X} 0000 0001 01, {}", 5 + 3 * n, old[..n].concat());
        assert_eq!(opened(&file, 30), number, "{n} sweeps of 3 bytes");
    }
    assert_eq!(opened(&format!("{head}, {states}, 03 000D 0000 0001 01, 0000 00 01, 0001 01 01"), 30), 0);
    // A whole file of that time.
    assert_eq!(opened("01 0006 000C 02 0002 00, 02 0002 00 00, 02 0002 01 00, 03 000B 0000 0001 01, 00 00 01, 01 01 01", 30), 3);
}

/// A corridor: each cell has a standing state, and motion k leads from state k to the next one in one tick.
fn corridor(cells: u16, h: usize, margin: usize) -> Site {
    let states = (0..cells).map(|cell| State { cell, speed: 0 }).collect();
    let motion = |k: u16| Motion { from: k, to: k + 1, d: 1, sweeps: vec![Sweep { cell: k, a: 0, b: 1 }, Sweep { cell: k + 1, a: 1, b: 1 }] };
    Site { h, c: cells as usize, margin, states, motions: (0..cells - 1).map(motion).collect(), centres: vec![] }
}

/// The safe intervals of a cell, one number after the other.
fn intervals(site: &Site, board: &[u8], cell: u16) -> Vec<u16> {
    let mut out = vec![7_777; site.h + 2];
    let answer = desk::interval(&encode(site), board, cell, &mut out);
    assert_eq!(answer.number, 0);
    out.truncate(2 * answer.value as usize);
    out
}

/// Cells 0, 256, 512 and 768 of 1,000, and the last one: each has its own closures.
#[test]
fn closures_of_cells_with_one_low_byte() {
    let site = corridor(1_000, 12, 0);
    let file = encode(&site);
    let mut board = vec![0; site.board_len()];
    let mut wanted = board.clone();
    let mut close = |holder: u8, cell: u16, first: u16, last: u16| {
        let number = desk::close(&file, &mut board, holder, cell, first, last).number;
        if number == 0 {
            wanted[4 + 13 * cell as usize..][first as usize..=last as usize].fill(holder);
            wanted[3] += 1;
        }
        assert!(board == wanted, "the board behind closure {holder} of cell {cell}");
        number
    };
    assert_eq!(close(200, 256, 3, 5), 0);
    assert_eq!((close(201, 256, 5, 5), close(201, 0, 3, 5), close(202, 512, 0, 12), close(203, 768, 3, 3)), (17, 0, 0, 0));
    assert_eq!((close(204, 999, 12, 12), close(205, 999, 12, 12), close(205, 231, 12, 12)), (0, 17, 0));
    assert_eq!((close(206, 1_000, 0, 0), close(206, 1_024, 0, 0), close(206, 65_535, 0, 0)), (10, 10, 10));
    let shown: [(u16, &[u16]); 6] = [(0, &[0, 2, 6, 12]), (256, &[0, 2, 6, 12]), (512, &[]), (768, &[0, 2, 4, 12]), (999, &[0, 11]), (257, &[0, 12])];
    for (cell, ticks) in shown {
        assert_eq!(intervals(&site, &board, cell), ticks, "cell {cell}");
    }
    assert_eq!(desk::withdraw(&file, &mut board, 200), Answer::plain(0));
    assert_eq!((intervals(&site, &board, 256), intervals(&site, &board, 0)), (vec![0, 12], vec![0, 2, 6, 12]));
    let mut out = vec![0; 14];
    for cell in [1_000, 1_024, 65_535] {
        assert_eq!(desk::interval(&file, &board, cell, &mut out), Answer::plain(10), "cell {cell}");
    }
}

/// A hall on which calls are made through the desk.
struct Desk {
    site: Site,
    file: Vec<u8>,
    board: Vec<u8>,
}

impl Desk {
    fn new(site: Site) -> Desk {
        Desk { file: encode(&site), board: vec![0; site.board_len()], site }
    }

    /// The number, arrival and light of a route.
    fn route(&self, tug: u8, start: u16, tick: u16, goal: u16, dwell: u16) -> (u8, u32, Vec<u8>) {
        let (mut out, mut work) = (vec![9; self.site.output_len()], vec![9; self.site.states.len() * (self.site.h + 1)]);
        let answer = desk::route(&self.file, &self.board, tug, start, tick, goal, dwell, &mut out, &mut work);
        out.truncate(answer.value as usize);
        (answer.number, answer.arrival, out)
    }

    fn audit(&self, light: &Light) -> u8 {
        desk::audit(&self.file, &self.board, &light.encode()).number
    }

    fn post(&mut self, light: &[u8]) -> u8 {
        desk::post(&self.file, &mut self.board, light).number
    }

    fn close(&mut self, holder: u8, cell: u16, tick: u16) -> u8 {
        desk::close(&self.file, &mut self.board, holder, cell, tick, tick).number
    }

    fn withdraw(&mut self, holder: u8) -> u8 {
        desk::withdraw(&self.file, &mut self.board, holder).number
    }

    fn byte(&self, cell: usize, tick: usize) -> u8 {
        self.board[4 + cell * (self.site.h + 1) + tick]
    }
}

/// Tug 7 goes through all of a corridor of 640 cells, and is in cell k at the ticks k and k + 1. Others meet it there and nowhere else.
#[test]
fn tugs_above_cell_255() {
    let mut hall = Desk::new(corridor(640, 1_000, 0));
    let (number, arrival, light) = hall.route(7, 0, 0, 639, 0);
    assert_eq!((number, arrival, light.len()), (0, 639, 18 + 5 * 639));
    let read = Light::read(&light).unwrap();
    assert_eq!(read.steps, (0..639).map(Step::Move).collect::<Vec<_>>());
    assert_eq!((hall.audit(&read), hall.post(&light), hall.audit(&read)), (0, 0, 12));
    for (cell, tick) in (0..640).flat_map(|cell| (0..=1_000).map(move |tick| (cell, tick))) {
        let held = tick == cell || (tick == cell + 1 && cell < 639);
        assert_eq!(hall.byte(cell, tick), if held { 7 } else { 0 }, "cell {cell} at {tick}");
    }
    assert_eq!(intervals(&hall.site, &hall.board, 600), [0, 599, 602, 1_000]);
    // Cell 300 is held at 300 and 301; cells 44 and 556, with the same low byte, are not.
    assert_eq!([44, 300, 556].map(|state| hall.route(8, state, 300, state, 1).0), [0, 18, 0]);
    assert_eq!([(200, 300), (200, 44), (201, 556)].map(|(holder, cell)| hall.close(holder, cell, 301)), [17, 0, 0]);
    // Tug 8 leaves cell 256 before it comes, or behind it; between these it is in its way.
    assert_eq!([250, 256, 257].map(|tick| hall.route(8, 256, tick, 260, 0).0), [0, 18, 18]);
    let (number, arrival, light) = hall.route(8, 256, 258, 639, 0);
    assert_eq!((number, arrival), (0, 641));
    let read = Light::read(&light).unwrap();
    assert_eq!(read.steps, (256..639).map(Step::Move).collect::<Vec<_>>());
    let hasty = Light { tick: 257, arrival: 640, ..read };
    assert_eq!((hall.audit(&hasty), hall.audit(&Light { edition: 0, ..hasty.clone() })), (17, 16));
    assert_eq!((hall.post(&light), [258, 259, 260, 261].map(|tick| hall.byte(257, tick))), (0, [7, 8, 8, 0]));
    assert_eq!((hall.withdraw(7), hall.withdraw(8), hall.withdraw(7), hall.withdraw(200), hall.withdraw(201)), (0, 0, 13, 0, 0));
    assert!(hall.board[4..].iter().all(|&byte| byte == 0));
}

/// What only cells above 255 show. Cells are alike if they have the same low byte.
#[derive(Clone, Copy, PartialEq, Eq, PartialOrd, Ord, Debug)]
enum Seen {
    /// The hall has so many cells.
    Cells(usize),
    /// A granted route, or an accepted light, through a cell above 255, while one alike is held at the same tick.
    RouteAlike,
    LightAlike,
    /// A granted route through two cells that are alike.
    RouteThroughBoth,
    /// An accepted closure of a cell above 255; of one while another one alike is held then; and a refused one.
    Close,
    CloseAlike,
    CloseHeld,
    /// A cell that is too large, though the hall has one with its low byte.
    CloseTooLarge,
    IntervalTooLarge,
    /// The intervals of a cell above 255 are others than those of the cell that its low byte names.
    IntervalAlike,
    /// A holder withdrawn from a cell above 255, and not from one alike that somebody else has.
    WithdrawAlike,
    /// A file that is refused, and would not be with the low bytes of its states' cells, its sweeps' cells or C.
    FileStates,
    FileSweeps,
    FileCells,
    /// A file with a field of an older length.
    OldHead(u8),
    OldState,
    OldSweeps,
    /// The site has so many states, and so many motions.
    States(usize),
    Motions(usize),
    /// A granted route to a state above 255 with a motion above 1,999, and an accepted light with such a motion.
    RouteHigh,
    LightHigh,
    /// A tug drawn at the centre of a cell above 255, or between two of them, where the cells that their low bytes name have other centres.
    DrawAlike,
    /// A tug drawn in a motion above 1,999 from or to a state above 255.
    DrawHigh,
    /// A hall with centres that is refused with one less, and with as many as C's low byte says.
    CentresOneLess,
    CentresLowByte,
}

/// What halls must show, and sites with many states and motions.
fn needed() -> Vec<Seen> {
    use Seen::*;
    let mut all = vec![Cells(256), Cells(640), Cells(MAX_CELLS), RouteAlike, LightAlike, RouteThroughBoth, Close, CloseAlike, CloseHeld];
    all.extend([CloseTooLarge, IntervalTooLarge, IntervalAlike, WithdrawAlike, FileStates, FileSweeps, FileCells]);
    all.extend([OldHead(5), OldHead(6), OldState, OldSweeps, DrawAlike, CentresOneLess, CentresLowByte]);
    all
}

const NEEDED_OF_MANY: [Seen; 7] =
    [Seen::States(257), Seen::States(MAX_STATES), Seen::Motions(2_001), Seen::Motions(MAX_MOTIONS), Seen::RouteHigh, Seen::LightHigh, Seen::DrawHigh];

/// The other cells with the same low byte.
fn alike(site: &Site, cell: usize) -> impl Iterator<Item = usize> {
    (cell % 256..site.c).step_by(256).filter(move |&other| other != cell)
}

#[derive(Default)]
struct Tally {
    calls: usize,
    seen: BTreeMap<Seen, usize>,
}

impl Tally {
    fn count(&mut self, seen: impl IntoIterator<Item = (Seen, bool)>) {
        for (what, _) in seen.into_iter().filter(|seen| seen.1) {
            *self.seen.entry(what).or_default() += 1;
        }
    }

    /// Makes a call with the desk and the plain program, one in eight also by the literal reading and routes with the simple program. Everything must be
    /// equal. Gives the answer and what is left.
    fn compare(&mut self, rng: &mut Rng, file: &[u8], board: &[u8], call: &Call) -> (Answer, Values) {
        let before = Values::new(rng, file, board, call);
        let (mut left, mut wanted) = (before.clone(), before.clone());
        let (answer, expected) = (run!(desk, call, &mut left), run!(plain, call, &mut wanted));
        assert_eq!(answer, expected, "call {}: the desk's answer and the plain program's to {call:?}", self.calls);
        assert_eq!(left.differs(&wanted), None, "call {}: what {call:?} left", self.calls);
        if self.calls % 8 == 0 {
            let mut literal = before.clone();
            let said = run!(literal_desk, call, &mut literal);
            assert!(said == answer && literal == left, "call {}: the literal reading of {call:?}", self.calls);
        }
        if let Call::Route { tug, start, tick, goal, dwell, .. } = *call {
            let mut simple = before;
            let said = pull::route(file, board, tug, start, tick, goal, dwell, &mut simple.bytes, &mut simple.words);
            assert!(said == answer && simple == left, "call {}: the simple program on {call:?}", self.calls);
        }
        self.calls += 1;
        (answer, left)
    }

    /// What a call on an accepted site shows.
    fn shown(&mut self, site: &Site, board: &[u8], call: &Call, answer: Answer, left: &Values) {
        let at = |cell: usize, tick: usize| board[4 + cell * (site.h + 1) + tick];
        let held_alike = |pair: &(usize, usize)| pair.0 > 255 && alike(site, pair.0).any(|cell| at(cell, pair.1) != 0);
        let held_by = |light: &[u8]| site.plan(&|_, _| true, &Light::read(light).unwrap()).unwrap();
        let (accepted, too_large) = (answer.number == 0, |cell: u16| answer.number == 10 && (cell as usize) >= site.c && (cell as usize % 256) < site.c);
        let high_motion = |light: &[u8]| Light::read(light).unwrap().steps.iter().any(|step| matches!(step, Step::Move(k) if *k > 1_999));
        self.count([Seen::Cells(site.c), Seen::States(site.states.len()), Seen::Motions(site.motions.len())].map(|size| (size, true)));
        match *call {
            Call::Route { goal, .. } if accepted => {
                self.count([(Seen::RouteHigh, goal > 255 && high_motion(&left.bytes[..answer.value as usize]))]);
                let pairs = held_by(&left.bytes[..answer.value as usize]);
                let cells: BTreeSet<usize> = pairs.iter().map(|pair| pair.0).collect();
                let both = cells.iter().any(|&cell| alike(site, cell).any(|other| cells.contains(&other)));
                self.count([(Seen::RouteAlike, pairs.iter().any(held_alike)), (Seen::RouteThroughBoth, both)]);
            }
            Call::Audit { ref light } | Call::Post { ref light } if accepted => {
                self.count([(Seen::LightAlike, held_by(light).iter().any(held_alike)), (Seen::LightHigh, high_motion(light))]);
            }
            Call::Close { cell, first, last, .. } => {
                let beside = || (first..=last).any(|tick| held_alike(&(cell as usize, tick as usize)));
                let high = cell > 255;
                self.count([(Seen::Close, high && accepted), (Seen::CloseAlike, high && accepted && beside()), (Seen::CloseTooLarge, too_large(cell))]);
                self.count([(Seen::CloseHeld, high && answer.number == 17)]);
            }
            Call::Interval { cell, .. } => {
                let mut other = vec![0; site.h + 2];
                let found = plain::interval(&left.site, board, cell % 256, &mut other).value as usize;
                let differs = left.numbers.get(..2 * answer.value as usize) != other.get(..2 * found);
                self.count([(Seen::IntervalAlike, cell > 255 && accepted && differs), (Seen::IntervalTooLarge, too_large(cell))]);
            }
            Call::Withdraw { holder } if accepted => {
                let mut pairs = (256..site.c).flat_map(|cell| (0..=site.h).map(move |tick| (cell, tick)));
                self.count([(Seen::WithdrawAlike, pairs.any(|pair| at(pair.0, pair.1) == holder && held_alike(&pair)))]);
            }
            Call::Draw { ref light, step, .. } if accepted => {
                let read = Light::read(light).unwrap();
                let other = |state: u16| site.centres[site.cell(state as usize)] != site.centres[site.cell(state as usize) % 256];
                if let Some(&Step::Move(k)) = read.steps.get(step as usize) {
                    let (from, to) = (site.motions[k as usize].from, site.motions[k as usize].to);
                    self.count([(Seen::DrawAlike, other(from) || other(to)), (Seen::DrawHigh, k > 1_999 && from.max(to) > 255)]);
                }
            }
            _ => {}
        }
    }

    /// A list of calls from an opened board.
    fn list(&mut self, rng: &mut Rng, site: &Site, calls: usize) {
        let file = encode(site);
        let mut board = vec![0; site.board_len()];
        let mut caller = Caller { site, file: &file, lights: vec![] };
        for _ in 0..calls {
            let call = caller.listed(rng, &board);
            let (answer, left) = self.compare(rng, &file, &board, &call);
            self.shown(site, &board, &call, answer, &left);
            if matches!(call, Call::Route { .. }) && answer.number == 0 {
                caller.lights.push(left.bytes[..answer.value as usize].to_vec());
            }
            board = left.board;
            if rng.percent(25) {
                self.draw(rng, &caller, &file, &board);
            }
        }
    }

    fn draw(&mut self, rng: &mut Rng, caller: &Caller, file: &[u8], board: &[u8]) {
        let call = caller.draw(rng, board);
        let (answer, left) = self.compare(rng, file, board, &call);
        self.shown(caller.site, board, &call, answer, &left);
    }

    /// So many draws, with lights that are made on a board with any bytes.
    fn draws(&mut self, rng: &mut Rng, site: &Site, draws: usize) {
        let (file, board) = (encode(site), gen::board(rng, site));
        let caller = Caller { site, file: &file, lights: vec![] };
        (0..draws).for_each(|_| self.draw(rng, &caller, &file, &board));
    }

    /// Calls on a board with any bytes.
    fn any_board(&mut self, rng: &mut Rng, site: &Site, calls: usize) {
        let (file, board) = (encode(site), gen::board(rng, site));
        let caller = Caller { site, file: &file, lights: vec![] };
        for _ in 0..calls {
            let call = caller.any(rng, &board);
            let (answer, left) = self.compare(rng, &file, &board, &call);
            self.shown(site, &board, &call, answer, &left);
        }
    }

    /// A file whose centres are wrong, or sometimes right, through an open with the site's board.
    fn centres(&mut self, rng: &mut Rng, site: &Site) {
        let file = gen::damaged_centres(rng, site, &[4]);
        let (answer, _) = self.compare(rng, &file, &vec![9; site.board_len()], &Call::Open);
        assert_eq!(answer, Answer::plain(Site::read(&file).err().unwrap_or(0)));
        let behind: Vec<(u8, &[u8])> = fields(&file).unwrap().into_iter().skip(1 + site.states.len() + site.motions.len()).collect();
        let refused = answer.number == 4 && behind.iter().all(|&(tag, value)| tag == 4 && value.len() == CENTRE_LEN);
        self.count([(Seen::CentresOneLess, refused && behind.len() + 1 == site.c), (Seen::CentresLowByte, refused && behind.len() == site.c % 256)]);
    }

    /// A damaged file, through an open with the site's board.
    fn file(&mut self, rng: &mut Rng, site: &Site) {
        let fault = rng.range(3, 6) as u8;
        let file = gen::damaged(rng, site, &[fault]);
        let (answer, _) = self.compare(rng, &file, &vec![9; site.board_len()], &Call::Open);
        let wanted = Site::read(&file).map_or_else(|number| number, |read| if read.board_len() == site.board_len() { 0 } else { 7 });
        assert_eq!(answer, Answer::plain(wanted));
        let all = fields(&file).unwrap();
        let old = |n: usize| n > MOTION_LEN && (n - MOTION_LEN) % (SWEEP_LEN - 1) == 0 && (n - MOTION_LEN) % SWEEP_LEN != 0;
        let passes = |number: u8, part: Part| answer.number == number && Site::read(&with_low_bytes(&file, part)).err() != Some(number);
        self.count([5, 6].map(|len| (Seen::OldHead(len), answer.number == 3 && file.starts_with(&[1, 0, len]))));
        self.count([
            (Seen::OldState, answer.number == 4 && all.iter().any(|&(tag, value)| tag == 2 && value.len() == STATE_LEN - 1)),
            (Seen::OldSweeps, answer.number == 4 && all.iter().any(|&(tag, value)| tag == 3 && old(value.len()))),
            (Seen::FileStates, passes(5, Part::States)),
            (Seen::FileSweeps, passes(6, Part::Sweeps)),
            (Seen::FileCells, passes(3, Part::Cells)),
        ]);
    }
}

#[derive(Clone, Copy, PartialEq)]
enum Part {
    States,
    Sweeps,
    Cells,
}

/// The file with 0 for the high byte of C, or of each cell of its states or of its sweeps that is not below C.
fn with_low_bytes(file: &[u8], part: Part) -> Vec<u8> {
    let (mut changed, c) = (Vec::new(), file.get(5..7).map_or(0, number));
    let cut = |cell: &mut [u8]| cell[0] = if number(&cell[..2]) < c { cell[0] } else { 0 };
    for (tag, value) in fields(file).unwrap() {
        let mut value = value.to_vec();
        match (tag, part) {
            (1, Part::Cells) if value.len() > 2 => value[2] = 0,
            (2, Part::States) => cut(&mut value),
            (3, Part::Sweeps) => value[MOTION_LEN..].chunks_mut(SWEEP_LEN).for_each(cut),
            _ => {}
        }
        put(&mut changed, tag, &value);
    }
    changed
}

impl Tally {
    /// Fails if something is rare that is needed.
    fn hold(&self, what: &str, needed: &[Seen]) {
        let times = |seen: &Seen| self.seen.get(seen).copied().unwrap_or(0);
        let counts: Vec<String> = needed.iter().map(|seen| format!("{seen:?}:{}", times(seen))).collect();
        // Written to the stream itself, so that it shows for passed tests too.
        writeln!(std::io::stderr(), "halls: {what}, {} calls agree; {}", self.calls, counts.join(" ")).unwrap();
        for seen in needed {
            assert!(times(seen) >= OFTEN, "{seen:?} occurs only {} times, so the run shows too little", times(seen));
        }
    }
}

#[test]
fn seeded_halls() {
    let (mut rng, mut tally) = (Rng::new(1), Tally::default());
    for _ in 0..400 {
        let site = gen::site(&mut rng, Size::Hall);
        tally.list(&mut rng, &site, 30);
        tally.any_board(&mut rng, &site, 6);
        tally.draws(&mut rng, &site, 2);
        (0..8).for_each(|_| tally.file(&mut rng, &site));
        (0..4).for_each(|_| tally.centres(&mut rng, &site));
    }
    tally.hold("cells", &needed());
}

/// The new works: 640 cells, and as many ticks as there can be.
#[test]
fn seeded_halls_of_640_cells_and_1_000_ticks() {
    let (mut rng, mut tally) = (Rng::new(2), Tally::default());
    for _ in 0..16 {
        let row = Site { h: 1_000, ..gen::site(&mut rng, Size::Row) };
        let site = gen::spread(&mut rng, row, 640);
        tally.list(&mut rng, &site, 24);
        tally.any_board(&mut rng, &site, 8);
    }
    tally.hold("640 cells and 1,000 ticks", &[Seen::Cells(640), Seen::RouteThroughBoth]);
}

#[test]
fn seeded_sites_of_many_states() {
    let (mut rng, mut tally) = (Rng::new(3), Tally::default());
    // ./faults runs the simple desk, which is slow, for each of its faults. A short run may miss the rarest.
    let short = cfg!(feature = "standin");
    for _ in 0..if short { 30 } else { 160 } {
        let site = gen::site(&mut rng, Size::Many);
        tally.list(&mut rng, &site, 30);
        tally.any_board(&mut rng, &site, 8);
        tally.draws(&mut rng, &site, 40);
    }
    tally.hold("many states", if short { &[] } else { &NEEDED_OF_MANY });
}
