//! The entries tried through the safe crate: cases of the bench sheet on a board with chip 0, refusals, and both parties alone on a trace of the run.

use bilvakront::{bus_run, chip_alone, controller_alone, Answer, End};

const PAGE_WRAP: [u8; 10] = [1, 0, 0, 0x50, 0, 4, 0x00, 0x1F, 0xA1, 0xB2];

/// What a run on chip 0 is lent. Result area and trace are longer than needed, so that their rest can be seen to stay.
#[derive(Clone, Debug, PartialEq, Eq)]
struct Board {
    memory: Vec<u8>,
    state: [u8; 4],
    results: [u8; 80],
    trace: Vec<u8>,
}

impl Board {
    fn new(pointer: u16, busy: u16) -> Board {
        let (p, b) = (pointer.to_le_bytes(), busy.to_le_bytes());
        Board { memory: vec![0xFF; 4096], state: [p[0], p[1], b[0], b[1]], results: [0xEE; 80], trace: vec![0xEE; 3000] }
    }

    fn run(&mut self, list: &[u8], holds: &[u8], asked: u16) -> Answer {
        bus_run(list, 1, &mut self.memory, &mut self.state, holds, asked, &mut self.results, &mut self.trace)
    }

    /// An accepted run: its ticks, and the result area up to where it was left alone.
    fn ran(&mut self, list: &[u8], holds: &[u8]) -> (u64, Vec<u8>) {
        let answer = self.run(list, holds, 8000);
        assert_eq!(answer.number, 0);
        let used = self.results.iter().rposition(|&b| b != 0xEE).map_or(0, |last| last + 1);
        assert!(self.trace.iter().skip(answer.ticks as usize).all(|&b| b == 0xEE), "the trace's rest");
        (answer.ticks, self.results[..used].to_vec())
    }

    fn pointer(&self) -> u16 {
        u16::from_le_bytes([self.state[0], self.state[1]])
    }

    fn busy(&self) -> u16 {
        u16::from_le_bytes([self.state[2], self.state[3]])
    }
}

#[test]
fn address_only() {
    let list = [1, 0, 0, 0x50, 0, 0];
    let mut board = Board::new(0, 0);
    assert_eq!(board.ran(&list, &[]), (44, vec![0, 1, 0]));
    // The chip still holds SDA in STOP's phase 0.
    assert_eq!(board.trace[40..44], [0, 0, 1, 3]);
    assert_eq!(Board::new(0, 0).ran(&list, &[16; 10]), (204, vec![0, 1, 0]));
    assert_eq!(Board::new(0, 0).ran(&[1, 0, 0, 0x51, 0, 0], &[]), (44, vec![0, 0, 0]));
    assert_eq!(Board::new(0, 0).ran(&[], &[]), (0, vec![]));
}

#[test]
fn page_wrap() {
    let mut board = Board::new(0, 0);
    assert_eq!(board.ran(&PAGE_WRAP, &[]), (188, vec![0, 1, 4]));
    assert_eq!((board.pointer(), board.busy()), (1, 8000));
    let mut memory = vec![0xFF; 4096];
    (memory[31], memory[0]) = (0xA1, 0xB2);
    assert_eq!(board.memory, memory);
}

#[test]
fn pointer_then_read() {
    let mut board = Board::new(0, 0);
    assert_eq!(board.ran(&[2, 0, 0, 0x50, 0, 2, 0, 0x10, 0x50, 1, 2], &[]), (228, vec![0, 1, 2, 1, 2, 0xFF, 0xFF]));
    assert_eq!((board.pointer(), board.busy()), (18, 0));
}

#[test]
fn read_over_the_memorys_end() {
    let mut board = Board::new(4095, 0);
    (board.memory[4095], board.memory[0]) = (0x5E, 0x5A);
    assert_eq!(board.ran(&[1, 0, 0, 0x50, 1, 2], &[]), (116, vec![0, 1, 2, 0x5E, 0x5A]));
    assert_eq!(board.pointer(), 1);
}

#[test]
fn free_just_in_time() {
    for (wait, flag) in [(7964u16, 1), (7963, 0)] {
        let [low, high] = wait.to_le_bytes();
        let (ticks, results) = Board::new(0, 8000).ran(&[1, low, high, 0x50, 0, 0], &[]);
        assert_eq!((ticks, results), (u64::from(wait) + 44, vec![0, flag, 0]));
    }
}

#[test]
fn refused_and_nothing_changed() {
    let good = [1, 0, 0, 0x50, 0, 0];
    let cases: [(u8, &[u8], &[u8], u16); 6] = [
        (1, &[0; 4097], &[], 0),
        (2, &[1, 0, 0, 0x50, 1, 0], &[], 0),
        (2, &good[..5], &[], 0),
        (5, &good, &[0, 17], 0),
        (5, &[], &[17], 20_001),
        (6, &good, &[16], 20_001),
    ];
    for (number, list, holds, asked) in cases {
        let mut board = Board::new(9, 9);
        let before = board.clone();
        assert_eq!(board.run(list, holds, asked), Answer { number, ticks: 0 });
        assert_eq!(board, before);
    }
}

#[test]
fn memory_state_and_results_of_a_wrong_size() {
    let list = [1, 0, 0, 0x50, 0, 0];
    let number = |memory: usize, state: [u8; 4], room: usize| {
        let (mut memory, mut state, mut results) = (vec![7; memory], state, vec![7; room]);
        let answer = bus_run(&list, 1, &mut memory, &mut state, &[], 0, &mut results, &mut []);
        assert!(answer.number == 0 || answer.ticks == 0 && memory.iter().chain(&results).all(|&b| b == 7));
        answer.number
    };
    assert_eq!(number(4096, [0, 0, 0, 0], 3), 0);
    assert_eq!(number(4095, [0, 0, 0, 0], 3), 3);
    assert_eq!(number(0, [0, 0, 0, 0], 3), 3);
    assert_eq!(number(4096, [0, 16, 0, 0], 3), 4);
    assert_eq!(number(4096, [0, 0, 0x21, 0x4E], 3), 4);
    assert_eq!(number(4096, [0, 0, 0x20, 0x4E], 3), 0);
    assert_eq!(number(4096, [0, 0, 0, 0], 2), 7);
}

/// No chip and no trace: empty areas are lent.
#[test]
fn empty_board() {
    let mut results = [9; 3];
    let answer = bus_run(&[1, 0, 0, 0x50, 0, 0], 0, &mut [], &mut [], &[], 0, &mut results, &mut []);
    assert_eq!((answer, results), (Answer { number: 0, ticks: 44 }, [0, 0, 0]));
}

#[test]
fn both_alone_on_the_trace() {
    let mut board = Board::new(0, 0);
    let (ticks, _) = board.ran(&PAGE_WRAP, &[]);
    let record = &board.trace[..ticks as usize];
    let (mut drives, mut results) = ([0xEE; 190], [0xEE; 80]);
    assert_eq!(controller_alone(&PAGE_WRAP, record, &mut drives, &mut results), (0, End::ListEnd, 188));
    assert_eq!(results, board.results);
    let (mut memory, mut state, mut chip_drives) = (vec![0xFF; 4096], [0; 4], [0xEE; 190]);
    assert_eq!(chip_alone(0, &mut memory, &mut state, 8000, record, &mut chip_drives), Answer { number: 0, ticks: 188 });
    assert_eq!((memory, state), (board.memory.clone(), board.state));
    let lines: Vec<u8> = drives.iter().zip(&chip_drives).map(|(a, b)| a & b).collect();
    assert_eq!(lines, board.trace[..190]);
}

#[test]
fn controller_ends() {
    let list = [1, 0, 0, 0x50, 0, 0];
    let alone = |samples: &[u8]| {
        let (mut drives, mut results) = ([0xEE; 60], [0xEE; 3]);
        let (number, end, ticks) = controller_alone(&list, samples, &mut drives, &mut results);
        assert!(drives[ticks as usize..].iter().all(|&b| b == 0xEE), "drives past the last tick");
        (number, end, ticks, results[0])
    };
    assert_eq!(alone(&[]), (0, End::RecordEnd, 0, 255));
    assert_eq!(alone(&[3, 3, 3]), (0, End::RecordEnd, 3, 255));
    assert_eq!(alone(&[3, 3, 1, 1]), (0, End::Fault(4), 3, 4));
    assert_eq!(alone(&[3, 3, 3, 3]), (0, End::Fault(5), 4, 5));
    assert_eq!(alone(&[3, 3, 3, 4]), (8, End::Refused, 0, 0xEE));
    // The clock held 17 ticks in the first bit, a 1 sent: stuck.
    let mut stuck = vec![3, 3, 3, 1, 0, 2];
    stuck.extend([2; 17]);
    assert_eq!(alone(&stuck), (0, End::Fault(2), 23, 2));
}

#[test]
fn chip_refusals() {
    let number = |strap: u8, state: [u8; 4], asked: u16, samples: &[u8], room: usize| {
        let (mut memory, mut left, mut drives) = (vec![0; 4096], state, vec![0xEE; room]);
        let answer = chip_alone(strap, &mut memory, &mut left, asked, samples, &mut drives);
        if answer.number != 0 {
            assert!(answer.ticks == 0 && left == state && drives.iter().all(|&b| b == 0xEE));
        }
        answer.number
    };
    assert_eq!(number(7, [0; 4], 0, &[3, 3], 2), 0);
    assert_eq!(number(8, [0, 16, 0, 0], 0, &[3, 4], 1), 10);
    assert_eq!(number(0, [0, 16, 0, 0], 20_001, &[3, 4], 1), 4);
    assert_eq!(number(0, [0; 4], 20_001, &[3, 4], 1), 6);
    assert_eq!(number(0, [0; 4], 0, &[3, 4], 1), 8);
    assert_eq!(number(0, [0; 4], 0, &[3, 3], 1), 9);
}
