//! The bench sheet of `01-scope.md`, starred or not, for both entries.

mod common;
use common::Board;
use second::program;

/// The number of a refused list, with 0 ticks.
fn refused(list: &[u8]) -> u8 {
    let left = Board::bench().both(list);
    assert_ne!(left.answer.number, 0);
    assert_eq!(left.answer.ticks, 0);
    left.answer.number
}

#[test]
fn empty_list() {
    let left = Board::bench().both(&[]);
    assert_eq!((left.answer.number, left.answer.ticks), (0, 0));
    assert_eq!(second::form::result_size(&[]), Some(0));
}

#[test]
fn address_only() {
    let list = [1, 0, 0, 0x50, 0, 0];
    let left = Board::bench().both(&list);
    assert_eq!((left.answer.number, left.answer.ticks), (0, 44));
    assert_eq!(left.results, [0, 1, 0]);
    let left = Board::bench().holds(&[16; 10]).both(&list);
    assert_eq!(left.answer.ticks, 204);
    assert_eq!(left.results, [0, 1, 0]);
}

#[test]
fn nobody_there() {
    let left = Board::bench().both(&[1, 0, 0, 0x51, 0, 0]);
    assert_eq!(left.answer.ticks, 44);
    assert_eq!(left.results, [0, 0, 0]);
}

#[test]
fn non_critical_first() {
    let left = Board::bench().both(&[2, 0, 0, 0x51, 2, 0, 0x50, 0, 0]);
    assert_eq!(left.answer.ticks, 84);
    assert_eq!(left.results, [0, 0, 0, 1, 0]);
    let left = Board::bench().both(&[2, 0, 0, 0x51, 0, 0, 0x50, 0, 0]);
    assert_eq!(left.answer.ticks, 44);
    assert_eq!(left.results, [0; 5]);
}

#[test]
fn set_pointer_and_read() {
    let list = [2, 0, 0, 0x50, 0, 2, 0x00, 0x10, 0x50, 1, 2];
    let left = Board::bench().both(&list);
    assert_eq!(left.answer.ticks, 228);
    assert_eq!(left.results, [0, 1, 2, 1, 2, 0xFF, 0xFF]);
    assert_eq!(left.pointer(0), 18);
}

#[test]
fn page_wrap() {
    let list = [1, 0, 0, 0x50, 0, 4, 0x00, 0x1F, 0xA1, 0xB2];
    let left = Board::bench().both(&list);
    assert_eq!(left.answer.ticks, 188);
    assert_eq!((left.memory[31], left.memory[0]), (0xA1, 0xB2));
    assert_eq!(left.memory.iter().filter(|&&byte| byte != 0xFF).count(), 2);
    assert_eq!((left.pointer(0), left.busy(0)), (1, 8000));
    assert_eq!(left.results, [0, 1, 4]);
}

#[test]
fn busy_edge() {
    let ask = |wait: u16| {
        let [low, high] = wait.to_le_bytes();
        Board::bench().state(0, 0, 8000).both(&[1, low, high, 0x50, 0, 0])
    };
    let left = ask(7964);
    assert_eq!(left.results, [0, 1, 0]);
    assert_eq!(left.answer.ticks, 7964 + 44);
    let left = ask(7963);
    assert_eq!(left.results, [0, 0, 0]);
    assert_eq!(left.answer.ticks, 7963 + 44);
}

#[test]
fn read_over_the_end() {
    let mut board = Board::bench().state(0, 4095, 0);
    board.memory[4095] = 0x3C;
    board.memory[0] = 0x5A;
    let left = board.both(&[1, 0, 0, 0x50, 1, 2]);
    assert_eq!(left.results, [0, 1, 2, 0x3C, 0x5A]);
    assert_eq!(left.pointer(0), 1);
}

#[test]
fn dropped_by_a_repeated_start() {
    for kind in [0, 1, 2, 3] {
        let length = kind % 2;
        let list = [2, 0, 0, 0x50, 0, 3, 0x00, 0x10, 0xAA, 0x51, kind, length];
        let left = Board::bench().both(&list);
        assert!(left.memory.iter().all(|&byte| byte == 0xFF));
        assert_eq!((left.pointer(0), left.busy(0)), (17, 0));
    }
}

#[test]
fn thirty_three_bytes() {
    let mut list = vec![1, 0, 0, 0x50, 0, 35, 0x00, 0x00];
    list.extend(1..=33);
    let left = Board::bench().both(&list);
    assert_eq!(left.memory[0], 33);
    assert_eq!(left.memory[1..32], (2..=32).collect::<Vec<u8>>()[..]);
    assert_eq!(left.memory[32], 0xFF);
    assert_eq!(left.pointer(0), 1);
}

#[test]
fn wrong_forms() {
    assert_eq!(refused(&[1, 0, 0, 0x50, 1, 0]), 2);
    assert_eq!(refused(&[1, 0, 0, 0x50, 3, 0]), 2);
    let mut nine = vec![9, 0, 0];
    for _ in 0..9 {
        nine.extend([0x50, 0, 0]);
    }
    assert_eq!(refused(&nine), 2);
    nine[0] = 8;
    nine.truncate(27);
    assert_eq!(Board::bench().both(&nine).answer.number, 0);
    assert_eq!(refused(&[1, 0, 0, 128, 0, 0]), 2);
    let mut long = vec![1, 0, 0, 0x50, 0, 65];
    long.extend([0; 65]);
    assert_eq!(refused(&long), 2);
    assert_eq!(refused(&[1, 0, 0, 0x50, 1, 65]), 2);
    let left = Board::bench().both(&[1, 0, 0, 0x50, 1, 64]);
    assert_eq!((left.answer.number, left.results.len()), (0, 67));
}

#[test]
fn hold_limit() {
    let list = [1, 0, 0, 0x50, 0, 0];
    assert_eq!(Board::bench().holds(&[16]).both(&list).answer.number, 0);
    assert_eq!(Board::bench().holds(&[17]).both(&list).answer.number, 5);
}

#[test]
fn the_program() {
    assert_eq!(program::answer(&[]), "result\nticks 0\n");
    assert_eq!(program::answer(&[1, 0, 0, 0x50, 0, 0]), "result 000100\nticks 44\n");
    assert_eq!(program::answer(&[1, 0, 0, 0x50, 1, 1]), "result 000101ff\nticks 80\n");
    assert_eq!(program::answer(&[1]), "refused 2\n");
    assert_eq!(program::answer(&[0; 512]), "refused 2\n");
    assert_eq!(program::answer(&[0; 513]), "refused 1\n");
}

/// The benchmark's load is an accepted one, and it does what it says.
#[test]
fn the_load() {
    let mut load = second::counterpart::Load::new(0xFF, 80);
    let (answer, _) = load.time();
    assert_eq!(answer.number, 0);
    assert!(load.list.len() <= 4096);
    // Each write is stored and read back: every first data byte is there.
    assert!((0..80).all(|i| load.memory[4096 * (i % 8) + i * 32] == i as u8));
}
