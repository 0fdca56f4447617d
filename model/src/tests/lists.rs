//! Load lists: the words of request F-1, and each refusal by its number.

use crate::load::load;

/// Loads into a memory of 512 bytes FFh; gives the answer and the first bytes.
fn front(list: &[u8]) -> (u32, [u8; 8]) {
    let (answer, memory) = loaded(512, list);
    (answer, memory[..8].try_into().unwrap())
}

fn loaded(length: usize, list: &[u8]) -> (u32, Vec<u8>) {
    let mut memory = vec![0xFF; length];
    let answer = load(&mut memory, list);
    (answer, memory)
}

/// The number that refuses a list; the memory must stay.
fn refused(length: usize, list: &[u8]) -> u32 {
    let (answer, memory) = loaded(length, list);
    assert!(answer == 0 || memory == vec![0xFF; length]);
    answer
}

#[test]
fn each_command() {
    assert_eq!(front(&[0]), (0, [0xFF; 8]));
    assert_eq!(front(&[2, 0x11, 0]), (0, [0x11, 255, 255, 255, 255, 255, 255, 255]));
    assert_eq!(front(&[3, 1, 2, 3, 4, 0]), (0, [1, 2, 3, 4, 255, 255, 255, 255]));
    assert_eq!(front(&[4, 0, 3, 9, 0]), (0, [9, 9, 9, 255, 255, 255, 255, 255]));
    assert_eq!(front(&[4, 0, 0, 9, 0]), (0, [0xFF; 8]));
    assert_eq!(front(&[1, 0, 0, 0, 5, 2, 7, 0]), (0, [255, 255, 255, 255, 255, 7, 255, 255]));
    assert_eq!(front(&[1, 0, 0, 0, 5, 0]), (0, [0xFF; 8]));
}

#[test]
fn puts_advance_the_place() {
    assert_eq!(front(&[2, 1, 3, 2, 3, 4, 5, 4, 0, 2, 6, 2, 7, 0]), (0, [1, 2, 3, 4, 5, 6, 6, 7]));
    assert_eq!(front(&[4, 0, 0, 9, 2, 1, 4, 0, 0, 9, 2, 2, 0]).1[..3], [1, 2, 255]);
    assert_eq!(front(&[2, 1, 1, 0, 0, 0, 3, 2, 2, 2, 3, 0]).1, [1, 255, 255, 2, 3, 255, 255, 255]);
}

#[test]
fn a_later_put_wins() {
    assert_eq!(front(&[4, 0, 8, 1, 1, 0, 0, 0, 2, 3, 2, 3, 4, 5, 0]).1, [1, 1, 2, 3, 4, 5, 1, 1]);
    assert_eq!(front(&[3, 2, 3, 4, 5, 1, 0, 0, 0, 1, 4, 0, 2, 9, 1, 0, 0, 0, 2, 2, 7, 0]).1[..5], [2, 9, 7, 5, 255]);
    // A later list wins too, and its place starts at 0.
    let mut memory = vec![0; 512];
    assert_eq!(load(&mut memory, &[3, 1, 2, 3, 4, 0]), 0);
    assert_eq!(load(&mut memory, &[2, 9, 0]), 0);
    assert_eq!(memory[..5], [9, 2, 3, 4, 0]);
}

#[test]
fn numbers_stand_highest_byte_first() {
    let (answer, memory) = loaded(1024, &[1, 0, 0, 2, 1, 2, 7, 0]);
    assert_eq!((answer, memory[0x201], memory[0x102]), (0, 7, 0xFF));
    let (answer, memory) = loaded(1024, &[4, 1, 2, 7, 2, 8, 0]);
    assert_eq!((answer, memory[0x101], memory[0x102], memory[0x103]), (0, 7, 8, 0xFF));
}

#[test]
fn greatest_count() {
    let (answer, memory) = loaded(65_536, &[4, 0xFF, 0xFF, 7, 0]);
    assert!(answer == 0 && memory[..65_535].iter().all(|byte| *byte == 7) && memory[65_535] == 0xFF);
    assert_eq!(refused(65_024, &[4, 0xFF, 0xFF, 7, 0]), 19);
}

#[test]
fn number_1() {
    for length in [0, 1, 511, 513, 1_023, 16_777_217, 16_777_728] {
        assert_eq!(refused(length, &[2, 1, 0]), 1);
    }
    assert_eq!(loaded(16_777_216, &[1, 0, 0xFF, 0xFF, 0xFF, 2, 1, 0]).1[16_777_215], 1);
}

#[test]
fn number_17() {
    // Unknown commands.
    for byte in 5..=255 {
        assert_eq!(refused(512, &[byte, 0]), 17);
        assert_eq!(refused(512, &[2, 1, byte, 1, 1, 1, 1, 0]), 17);
    }
    // Cut short.
    let list = [1, 0, 0, 0, 5, 2, 6, 3, 1, 2, 3, 4, 4, 0, 2, 7, 0];
    assert_eq!(front(&list).0, 0);
    for end in 0..list.len() {
        assert_eq!(refused(512, &list[..end]), 17, "{end}");
    }
    // Bytes after its end.
    for after in [0, 1, 2, 5] {
        assert_eq!(refused(512, &[&list[..], &[after]].concat()), 17);
    }
    assert_eq!(refused(512, &[0, 2, 1, 0]), 17);
}

/// So many pieces, some of which put nothing.
fn pieces(count: usize) -> Vec<u8> {
    let three = [&[2, 1][..], &[4, 0, 0, 1], &[3, 1, 2, 3, 4]];
    (0..count).flat_map(|i| three[i % 3].to_vec()).collect()
}

#[test]
fn number_18() {
    assert_eq!(refused(65_536, &[pieces(4_096), vec![0]].concat()), 0);
    assert_eq!(refused(65_536, &[pieces(4_097), vec![0]].concat()), 18);
    let none = [4, 0, 0, 1].repeat(4_096);
    assert_eq!(refused(512, &[&none[..], &[0]].concat()), 0);
    assert_eq!(refused(512, &[&none[..], &none[..4], &[0]].concat()), 18);
    // Moves don't count.
    let moves = [1, 0, 0, 0, 0].repeat(5_000);
    assert_eq!(refused(65_536, &[moves, pieces(4_096), vec![0]].concat()), 0);
}

#[test]
fn number_19() {
    let at = |place: u32, piece: &[u8]| [&[1][..], &place.to_be_bytes(), piece, &[0]].concat();
    for (piece, size) in [(&[2, 1][..], 1), (&[3, 1, 2, 3, 4], 4), (&[4, 0, 9, 1], 9)] {
        assert_eq!(refused(512, &at(512 - size, piece)), 0);
        for place in [513 - size, 511 + u32::from(size == 1), 512, 600, 1 << 24, 0u32.wrapping_sub(size), u32::MAX] {
            assert_eq!(refused(512, &at(place, piece)), 19, "{place}");
            // The pieces before it are not put.
            assert_eq!(refused(512, &[&[3, 1, 2, 3, 4], &at(place, piece)[..]].concat()), 19);
        }
    }
    assert_eq!(refused(512, &[&[1, 0, 0, 1, 255, 2, 1], &at(0, &[])[..]].concat()), 0);
    assert_eq!(refused(512, &[1, 0, 0, 1, 255, 2, 1, 2, 1, 0]), 19);
}

#[test]
fn no_put_outside() {
    for place in [512, 513, 1 << 24, u32::MAX] {
        let there = [&[1][..], &place.to_be_bytes()].concat();
        // A count of 0, a place that is left outside, and one that is moved again.
        assert_eq!(refused(512, &[&there[..], &[4, 0, 0, 9, 0]].concat()), 0);
        assert_eq!(refused(512, &[&there[..], &[0]].concat()), 0);
        assert_eq!(front(&[&there[..], &[1, 0, 0, 0, 1, 2, 3, 0]].concat()).1[1], 3);
        // The count of 0 doesn't bring it back.
        assert_eq!(refused(512, &[&there[..], &[4, 0, 0, 9, 2, 1, 0]].concat()), 19);
    }
}

#[test]
fn tried_in_that_order() {
    let outside = [1, 0, 1, 0, 0, 2, 1];
    let many = [&outside[..], &pieces(4_097)].concat();
    assert_eq!(refused(513, &[&many[..], &[9]].concat()), 1);
    assert_eq!(refused(513, &[]), 1);
    assert_eq!(refused(512, &[&many[..], &[9]].concat()), 17);
    assert_eq!(refused(512, &many), 17);
    assert_eq!(refused(512, &[&many[..], &[0]].concat()), 18);
    assert_eq!(refused(512, &[&outside[..], &[9]].concat()), 17);
    assert_eq!(refused(512, &[&outside[..], &[0]].concat()), 19);
    assert_eq!(refused(512, &pieces(5_000)), 17);
    // A last piece that is cut short is none.
    assert_eq!(refused(65_536, &[pieces(4_096), vec![2]].concat()), 17);
}

#[test]
fn reasons() {
    let why = |list: &[u8]| crate::load::judge(512, list).unwrap_err().reason;
    assert_eq!(why(&[]), "empty list");
    assert_eq!(why(&[2, 1]), "no end");
    assert_eq!(why(&[1, 0, 0, 0]), "01h cut short");
    assert_eq!(why(&[2]), "02h cut short");
    assert_eq!(why(&[3]), "03h cut short");
    assert_eq!(why(&[4, 0]), "04h cut short in its count");
    assert_eq!(why(&[4, 0, 0]), "04h cut short before its byte");
    assert_eq!(why(&[0xFF]), "unknown command");
    assert_eq!(why(&[0, 0]), "bytes after the end");
    assert_eq!(why(&[4, 2, 1, 0, 0]), "04h across the memory's end");
}
