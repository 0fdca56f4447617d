//! Load lists that are refused: numbers 17 to 19 and their order.

use super::family_rng;
use super::lists::{case, pieces, row};
use crate::asm::{list, list_command, unended};
use crate::case::Case;
use crate::load::Command::*;
use crate::rng::Rng;

/// Number 17: unknown commands, lists cut short, bytes after the end.
pub fn unreadable() -> Vec<Case> {
    let mut rng = family_rng("load 17");
    let rng = &mut rng;
    let mut cases = Vec::new();
    let good = || list(&[Move(0x21), Byte(0xAB)]);
    // Every unknown command: alone, after a piece, in place of the end, with operands.
    for first in (5..=255u8).step_by(12) {
        let mut lists = Vec::new();
        for byte in (first..=255).take(12) {
            lists.push(vec![byte, 0]);
            lists.push(vec![2, byte ^ 0x55, byte, 0]);
            lists.push([unended(&pieces(rng)), vec![byte]].concat());
            lists.push([vec![byte], rng.word().to_be_bytes().to_vec(), vec![2, 1, 0]].concat());
        }
        lists.push(good());
        cases.push(case(rng, 512, lists));
    }
    // Every command cut after each of its bytes, alone and after others.
    for command in [Move(0x40), Byte(0x99), Four([0x91, 0x92, 0x93, 0x94]), Copies(3, 0x98)] {
        let bytes = list_command(&command);
        for end in 1..bytes.len() {
            let before = unended(&pieces(rng));
            let cut = &bytes[..end];
            let lists = [cut.to_vec(), [&before, cut].concat(), [&[1, 0, 0, 0, 9], cut].concat()];
            cases.push(case(rng, 512, lists));
        }
        // Operands that would be an end, and the command without an end.
        let zeros = vec![0; bytes.len() - 1];
        cases.push(case(rng, 512, [[&bytes[..1], &zeros].concat(), bytes.clone(), unended(&[command; 3])]));
    }
    // A list cut at each place, also a long one.
    let commands = [&pieces(rng)[..], &[Move(0x0101)], &pieces(rng), &[Copies(0, 1), Move(0)]].concat();
    let whole = list(&commands);
    cases.push(case(rng, 512, (0..whole.len()).map(|end| whole[..end].to_vec())));
    let whole = list(&row(400));
    cases.push(case(rng, 512, [1, 2, 399, 400, 798, 799].map(|cut| whole[..whole.len() - cut].to_vec())));
    // No bytes at all.
    cases.push(case(rng, 512, [vec![]]));
    cases.push(case(rng, 65_536, [vec![], list(&[Byte(0x11)]), vec![]]));
    // Bytes after the end: ends, commands, whole lists.
    for front in [list(&[]), good(), list(&pieces(rng))] {
        let mut lists = Vec::new();
        for after in [0, 1, 2, 3, 4, 5, 0x7F, 0x80, 0xFF] {
            lists.push([front.clone(), vec![after]].concat());
            lists.push([front.clone(), vec![after, 0]].concat());
        }
        lists.push([front.clone(), vec![0; 40]].concat());
        lists.push([front.clone(), front.clone()].concat());
        lists.push([front.clone(), list(&[Move(0), Four([7; 4])])].concat());
        cases.push(case(rng, 512, lists));
    }
    cases
}

/// Number 18: the number of pieces.
pub fn pieces_counted() -> Vec<Case> {
    let mut rng = family_rng("load 18");
    let rng = &mut rng;
    let mut cases = Vec::new();
    // As many as are allowed, and one more: of one kind each, of all kinds with moves among them.
    let bytes = row(4_097);
    let fours: Vec<_> = (0..4_097u32).map(|i| Four((i * 0x0003_0507 + 0x4142_4344).to_be_bytes())).collect();
    let copies: Vec<_> = (0..4_097).map(|i| Copies(i % 2, (i / 2) as u8 ^ 0x55)).collect();
    for (kind, length) in [(&bytes, 8_192), (&fours, 16_896), (&copies, 4_096)] {
        cases.push(case(rng, length, [list(&kind[..4_096])]));
        cases.push(case(rng, length, [list(kind)]));
    }
    let mut mixed = Vec::new();
    for i in 0..4_096 {
        if i % 8 == 0 {
            mixed.push(Move(rng.below(400)));
        }
        mixed.push([bytes[i], bytes[i], fours[i], copies[i]][rng.below(4) as usize]);
    }
    cases.push(case(rng, 512, [list(&mixed)]));
    cases.push(case(rng, 512, [list(&[mixed, vec![Byte(0xB1)]].concat())]));
    // Pieces that put none, four or many bytes are one each; a move is none.
    for (front, middle, back) in [
        (vec![], 4_096, vec![Copies(0, 9)]),
        (vec![Copies(0, 9)], 4_096, vec![]),
        (vec![], 4_094, vec![Move(3), Copies(2, 9), Move(5)]),
        (vec![], 4_094, vec![Four([9; 4]), Move(0), Copies(300, 9)]),
        (vec![], 4_096, vec![Move(3)]),
    ] {
        cases.push(case(rng, 8_192, [list(&[front, row(middle), back].concat())]));
    }
    // Few pieces.
    cases.push(case(rng, 512, [255, 256, 257].map(|count| list(&vec![Byte(count as u8); count]))));
    cases
}

/// Number 19: places at the memory's end, past it, and near 2^32.
pub fn places() -> Vec<Case> {
    let mut rng = family_rng("load 19");
    let rng = &mut rng;
    let mut cases = Vec::new();
    for length in [512, 1_024, 4_608, 65_536] {
        let mut sized = pieces(rng).map(|piece| (piece.bytes().len() as u32, piece)).to_vec();
        sized.extend([(1, Copies(1, 0x61)), (2, Copies(2, 0x62)), (255, Copies(255, 0x63)), (512, Copies(512, 0x64))]);
        for (size, piece) in sized {
            // The last byte is inside; the last byte is outside; only the first byte is inside; none is.
            let good = list(&[Move(length - size), piece]);
            let mut ends = vec![length - size + 1, length - 1, length, length + 1];
            ends.retain(|at| at + size > length);
            let mut lists: Vec<_> = ends.iter().map(|at| list(&[Byte(0x51), Move(*at), piece])).collect();
            // Far outside, at a place that is inside if some of its bits are lost, or its end is.
            for at in [length + 65_536, 0x0001_0000, 0x0100_0000, 0x0100_0008, 0x8000_0000, 0xFFFF_FFFF] {
                lists.push(list(&[Move(at), piece]));
            }
            for at in [0u32.wrapping_sub(size), 0u32.wrapping_sub(size - 1), 0u32.wrapping_sub(size + 1)] {
                lists.push(list(&[Move(at), piece, Move(0), Byte(0x52)]));
            }
            cases.push(case(rng, length, lists.clone()));
            lists.push(good);
            cases.push(case(rng, length, lists));
        }
    }
    cases.extend(walked_out(rng));
    cases.extend(nothing_outside(rng));
    cases
}

/// Puts that leave memory without a move, and refused lists whose first pieces are fine.
fn walked_out(rng: &mut Rng) -> Vec<Case> {
    let mut cases = Vec::new();
    for length in [512, 1_536] {
        let last = length - 1;
        for piece in pieces(rng) {
            cases.push(case(rng, length, [list(&[Move(last), Byte(0x71)]), list(&[Move(last), Byte(0x72), piece])]));
            cases.push(case(rng, length, [list(&[Move(last - 4), Four([0x73; 4]), piece])]));
            cases.push(case(rng, length, [list(&[Copies(length as u16, 0x74), piece])]));
            cases.push(case(rng, length, [list(&[Byte(1), Move(length), piece, Move(8), Byte(2), Byte(3)])]));
        }
        cases.push(case(rng, length, [list(&[Copies(length as u16, 0x75)])]));
        cases.push(case(rng, length, [list(&[Copies(length as u16 + 1, 0x76)])]));
        cases.push(case(rng, length, [list(&[Byte(5), Copies(length as u16, 0x77)])]));
        cases.push(case(rng, length, [list(&[Move(length - 300), Copies(300, 0x78), Copies(0, 0), Move(1), Byte(6)])]));
    }
    // A whole memory byte by byte, then one byte more.
    cases.push(case(rng, 512, [list(&row(512))]));
    cases.push(case(rng, 512, [list(&row(513))]));
    cases.push(case(rng, 512, [list(&[Four([0x31, 0x32, 0x33, 0x34]); 128])]));
    cases.push(case(rng, 512, [list(&[Four([0x31, 0x32, 0x33, 0x34]); 129])]));
    cases.push(case(rng, 65_536, [list(&[Move(65_530), Byte(1), Copies(65_535, 0x79)])]));
    cases.push(case(rng, 65_536, [list(&[Move(2), Copies(65_535, 0x7A)])]));
    cases.push(case(rng, 512, [list(&[Move(8), Copies(65_535, 0x7B)])]));
    cases
}

/// Places outside where nothing is put: that is no put outside memory.
fn nothing_outside(rng: &mut Rng) -> Vec<Case> {
    let mut cases = Vec::new();
    for length in [512, 2_048, 65_536] {
        for at in [length, length + 1, length + 511, 0x0100_0000, 0x8000_0000, 0xFFFF_FFFE, 0xFFFF_FFFF] {
            let none = Copies(0, 0x81);
            let lists = [
                list(&[Byte(0x82), Move(at)]),
                list(&[Move(at), none]),
                list(&[Move(at), none, none, Move(4), Byte(0x83)]),
                list(&[Move(at), Move(9), Four([0x84, 0x85, 0x86, 0x87])]),
            ];
            cases.push(case(rng, length, lists));
            // A put after all, at that place or one past it.
            cases.push(case(rng, length, [list(&[Byte(0x88), Move(at), none, Byte(0x89)])]));
            cases.push(case(rng, length, [list(&[Byte(0x8A), Move(at), Byte(0x8B), Byte(0x8C)])]));
        }
    }
    cases
}

/// 1, 17, 18, 19 in this order, and lengths that 1 refuses.
pub fn orders() -> Vec<Case> {
    let mut rng = family_rng("load orders");
    let rng = &mut rng;
    let mut cases = Vec::new();
    let good = list(&[Move(2), Byte(0x91), Four([0x92; 4]), Copies(3, 0x93)]);
    let outside = [Byte(0x94), Move(0x00F0_0000), Byte(0x95)];
    for length in [0, 1, 2, 80, 511, 513, 767, 1_023, 1_025, 4_100, 65_024 + 1, 65_535] {
        let lists = [good.clone(), list(&[]), vec![], vec![2, 1, 9, 0], vec![3, 1], list(&outside), [0; 2].to_vec()];
        cases.push(case(rng, length, lists));
    }
    cases.push(case(rng, 513, [list(&row(4_097))]));
    cases.push(case(rng, 0, [unended(&[&outside[..], &row(4_097)].concat())]));
    // 17 in each way, with a put outside before it, and after it where it can be.
    let broken =
        [&[][..], &[0x05, 0], &[0xFF, 0], &[1, 0, 0, 0], &[2], &[3, 1, 2, 3], &[4, 0], &[4, 0, 1], &[0, 0], &[0, 2]];
    for way in broken {
        let piece = pieces(rng)[rng.below(3) as usize];
        let far = Move(rng.pick(&[512, 513, 0x0100_0000, 0xFFFF_FFFF]));
        let lists = [
            [unended(&outside), way.to_vec()].concat(),
            [unended(&[Byte(0x97), far, piece]), way.to_vec()].concat(),
            [way, &list(&outside)].concat(),
        ];
        cases.push(case(rng, 512, lists));
    }
    // 17 after too many pieces: a list with 5,000 of them that is cut short.
    for (count, way) in [(4_097, 0), (5_000, 0), (4_097, 1), (4_096, 4), (4_097, 6), (4_097, 8)] {
        cases.push(case(rng, 8_192, [[unended(&row(count)), broken[way].to_vec()].concat()]));
    }
    // 17 before too many pieces.
    cases.push(case(rng, 8_192, [[vec![0x06], list(&row(4_097))].concat()]));
    // 18 and 19: the put outside as the first, as number 4,096, and when there are too many already.
    for place in [0, 4_095, 4_120] {
        let [front, back] = [row(place), row(4_130 - place)];
        let commands = [front, vec![Move(0x0001_0000), Byte(0x98), Move(0)], back].concat();
        cases.push(case(rng, 8_192, [list(&commands)]));
    }
    // Too many pieces run out of the memory; as many as are allowed do.
    cases.push(case(rng, 4_096, [list(&row(4_097))]));
    cases.push(case(rng, 3_584, [list(&row(4_096))]));
    // All three at once.
    cases.push(case(rng, 512, [[unended(&[&outside[..], &row(4_100)].concat()), vec![0x44]].concat()]));
    cases
}
