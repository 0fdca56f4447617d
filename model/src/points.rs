//! Lists of breakpoints, as cases and sequences have them.

use crate::state::Breakpoint;

/// The longest list in a case or sequence: 20 refuses from 65 on.
pub const LONGEST: usize = 70;

pub fn armed(r15: u32) -> Breakpoint {
    Breakpoint { r15, armed: true }
}

pub fn off(r15: u32) -> Breakpoint {
    Breakpoint { r15, armed: false }
}

/// The stored form: u32 number of breakpoints, then for each u32 R15 value, u8 armed (0 or 1).
pub fn bytes(points: &[Breakpoint]) -> Vec<u8> {
    assert!(points.len() <= LONGEST);
    let mut bytes = (points.len() as u32).to_be_bytes().to_vec();
    for point in points {
        bytes.extend(point.r15.to_be_bytes());
        bytes.push(u8::from(point.armed));
    }
    bytes
}
