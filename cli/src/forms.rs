//! The nine forms of an operand: which of x, y and z each one uses, and the rules behind alarm 14.

use crate::decode::Fields;
use crate::table::{Operand, Role, Size};

/// A form. What it does not use must be 0.
#[derive(Clone, Copy, PartialEq, Eq, Debug)]
pub struct Form {
    pub number: u8,
    pub x: bool,
    pub y: bool,
    pub z: bool,
    /// As a source writes it, and what it is.
    pub written: &'static str,
    pub is: &'static str,
}

pub const ADDRESS: u8 = 0;
pub const VALUE: u8 = 1;
pub const REGISTER: u8 = 2;
pub const BASE: u8 = 3;
pub const BASE_INDEX: u8 = 4;
pub const INDIRECT: u8 = 5;
pub const INDIRECT_INDEX: u8 = 6;
pub const STEP_DOWN: u8 = 7;
pub const STEP_UP: u8 = 8;

const fn form(number: u8, x: bool, y: bool, z: bool, written: &'static str, is: &'static str) -> Form {
    Form { number, x, y, z, written, is }
}

pub const FORMS: [Form; 9] = [
    form(ADDRESS, false, false, true, "400h", "at address 400h; a name is an address too"),
    form(VALUE, false, false, true, "I 5", "the value 5 itself, for F also `I 1.5`; none for D"),
    form(REGISTER, true, false, false, "R1", "register 1, for D registers 1 and 2; SP is R14, PC is R15"),
    form(BASE, true, false, true, "8+!R1", "at address 8 + R1; `!R1` without the 8"),
    form(BASE_INDEX, true, true, true, "8+!R1/R2/", "at address 8 + R1 + R2 x L, L being the operand's bytes"),
    form(INDIRECT, true, false, true, "!(8+!R1)", "at the address in the word at 8 + R1; `!!R1` without the 8"),
    form(INDIRECT_INDEX, true, true, true, "!(8+!R1)/R2/", "at that address + R2 x L"),
    form(STEP_DOWN, true, false, false, "-!R1", "R1 := R1 - L, then at address R1"),
    form(STEP_UP, true, false, false, "!R1+", "at address R1, then R1 := R1 + L"),
];

/// The forms as `desk help asm` shows them.
pub const SUMMARY: [(&str, &str); FORMS.len()] = {
    let mut summary = [("", ""); FORMS.len()];
    let mut i = 0;
    while i < FORMS.len() {
        summary[i] = (FORMS[i].written, FORMS[i].is);
        i += 1;
    }
    summary
};

/// Whether the fields keep the rules of their form and the form is one that the role allows; else alarm 14.
pub fn allowed(fields: &Fields, operand: Operand) -> bool {
    keeps_rules(fields, operand) && role_allows(fields.form, operand.role)
}

/// The forms that have no address, and those that cannot be written, are not for every role.
pub fn role_allows(form: u8, role: Role) -> bool {
    match role {
        Role::Value => true,
        Role::Destination | Role::Update => form != VALUE,
        Role::Address => form != VALUE && form != REGISTER,
    }
}

fn keeps_rules(fields: &Fields, operand: Operand) -> bool {
    let Some(form) = FORMS.get(usize::from(fields.form)) else { return false };
    let unused_are_zero = (form.x || fields.x == 0) && (form.y || fields.y == 0) && (form.z || fields.z == 0);
    let steps_r15 = matches!(fields.form, STEP_DOWN | STEP_UP) && fields.x == 15;
    let too_large = fields.form == VALUE && fields.z > operand.size.highest();
    unused_are_zero && !steps_r15 && !too_large && size_allows(fields.form, fields.x, operand.size)
}

/// A D does not fit in z, and not every register holds a floating number.
pub fn size_allows(form: u8, x: u8, size: Size) -> bool {
    match form {
        VALUE => size != Size::D,
        REGISTER => x <= size.last_register(),
        _ => true,
    }
}
