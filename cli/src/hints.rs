//! Where to look after an alarm: which map entry, which block, which rule; and after the refusal of load lists.

use crate::decode::{Fields, Trouble};
use crate::diagnose::Finding;
use crate::effect;
use crate::forms;
use crate::image;
use crate::load::{self, Clash, Malformed, Wrong};
use crate::machine::{self, Known};
use crate::neighbours;
use crate::notation::{self, hexadecimal};
use crate::table::{self, Operand, Role, Size};
use crate::view::{self, Damage};
use crate::words;
use midesk::{numbers, Desk};

/// A line of where to look: a word for it, and the line.
#[derive(Clone, PartialEq, Eq, Debug)]
pub struct Hint {
    pub label: &'static str,
    pub text: String,
}

impl Hint {
    fn new(label: &'static str, text: String) -> Hint {
        Hint { label, text }
    }

    /// `page: page 3 is frame 6 ..`.
    pub fn line(&self) -> String {
        format!("{}: {}", self.label, self.text)
    }
}

/// The hints for a finding, what comes first first; `desk` is the desk before the command.
pub fn of(known: &Known, memory: &[u8], desk: &Desk, finding: Finding) -> Vec<Hint> {
    match finding {
        Finding::Cause(cause @ (8..=11 | numbers::NO_FETCH), address) if !no_stack(memory, desk) => {
            let gave = neighbours::address(known, memory, desk, cause, address);
            let mut hints: Vec<Hint> = gave.map(|words| Hint::new("address", words)).into_iter().collect();
            hints.push(match (desk.is_kernel(), cause) {
                (true, _) => Hint::new("memory", format!("it ends at {}", hexadecimal(memory.len() as u32))),
                (false, numbers::NO_FETCH) => Hint::new("map", entry_to_fetch(known, memory, desk, address)),
                (false, _) => Hint::new("map", entry(known, memory, desk, address)),
            });
            hints
        }
        _ => rule(memory, desk, finding).map(|words| Hint::new("look at", words)).into_iter().collect(),
    }
}

/// The rule that a finding is about, where it is not about an address.
fn rule(memory: &[u8], desk: &Desk, finding: Finding) -> Option<String> {
    match finding {
        Finding::Block(at) => Some(block(memory, at)),
        Finding::Cause(8..=11, _) => Some("SP is 0: it must be set before the first CALL or PUSHR".to_string()),
        Finding::Cause(12, byte) => Some(format!(
            "no command has the byte {}; perhaps a jump went astray, or the commands before it ran on into data",
            words::byte(byte)
        )),
        Finding::Cause(13, 3) => Some("a system call is for user mode; the kernel just goes on".to_string()),
        Finding::Cause(13, byte) => {
            Some(format!("{} is for kernel mode; a program ends by a system call", words::name(byte)))
        }
        Finding::Cause(14, place) => operand(memory, desk, place),
        Finding::Cause(15, _) => Some("the divisor, which is the first operand, is 0".to_string()),
        Finding::Cause(..) => None,
    }
}

/// Whether the command is one that puts something on the stack while SP is still 0.
fn no_stack(memory: &[u8], desk: &Desk) -> bool {
    let command = machine::command_at(desk, memory, desk.register(15));
    desk.register(14) == 0 && command.is_ok_and(|command| matches!(command.command.name, "CALL" | "PUSHR"))
}

/// What the map has for an address from which no command may be fetched.
fn entry_to_fetch(known: &Known, memory: &[u8], desk: &Desk, address: u32) -> String {
    let (base, page) = (desk.map_base(), address / 512);
    match view::real(memory, base, desk.map_length(), address) {
        Ok((real, rights)) if !rights.fetch => {
            let allowed = if rights.write { "reading and writing it are" } else { "reading it is" };
            let (map, entry) = (map_name(known, base), entry_words(memory, base, page));
            format!(
                "page {page} is frame {}, without the right to fetch, in {map} ({entry}); {allowed} allowed",
                real / 512
            )
        }
        _ => entry(known, memory, desk, address),
    }
}

/// `entry at 404h: A0000004h`.
fn entry_words(memory: &[u8], base: u32, page: u32) -> String {
    let at = base.wrapping_add(4 * page);
    format!("entry at {}: {:08X}h", hexadecimal(at), view::word(memory, at).unwrap_or(0))
}

/// What the map has for an address.
pub fn entry(known: &Known, memory: &[u8], desk: &Desk, address: u32) -> String {
    let (base, length) = (desk.map_base(), desk.map_length());
    let map = map_name(known, base);
    let at = hexadecimal(base.wrapping_add(4 * (address / 512)));
    match view::real(memory, base, length, address) {
        Ok((real, rights)) if !rights.write => {
            let (page, frame) = (address / 512, real / 512);
            let entry = entry_words(memory, base, page);
            format!("page {page} is frame {frame}, which may only be read, in {map} ({entry})")
        }
        Ok((real, _)) => {
            format!("page {} is frame {}, which may be written, in {map} (entry at {at})", address / 512, real / 512)
        }
        Err(Damage::PastMap { page }) if length == 0 => {
            format!("there is no page {page}: the map is empty (map length 0)")
        }
        Err(Damage::PastMap { page }) => {
            format!("there is no page {page} in {map}: it has {}, up to {}", pages(length), up_to(length))
        }
        Err(Damage::Absent { page, entry }) => format!("page {page} is absent in {map} (entry at {at}: {entry:08X}h)"),
        Err(Damage::ForbiddenBits { page, entry }) => {
            format!("page {page} is damaged in {map}: bits 28 to 24 must be 0 (entry at {at}: {entry:08X}h)")
        }
        Err(Damage::PastMemory { page, frame }) => {
            let frames = memory.len() / 512;
            format!(
                "page {page} is damaged in {map}: it names frame {frame}, and the memory has {frames} (entry at {at})"
            )
        }
        Err(Damage::NoMap { page }) => format!("page {page} has no entry: {map} is not in the memory"),
    }
}

/// `map mapA`, `the map at 400h`.
pub fn map_name(known: &Known, base: u32) -> String {
    match known.real.name_of(base) {
        Some(name) => format!("map {name}"),
        None => format!("the map at {}", hexadecimal(base)),
    }
}

/// `4 pages`.
pub fn pages(length: u32) -> String {
    words::counted(u64::from(length), "page", "pages")
}

fn up_to(length: u32) -> String {
    match u32::try_from((u64::from(length) * 512).saturating_sub(1)) {
        Ok(last) => format!("address {}", hexadecimal(last)),
        Err(_) => "the last address".to_string(),
    }
}

/// Why RESUME cannot use the block at an address.
pub fn block(memory: &[u8], at: u32) -> String {
    let place = hexadecimal(at);
    let word = |offset: usize| at.checked_add(offset as u32).and_then(|at| view::word(memory, at));
    let Some((status, base, length)) = word(numbers::CONTROL_STATUS)
        .zip(word(numbers::CONTROL_MAP_BASE))
        .zip(word(numbers::CONTROL_MAP_LENGTH))
        .map(|((status, base), length)| (status, base, length))
    else {
        return format!("RESUME's block at {place} does not lie in the memory with its 80 bytes");
    };
    let end = u64::from(base) + 4 * u64::from(length);
    if !at.is_multiple_of(4) {
        format!("RESUME's block is at {place}, which is no multiple of 4")
    } else if !base.is_multiple_of(4) {
        format!(
            "the block at {place} has the map base {}, which is no multiple of 4 (at {})",
            hexadecimal(base),
            hexadecimal(at + 72)
        )
    } else if end > memory.len() as u64 {
        format!(
            "the block at {place} has a map that does not lie in the memory: map base {}, {} (at {})",
            hexadecimal(base),
            pages(length),
            hexadecimal(at + 72)
        )
    } else {
        format!("the block at {place} has the status {status:08X}h, which is no user status: 80000000h and bits 7FFFFF00h must be clear (at {})", hexadecimal(at + 64))
    }
}

/// Which rule the operand at a place, from 1, breaks.
fn operand(memory: &[u8], desk: &Desk, place: u32) -> Option<String> {
    let fetch = |at: u32| effect::byte(desk, memory, at);
    let address = desk.register(15);
    let command = table::command(fetch(address)?)?;
    let rule = command.operands.get(usize::try_from(place).ok()?.checked_sub(1)?)?;
    let first = address.wrapping_add(6 * place - 5);
    let mut six = [0; 6];
    for (i, byte) in six.iter_mut().enumerate() {
        *byte = fetch(first.wrapping_add(i as u32))?;
    }
    let broken = rule_of(&Fields::of_bytes(six), *rule)?;
    Some(format!("operand {place} of {} (six bytes at {}): {broken}", command.title(), hexadecimal(first)))
}

/// The rule that an operand breaks.
pub fn rule_of(fields: &Fields, rule: Operand) -> Option<String> {
    let Some(form) = forms::FORMS.get(usize::from(fields.form)) else {
        return Some(format!("there is no form {}; the forms are 0 to 8", fields.form));
    };
    let named = format!("form {}, as in `{}`,", form.number, form.written);
    let unused = [("x", form.x || fields.x == 0), ("y", form.y || fields.y == 0), ("z", form.z || fields.z == 0)];
    if let Some((field, _)) = unused.iter().find(|(_, fine)| !fine) {
        return Some(format!("{named} does not use {field}, which must be 0"));
    }
    if matches!(fields.form, forms::STEP_DOWN | forms::STEP_UP) && fields.x == 15 {
        return Some(format!("{named} cannot step R15"));
    }
    if fields.form == forms::VALUE && fields.z > rule.size.highest() {
        return Some(format!("the value {} does not fit in its size", hexadecimal(fields.z)));
    }
    if !forms::size_allows(fields.form, fields.x, rule.size) {
        return Some(match (fields.form, rule.size) {
            (forms::VALUE, _) => format!("{named} has no room for a D: put the number in memory"),
            (_, Size::D) => {
                let register = notation::register(fields.x);
                format!("{named} is two registers for D, {register} and the next, and SP and R15 are none for it; the first may be R0 to R13")
            }
            _ => format!("{named} cannot be R15 for F, a floating number; it may be R0 to R14"),
        });
    }
    match rule.role {
        _ if forms::role_allows(fields.form, rule.role) => None,
        Role::Address => Some(format!("{named} has no address, and one is needed")),
        _ => Some(format!("{named} cannot be written to")),
    }
}

/// Where to look in a load list that is refused, alone or with another.
pub fn of_list(wrong: &Wrong, list: &[u8], other: Option<&[u8]>) -> Hint {
    let text = match wrong {
        Wrong::Malformed(Malformed::Unknown { .. }) if image::is_text(list) => {
            "this is text; commented hexadecimal, whose name ends in .hex, becomes a list by `desk asm FILE.hex -o FILE.load`".to_string()
        }
        Wrong::Malformed(Malformed::Unknown { .. }) => {
            "the commands before it, which `desk load FILE` shows: one may lack a byte or have one too many".to_string()
        }
        Wrong::Malformed(Malformed::CutShort { .. } | Malformed::NoEnd { .. }) => {
            "the file's length: its end may be missing, or a command before it lack a byte".to_string()
        }
        Wrong::Malformed(Malformed::After { .. }) => {
            "the 00h: where it is no end, a command before it has a byte too many; two lists are two files, and --with takes the second".to_string()
        }
        Wrong::Pieces { .. } => {
            "how bytes are put: one 03h puts four bytes, one 04h up to 65,535 copies of a byte".to_string()
        }
        Wrong::Outside { put, .. } if put.end() > image::LARGEST as u64 => {
            format!("the place, since no memory is longer than {}", load::length_words(image::LARGEST))
        }
        Wrong::Outside { .. } => {
            let (puts, length) = match other {
                None => ("the list puts", load::least_length(list)),
                Some(other) => ("the two lists put", load::least_length_of_both(list, other)),
            };
            format!("--memory, since all that {puts} needs {}", load::length_words(length))
        }
    };
    Hint::new("look at", text)
}

/// What to do about two load lists that clash.
pub fn of_clash(clash: &Clash) -> Hint {
    let all = match clash.count {
        1 => "",
        _ => "; `desk load FIRST --with SECOND` shows all addresses that clash",
    };
    let zeros = match (clash.first.0, clash.second.0) {
        (0, _) | (_, 0) => "; a list that `desk asm` makes puts zeros for RES and ALI, and one for MEMORY",
        _ => "",
    };
    let text = "which list has the right byte there: the other must put the same byte last, or none";
    Hint::new("look at", format!("{text}{all}{zeros}"))
}

/// What there is instead of a command.
pub fn trouble(kernel: bool, trouble: &Trouble) -> String {
    match trouble {
        Trouble::Unreadable(at) if kernel => format!("(past the memory: {})", hexadecimal(*at)),
        Trouble::Unreadable(at) => format!("(cannot be read: {})", hexadecimal(*at)),
        Trouble::NoFetch(at) => format!("(cannot be fetched: {})", hexadecimal(*at)),
        Trouble::Unknown(byte) => format!("(unknown command byte {})", words::byte(u32::from(*byte))),
        Trouble::Form { place, .. } => format!("(operand {place} breaks a rule)"),
    }
}
