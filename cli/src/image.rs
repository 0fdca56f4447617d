//! What a FILE is: a source (.mi), commented hexadecimal (.hex), a load list (.load) or the bytes themselves, into one
//! image.

use crate::names::Names;
use crate::table::Size;
use crate::{asm, hex, list, output};
use midesk::Refusal;
use std::fmt;
use std::fs::File;
use std::io::Read;
use std::path::Path;

/// A memory with where a fresh desk finds its blocks and starts, and with what is known of it.
#[derive(Clone, PartialEq, Eq, Debug)]
pub struct Image {
    pub memory: Vec<u8>,
    pub system: u32,
    pub control: u32,
    pub start: u32,
    /// Names of real addresses.
    pub names: Names,
    pub programs: Vec<Program>,
    pub lines: Vec<SourceLine>,
    /// The lines inside of blocks and maps, ON and PAGE, likewise.
    pub entries: Vec<SourceLine>,
    /// Whether names and programs are those that a listing makes, since the file brings none.
    pub names_are_made: bool,
    /// What may be wrong with the file.
    pub warnings: Vec<Complaint>,
}

/// A user program: a control block with its map.
#[derive(Clone, PartialEq, Eq, Debug)]
pub struct Program {
    pub name: String,
    pub control_block: u32,
    pub map_base: u32,
    pub map_length: u32,
    /// Names of its virtual addresses.
    pub names: Names,
}

/// The line of the source that gave the bytes from a real address on.
#[derive(Clone, PartialEq, Eq, Debug)]
pub struct SourceLine {
    pub address: u32,
    pub line: usize,
    pub text: String,
    /// Whether it is a command.
    pub is_command: bool,
    /// The virtual address, where the segment has AT.
    pub at: Option<u32>,
    /// The size of the first value, where it is data.
    pub size: Option<Size>,
}

/// What is wrong with a file, and where. Line and column count from 1; 0 where there is none.
#[derive(Clone, PartialEq, Eq, Debug)]
pub struct Complaint {
    pub file: String,
    pub line: usize,
    pub column: usize,
    pub sentence: String,
    pub reason: Reason,
}

/// Why a file is not used: for the exit status.
#[derive(Clone, Copy, PartialEq, Eq, Debug)]
pub enum Reason {
    /// Its content is not usable.
    Content,
    /// It could not be read at all.
    Unread,
    /// The library refused it.
    Refused(Refusal),
}

impl fmt::Display for Complaint {
    fn fmt(&self, f: &mut fmt::Formatter<'_>) -> fmt::Result {
        match (self.line, self.column) {
            (0, _) => write!(f, "{}: {}", self.file, self.sentence),
            (line, 0) => write!(f, "{}:{line}: {}", self.file, self.sentence),
            (line, column) => write!(f, "{}:{line}:{column}: {}", self.file, self.sentence),
        }
    }
}

impl Complaint {
    /// As it is written where the file can be used all the same.
    pub fn as_warning(&self) -> String {
        Complaint { sentence: format!("warning: {}", self.sentence), ..self.clone() }.to_string()
    }
}

pub const LARGEST: usize = 16_777_216;

/// The image of a file. The memory is filled up with zeros to a multiple of 512, at least 512.
pub fn load(path: &Path) -> Result<Image, Vec<Complaint>> {
    load_into(path, None, None)
}

/// The image of a file. A load list is loaded into a memory of this length, if one is given, and together with the second
/// list, if there is one; the others do not heed that.
pub fn load_into(path: &Path, second: Option<&Path>, length: Option<usize>) -> Result<Image, Vec<Complaint>> {
    let file = path.display().to_string();
    match ending(path).as_str() {
        "mi" => Ok(asm::assemble(&file, &text(path, read_whole(path)?)?)?.image),
        "hex" => named(&file, hex::bytes(&file, &read_whole(path)?)?, Vec::new()),
        crate::load::ENDING => {
            let list = read(path)?;
            let memory = match second {
                None => crate::load::memory(&list, length).map_err(|refused| refused.complaints(&file))?,
                Some(second) => {
                    let (other, name) = (read(second)?, second.display().to_string());
                    let loaded = crate::load::both(&list, &other, length);
                    loaded.map_err(|refused| refused.complaints(&file, &name))?
                }
            };
            named(&file, memory, Vec::new())
        }
        ending => {
            let bytes = read_whole(path)?;
            let warnings = match is_text(&bytes) {
                true if ending == "bin" => vec![complaint(&file, 0, 0, IS_TEXT_ALL_THE_SAME.to_string())],
                true => return Err(vec![complaint(&file, 0, 0, IS_TEXT.to_string())]),
                false => Vec::new(),
            };
            named(&file, bytes, warnings)
        }
    }
}

const IS_TEXT: &str = "this is text, and its name is that of a file of bytes: the name of a source ends in .mi, that of commented hexadecimal in .hex (that of bytes which look like text in .bin)";
const IS_TEXT_ALL_THE_SAME: &str =
    "this is text, and is taken as bytes: the name of a source ends in .mi, that of commented hexadecimal in .hex";

/// The ending of a name, in small letters.
pub fn ending(path: &Path) -> String {
    path.extension().and_then(|ending| ending.to_str()).unwrap_or("").to_ascii_lowercase()
}

/// Whether bytes are printable characters and line ends alone.
pub fn is_text(bytes: &[u8]) -> bool {
    let plain = |byte: &u8| matches!(byte, b' '..=b'~' | b'\t' | b'\n' | b'\r' | 0x80..);
    bytes.iter().all(plain) && std::str::from_utf8(bytes).is_ok()
}

/// The image of bytes, with the names that a listing makes.
fn named(file: &str, bytes: Vec<u8>, warnings: Vec<Complaint>) -> Result<Image, Vec<Complaint>> {
    if bytes.len() > LARGEST {
        let sentence = format!("has more than the {LARGEST} bytes of the largest memory");
        return Err(vec![complaint(file, 0, 0, sentence)]);
    }
    let mut image = Image { warnings, names_are_made: true, ..of_bytes(bytes) };
    image.make_names();
    Ok(image)
}

impl Image {
    /// Makes the names anew where the file brings none: after memory, blocks or start have changed.
    pub fn make_names(&mut self) {
        if self.names_are_made {
            (self.names, self.programs) = list::made_names(self);
        }
    }
}

/// The largest file that is read: a source of that length has more lines than any memory needs.
const LARGEST_FILE: u64 = 1 << 28;

/// The bytes of a file.
pub fn read(path: &Path) -> Result<Vec<u8>, Vec<Complaint>> {
    let file = path.display().to_string();
    let wrong = |sentence: String| vec![Complaint { reason: Reason::Unread, ..complaint(&file, 0, 0, sentence) }];
    let opened = File::open(path).map_err(|e| wrong(format!("cannot be read: {}", output::reason(&e))))?;
    let mut content = Vec::new();
    opened
        .take(LARGEST_FILE + 1)
        .read_to_end(&mut content)
        .map_err(|e| wrong(format!("cannot be read: {}", output::reason(&e))))?;
    match content.len() as u64 <= LARGEST_FILE {
        true => Ok(content),
        false => Err(wrong(format!("has more than {LARGEST_FILE} bytes"))),
    }
}

/// The bytes of a file that has some.
fn read_whole(path: &Path) -> Result<Vec<u8>, Vec<Complaint>> {
    let bytes = read(path)?;
    match bytes.is_empty() {
        true => Err(vec![complaint(&path.display().to_string(), 0, 0, "is empty".to_string())]),
        false => Ok(bytes),
    }
}

/// Some editors begin a text with it.
const BYTE_ORDER_MARK: &[u8] = b"\xEF\xBB\xBF";

/// A file as text.
pub fn read_text(path: &Path) -> Result<String, Vec<Complaint>> {
    text(path, read(path)?)
}

fn text(path: &Path, mut bytes: Vec<u8>) -> Result<String, Vec<Complaint>> {
    if bytes.starts_with(BYTE_ORDER_MARK) {
        bytes.drain(..BYTE_ORDER_MARK.len());
    }
    String::from_utf8(bytes).map_err(|e| {
        let before = e.as_bytes().get(..e.utf8_error().valid_up_to()).unwrap_or(&[]);
        let line = 1 + before.iter().filter(|byte| **byte == b'\n').count();
        let sentence = "this line is no text (UTF-8); a file of bytes must not end in .mi".to_string();
        vec![complaint(&path.display().to_string(), line, 0, sentence)]
    })
}

pub fn complaint(file: &str, line: usize, column: usize, sentence: String) -> Complaint {
    Complaint { file: file.to_string(), line, column, sentence, reason: Reason::Content }
}

/// The least memory that has room for so many bytes: whole frames, at least one.
pub fn whole_frames(bytes: usize) -> usize {
    bytes.div_ceil(512).max(1) * 512
}

/// The image of plain bytes, with blocks and start where `trace` has them.
pub fn of_bytes(mut memory: Vec<u8>) -> Image {
    let length = whole_frames(memory.len());
    memory.resize(length, 0);
    Image {
        memory,
        system: 0,
        control: 0x100,
        start: 0x200,
        names: Names::none(),
        programs: Vec::new(),
        lines: Vec::new(),
        entries: Vec::new(),
        names_are_made: false,
        warnings: Vec::new(),
    }
}
