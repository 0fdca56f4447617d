//! `desk asm SOURCE -o FILE`.

use crate::image::{self, complaint, Complaint, Reason};
use crate::load::{self, MOST_PIECES};
use crate::{hex, options, output, words};
use std::io::IsTerminal;
use std::path::Path;

pub fn main(arguments: &[String]) -> u8 {
    let given = match options::take("asm", arguments) {
        Ok(given) => given,
        Err(status) => return status,
    };
    let (Some(source), Some(target)) = (given.operands.first(), given.value("--output")) else {
        return options::usage("asm", "it needs a file for the bytes, -o FILE");
    };
    let as_list = image::ending(Path::new(target)) == load::ENDING;
    let bytes = match bytes(source, as_list) {
        Err(complaints) => return output::complain(&complaints),
        Ok((bytes, warnings)) => {
            output::warn(&warnings);
            bytes
        }
    };
    let status = output::write(&[source], target, &bytes);
    if status == 0 && std::io::stderr().is_terminal() {
        output::err(&format!("{}: {} bytes\n", options::shown(target), bytes.len()));
    }
    status
}

/// What is written of a source, its bytes or their load list, and what may be wrong with it.
fn bytes(source: &str, as_list: bool) -> Result<(Vec<u8>, Vec<Complaint>), Vec<Complaint>> {
    let path = Path::new(source);
    match image::ending(path).as_str() {
        "hex" => return Ok((hexadecimal(source, as_list)?, Vec::new())),
        load::ENDING => {
            let sentence = "is a load list, and no source; `desk list FILE` writes a source of what it loads";
            return Err(vec![complaint(source, 0, 0, sentence.to_string())]);
        }
        _ => {}
    }
    let assembled = super::assemble(source, &image::read_text(path)?)?;
    let bytes = match as_list {
        true => list(source, &assembled)?,
        false => assembled.bytes,
    };
    Ok((bytes, assembled.image.warnings.into_iter().chain(assembled.past_memory).collect()))
}

/// Commented hexadecimal has no segments, so its bytes are written as they are: those of a list must be one.
fn hexadecimal(source: &str, as_list: bool) -> Result<Vec<u8>, Vec<Complaint>> {
    let bytes = hex::bytes(source, &image::read(Path::new(source))?)?;
    let refused = if as_list { load::memory(&bytes, None).err() } else { None };
    match refused {
        None => Ok(bytes),
        Some(refused) => {
            let sentence = "these bytes, which are written as they are, are no load list that can be loaded";
            let first =
                Complaint { reason: Reason::Refused(refused.refusal), ..complaint(source, 0, 0, sentence.to_string()) };
            Err(std::iter::once(first).chain(refused.complaints(source)).collect())
        }
    }
}

/// The load list of a source, if it has not too many pieces.
fn list(source: &str, assembled: &super::Assembled) -> Result<Vec<u8>, Vec<Complaint>> {
    let packed = assembled.load_list();
    if packed.is_allowed() {
        return Ok(packed.list);
    }
    let (pieces, most) = (words::count(packed.pieces), words::count(MOST_PIECES));
    let sentence = format!("its load list would have {pieces} pieces, and a list may have {most}; a FILE with another ending than .load gets the bytes themselves");
    Err(vec![complaint(source, 0, 0, sentence)])
}
