//! `desk load FILE`, and `desk load FIRST --with SECOND`.

use crate::image::{self, complaint, Complaint};
use crate::{hex, options, output, setup};
use std::io::{self, BufWriter, Write};
use std::path::Path;

pub fn main(arguments: &[String]) -> u8 {
    let given = match options::take("load", arguments) {
        Ok(given) => given,
        Err(status) => return status,
    };
    let length = match setup::memory_length(&given) {
        Ok(length) => length,
        Err(sentence) => return options::usage("load", &sentence),
    };
    let file = setup::file(&given);
    match given.value("--with") {
        None => match list(file) {
            Ok(list) => written(|out| super::show(out, &options::shown(file), &list, length)),
            Err(complaints) => output::complain(&complaints),
        },
        Some(second) => {
            if let Some(source) = [file, second].into_iter().find(|file| is_source(file)) {
                let source = options::clean(source);
                let sentence = format!("--with takes load lists, and '{source}' is a source; `desk asm` makes lists");
                return options::usage("load", &sentence);
            }
            match list(file).and_then(|first| Ok((first, list(second)?))) {
                Ok((one, other)) => {
                    let (first, second) = (options::clean(file), options::clean(second));
                    written(|out| super::show_both(out, (&first, &one), (&second, &other), length))
                }
                Err(complaints) => output::complain(&complaints),
            }
        }
    }
}

/// Writes to standard output, and gives the exit status.
fn written(write: impl Fn(&mut dyn Write) -> io::Result<u8>) -> u8 {
    let mut out = BufWriter::new(io::stdout().lock());
    write(&mut out).and_then(|status| out.flush().map(|()| status)).unwrap_or(output::CANNOT_WRITE)
}

fn is_source(file: &str) -> bool {
    image::ending(Path::new(file)) == "mi"
}

/// The bytes of a list, whatever its name is; of commented hexadecimal the bytes that it gives.
fn list(file: &str) -> Result<Vec<u8>, Vec<Complaint>> {
    let path = Path::new(file);
    match image::ending(path).as_str() {
        "mi" => {
            let sentence = "is a source; `desk asm SOURCE -o FILE.load` makes a load list of one";
            Err(vec![complaint(file, 0, 0, sentence.to_string())])
        }
        "hex" => hex::bytes(file, &image::read(path)?),
        _ => image::read(path),
    }
}
