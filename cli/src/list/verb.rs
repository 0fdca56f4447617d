//! `desk list FILE`.

use crate::{options, output, setup};

pub fn main(arguments: &[String]) -> u8 {
    let given = match options::take("list", arguments) {
        Ok(given) => given,
        Err(status) => return status,
    };
    let image = match setup::image("list", &given) {
        Ok(image) => image,
        Err(status) => return status,
    };
    let files = setup::files(&given);
    let title = files.iter().map(|file| options::shown(file)).collect::<Vec<_>>().join(" with ");
    let text = match given.has("--plain") {
        true => super::plain(&image, &title),
        false => super::listing(&image, &title),
    };
    match given.value("--output") {
        None if output::out(&text) => 0,
        None => output::CANNOT_WRITE,
        Some(target) => output::write(&files, target, text.as_bytes()),
    }
}
