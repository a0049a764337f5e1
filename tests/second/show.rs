//! "The printing program".

use crate::file::{check_file, Image};
use crate::refusal::Refusal;

pub fn show(text: &[u8]) -> String {
    match check_file(text) {
        Ok(image) => show_accepted(&image),
        Err(refusal) => show_refused(&refusal),
    }
}

fn show_refused(refusal: &Refusal) -> String {
    let Refusal {
        number,
        line,
        place,
    } = refusal;
    format!("refused {number} line {line} at {place}\n")
}

fn show_accepted(image: &Image) -> String {
    let mut out = format!(
        "ok {} {:08X} {} {}\n",
        image.kind.name(),
        image.identity(),
        image.lines.len(),
        image.configs
    );
    for config in 0..image.configs {
        let identifier = image.identifier(config);
        let crc = image.configuration_crc(config);
        out.push_str(&format!("{identifier:X} {crc:08X}\n"));
    }
    out
}
