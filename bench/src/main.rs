//! The library's times, side by side with two Rust implementations of the same services, in one process.
//!
//! `--ms N` gives each row N milliseconds; `--table NAME` prints one table: packages, letters, formulas, bytes,
//! growth, fields or leading.

mod fields;
mod inputs;
mod leading;
mod letters;
mod long_fronts;
mod many_inclusions;
mod many_overlaps;
mod measure;
mod near_bounds;
mod peers;
mod random;
mod single_words;
mod tables;
mod timing;
mod untrimmed;

use inputs::Named;
use std::env;
use std::time::Duration;
use timing::Effort;

fn main() {
    let arguments: Vec<String> = env::args().skip(1).collect();
    let option = |name: &str| {
        let place = arguments.iter().position(|argument| argument == name)?;
        arguments.get(place + 1)
    };
    let ms = option("--ms").map_or(300, |ms| ms.parse().expect("--ms N"));
    let effort = Effort { row: Duration::from_millis(ms) };
    let wanted = |table: &str| option("--table").is_none_or(|name| name == table);

    let mut packages = inputs::packages();
    packages.push(Named { name: "near every bound".into(), bytes: near_bounds::package(65_521, 31, 65_536) });
    packages.push(Named { name: "untrimmed".into(), bytes: untrimmed::package() });
    let words = [
        Named { name: "many overlaps".into(), bytes: many_overlaps::package() },
        Named { name: "many inclusions".into(), bytes: many_inclusions::package() },
        Named { name: "long fronts".into(), bytes: long_fronts::package() },
    ];
    if wanted("packages") {
        tables::packages(effort, packages.iter().chain(&words));
    }
    if wanted("letters") {
        letters::table(packages.iter().chain(&words));
    }
    if wanted("formulas") {
        tables::formulas(effort, &packages, inputs::stored_formulas);
    }
    if wanted("bytes") {
        tables::growing_packages(effort);
    }
    if wanted("growth") {
        tables::growing_formulas(effort, &packages);
    }
    if wanted("fields") {
        fields::table(effort, &packages);
    }
    if wanted("leading") {
        leading::table(effort, &packages);
    }
}
