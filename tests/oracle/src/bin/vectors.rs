//! Runs the oracle on stored cases: `vectors --cases FILE`, one flat JSON object a line.
//!
//! A case has `service` (check, list_overlaps, short_form, member, print), `package` and `formula` in hex,
//! `budget` and `out_len`, and its answer: `number` and `place`, then `overlaps`, `count`, `steps` and `yes`
//! where the service has them, and `output` in hex, or of a long one `output_len` and `output_sha256`.

use oracle::json::{hex, object, Object};
use oracle::services;
use oracle::sha256::sha256;
use std::collections::BTreeMap;
use std::process::exit;

fn main() {
    let arguments: Vec<String> = std::env::args().skip(1).collect();
    let [option, file] = arguments.as_slice() else {
        stop("usage: vectors --cases FILE");
    };
    if option != "--cases" {
        stop("usage: vectors --cases FILE");
    }
    let text = std::fs::read_to_string(file).unwrap_or_else(|error| stop(&format!("{file}: {error}")));
    let mut agreed: BTreeMap<String, usize> = BTreeMap::new();
    let mut differing = 0;
    for line in text.lines() {
        let case = object(line).unwrap_or_else(|| stop(&format!("not a flat object: {line}")));
        match difference(&case) {
            None => *agreed.entry(case["service"].clone()).or_default() += 1,
            Some(message) => {
                println!("case {} ({}): {message}", case["id"], case["label"]);
                differing += 1;
            }
        }
    }
    println!("agreed: {agreed:?}, {} in all; differing: {differing}", agreed.values().sum::<usize>());
    exit(i32::from(differing > 0));
}

fn stop(message: &str) -> ! {
    eprintln!("{message}");
    exit(2)
}

/// Runs one case. None: the oracle's answer is the stored one.
fn difference(case: &Object) -> Option<String> {
    let number = |name: &str| case[name].parse::<u64>().expect("a number");
    let bytes = |name: &str| hex(&case[name]).expect("hex");
    let (package, formula) = (bytes("package"), bytes("formula"));
    let budget = number("budget") as u32;
    let out_len = number("out_len") as usize;
    let stored = |count: &str| (number("number"), number("place"), number(count));
    let (answer, stored) = match case["service"].as_str() {
        "check" => (services::check(&package), stored("overlaps")),
        "list_overlaps" => (services::list_overlaps(&package, out_len), stored("count")),
        "short_form" => (services::short_form(&package, &formula, budget, out_len), stored("steps")),
        "member" => {
            let answer = services::member(&package, &formula, budget);
            let yes = u64::from(matches!(case["yes"].as_str(), "1" | "true" | "yes"));
            if answer.member != yes {
                return Some(format!("membership is {}, stored is {yes}", answer.member));
            }
            (answer, stored("steps"))
        }
        "print" => {
            let printed = services::printed(&package);
            let same = printed == bytes("output");
            return (!same).then(|| format!("printed {:?}", String::from_utf8_lossy(&printed)));
        }
        other => return Some(format!("unknown service {other}")),
    };
    if (answer.number, answer.place, answer.count) != stored {
        return Some(format!("the oracle gives {answer:?}, stored is {stored:?}"));
    }
    let output = answer.output.unwrap_or_default();
    let same = match case.get("output_sha256") {
        Some(digest) => output.len() as u64 == number("output_len") && sha256(&output) == *digest,
        None => output == bytes("output"),
    };
    (!same).then(|| "the bytes written differ".to_string())
}
