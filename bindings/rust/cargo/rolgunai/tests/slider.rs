//! The script of a slider, with what must be answered; and the version of the library that is linked.

use rolgunai::{Error, Manager};

const SCRIPT: &str = include_str!("slider.jsonl");
const EXPECTED: &str = include_str!("slider.expected");

#[test]
fn a_script_is_answered() -> Result<(), Error> {
    let mut manager = Manager::new(4096)?;
    let mut said = String::new();
    for line in SCRIPT.lines() {
        said += manager.line(line.as_bytes())?;
    }
    assert_eq!(said, EXPECTED);
    Ok(())
}

#[test]
fn the_library_is_of_the_version_of_the_crate() {
    let numbers: Vec<u32> = env!("CARGO_PKG_VERSION").split('.').filter_map(|number| number.parse().ok()).collect();
    assert_eq!([rolgunai::version()], [numbers[0] * 1_000_000 + numbers[1] * 1_000 + numbers[2]]);
}
