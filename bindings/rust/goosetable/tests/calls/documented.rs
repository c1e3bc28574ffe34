//! The numbers in the documentation of each call are those of the C header, in its order, but for the ones that the
//! types rule out: 1 where the post has the area itself, 12 and 13 where a value can only be right.

use super::*;
use std::{fs, path::PathBuf};

/// A method, its function in C, and the numbers that the types rule out.
const CALLS: [(&str, &str, &[u8]); 16] = [
    ("set_contact", "contact", &[]),
    ("set_setting", "setting", &[13]),
    ("fresh_exchange", "fresh_exchange", &[1]),
    ("envelope", "envelope", &[1, 12]),
    ("fetch", "fetch", &[1]),
    ("own_envelope", "own_envelope", &[12]),
    ("inventory_of_ours", "inventory_of_ours", &[1]),
    ("inventory", "inventory", &[1, 12]),
    ("custody_code", "custody_code", &[13, 1]),
    ("tomb", "tomb", &[1]),
    ("opened", "opened", &[1]),
    ("failed", "failed", &[]),
    ("stored_tombstone", "stored_tombstone", &[1]),
    ("maintenance", "maintenance", &[1]),
    ("save", "save", &[]),
    ("load", "load", &[]),
];

fn read(path: &str) -> String {
    fs::read_to_string(PathBuf::from(env!("CARGO_MANIFEST_DIR")).join(path)).unwrap()
}

/// What the header says that a function is refused by, without the areas behind a number.
fn in_the_header(header: &str, function: &str) -> Vec<u8> {
    let declared = header
        .find(&format!("goosetable_answer goosetable_{function}("))
        .unwrap();
    let (_, line) = header[..declared].rsplit_once("Refused by: ").unwrap();
    let numbers = line.lines().next().unwrap().trim_end_matches('.');
    let mut depth = 0;
    let bare: String = numbers
        .chars()
        .filter(|c| {
            depth += i32::from(*c == '(') - i32::from(*c == ')');
            depth == 0 && *c != ')'
        })
        .collect();
    bare.split(',')
        .map(|number| number.trim().parse().unwrap())
        .collect()
}

/// The numbers under "Errors" in the documentation of a function, each with its name.
fn documented(source: &str, function: &str) -> Vec<(u8, String)> {
    let at = ["(", "<"]
        .iter()
        .find_map(|next| source.find(&format!("pub fn {function}{next}")))
        .unwrap();
    let comment = source[..at]
        .trim_end()
        .lines()
        .rev()
        .take_while(|line| line.trim_start().starts_with("///"));
    let mut numbers: Vec<_> = comment
        .filter_map(|line| {
            let (number, rest) = line
                .trim_start()
                .strip_prefix("/// - ")?
                .split_once(" [`")?;
            let (name, _) = rest.split_once('`')?;
            Some((number.parse().unwrap(), name.to_owned()))
        })
        .collect();
    numbers.reverse();
    numbers
}

#[test]
fn every_call_says_what_refuses_it() {
    let (header, post) = (read("../../../include/goosetable.h"), read("src/post.rs"));
    for (method, function, ruled_out) in CALLS {
        let mut expected = in_the_header(&header, function);
        expected.retain(|number| !ruled_out.contains(number));
        let said = documented(&post, method);
        let numbers: Vec<_> = said.iter().map(|(number, _)| *number).collect();
        assert_eq!(numbers, expected, "{method}");
        for (number, name) in said {
            let refusal = Refusal::from_number(number).unwrap();
            assert_eq!(format!("{refusal:?}"), name, "{method}");
        }
    }
    let window = documented(&read("src/window.rs"), "window");
    assert_eq!(window, [(12, "WindowRows".to_owned())]);
}

#[test]
fn no_call_is_left_out() {
    let refused = read("src/post.rs").matches(", Refusal> {").count();
    let restoring = 1;
    assert_eq!(refused, CALLS.len() + restoring);
}
