//! Which answers a set of scripts has reached: refusals by command, number and kind of place, marks, and errors.

use std::collections::BTreeMap;

use crate::transcript;

#[derive(Default)]
pub struct Coverage {
    reached: BTreeMap<String, usize>,
    pub calls: usize,
}

/// All that scripts are to reach: by command, `ok` with its marks, refusals with the kind of their place, `error`.
const WANTED: &[(&str, &str)] = &[
    ("table", "ok"),
    ("add", "ok, 1, 2, error"),
    ("lock", "ok, 3, 4, error"),
    ("rule", "ok, error"),
    ("policy", "ok, 5, error"),
    ("seal", "ok, error"),
    ("batch", "ok, error"),
    ("clerk", "ok, error"),
    ("seats", "ok, error"),
    ("tag", "ok, error"),
    ("batches", "ok, error"),
    ("hall", "ok, error"),
    ("buffers", "ok, error"),
    ("slot", "ok, error"),
    ("line", "ok, 28 digit, 28 length, error"),
    ("frame", "ok, 28 digit, 28 length, error"),
    ("frame", "16 short, 16 at 0, 16 at 1, 16 at 2, 16 at 4, 16 at 6, 16 at 7, 16 at 8, 16 length, 16 pair"),
    ("open", "ok, ok proposed, 6, 7, 8, 9, 10, 11, 12, 13, error"),
    ("deliver", "ok, ok decided, ok reselected, ok reselected proposed, ok reselected proposed decided, error"),
    ("deliver", "6, 7, 8, 9, 13, 14, 15, 17, 18, 19, 20, 21, 22, 23, 24"),
    ("deliver", "16 short, 16 at 0, 16 at 1, 16 at 2, 16 at 4, 16 at 6, 16 at 7, 16 at 8, 16 behind"),
    ("ring", "ok reselected, 6, 7, 8, 9, 13, 14, 25, 26, error"),
    ("inject", "ok, 6, 7, 13, 27 sender, 27 pair, 28 digit, 28 length, error"),
    ("read", "ok, 6, 7, 8, 9, 29, error"),
    ("write", "ok, 6, 7, 15, 30, error"),
];

impl Coverage {
    /// Counts the answers of what a program printed.
    pub fn note(&mut self, printed: &[u8]) {
        for line in transcript::lines(printed) {
            let Some((command, answer)) = transcript::parts(line) else { continue };
            let (Ok(command), Ok(answer)) = (str::from_utf8(command), str::from_utf8(answer)) else { continue };
            let (name, rest) = command.split_once(' ').unwrap_or((command, ""));
            self.calls += usize::from(is_call(name));
            if let Some(kind) = kind_of(name, rest, answer) {
                *self.reached.entry(format!("{name}: {kind}")).or_default() += 1;
            }
        }
    }

    /// What was to be reached and was not.
    pub fn missing(&self) -> Vec<String> {
        wanted().filter(|key| !self.reached.contains_key(key)).collect()
    }

    /// How often each answer was reached.
    pub fn report(&self) -> String {
        let count = |key: &String| self.reached.get(key).copied().unwrap_or(0);
        wanted().map(|key| format!("{:>8}  {key}\n", count(&key))).collect()
    }
}

fn wanted() -> impl Iterator<Item = String> {
    WANTED.iter().flat_map(|(name, kinds)| kinds.split(", ").map(move |kind| format!("{name}: {kind}")))
}

pub fn is_call(name: &str) -> bool {
    ["open", "deliver", "ring", "inject", "read", "write"].contains(&name)
}

fn kind_of(name: &str, rest: &str, answer: &str) -> Option<String> {
    let marked = ["open", "deliver", "ring"].contains(&name);
    if answer.starts_with("ok") {
        return Some(if marked { answer.to_string() } else { "ok".to_string() });
    }
    if answer == "error" {
        return Some(answer.to_string());
    }
    let words: Vec<&str> = answer.split(' ').collect();
    let ["refused", number, "layer", _, "place", place] = words.as_slice() else { return None };
    let place: usize = place.parse().ok()?;
    Some(match *number {
        "28" => format!("28 {}", if place == rest.len() { "length" } else { "digit" }),
        "27" => format!("27 {}", if place == 24 { "sender" } else { "pair" }),
        "16" => format!("16 {}", place_in_frame(name, rest, place)),
        _ => number.to_string(),
    })
}

/// A place at or below 8 is also a length, but the tests' short frames are mostly longer.
fn place_in_frame(name: &str, rest: &str, place: usize) -> String {
    let is_length = name == "frame" && place == rest.len() / 2;
    match place {
        0 | 1 | 2 | 4 | 6 | 7 | 8 if !is_length => format!("at {place}"),
        0..32 => "short".to_string(),
        _ if is_length => "length".to_string(),
        _ if name == "frame" => "pair".to_string(),
        _ => "behind".to_string(),
    }
}
