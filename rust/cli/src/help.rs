//! What `--help` and `help` print.

pub const COMMANDS: &str = include_str!("../help/commands.txt");

/// The names under which `help` has more.
const TOPICS: [(&str, &str); 3] = [
    ("policy", include_str!("../help/policy.txt")),
    ("answers", include_str!("../help/answers.txt")),
    ("pairs", include_str!("../help/pairs.txt")),
];

/// The text about a topic, or which topics there are.
pub fn topic(name: &str) -> Result<&'static str, String> {
    let found = TOPICS.iter().find(|(topic, _)| *topic == name);
    found.map(|(_, text)| *text).ok_or_else(|| {
        let names = TOPICS.map(|(topic, _)| topic).join(", ");
        format!("no help on {name:?}; there is help on {names}")
    })
}
