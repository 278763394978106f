//! Policy files with exactly one defect, one after the other.

use super::policies::random_policy;
use super::rows::file;
use super::Generator;
use crate::operation::to_hex;
use testkit::Prng;

/// What may not stand in each field of a row.
const BAD_FIELDS: [&[&str]; 7] = [
    &["", "Out", "out ", "any", "both,in", "i"],
    &[
        "",
        "pass",
        "Bypass",
        "protect",
        "protect-",
        "protect-0",
        "protect-256",
        "protect-07",
        "protect-+7",
        "protect-18446744073709551617",
        "discard ",
    ],
    BAD_ADDRESSES,
    BAD_ADDRESSES,
    &["", "256", "0-256", "opaque", "6-opaque", "06", "7-6", "6-", "-6", "any-6", "tcp", "6-7-8"],
    BAD_PORTS,
    BAD_PORTS,
];

const BAD_ADDRESSES: &[&str] = &[
    "",
    "10.0.0",
    "10.0.0.0.0",
    "10.0.0.256",
    "10.0.0.01",
    "10..0.0",
    "10.0.0.0-",
    "-10.0.0.0",
    "10.0.0.1-10.0.0.0",
    "10.0.0.0/24",
    "10.0.0.0/255.0.255.0",
    "10.0.0.1/255.0.0.0",
    "1.0.0.0/0.0.0.0",
    "10.0.0.0/255.0.0.0-11.0.0.0",
    "10.0.0.0/",
    "opaque",
    "Any",
    "167772160",
    "10.0.0.0/0.0.0.255",
    "10.0.0.0-opaque",
];

const BAD_PORTS: &[&str] = &[
    "",
    "65536",
    "0-65536",
    "00",
    "022",
    "80-22",
    "22-",
    "-22",
    "opaque-opaque",
    "opaque-22",
    "any-opaque",
    "-opaque",
    "OPAQUE",
    "+22",
    "22 ",
    "22-80-90",
    "99999999999999999999",
    "4294967318",
];

const BAD_HEADERS: &[&str] = &[
    "",
    "policy\t1",
    "policy\t1\r\n",
    "policy 1\n",
    "policy\t2\n",
    "Policy\t1\n",
    "policy\t1\t\n",
    "policy\t01\n",
    "\u{feff}policy\t1\n",
    "policy\t\n",
    " policy\t1\n",
    "policy\t9\n",
];

type LineDefect = fn(&str) -> String;

const BAD_LINES: &[LineDefect] = &[
    |_| String::new(),
    |line| format!("{line}\r"),
    |line| format!("{line}\t"),
    |line| format!("\t{line}"),
    |line| format!("{line}\tquiet"),
    |line| format!("{line}\0"),
    |line| format!("{line}\n"),
    |line| line.replacen('\t', "\t\t", 1),
    |line| line.replacen('\t', " ", 1),
    |line| line.replacen('\t', "\n", 1),
    |line| line.rsplit_once('\t').map_or(String::new(), |(start, _)| start.to_string()),
    |line| line.to_uppercase(),
    |line| line.replacen('a', "\u{e4}", 1),
];

/// The cases after those of the tables above.
const WHOLE_FILE_DEFECTS: usize = 6;

impl Generator {
    pub fn defects_block(&mut self) {
        for _ in 0..30 {
            let mut rows = random_policy(&mut self.prng);
            rows.truncate(self.prng.between(1, 12) as usize);
            let sound = file(&mut self.prng, &rows);
            let text = String::from_utf8(sound).expect("the generator writes text");
            let lines: Vec<String> = text.lines().skip(1).map(str::to_string).collect();
            let defect = self.next_file_defect;
            self.next_file_defect += 1;
            let file = with_defect(&mut self.prng, lines, defect);
            self.file_lines(&file);
        }
    }

    /// Gives a file to the calls that take one.
    fn file_lines(&mut self, file: &[u8]) {
        let hex = to_hex(file);
        let direction = self.direction();
        match self.prng.below(6) {
            0 | 1 => self.line(format!("policy {hex}")),
            2 => self.line(format!("normalise {direction} 5000 {hex}")),
            3 => self.same_line(file, b"policy\t1\n"),
            4 => self.same_line(file, b"no policy"),
            _ => self.line(format!("search {direction} {hex} 167772160 1 6 22 65536")),
        }
    }
}

/// A file of these rows with the defect of this number; the numbers go round.
fn with_defect(prng: &mut Prng, mut lines: Vec<String>, defect: usize) -> Vec<u8> {
    let field_defects: usize = BAD_FIELDS.iter().map(|texts| texts.len()).sum();
    let all = field_defects + BAD_HEADERS.len() + BAD_LINES.len() + WHOLE_FILE_DEFECTS;
    let mut defect = defect % all;
    let place = prng.below(lines.len().max(1) as u64) as usize;
    if lines.is_empty() {
        lines.push("both\tbypass\tany\tany\tany\tany\tany".to_string());
    }
    if defect < field_defects {
        lines[place] = with_bad_field(&lines[place], defect);
        return whole("policy\t1\n", &lines);
    }
    defect -= field_defects;
    if defect < BAD_HEADERS.len() {
        return whole(BAD_HEADERS[defect], &lines);
    }
    defect -= BAD_HEADERS.len();
    if defect < BAD_LINES.len() {
        lines[place] = BAD_LINES[defect](&lines[place]);
        return whole("policy\t1\n", &lines);
    }
    with_whole_file_defect(prng, lines, defect - BAD_LINES.len())
}

fn with_bad_field(line: &str, mut defect: usize) -> String {
    let mut fields: Vec<&str> = line.split('\t').collect();
    for (field, texts) in BAD_FIELDS.iter().enumerate() {
        match texts.get(defect) {
            Some(text) => {
                fields[field] = text;
                break;
            }
            None => defect -= texts.len(),
        }
    }
    fields.join("\t")
}

fn with_whole_file_defect(prng: &mut Prng, mut lines: Vec<String>, defect: usize) -> Vec<u8> {
    let row = lines[0].clone();
    match defect {
        0 => lines.resize(257, row),
        1 => lines.resize(257, String::new()),
        2 => lines.push(String::new()),
        _ => {}
    }
    let mut file = whole("policy\t1\n", &lines);
    let place = prng.below(file.len() as u64) as usize;
    match defect {
        0..=2 => {}
        3 => file.truncate(file.len() - 1),
        4 => file.truncate(place),
        _ => file[place] = prng.byte(),
    }
    file
}

fn whole(header: &str, lines: &[String]) -> Vec<u8> {
    let mut file = header.to_string();
    for line in lines {
        file.push_str(line);
        file.push('\n');
    }
    file.into_bytes()
}
