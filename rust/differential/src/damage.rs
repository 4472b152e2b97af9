//! Damage to texts: to their lines, their fields and their bytes.

use crate::random::Random;

const LETTERS: &[u8] = b"SOIUFAHGMQNEPTX";
const BYTES: &[u8] = b"0123456789\t\t\n\n \r-+.,aSOIUFAHGMQNEPT\0\xff";
const MALFORMED: [&str; 10] = ["", "00", "01", "007", "1000000000", "99999999999999999999", "+1", "-1", " 1", "1x"];

/// Damages a text's lines in one way.
pub fn damage_lines(random: &mut Random, lines: &mut Vec<String>) {
    if lines.is_empty() {
        return lines.push(random_line(random));
    }
    let at = some_line(random, lines);
    match random.below(29) {
        0..=4 => lines[at] = with_number(random, &lines[at]),
        5..=7 => lines[at] = with_column_of_another(random, lines, at),
        8..=10 => insert(random, lines, |random, lines| with_column_of_another(random, lines, at)),
        11 => insert(random, lines, |random, lines| with_number(random, &lines[at])),
        12 => insert(random, lines, |_, lines| lines[at].clone()),
        13..=14 => drop(lines.remove(at)),
        15 => {
            let other = random.below(lines.len());
            lines.swap(at, other);
        }
        16 => lines[at] = with_field_more_or_less(random, &lines[at]),
        17 => lines[at] = with_letter(random, &lines[at]),
        18 => lines[at] = with_malformed(random, &lines[at]),
        19 => insert(random, lines, |random, _| random_line(random)),
        20 => lines[at] = with_fields_swapped(random, &lines[at]),
        21 => without_letter(random, lines, at),
        22..=24 => with_other_pairs(random, lines),
        25 => without_shared_field(random, lines),
        26 => without_members(random, lines),
        _ => with_second_target(random, lines),
    }
}

/// In a schema, an object without a field of one of its interfaces.
fn without_shared_field(random: &mut Random, lines: &mut Vec<String>) {
    let mut shared = Vec::new();
    for member in lines.iter().filter(|line| letter(line) == "M") {
        let numbers: Vec<&str> = member.split('\t').skip(1).collect();
        let [interface, object] = numbers[..] else { continue };
        let fields = lines.iter().filter_map(|line| line.strip_prefix(&format!("H\t{interface}\t")));
        shared.extend(fields.map(|field| format!("H\t{object}\t{field}")));
    }
    if !shared.is_empty() {
        let gone = &shared[random.below(shared.len())];
        lines.retain(|line| line != gone);
    }
}

/// In a schema, a union or interface without its objects.
fn without_members(random: &mut Random, lines: &mut Vec<String>) {
    let members: Vec<&String> = lines.iter().filter(|line| letter(line) == "M").collect();
    if !members.is_empty() {
        let member = members[random.below(members.len())];
        let owner = member.rsplit_once('\t').map_or("", |(owner, _)| owner).to_string();
        lines.retain(|line| line.rsplit_once('\t').map(|(start, _)| start) != Some(&owner));
    }
}

/// In a record that carries arguments, other pairs: one twice, one more, one fewer, five that rise, or two in the wrong order.
fn with_other_pairs(random: &mut Random, lines: &mut [String]) {
    let carrying: Vec<usize> = (0..lines.len()).filter(|at| carries_pairs(&lines[*at])).collect();
    if carrying.is_empty() {
        return;
    }
    let at = random.pick(&carrying);
    let mut fields: Vec<String> = lines[at].split('\t').map(String::from).collect();
    let end = 5 + 2 * fields[4].parse::<usize>().unwrap_or(0);
    let behind = fields.split_off(end.min(fields.len()));
    let mut pairs: Vec<[String; 2]> =
        fields.split_off(5).chunks_exact(2).map(|pair| [pair[0].clone(), pair[1].clone()]).collect();
    match random.below(5) {
        0 => pairs.extend(pairs.last().cloned()),
        1 => pairs.push([random.below(6).to_string(), random.below(4).to_string()]),
        2 => drop(pairs.pop()),
        3 => pairs = (0..5).map(|argument| [argument.to_string(), "0".into()]).collect(),
        _ => pairs.reverse(),
    }
    fields[4] = pairs.len().to_string();
    lines[at] = [fields, pairs.concat(), behind].concat().join("\t");
}

/// Whether a line is a sound record with a count of pairs, which then is its fifth field.
fn carries_pairs(line: &str) -> bool {
    let fields: Vec<&str> = line.split('\t').collect();
    matches!(fields[0], "E" | "P" | "F") && fields.get(4).is_some_and(|count| matches!(*count, "0" | "1" | "2" | "3" | "4"))
}

/// An edge once more, with another target and sometimes under another label; or, where a text has no edges, a number out of
/// reach.
fn with_second_target(random: &mut Random, lines: &mut Vec<String>) {
    let edges: Vec<usize> = (0..lines.len()).filter(|at| letter(&lines[*at]) == "E").collect();
    if edges.is_empty() {
        let at = some_line(random, lines);
        lines[at] = with_large_number(random, &lines[at]);
        return;
    }
    let (one, other) = (random.pick(&edges), random.pick(&edges));
    let mut fields: Vec<String> = lines[one].split('\t').map(String::from).collect();
    if let Some(target) = lines[other].split('\t').nth(3).filter(|_| fields.len() > 3) {
        fields[3] = target.to_string();
    }
    if random.chance(300) && fields.len() > 4 {
        fields.truncate(4);
        fields.push("0".into());
    }
    lines.insert(random.below(lines.len() + 1), fields.join("\t"));
}

/// A number that is declared nowhere, and is too large for a label, in one column behind the first.
fn with_large_number(random: &mut Random, line: &str) -> String {
    let (mut fields, _) = fields(random, line);
    if fields.len() > 2 {
        let at = random.between(2, fields.len() - 1);
        fields[at] = random.pick(&["64", "128", "255", "256", "999999999"]).to_string();
    }
    fields.join("\t")
}

/// Makes some of a text's lines many: past any maximum.
pub fn repeat_line(random: &mut Random, lines: &mut Vec<String>) {
    if lines.is_empty() {
        return;
    }
    let at = some_line(random, lines);
    let count = random.pick(&[60, 64, 128, 256, 512, 1_024, 1_200]);
    let copies = vec![lines[at].clone(); count];
    let place = random.below(lines.len() + 1);
    lines.splice(place..place, copies);
}

/// Damages a text's bytes in one way.
pub fn damage_bytes(random: &mut Random, text: &mut Vec<u8>) {
    if text.is_empty() {
        return text.push(random.pick(BYTES));
    }
    let at = random.below(text.len());
    match random.below(12) {
        0..=2 => text[at] = random.pick(BYTES),
        3..=4 => text.insert(at, random.pick(BYTES)),
        5..=6 => drop(text.remove(at)),
        7 => drop(text.pop()),
        8 => text.push(b'\n'),
        9 => text.truncate(at),
        10 => text.push(random.pick(BYTES)),
        _ => {
            let lines = text.split(|byte| *byte == b'\n').collect::<Vec<_>>();
            *text = lines.join(&b"\r\n"[..]);
        }
    }
}

/// A line's place: of each letter equally often, so that a rare record is not spared.
fn some_line(random: &mut Random, lines: &[String]) -> usize {
    let mut letters: Vec<&str> = lines.iter().map(|line| letter(line)).collect();
    letters.sort_unstable();
    letters.dedup();
    let wanted = random.pick(&letters);
    let places: Vec<usize> = (0..lines.len()).filter(|at| letter(&lines[*at]) == wanted).collect();
    random.pick(&places)
}

fn letter(line: &str) -> &str {
    line.split('\t').next().unwrap_or("")
}

fn insert(random: &mut Random, lines: &mut Vec<String>, make: impl Fn(&mut Random, &[String]) -> String) {
    let line = make(random, lines);
    lines.insert(random.below(lines.len() + 1), line);
}

/// All lines of one letter gone.
fn without_letter(random: &mut Random, lines: &mut Vec<String>, at: usize) {
    let gone = letter(&lines[at]).to_string();
    let spared = if random.chance(500) { Some(lines[at].clone()) } else { None };
    lines.retain(|line| letter(line) != gone);
    if let Some(line) = spared {
        lines.insert(random.below(lines.len() + 1), line);
    }
}

/// The fields of a line, and a place among those behind the letter.
fn fields(random: &mut Random, line: &str) -> (Vec<String>, Option<usize>) {
    let fields: Vec<String> = line.split('\t').map(String::from).collect();
    let at = (fields.len() > 1).then(|| random.between(1, fields.len() - 1));
    (fields, at)
}

/// Another number in one column: one near it, or one at a limit.
fn with_number(random: &mut Random, line: &str) -> String {
    let (mut fields, Some(at)) = fields(random, line) else { return format!("{line}\t0") };
    let number: u64 = fields[at].parse().unwrap_or(0);
    let limits = [0, 1, 2, 3, 4, 5, 15, 16, 63, 64, 127, 128, 255, 256, 511, 512, 999_999_999];
    let changed = match random.below(4) {
        0 => number + 1,
        1 => number.saturating_sub(1),
        2 => random.pick(&limits),
        _ => random.below(12) as u64,
    };
    fields[at] = changed.to_string();
    fields.join("\t")
}

/// One column taken from another line with the same letter.
fn with_column_of_another(random: &mut Random, lines: &[String], at: usize) -> String {
    let (mut fields, Some(column)) = fields(random, &lines[at]) else { return lines[at].clone() };
    for _ in 0..8 {
        let other = &lines[random.below(lines.len())];
        let taken = other.split('\t').nth(column);
        if letter(other) == fields[0] && taken.is_some_and(|taken| taken != fields[column]) {
            fields[column] = taken.unwrap_or("0").to_string();
            break;
        }
    }
    fields.join("\t")
}

fn with_field_more_or_less(random: &mut Random, line: &str) -> String {
    let (mut fields, at) = fields(random, line);
    match (at, random.chance(500)) {
        (Some(at), true) => drop(fields.remove(at)),
        _ => fields.insert(random.between(1, fields.len()), random.below(6).to_string()),
    }
    fields.join("\t")
}

fn with_letter(random: &mut Random, line: &str) -> String {
    let mut fields: Vec<String> = line.split('\t').map(String::from).collect();
    fields[0] = match random.below(6) {
        0 => fields[0].to_lowercase(),
        1 => format!("{0}{0}", fields[0]),
        2 => String::new(),
        _ => (random.pick(LETTERS) as char).to_string(),
    };
    fields.join("\t")
}

fn with_malformed(random: &mut Random, line: &str) -> String {
    let (mut fields, at) = fields(random, line);
    let wrong = random.pick(&MALFORMED).to_string();
    match at {
        Some(at) => fields[at] = wrong,
        None => fields.push(wrong),
    }
    fields.join("\t")
}

fn with_fields_swapped(random: &mut Random, line: &str) -> String {
    let (mut fields, Some(at)) = fields(random, line) else { return line.to_string() };
    let other = random.between(1, fields.len() - 1);
    fields.swap(at, other);
    fields.join("\t")
}

/// A line of any letter with some small numbers.
fn random_line(random: &mut Random) -> String {
    let mut line = (random.pick(LETTERS) as char).to_string();
    let count = random.below(7);
    for _ in 0..count {
        line.push_str(&format!("\t{}", random.below(6)));
    }
    line
}
