//! Mistakes of a reader, as changes of what it reads.

use super::split;

/// The text with each field of each line changed; a field has no tab or LF.
fn each_field(text: &[u8], change: impl Fn(usize, &[u8]) -> Vec<u8>) -> Vec<u8> {
    let mut changed = Vec::new();
    for line in split(text) {
        let parts = line.split_inclusive(|&byte| byte == b'\t' || byte == b'\n');
        for (place, part) in parts.enumerate() {
            let field = part.strip_suffix(b"\t").or(part.strip_suffix(b"\n"));
            let field = field.unwrap_or(part);
            changed.extend(change(place, field));
            changed.extend(&part[field.len()..]);
        }
    }
    changed
}

fn is_number(field: &[u8]) -> bool {
    !field.is_empty() && field.iter().all(u8::is_ascii_digit)
}

pub fn zero_taken(text: &[u8]) -> Vec<u8> {
    each_field(text, |_, field| {
        let mut rest = field;
        while is_number(field) && rest.len() > 1 && rest[0] == b'0' {
            rest = &rest[1..];
        }
        rest.to_vec()
    })
}

pub fn sign_taken(text: &[u8]) -> Vec<u8> {
    each_field(text, |_, field| match field.strip_prefix(b"+") {
        Some(number) if is_number(number) => number.to_vec(),
        _ => field.to_vec(),
    })
}

pub fn cr_taken(text: &[u8]) -> Vec<u8> {
    let without = |line: Vec<u8>| match line.strip_suffix(b"\r\n") {
        Some(rest) => [rest, b"\n"].concat(),
        None => line,
    };
    split(text).into_iter().flat_map(without).collect()
}

pub fn bom_taken(text: &[u8]) -> Vec<u8> {
    text.strip_prefix(b"\xef\xbb\xbf").unwrap_or(text).to_vec()
}

pub fn end_taken(text: &[u8]) -> Vec<u8> {
    let mut text = text.to_vec();
    if text.last().is_some_and(|&byte| byte != b'\n') {
        text.push(b'\n');
    }
    text
}

pub fn empty_skipped(text: &[u8]) -> Vec<u8> {
    let lines = split(text).into_iter();
    lines.filter(|line| line != b"\n").flatten().collect()
}

pub fn long_cut(text: &[u8]) -> Vec<u8> {
    let pieces = |line: Vec<u8>| {
        let pieces: Vec<&[u8]> = line.chunks(128).collect();
        pieces.join(&b'\n')
    };
    split(text).into_iter().flat_map(pieces).collect()
}

pub fn plan_ignored(text: &[u8]) -> Vec<u8> {
    let lines = split(text).into_iter().enumerate();
    let kept = lines.filter(|(place, line)| *place == 0 || !line.starts_with(b"plan\t"));
    kept.flat_map(|(_, line)| line).collect()
}

pub fn wrap_64(text: &[u8]) -> Vec<u8> {
    each_field(text, |_, field| wrapped(field, 64))
}

pub fn wrap_32(text: &[u8]) -> Vec<u8> {
    each_field(text, |place, field| match place {
        2 => wrapped(field, 32),
        _ => field.to_vec(),
    })
}

/// The lowest bits of a number that is too wide for them.
fn wrapped(field: &[u8], bits: u32) -> Vec<u8> {
    let text = std::str::from_utf8(field).unwrap_or_default();
    match text.parse::<u128>() {
        Ok(number) if is_number(field) && number >> bits > 0 => {
            (number % (1 << bits)).to_string().into_bytes()
        }
        _ => field.to_vec(),
    }
}
