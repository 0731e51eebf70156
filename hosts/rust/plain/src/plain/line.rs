//! Lines of tabbed text.

pub enum Line {
    /// Slots, limit, period, burst.
    Plan([u64; 4]),
    /// Moment, subscriber, cost.
    Ask([u64; 3]),
}

const LONGEST: usize = 128;

/// A line with its LF, or nothing if it cannot be read.
pub fn read(line: &[u8]) -> Option<Line> {
    if line.len() > LONGEST {
        return None;
    }
    let (&b'\n', line) = line.split_last()? else {
        return None;
    };
    if let Some(rest) = line.strip_prefix(b"ask\t") {
        let [moment, subscriber, cost] = numbers(rest)?;
        return (subscriber >> 32 == 0 && cost >> 32 == 0)
            .then_some(Line::Ask([moment, subscriber, cost]));
    }
    let plan: [u64; 4] = numbers(line.strip_prefix(b"plan\t")?)?;
    plan.iter()
        .all(|number| number >> 32 == 0)
        .then_some(Line::Plan(plan))
}

/// Exactly so many numbers, parted by tabs.
fn numbers<const N: usize>(text: &[u8]) -> Option<[u64; N]> {
    let mut numbers = [0; N];
    let mut at = 0;
    for (i, slot) in numbers.iter_mut().enumerate() {
        if i > 0 {
            if text.get(at) != Some(&b'\t') {
                return None;
            }
            at += 1;
        }
        let (number, digits) = number(&text[at..])?;
        *slot = number;
        at += digits;
    }
    (at == text.len()).then_some(numbers)
}

/// The number at the start of the text, and how many digits it has.
fn number(text: &[u8]) -> Option<(u64, usize)> {
    let mut number = 0u64;
    let mut digits = 0;
    while let Some(digit @ b'0'..=b'9') = text.get(digits) {
        if digits == 1 && number == 0 {
            return None;
        }
        number = number.checked_mul(10)?.checked_add((digit - b'0') as u64)?;
        digits += 1;
    }
    (digits > 0).then_some((number, digits))
}
