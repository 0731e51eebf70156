//! First lines, good and bad, each followed by two asks; and inputs that have no more than a first line.

use super::Case;
use crate::rng::Rng;
use crate::text::{plan, PLAIN};

const ASKS: &[u8] = b"ask\t1000\t7\t2\nask\t1000\t7\t1\n";

/// The most of slots, limit, period and burst.
const MOST: [u64; 4] = [1024, 1_000_000, 2_678_400_000, 1_000_000];
const BEYOND_32_BITS: u64 = 1 << 32;

const ODD: [&[u8]; 34] = [
    b"\n",
    b"\r\n",
    b"\0\n",
    b"\t\n",
    b" \n",
    b"plan\n",
    b"plan\t\n",
    b"plan\t\t\t\t\n",
    b"plan 3 3 1000 2\n",
    b"plan\t3\t3\t1000\n",
    b"plan\t3\t3\t1000\t\n",
    b"plan\t3\t3\t1000\t2\t\n",
    b"plan\t3\t3\t1000\t2\t2\n",
    b"plan\t3\t3\t1000\t2\r\n",
    b"plan\t3\t3\t1000\t2 \n",
    b"plan\t3\t3\t1000\t2\0\n",
    b"plan\t3\t3\t1000\t2\r",
    b" plan\t3\t3\t1000\t2\n",
    b"\tplan\t3\t3\t1000\t2\n",
    b"\xef\xbb\xbfplan\t3\t3\t1000\t2\n",
    b"Plan\t3\t3\t1000\t2\n",
    b"plans\t3\t3\t1000\t2\n",
    b"pla\t3\t3\t1000\t2\n",
    b"plan\t03\t3\t1000\t2\n",
    b"plan\t3\t03\t1000\t2\n",
    b"plan\t3\t3\t01000\t2\n",
    b"plan\t3\t3\t1000\t02\n",
    b"plan\t3\t3\t1000\t00\n",
    b"plan\t+3\t3\t1000\t2\n",
    b"plan\t-3\t3\t1000\t2\n",
    b"plan\t3\t3\t1000\t2\n\n",
    b"\nplan\t3\t3\t1000\t2\n",
    b"ask\t1000\t7\t1\n",
    b"ask\t1000\t7\t1\nplan\t3\t3\t1000\t2\n",
];

pub fn all(_: &mut Rng) -> Vec<Case> {
    let good = plan(&PLAIN);
    let mut firsts = vec![good.clone(), [&good[..], &good[..]].concat()];
    firsts.extend(ODD.map(<[u8]>::to_vec));
    firsts.extend(one_number().into_iter().chain(two_numbers()));
    let mut inputs: Vec<Vec<u8>> = firsts.iter().map(|first| [first, ASKS].concat()).collect();
    // alone, with and without the LF
    for first in &firsts {
        inputs.push(first.clone());
        inputs.push(first[..first.len() - 1].to_vec());
    }
    inputs.into_iter().map(Case::whole).collect()
}

/// A plan in which one number is at a limit or beyond it.
fn one_number() -> Vec<Vec<u8>> {
    let mut firsts = Vec::new();
    for (which, most) in MOST.into_iter().enumerate() {
        let wide = [
            u32::MAX as u64,
            BEYOND_32_BITS,
            BEYOND_32_BITS + 1,
            u64::MAX,
        ];
        for number in [0, 1, 2, most - 1, most, most + 1, 65_535, 65_536]
            .into_iter()
            .chain(wide)
        {
            firsts.push(with(&[(which, &number.to_string())]));
        }
        for text in ["18446744073709551616", "18446744073709551617", "0000000003"] {
            firsts.push(with(&[(which, text)]));
        }
        firsts.push(with(&[(which, &"1".repeat(100))]));
    }
    firsts
}

/// A plan in which two numbers are outside their limits, or one of them too wide.
fn two_numbers() -> Vec<Vec<u8>> {
    let mut firsts = Vec::new();
    for number in ["0", "1025", "4294967295", "4294967296"] {
        for which in 1..4 {
            firsts.push(with(&[(0, number), (which, "0")]));
            firsts.push(with(&[(0, number), (which, "2678400001")]));
        }
    }
    firsts
}

/// The plain plan with other numbers in these places.
fn with(numbers: &[(usize, &str)]) -> Vec<u8> {
    let mut fields = ["3", "3", "1000", "2"];
    for &(which, text) in numbers {
        fields[which] = text;
    }
    format!("plan\t{}\n", fields.join("\t")).into_bytes()
}
