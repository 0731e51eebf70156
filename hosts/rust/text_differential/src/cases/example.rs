//! The texts of the folder examples.

use super::Case;
use crate::program::Feed;
use crate::rng::Rng;
use crate::text::lines;

const TEXTS: [&[u8]; 5] = [
    include_bytes!("../../../../../examples/worked.tsv"),
    include_bytes!("../../../../../examples/day.tsv"),
    include_bytes!("../../../../../examples/refused-plan.tsv"),
    include_bytes!("../../../../../examples/too-many-slots.tsv"),
    include_bytes!("../../../../../examples/clock-end.tsv"),
];

/// Each in one piece, from a file and in lines; the first byte by byte.
pub fn all(_: &mut Rng) -> Vec<Case> {
    let mut cases = Vec::new();
    for text in TEXTS {
        let sizes = lines(text).map(<[u8]>::len);
        for feed in [Feed::Whole, Feed::File, Feed::Pieces(sizes.collect())] {
            let input = text.to_vec();
            cases.push(Case { input, feed });
        }
    }
    cases.push(Case {
        input: TEXTS[0].to_vec(),
        feed: Feed::Pieces(vec![1; TEXTS[0].len()]),
    });
    cases
}
