//! Short texts.

/// Every text of these bytes, up to a length.
pub fn texts(bytes: &[u8], longest: usize) -> Vec<Vec<u8>> {
    let mut texts = vec![vec![]];
    let mut next = 0;
    while texts[next].len() < longest {
        for &byte in bytes {
            texts.push([&texts[next][..], &[byte]].concat());
        }
        next += 1;
    }
    texts
}
