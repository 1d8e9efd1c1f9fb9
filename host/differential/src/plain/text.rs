/// Returns the words that the text reader writes into a row of `words` words, or the number of its refusal.
///
/// SCOPE, The text reader: refusal 2 comes first, then 6, then 3. Unused bits of the last word are 0.
pub fn read_text(text: &[u8], words: usize, most: u64) -> Result<Vec<u64>, u8> {
    if text.len() as u64 > most {
        return Err(2);
    }
    if text.iter().any(|&byte| byte != b'(' && byte != b')') {
        return Err(6);
    }
    if words < text.len().div_ceil(64) {
        return Err(3);
    }
    let mut written = vec![0; text.len().div_ceil(64)];
    for (i, _) in text.iter().enumerate().filter(|(_, &byte)| byte == b'(') {
        written[i / 64] |= 1 << (i % 64);
    }
    Ok(written)
}
