//! Words as they are printed.

/// Eight digits each.
pub fn hex(words: &[u32]) -> String {
    words.iter().map(|w| format!("{w:08x}")).collect::<Vec<_>>().join(" ")
}

/// The same with runs, an entry for each: `00000000*0000003e` stands for 62 zeros.
pub fn runs(words: &[u32]) -> Vec<String> {
    let entries = |run: &[u32]| match run {
        [word, _, _, ..] => vec![format!("{word:08x}*{:08x}", run.len())],
        _ => run.iter().map(|word| hex(&[*word])).collect(),
    };
    words.chunk_by(|a, b| a == b).flat_map(entries).collect()
}
