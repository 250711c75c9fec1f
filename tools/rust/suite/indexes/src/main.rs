//! Writes the index files of encoding_rs's own tables to a folder, by the Standard's names: indexes FOLDER.

#[path = "../../../../../bench/driver/src/indexes.rs"]
mod indexes;

/// What the finder of the tables names.
mod ours {
    pub struct Range {
        pub pointer: u16,
        pub scalar: u16,
    }
}

use std::{env, fs, io};

/// Returns the lines of an index, without pointers that have no scalar.
fn lines(entries: impl IntoIterator<Item = impl Into<u32>>) -> String {
    let entries = entries.into_iter().map(Into::into).enumerate();
    entries.filter(|(_, scalar)| *scalar != 0).map(|(pointer, scalar)| format!("{pointer}\t0x{scalar:04X}\n")).collect()
}

fn main() -> io::Result<()> {
    let folder = env::args().nth(1).expect("a folder");
    let write = |name: &str, text: String| fs::write(format!("{folder}/index-{name}.txt"), text);
    write("big5", lines(indexes::big5()))?;
    write("euc-kr", lines(indexes::euc_kr()))?;
    write("jis0208", lines(indexes::jis0208()))?;
    write("jis0212", lines(indexes::jis0212()))?;
    write("gb18030", lines(indexes::gb18030()))?;
    write("iso-2022-jp-katakana", lines(indexes::katakana()))?;
    let ranges = indexes::ranges().into_iter().map(|it| format!("{}\t0x{:04X}\n", it.pointer, it.scalar));
    write("gb18030-ranges", ranges.chain(["189000\t0x10000\n".to_string()]).collect())
}
