//! Prints packed indexes as source text: constants in Rust and Rattle, to be compiled in.

use crate::ours::Run;
use crate::{indexes, packing};
use std::fmt::Debug;

/// A run, as a literal.
impl Debug for Run {
    fn fmt(&self, f: &mut std::fmt::Formatter<'_>) -> std::fmt::Result {
        let Run { scalar, pointer, length } = self;
        write!(f, "Run {{ scalar: {scalar:#X}, pointer: {pointer}, length: {length} }}")
    }
}

/// Prints a constant of a list, one item a line.
fn constant<T: Debug>(name: &str, of: &str, list: &[T]) {
    println!("pub const {name}: [{of}; {}] = [", list.len());
    for item in list {
        println!("    {item:?},");
    }
    println!("];");
}

/// Prints the ten parts of the packed indexes, by the names of the fields of `Packed`.
pub fn print() {
    let (big5, jis0208) = (indexes::big5(), indexes::jis0208());
    let (euc_kr, jis0212, gb18030) = (indexes::euc_kr(), indexes::jis0212(), indexes::gb18030());
    println!("use legacy_base::Run;");
    constant("BIG5", "Run", &packing::runs(&big5));
    constant("EUC_KR", "Run", &packing::runs(&euc_kr));
    constant("JIS0208", "Run", &packing::runs(&jis0208));
    constant("JIS0212", "Run", &packing::runs(&jis0212));
    constant("GB18030", "Run", &packing::runs(&gb18030));
    constant("BIG5_ORDER", "u16", &packing::big5_order(&big5));
    constant("EUC_KR_ORDER", "u16", &packing::first_order(&euc_kr));
    constant("SHIFT_JIS_ORDER", "u16", &packing::shift_jis_order(&jis0208));
    constant("EUC_JP_ORDER", "u16", &packing::euc_jp_order(&jis0208));
    constant("GB18030_ORDER", "u16", &packing::first_order(&gb18030));
}
