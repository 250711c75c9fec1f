//! The sources that a line measures, whole or in pieces, and how often a call converts each.

use crate::pieces::PIECE;

/// The number of times that a measured call converts long pages with tags.
///
/// A call of ours first checks the tables and caches pairs, which takes longer than one conversion of such pages. That
/// time is subtracted, and with one conversion its noise would be most of the rest.
const PAGE_ROUNDS: usize = 4;

/// The number of times that a measured call converts a short source, so that it takes as long as a long one.
const SHORT_ROUNDS: usize = 16;

/// Returns the sources of a corpus's line: the long one, the short one, and the long one in small pieces.
///
/// Each comes with the length of its pieces (0: it is one) and the number of times that a call converts it.
pub fn measured<'a, U>(corpus: &str, long: &'a [U], short: &'a [U]) -> [(&'a [U], usize, usize); 3] {
    let rounds = if corpus.contains("-html") { PAGE_ROUNDS } else { 1 };
    [(long, 0, rounds), (short, 0, SHORT_ROUNDS), (long, PIECE, 1)]
}
