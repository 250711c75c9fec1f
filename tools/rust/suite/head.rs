//! The coders of the crate `legacy_codecs`, and the tests of encoding_rs.

use super::*;
use crate::by_crate::{self, decoder, encoder, tables, with_list, Listed};
use crate::variant::*;

