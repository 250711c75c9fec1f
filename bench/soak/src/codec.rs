//! The codecs, and the encodings of encoding_rs that each has.

use encoding_rs::Encoding;

/// A codec of the Standard. Both byte orders of UTF-16 are one codec each, and so are GBK and gb18030.
#[derive(Clone, Copy, Debug, PartialEq, Eq, Hash)]
pub enum Codec {
    SingleByte,
    Gbk,
    Gb18030,
    Big5,
    EucJp,
    Iso2022Jp,
    ShiftJis,
    EucKr,
    Replacement,
    Utf16Be,
    Utf16Le,
    UserDefined,
}

pub const CODECS: [Codec; 12] = [
    Codec::SingleByte,
    Codec::Gbk,
    Codec::Gb18030,
    Codec::Big5,
    Codec::EucJp,
    Codec::Iso2022Jp,
    Codec::ShiftJis,
    Codec::EucKr,
    Codec::Replacement,
    Codec::Utf16Be,
    Codec::Utf16Le,
    Codec::UserDefined,
];

/// The names of the single-byte encodings of the Standard.
pub const SINGLE_BYTE: [&str; 28] = [
    "IBM866", "ISO-8859-2", "ISO-8859-3", "ISO-8859-4", "ISO-8859-5", "ISO-8859-6", "ISO-8859-7", "ISO-8859-8",
    "ISO-8859-8-I", "ISO-8859-10", "ISO-8859-13", "ISO-8859-14", "ISO-8859-15", "ISO-8859-16", "KOI8-R", "KOI8-U",
    "macintosh", "windows-874", "windows-1250", "windows-1251", "windows-1252", "windows-1253", "windows-1254",
    "windows-1255", "windows-1256", "windows-1257", "windows-1258", "x-mac-cyrillic",
];

impl Codec {
    /// Returns the name of the encoding, of a codec that has only one.
    pub fn name(self) -> &'static str {
        match self {
            Codec::SingleByte => "single-byte",
            Codec::Gbk => "GBK",
            Codec::Gb18030 => "gb18030",
            Codec::Big5 => "Big5",
            Codec::EucJp => "EUC-JP",
            Codec::Iso2022Jp => "ISO-2022-JP",
            Codec::ShiftJis => "Shift_JIS",
            Codec::EucKr => "EUC-KR",
            Codec::Replacement => "replacement",
            Codec::Utf16Be => "UTF-16BE",
            Codec::Utf16Le => "UTF-16LE",
            Codec::UserDefined => "x-user-defined",
        }
    }

    /// Checks whether the codec reads by indexes that are passed to it.
    pub fn has_tables(self) -> bool {
        !matches!(self, Codec::Replacement | Codec::Utf16Be | Codec::Utf16Le | Codec::UserDefined)
    }

    pub fn has_encoder(self) -> bool {
        !matches!(self, Codec::Replacement | Codec::Utf16Be | Codec::Utf16Le)
    }
}

/// Returns the encoding of encoding_rs of this name.
pub fn encoding(name: &str) -> &'static Encoding {
    Encoding::for_label(name.as_bytes()).expect("a name of the Standard")
}
