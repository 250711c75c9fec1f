//! Both programs as plain Rust over Rust's own streams.
//!
//! The loops and coders are the library's. Words, index files and messages are read and written here, as README.md of
//! the repository describes them.

mod indexes;

use indexes::{Owned, INDEXES};
use legacy_codecs::{
    Big5Decoder, Big5Encoder, CachedEncoder, CachedIso2022JpEncoder, EncodesPairs, EucJpDecoder, EucJpEncoder,
    EucKrDecoder, EucKrEncoder, Gb18030Decoder, Gb18030Encoder, Iso2022JpDecoder, Iso2022JpEncoder, RawDecoder,
    RawEncoder, ReplacementDecoder, ShiftJisDecoder, ShiftJisEncoder, SingleByteDecoder, SingleByteEncoder, Tables,
    UserDefinedDecoder, UserDefinedEncoder, Utf16Decoder, PAIR_ROOM,
};
use legacy_streams::encode::encode_text;
use legacy_streams::recode::{recode as recode_lines, RecodeError};
use legacy_streams::text::recode_text;
use std::fs::{self, File};
use std::mem::ManuallyDrop;
use std::os::fd::FromRawFd;

/// The reason why a program ends with another status than 0, and its message.
pub enum Fault {
    Usage(&'static str),
    Other(String),
}

type Ended = Result<(), Fault>;

const RECODE_USAGE: Fault = Fault::Usage("usage: legacy_recode [--text] CODEC [INDEX FILE]...");
const ENCODE_USAGE: Fault = Fault::Usage("usage: legacy_encode CODEC [INDEX FILE]...");

/// Returns a stream without a buffer, which is not closed.
fn stream(number: i32) -> ManuallyDrop<File> {
    ManuallyDrop::new(unsafe { File::from_raw_fd(number) })
}

/// Returns the message of a fault of the streams.
fn told<T>(done: Result<T, RecodeError>) -> Ended {
    match done {
        Ok(_) => Ok(()),
        Err(RecodeError::Read) => Err(Fault::Other("input: cannot be read".to_string())),
        Err(RecodeError::Write) => Err(Fault::Other("output: cannot be written".to_string())),
    }
}

fn decode_by<D: RawDecoder>(mut decoder: D, is_text: bool) -> Ended {
    let (mut input, mut output) = (stream(0), stream(1));
    match is_text {
        true => told(recode_text(&mut decoder, &mut *input, &mut *output)),
        false => told(recode_lines(&mut decoder, &mut *input, &mut *output)),
    }
}

fn encode_by<E: RawEncoder>(mut encoder: E) -> Ended {
    told(encode_text(&mut encoder, &mut *stream(0), &mut *stream(1)))
}

/// Encodes with all pairs listed ahead.
fn encode_pairs<E: EncodesPairs>(encoder: E) -> Ended {
    encode_by(CachedEncoder::new(&encoder, &mut vec![0; PAIR_ROOM]).expect("the room is long enough"))
}

/// Checks whether the words after CODEC are INDEX and FILE any number of times, with no INDEX twice.
fn are_indexes(words: &[String]) -> bool {
    let mut names: Vec<&String> = words.iter().step_by(2).collect();
    names.sort();
    words.len() % 2 == 0 && names.iter().all(|it| INDEXES.contains(&it.as_str())) && names.windows(2).all(|it| it[0] != it[1])
}

/// Reads the index files that the words name.
fn owned(words: &[String]) -> Result<Owned, Fault> {
    let mut owned = Owned::default();
    for pair in words.chunks(2) {
        let text = fs::read_to_string(&pair[1]).map_err(|_| Fault::Other(format!("{}: cannot be read", pair[1])))?;
        owned.read(&pair[0], &text).map_err(|line| Fault::Other(format!("{}: line {line}", pair[1])))?;
    }
    Ok(owned)
}

/// Runs `legacy_recode` on its words.
pub fn recode(words: &[String]) -> Ended {
    let is_text = words.first().is_some_and(|word| word == "--text");
    let [codec, named @ ..] = &words[usize::from(is_text)..] else { return Err(RECODE_USAGE) };
    if !are_indexes(named) {
        return Err(RECODE_USAGE);
    }
    let owned = owned(named)?;
    let flat = owned.flat();
    let tables = Tables::new(&flat).map_err(|_| Fault::Other("tables".to_string()))?;
    match codec.as_str() {
        "single-byte" => decode_by(SingleByteDecoder::new(&owned.table()), is_text),
        "gbk" | "gb18030" => decode_by(Gb18030Decoder::new(&tables), is_text),
        "big5" => decode_by(Big5Decoder::new(&tables), is_text),
        "euc-jp" => decode_by(EucJpDecoder::new(&tables), is_text),
        "iso-2022-jp" => decode_by(Iso2022JpDecoder::new(&tables), is_text),
        "shift_jis" => decode_by(ShiftJisDecoder::new(&tables), is_text),
        "euc-kr" => decode_by(EucKrDecoder::new(&tables), is_text),
        "replacement" => decode_by(ReplacementDecoder::new(), is_text),
        "utf-16be" | "utf-16le" => decode_by(Utf16Decoder::new(codec == "utf-16be"), is_text),
        "x-user-defined" => decode_by(UserDefinedDecoder::new(), is_text),
        _ => Err(RECODE_USAGE),
    }
}

/// Runs `legacy_encode` on its words.
pub fn encode(words: &[String]) -> Ended {
    let [codec, named @ ..] = words else { return Err(ENCODE_USAGE) };
    if !are_indexes(named) {
        return Err(ENCODE_USAGE);
    }
    let owned = owned(named)?;
    let flat = owned.flat();
    let tables = Tables::new(&flat).map_err(|_| Fault::Other("tables".to_string()))?;
    match codec.as_str() {
        "single-byte" => encode_by(SingleByteEncoder::with_longest_run(&owned.table())),
        "gbk" | "gb18030" => encode_pairs(Gb18030Encoder::new(&tables, codec == "gb18030")),
        "big5" => encode_pairs(Big5Encoder::new(&tables)),
        "euc-jp" => encode_pairs(EucJpEncoder::new(&tables)),
        "shift_jis" => encode_pairs(ShiftJisEncoder::new(&tables)),
        "euc-kr" => encode_pairs(EucKrEncoder::new(&tables)),
        "iso-2022-jp" => {
            let mut room = vec![0; PAIR_ROOM];
            let encoder = Iso2022JpEncoder::new(&tables);
            encode_by(CachedIso2022JpEncoder::new(&encoder, &mut room).expect("the room is long enough"))
        }
        "x-user-defined" => encode_by(UserDefinedEncoder::new()),
        _ => Err(ENCODE_USAGE),
    }
}

extern "C" {
    fn signal(number: i32, action: usize) -> usize;
}

const SIGPIPE: i32 = 13;
const IGNORED: usize = 1;

/// Runs a program on the words of the command line, writes the message of its fault, and returns its status.
pub fn status(program: fn(&[String]) -> Ended) -> i32 {
    unsafe { signal(SIGPIPE, IGNORED) };
    let words: Vec<String> = std::env::args().skip(1).collect();
    let (status, message) = match program(&words) {
        Ok(()) => return 0,
        Err(Fault::Usage(message)) => (2, message.to_string()),
        Err(Fault::Other(message)) => (1, message),
    };
    // If the message cannot be written, the status is the same.
    let _ = std::io::Write::write_all(&mut *stream(2), format!("{message}\n").as_bytes());
    status
}
