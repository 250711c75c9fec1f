decoder!(ShiftJisDecoder, ShiftJis, legacy_codecs::ShiftJisDecoder<'static>, () legacy_codecs::ShiftJisDecoder::new(tables()), {
    pub fn in_neutral_state(&self) -> bool {
        self.0.in_neutral_state()
    }
});

encoder!(ShiftJisEncoder, ShiftJis, Listed<legacy_codecs::ShiftJisEncoder<'static>>, () with_list!(ShiftJisEncoder, legacy_codecs::ShiftJisEncoder::new(tables())), {});
