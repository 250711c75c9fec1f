decoder!(Gb18030Decoder, Gb18030, legacy_codecs::Gb18030Decoder<'static>, () legacy_codecs::Gb18030Decoder::new(tables()), {
    pub fn in_neutral_state(&self) -> bool {
        self.0.in_neutral_state()
    }
});

encoder!(
    Gb18030Encoder,
    Gb18030,
    Listed<legacy_codecs::Gb18030Encoder<'static>>,
    (extended_range: bool)
    if extended_range {
        with_list!(Gb18030Encoder, legacy_codecs::Gb18030Encoder::new(tables(), true))
    } else {
        with_list!(Gb18030Encoder, legacy_codecs::Gb18030Encoder::new(tables(), false))
    },
    {}
);
