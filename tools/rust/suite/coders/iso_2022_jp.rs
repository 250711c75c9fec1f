decoder!(Iso2022JpDecoder, Iso2022Jp, legacy_codecs::Iso2022JpDecoder<'static>, () legacy_codecs::Iso2022JpDecoder::new(tables()), {
    pub fn in_neutral_state(&self) -> bool {
        self.0.in_neutral_state()
    }
});

/// Returns the encoder with a list of its pairs, which is made once.
fn with_list() -> legacy_codecs::CachedIso2022JpEncoder<'static, 'static> {
    type Listed = legacy_codecs::CachedIso2022JpEncoder<'static, 'static>;
    static LISTED: std::sync::OnceLock<Listed> = std::sync::OnceLock::new();
    *LISTED.get_or_init(|| {
        let encoder = legacy_codecs::Iso2022JpEncoder::new(tables());
        Listed::new(&encoder, by_crate::room()).expect("the room has the length")
    })
}

encoder!(Iso2022JpEncoder, Iso2022Jp, legacy_codecs::CachedIso2022JpEncoder<'static, 'static>, () with_list(), {
    pub fn has_pending_state(&self) -> bool {
        self.0.has_pending_state()
    }
});
