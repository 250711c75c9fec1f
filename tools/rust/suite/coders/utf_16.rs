decoder!(Utf16Decoder, Utf16, legacy_codecs::Utf16Decoder, (big_endian: bool) legacy_codecs::Utf16Decoder::new(big_endian), {
    pub fn additional_from_state(&self) -> usize {
        self.0.additional_from_state()
    }
});
