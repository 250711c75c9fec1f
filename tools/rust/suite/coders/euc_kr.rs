decoder!(EucKrDecoder, EucKr, legacy_codecs::EucKrDecoder<'static>, () legacy_codecs::EucKrDecoder::new(tables()), {
    pub fn in_neutral_state(&self) -> bool {
        self.0.in_neutral_state()
    }
});

encoder!(EucKrEncoder, EucKr, Listed<legacy_codecs::EucKrEncoder<'static>>, () with_list!(EucKrEncoder, legacy_codecs::EucKrEncoder::new(tables())), {});
