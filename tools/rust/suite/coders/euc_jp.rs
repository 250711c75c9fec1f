decoder!(EucJpDecoder, EucJp, legacy_codecs::EucJpDecoder<'static>, () legacy_codecs::EucJpDecoder::new(tables()), {
    pub fn in_neutral_state(&self) -> bool {
        self.0.in_neutral_state()
    }
});

encoder!(EucJpEncoder, EucJp, Listed<legacy_codecs::EucJpEncoder<'static>>, () with_list!(EucJpEncoder, legacy_codecs::EucJpEncoder::new(tables())), {});
