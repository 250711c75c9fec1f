decoder!(Big5Decoder, Big5, legacy_codecs::Big5Decoder<'static>, () legacy_codecs::Big5Decoder::new(tables()), {
    pub fn in_neutral_state(&self) -> bool {
        self.0.in_neutral_state()
    }
});

encoder!(Big5Encoder, Big5, Listed<legacy_codecs::Big5Encoder<'static>>, () with_list!(Big5Encoder, legacy_codecs::Big5Encoder::new(tables())), {});
