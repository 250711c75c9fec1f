decoder!(
    SingleByteDecoder,
    SingleByte,
    legacy_codecs::SingleByteDecoder<'static>,
    (data: &'static [u16; 128]) legacy_codecs::SingleByteDecoder::new(by_crate::single_byte(data)),
    {
        pub fn latin1_byte_compatible_up_to(&self, buffer: &[u8]) -> usize {
            self.0.latin1_byte_compatible_up_to(buffer)
        }
    }
);

encoder!(
    SingleByteEncoder,
    SingleByte,
    legacy_codecs::SingleByteEncoder<'static>,
    (data: &'static [u16; 128], run_bmp_offset: u16, run_byte_offset: u8, run_length: u8)
    legacy_codecs::SingleByteEncoder::new(by_crate::single_byte(data), run_bmp_offset, run_byte_offset, run_length)
        .expect("the run is the table's"),
    {}
);
