decoder!(UserDefinedDecoder, UserDefined, legacy_codecs::UserDefinedDecoder, () legacy_codecs::UserDefinedDecoder::new(), {});

encoder!(UserDefinedEncoder, UserDefined, legacy_codecs::UserDefinedEncoder, () legacy_codecs::UserDefinedEncoder::new(), {});
