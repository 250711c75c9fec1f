decoder!(ReplacementDecoder, Replacement, legacy_codecs::ReplacementDecoder, () legacy_codecs::ReplacementDecoder::new(), {});
