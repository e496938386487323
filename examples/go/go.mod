module codec_payload

go 1.19
