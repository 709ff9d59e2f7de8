// Beside the SDK's own file of bodies in chunks, which no other package may call.
package checksum

import (
	"bytes"
	"encoding/base64"
	"encoding/binary"
	"hash/crc32"
	"io"
)

// Of is the text of a body's CRC-32 in a trailer.
func Of(body []byte) string {
	var sum [4]byte
	binary.BigEndian.PutUint32(sum[:], crc32.ChecksumIEEE(body))
	return base64.StdEncoding.EncodeToString(sum[:])
}

// Chunked is a body in chunks of a size, with its CRC-32 behind it.
func Chunked(body []byte, size int) ([]byte, error) {
	return io.ReadAll(newUnsignedAWSChunkedEncoding(bytes.NewReader(body), func(options *awsChunkedEncodingOptions) {
		options.ChunkLength = size
		options.Trailers = map[string]awsChunkedTrailerValue{
			"x-amz-checksum-crc32": {Get: func() (string, error) { return Of(body), nil }, Length: 8},
		}
	}))
}
