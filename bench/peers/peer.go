// Does one kind of work of crates/tool_bench by the SDK for Go, and prints the same line, digest and all: the answers are the same.
package main

import (
	"bytes"
	"context"
	"crypto/sha256"
	"encoding/binary"
	"encoding/hex"
	"fmt"
	"hash/crc32"
	"io"
	"net/http"
	"os"
	"strconv"
	"time"

	"github.com/aws/aws-sdk-go-v2/aws"
	"github.com/aws/aws-sdk-go-v2/aws/protocol/eventstream"
	v4 "github.com/aws/aws-sdk-go-v2/aws/signer/v4"
)

const target = "https://service.us-east-1.amazonaws.com/path"

var credentials = aws.Credentials{AccessKeyID: "AKIDEXAMPLE", SecretAccessKey: "wJalrXUtnFEMI/K7MDENG+bPxRfiCYEXAMPLEKEY"}
var emptyHash = hex.EncodeToString(sha256.New().Sum(nil))
var digest uint64

func with(answer []byte) {
	for _, b := range answer {
		digest = digest*31 + uint64(b)
	}
}

func check(err error) {
	if err != nil {
		panic(err)
	}
}

func momentOf(number int) time.Time {
	return time.Unix(1440938160+int64(number), 0).UTC()
}

func filled(size int) []byte {
	return bytes.Repeat([]byte{7}, size)
}

// The hexadecimal digits of the signature at the end of a header or a query.
func signatureAt(text string) []byte {
	return []byte(text[len(text)-64:])
}

func sign(count int) {
	signer := v4.NewSigner()
	for number := 0; number < count; number++ {
		request, err := http.NewRequest("GET", target, nil)
		check(err)
		request.Header.Set("Content-Type", "application/json")
		request.Header.Set("X-Amz-Target", "Service.Operation")
		check(signer.SignHTTP(context.Background(), credentials, request, emptyHash, "service", "us-east-1", momentOf(number)))
		with(signatureAt(request.Header.Get("Authorization")))
	}
}

func presign(count int) {
	signer := v4.NewSigner()
	for number := 0; number < count; number++ {
		request, err := http.NewRequest("GET", target+"?X-Amz-Expires=900", nil)
		check(err)
		url, _, err := signer.PresignHTTP(context.Background(), credentials, request, emptyHash, "service", "us-east-1", momentOf(number))
		check(err)
		with(signatureAt(url))
	}
}

func chain(count, size int) {
	signer := v4.NewStreamSigner(credentials, "service", "us-east-1", nil)
	encoder := eventstream.NewEncoder()
	at := momentOf(0)
	var date eventstream.Headers
	date.Set(":date", eventstream.TimestampValue(at))
	payload := filled(size)
	for number := 0; number <= count; number++ {
		var inner, spelt, frame bytes.Buffer
		if number < count {
			check(encoder.Encode(&inner, eventstream.Message{Payload: payload}))
		}
		check(eventstream.EncodeHeaders(&spelt, date))
		signature, err := signer.GetSignature(context.Background(), spelt.Bytes(), inner.Bytes(), at)
		check(err)
		headers := eventstream.Headers{{Name: ":chunk-signature", Value: eventstream.BytesValue(signature)}, date[0]}
		check(encoder.Encode(&frame, eventstream.Message{Headers: headers, Payload: inner.Bytes()}))
		with([]byte(hex.EncodeToString(signature)))
		with(frame.Bytes()[frame.Len()-4:])
	}
}

func checksum(count, size int) {
	data := filled(size)
	var sum [4]byte
	for number := 0; number < count; number++ {
		data[0] = byte(number)
		binary.BigEndian.PutUint32(sum[:], crc32.ChecksumIEEE(data))
		with(sum[:])
	}
}

func hash(count, size int) {
	data := filled(size)
	for number := 0; number < count; number++ {
		data[0] = byte(number)
		sum := sha256.Sum256(data)
		with(sum[:])
	}
}

func write(count, size int) {
	encoder := eventstream.NewEncoder()
	message := eventstream.Message{Payload: filled(size)}
	var frame bytes.Buffer
	for number := 0; number < count; number++ {
		frame.Reset()
		check(encoder.Encode(&frame, message))
		with(frame.Bytes()[frame.Len()-4:])
	}
}

// Gives what is left of a stream in pieces of 1,400 bytes at most, as a connection does.
type pieces struct {
	left []byte
	end  int
}

func (p *pieces) Read(into []byte) (int, error) {
	if len(p.left) == 0 {
		return 0, io.EOF
	}
	if p.end == 0 {
		p.end = 1400
	}
	count := copy(into, p.left[:min(p.end, len(p.left))])
	p.left, p.end = p.left[count:], p.end-count
	return count, nil
}

func min(one, other int) int {
	if one < other {
		return one
	}
	return other
}

func decode(count int) {
	var frames bytes.Buffer
	for number := 0; number < 175; number++ {
		check(eventstream.NewEncoder().Encode(&frames, eventstream.Message{Payload: filled(1008)}))
	}
	decoder := eventstream.NewDecoder()
	room := make([]byte, 0, 2048)
	for number := 0; number < count; number++ {
		stream := &pieces{left: frames.Bytes()}
		for len(stream.left) > 0 {
			message, err := decoder.Decode(stream, room)
			check(err)
			with(message.Payload[:1])
		}
	}
}

func main() {
	counted := map[string]func(int){"sign": sign, "presign": presign, "decode": decode}
	sized := map[string]func(int, int){"chain": chain, "checksum": checksum, "hash": hash, "write": write}
	words := append(os.Args, "", "", "")
	count, _ := strconv.Atoi(words[2])
	size, _ := strconv.Atoi(words[3])
	if do := counted[words[1]]; do != nil {
		do(count)
		fmt.Printf("%s %d %016x\n", words[1], count, digest)
	} else if do := sized[words[1]]; do != nil {
		do(count, size)
		fmt.Printf("%s %d %d %016x\n", words[1], count, size, digest)
	} else {
		os.Exit(3)
	}
}
