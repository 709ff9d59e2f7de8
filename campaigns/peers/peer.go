// Signs, presigns, writes and reads events and chunks by the SDK for Go: a line of JSON in and one out for each task, as peers.py has them.
package main

import (
	"bufio"
	"bytes"
	"checksum"
	"context"
	"encoding/hex"
	"encoding/json"
	"fmt"
	"io"
	"net/http"
	"os"
	"strings"
	"time"

	"github.com/aws/aws-sdk-go-v2/aws"
	"github.com/aws/aws-sdk-go-v2/aws/protocol/eventstream"
	v4 "github.com/aws/aws-sdk-go-v2/aws/signer/v4"
)

type task struct {
	Do, Method, Url, Key, Secret, Token, Region, Name, Digest, Seed, Body string
	Headers                                                         [][2]string
	At, Expires                                                     int64
	Size                                                            int
	Once                                                            bool
	Frames                                                          []string
}

func (t *task) credentials() aws.Credentials {
	return aws.Credentials{AccessKeyID: t.Key, SecretAccessKey: t.Secret, SessionToken: t.Token}
}

func (t *task) signer() *v4.Signer {
	return v4.NewSigner(func(o *v4.SignerOptions) { o.DisableURIPathEscaping = t.Once })
}

func (t *task) request() (*http.Request, error) {
	request, err := http.NewRequest(t.Method, t.Url, nil)
	if err != nil {
		return nil, err
	}
	for _, pair := range t.Headers {
		if strings.EqualFold(pair[0], "host") {
			request.Host = pair[1]
		} else {
			request.Header.Add(pair[0], pair[1])
		}
	}
	return request, nil
}

func (t *task) stream() (*v4.StreamSigner, error) {
	seed, err := hex.DecodeString(t.Seed)
	if err != nil {
		return nil, err
	}
	return v4.NewStreamSigner(t.credentials(), t.Name, t.Region, seed), nil
}

func sign(t *task) (interface{}, error) {
	request, err := t.request()
	if err != nil {
		return nil, err
	}
	if t.Do == "presign" {
		query := request.URL.Query()
		query.Set("X-Amz-Expires", fmt.Sprint(t.Expires))
		request.URL.RawQuery = query.Encode()
		url, _, err := t.signer().PresignHTTP(context.Background(), t.credentials(), request, t.Digest, t.Name, t.Region, time.Unix(t.At, 0).UTC())
		return url, err
	}
	err = t.signer().SignHTTP(context.Background(), t.credentials(), request, t.Digest, t.Name, t.Region, time.Unix(t.At, 0).UTC())
	return request.Header.Get("Authorization"), err
}

func decoded(text string) (eventstream.Message, error) {
	data, err := hex.DecodeString(text)
	if err != nil {
		return eventstream.Message{}, err
	}
	return eventstream.NewDecoder().Decode(bytes.NewReader(data), nil)
}

func encoded(message eventstream.Message) ([]byte, error) {
	var out bytes.Buffer
	err := eventstream.NewEncoder().Encode(&out, message)
	return out.Bytes(), err
}

// The signed frames of messages, and of the empty one that closes the stream.
func write(t *task) (interface{}, error) {
	signer, err := t.stream()
	if err != nil {
		return nil, err
	}
	out := []string{}
	for place := 0; place <= len(t.Frames); place++ {
		var inner []byte
		if place < len(t.Frames) {
			message, err := decoded(t.Frames[place])
			if err != nil {
				return nil, err
			}
			if inner, err = encoded(message); err != nil {
				return nil, err
			}
		}
		var date eventstream.Headers
		date.Set(":date", eventstream.TimestampValue(time.Unix(t.At, 0).UTC()))
		var spelt bytes.Buffer
		if err = eventstream.EncodeHeaders(&spelt, date); err != nil {
			return nil, err
		}
		signature, err := signer.GetSignature(context.Background(), spelt.Bytes(), inner, time.Unix(t.At, 0).UTC())
		if err != nil {
			return nil, err
		}
		headers := append(eventstream.Headers{{Name: ":chunk-signature", Value: eventstream.BytesValue(signature)}}, date...)
		frame, err := encoded(eventstream.Message{Headers: headers, Payload: inner})
		if err != nil {
			return nil, err
		}
		out = append(out, hex.EncodeToString(frame))
	}
	return out, nil
}

// What the signed frames carry, written again, once each signature was computed again.
func read(t *task) (interface{}, error) {
	signer, err := t.stream()
	if err != nil {
		return nil, err
	}
	out := []string{}
	for _, frame := range t.Frames {
		message, err := decoded(frame)
		if err != nil {
			return nil, err
		}
		date, isDate := message.Headers.Get(":date").(eventstream.TimestampValue)
		found, isBytes := message.Headers.Get(":chunk-signature").(eventstream.BytesValue)
		if !isDate || !isBytes {
			return nil, fmt.Errorf("headers")
		}
		var spelt bytes.Buffer
		if err = eventstream.EncodeHeaders(&spelt, eventstream.Headers{{Name: ":date", Value: date}}); err != nil {
			return nil, err
		}
		signature, err := signer.GetSignature(context.Background(), spelt.Bytes(), message.Payload, time.Time(date).UTC())
		if err != nil {
			return nil, err
		}
		if !bytes.Equal(signature, found) {
			return nil, fmt.Errorf("signature")
		}
		if len(message.Payload) == 0 {
			continue
		}
		inner, err := decoded(hex.EncodeToString(message.Payload))
		if err != nil {
			return nil, err
		}
		again, err := encoded(inner)
		if err != nil {
			return nil, err
		}
		out = append(out, hex.EncodeToString(again))
	}
	return out, nil
}

// The body in chunks.
func wrap(t *task) (interface{}, error) {
	body, err := hex.DecodeString(t.Body)
	if err != nil {
		return nil, err
	}
	text, err := checksum.Chunked(body, t.Size)
	return hex.EncodeToString(text), err
}

// The body that chunks hold, by the reader of HTTP's, where the trailer has its checksum.
func unwrap(t *task) (interface{}, error) {
	text, err := hex.DecodeString(t.Body)
	if err != nil {
		return nil, err
	}
	head := "PUT / HTTP/1.1\r\nHost: h\r\nTransfer-Encoding: chunked\r\nTrailer: x-amz-checksum-crc32\r\n\r\n"
	request, err := http.ReadRequest(bufio.NewReader(io.MultiReader(strings.NewReader(head), bytes.NewReader(text))))
	if err != nil {
		return nil, err
	}
	body, err := io.ReadAll(request.Body)
	if err != nil {
		return nil, err
	}
	if request.Trailer.Get("x-amz-checksum-crc32") != checksum.Of(body) {
		return nil, fmt.Errorf("trailer")
	}
	return hex.EncodeToString(body), nil
}

func main() {
	tasks := map[string]func(*task) (interface{}, error){"sign": sign, "presign": sign, "write": write, "read": read, "wrap": wrap, "unwrap": unwrap}
	in, out := bufio.NewReader(os.Stdin), json.NewEncoder(os.Stdout)
	for {
		line, err := in.ReadBytes('\n')
		if err == io.EOF {
			return
		}
		var t task
		if err = json.Unmarshal(line, &t); err != nil {
			panic(err)
		}
		answer, err := tasks[t.Do](&t)
		if err != nil {
			answer = map[string]string{"error": err.Error()}
		}
		out.Encode(answer)
	}
}
