//! Does one kind of work of crates/tool_bench by the SDK for Rust, and prints the same line, digest and all: the answers are the same.
use aws_credential_types::Credentials;
use aws_sigv4::event_stream::{sign_empty_message, sign_message};
use aws_sigv4::http_request::{
    sign, SignableBody, SignableRequest, SignatureLocation, SigningSettings,
};
use aws_sigv4::sign::v4;
use aws_smithy_eventstream::frame::{write_message_to, DecodedFrame, MessageFrameDecoder};
use aws_smithy_runtime_api::client::identity::Identity;
use aws_smithy_types::event_stream::Message;
use bytes::{Buf, Bytes};
use sha2::{Digest as _, Sha256};
use std::collections::VecDeque;
use std::time::{Duration, SystemTime};

const TARGET: &str = "https://service.us-east-1.amazonaws.com/path";
const HEADERS: [(&str, &str); 3] = [
    ("host", "service.us-east-1.amazonaws.com"),
    ("content-type", "application/json"),
    ("x-amz-target", "Service.Operation"),
];

struct Digest(u64);

impl Digest {
    fn with(&mut self, answer: &[u8]) {
        for byte in answer {
            self.0 = self.0.wrapping_mul(31).wrapping_add(u64::from(*byte));
        }
    }
}

fn identity() -> Identity {
    let secret = "wJalrXUtnFEMI/K7MDENG+bPxRfiCYEXAMPLEKEY";
    Credentials::new("AKIDEXAMPLE", secret, None, None, "peer").into()
}

fn moment_of(number: usize) -> SystemTime {
    SystemTime::UNIX_EPOCH + Duration::from_secs(1_440_938_160 + number as u64)
}

fn params_at<S: Default>(
    identity: &Identity,
    number: usize,
    settings: S,
) -> v4::SigningParams<'_, S> {
    v4::SigningParams::builder()
        .identity(identity)
        .region("us-east-1")
        .name("service")
        .time(moment_of(number))
        .settings(settings)
        .build()
        .unwrap()
}

fn requests(digest: &mut Digest, count: usize, presigned: bool) {
    let identity = identity();
    let headers = if presigned {
        &HEADERS[..0]
    } else {
        &HEADERS[..]
    };
    for number in 0..count {
        let mut settings = SigningSettings::default();
        if presigned {
            settings.signature_location = SignatureLocation::QueryParams;
            settings.expires_in = Some(Duration::from_secs(900));
        }
        let params = params_at(&identity, number, settings).into();
        let body = SignableBody::Bytes(&[]);
        let request = SignableRequest::new("GET", TARGET, headers.iter().copied(), body).unwrap();
        digest.with(sign(request, &params).unwrap().signature().as_bytes());
    }
}

fn chain(digest: &mut Digest, count: usize, size: usize) {
    let identity = identity();
    let params = params_at(&identity, 0, ());
    let event = Message::new(vec![7; size]);
    let mut last = String::new();
    let mut frame = Vec::new();
    for number in 0..=count {
        let signed = if number < count {
            sign_message(&event, &last, &params)
        } else {
            sign_empty_message(&last, &params)
        };
        let (message, signature) = signed.unwrap().into_parts();
        digest.with(signature.as_bytes());
        write(digest, &message, &mut frame);
        last = signature;
    }
}

fn write(digest: &mut Digest, message: &Message, frame: &mut Vec<u8>) {
    frame.clear();
    write_message_to(message, frame).unwrap();
    digest.with(&frame[frame.len() - 4..]);
}

fn frames(digest: &mut Digest, count: usize, size: usize) {
    let message = Message::new(vec![7; size]);
    let mut frame = Vec::new();
    for _ in 0..count {
        write(digest, &message, &mut frame);
    }
}

fn sums(digest: &mut Digest, count: usize, size: usize, sum: fn(&[u8], &mut Digest)) {
    let mut bytes = vec![7; size];
    for number in 0..count {
        bytes[0] = number as u8;
        sum(&bytes, digest);
    }
}

/// The pieces that wait, as one buffer.
struct Pieces(VecDeque<Bytes>);

impl Buf for Pieces {
    fn remaining(&self) -> usize {
        self.0.iter().map(Bytes::len).sum()
    }

    fn chunk(&self) -> &[u8] {
        self.0.front().map_or(&[], |piece| &piece[..])
    }

    fn advance(&mut self, mut count: usize) {
        while count > 0 {
            let first = self.0.front_mut().expect("so many bytes wait");
            let step = count.min(first.len());
            first.advance(step);
            count -= step;
            if first.is_empty() {
                self.0.pop_front();
            }
        }
    }
}

/// 175 frames of 1,024 bytes, in pieces of 1,400.
fn decode(digest: &mut Digest, count: usize) {
    let mut stream = Vec::new();
    for _ in 0..175 {
        write_message_to(&Message::new(vec![7; 1008]), &mut stream).unwrap();
    }
    let pieces: Vec<Bytes> = stream.chunks(1400).map(Bytes::copy_from_slice).collect();
    let mut decoder = MessageFrameDecoder::new();
    let mut buffer = Pieces(VecDeque::new());
    for _ in 0..count {
        for piece in &pieces {
            buffer.0.push_back(piece.clone());
            while let DecodedFrame::Complete(message) = decoder.decode_frame(&mut buffer).unwrap() {
                digest.with(&message.payload()[..1]);
            }
        }
    }
    assert!(!buffer.has_remaining());
}

fn main() {
    let words: Vec<String> = std::env::args().skip(1).collect();
    let number = |place: usize| words.get(place).and_then(|it| it.parse::<usize>().ok());
    let (count, size) = (number(1).unwrap_or(0), number(2).unwrap_or(0));
    let mut digest = Digest(0);
    match words.first().map_or("", |it| it.as_str()) {
        "sign" => requests(&mut digest, count, false),
        "presign" => requests(&mut digest, count, true),
        "chain" => chain(&mut digest, count, size),
        "checksum" => sums(&mut digest, count, size, |bytes, digest| {
            digest.with(&crc32fast::hash(bytes).to_be_bytes())
        }),
        "hash" => sums(&mut digest, count, size, |bytes, digest| {
            digest.with(&Sha256::digest(bytes))
        }),
        "write" => frames(&mut digest, count, size),
        "decode" => decode(&mut digest, count),
        _ => std::process::exit(3),
    }
    println!("{} {:016x}", words.join(" "), digest.0);
}
