//! AWS Signature Version 4, by the C library of Firuvaik (`c/firuvaik.h`).
//!
//! ```
//! use firuvaik::{sign, Request, Settings, Signer};
//!
//! let signer = Signer { key_id: "AKIDEXAMPLE", secret: "S", token: "", region: "us-east-1", service: "iam" };
//! let request = Request { method: "GET", target: "https://iam.amazonaws.com/", headers: &[], body: b"" };
//! let signed = sign(&signer, &request, &Settings::default(), 1_440_938_160)?;
//! assert!(signed.text.starts_with("x-amz-date: 20150830T123600Z\r\n"));
//! # Ok::<(), firuvaik::Error>(())
//! ```
#![warn(missing_docs)]

use std::fmt;

mod sys {
    use std::marker::PhantomData;
    use std::os::raw::{c_char, c_long, c_uint, c_ulong};

    /// A text, or bytes.
    #[repr(C)]
    #[derive(Clone, Copy)]
    pub struct Text<'a> {
        bytes: *const c_char,
        length: usize,
        lent: PhantomData<&'a [u8]>,
    }

    impl<'a> Text<'a> {
        pub fn new(bytes: &'a [u8]) -> Text<'a> {
            Text { bytes: bytes.as_ptr().cast(), length: bytes.len(), lent: PhantomData }
        }
    }

    #[repr(C)]
    pub struct Field<'a> {
        pub name: Text<'a>,
        pub value: Text<'a>,
    }

    #[repr(C)]
    pub struct EventHeader<'a> {
        pub name: Text<'a>,
        pub kind: c_uint,
        pub number: c_long,
        pub value: Text<'a>,
    }

    #[repr(C)]
    #[derive(Clone, Copy, Default)]
    pub struct HeaderPlace {
        pub name: usize,
        pub name_length: usize,
        pub kind: c_uint,
        pub number: c_long,
        pub value: usize,
        pub value_length: usize,
    }

    #[repr(C)]
    #[derive(Clone, Copy, Default)]
    pub struct FrameParts {
        pub length: usize,
        pub payload: usize,
        pub payload_length: usize,
    }

    #[repr(C)]
    pub struct Signer<'a> {
        pub key_id: Text<'a>,
        pub secret: Text<'a>,
        pub token: Text<'a>,
        pub region: Text<'a>,
        pub service: Text<'a>,
    }

    #[repr(C)]
    pub struct Request<'a> {
        pub method: Text<'a>,
        pub target: Text<'a>,
        pub headers: *const Field<'a>,
        pub header_count: usize,
        pub body: Text<'a>,
    }

    #[repr(C)]
    pub struct Settings<'a> {
        pub flags: c_uint,
        pub expires_in: c_ulong,
        pub token_name: Text<'a>,
        pub excluded: *const Text<'a>,
        pub excluded_count: usize,
    }

    #[repr(C)]
    pub struct Key<'a> {
        pub id: Text<'a>,
        pub secret: Text<'a>,
    }

    #[repr(C)]
    pub struct Service<'a> {
        pub region: Text<'a>,
        pub name: Text<'a>,
        pub flags: c_uint,
        pub skew: c_uint,
        pub expiry: c_uint,
        pub keys: *const Key<'a>,
        pub key_count: usize,
    }

    #[repr(C)]
    #[derive(Clone, Copy, Default)]
    pub struct Admission {
        pub key: usize,
        pub at: c_long,
        pub until: c_long,
        pub place: c_uint,
        pub payload: c_uint,
    }

    #[repr(C)]
    pub struct Sources<'a> {
        pub config: Text<'a>,
        pub credentials: Text<'a>,
        pub variables: *const Field<'a>,
        pub variable_count: usize,
    }

    #[repr(C)]
    #[derive(Clone, Copy, Default)]
    pub struct Span {
        pub start: usize,
        pub length: usize,
    }

    #[repr(C)]
    #[derive(Clone, Copy, Default)]
    pub struct Selection {
        pub key_id: Span,
        pub secret: Span,
        pub token: Span,
        pub region: Span,
        pub profile: Span,
    }

    #[repr(C)]
    pub struct Invocation<'a> {
        pub words: *const Text<'a>,
        pub word_count: usize,
        pub variables: *const Field<'a>,
        pub variable_count: usize,
        pub files: *const Field<'a>,
        pub file_count: usize,
        pub input: Text<'a>,
        pub seconds: c_long,
    }

    #[repr(C)]
    #[derive(Clone, Copy, Default)]
    pub struct Outcome {
        pub code: c_uint,
        pub output_length: usize,
    }

    #[repr(C)]
    pub struct Answer {
        pub status: c_uint,
        pub place: usize,
        pub length: usize,
    }

    extern "C" {
        pub fn firuvaik_sign(
            signer: *const Signer<'_>,
            request: *const Request<'_>,
            settings: *const Settings<'_>,
            seconds: c_long,
            signature: *mut c_char,
            out: *mut c_char,
            out_room: usize,
        ) -> Answer;

        pub fn firuvaik_admit(
            service: *const Service<'_>,
            request: *const Request<'_>,
            seconds: c_long,
            admission: *mut Admission,
            signature: *mut c_char,
            names: *mut c_char,
            names_room: usize,
        ) -> Answer;

        pub fn firuvaik_event(
            headers: *const Field<'_>,
            header_count: usize,
            payload: *const c_char,
            payload_length: usize,
            out: *mut c_char,
            out_room: usize,
        ) -> Answer;

        pub fn firuvaik_frame(
            headers: *const EventHeader<'_>,
            header_count: usize,
            payload: *const c_char,
            payload_length: usize,
            out: *mut c_char,
            out_room: usize,
        ) -> Answer;

        pub fn firuvaik_frame_length(bytes: *const c_char, length: usize) -> Answer;

        pub fn firuvaik_read_frame(
            bytes: *const c_char,
            length: usize,
            parts: *mut FrameParts,
            headers: *mut HeaderPlace,
            header_room: usize,
        ) -> Answer;

        pub fn firuvaik_signing_key(signer: *const Signer<'_>, seconds: c_long, key: *mut u8) -> Answer;

        pub fn firuvaik_signature(key: *const u8, text: *const c_char, text_length: usize, signature: *mut c_char) -> Answer;

        pub fn firuvaik_check_frame(
            signer: *const Signer<'_>,
            frame: *const c_char,
            frame_length: usize,
            signature: *mut c_char,
            parts: *mut FrameParts,
        ) -> Answer;

        pub fn firuvaik_next_chunk(
            signer: *const Signer<'_>,
            seconds: c_long,
            chunk: *const c_char,
            chunk_length: usize,
            signature: *mut c_char,
            out: *mut c_char,
            out_room: usize,
        ) -> Answer;

        pub fn firuvaik_trailers(
            signer: *const Signer<'_>,
            seconds: c_long,
            trailers: *const Field<'_>,
            trailer_count: usize,
            signature: *mut c_char,
            out: *mut c_char,
            out_room: usize,
        ) -> Answer;

        pub fn firuvaik_select(
            sources: *const Sources<'_>,
            selection: *mut Selection,
            out: *mut c_char,
            out_room: usize,
        ) -> Answer;

        pub fn firuvaik_run(
            invocation: *const Invocation<'_>,
            outcome: *mut Outcome,
            out: *mut c_char,
            out_room: usize,
        ) -> Answer;

        pub fn firuvaik_status_text(status: c_uint, out: *mut c_char, out_room: usize) -> Answer;

        pub fn firuvaik_version(out: *mut c_char, out_room: usize) -> Answer;

        pub fn firuvaik_next_frame(
            signer: *const Signer<'_>,
            seconds: c_long,
            event: *const c_char,
            event_length: usize,
            signature: *mut c_char,
            out: *mut c_char,
            out_room: usize,
        ) -> Answer;
    }
}

/// Who signs, and for which region and service. It shows no secret.
#[derive(Clone, Copy)]
pub struct Signer<'a> {
    /// The access key id.
    pub key_id: &'a str,
    /// The secret access key.
    pub secret: &'a str,
    /// The session token; an empty one stands for none.
    pub token: &'a str,
    /// The region.
    pub region: &'a str,
    /// The service's name.
    pub service: &'a str,
}

impl fmt::Debug for Signer<'_> {
    fn fmt(&self, f: &mut fmt::Formatter<'_>) -> fmt::Result {
        write!(f, "Signer({}, {}, {})", self.key_id, self.region, self.service)
    }
}

/// A request.
#[derive(Clone, Copy)]
pub struct Request<'a> {
    /// The method.
    pub method: &'a str,
    /// The target: an absolute URI, or a path with a query.
    pub target: &'a str,
    /// The headers in order, each with its name and its value.
    pub headers: &'a [(&'a str, &'a str)],
    /// The body.
    pub body: &'a [u8],
}

/// How a request is signed. The default are the settings of a signature in headers.
#[derive(Clone, Copy, Debug, Default)]
pub struct Settings<'a> {
    /// The settings of Amazon S3: the path is escaped once and stays as it is, and the payload's text has a header.
    pub s3: bool,
    /// The signature goes into the target, which is good for so many seconds.
    pub presigned_for: Option<u64>,
    /// The payload's text in place of the body: a digest, or a word such as `UNSIGNED-PAYLOAD`.
    pub payload: Option<&'a str>,
    /// The session token goes out unsigned.
    pub unsigned_token: bool,
    /// The name of the session token's header or parameter; an empty one stands for the usual one.
    pub token_name: &'a str,
    /// The names of the headers that aren't signed, in lower case, where they aren't the usual ones.
    pub excluded: Option<&'a [&'a str]>,
}

impl Settings<'_> {
    fn flags(&self) -> u32 {
        let flag = |set: bool, flag: u32| if set { flag } else { 0 };
        flag(self.presigned_for.is_some(), 1)
            | flag(self.s3, 2 | 4 | 8)
            | flag(self.unsigned_token, 16)
            | flag(self.payload.is_some(), 32)
            | flag(self.excluded.is_some(), 64)
    }
}

/// Why nothing is made: the status of `c/firuvaik.h`, and the place of the header, the line or the part of a signature at
/// fault, or 0.
#[derive(Clone, Copy, Debug, PartialEq, Eq)]
pub struct Error {
    /// The status.
    pub status: u32,
    /// The place, counted from 1.
    pub place: usize,
}

impl fmt::Display for Error {
    fn fmt(&self, f: &mut fmt::Formatter<'_>) -> fmt::Result {
        let text = written(100, |out| unsafe { sys::firuvaik_status_text(self.status, out.as_mut_ptr().cast(), out.len()) })
            .unwrap_or_default();
        f.write_str(&String::from_utf8_lossy(&text))?;
        match (self.status, self.place) {
            (_, 0) => Ok(()),
            (63 | 64, part) => write!(f, ": part {part}"),
            (90 | 91, line) => write!(f, ": line {line}"),
            (_, place) => write!(f, ": header {place}"),
        }
    }
}

impl std::error::Error for Error {}

/// What was signed.
#[derive(Clone)]
pub struct Signed {
    /// The headers to add, as lines of HTTP/1.1, or the signed target.
    pub text: String,
    /// The signature, in lower-case hexadecimal.
    pub signature: [u8; 64],
}

fn text(text: &str) -> sys::Text<'_> {
    sys::Text::new(text.as_bytes())
}

fn field<'a>(name: &'a str, value: &'a str) -> sys::Field<'a> {
    sys::Field { name: text(name), value: text(value) }
}

fn lent<'a>(signer: &Signer<'a>) -> sys::Signer<'a> {
    sys::Signer {
        key_id: text(signer.key_id),
        secret: text(signer.secret),
        token: text(signer.token),
        region: text(signer.region),
        service: text(signer.service),
    }
}

fn asked<'a>(request: &Request<'a>, fields: &[sys::Field<'a>], body: &'a [u8]) -> sys::Request<'a> {
    sys::Request {
        method: text(request.method),
        target: text(request.target),
        headers: fields.as_ptr(),
        header_count: fields.len(),
        body: sys::Text::new(body),
    }
}

// Whether a call did what was asked.
fn done(answer: &sys::Answer) -> Result<(), Error> {
    match answer.status {
        0 => Ok(()),
        status => Err(Error { status, place: answer.place }),
    }
}

// What a call writes. It is made again with as much room as it asked for.
fn written(mut room: usize, mut call: impl FnMut(&mut [u8]) -> sys::Answer) -> Result<Vec<u8>, Error> {
    loop {
        let mut out = vec![0; room];
        let answer = call(&mut out);
        match answer.status {
            0 => {
                out.truncate(answer.length);
                return Ok(out);
            }
            1 => room = answer.length,
            status => return Err(Error { status, place: answer.place }),
        }
    }
}

/// Signs a request at a moment, in seconds since 1970-01-01T00:00:00Z.
///
/// # Errors
///
/// The first test that fails, as `c/firuvaik.h` has them.
pub fn sign(signer: &Signer<'_>, request: &Request<'_>, settings: &Settings<'_>, seconds: i64) -> Result<Signed, Error> {
    let fields: Vec<_> = request.headers.iter().map(|(name, value)| field(name, value)).collect();
    let excluded: Vec<_> = settings.excluded.unwrap_or(&[]).iter().map(|name| text(name)).collect();
    let body = settings.payload.map_or(request.body, str::as_bytes);
    let signer = lent(signer);
    let asked = asked(request, &fields, body);
    let how = sys::Settings {
        flags: settings.flags(),
        expires_in: settings.presigned_for.unwrap_or(0),
        token_name: text(settings.token_name),
        excluded: excluded.as_ptr(),
        excluded_count: excluded.len(),
    };
    let mut signature = [0; 64];
    let out = written(1024, |out| unsafe {
        sys::firuvaik_sign(&signer, &asked, &how, seconds, signature.as_mut_ptr().cast(), out.as_mut_ptr().cast(), out.len())
    })?;
    let text = String::from_utf8(out).expect("what is made of texts is a text");
    Ok(Signed { text, signature })
}

/// A service to which signed requests come.
#[derive(Clone, Copy)]
pub struct Service<'a> {
    /// The region.
    pub region: &'a str,
    /// The service's name.
    pub name: &'a str,
    /// The keys that it knows, each with its id and its secret.
    pub keys: &'a [(&'a str, &'a str)],
    /// It takes requests as Amazon S3 does.
    pub s3: bool,
    /// A session token may have been added after signing.
    pub unsigned_token: bool,
    /// By how many seconds the date of a signature in headers may differ from the service's own; AWS has 900.
    pub skew: u32,
    /// For how many seconds a presigned target may be good; AWS has 604,800.
    pub expiry: u32,
}

/// What was signed of a request's payload.
#[derive(Clone, Copy, Debug, PartialEq, Eq)]
pub enum Payload {
    /// The digest of the body, which is that of the body that came.
    Body,
    /// Nothing of it.
    Unsigned,
    /// Nothing of it: the body is in unsigned chunks.
    UnsignedChunks,
    /// Each chunk or frame after the one before it, from the request's signature on.
    SignedChunks,
}

/// A request that a service lets in.
#[derive(Clone, Debug, PartialEq, Eq)]
pub struct Admitted<'a> {
    /// The id of the key that signed it.
    pub key_id: &'a str,
    /// The second at which it was signed.
    pub at: i64,
    /// The first second in which it isn't good any more.
    pub until: i64,
    /// Whether it is presigned.
    pub presigned: bool,
    /// The names of the signed headers, with `;` between.
    pub names: String,
    /// What was signed of its payload.
    pub payload: Payload,
    /// Its signature, from which a [`Watch`] goes on.
    pub signature: [u8; 64],
}

/// Who signed a request that came to a service, with all its headers and its own body, at a moment.
///
/// # Errors
///
/// The first test that the request doesn't pass, as `c/firuvaik.h` has them.
pub fn admit<'a>(service: &Service<'a>, request: &Request<'_>, seconds: i64) -> Result<Admitted<'a>, Error> {
    let fields: Vec<_> = request.headers.iter().map(|(name, value)| field(name, value)).collect();
    let keys: Vec<_> = service.keys.iter().map(|(id, secret)| sys::Key { id: text(id), secret: text(secret) }).collect();
    let asked = asked(request, &fields, request.body);
    let lent = sys::Service {
        region: text(service.region),
        name: text(service.name),
        flags: Settings { s3: service.s3, unsigned_token: service.unsigned_token, ..Settings::default() }.flags(),
        skew: service.skew,
        expiry: service.expiry,
        keys: keys.as_ptr(),
        key_count: keys.len(),
    };
    let (mut told, mut signature) = (sys::Admission::default(), [0; 64]);
    let names = written(256, |out| unsafe {
        let room = out.len();
        sys::firuvaik_admit(&lent, &asked, seconds, &mut told, signature.as_mut_ptr().cast(), out.as_mut_ptr().cast(), room)
    })?;
    Ok(Admitted {
        key_id: service.keys[told.key].0,
        at: told.at,
        until: told.until,
        presigned: told.place == 1,
        names: String::from_utf8(names).expect("what is read of texts is a text"),
        payload: [Payload::Body, Payload::Unsigned, Payload::UnsignedChunks, Payload::SignedChunks][told.payload as usize],
        signature,
    })
}

/// Where settings come from.
#[derive(Clone, Copy, Default)]
pub struct Sources<'a> {
    /// The text of the config file.
    pub config: &'a str,
    /// The text of the credentials file.
    pub credentials: &'a str,
    /// The variables, each with its name and its value. Those of a key, `AWS_PROFILE`, `AWS_REGION` and `AWS_DEFAULT_REGION` are read.
    pub variables: &'a [(&'a str, &'a str)],
}

/// What there is to sign with. It shows no secret.
#[derive(Clone, PartialEq, Eq)]
pub struct Selected {
    /// The access key id.
    pub key_id: String,
    /// The secret access key.
    pub secret: String,
    /// The session token, or an empty text.
    pub token: String,
    /// The region.
    pub region: String,
    /// The name of the profile that the variables select.
    pub profile: String,
}

impl Selected {
    /// The signer for a service, by its signing name.
    pub fn signer<'a>(&'a self, service: &'a str) -> Signer<'a> {
        Signer { key_id: &self.key_id, secret: &self.secret, token: &self.token, region: &self.region, service }
    }
}

impl fmt::Debug for Selected {
    fn fmt(&self, f: &mut fmt::Formatter<'_>) -> fmt::Result {
        write!(f, "Selected({}, {}, {})", self.profile, self.key_id, self.region)
    }
}

/// What there is to sign with: key and region, each of the variables or else of the profile that these select.
///
/// # Errors
///
/// A line that isn't one of a profile file; a missing key; a missing region.
pub fn select(sources: &Sources<'_>) -> Result<Selected, Error> {
    let fields: Vec<_> = sources.variables.iter().map(|(name, value)| field(name, value)).collect();
    let asked = sys::Sources {
        config: text(sources.config),
        credentials: text(sources.credentials),
        variables: fields.as_ptr(),
        variable_count: fields.len(),
    };
    let mut told = sys::Selection::default();
    let out = written(512, |out| unsafe { sys::firuvaik_select(&asked, &mut told, out.as_mut_ptr().cast(), out.len()) })?;
    let found = |span: sys::Span| {
        let bytes = &out[span.start..span.start + span.length];
        String::from_utf8(bytes.to_vec()).expect("what is read of texts is a text")
    };
    Ok(Selected {
        key_id: found(told.key_id),
        secret: found(told.secret),
        token: found(told.token),
        region: found(told.region),
        profile: found(told.profile),
    })
}

/// What the program `firuvaik` gets.
#[derive(Clone, Copy, Default)]
pub struct Invocation<'a> {
    /// The words after the program's name.
    pub words: &'a [&'a str],
    /// The variables, each with its name and its value.
    pub variables: &'a [(&'a str, &'a str)],
    /// The files, each with its path and its bytes.
    pub files: &'a [(&'a str, &'a [u8])],
    /// What it reads.
    pub input: &'a [u8],
    /// The moment of its clock, in seconds since 1970-01-01T00:00:00Z.
    pub seconds: i64,
}

/// How the program ended.
#[derive(Clone, Debug, PartialEq, Eq)]
pub struct Outcome {
    /// Its exit number.
    pub code: u32,
    /// What it wrote.
    pub output: Vec<u8>,
    /// The line that it said of its end, or an empty text.
    pub said: String,
}

/// Runs the program `firuvaik` on what is given. It reads no other file and no other variable.
///
/// # Errors
///
/// Memory ran out.
pub fn run(invocation: &Invocation<'_>) -> Result<Outcome, Error> {
    let words: Vec<_> = invocation.words.iter().map(|word| text(word)).collect();
    let variables: Vec<_> = invocation.variables.iter().map(|(name, value)| field(name, value)).collect();
    let file = |&(path, bytes)| sys::Field { name: text(path), value: sys::Text::new(bytes) };
    let files: Vec<_> = invocation.files.iter().map(file).collect();
    let lent = sys::Invocation {
        words: words.as_ptr(),
        word_count: words.len(),
        variables: variables.as_ptr(),
        variable_count: variables.len(),
        files: files.as_ptr(),
        file_count: files.len(),
        input: sys::Text::new(invocation.input),
        seconds: invocation.seconds,
    };
    let mut ended = sys::Outcome::default();
    let mut output = written(4096, |out| unsafe { sys::firuvaik_run(&lent, &mut ended, out.as_mut_ptr().cast(), out.len()) })?;
    let said = String::from_utf8_lossy(&output.split_off(ended.output_length)).into_owned();
    Ok(Outcome { code: ended.code, output, said })
}

/// The signing key of a signer for the day of a moment.
///
/// # Errors
///
/// A moment outside the years 0 to 9999.
pub fn signing_key(signer: &Signer<'_>, seconds: i64) -> Result<[u8; 32], Error> {
    let mut key = [0; 32];
    let answer = unsafe { sys::firuvaik_signing_key(&lent(signer), seconds, key.as_mut_ptr()) };
    done(&answer).map(|()| key)
}

/// The signature of a string to sign under a signing key, as [`signing_key`] returns it.
///
/// # Errors
///
/// Memory ran out.
pub fn sign_text(key: &[u8; 32], text: &[u8]) -> Result<[u8; 64], Error> {
    let mut signature = [0; 64];
    let answer =
        unsafe { sys::firuvaik_signature(key.as_ptr(), text.as_ptr().cast(), text.len(), signature.as_mut_ptr().cast()) };
    done(&answer).map(|()| signature)
}

/// The version of the library.
pub fn version() -> String {
    let text = written(16, |out| unsafe { sys::firuvaik_version(out.as_mut_ptr().cast(), out.len()) });
    String::from_utf8(text.expect("there is a version")).expect("it is a text")
}

/// The value of a message's header.
#[derive(Clone, Copy, Debug, PartialEq, Eq)]
#[allow(missing_docs)]
pub enum Value<'a> {
    Bool(bool),
    Byte(i8),
    Short(i16),
    Int(i32),
    Long(i64),
    Bytes(&'a [u8]),
    Text(&'a str),
    /// A moment, in milliseconds since 1970-01-01T00:00:00Z.
    Timestamp(i64),
    /// The bits of a UUID, the highest first.
    Uuid(u128),
}

/// A message, as it was read of a frame.
#[derive(Clone, Debug, PartialEq, Eq)]
pub struct Message<'a> {
    /// The headers in order, each with its name and its value.
    pub headers: Vec<(&'a str, Value<'a>)>,
    /// The payload.
    pub payload: &'a [u8],
    /// How many bytes the frame has.
    pub length: usize,
}

// The kind, the number and the bytes of a value. Those of a UUID are written to the room.
fn shape<'a>(value: Value<'a>, room: &'a mut [u8; 16]) -> (u32, i64, &'a [u8]) {
    match value {
        Value::Bool(true) => (0, 0, b""),
        Value::Bool(false) => (1, 0, b""),
        Value::Byte(number) => (2, number.into(), b""),
        Value::Short(number) => (3, number.into(), b""),
        Value::Int(number) => (4, number.into(), b""),
        Value::Long(number) => (5, number, b""),
        Value::Bytes(bytes) => (6, 0, bytes),
        Value::Text(text) => (7, 0, text.as_bytes()),
        Value::Timestamp(millis) => (8, millis, b""),
        Value::Uuid(bits) => {
            *room = bits.to_be_bytes();
            (9, 0, room)
        }
    }
}

// The value at a place of a frame, whose numbers fit their kinds and whose texts are UTF-8.
fn value_at<'a>(bytes: &'a [u8], place: &sys::HeaderPlace) -> Value<'a> {
    let value = &bytes[place.value..place.value + place.value_length];
    match place.kind {
        0 => Value::Bool(true),
        1 => Value::Bool(false),
        2 => Value::Byte(place.number as i8),
        3 => Value::Short(place.number as i16),
        4 => Value::Int(place.number as i32),
        5 => Value::Long(place.number),
        6 => Value::Bytes(value),
        7 => Value::Text(std::str::from_utf8(value).expect("it was tested")),
        8 => Value::Timestamp(place.number),
        _ => Value::Uuid(u128::from_be_bytes(value.try_into().expect("a UUID has 16 bytes"))),
    }
}

/// The frame of a message: of headers in order, each with its name and its value, and of a payload.
///
/// # Errors
///
/// A header or a payload that is too long.
pub fn frame(headers: &[(&str, Value<'_>)], payload: &[u8]) -> Result<Vec<u8>, Error> {
    let mut rooms = vec![[0; 16]; headers.len()];
    let lent: Vec<_> = headers
        .iter()
        .zip(&mut rooms)
        .map(|((name, value), room)| {
            let (kind, number, bytes) = shape(*value, room);
            sys::EventHeader { name: text(name), kind, number, value: sys::Text::new(bytes) }
        })
        .collect();
    let (start, length) = (payload.as_ptr().cast(), payload.len());
    written(payload.len().saturating_add(256), |out| unsafe {
        sys::firuvaik_frame(lent.as_ptr(), lent.len(), start, length, out.as_mut_ptr().cast(), out.len())
    })
}

/// How long the frame is that bytes begin with; nothing where its first twelve bytes aren't there.
///
/// # Errors
///
/// These are no frame's.
pub fn frame_length(bytes: &[u8]) -> Result<Option<usize>, Error> {
    let answer = unsafe { sys::firuvaik_frame_length(bytes.as_ptr().cast(), bytes.len()) };
    match answer.status {
        30 => Ok(None),
        _ => done(&answer).map(|()| Some(answer.length)),
    }
}

/// The message whose frame bytes begin with.
///
/// # Errors
///
/// They begin with none, or it isn't there whole.
pub fn read_frame(bytes: &[u8]) -> Result<Message<'_>, Error> {
    let mut parts = sys::FrameParts::default();
    let mut places = vec![sys::HeaderPlace::default(); 16];
    let answer = loop {
        let (start, room) = (bytes.as_ptr().cast(), places.len());
        let answer = unsafe { sys::firuvaik_read_frame(start, bytes.len(), &mut parts, places.as_mut_ptr(), room) };
        match answer.status {
            1 => places.resize(answer.length, sys::HeaderPlace::default()),
            _ => break answer,
        }
    };
    done(&answer)?;
    let headers = places[..answer.length].iter().map(|place| {
        let name = &bytes[place.name..place.name + place.name_length];
        (std::str::from_utf8(name).expect("it was tested"), value_at(bytes, place))
    });
    Ok(Message {
        headers: headers.collect(),
        payload: &bytes[parts.payload..parts.payload + parts.payload_length],
        length: parts.length,
    })
}

/// The frame of a message: of headers whose values are texts, in order, and of a payload.
///
/// # Errors
///
/// A header or a payload that is too long.
pub fn event(headers: &[(&str, &str)], payload: &[u8]) -> Result<Vec<u8>, Error> {
    let fields: Vec<_> = headers.iter().map(|(name, value)| field(name, value)).collect();
    let (start, length) = (payload.as_ptr().cast(), payload.len());
    written(payload.len().saturating_add(256), |out| unsafe {
        sys::firuvaik_event(fields.as_ptr(), fields.len(), start, length, out.as_mut_ptr().cast(), out.len())
    })
}

/// The signed frames of an event stream.
pub struct Stream<'a> {
    signer: Signer<'a>,
    signature: [u8; 64],
}

impl<'a> Stream<'a> {
    /// A stream that a request with this signature opens.
    pub fn new(signer: Signer<'a>, signature: [u8; 64]) -> Stream<'a> {
        Stream { signer, signature }
    }

    /// The signature of the last frame, or of the request before the first one.
    pub fn signature(&self) -> &[u8; 64] {
        &self.signature
    }

    /// The signed frame of an event, which is given as the bytes of its own frame, as [`event`] makes them. No bytes end the stream.
    ///
    /// # Errors
    ///
    /// A moment outside the years 0 to 9999, or an event that is too long. The signature stays.
    pub fn next_frame(&mut self, event: &[u8], seconds: i64) -> Result<Vec<u8>, Error> {
        let signer = lent(&self.signer);
        let signature = self.signature.as_mut_ptr().cast();
        written(event.len().saturating_add(256), |out| unsafe {
            let room = out.len();
            sys::firuvaik_next_frame(&signer, seconds, event.as_ptr().cast(), event.len(), signature, out.as_mut_ptr().cast(), room)
        })
    }
}

/// An upload in signed chunks, all of it signed at one moment: the request's own.
pub struct Upload<'a> {
    signer: Signer<'a>,
    signature: [u8; 64],
    seconds: i64,
}

impl<'a> Upload<'a> {
    /// An upload whose request has this signature. The payload's text of the request is `STREAMING-AWS4-HMAC-SHA256-PAYLOAD`, or
    /// `STREAMING-AWS4-HMAC-SHA256-PAYLOAD-TRAILER`.
    pub fn new(signer: Signer<'a>, signature: [u8; 64], seconds: i64) -> Upload<'a> {
        Upload { signer, signature, seconds }
    }

    /// The signature of the last chunk or of the trailers, or of the request before the first one.
    pub fn signature(&self) -> &[u8; 64] {
        &self.signature
    }

    /// The line before the next chunk: behind it go the chunk and `\r\n`. A chunk of no bytes ends the upload: behind its line goes
    /// `\r\n` alone, or what [`Upload::trailers`] returns.
    ///
    /// # Errors
    ///
    /// A moment outside the years 0 to 9999. The signature stays.
    pub fn next_chunk(&mut self, chunk: &[u8]) -> Result<Vec<u8>, Error> {
        let signer = lent(&self.signer);
        let (start, seconds, signature) = (chunk.as_ptr().cast(), self.seconds, self.signature.as_mut_ptr().cast());
        written(200, |out| unsafe {
            let room = out.len();
            sys::firuvaik_next_chunk(&signer, seconds, start, chunk.len(), signature, out.as_mut_ptr().cast(), room)
        })
    }

    /// The trailers behind the line of the empty chunk, with their signature and the empty line that ends the upload.
    ///
    /// # Errors
    ///
    /// A trailer that is no header. The signature stays.
    pub fn trailers(&mut self, trailers: &[(&str, &str)]) -> Result<Vec<u8>, Error> {
        let signer = lent(&self.signer);
        let fields: Vec<_> = trailers.iter().map(|(name, value)| field(name, value)).collect();
        let (seconds, signature) = (self.seconds, self.signature.as_mut_ptr().cast());
        written(512, |out| unsafe {
            let room = out.len();
            sys::firuvaik_trailers(&signer, seconds, fields.as_ptr(), fields.len(), signature, out.as_mut_ptr().cast(), room)
        })
    }
}

/// Checks the frames of an event stream.
pub struct Watch<'a> {
    signer: Signer<'a>,
    signature: [u8; 64],
}

impl<'a> Watch<'a> {
    /// A watch of the stream that a request with this signature opened.
    pub fn new(signer: Signer<'a>, signature: [u8; 64]) -> Watch<'a> {
        Watch { signer, signature }
    }

    /// The signature of the last frame that passed, or of the request before the first one.
    pub fn signature(&self) -> &[u8; 64] {
        &self.signature
    }

    /// The bytes of the event's own frame, which [`read_frame`] reads; with none the stream ends.
    ///
    /// # Errors
    ///
    /// The bytes aren't the next frame. The signature stays.
    pub fn check<'f>(&mut self, frame: &'f [u8]) -> Result<&'f [u8], Error> {
        let (signer, mut parts) = (lent(&self.signer), sys::FrameParts::default());
        let signature = self.signature.as_mut_ptr().cast();
        let answer = unsafe { sys::firuvaik_check_frame(&signer, frame.as_ptr().cast(), frame.len(), signature, &mut parts) };
        done(&answer)?;
        Ok(&frame[parts.payload..parts.payload + parts.payload_length])
    }
}
