"""AWS Signature Version 4 for Python, by the C library of Firuvaik (c/firuvaik.h).

The library is looked for at the path in the variable FIRUVAIK_LIBRARY, beside this file, in ../out, and then by its name.
Nothing beside Python's own modules is needed.
"""
import ctypes
import dataclasses
import datetime
import os
import pathlib
import time
import uuid

__all__ = [
    "Admitted", "Byte", "Error", "Int", "Long", "Message", "Outcome", "Selected", "Service", "Short", "Signer", "Stream", "Timestamp",
    "Upload", "Watch", "check", "event", "frame", "frame_length", "presign", "read_frame", "run", "select", "sign", "sign_text",
    "signing_key", "version",
]

_QUERY, _SINGLE_ENCODE, _KEEP_PATH, _SHA256_HEADER, _UNSIGNED_TOKEN, _PAYLOAD_TEXT, _EXCLUDED = (1 << n for n in range(7))
_DONE, _ROOM, _NO_MEMORY, _MORE = 0, 1, 2, 30
_PARTS = ("algorithm", "credential", "date", "expiry", "signed headers", "signature")


def _place(status, place):
    """What stands at a place."""
    if status in (90, 91):
        return f"line {place}"
    return _PARTS[place - 1] if status in (63, 64) else f"header {place}"


class Error(ValueError):
    """What was asked for isn't possible. `status` is the number of c/firuvaik.h, `place` that of the header, the line or
    the part of a signature at fault, or 0."""

    def __init__(self, status, place):
        meaning = _written(lambda out, room: _lib.firuvaik_status_text(status, out, room), 100).decode()
        super().__init__(f"{meaning}: {_place(status, place)}" if place else meaning)
        self.status = status
        self.place = place


class _Text(ctypes.Structure):
    _fields_ = [("bytes", ctypes.c_char_p), ("length", ctypes.c_size_t)]


class _Field(ctypes.Structure):
    _fields_ = [("name", _Text), ("value", _Text)]


class _EventHeader(ctypes.Structure):
    _fields_ = [("name", _Text), ("kind", ctypes.c_uint), ("number", ctypes.c_long), ("value", _Text)]


class _HeaderPlace(ctypes.Structure):
    _fields_ = [
        ("name", ctypes.c_size_t),
        ("name_length", ctypes.c_size_t),
        ("kind", ctypes.c_uint),
        ("number", ctypes.c_long),
        ("value", ctypes.c_size_t),
        ("value_length", ctypes.c_size_t),
    ]


class _FrameParts(ctypes.Structure):
    _fields_ = [(name, ctypes.c_size_t) for name in ("length", "payload", "payload_length")]


class _Signer(ctypes.Structure):
    _fields_ = [(name, _Text) for name in ("key_id", "secret", "token", "region", "service")]


class _Request(ctypes.Structure):
    _fields_ = [
        ("method", _Text),
        ("target", _Text),
        ("headers", ctypes.POINTER(_Field)),
        ("header_count", ctypes.c_size_t),
        ("body", _Text),
    ]


class _Settings(ctypes.Structure):
    _fields_ = [
        ("flags", ctypes.c_uint),
        ("expires_in", ctypes.c_ulong),
        ("token_name", _Text),
        ("excluded", ctypes.POINTER(_Text)),
        ("excluded_count", ctypes.c_size_t),
    ]


class _Key(ctypes.Structure):
    _fields_ = [("id", _Text), ("secret", _Text)]


class _Service(ctypes.Structure):
    _fields_ = [
        ("region", _Text),
        ("name", _Text),
        ("flags", ctypes.c_uint),
        ("skew", ctypes.c_uint),
        ("expiry", ctypes.c_uint),
        ("keys", ctypes.POINTER(_Key)),
        ("key_count", ctypes.c_size_t),
    ]


class _Admission(ctypes.Structure):
    _fields_ = [
        ("key", ctypes.c_size_t),
        ("at", ctypes.c_long),
        ("until", ctypes.c_long),
        ("place", ctypes.c_uint),
        ("payload", ctypes.c_uint),
    ]


class _Sources(ctypes.Structure):
    _fields_ = [
        ("config", _Text),
        ("credentials", _Text),
        ("variables", ctypes.POINTER(_Field)),
        ("variable_count", ctypes.c_size_t),
    ]


class _Span(ctypes.Structure):
    _fields_ = [(name, ctypes.c_size_t) for name in ("start", "length")]


class _Selection(ctypes.Structure):
    _fields_ = [(name, _Span) for name in ("key_id", "secret", "token", "region", "profile")]


class _Invocation(ctypes.Structure):
    _fields_ = [
        ("words", ctypes.POINTER(_Text)),
        ("word_count", ctypes.c_size_t),
        ("variables", ctypes.POINTER(_Field)),
        ("variable_count", ctypes.c_size_t),
        ("files", ctypes.POINTER(_Field)),
        ("file_count", ctypes.c_size_t),
        ("input", _Text),
        ("seconds", ctypes.c_long),
    ]


class _Outcome(ctypes.Structure):
    _fields_ = [("code", ctypes.c_uint), ("output_length", ctypes.c_size_t)]


class _Answer(ctypes.Structure):
    _fields_ = [("status", ctypes.c_uint), ("place", ctypes.c_size_t), ("length", ctypes.c_size_t)]


def _library():
    here = pathlib.Path(__file__).resolve().parent
    for path in (os.environ.get("FIRUVAIK_LIBRARY"), here / "libfiruvaik.so", here.parent / "out" / "libfiruvaik.so"):
        if path and os.path.exists(path):
            return ctypes.CDLL(str(path))
    return ctypes.CDLL("libfiruvaik.so")


_lib = _library()
_BYTES = (ctypes.c_char_p, ctypes.c_size_t)
_LINK = (ctypes.POINTER(_Signer), ctypes.c_long)
for _name, _types in {
    "sign": (ctypes.POINTER(_Signer), ctypes.POINTER(_Request), ctypes.POINTER(_Settings), ctypes.c_long, ctypes.c_char_p, *_BYTES),
    "admit": (
        ctypes.POINTER(_Service), ctypes.POINTER(_Request), ctypes.c_long, ctypes.POINTER(_Admission), ctypes.c_char_p, *_BYTES),
    "signing_key": (*_LINK, ctypes.c_char_p),
    "signature": (ctypes.c_char_p, *_BYTES, ctypes.c_char_p),
    "event": (ctypes.POINTER(_Field), ctypes.c_size_t, *_BYTES, *_BYTES),
    "frame": (ctypes.POINTER(_EventHeader), ctypes.c_size_t, *_BYTES, *_BYTES),
    "frame_length": _BYTES,
    "read_frame": (*_BYTES, ctypes.POINTER(_FrameParts), ctypes.POINTER(_HeaderPlace), ctypes.c_size_t),
    "next_frame": (*_LINK, *_BYTES, ctypes.c_char_p, *_BYTES),
    "check_frame": (ctypes.POINTER(_Signer), *_BYTES, ctypes.c_char_p, ctypes.POINTER(_FrameParts)),
    "next_chunk": (*_LINK, *_BYTES, ctypes.c_char_p, *_BYTES),
    "trailers": (*_LINK, ctypes.POINTER(_Field), ctypes.c_size_t, ctypes.c_char_p, *_BYTES),
    "select": (ctypes.POINTER(_Sources), ctypes.POINTER(_Selection), *_BYTES),
    "run": (ctypes.POINTER(_Invocation), ctypes.POINTER(_Outcome), *_BYTES),
    "status_text": (ctypes.c_uint, *_BYTES),
    "version": _BYTES,
}.items():
    _call = getattr(_lib, f"firuvaik_{_name}")
    _call.argtypes, _call.restype = _types, _Answer


def _text(text):
    lent = text.encode() if isinstance(text, str) else bytes(text)
    return _Text(lent, len(lent))


def _seconds(at):
    """The second of a moment: a number, a datetime with its zone, or None for now."""
    if at is None:
        return int(time.time())
    seconds = at if isinstance(at, int) else int(at.timestamp() // 1)
    if not -(1 << 63) <= seconds < 1 << 63:
        raise Error(5, 0)
    return seconds


def _checked(answer):
    if answer.status == _NO_MEMORY:
        raise MemoryError
    if answer.status not in (_DONE, _ROOM):
        raise Error(answer.status, answer.place)
    return answer


def _written(call, room):
    """What a call writes. It is made again with as much room as it asked for."""
    while True:
        out = ctypes.create_string_buffer(room)
        answer = _checked(call(out, room))
        if answer.status == _DONE:
            return out.raw[: answer.length]
        room = answer.length


@dataclasses.dataclass(frozen=True)
class Signer:
    """Who signs, and for which region and service. It shows no secret."""

    key_id: str
    secret: str = dataclasses.field(repr=False)
    region: str
    service: str
    token: str = dataclasses.field(default="", repr=False)

    def _lent(self):
        return _Signer(*(_text(text) for text in (self.key_id, self.secret, self.token, self.region, self.service)))


def _fields(headers):
    pairs = list(headers.items() if hasattr(headers, "items") else headers)
    return (_Field * len(pairs))(*(_Field(_text(name), _text(value)) for name, value in pairs))


def _signed(signer, method, target, headers, body, at, flags, expires_in, payload, token_name, excluded):
    fields = _fields(headers)
    names = list(excluded or ())
    texts = (_Text * len(names))(*map(_text, names))
    flags |= _PAYLOAD_TEXT if payload is not None else 0
    flags |= _EXCLUDED if excluded is not None else 0
    request = _Request(_text(method), _text(target), fields, len(fields), _text(body if payload is None else payload))
    settings = _Settings(flags, expires_in, _text(token_name), texts, len(names))
    lent, seconds, signature = signer._lent(), _seconds(at), ctypes.create_string_buffer(64)
    text = _written(lambda out, room: _lib.firuvaik_sign(lent, request, settings, seconds, signature, out, room), 1024)
    return text.decode(), signature.raw.decode()


def _flags(s3, unsigned_token):
    return (_SINGLE_ENCODE | _KEEP_PATH | _SHA256_HEADER if s3 else 0) | (_UNSIGNED_TOKEN if unsigned_token else 0)


def sign(signer, method, target, headers=(), body=b"", *, at=None, s3=False, payload=None, unsigned_token=False, token_name="",
         excluded=None):
    """Signs a request in its headers. Returns the headers to add, as a dict, and the signature.

    `headers` is a mapping or an iterable of pairs; `at` is a second, a datetime, or None for now; `s3` takes the settings of Amazon
    S3; `payload` is the payload's text in place of the body: a digest, or a word such as UNSIGNED-PAYLOAD; `excluded` are the names
    of the headers that aren't signed, in lower case. Raises Error where the request can't be signed.
    """
    flags = _flags(s3, unsigned_token)
    text, signature = _signed(signer, method, target, headers, body, at, flags, 0, payload, token_name, excluded)
    return dict(line.split(": ", 1) for line in text.split("\r\n") if line), signature


def presign(signer, method, target, headers=(), body=b"", *, expires_in, at=None, s3=False, payload=None, unsigned_token=False,
            token_name="", excluded=None):
    """Signs a request in its target, which is good for `expires_in` seconds. Returns the signed target.

    The arguments are those of `sign`. With `s3` the payload is unsigned, unless one is given.
    """
    payload = "UNSIGNED-PAYLOAD" if s3 and payload is None else payload
    flags = _flags(s3, unsigned_token) | _QUERY
    return _signed(signer, method, target, headers, body, at, flags, expires_in, payload, token_name, excluded)[0]


@dataclasses.dataclass(frozen=True)
class Service:
    """A service to which signed requests come: its region, its name, and the secret of each key's id, as a dict. It shows no key.

    `s3` takes requests as Amazon S3 does; with `unsigned_token` a session token may have been added after signing; the date in headers
    may differ by `skew` seconds from the service's own, and a presigned target may be good for `expiry` seconds.
    """

    region: str
    name: str
    keys: dict = dataclasses.field(repr=False)
    s3: bool = False
    unsigned_token: bool = False
    skew: int = 900
    expiry: int = 604800


@dataclasses.dataclass(frozen=True)
class Admitted:
    """A request that a service lets in: the id of the key that signed it, the second of signing and the first second in which it isn't
    good any more, whether it is presigned, the names of the signed headers, what was signed of its payload ("body", "nothing", "unsigned
    chunks" or "signed chunks"), and its signature, from which a Watch goes on."""

    key_id: str
    at: int
    until: int
    presigned: bool
    names: list
    payload: str
    signature: str


_PAYLOADS = ("body", "nothing", "unsigned chunks", "signed chunks")


def check(service, method, target, headers, body=b"", *, at=None):
    """Who signed a request that came to a service, as Admitted.

    The request is given as it came: with all its headers, a mapping or an iterable of pairs, and its own body. `at` is the service's
    own moment: a second, a datetime, or None for now. Raises Error with the first test of the service that the request doesn't pass.
    What a key may do, and whether a payload that isn't signed is taken, the caller decides.
    """
    ids, fields = list(service.keys), _fields(headers)
    keys = (_Key * len(ids))(*(_Key(_text(key_id), _text(secret)) for key_id, secret in service.keys.items()))
    if not all(0 <= seconds < 1 << 32 for seconds in (service.skew, service.expiry)):
        raise ValueError("skew and expiry are numbers of 32 bits")
    flags = _flags(service.s3, service.unsigned_token)
    lent = _Service(_text(service.region), _text(service.name), flags, service.skew, service.expiry, keys, len(ids))
    request = _Request(_text(method), _text(target), fields, len(fields), _text(body))
    seconds, told, signature = _seconds(at), _Admission(), ctypes.create_string_buffer(64)
    names = _written(lambda out, room: _lib.firuvaik_admit(lent, request, seconds, told, signature, out, room), 256)
    return Admitted(ids[told.key], told.at, told.until, told.place == 1, names.decode().split(";"), _PAYLOADS[told.payload],
                    signature.raw.decode())


@dataclasses.dataclass(frozen=True)
class Selected:
    """What there is to sign with: a key's id, its secret and the session token, the region, and the name of the profile that the
    variables select. It shows no secret."""

    key_id: str
    secret: str = dataclasses.field(repr=False)
    token: str = dataclasses.field(repr=False)
    region: str
    profile: str

    def signer(self, service):
        """The signer for a service, by its signing name."""
        return Signer(self.key_id, self.secret, self.region, service, self.token)


def select(config="", credentials="", variables=()):
    """What there is to sign with, by variables and by the texts of the two profile files, in this order, as Selected.

    `variables` is a mapping, as os.environ, or an iterable of pairs. Of them are read AWS_ACCESS_KEY_ID, AWS_SECRET_ACCESS_KEY,
    AWS_SESSION_TOKEN, AWS_PROFILE, AWS_REGION and AWS_DEFAULT_REGION; an empty one counts as none. Raises Error for a line that isn't
    one of a profile file, and where a key or a region is missing.
    """
    fields = _fields(variables)
    lent = _Sources(_text(config), _text(credentials), fields, len(fields))
    spans = _Selection()
    text = _written(lambda out, room: _lib.firuvaik_select(lent, spans, out, room), 512)
    found = (getattr(spans, name) for name in ("key_id", "secret", "token", "region", "profile"))
    return Selected(*(text[span.start : span.start + span.length].decode() for span in found))


@dataclasses.dataclass(frozen=True)
class Outcome:
    """How the program ended: its exit number, what it wrote, and the line that it said of its end, or no text."""

    code: int
    output: bytes
    said: str


def run(words, input=b"", *, variables=(), files=(), at=None):
    """Runs the program firuvaik on what is given, and returns its Outcome.

    `words` are those after the program's name; `variables` and `files` are mappings or iterables of pairs, `files` of a path and the
    file's text or bytes; `at` is the moment of its clock: a second, a datetime, or None for now. It reads no other file and no other
    variable.
    """
    texts = [_text(word) for word in words]
    fields, lent_files = _fields(variables), _fields(files)
    lent = _Invocation((_Text * len(texts))(*texts), len(texts), fields, len(fields), lent_files, len(lent_files), _text(input), _seconds(at))
    ended = _Outcome()
    text = _written(lambda out, room: _lib.firuvaik_run(lent, ended, out, room), 4096)
    return Outcome(ended.code, text[: ended.output_length], text[ended.output_length :].decode())


def signing_key(signer, at=None):
    """The signing key of the signer for the day of a moment, as 32 bytes."""
    key = ctypes.create_string_buffer(32)
    _checked(_lib.firuvaik_signing_key(signer._lent(), _seconds(at), key))
    return key.raw


def sign_text(key, text):
    """The signature of a string to sign under a signing key, as `signing_key` returns it."""
    if len(key) != 32:
        raise ValueError("a signing key has 32 bytes")
    lent, signature = _text(text), ctypes.create_string_buffer(64)
    _checked(_lib.firuvaik_signature(bytes(key), lent.bytes, lent.length, signature))
    return signature.raw.decode()


def version():
    """The version of the library."""
    return _written(_lib.firuvaik_version, 16).decode()


def event(headers, payload=b""):
    """The frame of a message: of headers whose values are texts, a mapping or an iterable of pairs, and of a payload."""
    fields = _fields(headers)
    return _written(lambda out, room: _lib.firuvaik_event(fields, len(fields), payload, len(payload), out, room), len(payload) + 256)


class Byte(int):
    """A number of 8 bits as the value of a message's header."""


class Short(int):
    """A number of 16 bits as the value of a message's header."""


class Int(int):
    """A number of 32 bits as the value of a message's header."""


class Long(int):
    """A number of 64 bits as the value of a message's header. A plain int is written as one."""


class Timestamp(int):
    """A moment as the value of a message's header, in milliseconds since 1970-01-01T00:00:00Z. A datetime is written as one."""

    @property
    def moment(self):
        """The moment as a datetime, which holds those of the years 1 to 9999."""
        return datetime.datetime(1970, 1, 1, tzinfo=datetime.timezone.utc) + datetime.timedelta(milliseconds=int(self))


_NUMBERS = {2: Byte, 3: Short, 4: Int, 5: Long, 8: Timestamp}


@dataclasses.dataclass(frozen=True)
class Message:
    """A message: its headers in order as pairs of a name and a value, its payload, and how many bytes its frame has.

    A value is a bool, a Byte, a Short, an Int, a Long, bytes, a str, a Timestamp or a uuid.UUID.
    """

    headers: list
    payload: bytes
    length: int = 0


def _number(value):
    if not -(1 << 63) <= value < 1 << 63:
        raise Error(41, 0)
    return int(value)


def _event_header(name, value):
    """A header, by the type of its value."""
    if isinstance(value, bool):
        return _EventHeader(_text(name), 0 if value else 1, 0, _text(b""))
    if isinstance(value, datetime.datetime):
        since = value - datetime.datetime(1970, 1, 1, tzinfo=datetime.timezone.utc)
        value = Timestamp(since // datetime.timedelta(milliseconds=1))
    if isinstance(value, int):
        kind = next((kind for kind, number in _NUMBERS.items() if isinstance(value, number)), 5)
        return _EventHeader(_text(name), kind, _number(value), _text(b""))
    if isinstance(value, uuid.UUID):
        return _EventHeader(_text(name), 9, 0, _text(value.bytes))
    return _EventHeader(_text(name), 7 if isinstance(value, str) else 6, 0, _text(value))


def frame(headers, payload=b""):
    """The frame of a message: of headers, a mapping or an iterable of pairs, with values as those of Message, and of a payload."""
    pairs = list(headers.items() if hasattr(headers, "items") else headers)
    lent = (_EventHeader * len(pairs))(*(_event_header(name, value) for name, value in pairs))
    return _written(lambda out, room: _lib.firuvaik_frame(lent, len(lent), payload, len(payload), out, room), len(payload) + 256)


def frame_length(data):
    """How long the frame is that bytes begin with, or None where its first twelve bytes aren't there."""
    answer = _lib.firuvaik_frame_length(data, len(data))
    return None if answer.status == _MORE else _checked(answer).length


def _value(data, place):
    if place.kind in (0, 1):
        return place.kind == 0
    if place.kind in _NUMBERS:
        return _NUMBERS[place.kind](place.number)
    value = data[place.value : place.value + place.value_length]
    return value.decode() if place.kind == 7 else uuid.UUID(bytes=value) if place.kind == 9 else value


def read_frame(data):
    """The message whose frame bytes begin with. Raises Error where they begin with none, or where it isn't there whole."""
    parts, room = _FrameParts(), 16
    while True:
        places = (_HeaderPlace * room)()
        answer = _checked(_lib.firuvaik_read_frame(data, len(data), parts, places, room))
        if answer.status == _DONE:
            break
        room = answer.length
    headers = [(data[at.name : at.name + at.name_length].decode(), _value(data, at)) for at in places[: answer.length]]
    return Message(headers, data[parts.payload : parts.payload + parts.payload_length], parts.length)


class _Chain:
    """What is signed piece by piece, each over the signature before it."""

    def __init__(self, signer, signature):
        code = signature.encode()
        if len(code) != 64:
            raise ValueError("a signature has 64 digits")
        self._signer = signer
        self._signature = ctypes.create_string_buffer(code, 64)

    @property
    def signature(self):
        """The signature of the last piece, or of the request before the first one."""
        return self._signature.raw.decode()


class Upload(_Chain):
    """An upload in signed chunks. `signature` is that of its request, as `sign` returns it, whose payload's text is
    STREAMING-AWS4-HMAC-SHA256-PAYLOAD, or STREAMING-AWS4-HMAC-SHA256-PAYLOAD-TRAILER. All of it is signed at one moment, the request's
    own."""

    def __init__(self, signer, signature, at=None):
        super().__init__(signer, signature)
        self._seconds = _seconds(at)

    def _line(self, data):
        lent = self._signer._lent()
        return _written(lambda out, room: _lib.firuvaik_next_chunk(lent, self._seconds, data, len(data), self._signature, out, room), 200)

    def next_chunk(self, data):
        """What goes out of the next chunk: the line before it, and the data. There has to be some; `end` ends the upload."""
        if not data:
            raise ValueError("a chunk of no bytes ends an upload")
        return self._line(data) + data + b"\r\n"

    def end(self, trailers=()):
        """What goes out last: the empty chunk, and trailers where there are some, a mapping or an iterable of pairs."""
        fields = _fields(trailers)
        line = self._line(b"")
        if not len(fields):
            return line + b"\r\n"
        lent = self._signer._lent()
        return line + _written(
            lambda out, room: _lib.firuvaik_trailers(lent, self._seconds, fields, len(fields), self._signature, out, room), 512)


class Stream(_Chain):
    """The signed frames of an event stream. `signature` is that of the request which opens it, as `sign` returns it."""

    def next_frame(self, event, at=None):
        """The signed frame of an event, which is given as the bytes of its own frame, as `event` makes them.

        No bytes end the stream, as `end` does.
        """
        lent, seconds = self._signer._lent(), _seconds(at)

        def call(out, room):
            return _lib.firuvaik_next_frame(lent, seconds, event, len(event), self._signature, out, room)

        return _written(call, len(event) + 256)

    def end(self, at=None):
        """The signed frame that ends the stream."""
        return self.next_frame(b"", at)


class Watch(_Chain):
    """Checks the frames of an event stream. `signature` is that of the request which opened it.

    No frame's signature is trusted: each is computed again over the one before it, with the frame's own date, which isn't compared with
    a clock. `closed` says whether the last frame came.
    """

    closed = False

    def check(self, frame):
        """The bytes of the event's own frame, which `read_frame` reads, or None for the frame that ends the stream. Raises Error where
        the frame isn't the next one; the signature stays then."""
        if self.closed:
            raise ValueError("the stream has ended")
        parts = _FrameParts()
        _checked(_lib.firuvaik_check_frame(self._signer._lent(), frame, len(frame), self._signature, parts))
        self.closed = parts.payload_length == 0
        return None if self.closed else frame[parts.payload : parts.payload + parts.payload_length]
