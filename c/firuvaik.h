/* Firuvaik: AWS Signature Version 4, for C and for all that calls C.

   Everything that is read is lent for the call alone, and may be NULL where its length is 0. What is written goes into room that
   the caller lends: nothing is written past it, and after every status but FIRUVAIK_DONE nothing is written at all. The pieces that
   are read and the room don't overlap. The library keeps nothing between two calls and has no state: calls are safe from many
   threads at once. Any bytes and any numbers get an answer; no call ends the process.

   A text is UTF-8, without a zero at its end. A call that takes memory takes it with malloc and gives it back before it returns,
   so don't make one in a signal handler, or in the child of a process with threads between fork and exec.

   This is for machines whose long has 64 bits. */
#ifndef FIRUVAIK_H
#define FIRUVAIK_H

#include <stddef.h>

#define FIRUVAIK_VERSION "0.1.0"

#ifdef __cplusplus
extern "C" {
#endif

/* A text, or bytes. */
typedef struct firuvaik_text {
    const char *bytes;
    size_t length;
} firuvaik_text;

/* A header or a variable: its name and its value. A file: its path and its bytes. */
typedef struct firuvaik_field {
    firuvaik_text name;
    firuvaik_text value;
} firuvaik_field;

/* Who signs, and for which region and service. */
typedef struct firuvaik_signer {
    firuvaik_text key_id;
    firuvaik_text secret;
    firuvaik_text token;   /* the session token; of no bytes: there is none */
    firuvaik_text region;  /* as us-east-1 */
    firuvaik_text service; /* as s3 */
} firuvaik_signer;

/* A key that a service knows. */
typedef struct firuvaik_key {
    firuvaik_text id;
    firuvaik_text secret;
} firuvaik_key;

/* A service to which signed requests come. */
typedef struct firuvaik_service {
    firuvaik_text region;
    firuvaik_text name;       /* as s3 */
    unsigned int flags;       /* FIRUVAIK_S3, or a sum of its three flags and FIRUVAIK_UNSIGNED_TOKEN */
    unsigned int skew;        /* by how many seconds a date in headers may differ from the service's own; AWS has 900 */
    unsigned int expiry;      /* for how many seconds a presigned target may be good; AWS has 604800 */
    const firuvaik_key *keys; /* of keys of one id the first counts */
    size_t key_count;
} firuvaik_service;

/* What a service learns of a request that it lets in. */
typedef struct firuvaik_admission {
    size_t key;           /* the index of the key that signed it, counted from 0 */
    long at;              /* the second at which it was signed */
    long until;           /* the first second in which it isn't good any more */
    unsigned int place;   /* where its signature stands: 0 in headers, FIRUVAIK_QUERY in the query */
    unsigned int payload; /* what was signed of its payload: one of the four below */
} firuvaik_admission;

#define FIRUVAIK_SIGNED_BODY 0u     /* its digest, which is that of the body that came */
#define FIRUVAIK_UNSIGNED_BODY 1u   /* nothing of it */
#define FIRUVAIK_UNSIGNED_CHUNKS 2u /* nothing of it: the body is in unsigned chunks, with trailers */
#define FIRUVAIK_SIGNED_CHUNKS 3u   /* each chunk or frame after the one before it, from the request's signature on */

/* The parts of a signature: the place of FIRUVAIK_MISSING_PART and FIRUVAIK_REPEATED_PART. */
#define FIRUVAIK_ALGORITHM_PART 1u
#define FIRUVAIK_CREDENTIAL_PART 2u
#define FIRUVAIK_DATE_PART 3u /* or the header x-amz-date */
#define FIRUVAIK_EXPIRES_PART 4u
#define FIRUVAIK_NAMES_PART 5u     /* the names of the signed headers */
#define FIRUVAIK_SIGNATURE_PART 6u /* or the header authorization */

/* A header of a message. The kind of its value is one of FIRUVAIK_TRUE and those below it. */
typedef struct firuvaik_event_header {
    firuvaik_text name;
    unsigned int kind;
    long number;         /* the value, where it is a number, or a moment in milliseconds since 1970-01-01T00:00:00Z */
    firuvaik_text value; /* the value, where it is bytes, a text, or the 16 bytes of a UUID */
} firuvaik_event_header;

/* The kinds of values, as the event stream encoding numbers them. */
#define FIRUVAIK_TRUE 0u
#define FIRUVAIK_FALSE 1u
#define FIRUVAIK_BYTE 2u      /* a number of 8 bits */
#define FIRUVAIK_SHORT 3u     /* a number of 16 bits */
#define FIRUVAIK_INT 4u       /* a number of 32 bits */
#define FIRUVAIK_LONG 5u      /* a number of 64 bits */
#define FIRUVAIK_BYTES 6u
#define FIRUVAIK_STRING 7u    /* a text */
#define FIRUVAIK_TIMESTAMP 8u /* a moment */
#define FIRUVAIK_UUID 9u

/* Where a header of a frame stands, in bytes from the frame's first one on. */
typedef struct firuvaik_header_place {
    size_t name;
    size_t name_length;
    unsigned int kind;
    long number; /* the value, where it is a number, or a moment in milliseconds */
    size_t value; /* the value of every other kind; of true and false it has no bytes */
    size_t value_length;
} firuvaik_header_place;

/* How long a frame is, and where its payload stands in it. */
typedef struct firuvaik_frame_parts {
    size_t length;
    size_t payload;
    size_t payload_length;
} firuvaik_frame_parts;

/* A request. */
typedef struct firuvaik_request {
    firuvaik_text method; /* taken as it is */
    firuvaik_text target; /* an absolute URI, or a path with a query */
    const firuvaik_field *headers;
    size_t header_count;
    firuvaik_text body; /* with FIRUVAIK_PAYLOAD_TEXT the payload's text */
} firuvaik_request;

/* The flags of firuvaik_settings: their sum. */
#define FIRUVAIK_QUERY 1u          /* presign: the signature goes into the target's query */
#define FIRUVAIK_SINGLE_ENCODE 2u  /* the path is escaped once, not twice */
#define FIRUVAIK_KEEP_PATH 4u      /* the path isn't put into its normal form */
#define FIRUVAIK_SHA256_HEADER 8u  /* the payload's text goes into the header x-amz-content-sha256 */
#define FIRUVAIK_UNSIGNED_TOKEN 16u /* the session token goes out unsigned */
#define FIRUVAIK_PAYLOAD_TEXT 32u  /* the body is the payload's text: a digest in hexadecimal, or a word as UNSIGNED-PAYLOAD */
#define FIRUVAIK_EXCLUDED 64u      /* the headers that aren't signed are those of excluded, not the usual ones */

/* The settings for Amazon S3. To presign for S3 add FIRUVAIK_QUERY and FIRUVAIK_PAYLOAD_TEXT, with the body UNSIGNED-PAYLOAD. */
#define FIRUVAIK_S3 (FIRUVAIK_SINGLE_ENCODE | FIRUVAIK_KEEP_PATH | FIRUVAIK_SHA256_HEADER)

/* How a request is signed. All of it zero: a signature in headers, with the path normalized and escaped twice. */
typedef struct firuvaik_settings {
    unsigned int flags;
    unsigned long expires_in;      /* with FIRUVAIK_QUERY: for how many seconds the target is good; 0: none is given */
    firuvaik_text token_name;      /* the name of the session token's header or parameter; of no bytes: the usual one */
    const firuvaik_text *excluded; /* with FIRUVAIK_EXCLUDED: the names of the headers that aren't signed, in lower case */
    size_t excluded_count;
} firuvaik_settings;

/* Where settings come from: the texts of the two profile files, and variables, of which are read AWS_ACCESS_KEY_ID,
   AWS_SECRET_ACCESS_KEY, AWS_SESSION_TOKEN, AWS_PROFILE, AWS_REGION and AWS_DEFAULT_REGION. */
typedef struct firuvaik_sources {
    firuvaik_text config;            /* the text of the config file, as ~/.aws/config */
    firuvaik_text credentials;       /* the text of the credentials file, as ~/.aws/credentials */
    const firuvaik_field *variables; /* of equal names the last one counts */
    size_t variable_count;
} firuvaik_sources;

/* Where a text stands in the room, in bytes from the first one on. */
typedef struct firuvaik_span {
    size_t start;
    size_t length;
} firuvaik_span;

/* Where the texts of settings stand in the room. */
typedef struct firuvaik_selection {
    firuvaik_span key_id;
    firuvaik_span secret;
    firuvaik_span token; /* of no bytes: there is none */
    firuvaik_span region;
    firuvaik_span profile; /* the name of the profile that the variables select */
} firuvaik_selection;

/* What the program firuvaik gets: its words, variables and files, what it reads, and the moment at which it runs. */
typedef struct firuvaik_invocation {
    const firuvaik_text *words; /* those after the program's name */
    size_t word_count;
    const firuvaik_field *variables; /* of equal names the last one counts */
    size_t variable_count;
    const firuvaik_field *files; /* each by its path; of equal paths the last one counts */
    size_t file_count;
    firuvaik_text input;
    long seconds; /* the moment, in seconds since 1970-01-01T00:00:00Z */
} firuvaik_invocation;

/* How the program ended. */
typedef struct firuvaik_outcome {
    unsigned int code;    /* its exit number: 0 where all was done */
    size_t output_length; /* how many bytes it wrote; behind them stands the line that it said of its end */
} firuvaik_outcome;

/* How a call went. */
typedef struct firuvaik_answer {
    unsigned int status;
    size_t place;  /* the place of the header at fault, counted from 1, or of a part or a line, where the status says so, or else 0 */
    size_t length; /* how many bytes were written, or with FIRUVAIK_ROOM how many are wanted */
} firuvaik_answer;

/* The statuses. The numbers stay. */
#define FIRUVAIK_DONE 0u                 /* all was written */
#define FIRUVAIK_ROOM 1u                 /* more room is wanted: length says how much */
#define FIRUVAIK_NO_MEMORY 2u            /* memory ran out */
#define FIRUVAIK_NOT_TEXT 3u             /* a text isn't UTF-8 */
#define FIRUVAIK_UNKNOWN_FLAGS 4u        /* a flag is none of those above */
#define FIRUVAIK_OUT_OF_YEARS 5u         /* the moment lies outside the years 0 to 9999 */
#define FIRUVAIK_BAD_TARGET 6u           /* the target isn't accepted, or is too long when it is signed */
#define FIRUVAIK_BAD_HEADER_NAME 7u      /* the header at this place has a bad name */
#define FIRUVAIK_BAD_HEADER_VALUE 8u     /* the header at this place has a bad value */
#define FIRUVAIK_BAD_HOST 9u             /* the host is no header's value */
#define FIRUVAIK_BAD_TOKEN 10u           /* the session token is no header's value */
#define FIRUVAIK_BAD_PAYLOAD_TEXT 11u    /* the payload's text is no header's value */
#define FIRUVAIK_BAD_AUTHORIZATION 12u   /* key id, region or service can't stand in a header */
#define FIRUVAIK_NO_HOST 13u             /* neither the target nor a header has a host */
#define FIRUVAIK_BAD_TOKEN_NAME 14u      /* the token can't have this name */
#define FIRUVAIK_NO_EXPIRY 15u           /* FIRUVAIK_QUERY without expires_in */
#define FIRUVAIK_NAME_TOO_LONG 20u       /* the name of a message's header passes 255 bytes */
#define FIRUVAIK_VALUE_TOO_LONG 21u      /* the value of a message's header passes 32,767 bytes */
#define FIRUVAIK_HEADERS_TOO_LONG 23u    /* a message's headers pass 131,072 bytes */
#define FIRUVAIK_PAYLOAD_TOO_LONG 24u    /* a message's payload passes 16,777,200 bytes */
#define FIRUVAIK_MESSAGE_TOO_LONG 25u    /* the frame passes 16,777,216 bytes */
#define FIRUVAIK_MORE 30u                /* more bytes are wanted: length says how many there have to be */
#define FIRUVAIK_BAD_VALUE 31u           /* the value of a frame's header passes the headers or the bytes that are there */
#define FIRUVAIK_BAD_VALUE_KIND 32u      /* a header of the frame has a kind that there isn't */
#define FIRUVAIK_BAD_HEADERS_LENGTH 33u  /* the headers are longer than the frame or 131,072 bytes, or too short for one */
#define FIRUVAIK_BAD_FRAME_LENGTH 34u    /* the frame has under 16 or over 16,777,216 bytes, or they aren't all there */
#define FIRUVAIK_FRAME_NOT_TEXT 35u      /* a name or a text in the frame isn't UTF-8 */
#define FIRUVAIK_BAD_CHECKSUM 36u        /* the frame has another checksum */
#define FIRUVAIK_BAD_PRELUDE 37u         /* the frame's first twelve bytes have another checksum */
#define FIRUVAIK_UNKNOWN_KIND 40u        /* there is no such kind of value */
#define FIRUVAIK_NUMBER_TOO_LARGE 41u    /* the number doesn't fit its kind */
#define FIRUVAIK_BAD_UUID 42u            /* a UUID hasn't 16 bytes */
#define FIRUVAIK_NOT_ONE_FRAME 50u       /* bytes follow the frame */
#define FIRUVAIK_NOT_SIGNED 51u          /* the frame's headers aren't those of a signed one */
#define FIRUVAIK_BAD_FRAME_DATE 52u      /* its date is no whole second in the years 0 to 9999 */
#define FIRUVAIK_BAD_EVENT 53u           /* its payload is neither empty nor an event's frame */
#define FIRUVAIK_OTHER_SIGNATURE 54u     /* it has another signature than the one that it carries */
#define FIRUVAIK_UNFIT_HEADER 60u        /* a header or the host of a request that came isn't fit for signing */
#define FIRUVAIK_BOTH_FORMS 61u          /* it has an authorization header, and a parameter of a signature too */
#define FIRUVAIK_NO_FORM 62u             /* it has neither */
#define FIRUVAIK_MISSING_PART 63u        /* this part of its signature is missing; the place is one of FIRUVAIK_ALGORITHM_PART and those below it */
#define FIRUVAIK_REPEATED_PART 64u       /* this part is there more than once */
#define FIRUVAIK_OTHER_ALGORITHM 65u     /* its signature is of another algorithm than AWS4-HMAC-SHA256 */
#define FIRUVAIK_MALFORMED 66u           /* its authorization header or its signature isn't in its form */
#define FIRUVAIK_BAD_DATE 67u            /* its date is no moment */
#define FIRUVAIK_BAD_CREDENTIAL 68u      /* its credential doesn't end with /aws4_request */
#define FIRUVAIK_OTHER_SERVICE 69u       /* the credential isn't for this service */
#define FIRUVAIK_OTHER_REGION 70u        /* the credential isn't for this region */
#define FIRUVAIK_OTHER_DAY 71u           /* the credential isn't of the date's day */
#define FIRUVAIK_BAD_EXPIRY 72u          /* its expiry is no number of 64 bits */
#define FIRUVAIK_LONG_EXPIRY 73u         /* its expiry is over the service's */
#define FIRUVAIK_TOO_MANY_NAMES 74u      /* it has more than 100 signed headers */
#define FIRUVAIK_BAD_NAMES 75u           /* their names aren't in lower case, sorted and without repeats */
#define FIRUVAIK_ABSENT_HEADER 76u       /* a signed header isn't there */
#define FIRUVAIK_UNSIGNED_HOST 77u       /* the host isn't signed */
#define FIRUVAIK_UNSIGNED_HEADER 78u     /* a header x-amz-.. isn't signed */
#define FIRUVAIK_TOO_EARLY 79u           /* it comes too early */
#define FIRUVAIK_TOO_LATE 80u            /* it comes too late */
#define FIRUVAIK_REPEATED_PAYLOAD 81u    /* it has more than one header x-amz-content-sha256 */
#define FIRUVAIK_BAD_PAYLOAD 82u         /* that header is neither a digest nor a word that there is */
#define FIRUVAIK_UNKNOWN_KEY 83u         /* no key has its id */
#define FIRUVAIK_OTHER_PAYLOAD 84u       /* that header isn't the digest of the body */
#define FIRUVAIK_MISMATCH 85u            /* it has another signature than the one that it carries */
#define FIRUVAIK_BAD_CONFIG 90u          /* the line at this place of the config text isn't one of a profile file */
#define FIRUVAIK_BAD_CREDENTIALS 91u     /* the line at this place of the credentials text isn't one */
#define FIRUVAIK_NO_KEY 92u              /* no variable has a key id, and the profile has no key id or no secret */
#define FIRUVAIK_NO_SECRET 93u           /* AWS_ACCESS_KEY_ID has a value, and AWS_SECRET_ACCESS_KEY has none */
#define FIRUVAIK_NO_REGION 94u           /* neither a variable nor the profile has a region */

/* Signs a request at a moment, in seconds since 1970-01-01T00:00:00Z.

   Without FIRUVAIK_QUERY the text that is written are the headers to add, as lines "name: value\r\n": x-amz-date, authorization,
   and where they are asked for x-amz-content-sha256 and the session token's. Headers of these names in the request are to be
   replaced. With FIRUVAIK_QUERY the text is the signed target.

   signature has room for 64 characters; it gets the signature in lower-case hexadecimal, with which an event stream or an upload
   in chunks goes on.

   FIRUVAIK_DONE, FIRUVAIK_ROOM, FIRUVAIK_NO_MEMORY, and else the first of these: FIRUVAIK_UNKNOWN_FLAGS, FIRUVAIK_NOT_TEXT,
   FIRUVAIK_OUT_OF_YEARS, FIRUVAIK_BAD_TARGET, for each header in order FIRUVAIK_BAD_HEADER_NAME and FIRUVAIK_BAD_HEADER_VALUE,
   FIRUVAIK_NO_HOST, FIRUVAIK_BAD_HOST, FIRUVAIK_BAD_TOKEN_NAME; in headers FIRUVAIK_BAD_TOKEN, FIRUVAIK_BAD_PAYLOAD_TEXT,
   FIRUVAIK_BAD_AUTHORIZATION; with FIRUVAIK_QUERY FIRUVAIK_NO_EXPIRY, and FIRUVAIK_BAD_TARGET for a signed target of over 65,534
   bytes. */
firuvaik_answer firuvaik_sign(const firuvaik_signer *signer, const firuvaik_request *request, const firuvaik_settings *settings,
                              long seconds, char *signature, char *out, size_t out_room);

/* Says who signed a request that came, in its headers or in its query, where a service lets it in at a moment, in seconds since
   1970-01-01T00:00:00Z. The request is given as it came, with all its headers and its own body; a body in signed chunks, of
   FIRUVAIK_SIGNED_CHUNKS, may be left out.

   The text that is written are the names of the signed headers, with ";" between: no other header is signed. signature has room for 64
   characters, and gets the request's, from which firuvaik_check_frame goes on. What a key may do, whether the session token is the
   key's, and whether a payload that isn't signed is taken, the caller decides.

   FIRUVAIK_DONE, FIRUVAIK_ROOM, FIRUVAIK_NO_MEMORY, and else the first of these: FIRUVAIK_UNKNOWN_FLAGS, FIRUVAIK_NOT_TEXT,
   FIRUVAIK_BAD_TARGET, and those from FIRUVAIK_UNFIT_HEADER to FIRUVAIK_MISMATCH in their order, but that for each part in order
   FIRUVAIK_MISSING_PART comes before FIRUVAIK_REPEATED_PART. A request that was signed with these flags, this region and name and
   one of the keys is let in within its time. */
firuvaik_answer firuvaik_admit(const firuvaik_service *service, const firuvaik_request *request, long seconds,
                               firuvaik_admission *admission, char *signature, char *names, size_t names_room);

/* Writes the signing key of the secret, the day of a moment, the region and the service to key, which has room for 32 bytes. Key id
   and token aren't read. It takes no memory.

   FIRUVAIK_DONE, FIRUVAIK_NOT_TEXT, FIRUVAIK_OUT_OF_YEARS. */
firuvaik_answer firuvaik_signing_key(const firuvaik_signer *signer, long seconds, unsigned char *key);

/* Writes the signature of a string to sign under a signing key that is at hand, as firuvaik_signing_key wrote it, to signature: 64
   hexadecimal digits in lower case. It is the text's HMAC, as for the policy of a browser's upload to Amazon S3.

   FIRUVAIK_DONE, FIRUVAIK_NO_MEMORY. */
firuvaik_answer firuvaik_signature(const unsigned char *key, const char *text, size_t text_length, char *signature);

/* Writes the frame of a message, as of an event before it is signed: headers whose values are texts, in order, and a payload.

   FIRUVAIK_DONE, FIRUVAIK_ROOM, FIRUVAIK_NO_MEMORY, and else the first of FIRUVAIK_NOT_TEXT, for each header in order
   FIRUVAIK_NAME_TOO_LONG and FIRUVAIK_VALUE_TOO_LONG, and then FIRUVAIK_HEADERS_TOO_LONG, FIRUVAIK_PAYLOAD_TOO_LONG and
   FIRUVAIK_MESSAGE_TOO_LONG. */
firuvaik_answer firuvaik_event(const firuvaik_field *headers, size_t header_count, const char *payload, size_t payload_length,
                               char *out, size_t out_room);

/* The same, of headers of every kind.

   FIRUVAIK_DONE, FIRUVAIK_ROOM, FIRUVAIK_NO_MEMORY, and else for each header in order FIRUVAIK_NOT_TEXT for its name,
   FIRUVAIK_UNKNOWN_KIND, FIRUVAIK_NUMBER_TOO_LARGE, FIRUVAIK_NOT_TEXT for its value, FIRUVAIK_BAD_UUID; and then, again for each
   header, FIRUVAIK_NAME_TOO_LONG and FIRUVAIK_VALUE_TOO_LONG, and FIRUVAIK_HEADERS_TOO_LONG, FIRUVAIK_PAYLOAD_TOO_LONG and
   FIRUVAIK_MESSAGE_TOO_LONG. */
firuvaik_answer firuvaik_frame(const firuvaik_event_header *headers, size_t header_count, const char *payload,
                               size_t payload_length, char *out, size_t out_room);

/* Tells by length how long the frame is that bytes begin with. Its first twelve bytes are enough.

   FIRUVAIK_DONE, FIRUVAIK_MORE for fewer bytes, FIRUVAIK_NO_MEMORY, and else the first of FIRUVAIK_BAD_FRAME_LENGTH,
   FIRUVAIK_BAD_HEADERS_LENGTH and FIRUVAIK_BAD_PRELUDE. */
firuvaik_answer firuvaik_frame_length(const char *bytes, size_t length);

/* Tells what the frame holds that bytes begin with: parts says where its payload is, headers, with room for header_room of them, where
   its headers are, in order. length is how many headers there are, or with FIRUVAIK_ROOM how many are wanted.

   FIRUVAIK_DONE, FIRUVAIK_ROOM, FIRUVAIK_NO_MEMORY, and else the first of FIRUVAIK_BAD_FRAME_LENGTH for fewer than twelve bytes, those
   of firuvaik_frame_length, FIRUVAIK_BAD_FRAME_LENGTH for fewer bytes than the frame has; for each header in order
   FIRUVAIK_BAD_HEADERS_LENGTH, FIRUVAIK_NAME_TOO_LONG for a name that passes the bytes, FIRUVAIK_FRAME_NOT_TEXT,
   FIRUVAIK_BAD_VALUE_KIND and FIRUVAIK_BAD_VALUE; and last FIRUVAIK_BAD_CHECKSUM. */
firuvaik_answer firuvaik_read_frame(const char *bytes, size_t length, firuvaik_frame_parts *parts, firuvaik_header_place *headers,
                                    size_t header_room);

/* Writes the next frame of an event stream: event are the bytes of an event's own frame, as firuvaik_event writes them, or none for
   the frame that ends the stream.

   signature has 64 characters: the signature of the frame before, or for the first frame that of the request. With FIRUVAIK_DONE the
   new signature takes its place. Key id and token aren't read.

   FIRUVAIK_DONE, FIRUVAIK_ROOM, FIRUVAIK_NO_MEMORY, and else the first of FIRUVAIK_NOT_TEXT, FIRUVAIK_OUT_OF_YEARS,
   FIRUVAIK_PAYLOAD_TOO_LONG and FIRUVAIK_MESSAGE_TOO_LONG. */
firuvaik_answer firuvaik_next_frame(const firuvaik_signer *signer, long seconds, const char *event, size_t event_length,
                                    char *signature, char *out, size_t out_room);

/* Checks that bytes are the next frame of an event stream: one frame, with its own date, whose signature over the one before it is
   computed again. The date isn't compared with a clock. parts says where its payload is: the bytes of the event's frame; with no
   bytes the stream ends there. An event is safe once its own frame and all before it were checked, the whole stream once its last
   frame was.

   signature has 64 characters: the signature of the frame before, or for the first frame that of the request. With FIRUVAIK_DONE the
   frame's own takes its place. Key id and token aren't read.

   FIRUVAIK_DONE, FIRUVAIK_NO_MEMORY, and else the first of FIRUVAIK_NOT_TEXT, those of firuvaik_read_frame, FIRUVAIK_NOT_ONE_FRAME,
   FIRUVAIK_NOT_SIGNED, FIRUVAIK_BAD_FRAME_DATE, FIRUVAIK_BAD_EVENT and FIRUVAIK_OTHER_SIGNATURE. */
firuvaik_answer firuvaik_check_frame(const firuvaik_signer *signer, const char *frame, size_t frame_length, char *signature,
                                     firuvaik_frame_parts *parts);

/* Writes the line before the next chunk of an upload in signed chunks (the payload's text of its request is
   STREAMING-AWS4-HMAC-SHA256-PAYLOAD, or the same with -TRAILER). Behind it go the chunk and "\r\n". The upload ends with a chunk
   of no bytes: behind its line goes "\r\n" alone, or what firuvaik_trailers writes.

   signature has 64 characters: the signature of the chunk before, or for the first chunk that of the request. With FIRUVAIK_DONE the
   new signature takes its place. Key id and token aren't read.

   FIRUVAIK_DONE, FIRUVAIK_ROOM, FIRUVAIK_NO_MEMORY, and else the first of FIRUVAIK_NOT_TEXT and FIRUVAIK_OUT_OF_YEARS. */
firuvaik_answer firuvaik_next_chunk(const firuvaik_signer *signer, long seconds, const char *chunk, size_t chunk_length,
                                    char *signature, char *out, size_t out_room);

/* Writes the end of an upload with trailers, behind the line of its empty chunk: the trailers, their names in lower case, the line
   of their signature, and an empty line. signature has 64 characters, and is that of the empty chunk.

   FIRUVAIK_DONE, FIRUVAIK_ROOM, FIRUVAIK_NO_MEMORY, and else the first of FIRUVAIK_NOT_TEXT, FIRUVAIK_OUT_OF_YEARS, FIRUVAIK_NOT_TEXT for
   a trailer, and for each trailer in order FIRUVAIK_BAD_HEADER_NAME and FIRUVAIK_BAD_HEADER_VALUE. */
firuvaik_answer firuvaik_trailers(const firuvaik_signer *signer, long seconds, const firuvaik_field *trailers, size_t trailer_count,
                                  char *signature, char *out, size_t out_room);

/* Selects what there is to sign with, by variables and by profile files, in this order: the key of AWS_ACCESS_KEY_ID,
   AWS_SECRET_ACCESS_KEY and AWS_SESSION_TOKEN, or else that of the profile that AWS_PROFILE names, or of default; the region of
   AWS_REGION or AWS_DEFAULT_REGION, or else the profile's. The profile is what both texts have of it together. An empty value counts
   as none.

   The texts are written one behind the other, and selection says where each stands. They are for a firuvaik_signer, beside the name of
   a service. The secret is among them: the caller overwrites the room once they aren't needed.

   FIRUVAIK_DONE, FIRUVAIK_ROOM, FIRUVAIK_NO_MEMORY, and else the first of FIRUVAIK_NOT_TEXT, FIRUVAIK_BAD_CONFIG,
   FIRUVAIK_BAD_CREDENTIALS, FIRUVAIK_NO_SECRET or FIRUVAIK_NO_KEY, and FIRUVAIK_NO_REGION. */
firuvaik_answer firuvaik_select(const firuvaik_sources *sources, firuvaik_selection *selection, char *out, size_t out_room);

/* Runs the program firuvaik on what is lent, as its page has it, but for the words --help and --version: it reads no other file, and
   its clock has the one moment. Profile files are named by --config and --credentials, or lie at the default paths below HOME.

   The text is what the program writes, and behind that the line that it says of its end, where there is one. With FIRUVAIK_DONE the
   program ran, and outcome says how it ended; the program's own want of memory is its exit number 10.

   FIRUVAIK_DONE, FIRUVAIK_ROOM, FIRUVAIK_NO_MEMORY, and FIRUVAIK_NOT_TEXT for a word, a variable or a path that isn't UTF-8. */
firuvaik_answer firuvaik_run(const firuvaik_invocation *invocation, firuvaik_outcome *outcome, char *out, size_t out_room);

/* Writes what a status means, in English. FIRUVAIK_DONE, FIRUVAIK_ROOM. */
firuvaik_answer firuvaik_status_text(unsigned int status, char *out, size_t out_room);

/* Writes the version, as FIRUVAIK_VERSION is of the header. FIRUVAIK_DONE, FIRUVAIK_ROOM. */
firuvaik_answer firuvaik_version(char *out, size_t out_room);

#ifdef __cplusplus
}
#endif

#endif
