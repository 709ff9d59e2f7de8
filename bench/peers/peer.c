/* Does one kind of work of crates/tool_bench by the AWS Common Runtime, and prints the same line, digest and all: the answers are the
 * same. Debian has that library, whose SHA-256 is OpenSSL's, within python3-awscrt 0.16.8 and without its headers: what is declared
 * here is as they have it. It can't sign events.
 *   peer WORK COUNT [SIZE] */
#include <stdbool.h>
#include <stdint.h>
#include <stdio.h>
#include <stdlib.h>
#include <string.h>
#include <strings.h>
#include <time.h>

struct cursor { size_t length; const uint8_t *bytes; };
struct buffer { size_t length; uint8_t *bytes; size_t capacity; void *allocator; };
struct date { time_t seconds; char zone[8]; struct tm utc, local; bool utc_assumed; };
struct header { struct cursor name, value; int compression; };
/* With more room than these two take. */
struct message { void *allocator; struct buffer bytes; uint8_t more[64]; };
struct decoder { uint64_t words[512]; };
struct config {
    int type, algorithm, signature_type;
    struct cursor region, service;
    struct date date;
    void *signs_header, *signs_header_data;
    uint32_t flags;
    struct cursor body_value;
    int body_header;
    void *credentials, *provider;
    uint64_t expires;
};
enum { OF_AWS = 1, IN_HEADERS = 0, IN_QUERY = 1, PATH_ESCAPED_TWICE = 1, PATH_NORMALIZED = 2 };

typedef void when_signed(void *result, int error, void *data);
typedef void when_payload(void *decoder, struct buffer *part, int8_t is_last, void *data);
typedef void when_prelude(void *decoder, void *prelude, void *data);
typedef void when_header(void *decoder, void *prelude, void *header, void *data);
typedef void when_error(void *decoder, void *prelude, int code, const char *why, void *data);

void *aws_default_allocator(void);
void aws_auth_library_init(void *allocator);
void aws_event_stream_library_init(void *allocator);
void *aws_credentials_new(void *allocator, struct cursor key_id, struct cursor secret, struct cursor token, uint64_t end);
void *aws_http_message_new_request(void *allocator);
void *aws_http_message_release(void *request);
int aws_http_message_set_request_method(void *request, struct cursor method);
int aws_http_message_set_request_path(void *request, struct cursor path);
int aws_http_message_get_request_path(const void *request, struct cursor *path);
int aws_http_message_add_header(void *request, struct header header);
size_t aws_http_message_get_header_count(const void *request);
int aws_http_message_get_header(const void *request, struct header *header, size_t place);
void aws_date_time_init_epoch_secs(struct date *date, double seconds);
void *aws_signable_new_http_request(void *allocator, void *request);
void aws_signable_destroy(void *signable);
int aws_sign_request_aws(void *allocator, void *signable, const struct config *config, when_signed *then, void *data);
int aws_apply_signing_result_to_http_request(void *request, void *allocator, const void *result);
uint32_t aws_checksums_crc32(const uint8_t *bytes, int length, uint32_t before);
int aws_sha256_compute(void *allocator, const struct cursor *input, struct buffer *output, size_t cut_to);
int aws_event_stream_message_init(struct message *frame, void *allocator, void *headers, const struct buffer *payload);
void aws_event_stream_message_clean_up(struct message *frame);
const uint8_t *aws_event_stream_message_buffer(const struct message *frame);
uint32_t aws_event_stream_message_total_length(const struct message *frame);
void aws_event_stream_streaming_decoder_init(
    struct decoder *decoder, void *allocator, when_payload *, when_prelude *, when_header *, when_error *, void *data);
int aws_event_stream_streaming_decoder_pump(struct decoder *decoder, const struct buffer *piece);

static void *allocator;
static uint64_t digest;

static void check(bool holds, const char *what)
{
    if (!holds) {
        fprintf(stderr, "%s failed\n", what);
        exit(1);
    }
}

static void with(const uint8_t *answer, size_t length)
{
    size_t i;
    for (i = 0; i < length; i++)
        digest = digest * 31 + answer[i];
}

static struct cursor text(const char *it)
{
    struct cursor made = {strlen(it), (const uint8_t *)it};
    return made;
}

static uint8_t *filled(size_t size)
{
    uint8_t *bytes = malloc(size + 1);
    check(bytes != NULL, "malloc");
    memset(bytes, 7, size);
    return bytes;
}

/* ---- requests */

static void add_header(void *request, const char *name, const char *value)
{
    struct header header = {text(name), text(value), 0};
    check(aws_http_message_add_header(request, header) == 0, "adding a header");
}

static void apply(void *result, int error, void *request)
{
    check(error == 0 && aws_apply_signing_result_to_http_request(request, allocator, result) == 0, "signing");
}

/* The digest of the signature more at the end of the header `authorization`, or of the query. */
static void with_signature(const void *request, bool presigned)
{
    struct cursor value = {0, NULL};
    struct header header;
    size_t place = aws_http_message_get_header_count(request);

    if (presigned)
        aws_http_message_get_request_path(request, &value);
    while (!presigned && place-- > 0 && value.bytes == NULL)
        if (aws_http_message_get_header(request, &header, place) == 0 && header.name.length == 13
            && strncasecmp((const char *)header.name.bytes, "authorization", 13) == 0)
            value = header.value;
    check(value.length >= 64, "finding the signature");
    with(value.bytes + value.length - 64, 64);
}

static void sign_at(struct config *config, long number, bool presigned)
{
    void *request = aws_http_message_new_request(allocator), *signable;

    check(aws_http_message_set_request_method(request, text("GET")) == 0, "setting the method");
    check(aws_http_message_set_request_path(request, text("/path")) == 0, "setting the path");
    add_header(request, "host", "service.us-east-1.amazonaws.com");
    if (!presigned) {
        add_header(request, "content-type", "application/json");
        add_header(request, "x-amz-target", "Service.Operation");
    }
    aws_date_time_init_epoch_secs(&config->date, (double)(1440938160 + number));
    signable = aws_signable_new_http_request(allocator, request);
    check(aws_sign_request_aws(allocator, signable, config, apply, request) == 0, "signing");
    with_signature(request, presigned);
    aws_signable_destroy(signable);
    aws_http_message_release(request);
}

static void sign(long count, bool presigned)
{
    struct config config;
    long number;

    memset(&config, 0, sizeof config);
    config.type = OF_AWS;
    config.signature_type = presigned ? IN_QUERY : IN_HEADERS;
    config.region = text("us-east-1");
    config.service = text("service");
    config.flags = PATH_ESCAPED_TWICE | PATH_NORMALIZED;
    config.expires = presigned ? 900 : 0;
    config.credentials = aws_credentials_new(
        allocator, text("AKIDEXAMPLE"), text("wJalrXUtnFEMI/K7MDENG+bPxRfiCYEXAMPLEKEY"), text(""), UINT64_MAX);
    for (number = 0; number < count; number++)
        sign_at(&config, number, presigned);
}

/* ---- sums */

static void checksum(long count, size_t size)
{
    uint8_t *bytes = filled(size), sum[4];
    long number;

    for (number = 0; number < count; number++) {
        uint32_t value;
        bytes[0] = (uint8_t)number;
        value = aws_checksums_crc32(bytes, (int)size, 0);
        sum[0] = (uint8_t)(value >> 24);
        sum[1] = (uint8_t)(value >> 16);
        sum[2] = (uint8_t)(value >> 8);
        sum[3] = (uint8_t)value;
        with(sum, sizeof sum);
    }
}

static void hash(long count, size_t size)
{
    uint8_t *bytes = filled(size), sum[32];
    struct cursor input = {size, bytes};
    long number;

    for (number = 0; number < count; number++) {
        struct buffer output = {0, sum, sizeof sum, NULL};
        bytes[0] = (uint8_t)number;
        check(aws_sha256_compute(allocator, &input, &output, 0) == 0, "hashing");
        with(sum, sizeof sum);
    }
}

/* ---- frames */

static void write_frames(long count, size_t size)
{
    struct buffer payload = {size, filled(size), size, NULL};
    struct message frame;
    long number;

    for (number = 0; number < count; number++) {
        check(aws_event_stream_message_init(&frame, allocator, NULL, &payload) == 0, "writing a frame");
        with(aws_event_stream_message_buffer(&frame) + aws_event_stream_message_total_length(&frame) - 4, 4);
        aws_event_stream_message_clean_up(&frame);
    }
}

static bool begins;

static void on_prelude(void *decoder, void *prelude, void *data)
{
    (void)decoder, (void)prelude, (void)data;
    begins = true;
}

static void on_payload(void *decoder, struct buffer *part, int8_t is_last, void *data)
{
    (void)decoder, (void)is_last, (void)data;
    if (begins && part->length > 0)
        with(part->bytes, 1);
    begins = false;
}

static void on_header(void *decoder, void *prelude, void *header, void *data)
{
    (void)decoder, (void)prelude, (void)header, (void)data;
}

static void on_error(void *decoder, void *prelude, int code, const char *why, void *data)
{
    (void)decoder, (void)prelude, (void)code, (void)data;
    check(false, why);
}

/* 175 frames of 1,024 bytes, in pieces of 1,400. */
static void decode(long count)
{
    static uint8_t stream[175 * 1024];
    static struct decoder decoder;
    struct buffer payload = {1008, filled(1008), 1008, NULL};
    struct message frame;
    size_t at;

    check(aws_event_stream_message_init(&frame, allocator, NULL, &payload) == 0, "writing a frame");
    for (at = 0; at < sizeof stream; at += 1024)
        memcpy(stream + at, aws_event_stream_message_buffer(&frame), 1024);
    aws_event_stream_streaming_decoder_init(&decoder, allocator, on_payload, on_prelude, on_header, on_error, NULL);
    for (; count > 0; count--)
        for (at = 0; at < sizeof stream; at += 1400) {
            size_t length = sizeof stream - at < 1400 ? sizeof stream - at : 1400;
            struct buffer piece = {length, stream + at, length, NULL};
            check(aws_event_stream_streaming_decoder_pump(&decoder, &piece) == 0, "decoding");
        }
}

int main(int words, char **word)
{
    const char *work = words > 2 ? word[1] : "";
    long count = words > 2 ? strtol(word[2], NULL, 10) : 0;
    size_t size = words > 3 ? strtoul(word[3], NULL, 10) : 0;

    allocator = aws_default_allocator();
    aws_auth_library_init(allocator);
    aws_event_stream_library_init(allocator);
    if (strcmp(work, "sign") == 0)
        sign(count, false);
    else if (strcmp(work, "presign") == 0)
        sign(count, true);
    else if (strcmp(work, "checksum") == 0)
        checksum(count, size);
    else if (strcmp(work, "hash") == 0)
        hash(count, size);
    else if (strcmp(work, "write") == 0)
        write_frames(count, size);
    else if (strcmp(work, "decode") == 0)
        decode(count);
    else
        return 3;
    printf("%s %ld ", work, count);
    if (words > 3)
        printf("%zu ", size);
    printf("%016llx\n", (unsigned long long)digest);
    return 0;
}
