/* A caller that gives what it shouldn't need to give: NULL with length 0, every room from none to what is wanted, bytes that aren't
   UTF-8, flags that there aren't, and moments at the limits. Each room is a block of its own, so that valgrind and the address
   sanitizer see a byte that is written past it; what is around a refusal is compared. */
#include <firuvaik.h>
#include <limits.h>
#include <stdio.h>
#include <stdlib.h>
#include <string.h>

static int failed = 0;

static void want(int holds, const char *what)
{
    if (!holds) {
        printf("hostile: %s\n", what);
        failed = 1;
    }
}

static firuvaik_text text(const char *bytes)
{
    firuvaik_text made;
    made.bytes = bytes;
    made.length = strlen(bytes);
    return made;
}

static firuvaik_signer signer;
static firuvaik_request request;
static firuvaik_settings settings;
static char signature[64];

static void plain(void)
{
    memset(&settings, 0, sizeof settings);
    memset(&request, 0, sizeof request);
    signer.key_id = text("AKIDEXAMPLE");
    signer.secret = text("wJalrXUtnFEMI/K7MDENG+bPxRfiCYEXAMPLEKEY");
    signer.token.bytes = NULL;
    signer.token.length = 0;
    signer.region = text("us-east-1");
    signer.service = text("service");
    request.method = text("GET");
    request.target = text("https://example.amazonaws.com/");
    memset(signature, '-', sizeof signature);
}

/* A room of exactly so many bytes, each of them '-'. */
static char *room_of(size_t length)
{
    char *room = malloc(length ? length : 1);
    if (room == NULL)
        exit(2);
    memset(room, '-', length);
    return room;
}

static int is_untouched(const char *bytes, size_t length)
{
    size_t i;
    for (i = 0; i < length; i++)
        if (bytes[i] != '-')
            return 0;
    return 1;
}

static firuvaik_answer sign_in(long seconds, char *room, size_t length)
{
    return firuvaik_sign(&signer, &request, &settings, seconds, signature, room, length);
}

/* Each room from none to one byte more than is wanted. */
static void every_room(void)
{
    size_t wanted = sign_in(1440938160, NULL, 0).length;
    size_t length;
    want(wanted > 100 && is_untouched(signature, 64), "no room isn't answered with how much is wanted");
    for (length = 0; length <= wanted + 1; length++) {
        char *room = room_of(length);
        firuvaik_answer answer = sign_in(1440938160, room, length);
        want(answer.length == wanted && answer.place == 0, "the length differs by the room");
        if (length < wanted)
            want(answer.status == FIRUVAIK_ROOM && is_untouched(room, length) && is_untouched(signature, 64), "a small room is written");
        else
            want(answer.status == FIRUVAIK_DONE && is_untouched(room + wanted, length - wanted) && signature[0] != '-', "the room isn't filled");
        free(room);
    }
}

/* A refusal with this status and place, after which nothing is written. */
static void refuses(unsigned int status, size_t place, long seconds, const char *what)
{
    char room[2000];
    firuvaik_answer answer;
    memset(room, '-', sizeof room);
    answer = sign_in(seconds, room, sizeof room);
    want(answer.status == status && answer.place == place && answer.length == 0, what);
    want(is_untouched(room, sizeof room) && is_untouched(signature, 64), what);
    plain();
}

static void refusals(void)
{
    firuvaik_field fields[2];
    firuvaik_text names[1];
    firuvaik_text *texts[5];
    size_t i;
    texts[0] = &signer.key_id;
    texts[1] = &signer.secret;
    texts[2] = &signer.token;
    texts[3] = &signer.region;
    texts[4] = &signer.service;
    plain();
    for (i = 0; i < 5; i++) {
        *texts[i] = text("\xc3");
        refuses(FIRUVAIK_NOT_TEXT, 0, 0, "a signer's text isn't UTF-8");
    }
    request.method = text("\xff");
    refuses(FIRUVAIK_NOT_TEXT, 0, 0, "the method isn't UTF-8");
    request.target = text("https://h/\xed\xa0\x80");
    refuses(FIRUVAIK_NOT_TEXT, 0, 0, "the target isn't UTF-8");
    fields[0].name = text("a");
    fields[0].value = text("b");
    fields[1].name = text("c");
    fields[1].value = text("\x80");
    request.headers = fields;
    request.header_count = 2;
    refuses(FIRUVAIK_NOT_TEXT, 0, 0, "a header isn't UTF-8");
    fields[1].value = text("a\nb");
    request.headers = fields;
    request.header_count = 2;
    refuses(FIRUVAIK_BAD_HEADER_VALUE, 2, 0, "a header has a line end");
    settings.flags = FIRUVAIK_PAYLOAD_TEXT;
    request.body = text("\xf8");
    refuses(FIRUVAIK_NOT_TEXT, 0, 0, "the payload's text isn't UTF-8");
    settings.token_name = text("\xf8");
    refuses(FIRUVAIK_NOT_TEXT, 0, 0, "the token's name isn't UTF-8");
    names[0] = text("\xf8");
    settings.flags = FIRUVAIK_EXCLUDED;
    settings.excluded = names;
    settings.excluded_count = 1;
    refuses(FIRUVAIK_NOT_TEXT, 0, 0, "an excluded name isn't UTF-8");
    for (i = 7; i < 32; i++) {
        settings.flags = 1u << i;
        refuses(FIRUVAIK_UNKNOWN_FLAGS, 0, 0, "there is no such flag");
    }
    refuses(FIRUVAIK_OUT_OF_YEARS, 0, LONG_MAX, "the greatest moment");
    refuses(FIRUVAIK_OUT_OF_YEARS, 0, LONG_MIN, "the least moment");
    refuses(FIRUVAIK_OUT_OF_YEARS, 0, 253402300800L, "the first second of the year 10000");
    refuses(FIRUVAIK_OUT_OF_YEARS, 0, -62167219201L, "the last second before the year 0");
    settings.flags = FIRUVAIK_QUERY;
    refuses(FIRUVAIK_NO_EXPIRY, 0, 0, "there is no expiry");
    memset(&request, 0, sizeof request);
    refuses(FIRUVAIK_BAD_TARGET, 0, 0, "a request of nothing");
}

static void messages(void)
{
    firuvaik_field fields[2];
    size_t wanted;
    size_t length;
    want(firuvaik_event(NULL, 0, NULL, 0, NULL, 0).length == 16, "a message of nothing has another frame");
    fields[0].name = text(":message-type");
    fields[0].value = text("event");
    memset(&fields[1], 0, sizeof fields[1]);
    wanted = firuvaik_event(fields, 2, "payload", 7, NULL, 0).length;
    for (length = 0; length <= wanted; length++) {
        char *room = room_of(length);
        firuvaik_answer answer = firuvaik_event(fields, 2, "payload", 7, room, length);
        want(answer.length == wanted, "the length of a message differs by the room");
        want(length < wanted ? answer.status == FIRUVAIK_ROOM && is_untouched(room, length) : answer.status == FIRUVAIK_DONE, "a small room is written");
        free(room);
    }
    fields[1].value = text("\xc0\x80");
    want(firuvaik_event(fields, 2, "payload", 7, NULL, 0).status == FIRUVAIK_NOT_TEXT, "a header's text isn't UTF-8");
}

static void frames(void)
{
    size_t length;
    char key[32];
    char event[] = "\x00\x01\xff event";
    size_t wanted;
    plain();
    want(sign_in(0, room_of(2000), 2000).status == FIRUVAIK_DONE, "the request isn't signed");
    wanted = firuvaik_next_frame(&signer, 0, event, sizeof event, signature, NULL, 0).length;
    for (length = 0; length <= wanted; length++) {
        char before[64];
        char *room = room_of(length);
        firuvaik_answer answer;
        memcpy(before, signature, 64);
        answer = firuvaik_next_frame(&signer, 0, event, sizeof event, signature, room, length);
        want(answer.length == wanted, "the length of a frame differs by the room");
        if (length < wanted)
            want(answer.status == FIRUVAIK_ROOM && is_untouched(room, length) && memcmp(before, signature, 64) == 0, "a small room is written");
        else
            want(answer.status == FIRUVAIK_DONE && memcmp(before, signature, 64) != 0, "the frame isn't written");
        free(room);
    }
    want(firuvaik_next_frame(&signer, 0, NULL, 0, signature, NULL, 0).status == FIRUVAIK_ROOM, "no event isn't the end");
    want(firuvaik_next_frame(&signer, LONG_MIN, NULL, 0, signature, NULL, 0).status == FIRUVAIK_OUT_OF_YEARS, "the least moment has a frame");
    memset(key, '-', sizeof key);
    want(firuvaik_signing_key(&signer, LONG_MAX, (unsigned char *)key).status == FIRUVAIK_OUT_OF_YEARS && is_untouched(key, 32), "the greatest moment has a key");
    want(firuvaik_signing_key(&signer, 0, (unsigned char *)key).length == 32 && !is_untouched(key, 32), "there is no key");
    signature[5] = '\xff';
    want(firuvaik_next_frame(&signer, 0, NULL, 0, signature, NULL, 0).status == FIRUVAIK_NOT_TEXT, "the signature isn't UTF-8");
}

/* Each room for a frame of every kind of header, and what it is read as. */
static void kinds(void)
{
    firuvaik_event_header headers[10];
    firuvaik_header_place places[12];
    firuvaik_frame_parts parts;
    firuvaik_answer answer;
    char *frame;
    size_t wanted;
    size_t length;
    unsigned int kind;
    memset(headers, 0, sizeof headers);
    for (kind = 0; kind < 10; kind++) {
        headers[kind].kind = kind;
        headers[kind].number = kind == FIRUVAIK_LONG || kind == FIRUVAIK_TIMESTAMP ? LONG_MIN : -(long)kind;
    }
    headers[9].value = text("sixteen bytes: 0");
    headers[6].name = text("bytes");
    wanted = firuvaik_frame(headers, 10, NULL, 0, NULL, 0).length;
    for (length = 0; length <= wanted; length++) {
        char *room = room_of(length);
        answer = firuvaik_frame(headers, 10, NULL, 0, room, length);
        want(answer.length == wanted, "the length of a frame differs by the room");
        want(length < wanted ? answer.status == FIRUVAIK_ROOM && is_untouched(room, length) : answer.status == FIRUVAIK_DONE, "a small room is written");
        free(room);
    }
    frame = room_of(wanted);
    want(firuvaik_frame(headers, 10, NULL, 0, frame, wanted).status == FIRUVAIK_DONE, "there is no frame");
    for (length = 0; length < wanted; length++) {
        char *part = room_of(length);
        memcpy(part, frame, length);
        answer = firuvaik_frame_length(part, length);
        want(length < 12 ? answer.status == FIRUVAIK_MORE && answer.length == 12 : answer.status == FIRUVAIK_DONE && answer.length == wanted, "the length is another one");
        memset(&parts, '-', sizeof parts);
        memset(places, '-', sizeof places);
        want(firuvaik_read_frame(part, length, &parts, places, 12).status == FIRUVAIK_BAD_FRAME_LENGTH, "a part of a frame is read");
        want(is_untouched((char *)&parts, sizeof parts) && is_untouched((char *)places, sizeof places), "a refusal is written");
        free(part);
    }
    for (length = 0; length <= 12; length++) {
        firuvaik_header_place *room = (firuvaik_header_place *)room_of(length * sizeof *room);
        memset(&parts, '-', sizeof parts);
        answer = firuvaik_read_frame(frame, wanted, &parts, room, length);
        want(answer.length == 10, "there aren't ten headers");
        if (length < 10)
            want(answer.status == FIRUVAIK_ROOM && is_untouched((char *)&parts, sizeof parts) && is_untouched((char *)room, length * sizeof *room), "a small room is written");
        else
            want(answer.status == FIRUVAIK_DONE && parts.length == wanted && parts.payload_length == 0 && room[5].number == LONG_MIN && room[9].value_length == 16
                && memcmp(frame + room[6].name, "bytes", 5) == 0 && is_untouched((char *)(room + 10), (length - 10) * sizeof *room), "the headers are others");
        free(room);
    }
    frame[wanted - 1] = (char)(frame[wanted - 1] + 1);
    want(firuvaik_read_frame(frame, wanted, &parts, places, 12).status == FIRUVAIK_BAD_CHECKSUM, "another checksum is read");
    free(frame);
    want(firuvaik_frame_length(NULL, 0).status == FIRUVAIK_MORE, "nothing has a length");
    want(firuvaik_read_frame(NULL, 0, &parts, NULL, 0).status == FIRUVAIK_BAD_FRAME_LENGTH, "nothing is read");
    headers[9].value.length = 15;
    want(firuvaik_frame(headers, 10, NULL, 0, NULL, 0).status == FIRUVAIK_BAD_UUID, "a UUID has 15 bytes");
    headers[2].number = 128;
    want(firuvaik_frame(headers, 10, NULL, 0, NULL, 0).status == FIRUVAIK_NUMBER_TOO_LARGE, "a byte is 128");
    headers[1].kind = UINT_MAX;
    want(firuvaik_frame(headers, 10, NULL, 0, NULL, 0).status == FIRUVAIK_UNKNOWN_KIND, "there is another kind");
    headers[0].name = text("\xff");
    want(firuvaik_frame(headers, 10, NULL, 0, NULL, 0).status == FIRUVAIK_NOT_TEXT, "a name isn't UTF-8");
}

/* What is no next frame, and what is one. */
static void checked(void)
{
    firuvaik_frame_parts parts;
    char before[64];
    char *frame;
    size_t wanted;
    size_t length;
    plain();
    memset(signature, 'a', sizeof signature);
    memcpy(before, signature, 64);
    wanted = firuvaik_next_frame(&signer, 0, NULL, 0, signature, NULL, 0).length;
    frame = room_of(wanted);
    want(firuvaik_next_frame(&signer, 0, NULL, 0, signature, frame, wanted).status == FIRUVAIK_DONE, "there is no frame");
    memcpy(signature, before, 64);
    for (length = 0; length < wanted; length++) {
        char *part = room_of(length);
        memcpy(part, frame, length);
        memset(&parts, '-', sizeof parts);
        want(firuvaik_check_frame(&signer, part, length, signature, &parts).status == FIRUVAIK_BAD_FRAME_LENGTH, "a part of a frame passes");
        want(is_untouched((char *)&parts, sizeof parts) && memcmp(before, signature, 64) == 0, "a refusal is written");
        free(part);
    }
    signature[0] = 'b';
    want(firuvaik_check_frame(&signer, frame, wanted, signature, &parts).status == FIRUVAIK_OTHER_SIGNATURE && signature[0] == 'b', "a frame passes over another signature");
    memcpy(signature, before, 64);
    want(is_untouched((char *)&parts, sizeof parts), "a refusal is written");
    want(firuvaik_check_frame(&signer, frame, wanted, signature, &parts).length == wanted && parts.payload_length == 0, "the frame doesn't pass");
    want(memcmp(before, signature, 64) != 0, "the signature stays");
    signature[1] = '\xff';
    want(firuvaik_check_frame(&signer, frame, wanted, signature, &parts).status == FIRUVAIK_NOT_TEXT, "the signature isn't UTF-8");
    free(frame);
}

/* Each room for the line of a chunk, for trailers, for the texts and for a signature under a key. */
static void chunks(void)
{
    firuvaik_field trailers[1];
    char before[64];
    size_t length;
    unsigned int status;
    plain();
    memset(signature, 'a', sizeof signature);
    memcpy(before, signature, 64);
    trailers[0].name = text("x-note");
    trailers[0].value = text("value");
    for (length = 0; length < 200; length++) {
        char *room = room_of(length);
        firuvaik_answer answer = firuvaik_next_chunk(&signer, 0, NULL, 0, signature, room, length);
        want(answer.length == 84, "the line of a chunk has another length");
        want(length < 84 ? answer.status == FIRUVAIK_ROOM && is_untouched(room, length) && memcmp(before, signature, 64) == 0
            : answer.status == FIRUVAIK_DONE && is_untouched(room + 84, length - 84) && memcmp(before, signature, 64) != 0, "the line of a chunk isn't written as it fits");
        memcpy(signature, before, 64);
        memset(room, '-', length);
        answer = firuvaik_trailers(&signer, 0, trailers, 1, signature, room, length);
        want(answer.length == 106, "the trailers have another length");
        want(length < 106 ? answer.status == FIRUVAIK_ROOM && is_untouched(room, length) && memcmp(before, signature, 64) == 0
            : answer.status == FIRUVAIK_DONE && is_untouched(room + 106, length - 106) && memcmp(before, signature, 64) != 0, "the trailers aren't written as they fit");
        memcpy(signature, before, 64);
        free(room);
    }
    trailers[0].value = text("a\r\nb");
    want(firuvaik_trailers(&signer, 0, trailers, 1, signature, NULL, 0).place == 1, "a trailer has a line end");
    want(firuvaik_trailers(&signer, LONG_MAX, NULL, 0, signature, NULL, 0).status == FIRUVAIK_OUT_OF_YEARS, "the greatest moment has trailers");
    want(firuvaik_next_chunk(&signer, LONG_MIN, NULL, 0, signature, NULL, 0).status == FIRUVAIK_OUT_OF_YEARS, "the least moment has a chunk");
    signature[63] = '\xff';
    want(firuvaik_next_chunk(&signer, 0, NULL, 0, signature, NULL, 0).status == FIRUVAIK_NOT_TEXT, "the signature isn't UTF-8");
    want(firuvaik_signature((const unsigned char *)before, NULL, 0, signature).status == FIRUVAIK_DONE && signature[63] != '\xff', "nothing isn't signed");
    for (status = 0; status < 120; status++) {
        size_t wanted = firuvaik_status_text(status, NULL, 0).length;
        char *room = room_of(wanted);
        want(wanted > 0 && firuvaik_status_text(status, room, wanted - 1).status == FIRUVAIK_ROOM && is_untouched(room, wanted), "a small room is written");
        want(firuvaik_status_text(status, room, wanted).status == FIRUVAIK_DONE && room[0] != '-', "a status has no text");
        free(room);
    }
    want(firuvaik_version(before, 64).length == strlen(FIRUVAIK_VERSION) && memcmp(before, FIRUVAIK_VERSION, strlen(FIRUVAIK_VERSION)) == 0, "the version is another one");
}

static firuvaik_service service;
static firuvaik_key keys[2];
static firuvaik_field fields[3];
static firuvaik_admission admission;

/* The door for get-vanilla of AWS's test suite for Signature Version 4. */
static void door(void)
{
    plain();
    memset(&service, 0, sizeof service);
    memset(&admission, '-', sizeof admission);
    keys[0].id = text("AKIDOTHER");
    keys[0].secret = text("");
    keys[1].id = text("AKIDEXAMPLE");
    keys[1].secret = signer.secret;
    service.region = signer.region;
    service.name = signer.service;
    service.keys = keys;
    service.key_count = 2;
    fields[0].name = text("HOST");
    fields[0].value = text("example.amazonaws.com");
    fields[1].name = text("X-Amz-Date");
    fields[1].value = text("20150830T123600Z");
    fields[2].name = text("Authorization");
    fields[2].value = text("AWS4-HMAC-SHA256 Credential=AKIDEXAMPLE/20150830/us-east-1/service/aws4_request, SignedHeaders=host;x-amz-date, "
        "Signature=5fa00fa31553b73ebf1942676e86291e8372ff2a2260956d9b8aae1d763fbf31");
    request.target = text("/");
    request.headers = fields;
    request.header_count = 3;
}

static firuvaik_answer ask(long seconds, char *room, size_t length)
{
    return firuvaik_admit(&service, &request, seconds, &admission, signature, room, length);
}

/* A refusal at the door with this status and place, after which nothing is written. */
static void shuts(unsigned int status, size_t place, long seconds, const char *what)
{
    char room[100];
    firuvaik_answer answer;
    memset(room, '-', sizeof room);
    answer = ask(seconds, room, sizeof room);
    want(answer.status == status && answer.place == place && answer.length == 0, what);
    want(is_untouched(room, sizeof room) && is_untouched(signature, 64) && is_untouched((char *)&admission, sizeof admission), what);
    door();
}

static void every_door(void)
{
    size_t length;
    unsigned int i;
    door();
    for (length = 0; length <= 20; length++) {
        char *room = room_of(length);
        firuvaik_answer answer = ask(1440938160, room, length);
        want(answer.length == 15 && answer.place == 0, "the names have another length");
        if (length < 15)
            want(answer.status == FIRUVAIK_ROOM && is_untouched(room, length) && is_untouched(signature, 64)
                && is_untouched((char *)&admission, sizeof admission), "a small room is written");
        else
            want(answer.status == FIRUVAIK_DONE && memcmp(room, "host;x-amz-date", 15) == 0 && is_untouched(room + 15, length - 15)
                && memcmp(signature, "5fa00fa3", 8) == 0 && admission.key == 1 && admission.at == 1440938160 && admission.until == 1440938161
                && admission.place == 0 && admission.payload == FIRUVAIK_SIGNED_BODY, "the request isn't let in");
        free(room);
    }
    door();
    shuts(FIRUVAIK_TOO_EARLY, 0, LONG_MIN, "the least moment isn't too early");
    shuts(FIRUVAIK_TOO_LATE, 0, LONG_MAX, "the greatest moment isn't too late");
    shuts(FIRUVAIK_TOO_LATE, 0, 1440938161, "a second more isn't too late");
    service.skew = UINT_MAX;
    want(ask(1440938160 + (long)UINT_MAX, NULL, 0).status == FIRUVAIK_ROOM, "the greatest skew is refused");
    for (i = 0; i < 32; i++) {
        door();
        service.flags = 1u << i;
        if (i == 0 || i > 4)
            shuts(FIRUVAIK_UNKNOWN_FLAGS, 0, 1440938160, "a service has no such flag");
        else
            want(ask(1440938160, NULL, 0).status == FIRUVAIK_ROOM, "a service has this flag");
    }
    door();
    service.region = text("\xc3");
    shuts(FIRUVAIK_NOT_TEXT, 0, 0, "the region isn't UTF-8");
    service.name = text("\xc3");
    shuts(FIRUVAIK_NOT_TEXT, 0, 0, "the service's name isn't UTF-8");
    keys[0].id = text("\xc3");
    shuts(FIRUVAIK_NOT_TEXT, 0, 0, "a key's id isn't UTF-8");
    keys[1].secret = text("\xc3");
    shuts(FIRUVAIK_NOT_TEXT, 0, 0, "a key's secret isn't UTF-8");
    fields[1].value = text("\xc3");
    shuts(FIRUVAIK_NOT_TEXT, 0, 0, "a header isn't UTF-8");
    request.method = text("\xc3");
    shuts(FIRUVAIK_NOT_TEXT, 0, 0, "the method isn't UTF-8");
    request.target = text("/\xc3");
    shuts(FIRUVAIK_NOT_TEXT, 0, 0, "the target isn't UTF-8");
    keys[1].secret = text("another");
    shuts(FIRUVAIK_MISMATCH, 0, 1440938160, "another secret is let in");
    request.body = text("body");
    shuts(FIRUVAIK_MISMATCH, 0, 1440938160, "another body is let in");
    fields[2].value.length -= 1;
    shuts(FIRUVAIK_MALFORMED, 0, 1440938160, "a signature of 63 digits is let in");
    service.keys = NULL;
    service.key_count = 0;
    shuts(FIRUVAIK_UNKNOWN_KEY, 0, 1440938160, "no key lets in");
    request.header_count = 2;
    shuts(FIRUVAIK_NO_FORM, 0, 1440938160, "no signature is let in");
    fields[1].name = text("date");
    shuts(FIRUVAIK_MISSING_PART, FIRUVAIK_DATE_PART, 1440938160, "no date is let in");
    request.headers = NULL;
    request.header_count = 0;
    shuts(FIRUVAIK_UNFIT_HEADER, 0, 1440938160, "no host is let in");
    memset(&service, 0, sizeof service);
    memset(&request, 0, sizeof request);
    shuts(FIRUVAIK_BAD_TARGET, 0, 0, "a service and a request of nothing");
}

static firuvaik_sources sources;
static firuvaik_selection selection;
static firuvaik_field variables[2];

static void profiles(void)
{
    memset(&sources, 0, sizeof sources);
    memset(&selection, '-', sizeof selection);
    sources.config = text("[profile p]\nregion = r1\n");
    sources.credentials = text("[p]\naws_access_key_id = id\naws_secret_access_key = secret\n");
    variables[0].name = text("AWS_REGION");
    variables[0].value = text("r22");
    variables[1].name = text("AWS_PROFILE");
    variables[1].value = text("p");
    sources.variables = variables;
    sources.variable_count = 2;
}

/* A refusal of settings with this status and place, after which nothing is written. */
static void lacks(unsigned int status, size_t place, const char *what)
{
    char room[100];
    firuvaik_answer answer;
    memset(room, '-', sizeof room);
    answer = firuvaik_select(&sources, &selection, room, sizeof room);
    want(answer.status == status && answer.place == place && answer.length == 0, what);
    want(is_untouched(room, sizeof room) && is_untouched((char *)&selection, sizeof selection), what);
    profiles();
}

static int spans(const char *room, firuvaik_span span, size_t length, const char *wanted)
{
    return span.start + span.length <= length && span.length == strlen(wanted) && memcmp(room + span.start, wanted, span.length) == 0;
}

static void every_profile(void)
{
    size_t length;
    profiles();
    for (length = 0; length <= 14; length++) {
        char *room = room_of(length);
        firuvaik_answer answer = firuvaik_select(&sources, &selection, room, length);
        want(answer.length == 12 && answer.place == 0, "the settings have another length");
        if (length < 12)
            want(answer.status == FIRUVAIK_ROOM && is_untouched(room, length) && is_untouched((char *)&selection, sizeof selection), "a small room is written");
        else
            want(answer.status == FIRUVAIK_DONE && spans(room, selection.key_id, 12, "id") && spans(room, selection.secret, 12, "secret")
                && spans(room, selection.token, 12, "") && spans(room, selection.region, 12, "r22") && spans(room, selection.profile, 12, "p")
                && is_untouched(room + 12, length - 12), "the settings are others");
        free(room);
    }
    profiles();
    sources.config = text("[a]\n\xc3");
    lacks(FIRUVAIK_NOT_TEXT, 0, "the config text isn't UTF-8");
    sources.credentials = text("\xff");
    lacks(FIRUVAIK_NOT_TEXT, 0, "the credentials text isn't UTF-8");
    variables[0].name = text("\xff");
    lacks(FIRUVAIK_NOT_TEXT, 0, "a variable's name isn't UTF-8");
    variables[1].value = text("\xff");
    lacks(FIRUVAIK_NOT_TEXT, 0, "a variable's value isn't UTF-8");
    sources.config = text("[a]\n\n[b");
    sources.credentials = text("[");
    lacks(FIRUVAIK_BAD_CONFIG, 3, "a heading of the config text isn't closed");
    sources.credentials = text("[\n");
    lacks(FIRUVAIK_BAD_CREDENTIALS, 1, "a heading of the credentials text isn't closed");
    variables[1].value = text("q");
    lacks(FIRUVAIK_NO_KEY, 0, "there is another profile");
    variables[0].name = text("AWS_ACCESS_KEY_ID");
    lacks(FIRUVAIK_NO_SECRET, 0, "the variables have half a key");
    sources.credentials.length -= 9;
    lacks(FIRUVAIK_BAD_CREDENTIALS, 3, "a property without a value");
    sources.config.length = 0;
    sources.variables = variables + 1;
    sources.variable_count = 1;
    lacks(FIRUVAIK_NO_REGION, 0, "there is a region");
    memset(&sources, 0, sizeof sources);
    lacks(FIRUVAIK_NO_KEY, 0, "nothing has a key");
}

static firuvaik_invocation invocation;
static firuvaik_outcome outcome;
static firuvaik_text words[3];

static void program(void)
{
    memset(&invocation, 0, sizeof invocation);
    memset(&outcome, '-', sizeof outcome);
    words[0] = text("chunk");
    words[1] = text("--size");
    words[2] = text("3");
    invocation.words = words;
    invocation.word_count = 3;
    invocation.input = text("a\xff\0bcd");
    invocation.input.length = 6;
}

/* A run that ends so, in each room from none to one byte more than is wanted. */
static void runs(unsigned int code, size_t output_length, const char *output, const char *what)
{
    size_t wanted = firuvaik_run(&invocation, &outcome, NULL, 0).length;
    size_t length;
    want(wanted == strlen(output), what);
    memset(&outcome, '-', sizeof outcome);
    for (length = 0; length <= wanted + 1; length++) {
        char *room = room_of(length);
        firuvaik_answer answer = firuvaik_run(&invocation, &outcome, room, length);
        want(answer.length == wanted && answer.place == 0, what);
        if (length < wanted)
            want(answer.status == FIRUVAIK_ROOM && is_untouched(room, length) && is_untouched((char *)&outcome, sizeof outcome), what);
        else
            want(answer.status == FIRUVAIK_DONE && memcmp(room, output, wanted) == 0 && is_untouched(room + wanted, length - wanted)
                && outcome.code == code && outcome.output_length == output_length, what);
        free(room);
    }
    program();
}

/* A run that isn't made, after which nothing is written. */
static void stays(const char *what)
{
    char room[100];
    firuvaik_answer answer;
    memset(room, '-', sizeof room);
    answer = firuvaik_run(&invocation, &outcome, room, sizeof room);
    want(answer.status == FIRUVAIK_NOT_TEXT && answer.place == 0 && answer.length == 0, what);
    want(is_untouched(room, sizeof room) && is_untouched((char *)&outcome, sizeof outcome), what);
    program();
}

static void every_program(void)
{
    firuvaik_field field;
    program();
    invocation.input = text("abcdef");
    runs(0, 21, "3\r\nabc\r\n3\r\ndef\r\n0\r\n\r\n", "two chunks");
    invocation.input.bytes = NULL;
    invocation.input.length = 0;
    runs(0, 5, "0\r\n\r\n", "no chunk");
    invocation.word_count = 2;
    runs(2, 0, "bad word 3\n", "a word is missing");
    memset(&invocation, 0, sizeof invocation);
    runs(2, 0, "bad word 1\n", "nothing is asked");
    words[0] = text("settings");
    invocation.word_count = 1;
    runs(4, 0, "bad line 1\n", "the input isn't UTF-8");
    words[0] = text("settings");
    invocation.word_count = 1;
    invocation.input.length = 0;
    invocation.seconds = LONG_MIN;
    runs(7, 0, "refused 2 MissingCredentials\n", "there are no files");
    words[1] = text("\xff");
    stays("a word isn't UTF-8");
    memset(&field, 0, sizeof field);
    field.name = text("\xff");
    invocation.variables = &field;
    invocation.variable_count = 1;
    stays("a variable's name isn't UTF-8");
    invocation.files = &field;
    invocation.file_count = 1;
    stays("a path isn't UTF-8");
    field.name = text("a");
    field.value = text("\xff");
    invocation.variables = &field;
    invocation.variable_count = 1;
    stays("a variable's value isn't UTF-8");
    words[0] = text("settings");
    words[1] = text("--config");
    words[2] = text("a");
    invocation.files = &field;
    invocation.file_count = 1;
    invocation.input.length = 0;
    runs(7, 0, "refused 2 MissingCredentials\n", "a file that isn't UTF-8 isn't empty");
}

int main(void)
{
    plain();
    every_room();
    plain();
    settings.flags = FIRUVAIK_QUERY | FIRUVAIK_S3;
    settings.expires_in = 900;
    every_room();
    refusals();
    messages();
    frames();
    kinds();
    checked();
    chunks();
    every_door();
    every_profile();
    every_program();
    return failed;
}
