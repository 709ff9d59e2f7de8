/* Reads the signed frames of an event stream from standard input, as stream.c writes them, checks each over the one before it, and
   prints the headers that are texts and the payload of each event. The stream is whole where the frame that ends it came. */
#include <firuvaik.h>
#include <stdio.h>
#include <string.h>

static char input[1 << 16];

static firuvaik_text text(const char *bytes)
{
    firuvaik_text made;
    made.bytes = bytes;
    made.length = strlen(bytes);
    return made;
}

/* Why a call did nothing. */
static int refused(firuvaik_answer answer)
{
    char meaning[100];
    firuvaik_answer told = firuvaik_status_text(answer.status, meaning, sizeof meaning);
    fprintf(stderr, "%.*s\n", (int)told.length, meaning);
    return 1;
}

/* The signature of the request that opened the stream: the request that stream.c signs. */
static firuvaik_answer opened(const firuvaik_signer *signer, char *signature)
{
    firuvaik_request request;
    firuvaik_settings settings;
    char out[1024];
    memset(&request, 0, sizeof request);
    memset(&settings, 0, sizeof settings);
    request.method = text("POST");
    request.target = text("https://transcribe.us-east-1.amazonaws.com/stream");
    return firuvaik_sign(signer, &request, &settings, 1440938160, signature, out, sizeof out);
}

static firuvaik_answer show(const char *event, size_t length)
{
    firuvaik_frame_parts parts;
    firuvaik_header_place headers[16];
    size_t i;
    firuvaik_answer answer = firuvaik_read_frame(event, length, &parts, headers, 16);
    if (answer.status != FIRUVAIK_DONE)
        return answer;
    for (i = 0; i < answer.length; i++)
        if (headers[i].kind == FIRUVAIK_STRING)
            printf("%.*s: %.*s\n", (int)headers[i].name_length, event + headers[i].name, (int)headers[i].value_length, event + headers[i].value);
    printf("%.*s\n", (int)parts.payload_length, event + parts.payload);
    return answer;
}

int main(void)
{
    size_t length = fread(input, 1, sizeof input, stdin);
    size_t at = 0;
    firuvaik_signer signer;
    firuvaik_frame_parts parts;
    firuvaik_answer answer;
    char signature[64];

    memset(&signer, 0, sizeof signer);
    signer.key_id = text("AKIDEXAMPLE");
    signer.secret = text("wJalrXUtnFEMI/K7MDENG+bPxRfiCYEXAMPLEKEY");
    signer.region = text("us-east-1");
    signer.service = text("transcribe");
    answer = opened(&signer, signature);
    while (answer.status == FIRUVAIK_DONE) {
        answer = firuvaik_frame_length(input + at, length - at);
        if (answer.status != FIRUVAIK_DONE || answer.length > length - at)
            break;
        answer = firuvaik_check_frame(&signer, input + at, answer.length, signature, &parts);
        if (answer.status != FIRUVAIK_DONE)
            break;
        if (parts.payload_length == 0)
            return 0;
        answer = show(input + at + parts.payload, parts.payload_length);
        at += parts.length;
    }
    if (answer.status != FIRUVAIK_DONE)
        return refused(answer);
    fputs("the stream breaks off\n", stderr);
    return 1;
}
