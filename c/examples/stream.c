/* Signs the request that opens an event stream, and writes the signed frames of one event and of the end to standard output. */
#include <firuvaik.h>
#include <stdio.h>
#include <string.h>

static firuvaik_text text(const char *bytes)
{
    firuvaik_text made;
    made.bytes = bytes;
    made.length = strlen(bytes);
    return made;
}

int main(void)
{
    const long now = 1440938160;
    firuvaik_signer signer;
    firuvaik_field header;
    firuvaik_request request;
    firuvaik_settings settings;
    firuvaik_answer answer;
    char signature[64];
    char event[4096];
    char out[8192];
    size_t lengths[2];
    int i;

    header.name = text(":message-type");
    header.value = text("event");
    answer = firuvaik_event(&header, 1, "hello world", 11, event, sizeof event);
    if (answer.status != FIRUVAIK_DONE)
        return 1;
    lengths[0] = answer.length;
    lengths[1] = 0;
    signer.key_id = text("AKIDEXAMPLE");
    signer.secret = text("wJalrXUtnFEMI/K7MDENG+bPxRfiCYEXAMPLEKEY");
    signer.token = text("");
    signer.region = text("us-east-1");
    signer.service = text("transcribe");
    request.method = text("POST");
    request.target = text("https://transcribe.us-east-1.amazonaws.com/stream");
    request.headers = NULL;
    request.header_count = 0;
    request.body = text("");
    memset(&settings, 0, sizeof settings);
    answer = firuvaik_sign(&signer, &request, &settings, now, signature, out, sizeof out);
    for (i = 0; i < 2 && answer.status == FIRUVAIK_DONE; i++) {
        answer = firuvaik_next_frame(&signer, now, event, lengths[i], signature, out, sizeof out);
        if (answer.status == FIRUVAIK_DONE)
            fwrite(out, 1, answer.length, stdout);
    }
    if (answer.status != FIRUVAIK_DONE)
        fprintf(stderr, "status %u\n", answer.status);
    return answer.status != FIRUVAIK_DONE;
}
