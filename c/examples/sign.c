/* Signs a request, prints the headers to add, and then presigns the same target for fifteen minutes. */
#include <firuvaik.h>
#include <stdio.h>
#include <string.h>

static firuvaik_text text(const char *bytes)
{
    firuvaik_text made;
    made.bytes = bytes;
    made.length = strlen(bytes);
    return made;
}

static int show(firuvaik_answer answer, const char *out)
{
    if (answer.status != FIRUVAIK_DONE) {
        fprintf(stderr, "status %u at %lu\n", answer.status, (unsigned long)answer.place);
        return 1;
    }
    fwrite(out, 1, answer.length, stdout);
    return 0;
}

int main(void)
{
    firuvaik_signer signer;
    firuvaik_field header;
    firuvaik_request request;
    firuvaik_settings settings;
    char signature[64];
    char out[4096];

    signer.key_id = text("AKIDEXAMPLE");
    signer.secret = text("wJalrXUtnFEMI/K7MDENG+bPxRfiCYEXAMPLEKEY");
    signer.token = text("");
    signer.region = text("us-east-1");
    signer.service = text("service");
    header.name = text("My-Header1");
    header.value = text("value1");
    request.method = text("GET");
    request.target = text("https://example.amazonaws.com/");
    request.headers = &header;
    request.header_count = 1;
    request.body = text("");
    memset(&settings, 0, sizeof settings);
    if (show(firuvaik_sign(&signer, &request, &settings, 1440938160, signature, out, sizeof out), out) != 0)
        return 1;
    settings.flags = FIRUVAIK_QUERY;
    settings.expires_in = 900;
    if (show(firuvaik_sign(&signer, &request, &settings, 1440938160, signature, out, sizeof out), out) != 0)
        return 1;
    putchar('\n');
    return 0;
}
