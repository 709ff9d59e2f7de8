/* How long small requests and frames take through the library, in microseconds each. The number of calls is the argument. */
#include <firuvaik.h>
#include <stdio.h>
#include <stdlib.h>
#include <string.h>
#include <time.h>

static firuvaik_text text(const char *bytes)
{
    firuvaik_text made;
    made.bytes = bytes;
    made.length = strlen(bytes);
    return made;
}

static void tell(const char *what, clock_t from, long calls)
{
    printf("%s %.2f\n", what, (double)(clock() - from) * 1e6 / CLOCKS_PER_SEC / (double)calls);
}

int main(int count, char **words)
{
    long calls = count > 1 ? strtol(words[1], NULL, 10) : 20000;
    firuvaik_signer signer;
    firuvaik_field fields[3];
    firuvaik_request request;
    firuvaik_settings settings;
    unsigned char key[32];
    char signature[64];
    char out[4096];
    clock_t from;
    long i;

    memset(&settings, 0, sizeof settings);
    signer.key_id = text("AKIDEXAMPLE");
    signer.secret = text("wJalrXUtnFEMI/K7MDENG+bPxRfiCYEXAMPLEKEY");
    signer.token = text("");
    signer.region = text("us-east-1");
    signer.service = text("iam");
    fields[0].name = text("content-type");
    fields[0].value = text("application/x-www-form-urlencoded; charset=utf-8");
    fields[1].name = text("accept");
    fields[1].value = text("*/*");
    fields[2].name = text("user-agent");
    fields[2].value = text("test");
    request.method = text("GET");
    request.target = text("https://iam.amazonaws.com/?Action=ListUsers&Version=2010-05-08");
    request.headers = fields;
    request.header_count = 3;
    request.body = text("");
    from = clock();
    for (i = 0; i < calls; i++)
        if (firuvaik_sign(&signer, &request, &settings, 1440938160 + i, signature, out, sizeof out).status != FIRUVAIK_DONE)
            return 1;
    tell("request", from, calls);
    from = clock();
    for (i = 0; i < calls; i++)
        if (firuvaik_next_frame(&signer, 1440938160 + i, out, 100, signature, out + 200, 3000).status != FIRUVAIK_DONE)
            return 1;
    tell("frame of 100 bytes", from, calls);
    from = clock();
    for (i = 0; i < calls; i++)
        if (firuvaik_signing_key(&signer, 1440938160 + i, key).status != FIRUVAIK_DONE)
            return 1;
    tell("signing key", from, calls);
    from = clock();
    for (i = 0; i < calls; i++) {
        settings.flags = 128;
        if (firuvaik_sign(&signer, &request, &settings, 0, signature, out, sizeof out).status != FIRUVAIK_UNKNOWN_FLAGS)
            return 1;
    }
    tell("the border alone", from, calls);
    return 0;
}
