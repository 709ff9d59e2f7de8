/* Presigns a target, asks a service who signed it, prints that, and then asks for the same with another path, which is refused. */
#include <firuvaik.h>
#include <stdio.h>
#include <string.h>

static const char secret[] = "wJalrXUtnFEMI/K7MDENG+bPxRfiCYEXAMPLEKEY";

static firuvaik_text text(const char *bytes)
{
    firuvaik_text made;
    made.bytes = bytes;
    made.length = strlen(bytes);
    return made;
}

/* Why a call did nothing. */
static int refused(firuvaik_answer answer)
{
    char meaning[100];
    firuvaik_answer told = firuvaik_status_text(answer.status, meaning, sizeof meaning);
    printf("refused: %.*s\n", (int)told.length, meaning);
    return 1;
}

/* Who signed a request that came to a service at a second. */
static int ask(const firuvaik_request *request, long seconds)
{
    firuvaik_key keys[2];
    firuvaik_service service;
    firuvaik_admission admission;
    firuvaik_answer answer;
    char signature[64];
    char names[1024];

    keys[0].id = text("AKIDOTHER");
    keys[0].secret = text("secret");
    keys[1].id = text("AKIDEXAMPLE");
    keys[1].secret = text(secret);
    service.region = text("us-east-1");
    service.name = text("service");
    service.flags = 0;
    service.skew = 900;
    service.expiry = 604800;
    service.keys = keys;
    service.key_count = 2;
    answer = firuvaik_admit(&service, request, seconds, &admission, signature, names, sizeof names);
    if (answer.status != FIRUVAIK_DONE)
        return refused(answer);
    printf("let in: key %lu, until %ld, signed: %.*s\n", (unsigned long)admission.key, admission.until, (int)answer.length, names);
    return 0;
}

int main(void)
{
    const long now = 1440938160;
    firuvaik_signer signer;
    firuvaik_request request;
    firuvaik_settings settings;
    firuvaik_field host;
    firuvaik_answer answer;
    char signature[64];
    char target[4096];

    signer.key_id = text("AKIDEXAMPLE");
    signer.secret = text(secret);
    signer.token = text("");
    signer.region = text("us-east-1");
    signer.service = text("service");
    host.name = text("Host");
    host.value = text("example.amazonaws.com");
    memset(&request, 0, sizeof request);
    request.method = text("GET");
    request.target = text("/a?b=c");
    request.headers = &host;
    request.header_count = 1;
    memset(&settings, 0, sizeof settings);
    settings.flags = FIRUVAIK_QUERY;
    settings.expires_in = 900;
    answer = firuvaik_sign(&signer, &request, &settings, now, signature, target, sizeof target);
    if (answer.status != FIRUVAIK_DONE)
        return refused(answer);
    request.target.bytes = target;
    request.target.length = answer.length;
    if (ask(&request, now + 60) != 0)
        return 1;
    target[1] = 'z';
    return ask(&request, now + 60) != 1;
}
