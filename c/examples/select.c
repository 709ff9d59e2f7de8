/* Signs a request with what variables and two profile files select, a config and a credentials file, whose paths are its words, and
   prints the profile's name and the headers to add. */
#include <firuvaik.h>
#include <stdio.h>
#include <stdlib.h>
#include <string.h>

static firuvaik_text text(const char *bytes)
{
    firuvaik_text made;
    made.bytes = bytes;
    made.length = strlen(bytes);
    return made;
}

/* The text of a file of up to so many bytes; of none where it can't be read. */
static firuvaik_text file(const char *path, char *room, size_t length)
{
    firuvaik_text made;
    FILE *opened = fopen(path, "rb");
    made.bytes = room;
    made.length = 0;
    if (opened != NULL) {
        made.length = fread(room, 1, length, opened);
        fclose(opened);
    }
    return made;
}

/* Why a call did nothing. */
static int refused(firuvaik_answer answer)
{
    char meaning[100];
    firuvaik_answer told = firuvaik_status_text(answer.status, meaning, sizeof meaning);
    printf("%.*s", (int)told.length, meaning);
    if (answer.place != 0)
        printf(": %lu", (unsigned long)answer.place);
    putchar('\n');
    return 1;
}

/* The text of a span. */
static firuvaik_text spanned(const char *bytes, firuvaik_span span)
{
    firuvaik_text made;
    made.bytes = bytes + span.start;
    made.length = span.length;
    return made;
}

int main(int count, char **words)
{
    static const char *const names[6] = {
        "AWS_ACCESS_KEY_ID", "AWS_SECRET_ACCESS_KEY", "AWS_SESSION_TOKEN", "AWS_PROFILE", "AWS_REGION", "AWS_DEFAULT_REGION"};
    static char config[65536];
    static char credentials[65536];
    firuvaik_field variables[6];
    firuvaik_sources sources;
    firuvaik_selection selection;
    firuvaik_signer signer;
    firuvaik_request request;
    firuvaik_settings settings;
    firuvaik_answer answer;
    char signature[64];
    char selected[4096];
    char out[4096];
    int i;

    if (count != 3)
        return 2;
    memset(&sources, 0, sizeof sources);
    sources.config = file(words[1], config, sizeof config);
    sources.credentials = file(words[2], credentials, sizeof credentials);
    sources.variables = variables;
    for (i = 0; i < 6; i++) {
        const char *value = getenv(names[i]);
        if (value != NULL) {
            variables[sources.variable_count].name = text(names[i]);
            variables[sources.variable_count].value = text(value);
            sources.variable_count++;
        }
    }
    answer = firuvaik_select(&sources, &selection, selected, sizeof selected);
    if (answer.status != FIRUVAIK_DONE)
        return refused(answer);
    signer.key_id = spanned(selected, selection.key_id);
    signer.secret = spanned(selected, selection.secret);
    signer.token = spanned(selected, selection.token);
    signer.region = spanned(selected, selection.region);
    signer.service = text("service");
    printf("profile: %.*s\n", (int)selection.profile.length, selected + selection.profile.start);
    memset(&request, 0, sizeof request);
    request.method = text("GET");
    request.target = text("https://example.amazonaws.com/");
    memset(&settings, 0, sizeof settings);
    answer = firuvaik_sign(&signer, &request, &settings, 1440938160, signature, out, sizeof out);
    if (answer.status != FIRUVAIK_DONE)
        return refused(answer);
    fwrite(out, 1, answer.length, stdout);
    return 0;
}
