/* Runs the program firuvaik over a job and a profile file in memory, prints what it writes and says, and ends with its exit number. */
#include <firuvaik.h>
#include <stdio.h>
#include <string.h>

static firuvaik_text text(const char *bytes)
{
    firuvaik_text made;
    made.bytes = bytes;
    made.length = strlen(bytes);
    return made;
}

static const char job[] =
    "method GET\n"
    "target https://example.amazonaws.com/\n"
    "event\n"
    "h :message-type text event\n"
    "payload 68656c6c6f\n";

static const char profile[] =
    "[default]\n"
    "aws_access_key_id = AKIDEXAMPLE\n"
    "aws_secret_access_key = wJalrXUtnFEMI/K7MDENG+bPxRfiCYEXAMPLEKEY\n";

int main(void)
{
    firuvaik_text words[3];
    firuvaik_field variables[2];
    firuvaik_field file;
    firuvaik_invocation invocation;
    firuvaik_outcome outcome;
    firuvaik_answer answer;
    char out[4096];

    words[0] = text("stream");
    words[1] = text("--name");
    words[2] = text("service");
    variables[0].name = text("HOME");
    variables[0].value = text("/home/a");
    variables[1].name = text("AWS_REGION");
    variables[1].value = text("us-east-1");
    file.name = text("/home/a/.aws/credentials");
    file.value = text(profile);
    invocation.words = words;
    invocation.word_count = 3;
    invocation.variables = variables;
    invocation.variable_count = 2;
    invocation.files = &file;
    invocation.file_count = 1;
    invocation.input = text(job);
    invocation.seconds = 1440938160;
    answer = firuvaik_run(&invocation, &outcome, out, sizeof out);
    if (answer.status != FIRUVAIK_DONE)
        return 11;
    fwrite(out, 1, outcome.output_length, stdout);
    fwrite(out + outcome.output_length, 1, answer.length - outcome.output_length, stderr);
    return (int)outcome.code;
}
