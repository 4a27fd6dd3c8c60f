/* Judges networks by the library, as the program does.
 *
 *     judge decide NETWORK
 *     judge check NETWORK CERTIFICATE
 *     judge report NETWORK
 *
 * and with `--json` behind these words it answers with an object.
 *
 * It writes the answer's text, and ends with its status: as the command of that name, but for 6 where a file can't be read or there is no
 * memory here for it, and 2 for other words.
 */
#include "swcheck.h"

#include <stdio.h>
#include <stdlib.h>
#include <string.h>

struct bytes {
    uint8_t *at;
    size_t size;
};

/* The bytes of a file; `at` is null where it can't be read. */
static struct bytes bytes_of(const char *path)
{
    struct bytes text = {malloc(1), 0};
    size_t room = 1;
    FILE *file = fopen(path, "rb");
    if (file == NULL) {
        free(text.at);
        text.at = NULL;
        return text;
    }
    while (text.at != NULL) {
        size_t count = fread(text.at + text.size, 1, room - text.size, file);
        text.size += count;
        if (count == 0)
            break;
        if (text.size == room) {
            uint8_t *more = realloc(text.at, 2 * room);
            if (more == NULL)
                free(text.at);
            text.at = more;
            room = 2 * room;
        }
    }
    if (ferror(file)) {
        free(text.at);
        text.at = NULL;
    }
    fclose(file);
    return text;
}

/* The call that the word names, which answers with an object or with lines. */
static uint8_t call(const char *word, int json, struct bytes network, struct bytes certificate, struct bytes answer, size_t *length)
{
    if (strcmp(word, "check") == 0)
        return (json ? swcheck_check_json : swcheck_check)(network.at, network.size, certificate.at, certificate.size, answer.at,
                                                           answer.size, length);
    if (strcmp(word, "report") == 0)
        return (json ? swcheck_report_json : swcheck_report)(network.at, network.size, answer.at, answer.size, length);
    return (json ? swcheck_decide_json : swcheck_decide)(network.at, network.size, answer.at, answer.size, length);
}

int main(int count, char **words)
{
    struct bytes network = {NULL, 0}, certificate = {NULL, 0}, answer = {NULL, 256};
    size_t length = 0;
    uint8_t status;
    int json = count > 1 && strcmp(words[count - 1], "--json") == 0;
    count -= json;
    int two = count == 4 && strcmp(words[1], "check") == 0;
    int one = count == 3 && (strcmp(words[1], "decide") == 0 || strcmp(words[1], "report") == 0);
    if (!one && !two) {
        fprintf(stderr, "judge decide NETWORK | check NETWORK CERTIFICATE | report NETWORK [--json]\n");
        return 2;
    }
    network = bytes_of(words[2]);
    if (two)
        certificate = bytes_of(words[3]);
    if (network.at == NULL || (two && certificate.at == NULL)) {
        fprintf(stderr, "a file can't be read\n");
        return 6;
    }
    /* With little room first: a longer answer is asked for again. */
    answer.at = malloc(answer.size);
    if (answer.at == NULL)
        return 6;
    status = call(words[1], json, network, certificate, answer, &length);
    if (length > answer.size) {
        free(answer.at);
        answer.size = length;
        answer.at = malloc(answer.size);
        if (answer.at == NULL)
            return 6;
        status = call(words[1], json, network, certificate, answer, &length);
    }
    if (fwrite(answer.at, 1, length, stdout) != length || fflush(stdout) != 0)
        return 6;
    free(answer.at);
    free(certificate.at);
    free(network.at);
    return status;
}
