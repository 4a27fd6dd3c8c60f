/* Refuses each allocation of each call of the library in turn. After it the call has to answer want of memory, with status 5, or as with ample memory.
 *
 *     c_refusals NETWORK CERTIFICATE
 *
 * It is linked with --wrap=malloc and --wrap=realloc, so that all memory of the library is taken by the two functions below. It tells how many allocations
 * were refused, and how many of these the call made good. It ends with 1 where a call answered otherwise.
 */
#include "swcheck.h"

#include <stdio.h>
#include <stdlib.h>
#include <string.h>

enum { ROOM = 1 << 20, CALLS = 6 };

static uint8_t network[ROOM], certificate[ROOM], answer[ROOM], ample[ROOM];
static size_t network_size, certificate_size;
/* How many allocations go well before one is refused; below 0 it was. */
static long left = -1;
static int is_refusing;

void *__real_malloc(size_t size);
void *__real_realloc(void *at, size_t size);

static int is_refused(void)
{
    return is_refusing && left-- == 0;
}

void *__wrap_malloc(size_t size)
{
    return is_refused() ? NULL : __real_malloc(size);
}

void *__wrap_realloc(void *at, size_t size)
{
    return is_refused() ? NULL : __real_realloc(at, size);
}

static uint8_t call(int number, uint8_t *to, size_t *length)
{
    switch (number) {
    case 0: return swcheck_decide(network, network_size, to, ROOM, length);
    case 1: return swcheck_check(network, network_size, certificate, certificate_size, to, ROOM, length);
    case 2: return swcheck_report(network, network_size, to, ROOM, length);
    case 3: return swcheck_decide_json(network, network_size, to, ROOM, length);
    case 4: return swcheck_check_json(network, network_size, certificate, certificate_size, to, ROOM, length);
    default: return swcheck_report_json(network, network_size, to, ROOM, length);
    }
}

static int is_text(const char *text, size_t length)
{
    return length == strlen(text) && memcmp(answer, text, length) == 0;
}

/* Want of memory, for the whole answer or, in an audit, for the file. */
static int is_want(int number, uint8_t status, size_t length)
{
    if (status != SWCHECK_NO_ROOM)
        return 0;
    if (number < 3)
        return is_text("fault memory\n", length);
    answer[length < ROOM ? length : ROOM - 1] = 0;
    return strstr((char *)answer, "{\"kind\":\"memory\"}") != NULL;
}

static size_t read_file(const char *path, uint8_t *to)
{
    FILE *file = fopen(path, "rb");
    size_t size = file == NULL ? ROOM : fread(to, 1, ROOM, file);
    if (size == ROOM) {
        fprintf(stderr, "%s can't be read\n", path);
        exit(2);
    }
    fclose(file);
    return size;
}

int main(int count, char **words)
{
    long refused = 0, made_good = 0, wrong = 0;
    if (count != 3)
        return 2;
    network_size = read_file(words[1], network);
    certificate_size = read_file(words[2], certificate);
    for (int number = 0; number < CALLS; number++) {
        size_t length = 0, whole = 0;
        uint8_t status = call(number, ample, &whole);
        for (long before = 0;; before++) {
            left = before;
            is_refusing = 1;
            uint8_t other = call(number, answer, &length);
            is_refusing = 0;
            if (left >= 0)
                break;
            refused++;
            if (other == status && length == whole && memcmp(answer, ample, whole) == 0)
                made_good++;
            else if (!is_want(number, other, length))
                wrong++;
        }
    }
    printf("%ld allocations refused, %ld made good, %ld answered otherwise\n", refused, made_good, wrong);
    return wrong != 0 || refused == 0;
}
