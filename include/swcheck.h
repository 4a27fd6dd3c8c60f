/* swcheck for programs in C: the verdict on a SpaceWire network, and the check of a certificate, over bytes.
 *
 * Link a program with libsw_c.a, which tools/c_library makes in crates/sw_c/out, and with liblibc_c.a of the kit, by which it takes memory
 * from the program's malloc, realloc and free. Those three have to be of one allocator, and blocks of malloc and realloc aligned as C has it.
 *
 * Each call works in its caller's own thread, starts none, waits for none, and keeps nothing between calls: calls may go on side by side in
 * several threads, as long as no two have the same `answer` or `length`. None may be made from a signal handler, nor in the child of a fork of a
 * program with threads.
 *
 * `network` has the `network_size` bytes of a network file, `certificate` those of a certificate. They are read and never kept. `answer` has room
 * for `room` bytes, which the call fills with the beginning of its answer's text; all that is behind the text stays as it was. `*length` is the
 * whole length of the text: where it is more than `room`, make the call again with more room. No pointer may be null, not even with 0 bytes, and
 * `answer` and `*length` may overlap with nothing else. The text has no byte 0 at its end.
 *
 * A call returns the status of the command, and its answer's text is what the command writes on standard output. The calls whose names end in
 * `_json` answer with an object, as the command does with `--json` of files whose paths are `network` and `certificate` (docs/OBJECTS.md, schema/).
 */
#ifndef SWCHECK_H
#define SWCHECK_H

#include <stddef.h>
#include <stdint.h>

enum {
    SWCHECK_GOOD = 0,   /* the network never locks up; the certificate is accepted; the report was made */
    SWCHECK_BAD = 1,    /* a cycle of dependencies, or a flow that is not well routed; the certificate is refused */
    SWCHECK_FAULTY = 3, /* a file has a fault */
    SWCHECK_NO_ROOM = 5 /* there was no memory, which tells nothing of the files */
};

#ifdef __cplusplus
extern "C" {
#endif

/* The verdict on a network. With status 0 the text is a certificate. */
uint8_t swcheck_decide(const uint8_t *network, size_t network_size, uint8_t *answer, size_t room, size_t *length);

/* Whether a certificate is accepted for a network: status 0 where it is, and then the network never locks up, over every run. */
uint8_t swcheck_check(const uint8_t *network, size_t network_size, const uint8_t *certificate, size_t certificate_size,
                      uint8_t *answer, size_t room, size_t *length);

/* How many parts a network has, and the verdict on it in one line: status 0 whatever the verdict. */
uint8_t swcheck_report(const uint8_t *network, size_t network_size, uint8_t *answer, size_t room, size_t *length);

/* The same three, answered with an object. That of `swcheck_decide_json` has what there is to note of the network too. */
uint8_t swcheck_decide_json(const uint8_t *network, size_t network_size, uint8_t *answer, size_t room, size_t *length);
uint8_t swcheck_check_json(const uint8_t *network, size_t network_size, const uint8_t *certificate, size_t certificate_size,
                           uint8_t *answer, size_t room, size_t *length);
uint8_t swcheck_report_json(const uint8_t *network, size_t network_size, uint8_t *answer, size_t room, size_t *length);

#ifdef __cplusplus
}
#endif

#endif
