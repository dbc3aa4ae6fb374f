// Linux's errors under picolibc's numbers. Up to ERANGE (34) the two agree.
//
// Linux has one number for EOPNOTSUPP and ENOTSUP, and one for EDEADLK and EDEADLOCK: the first of each comes. An error
// that picolibc has no name for is 2000 and Linux's number, and strerror says "Linux error 117".
#define __LINUX_ERRNO_EXTENSIONS__ // more names in errno.h
#include <errno.h>
#include <string.h>
#include "linux.h"

#define LAST_AGREED 34
#define LAST_OF_LINUX 133
#define UNNAMED 2000

static const unsigned char errors[LAST_OF_LINUX + 1] = {
    [35] = EDEADLK, ENAMETOOLONG, ENOLCK, ENOSYS, ENOTEMPTY, ELOOP,
    [42] = ENOMSG, EIDRM, ECHRNG, EL2NSYNC, EL3HLT, EL3RST, ELNRNG, EUNATCH, ENOCSI, EL2HLT, EBADE, EBADR,
    EXFULL, ENOANO, EBADRQC, EBADSLT,
    [59] = EBFONT, ENOSTR, ENODATA, ETIME, ENOSR, ENONET, ENOPKG, EREMOTE, ENOLINK, EADV, ESRMNT, ECOMM, EPROTO,
    EMULTIHOP, EDOTDOT, EBADMSG, EOVERFLOW, ENOTUNIQ, EBADFD, EREMCHG, ELIBACC, ELIBBAD, ELIBSCN, ELIBMAX,
    ELIBEXEC, EILSEQ,
    [86] = ESTRPIPE, EUSERS, ENOTSOCK, EDESTADDRREQ, EMSGSIZE, EPROTOTYPE, ENOPROTOOPT, EPROTONOSUPPORT,
    ESOCKTNOSUPPORT, EOPNOTSUPP, EPFNOSUPPORT, EAFNOSUPPORT, EADDRINUSE, EADDRNOTAVAIL, ENETDOWN, ENETUNREACH,
    ENETRESET, ECONNABORTED, ECONNRESET, ENOBUFS, EISCONN, ENOTCONN, ESHUTDOWN, ETOOMANYREFS, ETIMEDOUT,
    ECONNREFUSED, EHOSTDOWN, EHOSTUNREACH, EALREADY, EINPROGRESS, ESTALE,
    [122] = EDQUOT, ENOMEDIUM,
    [125] = ECANCELED,
    [130] = EOWNERDEAD, ENOTRECOVERABLE
};

static int error_of_linux(int number) {
    if (number <= LAST_AGREED) return number;
    return number <= LAST_OF_LINUX && errors[number] ? errors[number] : UNNAMED + number;
}

// Picolibc's strerror asks this of a number that it doesn't know.
char *_user_strerror(int number, int internal, int *error) {
    static const char words[] = "Linux error ";
    static char text[sizeof words + 4];
    (void)internal; (void)error;
    int rest = number - UNNAMED;
    if (rest <= 0 || rest > 4095) return NULL;
    char *place = text + sizeof text - 1;
    for (; rest; rest /= 10) *--place = '0' + rest % 10;
    place -= sizeof words - 1;
    memcpy(place, words, sizeof words - 1);
    return place;
}

// A handler may run in it, which can read and write any static variable: so the compiler isn't to look inside.
__attribute__((noipa)) long linux_call(long number, long a, long b, long c, long d, long e) {
    register long a7 __asm__("a7") = number, a0 __asm__("a0") = a, a1 __asm__("a1") = b;
    register long a2 __asm__("a2") = c, a3 __asm__("a3") = d, a4 __asm__("a4") = e;
    __asm__ volatile("ecall" : "+r"(a0) : "r"(a1), "r"(a2), "r"(a3), "r"(a4), "r"(a7) : "memory");
    if (a0 >= 0 || a0 < -4095) return a0;
    errno = error_of_linux(-a0);
    return -1;
}
