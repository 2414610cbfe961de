/* Each time-out that a program sets on a socket is as long as SILENCE says, in milliseconds, whatever the program asks
   for. tools/many_sessions.py compiles it and has the server preload it, where it is told `--silence`. */
#define _GNU_SOURCE
#include <stdlib.h>
#include <sys/socket.h>
#include <sys/syscall.h>
#include <sys/time.h>
#include <unistd.h>

int setsockopt(int socket, int level, int option, const void *value, socklen_t length) {
    const char *silence = getenv("SILENCE");
    struct timeval limit;
    if (silence && level == SOL_SOCKET && (option == SO_RCVTIMEO || option == SO_SNDTIMEO)) {
        long milliseconds = atol(silence);
        limit.tv_sec = milliseconds / 1000;
        limit.tv_usec = milliseconds % 1000 * 1000;
        value = &limit;
        length = sizeof limit;
    }
    return syscall(SYS_setsockopt, socket, level, option, value, length);
}
