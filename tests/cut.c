/* cut FILE BYTES COMMAND..: runs the command with the first bytes of a file on its standard input, after which a read fails there:
 * it is the controlling end of a terminal whose other end is closed. */
#define _XOPEN_SOURCE 600
#include <fcntl.h>
#include <stdio.h>
#include <stdlib.h>
#include <termios.h>
#include <unistd.h>

enum { MOST = 1024 };

int main(int argc, char **argv) {
    char bytes[MOST];
    size_t n = argc > 3 ? strtoul(argv[2], NULL, 10) : 0;
    FILE *from = n > 0 && n <= MOST ? fopen(argv[1], "rb") : NULL;
    if (from == NULL || fread(bytes, 1, n, from) != n) return 99;
    int control = posix_openpt(O_RDWR | O_NOCTTY);
    if (control < 0 || grantpt(control) != 0 || unlockpt(control) != 0) return 99;
    int terminal = open(ptsname(control), O_RDWR | O_NOCTTY);
    struct termios plain;
    if (terminal < 0 || tcgetattr(terminal, &plain) != 0) return 99;
    /* bytes go through as they are */
    plain.c_oflag = 0;
    if (tcsetattr(terminal, TCSANOW, &plain) != 0) return 99;
    if (write(terminal, bytes, n) != (ssize_t)n || close(terminal) != 0) return 99;
    if (dup2(control, 0) < 0) return 99;
    execvp(argv[3], argv + 3);
    return 99;
}
