/* once COMMAND..: runs the command and writes what its first write on standard output was, alone: in a pipe of packets one read
 * gives one write. */
#define _GNU_SOURCE
#include <fcntl.h>
#include <sys/wait.h>
#include <unistd.h>

enum { MOST = 4096 };

int main(int argc, char **argv) {
    char bytes[MOST];
    int ends[2], status;
    if (argc < 2 || pipe2(ends, O_DIRECT) != 0) return 99;
    pid_t child = fork();
    if (child == 0) {
        if (dup2(ends[1], 1) < 0 || close(ends[0]) != 0 || close(ends[1]) != 0) return 99;
        execvp(argv[1], argv + 1);
        return 99;
    }
    if (child < 0 || close(ends[1]) != 0) return 99;
    ssize_t first = read(ends[0], bytes, MOST);
    if (first < 0 || write(1, bytes, (size_t)first) != first) return 99;
    while (read(ends[0], bytes, MOST) > 0) continue;
    if (waitpid(child, &status, 0) != child || !WIFEXITED(status)) return 99;
    return WEXITSTATUS(status);
}
