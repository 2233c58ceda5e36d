/* slow-reader BYTES IGNORED COMMAND..: runs a command whose standard output is a pipe that does not wait, reads it slowly at first,
   copies what it reads, closes the pipe after so many bytes (0: reads all), and ends with the command's exit status. SIGPIPE is
   ignored by the command, or not. Where PAUSE is set, standard input does not wait either, and so many seconds pass at first. */
#include <fcntl.h>
#include <signal.h>
#include <stdio.h>
#include <stdlib.h>
#include <sys/wait.h>
#include <unistd.h>

static void command(const int ends[2], int ignored, char **words) {
    signal(SIGPIPE, ignored ? SIG_IGN : SIG_DFL);
    fcntl(ends[1], F_SETFL, fcntl(ends[1], F_GETFL) | O_NONBLOCK);
    if (getenv("PAUSE"))
        fcntl(STDIN_FILENO, F_SETFL, fcntl(STDIN_FILENO, F_GETFL) | O_NONBLOCK);
    dup2(ends[1], STDOUT_FILENO);
    close(ends[0]);
    close(ends[1]);
    execvp(words[0], words);
    _exit(127);
}

int main(int count, char **words) {
    static char buffer[65536];
    int ends[2], status;
    if (count < 4 || pipe(ends) != 0)
        return 125;
    long left = atol(words[1]);
    const int all = left == 0;
    const pid_t child = fork();
    if (child == 0)
        command(ends, atoi(words[2]), words + 3);
    close(ends[1]);
    if (getenv("PAUSE"))
        sleep((unsigned)atoi(getenv("PAUSE")));
    for (int turn = 0; all || left > 0; turn++) {
        if (turn < 20)
            usleep(10000);
        const ssize_t got = read(ends[0], buffer, all || left > (long)sizeof buffer ? sizeof buffer : (size_t)left);
        if (got <= 0 || fwrite(buffer, 1, (size_t)got, stdout) != (size_t)got)
            break;
        left -= got;
    }
    close(ends[0]);
    if (waitpid(child, &status, 0) != child || fflush(stdout) != 0)
        return 125;
    return WIFEXITED(status) ? WEXITSTATUS(status) : 128 + WTERMSIG(status);
}
