/* Runs a command whose standard error is a terminal, and prints what came on that terminal. Usage: terminal OUT COMMAND
 * WORDS.., where OUT is the file that the command's standard output goes to. The exit status is the command's. */
#define _GNU_SOURCE
#include <fcntl.h>
#include <stdio.h>
#include <stdlib.h>
#include <sys/wait.h>
#include <unistd.h>

/* In the child: the terminal as standard error, and the command. */
static void become(const char *terminal, char **words)
{
    int out = open(words[0], O_WRONLY | O_CREAT | O_TRUNC, 0600), line = open(terminal, O_RDWR | O_NOCTTY);
    if (out < 0 || line < 0 || dup2(out, STDOUT_FILENO) < 0 || dup2(line, STDERR_FILENO) < 0)
        _exit(126);
    close(out);
    close(line);
    execvp(words[1], words + 1);
    _exit(127);
}

/* Reading ends with an error once nobody has the terminal open. */
static void copy(int from)
{
    char text[512];
    for (ssize_t count; (count = read(from, text, sizeof text)) > 0;)
        fwrite(text, 1, (size_t)count, stdout);
}

int main(int count, char **words)
{
    int status, master = posix_openpt(O_RDWR | O_NOCTTY | O_CLOEXEC);
    if (count < 3 || master < 0 || grantpt(master) != 0 || unlockpt(master) != 0)
        return 125;
    pid_t child = fork();
    if (child < 0)
        return 125;
    if (child == 0)
        become(ptsname(master), words + 1);
    copy(master);
    return waitpid(child, &status, 0) == child && WIFEXITED(status) ? WEXITSTATUS(status) : 125;
}
