/* each.c: runs a program in many folders, one after the other.
 *
 *     each OUT PROGRAM [ARGUMENT..] <FOLDERS
 *
 * FOLDERS has a path to a line. The program runs in each of these folders, with nothing on standard input; what it prints goes
 * to the file OUT/NAME, where NAME is the last part of the path. An ARGUMENT `@` stands for NAME. If the program does not end
 * with status 0, the file gets one more line, as `status 1` or `signal 11`. OUT and PROGRAM begin with `/`.
 *
 * The tests start many thousand programs, and a shell takes several times as long to start one. */
#define _GNU_SOURCE
#include <errno.h>
#include <fcntl.h>
#include <spawn.h>
#include <stdio.h>
#include <stdlib.h>
#include <string.h>
#include <sys/wait.h>

#define PATH_BYTES 4096

extern char **environ;

static void die(const char *what, int error)
{
    fprintf(stderr, "each: %s: %s\n", what, strerror(error));
    exit(2);
}

static void expect(int error, const char *what)
{
    if (error != 0)
        die(what, error);
}

/* Runs the program in the folder: how it ended, as wait tells it. */
static int run(const char *folder, const char *out, char **words)
{
    posix_spawn_file_actions_t actions;
    pid_t child;
    int status;

    expect(posix_spawn_file_actions_init(&actions), "actions");
    expect(posix_spawn_file_actions_addopen(&actions, 0, "/dev/null", O_RDONLY, 0), "actions");
    expect(posix_spawn_file_actions_addopen(&actions, 1, out, O_WRONLY | O_CREAT | O_TRUNC, 0666), "actions");
    expect(posix_spawn_file_actions_addchdir_np(&actions, folder), "actions");
    expect(posix_spawn(&child, words[0], &actions, NULL, words, environ), folder);
    expect(posix_spawn_file_actions_destroy(&actions), "actions");
    while (waitpid(child, &status, 0) < 0)
        if (errno != EINTR)
            die("wait", errno);
    return status;
}

static void tell(const char *out, int status)
{
    FILE *file = fopen(out, "a");

    if (!file)
        die(out, errno);
    if (WIFEXITED(status))
        fprintf(file, "status %d\n", WEXITSTATUS(status));
    else
        fprintf(file, "signal %d\n", WTERMSIG(status));
    if (fclose(file) != 0)
        die(out, errno);
}

int main(int argc, char **argv)
{
    static char folder[PATH_BYTES], out[2 * PATH_BYTES];
    char **words = argc < 3 ? NULL : calloc((size_t)argc - 1, sizeof *words);

    if (!words || argv[1][0] != '/' || argv[2][0] != '/') {
        fprintf(stderr, "usage: each OUT PROGRAM [ARGUMENT..] <FOLDERS\n");
        return 2;
    }
    while (fgets(folder, sizeof folder, stdin)) {
        char *end = strchr(folder, '\n'), *name = strrchr(folder, '/');
        int status;

        if (!end || !name || strlen(argv[1]) + strlen(name) >= sizeof out)
            die(folder, ENAMETOOLONG);
        *end = '\0';
        name++;
        snprintf(out, sizeof out, "%s/%s", argv[1], name);
        for (int i = 2; i < argc; i++)
            words[i - 2] = strcmp(argv[i], "@") == 0 ? name : argv[i];
        status = run(folder, out, words);
        if (status != 0)
            tell(out, status);
    }
    free(words);
    return ferror(stdin) ? 2 : 0;
}
