/* yard: the programs as one command, with their exit statuses: `yard COMMAND [FILE]`, or `yardCOMMAND [FILE]` by a link to it. programs/build makes it, and
   beside it yard-program, the proved Rattle program of the crate yard, which reads standard input, writes standard output and standard error and ends with
   the status; here are only the arguments, the file and the texts of help. Nothing is allocated. */
#define _XOPEN_SOURCE 700
#include <errno.h>
#include <fcntl.h>
#include <limits.h>
#include <signal.h>
#include <string.h>
#include <sys/stat.h>
#include <unistd.h>

#include "help.h"

#ifndef YARD_VERSION
#define YARD_VERSION "unknown"
#endif

/* lies in the folder of this one */
#define PROGRAM "yard-program"

/* docs/FITTERS.md has all four; 1 and 2 are given by the program alone */
enum { YES = 0, TROUBLE = 3 };

struct command {
    const char *name;
    const char *help;
};

static const struct command commands[] = {
    { "run", HELP_RUN },
    { "dump", HELP_DUMP },
    { "timeline", HELP_TIMELINE },
    { "record", HELP_RECORD },
    { "verify", HELP_VERIFY },
    { "notes", HELP_NOTES },
    { "plan", HELP_PLAN },
    { "game", HELP_GAME },
    { "mattered", HELP_MATTERED },
};

/* Writes a whole text; 0 if a write failed. */
static int put(int fd, const char *text)
{
    size_t left = strlen(text);

    while (left > 0) {
        ssize_t n = write(fd, text, left);
        if (n <= 0)
            return 0;
        text += n;
        left -= (size_t)n;
    }
    return 1;
}

/* Prints a text that was asked for; gives the status. */
static int show(const char *text)
{
    if (put(1, text))
        return YES;
    put(2, "yard: standard output cannot be written\n");
    return TROUBLE;
}

/* A wrong argument, of this command or of none; gives the status. */
static int misused(const struct command *c)
{
    if (c == NULL) {
        put(2, "usage: yard " COMMANDS " [FILE], or yard help [COMMAND]\n");
    } else {
        put(2, "usage: yard ");
        put(2, c->name);
        put(2, " [FILE], or yard help ");
        put(2, c->name);
        put(2, "\n");
    }
    return TROUBLE;
}

static const struct command *find(const char *name)
{
    for (size_t i = 0; i < sizeof commands / sizeof commands[0]; i++)
        if (strcmp(commands[i].name, name) == 0)
            return &commands[i];
    return NULL;
}

/* The command that a link's name stands for, or none. */
static const struct command *linked(const char *path)
{
    const char *slash = strrchr(path, '/');
    const char *name = slash == NULL ? path : slash + 1;

    return strncmp(name, "yard", 4) == 0 ? find(name + 4) : NULL;
}

/* Opens a file for reading, but no directory: 0, or what was wrong. */
static int open_file(const char *file, int *fd)
{
    struct stat about;

    *fd = open(file, O_RDONLY);
    if (*fd < 0 || fstat(*fd, &about) != 0)
        return errno;
    return S_ISDIR(about.st_mode) ? EISDIR : 0;
}

/* Puts a file in the place of standard input: 0, or what was wrong. */
static int take_input(const char *file)
{
    int fd;
    int wrong = open_file(file, &fd);

    if (wrong != 0 || fd == 0)
        return wrong;
    if (dup2(fd, 0) < 0)
        return errno;
    close(fd);
    return 0;
}

/* Says what is wrong with a file for a command; gives the status. */
static int trouble(const struct command *c, const char *file, int wrong)
{
    put(2, "yard ");
    put(2, c->name);
    put(2, ": ");
    put(2, file);
    put(2, ": ");
    put(2, strerror(wrong));
    put(2, "\n");
    return TROUBLE;
}

/* Puts in the place of a closed descriptor one that fails, so that nothing which the program opens comes to stand there. */
static void hold(int fd, int mode)
{
    if (fcntl(fd, F_GETFD) < 0)
        open("/dev/null", mode);
}

/* The program's path, next to this one's: 0, or what was wrong. */
static int program_path(char *path, size_t size)
{
    ssize_t n = readlink("/proc/self/exe", path, size);
    char *slash;

    if (n < 0)
        return errno;
    if ((size_t)n == size)
        return ENAMETOOLONG;
    path[n] = 0;
    slash = strrchr(path, '/');
    if (slash == NULL || (size_t)(slash + 1 - path) + sizeof PROGRAM > size)
        return ENAMETOOLONG;
    memcpy(slash + 1, PROGRAM, sizeof PROGRAM);
    return 0;
}

/* Runs a command over standard input: the program takes this one's place. Gives a status only where it cannot be started. */
static int run(const struct command *c)
{
    static char path[PATH_MAX];
    char *const arguments[] = { "yard", (char *)c->name, NULL };
    char *const environment[] = { NULL };
    int wrong = program_path(path, sizeof path);

    if (wrong != 0)
        return trouble(c, PROGRAM, wrong);
    hold(0, O_WRONLY);
    hold(1, O_RDONLY);
    hold(2, O_RDONLY);
    execve(path, arguments, environment);
    return trouble(c, path, errno);
}

static int run_file(const struct command *c, const char *file)
{
    int wrong = take_input(file);

    return wrong == 0 ? run(c) : trouble(c, file, wrong);
}

/* A command with the arguments after its name. */
static int run_command(const struct command *c, int count, char **arguments)
{
    if (count == 0)
        return run(c);
    if (count > 1)
        return misused(c);
    if (strcmp(arguments[0], "--help") == 0)
        return show(c->help);
    if (strcmp(arguments[0], "--version") == 0)
        return show("yard " YARD_VERSION "\n");
    if (arguments[0][0] == '-')
        return misused(c);
    return run_file(c, arguments[0]);
}

/* `yard` with its arguments: help, the version, or a command with its own. */
static int run_yard(int count, char **arguments)
{
    const struct command *c;

    if (count == 1 && (strcmp(arguments[0], "help") == 0 || strcmp(arguments[0], "--help") == 0))
        return show(HELP);
    if (count == 1 && strcmp(arguments[0], "--version") == 0)
        return show("yard " YARD_VERSION "\n");
    if (count == 2 && strcmp(arguments[0], "help") == 0) {
        c = find(arguments[1]);
        return c == NULL ? misused(NULL) : show(c->help);
    }
    c = count > 0 ? find(arguments[0]) : NULL;
    return c == NULL ? misused(NULL) : run_command(c, count - 1, arguments + 1);
}

int main(int argc, char **argv)
{
    const struct command *c = argc > 0 ? linked(argv[0]) : NULL;

    /* A write to a pipe that nobody reads, or past the largest size of a file, is then a write that fails, with a line on standard error and a status, and
       not the end of the program by a signal: what is passed over here stays so in the program that takes this one's place. No handler is installed for any
       signal: so the system itself goes on with a read or a write during which the program was stopped and continued, and none is given back as interrupted. */
    signal(SIGPIPE, SIG_IGN);
    signal(SIGXFSZ, SIG_IGN);
    if (argc < 2)
        return c == NULL ? misused(NULL) : run(c);
    return c == NULL ? run_yard(argc - 1, argv + 1) : run_command(c, argc - 1, argv + 1);
}
