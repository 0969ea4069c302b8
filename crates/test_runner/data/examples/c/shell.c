/* A shell with pipes. A line of the tape is a pipeline, as `echo some words | upper | reverse`. `echo` prints its words, and each other
   name is a file with a program, which is executed. The shell first makes two such files, `upper` and `reverse`. */
#include "stage.h"

extern const char upper[], upper_end[], reverse[], reverse_end[];

static char line[256];

static void install(const char *name, const char *image, const char *end)
{
    int file = sys_open(name, NEW_FILE);
    put(file, image, end - image);
    sys_close(file);
}

/* The text without the blanks at its ends. */
static char *trimmed(char *text)
{
    int n;
    while (*text == ' ')
        text++;
    n = length_of(text);
    while (n > 0 && text[n - 1] == ' ')
        text[--n] = 0;
    return text;
}

/* One stage, in a process of its own: its descriptors are set up already. */
static void begin(char *stage)
{
    char *words = stage + 5;
    if (stage[0] == 'e' && stage[1] == 'c' && stage[2] == 'h' && stage[3] == 'o' && stage[4] == ' ') {
        int n = length_of(words);
        words[n] = '\n';
        put(writer(), words, n + 1);
        sys_exit(0);
    }
    sys_exec(stage);
    put(writer(), "no such program: ", 17);
    put(writer(), stage, length_of(stage));
    put(writer(), "\n", 1);
    sys_exit(1);
}

/* Runs a pipeline. A stage keeps only what it reads and what it writes; the last one writes to the terminal. */
static void run(char *rest)
{
    int from = -1, stages = 0, ends[2];
    while (rest) {
        char *stage = rest;
        while (*rest && *rest != '|')
            rest++;
        if (*rest)
            *rest++ = 0;
        else
            rest = 0;
        if (rest && sys_pipe(ends) < 0)
            sys_exit(1);
        if (sys_fork() == 0) {
            sys_close(0);
            if (rest) {
                sys_close(1);
                sys_close(ends[0]);
            }
            begin(trimmed(stage));
        }
        stages++;
        if (from >= 0)
            sys_close(from);
        if (rest) {
            sys_close(ends[1]);
            from = ends[0];
        }
    }
    while (stages-- > 0)
        sys_wait(0);
}

int main(void)
{
    int n = 0;
    char c;
    install("upper", upper, upper_end);
    install("reverse", reverse, reverse_end);
    while (sys_read(0, &c, 1) == 1) {
        if (c != '\n') {
            if (n < (int)sizeof line - 2)
                line[n++] = c;
            continue;
        }
        line[n] = 0;
        if (n > 0)
            run(line);
        n = 0;
    }
    return 0;
}
