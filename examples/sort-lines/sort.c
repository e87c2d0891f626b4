/* Sorts the lines of the file /lines, and counts them. The parent reads and sorts them and writes them into a pipe; its child
   reads the pipe, numbers the lines on the console, and exits with their number, which is then the parent's status too. */
#include <stdio.h>
#include <stdlib.h>
#include <string.h>
#include <fcntl.h>
#include <sys/wait.h>
#include <unistd.h>

static int by_bytes(const void *first, const void *second)
{
    return strcmp(*(char *const *)first, *(char *const *)second);
}

static void stop(const char *why)
{
    write(2, why, strlen(why));
    exit(1);
}

/* All bytes of a file, with a NUL after them. */
static char *contents(const char *path)
{
    int file = open(path, O_RDONLY);
    size_t length = 0, room = 0;
    char *text = NULL;
    if (file < 0)
        stop("sort: no file /lines\n");
    for (;;) {
        if (room - length < 2) {
            room = room ? 2 * room : 512;
            text = realloc(text, room);
            if (!text)
                stop("sort: no memory\n");
        }
        ssize_t count = read(file, text + length, room - length - 1);
        if (count <= 0)
            break;
        length += count;
    }
    close(file);
    text[length] = '\0';
    return text;
}

/* The child: it numbers the lines that come through the pipe. */
static int number_lines(int pipe_end)
{
    char piece[64], line[16];
    int lines = 0, at_start = 1;
    ssize_t count;
    while ((count = read(pipe_end, piece, sizeof piece)) > 0)
        for (ssize_t place = 0; place < count; place++) {
            if (at_start) {
                int length = snprintf(line, sizeof line, "%3d ", ++lines);
                write(1, line, length);
            }
            write(1, piece + place, 1);
            at_start = piece[place] == '\n';
        }
    return lines;
}

int main(void)
{
    int ends[2], word;
    char *lines[100];
    size_t count = 0;
    char *text = contents("/lines");
    for (char *line = strtok(text, "\n"); line && count < 100; line = strtok(NULL, "\n"))
        lines[count++] = line;
    qsort(lines, count, sizeof lines[0], by_bytes);
    if (pipe(ends) < 0)
        stop("sort: no pipe\n");
    pid_t child = fork();
    if (child < 0)
        stop("sort: no child\n");
    if (child == 0) {
        close(ends[1]);
        exit(number_lines(ends[0]));
    }
    close(ends[0]);
    for (size_t n = 0; n < count; n++) {
        write(ends[1], lines[n], strlen(lines[n]));
        write(ends[1], "\n", 1);
    }
    close(ends[1]);
    waitpid(child, &word, 0);
    return word / 256;
}
