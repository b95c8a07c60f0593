/* Stands for the program: `check FILE`, and `run FILE JOURNAL`, which tells each line of the journal but one that begins
   with a question mark. WRONG in the environment names what it does wrong. */

#include <fcntl.h>
#include <stdio.h>
#include <stdlib.h>
#include <string.h>
#include <unistd.h>

static int does(const char *wrong) {
    const char *named = getenv("WRONG");
    return named && !strcmp(named, wrong);
}

static int told(const char *line, int status) {
    size_t size = strlen(line);
    while (size) {
        ssize_t count = write(1, line, size);
        if (count <= 0) return does("ends") ? status : 6;
        line += does("seam") ? (ssize_t)size : count;
        size -= does("seam") ? (ssize_t)size : count;
    }
    return status;
}

static long piece(const char *name, char *into, long at) {
    int file = open(name, O_RDONLY);
    if (file < 0) return -1;
    long count = pread(file, into, 7, at);
    close(file);
    return does("short") && count == 1 ? 0 : count;
}

static int carried_out(const char *name) {
    char into[7], line[40];
    int number = 1, begun = 0;
    long at = 0, count;
    while ((count = piece(name, into, at)) > 0) {
        for (long i = 0; i < count; i++) {
            if (!begun && into[i] == '?') {
                snprintf(line, sizeof line, "error journal %d 1\n", number);
                return told(line, 4);
            }
            begun = into[i] != '\n';
            number += into[i] == '\n';
            if (into[i] == '\n' && told("0 end a\n", 0)) return 6;
        }
        if (!at && does("late") && !malloc(1)) return 7;
        at += count;
    }
    if (count == 0) return told("0 close\n", 0);
    if (begun && does("eager")) told("0 end a\n", 0);
    return told(does("line") ? "error\n" : "error read\n", 5);
}

int main(int count, char **words) {
    char into[7];
    long given, at = 0;
    char *taken = malloc(8), *more;
    if (!taken) return 7;
    if (count < 3 || !strcmp(words[1], "none")) return told("error usage\n", 1);
    more = malloc(100);
    if (!more && does("says")) fputs("no memory\n", stderr);
    if (!more && does("faults")) return *(volatile char *)more;
    if (!more) return does("silent") ? 7 : told("error memory\n", 7);
    while ((given = piece(words[2], into, at)) > 0) at += given;
    if (given < 0) return told("error read\n", 5);
    if (!strcmp(words[1], "check")) return told("accepted 0 0 0\n", 0);
    if (told("0 start a 1\n", 0)) return 6;
    return carried_out(words[3]);
}
