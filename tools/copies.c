/* A library that stands before the system's own: the program is loaded once, and each message on descriptor 3 begins it in a
   copy of that process, a new one each time, before anything of the program itself was run.

   A message has the seconds that the copy may take, and then the words behind the program's own name, each ended by a byte
   0. The answer is the status that waiting for the copy told. tools/reading/asking.py builds and uses it. */

#define _GNU_SOURCE
#include <dlfcn.h>
#include <stdlib.h>
#include <string.h>
#include <sys/socket.h>
#include <sys/wait.h>
#include <unistd.h>

enum { SERVED = 3, BYTES = 1 << 17, WORDS = 1 << 12 };
static char message[BYTES];
static char *words[WORDS];

typedef void done(void);
typedef int begin(int, char **, char **);
typedef int start(begin *, int, char **, done *, done *, done *, void *);

/* Puts the words of a message of this size behind the program's own; how many these are together. */
static int worded(char **own, int count, ssize_t size) {
    char *word = message + strlen(message) + 1;
    memcpy(words, own, count * sizeof *own);
    for (; word < message + size && count < WORDS - 1; word += strlen(word) + 1) words[count++] = word;
    return count;
}

/* Serves all messages; it comes back in the copies alone, with how many words the program has. */
static int served(char **own, int count) {
    for (;;) {
        ssize_t size = recv(SERVED, message, sizeof message, 0);
        if (size <= 0 || message[size - 1]) _exit(0);
        pid_t copy = fork();
        if (!copy) {
            close(SERVED);
            alarm(atoi(message));
            return worded(own, count, size);
        }
        int status;
        if (copy < 0 || waitpid(copy, &status, 0) < 0) _exit(1);
        if (send(SERVED, &status, sizeof status, MSG_NOSIGNAL) < 0) _exit(1);
    }
}

int __libc_start_main(begin *main, int count, char **own, done *init, done *fini, done *end, void *stack) {
    start *real = (start *)dlsym(RTLD_NEXT, "__libc_start_main");
    unsetenv("LD_PRELOAD");
    count = served(own, count);
    return real(main, count, words, init, fini, end, stack);
}
