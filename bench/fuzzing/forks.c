/* Preloaded into a program: keeps it where `main` begins. For each byte that comes by the pipe ORDERS, a number, `main` is
   called in the folder of that number below the one in which the program was started. How it ended, its kilobytes, the
   microseconds that it took on a processor and what it wrote go back by the pipe REPLIES.

   It is called in a copy of the process, which a new one follows after MOST calls, or once it has had much memory. So a call
   that ends the copy is told too. All ends with the first pipe. */
#define _GNU_SOURCE
#include <dlfcn.h>
#include <fcntl.h>
#include <stdlib.h>
#include <sys/mman.h>
#include <sys/resource.h>
#include <sys/stat.h>
#include <sys/wait.h>
#include <unistd.h>

enum { ORDERS = 198, REPLIES = 199, PATIENCE = 300, MOST = 1000, MUCH = 100000, NO_MORE = 97, ANOTHER = 98, FAULT = 99 };

typedef int program(int, char **, char **);

static program *main_of_program;
/* The microseconds that a copy had taken when its last call began. */
static long *begun;

static long microseconds(struct rusage usage) {
  return (usage.ru_utime.tv_sec + usage.ru_stime.tv_sec) * 1000000L + usage.ru_utime.tv_usec + usage.ru_stime.tv_usec;
}

static void send(const void *bytes, size_t count) {
  if (write(REPLIES, bytes, count) != (ssize_t)count) _exit(FAULT);
}

static long size_of(int output) {
  struct stat found;
  return fstat(output, &found) ? 0 : found.st_size;
}

static void send_output(int output, long size) {
  static char part[1 << 16];
  for (long sent = 0; sent < size;) {
    ssize_t count = pread(output, part, sizeof part, sent);
    if (count <= 0) _exit(FAULT);
    send(part, count);
    sent += count;
  }
}

static void reply(int ended, struct rusage usage) {
  long told = size_of(1), complaint = size_of(2);
  long front[] = {ended, usage.ru_maxrss, microseconds(usage) - *begun, told, complaint};
  send(front, sizeof front);
  send_output(1, told);
  send_output(2, complaint);
}

static void clear(int output) {
  if (ftruncate(output, 0) || lseek(output, 0, SEEK_SET)) _exit(FAULT);
}

/* Calls `main` for each order. */
static void work(int folder, int count, char **words, char **settings) {
  struct rusage usage = {0};
  unsigned char order;
  for (int calls = 0; calls < MOST && usage.ru_maxrss < MUCH; calls++) {
    if (read(ORDERS, &order, 1) != 1) _exit(NO_MORE);
    char name[] = {'0' + order / 100, '0' + order / 10 % 10, '0' + order % 10, 0};
    if (fchdir(folder) || chdir(name)) _exit(FAULT);
    clear(1);
    clear(2);
    getrusage(RUSAGE_SELF, &usage);
    *begun = microseconds(usage);
    alarm(PATIENCE);
    int status = main_of_program(count, words, settings);
    alarm(0);
    getrusage(RUSAGE_SELF, &usage);
    reply((status & 255) << 8, usage);
  }
  _exit(ANOTHER);
}

static int serve(int count, char **words, char **settings) {
  int folder = open(".", O_RDONLY | O_DIRECTORY | O_CLOEXEC), ended = 0;
  for (int output = 1; output <= 2; output++)
    if (dup2(memfd_create("output", MFD_CLOEXEC), output) != output) _exit(FAULT);
  begun = mmap(0, sizeof *begun, PROT_READ | PROT_WRITE, MAP_SHARED | MAP_ANONYMOUS, -1, 0);
  if (folder < 0 || begun == MAP_FAILED) _exit(FAULT);
  while (!(WIFEXITED(ended) && WEXITSTATUS(ended) == NO_MORE)) {
    struct rusage usage;
    pid_t copy = fork();
    if (copy == 0) work(folder, count, words, settings);
    if (copy < 0 || wait4(copy, &ended, 0, &usage) != copy) _exit(FAULT);
    if (WIFEXITED(ended) && WEXITSTATUS(ended) == FAULT) _exit(FAULT);
    if (!WIFEXITED(ended) || WEXITSTATUS(ended) < NO_MORE) reply(ended, usage);
  }
  _exit(0);
}

int __libc_start_main(program *main, int count, char **words, void (*begin)(void), void (*end)(void), void (*last)(void), void *stack) {
  int (*start)(program *, int, char **, void (*)(void), void (*)(void), void (*)(void), void *) = dlsym(RTLD_NEXT, "__libc_start_main");
  unsetenv("LD_PRELOAD");
  main_of_program = main;
  return start(serve, count, words, begin, end, last, stack);
}
