/* Runs a command and says on standard error when it held more memory than it may. Usage: held MB COMMAND.. The status is the
   command's, or 128 and the signal that ended it. */
#include <stdio.h>
#include <stdlib.h>
#include <sys/resource.h>
#include <sys/wait.h>
#include <unistd.h>

int main(int count, char **words) {
  if (count < 3) return 2;
  pid_t child = fork();
  if (child == 0) { execvp(words[2], words + 2); _exit(127); }
  int status;
  struct rusage used;
  if (child < 0 || wait4(child, &status, 0, &used) < 0) return 2;
  if (used.ru_maxrss > 1024 * atol(words[1])) fprintf(stderr, "held %ld MB\n", used.ru_maxrss / 1024);
  if (getenv("HELD")) fprintf(stderr, "%ld MB, %ld.%02ld s\n", used.ru_maxrss / 1024, used.ru_utime.tv_sec, used.ru_utime.tv_usec / 10000);
  return WIFEXITED(status) ? WEXITSTATUS(status) : 128 + WTERMSIG(status);
}
