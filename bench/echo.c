/* Answers each line by one line of two bytes, each by a write of its own, as a program that waits for lines has to:
   what a measurement is compared with that a program can't be quicker than. */
#include <string.h>
#include <unistd.h>

static char held[65536];

static int answer(void) {
  return write(1, "{}\n", 3) == 3;
}

int main(void) {
  for (;;) {
    ssize_t got = read(0, held, sizeof held);
    if (got <= 0)
      return got < 0;
    for (char *at = held, *end = held + got; (at = memchr(at, '\n', end - at)) != NULL; at++)
      if (!answer())
        return 1;
  }
}
