/* Preloaded into the program: makes its ports fail or give little.
   READ_FAILS and WRITE_FAILS have the number, from 1, of the read of the standard input and of the write to the
   standard output that fails; SAID_FAILS that of the write to the standard error. Where one does the file FAILED is
   made.
   Where ONE_BYTE stands each of these reads gives one byte, and each of these writes takes one. */
#define _GNU_SOURCE
#include <dlfcn.h>
#include <errno.h>

#include "tell.h"

struct port {
  const char *name;
  long fails;
  long calls;
};

static struct port ports[] = {{"READ_FAILS", -1, 0}, {"WRITE_FAILS", -1, 0}, {"SAID_FAILS", -1, 0}};

static int has_failed(int number) {
  struct port *port = &ports[number];
  if (port->fails < 0) {
    const char *text = getenv(port->name);
    port->fails = text ? atol(text) : 0;
  }
  if (port->fails == 0 || ++port->calls != port->fails) return 0;
  tell("FAILED");
  errno = EIO;
  return 1;
}

static size_t cut(size_t size) {
  static int is_cut = -1;
  if (is_cut < 0) is_cut = getenv("ONE_BYTE") != NULL;
  return is_cut && size > 1 ? 1 : size;
}

ssize_t read(int file, void *to, size_t size) {
  static ssize_t (*real)(int, void *, size_t);
  if (!real) real = dlsym(RTLD_NEXT, "read");
  if (file != 0) return real(file, to, size);
  return has_failed(0) ? -1 : real(file, to, cut(size));
}

ssize_t write(int file, const void *from, size_t size) {
  static ssize_t (*real)(int, const void *, size_t);
  if (!real) real = dlsym(RTLD_NEXT, "write");
  if (file != 1 && file != 2) return real(file, from, size);
  return has_failed(file) ? -1 : real(file, from, cut(size));
}
