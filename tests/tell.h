/* What the preloaded libraries share. */
#include <fcntl.h>
#include <stdlib.h>
#include <unistd.h>

/* Makes the file that a variable names: it tells that a call was failed or refused. */
static void tell(const char *variable) {
  const char *path = getenv(variable);
  if (!path) return;
  int file = open(path, O_CREAT | O_WRONLY, 0600);
  if (file >= 0) close(file);
}
