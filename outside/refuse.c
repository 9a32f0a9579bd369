// Goes between a program and the C library, as LD_PRELOAD, and refuses one call. outside/memory.sh builds it, and sets these variables:
//
// REFUSE_CALL   growth, thread, read or write. A growth is a call of malloc or realloc that comes from the program itself. Reads are those of
//               standard input, writes those of standard output.
// REFUSE_AT     which of these calls is refused, from 1 on; 0: each of them.
// REFUSE_ERROR  the error that a refused read or write reports.
// REFUSE_SHORT  if not empty, each read and write moves one byte at most.
// REFUSE_NOTES  a file. It gets a line for each thread that was made (`thread`), and one for each call that was refused: `refused`, with the
//               bytes of a growth.
#define _GNU_SOURCE
#include <dlfcn.h>
#include <errno.h>
#include <fcntl.h>
#include <link.h>
#include <pthread.h>
#include <stdint.h>
#include <stdio.h>
#include <stdlib.h>
#include <string.h>
#include <unistd.h>

enum call { GROWTH, THREAD, READ, WRITE, CALLS };

static const char *const names[CALLS] = {"growth", "thread", "read", "write"};

static enum call refused = CALLS;
static unsigned long refused_at;
static int refused_with;
static int moves_one_byte;
static int notes = -1;
static unsigned long counts[CALLS];
static uintptr_t program_begin, program_end;

// The C library's own functions. They are looked up at the first call, which may come before `begin`.
#define REAL(name) (real_##name ? real_##name : (real_##name = (__typeof__(real_##name))dlsym(RTLD_NEXT, #name)))
static void *(*real_malloc)(size_t);
static void *(*real_realloc)(void *, size_t);
static int (*real_pthread_create)(pthread_t *, const pthread_attr_t *, void *(*)(void *), void *);
static ssize_t (*real_read)(int, void *, size_t);
static ssize_t (*real_write)(int, const void *, size_t);

// Notes where the program lies in memory. It is the first object that is shown.
static int find_program(struct dl_phdr_info *object, size_t size, void *unused) {
  (void)size, (void)unused;
  program_begin = UINTPTR_MAX;
  for (int i = 0; i < object->dlpi_phnum; i++) {
    const ElfW(Phdr) *part = &object->dlpi_phdr[i];
    uintptr_t begin = object->dlpi_addr + part->p_vaddr;
    if (part->p_type != PT_LOAD) continue;
    if (begin < program_begin) program_begin = begin;
    if (program_end < begin + part->p_memsz) program_end = begin + part->p_memsz;
  }
  return 1;
}

__attribute__((constructor)) static void begin(void) {
  const char *call = getenv("REFUSE_CALL"), *at = getenv("REFUSE_AT"), *error = getenv("REFUSE_ERROR"), *file = getenv("REFUSE_NOTES"),
             *one_byte = getenv("REFUSE_SHORT");
  for (int i = 0; call && i < CALLS; i++)
    if (strcmp(call, names[i]) == 0) refused = (enum call)i;
  refused_at = at ? strtoul(at, NULL, 10) : 0;
  refused_with = error ? atoi(error) : EIO;
  moves_one_byte = one_byte && *one_byte;
  if (file) notes = open(file, O_WRONLY | O_APPEND | O_CREAT | O_CLOEXEC, 0600);
  dl_iterate_phdr(find_program, NULL);
}

static void note(const char *line) {
  if (notes < 0 || REAL(write)(notes, line, strlen(line)) < 0) abort();
}

// Counts a call, and returns whether it is to be refused.
static int is_refused(enum call call, size_t bytes) {
  unsigned long number = __atomic_add_fetch(&counts[call], 1, __ATOMIC_SEQ_CST);
  if (call != refused || (refused_at != 0 && refused_at != number)) return 0;
  char line[40];
  snprintf(line, sizeof line, "refused %zu\n", bytes);
  note(line);
  return 1;
}

static int is_of_program(void *caller) { return program_begin <= (uintptr_t)caller && (uintptr_t)caller < program_end; }

void *malloc(size_t bytes) {
  if (is_of_program(__builtin_return_address(0)) && is_refused(GROWTH, bytes)) {
    errno = ENOMEM;
    return NULL;
  }
  return REAL(malloc)(bytes);
}

void *realloc(void *block, size_t bytes) {
  if (is_of_program(__builtin_return_address(0)) && is_refused(GROWTH, bytes)) {
    errno = ENOMEM;
    return NULL;
  }
  return REAL(realloc)(block, bytes);
}

int pthread_create(pthread_t *thread, const pthread_attr_t *attributes, void *(*start)(void *), void *argument) {
  if (is_refused(THREAD, 0)) return EAGAIN;
  int error = REAL(pthread_create)(thread, attributes, start, argument);
  if (error == 0) note("thread\n");
  return error;
}

ssize_t read(int file, void *bytes, size_t count) {
  if (file == STDIN_FILENO && is_refused(READ, 0)) {
    errno = refused_with;
    return -1;
  }
  return REAL(read)(file, bytes, file == STDIN_FILENO && moves_one_byte && 1 < count ? 1 : count);
}

ssize_t write(int file, const void *bytes, size_t count) {
  if (file == STDOUT_FILENO && is_refused(WRITE, 0)) {
    errno = refused_with;
    return -1;
  }
  return REAL(write)(file, bytes, file == STDOUT_FILENO && moves_one_byte && 1 < count ? 1 : count);
}
