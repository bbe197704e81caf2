/* Stands before the C library (LD_PRELOAD): counts the calls of each function below, and has one of them fail or do a part of its work.

   FAILING_RECORD  a file as long as struct record, or longer, where the counts stand and what is told of the call that failed
   FAILING_CALL    the function
   FAILING_NUMBER  which of its calls, from 1 on; 0 or absent: none
   FAILING_WAY     a number: the call fails with this errno; `one`, `half`: it moves one byte, or half of its bytes, rounded up; `none`: it
                   moves none, or waits for nothing, and answers 0
   FAILING_PIECE   how many bytes each call moves at most; 0 or absent: as many as it can

   A close that fails has closed its descriptor, as Linux has it. Each other call that fails does nothing. */
#define _GNU_SOURCE
#include <arpa/inet.h>
#include <dlfcn.h>
#include <errno.h>
#include <fcntl.h>
#include <poll.h>
#include <pthread.h>
#include <stdarg.h>
#include <stdlib.h>
#include <string.h>
#include <sys/epoll.h>
#include <sys/ioctl.h>
#include <sys/mman.h>
#include <sys/socket.h>
#include <sys/syscall.h>
#include <time.h>
#include <unistd.h>

/* The functions, in the order of the counts. checks/failing_calls.py reads the names out of this list. */
#define FUNCTIONS(each) \
  each(accept4) each(bind) each(clock_gettime) each(close) each(connect) each(epoll_create1) each(epoll_ctl) each(epoll_wait) each(fcntl) \
  each(getentropy) each(getpeername) each(getsockopt) each(ioctl) each(listen) each(malloc) each(nanosleep) each(poll) each(pthread_create) \
  each(read) each(realloc) each(recv) each(send) each(setsockopt) each(shutdown) each(socket) each(write)

#define NUMBER_OF(name) at_##name,
enum function { FUNCTIONS(NUMBER_OF) COUNT };

#define NAME_OF(name) #name,
static const char *const names[] = {FUNCTIONS(NAME_OF)};

/* What is told of the call that failed; -1 where it isn't known. */
struct told {
  int has_failed;
  int descriptor;
  int own_port;   /* of its socket, or that it was to be bound to */
  int peer_port;  /* of its socket, or that it was to be connected with */
  int is_ending;  /* its connection was shut down before */
  int has_bytes;  /* bytes wait to be read: 1; the other side has ended: 0; neither: -1 */
  int detail;     /* the option, command or clock that is asked for */
  int thread;     /* 0: the first one; else the number of its pthread_create */
  int is_ready;   /* the program had written to standard output before */
};

struct record {
  struct told told;
  long open;    /* how many descriptors were made and not closed */
  long waiting; /* how many accepts there were at a socket whose calls wait */
  long counts[COUNT];
};

enum way { WITH_ERROR, ONE, HALF, NOTHING };

#define MOST_DESCRIPTORS 1024

static struct record *record;
static enum function failing = COUNT;
static long failing_number;
static enum way way;
static int failing_error;
static size_t most_bytes = (size_t)-1;
static int has_written;
static int threads;
static __thread int own_thread;
static char is_ending[MOST_DESCRIPTORS];

/* The C library's own function of a name. */
#define NEXT(name) \
  static __typeof__(&name) next; \
  if (!next) next = (__typeof__(&name))dlsym(RTLD_NEXT, #name)

static void read_way(const char *text) {
  way = !strcmp(text, "one") ? ONE : !strcmp(text, "half") ? HALF : !strcmp(text, "none") ? NOTHING : WITH_ERROR;
  failing_error = atoi(text);
}

__attribute__((constructor)) static void begin(void) {
  const char *path = getenv("FAILING_RECORD"), *call = getenv("FAILING_CALL"), *number = getenv("FAILING_NUMBER"), *text = getenv("FAILING_WAY");
  const char *piece = getenv("FAILING_PIECE");
  int file = path ? (int)syscall(SYS_openat, AT_FDCWD, path, O_RDWR | O_CLOEXEC) : -1;
  if (file < 0) return;
  void *memory = mmap(NULL, sizeof(struct record), PROT_READ | PROT_WRITE, MAP_SHARED, file, 0);
  syscall(SYS_close, file);
  if (memory == MAP_FAILED) return;
  for (int each = 0; call && each < COUNT; each++) {
    if (!strcmp(names[each], call)) failing = each;
  }
  failing_number = number ? atol(number) : 0;
  if (text) read_way(text);
  if (piece && atol(piece) > 0) most_bytes = (size_t)atol(piece);
  record = memory;
}

/* Counts a call, and says whether it is the one that fails. */
static int fails(enum function function) {
  if (!record) return 0;
  long number = __atomic_add_fetch(&record->counts[function], 1, __ATOMIC_SEQ_CST);
  return function == failing && number == failing_number;
}

static int port_of(const struct sockaddr *address) {
  return address->sa_family == AF_INET ? ntohs(((const struct sockaddr_in *)address)->sin_port) : -1;
}

static int asked_port(long number, int descriptor) {
  struct sockaddr_storage address = {0};
  socklen_t size = sizeof address;
  return syscall(number, descriptor, &address, &size) < 0 ? -1 : port_of((struct sockaddr *)&address);
}

static int bytes_wait(int descriptor) {
  char byte;
  long size = syscall(SYS_recvfrom, descriptor, &byte, 1, MSG_PEEK | MSG_DONTWAIT, NULL, NULL);
  return size < 0 ? -1 : size > 0;
}

/* Tells of the call that fails, of this descriptor, or -1. */
static void tell(int descriptor, int detail) {
  struct told *told = &record->told;
  int is_one = descriptor >= 0;
  told->descriptor = descriptor;
  told->own_port = is_one ? asked_port(SYS_getsockname, descriptor) : -1;
  told->peer_port = is_one ? asked_port(SYS_getpeername, descriptor) : -1;
  told->has_bytes = is_one ? bytes_wait(descriptor) : -1;
  told->is_ending = is_one && descriptor < MOST_DESCRIPTORS && is_ending[descriptor];
  told->detail = detail;
  told->thread = own_thread;
  told->is_ready = __atomic_load_n(&has_written, __ATOMIC_SEQ_CST);
  told->has_failed = 1;
  errno = failing_error;
}

static int fails_at(enum function function, int descriptor, int detail) {
  if (!fails(function)) return 0;
  tell(descriptor, detail);
  return 1;
}

static void mark(int descriptor, int is) {
  if (descriptor >= 0 && descriptor < MOST_DESCRIPTORS) is_ending[descriptor] = (char)is;
}

/* Notes that a descriptor was made, where it was. */
static int made(int descriptor) {
  if (descriptor >= 0 && record) __atomic_add_fetch(&record->open, 1, __ATOMIC_SEQ_CST);
  mark(descriptor, 0);
  return descriptor;
}

/* How many bytes a call moves that fails or moves a part of so many: -1 where it fails. */
static ssize_t part_of(size_t size) {
  return way == ONE ? (size > 0) : way == HALF ? (ssize_t)((size + 1) / 2) : way == NOTHING ? 0 : -1;
}

/* The same of a read: half of what has come, where that is less than the room for it. */
static ssize_t part_of_read(int descriptor, size_t size) {
  int there = 0;
  if (way == HALF && syscall(SYS_ioctl, descriptor, FIONREAD, &there) == 0 && there > 0 && (size_t)there < size) size = (size_t)there;
  return part_of(size);
}

static size_t at_most(size_t size) {
  return size < most_bytes ? size : most_bytes;
}

ssize_t read(int descriptor, void *bytes, size_t size) {
  NEXT(read);
  ssize_t part = fails_at(at_read, descriptor, -1) ? part_of_read(descriptor, size) : (ssize_t)size;
  return part < 0 || (part == 0 && size) ? part : next(descriptor, bytes, at_most((size_t)part));
}

ssize_t write(int descriptor, const void *bytes, size_t size) {
  NEXT(write);
  ssize_t part = fails_at(at_write, descriptor, -1) ? part_of(size) : (ssize_t)size;
  if (part < 0 || (part == 0 && size)) return part;
  __atomic_store_n(&has_written, 1, __ATOMIC_SEQ_CST);
  return next(descriptor, bytes, at_most((size_t)part));
}

/* A blocking read that fails is one that has waited, as where the other side resets. */
static void await_bytes(int descriptor, int flags) {
  struct pollfd asked = {descriptor, POLLIN, 0};
  if (syscall(SYS_fcntl, descriptor, F_GETFL) & O_NONBLOCK || flags & MSG_DONTWAIT) return;
  syscall(SYS_poll, &asked, 1, 5000);
}

static int fails_behind_bytes(int descriptor, int flags) {
  if (!fails(at_recv)) return 0;
  await_bytes(descriptor, flags);
  tell(descriptor, -1);
  return 1;
}

ssize_t recv(int descriptor, void *bytes, size_t size, int flags) {
  NEXT(recv);
  ssize_t part = fails_behind_bytes(descriptor, flags) ? part_of_read(descriptor, size) : (ssize_t)size;
  return part < 0 || (part == 0 && size) ? part : next(descriptor, bytes, at_most((size_t)part), flags);
}

ssize_t send(int descriptor, const void *bytes, size_t size, int flags) {
  NEXT(send);
  ssize_t part = fails_at(at_send, descriptor, -1) ? part_of(size) : (ssize_t)size;
  return part < 0 || (part == 0 && size) ? part : next(descriptor, bytes, at_most((size_t)part), flags);
}

int socket(int family, int kind, int protocol) {
  NEXT(socket);
  return fails_at(at_socket, -1, -1) ? -1 : made(next(family, kind, protocol));
}

int bind(int descriptor, const struct sockaddr *address, socklen_t size) {
  NEXT(bind);
  if (!fails_at(at_bind, descriptor, -1)) return next(descriptor, address, size);
  record->told.own_port = port_of(address);
  return -1;
}

int connect(int descriptor, const struct sockaddr *address, socklen_t size) {
  NEXT(connect);
  if (!fails_at(at_connect, descriptor, -1)) return next(descriptor, address, size);
  record->told.peer_port = port_of(address);
  return -1;
}

int listen(int descriptor, int backlog) {
  NEXT(listen);
  return fails_at(at_listen, descriptor, -1) ? -1 : next(descriptor, backlog);
}

int accept4(int descriptor, struct sockaddr *address, socklen_t *size, int flags) {
  NEXT(accept4);
  int waits = !(syscall(SYS_fcntl, descriptor, F_GETFL) & O_NONBLOCK);
  if (record) __atomic_add_fetch(&record->waiting, waits, __ATOMIC_SEQ_CST);
  return fails_at(at_accept4, descriptor, -1) ? -1 : made(next(descriptor, address, size, flags));
}

int getpeername(int descriptor, struct sockaddr *address, socklen_t *size) {
  NEXT(getpeername);
  return fails_at(at_getpeername, descriptor, -1) ? -1 : next(descriptor, address, size);
}

int getsockopt(int descriptor, int level, int option, void *value, socklen_t *size) {
  NEXT(getsockopt);
  return fails_at(at_getsockopt, descriptor, option) ? -1 : next(descriptor, level, option, value, size);
}

int setsockopt(int descriptor, int level, int option, const void *value, socklen_t size) {
  NEXT(setsockopt);
  return fails_at(at_setsockopt, descriptor, option) ? -1 : next(descriptor, level, option, value, size);
}

int shutdown(int descriptor, int how) {
  NEXT(shutdown);
  mark(descriptor, 1);
  return fails_at(at_shutdown, descriptor, how) ? -1 : next(descriptor, how);
}

int close(int descriptor) {
  NEXT(close);
  int is_failing = fails_at(at_close, descriptor, -1);
  int answer = next(descriptor);
  if (answer == 0 && record) __atomic_sub_fetch(&record->open, 1, __ATOMIC_SEQ_CST);
  if (is_failing) errno = failing_error;
  return is_failing ? -1 : answer;
}

int fcntl(int descriptor, int command, ...) {
  NEXT(fcntl);
  va_list rest;
  va_start(rest, command);
  void *argument = va_arg(rest, void *);
  va_end(rest);
  if (fails_at(at_fcntl, descriptor, command)) return -1;
  int answer = next(descriptor, command, argument);
  return command == F_DUPFD_CLOEXEC || command == F_DUPFD ? made(answer) : answer;
}

int ioctl(int descriptor, unsigned long request, ...) {
  NEXT(ioctl);
  va_list rest;
  va_start(rest, request);
  void *argument = va_arg(rest, void *);
  va_end(rest);
  return fails_at(at_ioctl, descriptor, (int)request) ? -1 : next(descriptor, request, argument);
}

int poll(struct pollfd *asked, nfds_t count, int wait) {
  NEXT(poll);
  return fails_at(at_poll, count ? asked->fd : -1, -1) ? -(way != NOTHING) : next(asked, count, wait);
}

int epoll_create1(int flags) {
  NEXT(epoll_create1);
  return fails_at(at_epoll_create1, -1, -1) ? -1 : made(next(flags));
}

int epoll_ctl(int set, int operation, int descriptor, struct epoll_event *event) {
  NEXT(epoll_ctl);
  return fails_at(at_epoll_ctl, descriptor, operation) ? -1 : next(set, operation, descriptor, event);
}

int epoll_wait(int set, struct epoll_event *events, int most, int wait) {
  NEXT(epoll_wait);
  return fails_at(at_epoll_wait, set, -1) ? -(way != NOTHING) : next(set, events, most, wait);
}

int getentropy(void *bytes, size_t size) {
  NEXT(getentropy);
  return fails_at(at_getentropy, -1, -1) ? -1 : next(bytes, size);
}

int clock_gettime(clockid_t clock, struct timespec *moment) {
  NEXT(clock_gettime);
  return fails_at(at_clock_gettime, -1, clock) ? -1 : next(clock, moment);
}

int nanosleep(const struct timespec *wait, struct timespec *left) {
  NEXT(nanosleep);
  return fails_at(at_nanosleep, -1, -1) ? -1 : next(wait, left);
}

struct job {
  void *(*run)(void *);
  void *argument;
  int number;
};

static struct job jobs[MOST_DESCRIPTORS];

static void *run_job(void *argument) {
  struct job *job = argument;
  own_thread = job->number;
  return job->run(job->argument);
}

/* It answers its error, and sets no errno. */
int pthread_create(pthread_t *thread, const pthread_attr_t *attributes, void *(*run)(void *), void *argument) {
  NEXT(pthread_create);
  if (fails_at(at_pthread_create, -1, -1)) return failing_error;
  int number = __atomic_add_fetch(&threads, 1, __ATOMIC_SEQ_CST);
  if (number >= MOST_DESCRIPTORS) return next(thread, attributes, run, argument);
  jobs[number] = (struct job){run, argument, number};
  return next(thread, attributes, run_job, &jobs[number]);
}

/* dlsym may want memory itself, so these two have the C library's other names for them. */
extern void *__libc_malloc(size_t size);
extern void *__libc_realloc(void *old, size_t size);

void *malloc(size_t size) {
  return fails_at(at_malloc, -1, -1) ? NULL : __libc_malloc(size);
}

void *realloc(void *old, size_t size) {
  return fails_at(at_realloc, -1, -1) ? NULL : __libc_realloc(old, size);
}
