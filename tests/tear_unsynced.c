// Fails calls on the file of a log, and tears what wasn't synced: a shared object that is loaded
// before the C library (LD_PRELOAD), for the tests on logs (tests/support/crashes.py). LOG is the path
// of the log, which is no link. A log that is made anew is first LOG.new, and then takes the place
// of LOG. It counts, from 1, the calls of open on these two and on their folder, of write on these
// two and on standard output, of pwrite, ftruncate, fallocate, fsync, fdatasync, pread, statx,
// flock, fchown and fchmod, and of rename and unlink of LOG.new.
//   FAIL_FROM, FAIL_TO  the calls of these numbers, but for those of unlink, fail, and do nothing
//   FAIL_UNLINK         those of unlink fail, too
//   FAIL_DONE           the calls that fail are carried out all the same
//   TEAR_AT, TEAR_SEED  after the call of this number, which is carried out, the process is killed
//                       as by a power failure: each byte that was written since the last sync is
//                       the old one or the new one, a length that was changed is any between the
//                       two, and a name that was given or taken since the folder's last sync is so
//                       or not
//   KILL_AT             after the call of this number the process is killed, and nothing is torn.
//                       Where a name wasn't synced then, the next process knows (by a file
//                       LOG.kept)
//   STOP_AT             after the call of this number the process is stopped, until it is let go on
//   TRACE               the path of a file that gets a line for each call: its name, and what it is
//                       on
//   KEEP_SYNCED         the path of a file that gets what the log has after each sync
//   DISK                the path of a folder that is a disk which promises no more than it has to:
//                       its file `log` is what a power failure leaves of LOG, also when further
//                       processes use the folder. A sync that fails, and the end of a process, drop
//                       what was written since the last sync, which later syncs don't bring back.
//                       With TEAR_SEED each byte of it, and a name that wasn't synced, gets there
//                       or not. Nothing is really synced then
// It needs no header, so that it can be built where only the kit's clang is there.
typedef __SIZE_TYPE__ size_t;
typedef long ssize_t;
typedef long off_t;

extern long syscall(long, ...);
extern char *getenv(const char *);
extern long strtol(const char *, char **, int);
extern void *malloc(size_t);
extern int access(const char *, int);
extern int *__errno_location(void);

enum { SYS_write = 1, SYS_open = 2, SYS_close = 3, SYS_stat = 4, SYS_fstat = 5, SYS_lseek = 8 };
enum { SYS_pread = 17, SYS_pwrite = 18, SYS_fallocate = 285 };
enum { SYS_getpid = 39, SYS_kill = 62, SYS_flock = 73, SYS_fsync = 74, SYS_fdatasync = 75 };
enum { SYS_ftruncate = 77, SYS_rename = 82, SYS_link = 86, SYS_unlink = 87, SYS_fchmod = 91 };
enum { SYS_fchown = 93, SYS_openat = 257, SYS_statx = 332, EIO = 5 };
enum { SEEK_CUR = 1, SEEK_END = 2, SIGKILL = 9, SIGSTOP = 19, AT_FDCWD = -100 };
enum { O_WRONLY = 01, O_RDWR = 02, O_CREAT = 0100, O_TRUNC = 01000, O_APPEND = 02000 };
enum { MANY = 4096, PIECE = 65536, FILES = 1024, LONGEST = 4096 };

// What a descriptor is of: the log, the one that is made anew, their folder, or anything else.
enum { OTHER, LOG, NEW, FOLDER };
static const char *name_of[] = {"", " log", " new", " folder"};

static int of[FILES];
static struct { int of; off_t at; size_t count; unsigned char *old; } written[MANY];
static int writes;
static off_t synced_len[] = {-1, -1, -1};  // of a file whose length has changed since
// LOG.new is, or it is LOG, and the folder wasn't synced since.
static int is_made, is_named;
static char log_path[LONGEST], new_path[LONGEST], kept_path[LONGEST], folder_path[LONGEST];
static char image_log_path[LONGEST];
static long calls, fail_from, fail_to, tear_at, kill_at, stop_at;
static int fails_unlink, fails_done, is_failing, is_mixed;
static const char *keep_synced, *trace, *disk;
static unsigned long state;

static long number(const char *name) {
  const char *text = getenv(name);
  return text ? strtol(text, 0, 10) : 0;
}

static size_t length(const char *text) {
  size_t count = 0;
  while (text[count]) count++;
  return count;
}

static int same(const char *one, const char *other) {
  size_t k = 0;
  while (one[k] && one[k] == other[k]) k++;
  return one[k] == other[k];
}

static void join(char *made, const char *text, const char *more) {
  size_t at = 0;
  for (size_t k = 0; text[k] && at < LONGEST - 1; k++) made[at++] = text[k];
  for (size_t k = 0; more[k] && at < LONGEST - 1; k++) made[at++] = more[k];
  made[at] = 0;
}

__attribute__((constructor)) static void read_environment(void) {
  fail_from = number("FAIL_FROM");
  fail_to = number("FAIL_TO");
  tear_at = number("TEAR_AT");
  kill_at = number("KILL_AT");
  stop_at = number("STOP_AT");
  fails_unlink = getenv("FAIL_UNLINK") != 0;
  fails_done = getenv("FAIL_DONE") != 0;
  is_mixed = getenv("TEAR_SEED") != 0;
  disk = getenv("DISK");
  keep_synced = getenv("KEEP_SYNCED");
  trace = getenv("TRACE");
  state = (unsigned long)number("TEAR_SEED") * 2 + 1;
  const char *log = getenv("LOG");
  if (!log) return;
  join(log_path, log, "");
  join(new_path, log, ".new");
  join(kept_path, log, ".kept");
  if (disk) join(image_log_path, disk, "/log");
  join(folder_path, log, "");
  size_t end = length(folder_path);
  while (end > 1 && folder_path[end] != '/') end--;
  folder_path[end] = 0;
  is_made = is_named = access(kept_path, 0) == 0;
}

static unsigned long chance(unsigned long limit) {
  state = state * 6364136223846793005ul + 1442695040888963407ul;
  return (state >> 33) % limit;
}

static void signal_itself(int number) { syscall(SYS_kill, syscall(SYS_getpid), number); }

// The path of a file that was written: the log is beside it once another one has its name.
static const char *path_of(int what) {
  return what == NEW ? (is_named ? log_path : new_path) : is_named ? kept_path : log_path;
}

// By the seed, of the bytes that differ none, all, the first ones or any are new.
static void tear_bytes(void) {
  unsigned long way = chance(4);
  for (int i = writes - 1; i >= 0; i--) {
    size_t first = chance(written[i].count + 1);
    int fd = (int)syscall(SYS_open, path_of(written[i].of), O_WRONLY);
    for (size_t k = 0; k < written[i].count; k++) {
      int is_new = way == 0 ? 0 : way == 1 ? 1 : way == 2 ? k < first : (int)chance(2);
      if (!is_new) syscall(SYS_pwrite, fd, written[i].old + k, 1, written[i].at + (off_t)k);
    }
    syscall(SYS_close, fd);
  }
}

static void tear_length(int what) {
  if (synced_len[what] < 0) return;
  int fd = (int)syscall(SYS_open, path_of(what), O_WRONLY);
  off_t len = syscall(SYS_lseek, fd, 0, SEEK_END);
  if (len > synced_len[what]) {
    off_t more = (off_t)chance((unsigned long)(len - synced_len[what]) + 1);
    syscall(SYS_ftruncate, fd, synced_len[what] + more);
  }
  syscall(SYS_close, fd);
}

// A name that wasn't synced is the old one or the new one.
static void tear_names(void) {
  if (is_named && chance(2)) {
    syscall(SYS_rename, log_path, new_path);
    syscall(SYS_rename, kept_path, log_path);
    is_named = 0;
  }
  if (is_made && !is_named && chance(2)) syscall(SYS_unlink, new_path);
}

static void tear(void) {
  tear_bytes();
  tear_length(LOG);
  tear_length(NEW);
  tear_names();
  syscall(SYS_unlink, kept_path);
  signal_itself(SIGKILL);
}

// Copies a file that was synced; a folder can't be read.
static void keep(int fd) {
  unsigned char *piece = malloc(PIECE);
  ssize_t count = syscall(SYS_pread, fd, piece, PIECE, 0l);
  if (count < 0) return;
  int copy = (int)syscall(SYS_open, keep_synced, O_WRONLY | O_CREAT | O_TRUNC, 0600);
  for (off_t at = 0; count > 0; count = syscall(SYS_pread, fd, piece, PIECE, at)) {
    syscall(SYS_write, copy, piece, count);
    at += count;
  }
  syscall(SYS_close, copy);
}

static int kind(int fd) { return fd >= 0 && fd < FILES ? of[fd] : OTHER; }

// The disk: each file of it has an image, by its number.

struct told {
  unsigned long device, number, links, modes, owners, other;
  off_t size;
  long more[11];
};

static void join_number(char *made, unsigned long number) {
  char digits[24];
  size_t at = sizeof digits - 1;
  for (digits[at] = 0; at == sizeof digits - 1 || number; number /= 10) {
    digits[--at] = (char)('0' + number % 10);
  }
  join(made, disk, "/");
  char folder[LONGEST];
  join(folder, made, "");
  join(made, folder, digits + at);
}

static void image_path_of(char *made, int fd) {
  struct told told;
  syscall(SYS_fstat, fd, &told);
  join_number(made, told.number);
}

// Copies a range of a file to its image, or, where it is dropped and mixed, some bytes of it.
static void copy_to_image(int fd, int image, off_t at, size_t count, int is_dropped) {
  unsigned char *bytes = malloc(count);
  ssize_t there = syscall(SYS_pread, fd, bytes, count, at);
  if (!is_dropped) {
    if (there > 0) syscall(SYS_pwrite, image, bytes, there, at);
    return;
  }
  unsigned long way = chance(4);
  size_t first = chance(count + 1);
  for (ssize_t k = 0; k < there; k++) {
    int is_new = way == 0 ? 0 : way == 1 ? 1 : way == 2 ? (size_t)k < first : (int)chance(2);
    if (is_new) syscall(SYS_pwrite, image, bytes + k, 1l, at + k);
  }
}

static int open_image(int fd) {
  char path[LONGEST];
  image_path_of(path, fd);
  return (int)syscall(SYS_open, path, O_RDWR | O_CREAT, 0600);
}

static void link_image_of_log(void) {
  struct told told;
  char path[LONGEST];
  syscall(SYS_unlink, image_log_path);
  if (syscall(SYS_stat, log_path, &told) != 0) return;
  join_number(path, told.number);
  syscall(SYS_link, path, image_log_path);
}

// A file that is made has an empty image. One that was there without any is on the disk as it is.
static void begin_image(int fd, int is_made_now) {
  struct told told;
  char path[LONGEST];
  syscall(SYS_fstat, fd, &told);
  image_path_of(path, fd);
  if (is_made_now) syscall(SYS_unlink, path);
  int is_known = access(path, 0) == 0;
  int image = open_image(fd);
  if (!is_made_now && !is_known) {
    copy_to_image(fd, image, 0, (size_t)told.size, 0);
    syscall(SYS_ftruncate, image, told.size);
    if (kind(fd) == LOG) link_image_of_log();
  }
  syscall(SYS_close, image);
}

static void sync_image(int fd, int what) {
  int image = open_image(fd);
  for (int i = 0; i < writes; i++) {
    if (written[i].of == what) copy_to_image(fd, image, written[i].at, written[i].count, 0);
  }
  if (synced_len[what] >= 0) syscall(SYS_ftruncate, image, syscall(SYS_lseek, fd, 0, SEEK_END));
  syscall(SYS_close, image);
}

static void keep_bytes(int what) {
  int left = 0;
  for (int i = 0; i < writes; i++) {
    if (written[i].of != what) written[left++] = written[i];
  }
  writes = left;
  synced_len[what] = -1;
}

// Lets go of what wasn't synced of a file, or of the names.
static void drop(int what) {
  if (!disk) return;
  if (what == FOLDER) {
    if (is_mixed && chance(2)) link_image_of_log();
    return;
  }
  for (int i = 0; is_mixed && i < writes; i++) {
    if (written[i].of != what) continue;
    int fd = (int)syscall(SYS_open, path_of(what), 0);
    if (fd < 0) continue;
    int image = open_image(fd);
    copy_to_image(fd, image, written[i].at, written[i].count, 1);
    syscall(SYS_close, image);
    syscall(SYS_close, fd);
  }
  keep_bytes(what);
}

static void count(const char *name, int what) {
  calls++;
  if (!trace) return;
  int fd = (int)syscall(SYS_open, trace, O_WRONLY | O_CREAT | O_APPEND, 0600);
  syscall(SYS_write, fd, name, length(name));
  syscall(SYS_write, fd, name_of[what], length(name_of[what]));
  syscall(SYS_write, fd, "\n", 1l);
  syscall(SYS_close, fd);
}

// Whether a call fails, and isn't carried out.
static int fails(const char *name, int what) {
  count(name, what);
  is_failing = calls >= fail_from && calls <= fail_to;
  if (!is_failing || fails_done) return 0;
  *__errno_location() = EIO;
  return 1;
}

// What a call that was carried out tells.
static long ends(long done) {
  if (calls == tear_at) tear();
  if (calls == kill_at) {
    drop(LOG), drop(NEW), drop(FOLDER);
    signal_itself(SIGKILL);
  }
  if (calls == stop_at) signal_itself(SIGSTOP);
  if (!is_failing) return done;
  *__errno_location() = EIO;
  return -1;
}

// Names

static int opened(int folder, const char *path, int flags, int mode) {
  int what = same(path, log_path) ? (is_named ? NEW : LOG) : same(path, new_path) ? NEW
           : same(path, folder_path) ? FOLDER : OTHER;
  if (what != OTHER && fails("open", what)) return -1;
  int was_there = what == OTHER || access(path, 0) == 0;
  int fd = (int)syscall(SYS_openat, folder, path, flags, mode);
  if (fd >= 0 && fd < FILES) of[fd] = what;
  if (fd >= 0 && same(path, new_path) && flags & O_CREAT) is_made = 1;
  if (what == OTHER) return fd;
  if (fd >= 0 && disk && what != FOLDER) begin_image(fd, !was_there);
  if (fd >= 0 && is_failing) syscall(SYS_close, fd);
  return (int)ends(fd);
}

int open(const char *path, int flags, int mode) { return opened(AT_FDCWD, path, flags, mode); }
int open64(const char *path, int flags, int mode) { return opened(AT_FDCWD, path, flags, mode); }
int openat(int folder, const char *path, int flags, int mode) {
  return opened(folder, path, flags, mode);
}
int openat64(int folder, const char *path, int flags, int mode) {
  return opened(folder, path, flags, mode);
}

int rename(const char *from, const char *to) {
  int is_log = same(from, new_path) && same(to, log_path);
  if (!is_log) return (int)syscall(SYS_rename, from, to);
  if (fails("rename", OTHER)) return -1;
  syscall(SYS_link, log_path, kept_path);
  int done = (int)syscall(SYS_rename, from, to);
  if (done == 0) is_named = 1;
  return (int)ends(done);
}

int unlink(const char *path) {
  if (!same(path, new_path)) return (int)syscall(SYS_unlink, path);
  if (fails("unlink", OTHER) && fails_unlink) return -1;
  int done = (int)syscall(SYS_unlink, path);
  if (done == 0) is_made = 0;
  is_failing = is_failing && fails_unlink;
  return (int)ends(done);
}

// The log that was made anew is the log.
static void keep_names(void) {
  if (is_named) {
    int left = 0;
    for (int i = 0; i < writes; i++) {
      if (written[i].of == NEW) written[left] = written[i], written[left++].of = LOG;
    }
    writes = left;
    for (int fd = 0; fd < FILES; fd++) {
      of[fd] = of[fd] == NEW ? LOG : of[fd] == LOG ? OTHER : of[fd];
    }
    synced_len[LOG] = synced_len[NEW], synced_len[NEW] = -1;
    syscall(SYS_unlink, kept_path);
  }
  is_made = is_named = 0;
}

// Bytes

// Keeps the bytes that are to be written over. A byte behind the end of the file is 0.
static void keep_old(int fd, size_t count, off_t at) {
  if (writes == MANY) return;
  unsigned char *old = malloc(count);
  for (size_t k = 0; k < count; k++) old[k] = 0;
  int readable = (int)syscall(SYS_open, path_of(kind(fd)), 0);
  syscall(SYS_pread, readable, old, count, at);
  syscall(SYS_close, readable);
  written[writes].of = kind(fd), written[writes].at = at;
  written[writes].count = count, written[writes].old = old;
  writes++;
}

static int is_log(int fd) { return kind(fd) == LOG || kind(fd) == NEW; }

ssize_t pwrite(int fd, const void *bytes, size_t count, off_t at) {
  if (fails("pwrite", kind(fd))) return -1;
  if (is_log(fd)) keep_old(fd, count, at);
  return ends(syscall(SYS_pwrite, fd, bytes, count, at));
}

static void keep_length(int fd) {
  if (is_log(fd) && synced_len[kind(fd)] < 0) {
    synced_len[kind(fd)] = syscall(SYS_lseek, fd, 0, SEEK_END);
  }
}

int ftruncate(int fd, off_t len) {
  if (fails("ftruncate", kind(fd))) return -1;
  keep_length(fd);
  return (int)ends(syscall(SYS_ftruncate, fd, len));
}

int fallocate(int fd, int mode, off_t at, off_t len) {
  if (fails("fallocate", kind(fd))) return -1;
  keep_length(fd);
  return (int)ends(syscall(SYS_fallocate, fd, mode, at, len));
}

static int synced(const char *name, int fd, long how) {
  int what = kind(fd);
  if (fails(name, what)) {
    if (what != OTHER) drop(what);
    return -1;
  }
  int done = disk ? 0 : (int)syscall(how, fd);
  if (is_log(fd) && disk) sync_image(fd, what);
  if (is_log(fd)) keep_bytes(what);
  if (what == FOLDER && disk) link_image_of_log();
  if (what == FOLDER) keep_names();
  if (keep_synced) keep(fd);
  return (int)ends(done);
}

int fsync(int fd) { return synced("fsync", fd, SYS_fsync); }
int fdatasync(int fd) { return synced("fdatasync", fd, SYS_fdatasync); }

ssize_t pread(int fd, void *bytes, size_t count, off_t at) {
  if (fails("pread", kind(fd))) return -1;
  return ends(syscall(SYS_pread, fd, bytes, count, at));
}

int statx(int fd, const char *path, int flags, unsigned mask, void *told) {
  if (fails("statx", OTHER)) return -1;
  return (int)ends(syscall(SYS_statx, fd, path, flags, mask, told));
}

int flock(int fd, int how) {
  if (fails("flock", kind(fd))) return -1;
  return (int)ends(syscall(SYS_flock, fd, how));
}

int fchown(int fd, unsigned owner, unsigned group) {
  if (fails("fchown", kind(fd))) return -1;
  return (int)ends(syscall(SYS_fchown, fd, owner, group));
}

int fchmod(int fd, unsigned mode) {
  if (fails("fchmod", kind(fd))) return -1;
  return (int)ends(syscall(SYS_fchmod, fd, mode));
}

ssize_t write(int fd, const void *bytes, size_t count) {
  if (fd != 1 && !is_log(fd)) return syscall(SYS_write, fd, bytes, count);
  if (fails("write", kind(fd))) return -1;
  if (is_log(fd)) keep_old(fd, count, syscall(SYS_lseek, fd, 0, SEEK_CUR));
  return ends(syscall(SYS_write, fd, bytes, count));
}

ssize_t __write(int fd, const void *bytes, size_t count) { return write(fd, bytes, count); }

// The same calls by the names that some programs know them by.
ssize_t pwrite64(int, const void *, size_t, off_t) __attribute__((alias("pwrite")));
ssize_t pread64(int, void *, size_t, off_t) __attribute__((alias("pread")));
int ftruncate64(int, off_t) __attribute__((alias("ftruncate")));
int fallocate64(int, int, off_t, off_t) __attribute__((alias("fallocate")));
