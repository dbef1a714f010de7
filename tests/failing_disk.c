// A disk that fails when it is told to, for tests/disks.py: a file system (FUSE) of two files,
// `disk`, which a loop device stands on, and `control`, which takes commands. What is written to
// the disk is at once in the file below it, which so holds at each time what a power failure would
// leave.
//   failing_disk BELOW FOLDER NAMESPACE   mounts it in the folder, and serves it until it is
//                                         unmounted, or the process that has started it is gone
// NAMESPACE is the descriptor of another mount namespace, where it goes once it has mounted: else
// it would keep alive what is mounted on the disk, which can't be unmounted without it.
// The commands, one a write:
//   fail TEXT   each write whose bytes hold the text fails, and changes nothing
//   off         each write fails
//   heal        none fails
#define FUSE_USE_VERSION 31
#define _GNU_SOURCE
#include <errno.h>
#include <fcntl.h>
#include <fuse3/fuse.h>
#include <sched.h>
#include <signal.h>
#include <stdio.h>
#include <stdlib.h>
#include <string.h>
#include <sys/prctl.h>
#include <sys/stat.h>
#include <unistd.h>

enum { LONGEST = 256, MOST_OF_A_WRITE = 1 << 20 };
static const char disk[] = "/disk", control[] = "/control";

static int below, is_off;
static char failing[LONGEST];

static int is(const char *path, const char *other) { return strcmp(path, other) == 0; }

static int get_attributes(const char *path, struct stat *told, struct fuse_file_info *info) {
  (void)info;
  memset(told, 0, sizeof *told);
  if (is(path, "/")) {
    told->st_mode = S_IFDIR | 0700, told->st_nlink = 2;
    return 0;
  }
  if (!is(path, disk) && !is(path, control)) return -ENOENT;
  struct stat file;
  if (fstat(below, &file) != 0) return -errno;
  told->st_mode = S_IFREG | 0600, told->st_nlink = 1;
  if (is(path, disk)) told->st_size = file.st_size, told->st_blocks = file.st_blocks;
  return 0;
}

static int read_folder(const char *path, void *buffer, fuse_fill_dir_t fill, off_t at,
                       struct fuse_file_info *info, enum fuse_readdir_flags flags) {
  (void)path, (void)at, (void)info, (void)flags;
  const char *names[] = {".", "..", disk + 1, control + 1};
  for (int k = 0; k < 4; k++) fill(buffer, names[k], 0, 0, 0);
  return 0;
}

static int open_file(const char *path, struct fuse_file_info *info) {
  (void)path, (void)info;
  return 0;
}

// The disk keeps its length, and a command is written from the file's beginning.
static int set_length(const char *path, off_t length, struct fuse_file_info *info) {
  (void)path, (void)length, (void)info;
  return 0;
}

static int read_disk(const char *path, char *bytes, size_t count, off_t at,
                     struct fuse_file_info *info) {
  (void)info;
  if (!is(path, disk)) return 0;
  ssize_t done = pread(below, bytes, count, at);
  return done < 0 ? -errno : (int)done;
}

static int obey(const char *bytes, size_t count) {
  char command[LONGEST] = "";
  memcpy(command, bytes, count < LONGEST ? count : LONGEST - 1);
  command[strcspn(command, "\n")] = 0;
  if (strncmp(command, "fail ", 5) == 0) strcpy(failing, command + 5);
  else if (is(command, "off")) is_off = 1;
  else if (is(command, "heal")) is_off = 0, failing[0] = 0;
  else return -EINVAL;
  return (int)count;
}

static int write_disk(const char *bytes, size_t count, off_t at) {
  int fails = is_off || (failing[0] && memmem(bytes, count, failing, strlen(failing)));
  if (fails) return -EIO;
  ssize_t done = pwrite(below, bytes, count, at);
  return done < 0 ? -errno : (int)done;
}

static int write_file(const char *path, const char *bytes, size_t count, off_t at,
                      struct fuse_file_info *info) {
  (void)info;
  return is(path, control) ? obey(bytes, count) : write_disk(bytes, count, at);
}

static int sync_file(const char *path, int is_data, struct fuse_file_info *info) {
  (void)path, (void)is_data, (void)info;
  return 0;
}

static void *begin(struct fuse_conn_info *connection, struct fuse_config *config) {
  connection->max_write = MOST_OF_A_WRITE;
  config->kernel_cache = 0;
  return 0;
}

static const struct fuse_operations operations = {
    .getattr = get_attributes, .readdir = read_folder, .open = open_file, .truncate = set_length,
    .read = read_disk, .write = write_file, .fsync = sync_file, .init = begin};

int main(int count, char **words) {
  pid_t parent = getppid();
  if (count != 4) return 2;
  if (prctl(PR_SET_PDEATHSIG, SIGKILL) != 0 || getppid() != parent) return 1;
  below = open(words[1], O_RDWR | O_CLOEXEC);
  struct fuse_args arguments = FUSE_ARGS_INIT(1, words);
  struct fuse *served = fuse_new(&arguments, &operations, sizeof operations, 0);
  if (below < 0 || !served || fuse_mount(served, words[2]) != 0) return 1;
  if (setns(atoi(words[3]), CLONE_NEWNS) != 0) return 1;
  return fuse_loop(served) == 0 ? 0 : 1;
}
