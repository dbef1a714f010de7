// Refuses growths of memory, and counts blocks: a shared object that is loaded before the C library
// (LD_PRELOAD), for tests/hostile.py. Growths, that is calls of malloc, calloc and realloc, are
// counted from 1. Those from number REFUSE_FROM to number REFUSE_TO are refused; each refusal makes
// the file REFUSED.
// A mark is a growth of an agreed size that nobody can give: it begins a stretch, and the next one
// of the same size ends it. There are three kinds:
//   2^62 + 1  where BETWEEN_MARKS is set, growths count only in such a stretch;
//   2^62 + 3  a growth in such a stretch ends the process with status GREW;
//   2^62 + 5  if other many blocks are in use at the end than at the beginning, the process ends
//             with status KEPT.
// That a run meets its marks is shown by a run in which CONTROL is one of these words: with
// "growth" a growth that counts ends the process with GREW, with "quiet" the beginning of a stretch
// of the second kind does, and with "block" the end of one of the third kind ends it with KEPT.
// It needs no header, so that it can be built where only the kit's clang is there.
typedef __SIZE_TYPE__ size_t;

extern void *__libc_malloc(size_t);
extern void *__libc_calloc(size_t, size_t);
extern void *__libc_realloc(void *, size_t);
extern void __libc_free(void *);
extern char *getenv(const char *);
extern long strtol(const char *, char **, int);
extern int creat(const char *, unsigned);
extern int close(int);
extern void _exit(int);
extern int *__errno_location(void);
enum { ENOMEM = 12, GREW = 90, KEPT = 91 };

static const size_t counting = ((size_t)1 << 62) + 1, quiet = counting + 2, tally = counting + 4;
static _Atomic long growths, blocks;
static _Atomic int counts, is_quiet, is_tallied;
static long from, to, tallied;
static int has_marks;
static const char *refused, *control = "";

__attribute__((constructor)) static void read_environment(void) {
  const char *first = getenv("REFUSE_FROM"), *last = getenv("REFUSE_TO");
  refused = getenv("REFUSED");
  has_marks = getenv("BETWEEN_MARKS") != 0;
  if (getenv("CONTROL")) control = getenv("CONTROL");
  counts = !has_marks;
  if (first && last && refused) {
    growths = 0;
    to = strtol(last, 0, 10);
    from = strtol(first, 0, 10);
  }
}

static int is_mark(size_t size) {
  if (size == counting && has_marks) {
    counts = !counts;
  } else if (size == quiet) {
    if (*control == 'q') _exit(GREW);
    is_quiet = !is_quiet;
  } else if (size == tally) {
    if (is_tallied && (blocks != tallied || *control == 'b')) _exit(KEPT);
    tallied = blocks;
    is_tallied = !is_tallied;
  } else {
    return 0;
  }
  return 1;
}

static int is_refused(void) {
  if (is_quiet) _exit(GREW);
  if (!counts) return 0;
  if (*control == 'g') _exit(GREW);
  long number = ++growths;
  if (!from || number < from || number > to) return 0;
  close(creat(refused, 0600));
  return 1;
}

static int refuses(size_t size) {
  if (!is_mark(size) && !is_refused()) return 0;
  *__errno_location() = ENOMEM;
  return 1;
}

static void *given(void *block) {
  if (block) blocks++;
  return block;
}

void *malloc(size_t size) { return refuses(size) ? 0 : given(__libc_malloc(size)); }

void *calloc(size_t count, size_t size) {
  return refuses(0) ? 0 : given(__libc_calloc(count, size));
}

void *realloc(void *block, size_t size) {
  if (refuses(size)) return 0;
  return block ? __libc_realloc(block, size) : given(__libc_realloc(block, size));
}

void free(void *block) {
  if (block) blocks--;
  __libc_free(block);
}
