// host.c: what the compiled program asks of a system, as a WebAssembly module has it: streams, the words of the command, a clock, memory. There are no other
// files, no environment, no signals. Five functions are asked of JavaScript (web/program.js), to which pointers and counts go as numbers. The program's own
// numbers and sizes have 64 bits, whatever pointers have.
typedef unsigned long long u64;
typedef long long i64;
typedef __SIZE_TYPE__ size_t;
#define FROM_HOST(name) __attribute__((import_module("host"), import_name(#name)))

// Reads at most so many bytes of the source to this place. Answers how many, 0 at its end, and -1 where it can't be read.
FROM_HOST(read) double host_read(double to, double most);
// Writes so many bytes from this place to a stream. Answers how many, and -1 where they can't be written.
FROM_HOST(write) double host_write(int stream, double from, double count);
// Copies at most so many bytes of a word of the command, numbered from 0. Answers how many it has, and -1 where there is none.
FROM_HOST(argument) double host_argument(double number, double to, double most);
// Answers the time, in milliseconds.
FROM_HOST(now) double host_now(void);
// Answers whether a stream is a terminal.
FROM_HOST(terminal) int host_terminal(int stream);

// Answers a pointer as JavaScript takes it.
static double as_number(const void *pointer) { return (double)(size_t)pointer; }

// The latest failure of a stream.
static int last_error;
// Answers that failure.
int rattle_errno(void) { return last_error; }
// Sets it.
void rattle_set_errno(int error) { last_error = error; }

// Answers how many bytes a stream has moved, and notes a failure as a fault of the device (EIO), which is not tried again.
static i64 moved(double count) {
  if (count < 0) last_error = 5;
  return (i64)count;
}
// Reads standard input, the only stream that there is to read.
i64 read(int stream, void *to, u64 most) { return moved(host_read(as_number(to), (double)most)); }
// Writes to standard output or standard error.
i64 write(int stream, const void *from, u64 count) { return moved(host_write(stream, as_number(from), (double)count)); }
// Answers whether a stream is a terminal. Where standard error is one, long work tells there how far it has come.
int isatty(int stream) { return host_terminal(stream); }

// Copies a word of the command, as rattle's own args.c does on a system.
i64 rattle_arg(i64 number, void *to, u64 most) { return (i64)host_argument((double)number, as_number(to), (double)most); }
// Answers that no variable of the environment is set, asked by its name ..
i64 rattle_env(void *key, void *to, u64 most) { return -1; }
// .. or by its number.
i64 rattle_env_at(i64 number, void *to, u64 most) { return -1; }
// Does nothing: no signal comes. (The program asks that a closed pipe is a fault of writing, as it is here.)
i64 __sysv_signal(int signal, i64 action) { return 0; }

// A time, as the program has it in memory.
struct time { i64 seconds, nanoseconds; };
// Tells the time. The program compares two of them.
int clock_gettime(int clock, struct time *time) {
  double now = host_now();
  time->seconds = (i64)(now / 1000);
  time->nanoseconds = (i64)((now - (double)time->seconds * 1000) * 1e6);
  return 0;
}

// Answers that the processor has all that is asked for. A proved program asks at its start, since it is made for x86-64; the engine has tested this module already.
void *__x86_get_cpuid_feature_leaf(unsigned int leaf) {
  static unsigned int every_feature[16] = {~0u, ~0u, ~0u, ~0u, ~0u, ~0u, ~0u, ~0u, ~0u, ~0u, ~0u, ~0u, ~0u, ~0u, ~0u, ~0u};
  return every_feature;
}
// Writes what the program would say of a processor that is too old.
i64 __write(int stream, const void *from, u64 count) { return write(stream, from, count); }

// The heap. Each block has one of the sizes 32, 48, 64, 96 .., and begins with a head of 16 bytes, which names its class. Freed blocks of a class form a list.
struct head { u64 class; struct head *next; };
enum { HEAD = 16, PAGE = 65536, CLASSES = 128 };
static struct head *freed[CLASSES];
static size_t top;
extern unsigned char __heap_base;

// Answers the size of the blocks of a class.
static u64 size_of(int class) {
  u64 size = 32ull << (class >> 1);
  return class & 1 ? size + (size >> 1) : size;
}
// Answers the smallest class whose blocks have this size.
static int class_of(u64 size) {
  int class = size <= 32 ? 0 : 2 * (59 - __builtin_clzll(size - 1)) - 1;
  while (class > 0 && size_of(class - 1) >= size) class--;
  while (size_of(class) < size) class++;
  return class;
}
// Answers the head of a block.
static struct head *head_of(void *block) { return (struct head *)((char *)block - HEAD); }

// Has the memory reach up to this address, if the engine gives it. It grows by 16 megabytes at once where it can.
static int is_grown(size_t end) {
  size_t have = __builtin_wasm_memory_size(0), want = end / PAGE + 1;
  if (want <= have) return 1;
  size_t more = want - have, much = more < 256 ? 256 : more;
  return __builtin_wasm_memory_grow(0, much) != (size_t)-1 || __builtin_wasm_memory_grow(0, more) != (size_t)-1;
}
// Answers a new block of this class, from the top of the heap, or nothing.
static struct head *new_block(int class) {
  if (!top) top = ((size_t)&__heap_base + HEAD - 1) & ~(size_t)(HEAD - 1);
  u64 end = (u64)top + size_of(class);
  if (end != (size_t)end || !is_grown((size_t)end)) return 0;
  struct head *head = (struct head *)top;
  head->class = (u64)class;
  top = (size_t)end;
  return head;
}
// Answers room for so many bytes, or nothing. It is aligned to 16 bytes, the most that the program asks for.
static void *allocated(u64 size) {
  if (size > 1ull << 40) return 0;
  int class = class_of(size + HEAD);
  struct head *head = freed[class];
  if (head) freed[class] = head->next;
  else head = new_block(class);
  return head ? (char *)head + HEAD : 0;
}

// What the program takes for an answer: whether there is memory, and the block, or else a byte that nobody reads.
struct tried { u64 is_there, block; };
static struct tried as_answer(void *block) {
  static unsigned char nothing[HEAD];
  struct tried it = {block != 0, (u64)(size_t)(block ? block : nothing)};
  return it;
}
// Allocates. A block of no bytes has an address of its own.
struct tried rattle_alloc(u64 size, u64 align) { return as_answer(allocated(size ? size : align)); }
// Takes a block back.
void rattle_dealloc(void *block) {
  struct head *head = head_of(block);
  head->next = freed[head->class];
  freed[head->class] = head;
}
// Gives a block another size, and keeps so many of its bytes. If there is no memory for it, the old block stays.
struct tried rattle_realloc(void *block, u64 kept, u64 size, u64 align) {
  if (!size) size = align;
  if (size_of((int)head_of(block)->class) - HEAD >= size) return as_answer(block);
  void *larger = allocated(size);
  if (larger) {
    __builtin_memcpy(larger, block, kept < size ? kept : size);
    rattle_dealloc(block);
  }
  return as_answer(larger);
}

extern int main(void);
// Runs the program, and answers its status.
__attribute__((export_name("start"))) int start(void) { return main(); }
