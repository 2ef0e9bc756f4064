/* Loads an image of terrac on a RISC-V machine under Linux, and calls an export there: no machine but the processor runs it.
 *
 *     host IMAGE EXPORT [ARGUMENT..]
 *
 * It writes what the export writes, and its result or its fault, as `terrac exec EXPORT ARGUMENT..` does. The section "A host on RISC-V"
 * of docs/IMAGE.md tells what a host has to do, in these steps. The image is taken to be one that terrac wrote: of a file that may be
 * anything, a host makes the tests of that page first. */

#include <elf.h>
#include <errno.h>
#include <inttypes.h>
#include <signal.h>
#include <stdint.h>
#include <stdio.h>
#include <stdlib.h>
#include <string.h>
#include <sys/mman.h>
#include <ucontext.h>
#include <unistd.h>

enum { ECALL = 0x00000073, EBREAK = 0x00100073 };
enum { WRITE = 64, FAULT = 1024 };
enum { UNIT = 0, BOOL = 9, MOST_ARGUMENTS = 8 };

/* The statuses with which `terrac exec` ends. */
enum { OK = 0, USAGE = 2, NO_ENTRY = 6, BAD_ARGUMENT = 7, PROGRAM_FAULT = 8, BAD_IMAGE = 10, NO_MEMORY = 13, MACHINE_FAULT = 14 };

static void end(int status, const char *line) {
  fprintf(stderr, "%s\n", line);
  exit(status);
}

/* ---- 1. The file. */

static unsigned char *file;
static size_t file_size;

static void read_file(const char *path) {
  FILE *in = fopen(path, "rb");
  if (!in) end(BAD_IMAGE, "host: the image can't be read");
  fseek(in, 0, SEEK_END);
  file_size = (size_t)ftell(in);
  rewind(in);
  file = malloc(file_size);
  if (!file || fread(file, 1, file_size, in) != file_size) end(BAD_IMAGE, "host: the image can't be read");
  fclose(in);
}

/* The bytes from an offset on, of which so many have to be there. */
static const void *at(uint64_t offset, uint64_t size) {
  if (offset > file_size || size > file_size - offset) end(BAD_IMAGE, "bad image Short");
  return file + offset;
}

/* ---- 2. The three memories, in the order of the program headers. */

enum { TEXT, REGION, PRIVATE, SEGMENTS };
static Elf64_Phdr segments[SEGMENTS];
static const uint32_t *words; /* of the text, as the file has them */

static void map(int which, int may) {
  const Elf64_Phdr *segment = &segments[which];
  void *wanted = (void *)segment->p_vaddr;
  if (segment->p_memsz == 0) return;
  void *got = mmap(wanted, segment->p_memsz, PROT_READ | PROT_WRITE, MAP_PRIVATE | MAP_ANONYMOUS | MAP_NORESERVE | MAP_FIXED_NOREPLACE, -1, 0);
  if (got != wanted) end(NO_MEMORY, "host: no memory at the address of a segment");
  memcpy(wanted, at(segment->p_offset, segment->p_filesz), segment->p_filesz);
  if (which == TEXT) {
    /* Each call of the outside becomes a trap, which this host handles. */
    uint32_t *text = wanted;
    for (uint64_t i = 0; i < segment->p_filesz / 4; i++)
      if (text[i] == ECALL) text[i] = EBREAK;
    __builtin___clear_cache((char *)wanted, (char *)wanted + segment->p_filesz);
  }
  if (mprotect(wanted, segment->p_memsz, may)) end(NO_MEMORY, "host: no memory that can be executed");
}

static void load(void) {
  const Elf64_Ehdr *header = at(0, sizeof *header);
  if (memcmp(header->e_ident, ELFMAG, SELFMAG) || header->e_machine != EM_RISCV || header->e_phnum != SEGMENTS)
    end(BAD_IMAGE, "host: this is no image");
  memcpy(segments, at(header->e_phoff, sizeof segments), sizeof segments);
  words = at(segments[TEXT].p_offset, segments[TEXT].p_filesz);
  map(TEXT, PROT_EXEC);
  map(REGION, PROT_READ | PROT_WRITE);
  map(PRIVATE, PROT_READ | PROT_WRITE);
}

/* ---- 3. The export, from `.terra`. */

struct terra {
  uint32_t version, exports;
  uint64_t memory, heap, private_size;
};

struct record {
  uint64_t address;
  uint8_t types[MOST_ARGUMENTS], parameters, result, unused[2];
  uint32_t name;
};

static const struct terra *terra;

static const struct record *export_named(const char *name) {
  const Elf64_Ehdr *header = at(0, sizeof *header);
  const Elf64_Shdr *sections = at(header->e_shoff, 6 * sizeof *sections);
  const Elf64_Shdr *strtab = &sections[5];
  terra = at(sections[3].sh_offset, sizeof *terra);
  const struct record *records = at(sections[3].sh_offset + sizeof *terra, terra->exports * sizeof *records);
  for (uint32_t i = 0; i < terra->exports; i++)
    if (!strcmp(at(strtab->sh_offset + records[i].name, 1), name)) return &records[i];
  fprintf(stderr, "no entry %s\n", name);
  exit(NO_ENTRY);
}

/* ---- Values by the codes of their types: 1 to 4 int8 to int64, 5 to 8 uint8 to uint64, 9 bool, 10 a pointer. */

static int is_signed(int code) { return 1 <= code && code <= 4; }

static int bits_of(int code) { return code > 8 ? 64 : 8 << (code - 1) % 4; }

/* The word of an argument; it answers whether the type has it. */
static int argument(int code, const char *text, uint64_t *word) {
  if (code == BOOL) {
    *word = !strcmp(text, "true");
    return *word || !strcmp(text, "false");
  }
  char *rest;
  int below = *text == '-';
  if (text[below] < '0' || text[below] > '9') return 0;
  errno = 0;
  uint64_t size = strtoull(text + below, &rest, 10);
  if (errno || *rest) return 0;
  uint64_t most = is_signed(code) ? (1ull << (bits_of(code) - 1)) - 1 : ~0ull >> (64 - bits_of(code));
  *word = below ? -size : size;
  return size <= (below ? (is_signed(code) ? most + 1 : 0) : most);
}

static void print_result(int code, uint64_t word) {
  int unused = 64 - (code ? bits_of(code) : 64);
  if (code == UNIT) printf("result none\n");
  else if (code == BOOL) printf("result %s\n", word & 1 ? "true" : "false");
  else if (is_signed(code)) printf("result %" PRId64 "\n", (int64_t)(word << unused) >> unused);
  else printf("result %" PRIu64 "\n", word << unused >> unused);
}

/* ---- 4. to 7. The call. A trap begins it: its handler puts the registers of the start in the place of the host's, and the host's back
 * when the call is over. */

static unsigned long begin[32], host[32]; /* the program counter, and x1 to x31 */
static volatile int running;
static struct {
  int status;
  uint64_t value, place, pc;
  const char *kind;
} over;

/* The image's code has x3 and x4 for itself, which are gp and tp of this host. Its handlers take their own first. */
unsigned long thread_pointer;
void trapped(int, siginfo_t *, void *);
asm(".text\n.globl trapped\n.option push\n.option norelax\n"
    "trapped: lla gp, __global_pointer$\n"
    "lla t0, thread_pointer\n"
    "ld tp, 0(t0)\n"
    ".option pop\n"
    "j handle\n");

/* All bytes, or not. */
static int write_all(const void *bytes, uint64_t count) {
  for (const char *rest = bytes; count;) {
    ssize_t took = write(STDOUT_FILENO, rest, count);
    if (took <= 0) return 0;
    rest += took;
    count -= (uint64_t)took;
  }
  return 1;
}

static int stop(int status, const char *kind, const unsigned long *registers) {
  over.status = status;
  over.kind = kind;
  over.value = registers[10];
  over.place = registers[11];
  over.pc = registers[0];
  return 1;
}

/* What an ECALL does, and whether it ends the call. */
static int call(unsigned long *registers) {
  if (registers[17] == FAULT && 1 <= registers[10] && registers[10] <= 6) return stop(PROGRAM_FAULT, NULL, registers);
  if (registers[17] != WRITE || registers[10] != 1) return stop(MACHINE_FAULT, "BadCall", registers);
  if (!write_all((void *)registers[11], registers[12])) return stop(MACHINE_FAULT, "BadCall", registers);
  registers[10] = registers[12];
  registers[0] += 4;
  return 0;
}

/* What a trap of the image's code means, and whether it ends the call. */
static int trap(int number, unsigned long *registers) {
  unsigned long pc = registers[0], place = pc - segments[TEXT].p_vaddr;
  if (number == SIGSEGV && pc == 0) return stop(OK, NULL, registers);
  if (place >= segments[TEXT].p_filesz || place % 4) return stop(MACHINE_FAULT, "BadFetch", registers);
  if (number == SIGTRAP) return words[place / 4] == ECALL ? call(registers) : stop(MACHINE_FAULT, "Break", registers);
  return stop(MACHINE_FAULT, number == SIGILL ? "IllegalWord" : "BadAccess", registers);
}

__attribute__((used)) void handle(int number, siginfo_t *info, void *context) {
  unsigned long *registers = ((ucontext_t *)context)->uc_mcontext.__gregs;
  (void)info;
  if (!running) {
    if (number != SIGTRAP) _exit(1);
    memcpy(host, registers, sizeof host);
    memcpy(registers, begin, sizeof begin);
    running = 1;
  } else if (trap(number, registers)) {
    running = 0;
    memcpy(registers, host, sizeof host);
    registers[0] += 4;
  }
}

static void run(const struct record *callee, const uint64_t *arguments) {
  static unsigned char stack[65536]; /* of the handlers: the image's own is not for them */
  stack_t own = {.ss_sp = stack, .ss_size = sizeof stack};
  struct sigaction action = {.sa_sigaction = trapped, .sa_flags = SA_SIGINFO | SA_ONSTACK};
  sigaltstack(&own, NULL);
  sigaction(SIGTRAP, &action, NULL);
  sigaction(SIGSEGV, &action, NULL);
  sigaction(SIGBUS, &action, NULL);
  sigaction(SIGILL, &action, NULL);
  asm("mv %0, tp" : "=r"(thread_pointer));
  begin[0] = callee->address;
  begin[2] = segments[PRIVATE].p_vaddr + segments[PRIVATE].p_memsz;
  begin[3] = terra->heap;
  begin[4] = segments[REGION].p_vaddr + segments[REGION].p_memsz;
  memcpy(&begin[10], arguments, MOST_ARGUMENTS * sizeof *arguments);
  asm volatile(".option push\n.option norvc\nebreak\n.option pop" ::: "memory");
}

int main(int count, char **text) {
  static const char *kinds[] = {"", "BadAddress", "DivZero", "StackFull", "CallDepth", "NoReturn", "BadCall"};
  uint64_t arguments[MOST_ARGUMENTS] = {0};
  if (count < 3) end(USAGE, "usage: host IMAGE EXPORT [ARGUMENT..]");
  read_file(text[1]);
  load();
  const struct record *callee = export_named(text[2]);
  int given = count - 3;
  for (int i = 0; i < given || i < callee->parameters; i++) {
    if (i < given && i < callee->parameters && argument(callee->types[i], text[i + 3], &arguments[i])) continue;
    fprintf(stderr, "bad argument %d\n", i + 1);
    return BAD_ARGUMENT;
  }
  run(callee, arguments);
  if (over.status == OK) print_result(callee->result, over.value);
  else if (over.status == PROGRAM_FAULT)
    fprintf(stderr, "fault %s at %" PRIu64 ":%" PRIu64 "\n", kinds[over.value], over.place >> 32, over.place & 0xffffffff);
  else fprintf(stderr, "machine fault %s at %" PRIu64 "\n", over.kind, over.pc);
  return over.status;
}
