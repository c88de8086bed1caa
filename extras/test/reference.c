// A plain interpreter of RV32IMA Linux programs that makes the reports of superpin's tools, written from the RISC-V manual,
// elf(5) and docs/FORMATS.md alone, so that the tests here have a judge of their own:
//
//     reference run [--by serial] [--tool TOOL] FILE [ARGS]
//
// TOOL is icount, blocks, calls or cache:S:B. The report goes to the standard error. Of the calls it has read, write, exit,
// getpid, brk and clock_gettime64, which tells the moments 0. It trusts its words and its program to be well formed.
#include <elf.h>
#include <inttypes.h>
#include <stdbool.h>
#include <stdint.h>
#include <stdio.h>
#include <stdlib.h>
#include <string.h>
#include <sys/mman.h>
#include <unistd.h>

enum { PAGE = 4096, MAY_READ = 4, MAY_WRITE = 2, MAY_RUN = 1 };
static const uint32_t STACK = 0x7fe00000 + 0xff000, STACK_END = 0x7ffff000, MEMORY_END = 0x80000000;

static uint8_t *memory;                         // of 2^31 addresses
static uint8_t rights[1 << 19];                 // of each page
static uint32_t x[32], pc, heap_start, heap_end;
static bool is_reserved;                        // whether an address is
static uint32_t reserved;
static const char *tool;
static Elf32_Ehdr *elf;

// The tools.

struct routine {
    uint32_t start, end;
    const char *name;
    size_t place;
};

static struct routine *routines;
static size_t routine_count;
static uint64_t instructions, accesses, hits, misses, depth;
static uint64_t *heads;                         // how often each word began a block
static uint32_t sets, line_size;
static int64_t *kept;

static void write_routine(uint32_t address) {
    const char *name = NULL;
    for (size_t i = 0; i < routine_count; i++)
        if (routines[i].start <= address && address < routines[i].end) name = routines[i].name;
    if (name == NULL) name = "-";
    fputc(' ', stderr);
    for (; *name != 0; name++) fputc(*name >= 0x21 && *name <= 0x7e ? *name : '?', stderr);
    fputc('\n', stderr);
}

static void access_line(uint32_t address) {
    uint32_t line = address / line_size, set = line % sets;
    accesses++;
    if (kept[set] == line) hits++;
    else misses++;
    kept[set] = line;
}

static void access_bytes(uint32_t address, uint32_t size) {
    if (sets == 0) return;
    uint32_t last = address + size - 1;
    access_line(address);
    if (last / line_size != address / line_size) access_line(last);
}

static void make_call(uint32_t from, uint32_t to) {
    if (strcmp(tool, "calls") == 0) {
        fprintf(stderr, "call %" PRIu64 " 0x%08x 0x%08x", depth, from, to);
        write_routine(to);
    }
    depth++;
}

static void make_return(void) {
    if (depth > 0) depth--;
}

static uint32_t word_at(uint32_t address) {
    uint32_t word;
    memcpy(&word, memory + address, 4);
    return word;
}

static bool is_known(uint32_t word);
static bool ends_block(uint32_t word) {
    uint32_t opcode = word & 0x7f;
    return opcode == 0x63 || opcode == 0x6f || opcode == 0x67 || opcode == 0x73;
}

static bool is_code(uint32_t address) {
    return address <= MEMORY_END - 4 && rights[address / PAGE] & MAY_RUN && rights[(address + 3) / PAGE] & MAY_RUN;
}

static void write_blocks(void) {
    for (uint32_t head = 0; head < MEMORY_END; head += 4) {
        if (!(rights[head / PAGE] & MAY_RUN)) {
            head = (head / PAGE + 1) * PAGE - 4;
            continue;
        }
        if (heads[head / 4] == 0) continue;
        uint32_t length = 0, at = head;
        while (is_code(at) && is_known(word_at(at))) {
            length++;
            if (ends_block(word_at(at))) break;
            at += 4;
        }
        fprintf(stderr, "block 0x%08x %u %" PRIu64, head, length, heads[head / 4]);
        write_routine(head);
    }
}

static _Noreturn void end(int status, const char *line) {
    fflush(stdout);
    if (strcmp(tool, "icount") == 0) fprintf(stderr, "icount %" PRIu64 "\n", instructions);
    if (strcmp(tool, "blocks") == 0) write_blocks();
    if (sets > 0) fprintf(stderr, "cache %u %u accesses %" PRIu64 " hits %" PRIu64 " misses %" PRIu64 "\n", sets, line_size, accesses, hits, misses);
    fputs(line, stderr);
    exit(status);
}

static _Noreturn void fault(int signal) {
    char line[64];
    snprintf(line, sizeof line, "end signal %d at 0x%08x\n", signal, pc);
    end(128 + signal, line);
}

// Memory.

static bool is_allowed(uint32_t address, uint32_t size, int wanted) {
    for (uint64_t at = address; at < (uint64_t)address + size; at++)
        if (at >= MEMORY_END || !(rights[at / PAGE] & wanted)) return false;
    return true;
}

static void allow(uint32_t from, uint32_t to, int wanted) {
    for (uint32_t page = from / PAGE; page < (to + PAGE - 1) / PAGE; page++) rights[page] |= wanted;
}

static uint32_t load(uint32_t address, uint32_t size) {
    uint32_t value = 0;
    access_bytes(address, size);
    if (!is_allowed(address, size, MAY_READ)) fault(11);
    memcpy(&value, memory + address, size);
    return value;
}

static void store(uint32_t address, uint32_t size, uint32_t value) {
    access_bytes(address, size);
    if (!is_allowed(address, size, MAY_WRITE)) fault(11);
    memcpy(memory + address, &value, size);
}

// Calls.

static uint32_t call_read(uint32_t file, uint32_t address, uint32_t size) {
    uint32_t done = 0;
    if (size > 65536) size = 65536;
    if (file != 0) return -9;
    if (!is_allowed(address, size, MAY_WRITE)) return -14;
    while (done < size) {
        ssize_t more = read(0, memory + address + done, size - done);
        if (more <= 0) break;
        done += more;
    }
    return done;
}

static uint32_t call_write(uint32_t file, uint32_t address, uint32_t size) {
    if (file != 1 && file != 2) return -9;
    if (!is_allowed(address, size, MAY_READ)) return -14;
    fwrite(memory + address, 1, size, file == 1 ? stdout : stderr);
    return size;
}

static uint32_t call_brk(uint32_t to) {
    if (to < heap_end || to > 0x40000000 || (to - heap_start) / PAGE > 16000) return heap_end;
    allow((heap_end + PAGE - 1) / PAGE * PAGE, to, MAY_READ | MAY_WRITE);
    return heap_end = to;
}

static void call(void) {
    switch (x[17]) {
    case 63: x[10] = call_read(x[10], x[11], x[12]); break;
    case 64: x[10] = call_write(x[10], x[11], x[12]); break;
    case 93: {
        char line[32];
        snprintf(line, sizeof line, "end exit %u\n", x[10] & 255);
        end(x[10] & 255, line);
    }
    case 172: x[10] = 1000; break;
    case 214: x[10] = call_brk(x[10]); break;
    case 403:
        if (!is_allowed(x[11], 16, MAY_WRITE)) x[10] = -14;
        else memset(memory + x[11], 0, 16), x[10] = 0;
        break;
    default:
        fflush(stdout);
        fprintf(stderr, "superpin: 6 unsupported call %u at 0x%08x\n", x[17], pc);
        exit(125);
    }
}

// Instructions.

static bool is_known(uint32_t word) {
    uint32_t opcode = word & 0x7f, three = word >> 12 & 7, seven = word >> 25;
    switch (opcode) {
    case 0x37: case 0x17: case 0x6f: return true;
    case 0x67: return three == 0;
    case 0x63: return three != 2 && three != 3;
    case 0x03: return three != 3 && three < 6;
    case 0x23: return three < 3;
    case 0x13: return three == 1 ? seven == 0 : three != 5 || seven == 0 || seven == 0x20;
    case 0x33: return seven == 0 || seven == 1 || (seven == 0x20 && (three == 0 || three == 5));
    case 0x2f: return three == 2 && (seven >> 2 == 2 ? (word >> 20 & 31) == 0 : seven >> 2 < 4 || (seven >> 2) % 4 == 0);
    case 0x0f: return three == 0;
    case 0x73: return word == 0x73 || word == 0x100073;
    default: return false;
    }
}

static uint32_t multiply(int three, uint32_t a, uint32_t b) {
    int64_t left = (int32_t)a, right = (int32_t)b;
    switch (three) {
    case 0: return a * b;
    case 1: return (uint64_t)(left * right) >> 32;
    case 2: return (uint64_t)(left * (int64_t)(uint64_t)b) >> 32;
    case 3: return (uint64_t)a * b >> 32;
    case 4: return b == 0 ? ~0u : a == 0x80000000 && b == ~0u ? a : (uint32_t)((int32_t)a / (int32_t)b);
    case 5: return b == 0 ? ~0u : a / b;
    case 6: return b == 0 ? a : a == 0x80000000 && b == ~0u ? 0 : (uint32_t)((int32_t)a % (int32_t)b);
    default: return b == 0 ? a : a % b;
    }
}

static uint32_t compute(int three, bool other, uint32_t a, uint32_t b) {
    switch (three) {
    case 0: return other ? a - b : a + b;
    case 1: return a << (b & 31);
    case 2: return (int32_t)a < (int32_t)b;
    case 3: return a < b;
    case 4: return a ^ b;
    case 5: return other ? (uint32_t)((int32_t)a >> (b & 31)) : a >> (b & 31);
    case 6: return a | b;
    default: return a & b;
    }
}

// What an atomic memory operation stores.
static uint32_t change(int five, uint32_t old, uint32_t b) {
    switch (five) {
    case 0: return old + b;
    case 1: return b;
    case 4: return old ^ b;
    case 8: return old | b;
    case 12: return old & b;
    case 16: return (int32_t)old < (int32_t)b ? old : b;
    case 20: return (int32_t)old > (int32_t)b ? old : b;
    case 24: return old < b ? old : b;
    default: return old > b ? old : b;
    }
}

// Carries out an atomic; gives what goes to rd.
static uint32_t atomic(int five, uint32_t address, uint32_t b) {
    uint32_t old;
    access_bytes(address, 4);
    if (address & 3) fault(7);
    if (!is_allowed(address, 4, MAY_READ) || (five != 2 && !is_allowed(address, 4, MAY_WRITE))) fault(11);
    memcpy(&old, memory + address, 4);
    bool stores = is_reserved && reserved == address;
    switch (five) {
    case 2:
        is_reserved = true;
        reserved = address;
        return old;
    case 3:
        is_reserved = false;
        if (stores) memcpy(memory + address, &b, 4);
        return !stores;
    default:
        b = change(five, old, b);
        memcpy(memory + address, &b, 4);
        return old;
    }
}

static bool is_taken(int three, uint32_t a, uint32_t b) {
    bool holds = three < 2 ? a == b : three < 6 ? (int32_t)a < (int32_t)b : a < b;
    return holds != (three & 1);
}

// Goes to the target; tells the tool what kind of link the jump is.
static uint32_t jump(uint32_t target, uint32_t rd, bool is_direct, uint32_t rs1) {
    if (target & 3) fault(7);
    bool links = rd == 1 || rd == 5, is_linked = !is_direct && (rs1 == 1 || rs1 == 5);
    if (is_linked && !(links && rd == rs1)) make_return();
    if (links) make_call(pc, target);
    return target;
}

// Makes one step; tells whether the instruction ended a block.
static bool step(void) {
    if (!is_code(pc)) fault(11);
    uint32_t word = word_at(pc), opcode = word & 0x7f, rd = word >> 7 & 31, rs1 = word >> 15 & 31, three = word >> 12 & 7;
    if (!is_known(word)) fault(4);
    instructions++;
    uint32_t a = x[rs1], b = x[word >> 20 & 31], next = pc + 4, immediate = (int32_t)word >> 20, result = 0;
    bool writes = true;
    switch (opcode) {
    case 0x37: result = word & ~0xfffu; break;
    case 0x17: result = pc + (word & ~0xfffu); break;
    case 0x6f: {
        uint32_t offset = ((int32_t)word >> 31 << 20) | (word & 0xff000) | (word >> 9 & 0x800) | (word >> 20 & 0x7fe);
        next = jump(pc + offset, rd, true, 0);
        result = pc + 4;
        break;
    }
    case 0x67:
        next = jump((a + immediate) & ~1u, rd, false, rs1);
        result = pc + 4;
        break;
    case 0x63: {
        uint32_t offset = ((int32_t)word >> 31 << 12) | (word << 4 & 0x800) | (word >> 20 & 0x7e0) | (word >> 7 & 0x1e);
        if (is_taken(three, a, b)) {
            next = pc + offset;
            if (next & 3) fault(7);
        }
        writes = false;
        break;
    }
    case 0x03:
        result = load(a + immediate, 1u << (three & 3));
        if (three == 0) result = (int32_t)(int8_t)result;
        if (three == 1) result = (int32_t)(int16_t)result;
        break;
    case 0x23:
        store(a + (((int32_t)word >> 25 << 5) | rd), 1u << three, b);
        writes = false;
        break;
    case 0x13: result = compute(three, three == 5 && word >> 30 & 1, a, immediate); break;
    case 0x33: result = word >> 25 == 1 ? multiply(three, a, b) : compute(three, word >> 30 & 1, a, b); break;
    case 0x2f: result = atomic(word >> 27, a, b); break;
    case 0x73:
        if (word == 0x100073) fault(5);
        call();
        is_reserved = false;
        writes = false;
        break;
    default: writes = false;
    }
    if (writes && rd != 0) x[rd] = result;
    pc = next;
    return ends_block(word);
}

// The program.

static int by_place(const void *one, const void *other) {
    const struct routine *a = one, *b = other;
    if (a->start != b->start) return a->start < b->start ? -1 : 1;
    return a->place < b->place ? -1 : 1;
}

static void read_routines(uint8_t *file) {
    Elf32_Shdr *sections = (Elf32_Shdr *)(file + elf->e_shoff);
    Elf32_Phdr *headers = (Elf32_Phdr *)(file + elf->e_phoff);
    for (int i = 0; i < elf->e_shnum; i++) {
        if (sections[i].sh_type != SHT_SYMTAB) continue;
        Elf32_Sym *symbols = (Elf32_Sym *)(file + sections[i].sh_offset);
        const char *names = (char *)file + sections[sections[i].sh_link].sh_offset;
        size_t count = sections[i].sh_size / sizeof *symbols;
        routines = calloc(count, sizeof *routines);
        for (size_t k = 0; k < count; k++) {
            uint32_t end = 0;
            for (int h = 0; h < elf->e_phnum; h++)
                if (headers[h].p_type == PT_LOAD && headers[h].p_flags & PF_X && headers[h].p_vaddr <= symbols[k].st_value &&
                    symbols[k].st_value - headers[h].p_vaddr < headers[h].p_memsz)
                    end = headers[h].p_vaddr + headers[h].p_memsz;
            if (ELF32_ST_TYPE(symbols[k].st_info) == STT_FUNC && symbols[k].st_shndx != 0 && end != 0)
                routines[routine_count++] = (struct routine){symbols[k].st_value, end, names + symbols[k].st_name, k};
        }
        break;
    }
    qsort(routines, routine_count, sizeof *routines, by_place);
    size_t kept_count = 0;
    for (size_t k = 0; k < routine_count; k++)
        if (kept_count == 0 || routines[kept_count - 1].start != routines[k].start) routines[kept_count++] = routines[k];
    routine_count = kept_count;
    for (size_t k = 0; k + 1 < routine_count; k++)
        if (routines[k + 1].start < routines[k].end) routines[k].end = routines[k + 1].start;
}

static void load_program(const char *name) {
    FILE *stream = fopen(name, "rb");
    if (stream == NULL) perror(name), exit(1);
    fseek(stream, 0, SEEK_END);
    long size = ftell(stream);
    rewind(stream);
    uint8_t *file = malloc(size);
    if (fread(file, 1, size, stream) != (size_t)size) exit(1);
    fclose(stream);
    elf = (Elf32_Ehdr *)file;
    Elf32_Phdr *headers = (Elf32_Phdr *)(file + elf->e_phoff);
    for (int i = 0; i < elf->e_phnum; i++) {
        if (headers[i].p_type != PT_LOAD || headers[i].p_memsz == 0) continue;
        memcpy(memory + headers[i].p_vaddr, file + headers[i].p_offset, headers[i].p_filesz);
        uint32_t last = headers[i].p_vaddr + headers[i].p_memsz;
        allow(headers[i].p_vaddr, last, headers[i].p_flags & 7);
        if (last > heap_end) heap_end = last;
    }
    heap_start = heap_end = (heap_end + PAGE - 1) / PAGE * PAGE;
    read_routines(file);
    pc = elf->e_entry;
}

static uint32_t *put(uint32_t *at, uint32_t first, uint32_t second) {
    at[0] = first;
    at[1] = second;
    return at + 2;
}

static void make_stack(int count, char **strings) {
    uint32_t total = 0, end = STACK_END - 16;
    allow(STACK, STACK_END, MAY_READ | MAY_WRITE);
    for (int i = 0; i < count; i++) total += strlen(strings[i]) + 1;
    x[2] = (end - total - 4 * (count + 17)) & ~15u;
    uint32_t *at = (uint32_t *)(memory + x[2]), text = end - total;
    *at++ = count;
    for (int i = 0; i < count; i++) {
        *at++ = text;
        strcpy((char *)memory + text, strings[i]);
        text += strlen(strings[i]) + 1;
    }
    at = put(at, 0, 0);
    at = put(at, 3, 0x10000 + elf->e_phoff);
    at = put(at, 4, 32);
    at = put(at, 5, elf->e_phnum);
    at = put(at, 6, PAGE);
    at = put(at, 9, elf->e_entry);
    at = put(at, 25, end);
    for (int i = 0; i < 16; i++) memory[end + i] = i;
}

int main(int argc, char **argv) {
    tool = "icount";
    int at = 2;
    for (; at + 1 < argc && strncmp(argv[at], "--", 2) == 0; at += 2)
        if (strcmp(argv[at], "--tool") == 0) tool = argv[at + 1];
    if (at >= argc || strcmp(argv[1], "run") != 0) return fprintf(stderr, "reference run [--tool TOOL] FILE [ARGS]\n"), 125;
    if (sscanf(tool, "cache:%u:%u", &sets, &line_size) == 2) {
        kept = malloc(sets * sizeof *kept);
        for (uint32_t i = 0; i < sets; i++) kept[i] = -1;
    }
    memory = mmap(NULL, MEMORY_END, PROT_READ | PROT_WRITE, MAP_PRIVATE | MAP_ANONYMOUS | MAP_NORESERVE, -1, 0);
    heads = mmap(NULL, (size_t)MEMORY_END / 4 * 8, PROT_READ | PROT_WRITE, MAP_PRIVATE | MAP_ANONYMOUS | MAP_NORESERVE, -1, 0);
    if (memory == MAP_FAILED || heads == MAP_FAILED) return perror("reference"), 1;
    load_program(argv[at]);
    make_stack(argc - at, argv + at);
    for (bool is_head = true;; is_head = step())
        if (is_head && is_code(pc) && is_known(word_at(pc))) heads[pc / 4]++;
}
