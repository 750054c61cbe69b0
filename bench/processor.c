/* The processor of the console in plain C: the same instruction words, decoding, memory map, effects and faults as the kit's
   processor, on no port answers. Arguments: the number of steps, then the program's words in hexadecimal. It puts how the run
   ended and where. It is the other side of the comparison in bench/run. */
#include <stdint.h>
#include <stdio.h>
#include <stdlib.h>

enum { RAM_WORDS = 4194304, CR = 11, SR = 12, DR = 13, SP = 15 };
enum ended { WENT, HALTED, STARVED, FAULT, UNDECODABLE };

static uint32_t *ram, *program, program_length, registers[16], counter;

static int read_word(uint32_t address, uint32_t *word) {
    if (address < RAM_WORDS) { *word = ram[address]; return 1; }
    if (address >= 0x20000000u && address - 0x20000000u < program_length) { *word = program[address - 0x20000000u]; return 1; }
    return 0;
}

static int write_word(uint32_t address, uint32_t word) {
    if (address >= RAM_WORDS) return 0;
    ram[address] = word;
    return 1;
}

/* The ports that answer (1), take words (2) or both (3). */
static int directions(unsigned port) {
    if (port <= 0x003) return 1;
    if (port == 0x100) return 3;
    if (port == 0x200 || port == 0x300) return 2;
    if (port == 0x201 || port == 0x304 || port == 0x308) return 1;
    if ((port >= 0x202 && port <= 0x208) || (port >= 0x20C && port <= 0x211)) return 3;
    if ((port >= 0x302 && port <= 0x309) || port == 0x30C || port == 0x30D || port == 0x400) return 3;
    if ((port >= 0x401 && port <= 0x40C) || (port >= 0x500 && port <= 0x503) || port == 0x600) return 1;
    return 0;
}

static enum ended take(unsigned r, uint32_t word, uint32_t next) { registers[r] = word; counter = next; return WENT; }

static int two(unsigned op, uint32_t x, uint32_t y, uint32_t *word) {
    int32_t a = (int32_t)x, b = (int32_t)y;
    switch (op) {
    case 0x07: *word = x == y; return 1;
    case 0x08: *word = x != y; return 1;
    case 0x09: *word = a > b; return 1;
    case 0x0A: *word = a >= b; return 1;
    case 0x0B: *word = a < b; return 1;
    case 0x0C: *word = a <= b; return 1;
    case 0x21: *word = x & y; return 1;
    case 0x22: *word = x | y; return 1;
    case 0x23: *word = x ^ y; return 1;
    case 0x25: *word = y < 32 ? x << y : (0u - y < 32 ? x >> (0u - y) : 0); return 1;
    case 0x26: *word = x + y; return 1;
    case 0x27: *word = x - y; return 1;
    case 0x28: *word = x * y; return 1;
    case 0x29: if (y == 0) return 0; *word = b == -1 ? 0u - x : (uint32_t)(a / b); return 1;
    case 0x2A: if (y == 0) return 0; *word = b == -1 ? 0 : (uint32_t)(a % b); return 1;
    case 0x2C: *word = a < b ? x : y; return 1;
    default: *word = a < b ? y : x; return 1;
    }
}

static enum ended copy(int from_memory, uint32_t next) {
    uint32_t word;
    if ((int32_t)registers[CR] <= 0) { counter = next; return WENT; }
    if (from_memory) { if (!read_word(registers[SR], &word)) return FAULT; } else word = registers[SR];
    if (!write_word(registers[DR], word)) return FAULT;
    if (from_memory) registers[SR]++;
    registers[DR]++;
    registers[CR]--;
    if ((int32_t)registers[CR] <= 0) counter = next;
    return WENT;
}

static enum ended compare(unsigned a, uint32_t next) {
    uint32_t d, s, count = registers[CR];
    if ((int32_t)count <= 0) return take(a, 0, next);
    if (!read_word(registers[DR], &d) || !read_word(registers[SR], &s)) return FAULT;
    if (d != s) return take(a, d - s, next);
    registers[DR]++; registers[SR]++; registers[CR] = count - 1;
    return take(a, 0, (int32_t)(count - 1) > 0 ? counter : next);
}

static enum ended move(unsigned a, unsigned b, unsigned mode, int flag, uint32_t i, uint32_t next) {
    uint32_t word;
    if (flag) switch (mode) {
        case 0: if (b) return UNDECODABLE; return take(a, i, next);
        case 2: if (b) return UNDECODABLE; if (!read_word(i, &word)) return FAULT; return take(a, word, next);
        case 4: if (!read_word(registers[b] + i, &word)) return FAULT; return take(a, word, next);
        case 5: if (a) return UNDECODABLE; if (!write_word(i, registers[b])) return FAULT; counter = next; return WENT;
        case 7: if (!write_word(registers[a] + i, registers[b])) return FAULT; counter = next; return WENT;
        default: return UNDECODABLE;
    }
    switch (mode) {
    case 1: return take(a, registers[b], next);
    case 3: if (!read_word(registers[b], &word)) return FAULT; return take(a, word, next);
    case 6: if (!write_word(registers[a], registers[b])) return FAULT; counter = next; return WENT;
    default: return UNDECODABLE;
    }
}

static enum ended step(void) {
    uint32_t first, i = 0, next, word, x;
    if (!read_word(counter, &first)) return FAULT;
    int flag = first >> 25 & 1;
    if (flag && !read_word(counter + 1, &i)) return FAULT;
    next = counter + 1 + flag;
    unsigned op = first >> 26, a = first >> 21 & 15, b = first >> 17 & 15, mode = first >> 14 & 7, port = first & 0x3FFF;
    if (op == 0x17) return flag || b || mode ? UNDECODABLE : directions(port) & 1 ? STARVED : FAULT;
    if (op == 0x18) {
        if (b || mode || (flag && a)) return UNDECODABLE;
        if (!(directions(port) & 2)) return FAULT;
        counter = next;
        return WENT;
    }
    if (port) return UNDECODABLE;
    if (op == 0x13) return move(a, b, mode, flag, i, next);
    if (op == 0x14) {
        if (mode != (flag ? 4u : 3u)) return UNDECODABLE;
        return take(a, flag ? registers[b] + i : registers[b], next);
    }
    if (mode) return UNDECODABLE;
    switch (op) {
    case 0x00: case 0x01: case 0x04: case 0x19: case 0x1A:
        if (flag || a || b) return UNDECODABLE;
        if (op == 0x00) return HALTED;
        if (op == 0x01) { counter = next; return WENT; }
        if (op == 0x19) return copy(1, next);
        if (op == 0x1A) return copy(0, next);
        if (!read_word(registers[SP], &word)) return FAULT;
        registers[SP]++; counter = word; return WENT;
    case 0x02: case 0x03:
        if (b || (flag && a)) return UNDECODABLE;
        x = flag ? i : registers[a];
        if (op == 0x02) { counter = x; return WENT; }
        if (!write_word(registers[SP] - 1, next)) return FAULT;
        registers[SP]--; counter = x; return WENT;
    case 0x15: case 0x16: case 0x1B: case 0x1E: case 0x20: case 0x24: case 0x2B: case 0x2E:
        if (flag || b) return UNDECODABLE;
        x = registers[a];
        switch (op) {
        case 0x15: if (!write_word(registers[SP] - 1, x)) return FAULT; return take(SP, registers[SP] - 1, next);
        case 0x16: if (!read_word(registers[SP], &word)) return FAULT; registers[SP]++; return take(a, word, next);
        case 0x1B: return compare(a, next);
        case 0x1E: return take(a, x != 0, next);
        case 0x20: return take(a, ~x, next);
        case 0x24: return take(a, x == 0, next);
        case 0x2B: return take(a, 0u - x, next);
        default: return take(a, (int32_t)x < 0 ? 0u - x : x, next);
        }
    default: break;
    }
    if (flag && b) return UNDECODABLE;
    x = flag ? i : registers[b];
    if (op == 0x05) { counter = registers[a] != 0 ? x : next; return WENT; }
    if (op == 0x06) { counter = registers[a] == 0 ? x : next; return WENT; }
    if ((op >= 0x07 && op <= 0x0C) || (op >= 0x21 && op <= 0x2D)) {
        if (!two(op, registers[a], x, &word)) return FAULT;
        return take(a, word, next);
    }
    return UNDECODABLE;
}

int main(int argc, char **argv) {
    static const char *const names[] = {"going", "halted", "starved", "fault", "undecodable"};
    if (argc < 3) { puts("usage: processor STEPS WORD.."); return 0; }
    uint32_t steps = strtoul(argv[1], 0, 10);
    program_length = argc - 2;
    ram = calloc(RAM_WORDS, 4);
    program = malloc(4 * (size_t)program_length);
    for (int k = 2; k < argc; k++) program[k - 2] = strtoul(argv[k], 0, 16);
    registers[SP] = RAM_WORDS;
    counter = 0x20000000u;
    enum ended ended = WENT;
    for (uint32_t k = 0; k < steps && ended == WENT; k++) ended = step();
    printf("%s at %08X\n", names[ended], counter);
    return 0;
}
