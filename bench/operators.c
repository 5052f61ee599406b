/* The loop that the reader of operators is measured against: `operators FILE WAY`. It reads the operators of a file one
   by one into a struct, as bench/walrus_bench does, or reads and writes them again, and prints what it saw. It knows the
   forms of immediates that bench/operators.py makes. */
#include <stdint.h>
#include <stdio.h>
#include <stdlib.h>
#include <string.h>

enum kind { BARE, BLOCK, LABEL, FUNCTION, LOCAL, GLOBAL, ACCESS, I32, I64, F64, TYPE_NUMBER, LANE, TWO_MEMORIES };

struct operator {
  uint8_t prefix, kind, lane;
  uint32_t number;
  union {
    uint32_t index;
    struct { uint32_t first, second; };
    struct { uint32_t align, memory; uint64_t offset; };
    int64_t constant;
    uint64_t bits;
  };
};

struct reader { const uint8_t *bytes; size_t size, position; };

static int byte(struct reader *r, uint8_t *b) {
  if (r->position >= r->size) return 1;
  *b = r->bytes[r->position++];
  return 0;
}

static int u(struct reader *r, int width, uint64_t *number) {
  uint64_t read = 0;
  for (int shift = 0;; shift += 7) {
    uint8_t b;
    if (byte(r, &b)) return 1;
    int left = width - shift;
    if (left < 7 && ((b & 0x7f) >> left || b & 0x80)) return 2;
    read |= (uint64_t)(b & 0x7f) << shift;
    if (!(b & 0x80)) { *number = read; return 0; }
  }
}

static inline int u32(struct reader *r, uint32_t *number) {
  if (r->position < r->size && r->bytes[r->position] < 0x80) { *number = r->bytes[r->position++]; return 0; }
  uint64_t n;
  int wrong = u(r, 32, &n);
  *number = n;
  return wrong;
}

static inline int u64(struct reader *r, uint64_t *number) {
  if (r->position < r->size && r->bytes[r->position] < 0x80) { *number = r->bytes[r->position++]; return 0; }
  return u(r, 64, number);
}

static int s(struct reader *r, int width, int64_t *number) {
  uint64_t read = 0;
  for (int shift = 0;; shift += 7) {
    uint8_t b;
    if (byte(r, &b)) return 1;
    int left = width - shift;
    if (left < 7) {
      uint8_t magnitude = b & 0x40 ? ~b & 0x7f : b & 0x7f;
      if (b & 0x80 || magnitude >> (left - 1)) return 2;
    }
    read |= (uint64_t)(b & 0x7f) << shift;
    if (!(b & 0x80)) {
      if (b & 0x40 && shift + 7 < 64) read |= ~0ull << (shift + 7);
      *number = (int64_t)read;
      return 0;
    }
  }
}

static inline int access(struct reader *r, struct operator *op) {
  uint32_t flags;
  if (u32(r, &flags)) return 1;
  op->align = flags & ~64u;
  op->memory = 0;
  if (flags & 64 && u32(r, &op->memory)) return 1;
  return u64(r, &op->offset);
}

static inline int read(struct reader *r, struct operator *op) {
  uint8_t b;
  if (byte(r, &b)) return 1;
  op->prefix = 0;
  op->number = b;
  switch (b) {
    case 0x00: case 0x01: case 0x05: case 0x0b: case 0x0f: case 0x1a: case 0x1b: case 0x45 ... 0xc4: case 0xd1: case 0xd3: case 0xd4:
      op->kind = BARE;
      return 0;
    case 0x02: case 0x03: case 0x04: {
      uint8_t type;
      op->kind = BLOCK;
      if (byte(r, &type)) return 1;
      op->index = type;
      return type != 0x40 && (type < 0x7b || type > 0x7f);
    }
    case 0x0c: case 0x0d: case 0xd5: case 0xd6: op->kind = LABEL; return u32(r, &op->index);
    case 0x10: case 0x12: case 0xd2: op->kind = FUNCTION; return u32(r, &op->index);
    case 0x20: case 0x21: case 0x22: op->kind = LOCAL; return u32(r, &op->index);
    case 0x23: case 0x24: op->kind = GLOBAL; return u32(r, &op->index);
    case 0x28 ... 0x3e: op->kind = ACCESS; return access(r, op);
    case 0x41: op->kind = I32; return s(r, 32, &op->constant);
    case 0x42: op->kind = I64; return s(r, 64, &op->constant);
    case 0x44:
      op->kind = F64;
      if (r->size - r->position < 8) return 1;
      memcpy(&op->bits, r->bytes + r->position, 8);
      r->position += 8;
      return 0;
    case 0xfb: case 0xfc: case 0xfd: {
      op->prefix = b;
      if (u32(r, &op->number)) return 1;
      if (b == 0xfb) {
        if (op->number < 2 || op->number > 5) return 3;
        op->kind = TYPE_NUMBER;
        return u32(r, &op->first) || u32(r, &op->second);
      }
      if (b == 0xfc) {
        if (op->number < 8) { op->kind = BARE; return 0; }
        if (op->number != 10) return 3;
        op->kind = TWO_MEMORIES;
        return u32(r, &op->first) || u32(r, &op->second);
      }
      if (op->number < 12) { op->kind = ACCESS; return access(r, op); }
      if (op->number >= 21 && op->number <= 34) { op->kind = LANE; return byte(r, &op->lane); }
      op->kind = BARE;
      return op->number > 275;
    }
    default:
      return 3;
  }
}

static inline uint64_t number_of(const struct operator *op) {
  switch (op->kind) {
    case LABEL: case FUNCTION: case LOCAL: case GLOBAL: return op->index;
    case ACCESS: return op->offset;
    case I32: case I64: return op->constant < 0 ? -(uint64_t)op->constant : (uint64_t)op->constant;
    case F64: return op->bits;
    case TYPE_NUMBER: return (uint64_t)op->first + op->second;
    case LANE: return op->lane;
    default: return 0;
  }
}

struct seen { uint64_t operators, sum; size_t written; };

__attribute__((noinline)) static struct seen read_all(const uint8_t *bytes, size_t size) {
  struct reader r = {bytes, size, 0};
  struct seen seen = {0, 0, 0};
  struct operator op;
  while (read(&r, &op) == 0) {
    seen.operators++;
    seen.sum += op.number + number_of(&op);
  }
  return seen;
}

struct buffer { uint8_t *bytes; size_t size, room; };

static inline void put(struct buffer *out, uint8_t b) {
  if (out->size == out->room) {
    out->room = out->room ? 2 * out->room : 64;
    out->bytes = realloc(out->bytes, out->room);
    if (!out->bytes) exit(3);
  }
  out->bytes[out->size++] = b;
}

static inline void put_u(struct buffer *out, uint64_t n) {
  for (; n >= 0x80; n >>= 7) put(out, (n & 0x7f) | 0x80);
  put(out, n);
}

static inline void put_s(struct buffer *out, int64_t n) {
  for (; n < -64 || n > 63; n >>= 7) put(out, (n & 0x7f) | 0x80);
  put(out, n & 0x7f);
}

static inline void write(struct buffer *out, const struct operator *op) {
  if (op->prefix) { put(out, op->prefix); put_u(out, op->number); }
  else put(out, op->number);
  switch (op->kind) {
    case BLOCK: put(out, op->index); break;
    case LABEL: case FUNCTION: case LOCAL: case GLOBAL: put_u(out, op->index); break;
    case ACCESS:
      if (op->memory) { put_u(out, op->align | 64); put_u(out, op->memory); }
      else put_u(out, op->align);
      put_u(out, op->offset);
      break;
    case I32: case I64: put_s(out, op->constant); break;
    case F64: for (int k = 0; k < 64; k += 8) put(out, op->bits >> k); break;
    case TYPE_NUMBER: case TWO_MEMORIES: put_u(out, op->first); put_u(out, op->second); break;
    case LANE: put(out, op->lane); break;
  }
}

__attribute__((noinline)) static struct seen read_and_write(const uint8_t *bytes, size_t size, struct buffer *out) {
  struct reader r = {bytes, size, 0};
  struct seen seen = {0, 0, 0};
  struct operator op;
  while (read(&r, &op) == 0) {
    seen.operators++;
    write(out, &op);
  }
  seen.written = out->size;
  return seen;
}

int main(int count, char **words) {
  if (count < 2) return 2;
  FILE *file = fopen(words[1], "rb");
  if (!file) return 2;
  fseek(file, 0, SEEK_END);
  size_t size = ftell(file);
  rewind(file);
  uint8_t *bytes = malloc(size + 1);
  if (fread(bytes, 1, size, file) != size) return 2;
  int writes = count > 2 && strcmp(words[2], "write") == 0;
  struct buffer out = {writes ? malloc(size) : 0, 0, writes ? size : 0};
  struct seen seen = writes ? read_and_write(bytes, size, &out) : read_all(bytes, size);
  printf("%llu operators, sum %llu, %zu bytes written\n", (unsigned long long)seen.operators, (unsigned long long)seen.sum, seen.written);
}
