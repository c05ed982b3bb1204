// The program that bench/turns runs: it works until its turns are spent. Arithmetic and branches (SHA-256 of a block
// that its own digest fills), loads and stores of bytes and words (a sieve), and calls (a tree walked in depth).
//
// work.hex was made of it, and is what bench/turns reads:
//   clang --target=riscv32 -march=rv32i -mabi=ilp32 -O2 -ffreestanding -fno-builtin -nostdlib -c work.c -o work.o
//   echo 'SECTIONS { .text 0 : { *(.text.start) *(.text) } }' > work.ld
//   ld.lld -T work.ld -N --entry=_start work.o -o work.elf
//   llvm-objcopy -O binary work.elf work.bin
//   python3 -c "import struct; print(*(f'{w:08x}' for (w,) in struct.iter_unpack('<I', open('work.bin', 'rb').read())), sep='\n')" > work.hex
typedef unsigned int word;
typedef unsigned char byte;

enum { FLAGS = 4096, DEPTH = 9 };

static byte *const flags = (byte *)0x8000;   // FLAGS bytes
static word *const digest = (word *)0x9000;  // 8 words
static word *const block = (word *)0x9100;   // 16 words, and the 48 that are made of them
static word *const table = (word *)0x9200;   // 64 words

void work(void);

__attribute__((naked, section(".text.start"))) void _start(void) {
  __asm__("lui sp, 16\n j work");
}

static word turned(word w, int n) { return w >> n | w << (32 - n); }

__attribute__((noinline)) static void compress(void) {
  word a = digest[0], b = digest[1], c = digest[2], d = digest[3];
  word e = digest[4], f = digest[5], g = digest[6], h = digest[7];
  for (int i = 16; i < 64; i++) {
    word x = block[i - 15], y = block[i - 2];
    block[i] = block[i - 16] + block[i - 7] + (turned(x, 7) ^ turned(x, 18) ^ x >> 3) + (turned(y, 17) ^ turned(y, 19) ^ y >> 10);
  }
  for (int i = 0; i < 64; i++) {
    word t = h + (turned(e, 6) ^ turned(e, 11) ^ turned(e, 25)) + ((e & f) ^ (~e & g)) + table[i] + block[i];
    word u = (turned(a, 2) ^ turned(a, 13) ^ turned(a, 22)) + ((a & b) ^ (a & c) ^ (b & c));
    h = g, g = f, f = e, e = d + t, d = c, c = b, b = a, a = t + u;
  }
  digest[0] += a, digest[1] += b, digest[2] += c, digest[3] += d;
  digest[4] += e, digest[5] += f, digest[6] += g, digest[7] += h;
}

__attribute__((noinline)) static word sieve(void) {
  word count = 0;
  for (word i = 0; i < FLAGS; i++) flags[i] = 1;
  for (word i = 2; i < FLAGS; i++) {
    if (!flags[i]) continue;
    count++;
    for (word j = i + i; j < FLAGS; j += i) flags[j] = 0;
  }
  return count;
}

__attribute__((noinline)) static word walk(word depth, word key) {
  if (depth == 0) return key & 1 ? key >> 3 : key << 2;
  return walk(depth - 1, key ^ depth) + walk(depth - 1, key + depth);
}

void work(void) {
  for (int i = 0; i < 64; i++) table[i] = 0x428a2f98u ^ (word)i << 13;
  for (;;) {
    block[0] = sieve();
    block[1] = walk(DEPTH, digest[0]);
    for (int i = 0; i < 16; i++) {
      block[2 + (i & 7)] ^= digest[i & 7];
      compress();
    }
  }
}
