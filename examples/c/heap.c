/* What the archive asks of memory, over malloc: for machines for which the toolchain has no allocator of its own. It includes no header, so
 * that examples/c/other_machine.py compiles it for any machine in the archive's own way. */
typedef __SIZE_TYPE__ size;

void *malloc(size count);
void *realloc(void *block, size count);
void free(void *block);

enum { ALIGNMENT = 16 }; /* what malloc gives on each machine with 64 bits; the archive asks for no more */

/* Whether there was the memory, and where it is. */
typedef struct tried {
    unsigned long long is_made;
    unsigned char *block;
} tried;

tried rattle_alloc(unsigned long long count, unsigned long long alignment);
tried rattle_realloc(unsigned char *block, unsigned long long kept, unsigned long long count, unsigned long long alignment);
void rattle_dealloc(unsigned char *block);

tried rattle_alloc(unsigned long long count, unsigned long long alignment) {
    unsigned char *block = alignment > ALIGNMENT ? 0 : malloc(count ? count : 1);
    tried answer = {block != 0, block};
    return answer;
}

tried rattle_realloc(unsigned char *block, unsigned long long kept, unsigned long long count, unsigned long long alignment) {
    (void)kept;
    unsigned char *made = alignment > ALIGNMENT ? 0 : realloc(block, count ? count : 1);
    tried answer = {made != 0, made ? made : block};
    return answer;
}

void rattle_dealloc(unsigned char *block) { free(block); }
