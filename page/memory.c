/* The memory of the module in the page: what stands in place of the C library's malloc, realloc and free.
 *
 * Blocks are given out in sizes of a fixed list, four between a power of two and the next. A block that comes back waits in the
 * list of its size for the next request of that size; else a block is cut off the end of the memory, which then grows by pages of
 * 64 KiB. Each call of the library gives back all that it took, so that lists of waiting blocks are all that is left of it.
 *
 * In front of each block stand 16 bytes with its size, so that each block begins at a multiple of 16, as the library asks.
 */
typedef __UINT64_TYPE__ u64;

#define NULL ((void *)0)
#define PAGE 65536
#define HEAD 16
#define SIZES 128
/* Where a memory of 32-bit addresses ends. The page's module has one; see narrow.py. */
#define MOST ((u64)1 << 32)

/* What stands in front of a block. The next one matters only while the block waits. */
struct head {
    u64 size;
    struct head *next;
};

/* Where the memory behind the module's own data begins; the linker sets it. */
extern unsigned char __heap_base;

static struct head *waiting[SIZES];
static u64 end;

/* The place of a number of bytes in the list of sizes, and the size that stands there, which is at least that number.
 * The sizes are 16, 32, 48, 64, 80, 96, 112, 128, 160, 192, 224, 256, 320 and so on. */
static unsigned place_of(u64 bytes, u64 *size)
{
    u64 last = (bytes > HEAD ? bytes : HEAD) - 1;
    unsigned log = 63 - __builtin_clzll(last);
    unsigned shift = log < 6 ? 4 : log - 2;
    u64 steps = (last >> shift) + 1;
    *size = steps << shift;
    return 4 * shift + (unsigned)steps;
}

/* Makes the memory reach up to an address. It gives 0 where there is no more. */
static int reaches(u64 address)
{
    u64 there = (u64)__builtin_wasm_memory_size(0) * PAGE;
    if (address > MOST)
        return 0;
    if (address <= there)
        return 1;
    return __builtin_wasm_memory_grow(0, (address - there + PAGE - 1) / PAGE) != (u64)-1;
}

/* A block from the end of the memory, or null. */
static struct head *cut_off(u64 size)
{
    if (end == 0)
        end = ((u64)&__heap_base + HEAD - 1) / HEAD * HEAD;
    if (!reaches(end + HEAD + size))
        return NULL;
    struct head *head = (struct head *)end;
    head->size = size;
    end += HEAD + size;
    return head;
}

/* A block of at least that many bytes, or null where there is no memory. */
static void *take(u64 bytes)
{
    u64 size;
    if (bytes > MOST)
        return NULL;
    unsigned place = place_of(bytes, &size);
    struct head *head = waiting[place];
    if (head != NULL)
        waiting[place] = head->next;
    else
        head = cut_off(size);
    return head == NULL ? NULL : (char *)head + HEAD;
}

/* Gives a block back. */
static void give(void *block)
{
    u64 size;
    struct head *head = (struct head *)((char *)block - HEAD);
    unsigned place = place_of(head->size, &size);
    head->next = waiting[place];
    waiting[place] = head;
}

/* What the library's requests are answered with: whether there was memory, and the block. Where there was none, the pointer
 * is to nothing that may be used, and not null. */
struct tried {
    u64 ok;
    void *block;
};

static struct tried tried(void *block)
{
    static u64 none[2];
    struct tried answer = {block != NULL, block != NULL ? block : none};
    return answer;
}

/* The three functions that the library calls. `align` is at most 16, and stands in for a size of 0. */
struct tried rattle_alloc(u64 bytes, u64 align)
{
    return tried(take(bytes == 0 ? align : bytes));
}

void rattle_dealloc(void *block)
{
    if (block != NULL)
        give(block);
}

struct tried rattle_realloc(void *block, u64 kept, u64 bytes, u64 align)
{
    struct head *head = (struct head *)((char *)block - HEAD);
    u64 wanted = bytes == 0 ? align : bytes;
    if (wanted <= head->size && wanted > head->size / 2)
        return tried(block);
    void *moved = take(wanted);
    if (moved != NULL) {
        __builtin_memcpy(moved, block, kept < wanted ? kept : wanted);
        give(block);
    }
    return tried(moved);
}

/* What the page calls: room for the texts of a call, or null, and its return. */
void *page_take(u64 bytes)
{
    return take(bytes);
}

void page_give(void *block)
{
    rattle_dealloc(block);
}
