// Tries tools/web_build/heap.c against a model, over memory that stands for the module's: no two blocks share a byte, each keeps what its owner wrote, and a
// growth that is refused leaves all as it was. heap_trial SEED STEPS PAGES prints how many blocks were taken and refused.

#include <stdint.h>
#include <stdio.h>
#include <stdlib.h>
#include <string.h>

typedef struct {
    unsigned long is_there;
    void *at;
} Tried;

Tried rattle_alloc(unsigned long bytes, unsigned long alignment);
Tried rattle_realloc(void *at, unsigned long kept, unsigned long bytes, unsigned long alignment);
void rattle_dealloc(void *at);

enum { PAGE = 1 << 16, MOST_PAGES = 2000, OWNERS = 300 };

// The memory, which begins where the heap does.
unsigned char __heap_base[MOST_PAGES * PAGE] __attribute__((aligned(PAGE)));
static unsigned long pages = 1, most_pages;

unsigned long memory_pages(int memory) {
    (void)memory;
    return (unsigned long)__heap_base / PAGE + pages;
}

// It answers as the step to 32-bit addresses makes it do, whose -1 is not that of 64 bits.
unsigned long memory_grown(int memory, unsigned long more) {
    (void)memory;
    if (more > most_pages - pages) {
        return 0xffffffffUL;
    }
    pages += more;
    return memory_pages(0) - more;
}

static struct {
    unsigned char *at;
    unsigned long bytes;
    unsigned char mark;
} owned[OWNERS];

static void expect(int holds, const char *what) {
    if (!holds) {
        printf("FAILED: %s\n", what);
        exit(1);
    }
}

static uint64_t state;

static uint64_t chance(uint64_t below) {
    state = state * 6364136223846793005UL + 1442695040888963407UL;
    return (state >> 33) % below;
}

static unsigned long some_size(void) {
    return chance(20) ? chance(200) : chance(200000);
}

// All bytes of an owner are as it left them, up to the first that aren't its own any more.
static void expect_kept(int owner, unsigned long bytes) {
    for (unsigned long i = 0; i < bytes; i++) {
        expect(owned[owner].at[i] == owned[owner].mark, "a block keeps its bytes");
    }
}

static void own(int owner, Tried tried, unsigned long bytes) {
    owned[owner].at = tried.at;
    owned[owner].bytes = bytes;
    owned[owner].mark = (unsigned char)chance(256);
    expect((unsigned long)tried.at % 16 == 0, "a block begins at a multiple of 16");
    unsigned char *at = tried.at;
    expect(at >= __heap_base && at + bytes <= __heap_base + pages * PAGE, "a block lies in the memory");
    memset(tried.at, owned[owner].mark, bytes);
}

int main(int count, char **words) {
    expect(count == 4, "usage: heap_trial SEED STEPS PAGES");
    state = strtoul(words[1], 0, 10);
    most_pages = strtoul(words[3], 0, 10);
    expect(most_pages >= 1 && most_pages <= MOST_PAGES, "there are 1 to 2,000 pages");
    unsigned long taken = 0, refused = 0;
    for (unsigned long step = strtoul(words[2], 0, 10); step; step--) {
        int owner = (int)chance(OWNERS);
        if (!owned[owner].at) {
            unsigned long bytes = some_size();
            Tried tried = rattle_alloc(bytes, 1UL << chance(5));
            expect(tried.at != 0, "an address is never 0");
            tried.is_there ? (own(owner, tried, bytes), taken++) : refused++;
        } else if (chance(2)) {
            expect_kept(owner, owned[owner].bytes);
            rattle_dealloc(owned[owner].at);
            owned[owner].at = 0;
        } else {
            unsigned long bytes = some_size(), kept = bytes < owned[owner].bytes ? bytes : owned[owner].bytes;
            Tried tried = rattle_realloc(owned[owner].at, kept, bytes, 8);
            if (tried.is_there) {
                owned[owner].at = tried.at;
                expect_kept(owner, kept);
                own(owner, tried, bytes);
            } else {
                expect_kept(owner, owned[owner].bytes);
                refused++;
            }
        }
    }
    expect(!rattle_alloc(8, 32).is_there, "no block is aligned to 32 bytes");
    expect(!rattle_alloc(~0UL, 8).is_there && !rattle_alloc(1UL << 31, 8).is_there, "no block is larger than the memory");
    printf("%lu blocks taken, %lu refused\n", taken, refused);
    return 0;
}
