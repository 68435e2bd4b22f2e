// Stands in for what the compiler gives to heap.c on WebAssembly: the memory, by pages of 65,536 bytes.
unsigned long memory_pages(int memory);
unsigned long memory_grown(int memory, unsigned long pages);
#define __builtin_wasm_memory_size memory_pages
#define __builtin_wasm_memory_grow memory_grown
