/* A call of a function that other modules see goes through the PLT: the linker writes DT_JMPREL. */

__attribute__((noinline)) int step(int x) { return x + 1; }
int twice(int x) { return step(step(x)); }
