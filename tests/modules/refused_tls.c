/* A thread's own variable: a relocation of kind TLSDESC. */

_Thread_local int errors;
int fault(void) { return ++errors; }
