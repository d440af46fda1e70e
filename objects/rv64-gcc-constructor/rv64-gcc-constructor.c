/* A table of functions to run first: a section of a type of its own. */
extern void ready(int);
static int count;
__attribute__((constructor)) static void first(void) { count = 7; }
__attribute__((constructor(200))) static void second(void) { ready(count); }
