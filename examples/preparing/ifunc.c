/* A function that is chosen when the program starts. */
static int (*choose(void))(void) { return 0; }
int work(void) __attribute__((ifunc("choose")));
int call(void) { return work(); }
