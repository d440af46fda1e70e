extern void hook(void) __attribute__((weak)); void f(void) { if (hook) hook(); }
