_Thread_local int own = 1; int *f(void) { return &own; }
