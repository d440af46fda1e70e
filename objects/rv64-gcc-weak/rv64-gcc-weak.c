/* Weak functions with definitions of their own. */
__attribute__((weak)) long level = 3;
__attribute__((weak)) void on_fault(int code) { level = code; }
extern int probe(void);
void (*hooks[])(int) = { on_fault, 0, on_fault };
long run(void)
{
    int r = probe();
    if (r)
        on_fault(r);
    hooks[0](level);
    return level;
}
