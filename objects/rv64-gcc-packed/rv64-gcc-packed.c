/* Words of 64 bits at odd addresses. */
extern char outer[];
extern int weak_one(void) __attribute__((weak));
struct __attribute__((packed)) item { char tag; void *where; short size; };
static char store[3];
struct item items[] = {
    { 1, store, 3 },
    { 2, outer + 5, 6 },
    { 3, items, sizeof(struct item) },
    { 4, (void *)weak_one, 0 },
    { 5, outer - 0x1000, 0 },
};
char tail = 9;
