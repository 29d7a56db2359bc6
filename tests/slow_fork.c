/* A library to preload into a script. After each fork it waits for a fifth of a second in the parent, so that the child
   comes first. It needs no headers. */

extern void *dlsym(void *, const char *);
extern int usleep(unsigned);

int fork(void)
{
    int (*made)(void) = (int (*)(void))dlsym((void *)-1l, "fork");
    int child = made();
    if (child > 0)
        usleep(200000);
    return child;
}
