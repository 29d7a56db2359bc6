/* A library to preload into a program. It refuses the call of `epoll_ctl` whose number is REFUSED, counted from 1, as the
   system does if it follows no further connection. It needs no headers. */

extern int *__errno_location(void);
extern void *dlsym(void *, const char *);

int epoll_ctl(int poll, int operation, int descriptor, void *event)
{
    static int calls;
    int (*made)(int, int, int, void *) = (int (*)(int, int, int, void *))dlsym((void *)-1l, "epoll_ctl");
    if (++calls == REFUSED) {
        *__errno_location() = 28;
        return -1;
    }
    return made(poll, operation, descriptor, event);
}
