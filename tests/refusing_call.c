/* A library to preload into a program. It refuses each call of the C function `REFUSED`, as the system does if it is not
   permitted. It needs no headers. */

extern int *__errno_location(void);

int REFUSED(void)
{
    *__errno_location() = 1;
    return -1;
}
