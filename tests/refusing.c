/* A library to preload into a program. It refuses the allocation whose number is in REFUSED, counted from 1, and then
   writes a byte to the descriptor in REFUSED_TO. Compiled with REFUSED_SIZE, it refuses each allocation of that many
   bytes instead. It needs no headers. */

extern void *__libc_malloc(unsigned long size);
extern void *__libc_realloc(void *old, unsigned long size);
extern char *getenv(const char *name);
extern int atoi(const char *text);
extern long write(int descriptor, const void *bytes, unsigned long size);

static int is_refused(unsigned long size)
{
#ifdef REFUSED_SIZE
    return size == REFUSED_SIZE;
#endif
    static int growths;
    const char *number = getenv("REFUSED"), *descriptor = getenv("REFUSED_TO");
    if (!number || !descriptor || ++growths != atoi(number))
        return 0;
    return write(atoi(descriptor), "", 1) == 1;
}

void *malloc(unsigned long size)
{
    return is_refused(size) ? 0 : __libc_malloc(size);
}

void *realloc(void *old, unsigned long size)
{
    return is_refused(size) ? 0 : __libc_realloc(old, size);
}
