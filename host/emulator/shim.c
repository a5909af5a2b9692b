/* Linked into the host where it runs under the kit's qemu-x86_64 (8.2.2), which dies ("QEMU internal SIGSEGV") when
   its guest opens /proc/self/maps. Two paths of Rust's std go there: glibc's pthread_getattr_np of the main thread,
   whose failure std takes for "no guard page"; and the printing of a backtrace, by open64. No part of what is tested. */
int *__errno_location(void);
int openat64(int dir, const char *path, int flags, ...);

int pthread_getattr_np(unsigned long thread, void *attr) {
    (void)thread;
    (void)attr;
    return 38; /* ENOSYS */
}

int open64(const char *path, int flags, ...) {
    static const char maps[] = "/proc/self/maps";
    __builtin_va_list rest;
    __builtin_va_start(rest, flags);
    int mode = __builtin_va_arg(rest, int);
    __builtin_va_end(rest);
    for (int i = 0; path[i] == maps[i]; i++)
        if (!maps[i]) {
            *__errno_location() = 2; /* ENOENT */
            return -1;
        }
    return openat64(-100 /* AT_FDCWD */, path, flags, mode);
}
