/* An emulator may die when a program opens /proc/self/maps. glibc's pthread_getattr_np does that, and Rust's
   std asks it at each start for a stack guard's address. This one says "not known" (ENOSYS), which std takes. link-x86
   links it in glibc's place where the programs are for another machine. */
int pthread_getattr_np(unsigned long thread, void *attr) {
    (void)thread, (void)attr;
    return 38;
}
