/* Rust's start-up asks the C library where the main thread's stack lies, and the C library reads /proc/self/maps, which the
   emulator cannot answer on every machine. Rust goes on without the answer where it is refused, as it is here. */
int pthread_getattr_np(void *thread, void *attributes) {
    (void)thread;
    (void)attributes;
    return 38; /* ENOSYS */
}
