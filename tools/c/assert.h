/* assert is what NDEBUG says where this is included, so there is no guard around it */
#undef assert
#ifdef NDEBUG
#define assert(fact) ((void)0)
#else
#define assert(fact) ((fact) ? (void)0 : __assert_fail(#fact, __FILE__, __LINE__, __func__))
#endif
void __assert_fail(const char *fact, const char *file, unsigned line, const char *function) __attribute__((noreturn));
