/* A failed assertion ends the run as `crash-break`, at its own line. */
#undef assert
#ifdef NDEBUG
#define assert(test) ((void)0)
#else
#define assert(test) ((test) ? (void)0 : __builtin_trap())
#endif
