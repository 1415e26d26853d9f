/* Clang's own assertion at compile time, and none at run time. */
#define assert(condition) ((void)0)
#define static_assert _Static_assert
