/* The parts of the C library's header that SIMDe uses. */
#define NAN __builtin_nan("")
#define INFINITY __builtin_inf()
