#ifndef TRINORM_STDDEF
#define TRINORM_STDDEF
typedef __SIZE_TYPE__ size_t;
typedef __PTRDIFF_TYPE__ ptrdiff_t;
typedef struct {
    _Alignas(16) char bytes[16];
} max_align_t; /* malloc of macOS aligns to 16 bytes */
#define NULL ((void *)0)
#endif
