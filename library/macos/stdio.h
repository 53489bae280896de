#include <stddef.h>
typedef struct file FILE;
extern FILE *__stdinp;
extern FILE *__stdoutp;
#define stdin __stdinp
#define stdout __stdoutp
size_t fread(void *, size_t, size_t, FILE *);
size_t fwrite(const void *, size_t, size_t, FILE *);
int ferror(FILE *);
int fflush(FILE *);
