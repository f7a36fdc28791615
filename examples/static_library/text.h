/* Texts and numbers on standard output: the C half of the library. */
#ifdef __cplusplus
extern "C" {
#endif

void put(const char *bytes, unsigned long length);
void print(const char *text);
void print_number(unsigned long n);

/* What stands before each text; the library's own definition is a weak one. */
const char *prefix(void);

/* Called after each text, where some object defines it. */
__attribute__((weak)) void printed(unsigned long length);

/* How many texts and numbers were printed: a common block, since each C object has it without a value (-fcommon). */
#ifdef __cplusplus
extern
#endif
unsigned long printed_parts;

#ifdef __cplusplus
}
#endif
