/* What compiled programs want of a C library and of libgcc, as far as whole numbers go: compilers.py joins to a program those
   functions that it leaves undefined. Multiplication and division of 32 bits without signs are in runtime.s. */

typedef unsigned size;
typedef unsigned long long wide;

void __attribute__((noreturn)) exit(int status)
{
    register int a0 __asm__("a0") = status;
    register int a7 __asm__("a7") = 0;
    __asm__ volatile("ecall" : : "r"(a0), "r"(a7));
    __builtin_unreachable();
}

/* As a shell tells of SIGABRT. */
void __attribute__((noreturn)) abort(void)
{
    exit(134);
}

void *memcpy(void *to, const void *from, size count)
{
    for (size at = 0; at < count; at++) {
        ((char *)to)[at] = ((const char *)from)[at];
    }
    return to;
}

void *memmove(void *to, const void *from, size count)
{
    if ((size)to <= (size)from) {
        return memcpy(to, from, count);
    }
    while (count-- > 0) {
        ((char *)to)[count] = ((const char *)from)[count];
    }
    return to;
}

void *memset(void *to, int byte, size count)
{
    for (size at = 0; at < count; at++) {
        ((char *)to)[at] = (char)byte;
    }
    return to;
}

int memcmp(const void *left, const void *right, size count)
{
    const unsigned char *a = left, *b = right;
    for (size at = 0; at < count; at++) {
        if (a[at] != b[at]) {
            return a[at] - b[at];
        }
    }
    return 0;
}

size strlen(const char *text)
{
    size at = 0;
    while (text[at]) {
        at++;
    }
    return at;
}

int strcmp(const char *left, const char *right)
{
    while (*left && *left == *right) {
        left++;
        right++;
    }
    return *(const unsigned char *)left - *(const unsigned char *)right;
}

char *strcpy(char *to, const char *from)
{
    memcpy(to, from, strlen(from) + 1);
    return to;
}

char *strchr(const char *text, int byte)
{
    for (; *text != (char)byte; text++) {
        if (!*text) {
            return 0;
        }
    }
    return (char *)text;
}

extern char *start_heap_at;

/* Takes what it gives from the start code's heap, and never gives any of it back. */
void *malloc(size count)
{
    char *made = start_heap_at;
    start_heap_at += (count + 15) & ~15u;
    return made;
}

void *calloc(size count, size each)
{
    return malloc(count * each); /* the heap is zero */
}

void free(void *made)
{
    (void)made;
}

unsigned __udivsi3(unsigned, unsigned), __umodsi3(unsigned, unsigned);

int __divsi3(int left, int right)
{
    unsigned made = __udivsi3(left < 0 ? -(unsigned)left : left, right < 0 ? -(unsigned)right : right);
    return (left < 0) != (right < 0) ? -made : made;
}

int __modsi3(int left, int right)
{
    unsigned made = __umodsi3(left < 0 ? -(unsigned)left : left, right < 0 ? -(unsigned)right : right);
    return left < 0 ? -made : made;
}

wide __muldi3(wide left, wide right)
{
    wide made = 0;
    for (; right; right >>= 1, left <<= 1) {
        made += right & 1 ? left : 0;
    }
    return made;
}

static wide divide(wide left, wide right, wide *rest)
{
    wide made = 0;
    *rest = 0;
    for (int bit = 63; bit >= 0; bit--) {
        wide over = *rest >> 63;
        *rest = *rest << 1 | (left >> bit & 1);
        if (over || *rest >= right) {
            *rest -= right;
            made |= 1ull << bit;
        }
    }
    return made;
}

wide __udivdi3(wide left, wide right)
{
    wide rest;
    return divide(left, right, &rest);
}

wide __umoddi3(wide left, wide right)
{
    wide rest;
    divide(left, right, &rest);
    return rest;
}

long long __divdi3(long long left, long long right)
{
    wide made = __udivdi3(left < 0 ? -(wide)left : left, right < 0 ? -(wide)right : right);
    return (left < 0) != (right < 0) ? -made : made;
}

long long __moddi3(long long left, long long right)
{
    wide made = __umoddi3(left < 0 ? -(wide)left : left, right < 0 ? -(wide)right : right);
    return left < 0 ? -made : made;
}
