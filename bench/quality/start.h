// What both programs begin with: the stack's end, then `init` once and `loop` for ever, and the access of devices.
__asm__(
    ".section .text.start\n"
    ".globl _start\n"
    "_start:\n"
    "  lui sp, 64\n"
    "  call init\n"
    "1: call loop\n"
    "  j 1b\n"
    ".text\n");

typedef unsigned int word;
typedef unsigned char byte;

#define REGISTER(address) (*(volatile word *)(address))

void init(void);
void loop(void);
