/* What runs first as interrupts of received.rtic are taken. `native` writes an object, which is linked with it:

       ./rticx native examples/board/received.rtic examples/board/received.board > received.o
       arm-none-eabi-gcc -mcpu=cortex-m4 -mthumb -Os -ffreestanding -c examples/board/received.c -o functions.o
       arm-none-eabi-ld -e reset --section-start=.rtic=0 -Ttext=0x2000 received.o functions.o -o received.elf
       qemu-system-arm -M mps2-an386 -nographic -monitor none -serial stdio -kernel received.elf

   Nobody copies first values of C or clears its memory. What a function takes of the stack, and 8 bytes, has to fit into
   the frame of its task, which `check` prints in words of 4 bytes. */
#include <stdint.h>

/* UART0 of mps2-an386: data, control, interrupts */
#define UART(offset) (*(volatile uint32_t *)(0x40004000 + (offset)))
enum { DATA = 0x0, CONTROL = 0x8, INTERRUPTS = 0xC, DIVISOR = 0x10 };
enum { TRANSMIT = 1, RECEIVE = 2, RECEIVE_INTERRUPT = 8, RECEIVED = 2 };

/* the local resource `byte` of the application, which only the handler of UART0 reads */
extern volatile uint32_t cell_local_byte;

void SETUP_in(void) {
    UART(DIVISOR) = 16;
    UART(CONTROL) = TRANSMIT | RECEIVE | RECEIVE_INTERRUPT;
}

void UART0_in(void) {
    UART(INTERRUPTS) = RECEIVED;
    cell_local_byte = UART(DATA);
}
