/* The example on a Cortex-M3, the LM3S6965 that QEMU emulates: each interrupt of SysTick is a tick. The wire is UART 0, and a tick
 * waits for its line there, so that the nodes of a cluster, each in an emulator of its own, have one time. */
#include "../node.h"
#include "../wire.h"

#include <stdint.h>

#define REGISTER(address) (*(volatile uint32_t *)(address))
#define UART_DATA REGISTER(0x4000C000U)
#define UART_FLAGS REGISTER(0x4000C018U)
#define UART_LINE REGISTER(0x4000C02CU)
#define UART_CONTROL REGISTER(0x4000C030U)
#define UART_RECEIVE_EMPTY 0x10U
#define UART_SEND_FULL 0x20U
#define SYSTICK_CONTROL REGISTER(0xE000E010U)
#define SYSTICK_RELOAD REGISTER(0xE000E014U)
#define SYSTICK_VALUE REGISTER(0xE000E018U)
#define CYCLES_OF_A_UNIT 6000U          /* half a millisecond at 12 MHz: the time unit of the graph, here */
#define SEMIHOSTING_EXIT 0x18U
#define SEMIHOSTING_GOOD 0x20026U

void board_exit(uint32_t reason);
void systick_handler(void);
int main(void);

int wire_read(void)
{
    while ((UART_FLAGS & UART_RECEIVE_EMPTY) != 0U) {
        /* the line is still to come */
    }
    return (int)(UART_DATA & 0xFFU);
}

void wire_write(char character)
{
    while ((UART_FLAGS & UART_SEND_FULL) != 0U) {
        /* there is no room */
    }
    UART_DATA = (uint32_t)(uint8_t)character;
}

/* Ends the emulation. */
void board_exit(uint32_t reason)
{
    register uint32_t call __asm__("r0") = SEMIHOSTING_EXIT;
    register uint32_t why __asm__("r1") = reason;
    __asm__ volatile("bkpt 0xAB" : : "r"(call), "r"(why) : "memory");
}

void systick_handler(void)
{
    if (!wire_wait()) {
        board_exit(SEMIHOSTING_GOOD);
    }
    node_tick();
    wire_done();
}

int main(void)
{
    UART_LINE = 0x70U;                  /* 8 bits, with queues */
    UART_CONTROL = 0x301U;
    node_begin();
    wire_done();
    SYSTICK_RELOAD = CYCLES_OF_A_UNIT - 1U;
    SYSTICK_VALUE = 0U;
    SYSTICK_CONTROL = 7U;               /* on, with its interrupt, by the processor's clock */
    for (;;) {
        __asm__ volatile("wfi");        /* on a real board the processes run here, in threads */
    }
}
