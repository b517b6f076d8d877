/* How the Cortex-M3 starts: the vector table, and the memory that a C program wants. */
#include <stdint.h>

extern uint32_t data_begin;             /* places of the linker script */
extern uint32_t data_end;
extern const uint32_t data_in_flash;
extern uint32_t bss_begin;
extern uint32_t bss_end;
extern uint32_t stack_top;

int main(void);
void reset_handler(void);
void fault_handler(void);
void systick_handler(void);
void board_exit(uint32_t reason);

#define SEMIHOSTING_ERROR 0x20023U

typedef struct {
    uint32_t *stack;
    void (*handler[15])(void);          /* from the reset on */
} vectors;

__attribute__((section(".vectors"), used)) const vectors vector_table = {
    &stack_top,
    { reset_handler, fault_handler, fault_handler, fault_handler, fault_handler, fault_handler, 0, 0, 0, 0,
      fault_handler, fault_handler, 0, fault_handler, systick_handler }
};

void reset_handler(void)
{
    const uint32_t *from = &data_in_flash;
    for (uint32_t *to = &data_begin; to != &data_end; to++) {
        *to = *from;
        from++;
    }
    for (uint32_t *to = &bss_begin; to != &bss_end; to++) {
        *to = 0U;
    }
    (void)main();
    fault_handler();
}

void fault_handler(void)
{
    board_exit(SEMIHOSTING_ERROR);
    for (;;) {
    }
}
