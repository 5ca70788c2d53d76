/* The board of interface.h by the registers of an STM32G071 or G031, as on a NUCLEO-G071RB or NUCLEO-G031K8, whose USB is the serial port.
 * NOT TRIED WITH HARDWARE: the registers are from memory. Compare them with the reference manual (RM0444) before the first frame.
 *
 *     PA0  in,  TIM2_CH1: high while the bus is low        PA2  USART2_TX, to the programmer's USB
 *     PA1  out, TIM2_CH2: high while the bus is to be low  PA3  USART2_RX
 *
 * TIM2 counts microseconds in 32 bits. It captures both edges of PA0, and changes PA1 at the moment that the port told before, as a change by an
 * interrupt would come late. */
#include "interface.h"
#include "pins.h"

#include <string.h>

#define REGISTERS(address) ((volatile uint32_t *)(address))
#define BIT(number) (UINT32_C(1) << (number))

#define RCC REGISTERS(0x40021000)
enum { RCC_CR = 0, RCC_CFGR = 2, RCC_PLLCFGR = 3, RCC_IOPENR = 13, RCC_APBENR1 = 15 };
#define FLASH_ACR (*REGISTERS(0x40022000))
#define GPIOA REGISTERS(0x50000000)
enum { GPIO_MODER = 0, GPIO_PUPDR = 3, GPIO_IDR = 4, GPIO_AFRL = 8 };
#define TIM2 REGISTERS(0x40000000)
enum { TIM_CR1 = 0, TIM_DIER = 3, TIM_SR = 4, TIM_EGR = 5, TIM_CCMR1 = 6, TIM_CCER = 8, TIM_CNT = 9, TIM_PSC = 10, TIM_ARR = 11,
       TIM_CCR1 = 13, TIM_CCR2 = 14 };
#define USART2 REGISTERS(0x40004400)
enum { USART_CR1 = 0, USART_BRR = 3, USART_ISR = 7, USART_ICR = 8, USART_RDR = 9, USART_TDR = 10 };
#define IWDG REGISTERS(0x40003000)
enum { IWDG_KR = 0, IWDG_PR = 1, IWDG_RLR = 2 };
#define SYSTICK REGISTERS(0xE000E010)
#define NVIC_ISER (*REGISTERS(0xE000E100))
#define NVIC_IPR REGISTERS(0xE000E400)
enum { TIM2_IRQ = 15, USART2_IRQ = 28 };

#define CLOCK UINT32_C(64000000)
#define SPEED UINT32_C(115200)
/* In TIM_CCMR1: channel 1 captures; and what channel 2 does at its moment, or does at once. */
#define CAPTURES BIT(0)
enum { HIGH_THEN = 1, LOW_THEN = 2, LOW_NOW = 4, HIGH_NOW = 5 };
/* In TIM_SR and TIM_DIER: an edge was captured, one more before it was read, and the moment has come. */
#define CAPTURED BIT(1)
#define MOMENT BIT(2)
#define OVERRUN BIT(9)
/* In USART_ISR and USART_ICR: parity, framing, noise and overrun; in the first: a byte came; a byte may go. */
#define DAMAGED (BIT(0) | BIT(1) | BIT(2) | BIT(3))
#define BYTE_CAME BIT(5)
#define BYTE_MAY_GO BIT(7)

static struct pins pins;
/* What is drawn of, for the moment at which a frame begins. */
static uint32_t drawn;

/* PA1 at the moment of TIM_CCR2, or at once. */
static void drive(uint32_t how)
{
    TIM2[TIM_CCMR1] = CAPTURES | how << 12;
}

static int is_past(uint32_t at)
{
    return (int32_t)(TIM2[TIM_CNT] - at) >= 0;
}

uint32_t pins_clock(struct pins *it)
{
    (void)it;
    return TIM2[TIM_CNT];
}

int pins_captured(struct pins *it, uint32_t *time)
{
    uint32_t found = TIM2[TIM_SR];

    (void)it;
    *time = TIM2[TIM_CCR1];
    if (found & OVERRUN)
        TIM2[TIM_SR] = ~(OVERRUN | CAPTURED);
    return found & OVERRUN ? -1 : (found & CAPTURED) != 0;
}

uint8_t pins_level(struct pins *it)
{
    (void)it;
    return GPIOA[GPIO_IDR] & 1;
}

/* A level whose time is past is not driven any more, since the unit has changed it to the next one already. */
void pins_drive(struct pins *it, uint8_t is_low, uint32_t at)
{
    uint8_t is_next = it->event.next, is_due = is_past(at) ? is_next : is_low;

    TIM2[TIM_CCR2] = at;
    if ((GPIOA[GPIO_IDR] >> 1 & 1) != is_due)
        drive(is_due ? HIGH_NOW : LOW_NOW);
    drive(is_next ? HIGH_THEN : LOW_THEN);
    if (is_past(at)) {
        drive(is_next ? HIGH_NOW : LOW_NOW);
        TIM2[TIM_EGR] = MOMENT;
    }
}

void pins_tell(struct pins *it, const struct dali_event *event)
{
    (void)it;
    if (event->input != 0)
        interface_told(event->input, event->byte);
}

void board_begin(void)
{
    /* 64 MHz: 16 MHz, by 8, through 2. The flash waits two cycles. */
    FLASH_ACR = 2 | BIT(8) | BIT(9);
    RCC[RCC_PLLCFGR] = 2 | 8 << 8 | BIT(28) | BIT(29);
    RCC[RCC_CR] |= BIT(24);
    while (!(RCC[RCC_CR] & BIT(25)))
        ;
    RCC[RCC_CFGR] = 2;
    while ((RCC[RCC_CFGR] >> 3 & 7) != 2)
        ;
    RCC[RCC_IOPENR] |= BIT(0);
    RCC[RCC_APBENR1] |= BIT(0) | BIT(17);

    TIM2[TIM_PSC] = CLOCK / 1000000 - 1;
    TIM2[TIM_ARR] = UINT32_C(0xFFFFFFFF);
    drive(LOW_NOW);
    TIM2[TIM_CCER] = BIT(0) | BIT(1) | BIT(3) | BIT(4);
    TIM2[TIM_EGR] = 1;
    TIM2[TIM_SR] = 0;
    TIM2[TIM_DIER] = CAPTURED | MOMENT;
    TIM2[TIM_CR1] = 1;

    /* PA0 to PA3 have the function of a device, the first two number 2, the others number 1. */
    GPIOA[GPIO_AFRL] = (GPIOA[GPIO_AFRL] & ~UINT32_C(0xFFFF)) | 0x1122;
    GPIOA[GPIO_MODER] = (GPIOA[GPIO_MODER] & ~UINT32_C(0xFF)) | 0xAA;

    USART2[USART_BRR] = (CLOCK + SPEED / 2) / SPEED;
    USART2[USART_CR1] = BIT(0) | BIT(2) | BIT(3) | BIT(5);

    SYSTICK[1] = CLOCK / 100 - 1;
    SYSTICK[2] = 0;
    SYSTICK[0] = 7;
    /* The timer interrupts the serial port, and not the other way. */
    NVIC_IPR[USART2_IRQ / 4] |= UINT32_C(0xC0) << USART2_IRQ % 4 * 8;
    NVIC_ISER = BIT(TIM2_IRQ) | BIT(USART2_IRQ);

    /* The watchdog: 32 kHz through 4, half a second. */
    IWDG[IWDG_KR] = 0xCCCC;
    IWDG[IWDG_KR] = 0x5555;
    IWDG[IWDG_PR] = 0;
    IWDG[IWDG_RLR] = 4000;
}

uint32_t board_clock(void)
{
    return TIM2[TIM_CNT];
}

uint8_t board_send(const struct dali_order *order)
{
    uint8_t status;

    drawn = (drawn ^ TIM2[TIM_CNT]) * UINT32_C(2654435761);
    board_lock();
    status = pins_send(&pins, order, (drawn >> 16) % 1201);
    board_unlock();
    return status;
}

void board_release(void)
{
    board_lock();
    pins_begin(&pins);
    board_unlock();
}

void board_say(void)
{
    board_lock();
    USART2[USART_CR1] |= BYTE_MAY_GO;
    board_unlock();
}

void board_feed(void)
{
    IWDG[IWDG_KR] = 0xAAAA;
}

void board_lock(void)
{
    __asm__ volatile("cpsid i" : : : "memory");
}

void board_unlock(void)
{
    __asm__ volatile("cpsie i" : : : "memory");
}

void board_rest(void)
{
    __asm__ volatile("wfi" : : : "memory");
}

static void of_timer(void)
{
    TIM2[TIM_SR] = ~MOMENT;
    pins_interrupt(&pins);
}

static void of_serial_port(void)
{
    uint32_t found = USART2[USART_ISR];
    int byte;

    USART2[USART_ICR] = DAMAGED;
    if (found & BYTE_CAME)
        interface_received((uint8_t)USART2[USART_RDR]);
    if (!(found & BYTE_MAY_GO) || !(USART2[USART_CR1] & BYTE_MAY_GO))
        return;
    byte = interface_next();
    if (byte >= 0)
        USART2[USART_TDR] = (uint32_t)byte;
    else
        USART2[USART_CR1] &= ~BYTE_MAY_GO;
}

/* What the processor begins with, and its interrupts. */

extern uint8_t stack_end[], data_from[], data_begin[], data_end[], zero_begin[], zero_end[];
int main(void);

static void of_tick(void)
{
}

/* The watchdog ends this. */
static void of_fault(void)
{
    for (;;)
        ;
}

void reset(void)
{
    memcpy(data_begin, data_from, (size_t)(data_end - data_begin));
    memset(zero_begin, 0, (size_t)(zero_end - zero_begin));
    main();
}

__attribute__((section(".vectors"), used)) static const uintptr_t vectors[16 + 32] = {
    [0] = (uintptr_t)stack_end,
    [1] = (uintptr_t)reset,
    [2] = (uintptr_t)of_fault,
    [3] = (uintptr_t)of_fault,
    [11] = (uintptr_t)of_fault,
    [14] = (uintptr_t)of_fault,
    [15] = (uintptr_t)of_tick,
    [16 + TIM2_IRQ] = (uintptr_t)of_timer,
    [16 + USART2_IRQ] = (uintptr_t)of_serial_port,
};
