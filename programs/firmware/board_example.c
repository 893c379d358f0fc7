/* A sketch of a board: a Raspberry Pi Pico (RP2040) with a DALI transceiver, in the functions of its C library, the
 * Pico SDK. It was never compiled with that library, never tried on a board and never on a bus. The bench leaves it
 * out.
 *
 *   GPIO 0   serial output        to the controller, over a USB serial adapter of 3.3 volts
 *   GPIO 1   serial input
 *   GPIO 2   bus output           high makes the bus active, where the transceiver does not invert
 *   GPIO 3   bus input            high while the bus is active, where the transceiver inverts
 *
 * The two constants below say what the transceiver does. It has to part the bus from the board (IEC 62386-101 asks for
 * basic insulation at least), and a DALI bus needs a power supply of its own. */
#include "hardware/gpio.h"
#include "hardware/irq.h"
#include "hardware/pwm.h"
#include "hardware/sync.h"
#include "hardware/timer.h"
#include "hardware/uart.h"
#include "pico/stdlib.h"

#include "board.h"
#include "interface.h"

enum { SERIAL_OUT = 0, SERIAL_IN = 1, BUS_OUT = 2, BUS_IN = 3, BAUD = 115200 };
enum { OUT_INVERTS = 0, IN_INVERTS = 1 };

/* The clock of 125 MHz makes 52083 steps in a half bit: 416.664 microseconds. */
enum { TIMER = 0, TIMER_LAST_STEP = 52083 - 1 };

static uint32_t interrupts;

void board_set_active(bool is_active)
{
    gpio_put(BUS_OUT, is_active != OUT_INVERTS);
}

/* The pin is low while the bus is idle, since the voltage of the bus lights the diode of an optocoupler. */
bool board_reads_active(void)
{
    return gpio_get(BUS_IN) == IN_INVERTS;
}

uint32_t board_microseconds(void)
{
    return time_us_32();
}

void board_lock(void)
{
    interrupts = save_and_disable_interrupts();
}

void board_unlock(void)
{
    restore_interrupts(interrupts);
}

bool board_take_byte(uint8_t *byte)
{
    if (!uart_is_readable(uart0))
        return false;
    *byte = (uint8_t)uart_getc(uart0);
    return true;
}

bool board_give_byte(uint8_t byte)
{
    if (!uart_is_writable(uart0))
        return false;
    uart_putc_raw(uart0, (char)byte);
    return true;
}

static void on_half_bit(void)
{
    pwm_clear_irq(TIMER);
    interface_tick();
}

/* Both interrupts have the same priority, so that neither interrupts the other one. */
static void on_edge(uint pin, uint32_t edges)
{
    (void)pin;
    (void)edges;
    interface_edge();
}

static void begin_pins(void)
{
    uart_init(uart0, BAUD);
    gpio_set_function(SERIAL_OUT, GPIO_FUNC_UART);
    gpio_set_function(SERIAL_IN, GPIO_FUNC_UART);
    gpio_init(BUS_OUT);
    gpio_put(BUS_OUT, OUT_INVERTS); /* the bus is left alone before the pin becomes an output */
    gpio_set_dir(BUS_OUT, GPIO_OUT);
    gpio_init(BUS_IN);
    gpio_set_dir(BUS_IN, GPIO_IN);
}

static void begin_interrupts(void)
{
    gpio_set_irq_enabled_with_callback(BUS_IN, GPIO_IRQ_EDGE_RISE | GPIO_IRQ_EDGE_FALL, true, on_edge);
    pwm_clear_irq(TIMER);
    pwm_set_irq_enabled(TIMER, true);
    irq_set_exclusive_handler(PWM_IRQ_WRAP, on_half_bit);
    irq_set_enabled(PWM_IRQ_WRAP, true);
    pwm_set_wrap(TIMER, TIMER_LAST_STEP);
    pwm_set_enabled(TIMER, true);
}

int main(void)
{
    begin_pins();
    interface_begin();
    begin_interrupts();
    for (;;)
        interface_poll();
}
