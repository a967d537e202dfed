/* Four jobs of a receiver kit, one of them with two threads. What they do is a loop that counts; when they block and wake one another is as it might
 * be. */
#include "kernel.h"
#include "saplingloft.h"

/* Works for about so many thousandths of a tick, if nobody else runs. */
static void work(uint32_t thousandths)
{
    for (volatile uint32_t i = 0; i < thousandths * 8; i++) {}
}

/* Sixty ticks after the start somebody holds a button down, and a long correction arrives. */
static int busy_time(void) { return uptime() >= 60; }

/* A position every fourth tick, for the logger. */
static void tracking(void)
{
    for (;;) {
        work(900);
        wake(LOGGER);
        sleep_for(3);
    }
}

/* Writes what tracking has for it. When its page of flash is full the next one is erased. */
static void logger(void)
{
    for (uint32_t written = 0;; written++) {
        if (written == 8)
            erase_flash();
        work(500);
        wait();
    }
}

/* Listens now and then; while the correction arrives it never blocks. */
static void radio(void)
{
    for (;;) {
        work(200);
        if (!busy_time())
            sleep_for(10);
    }
}

/* Draws now and then; while the button is down it draws all the time, and has the highest priority of all. The end of the demonstration is here too:
 * a restart after 200 ticks, and the end after as many more. */
static void screen(void)
{
    static __attribute__((section(".noinit"))) uint32_t restarted;
    for (;;) {
        work(300);
        if (!busy_time())
            sleep_for(5);
        if (uptime() >= 200) {
            if (restarted == 0x5EC0)
                finish();
            restarted = 0x5EC0;
            restart();
        }
    }
}

/* Draws the menu now and then, and while the button is down all the time. It has the priority of the thread above; both are round robin, so that they
 * take turns. */
static void menu(void)
{
    for (;;) {
        work(100);
        if (!busy_time())
            sleep_for(8);
    }
}

const struct work works[THREADS] = {
    [TRACKING] = { tracking, TRACKING, 20, SAPLINGLOFT_POLICY_FIRST_IN_FIRST_OUT },
    [LOGGER] = { logger, LOGGER, 10, SAPLINGLOFT_POLICY_FIRST_IN_FIRST_OUT },
    [RADIO] = { radio, RADIO, 30, SAPLINGLOFT_POLICY_FIRST_IN_FIRST_OUT },
    [SCREEN] = { screen, SCREEN, 40, SAPLINGLOFT_POLICY_ROUND_ROBIN },
    [MENU] = { menu, SCREEN, 40, SAPLINGLOFT_POLICY_ROUND_ROBIN },
};
