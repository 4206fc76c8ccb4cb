/* A firmware's main loop over the bus agent: a simulated millisecond, two ring ports and the terminals. It plays the opening
 * steps: power up, assign, release, sync, write, cut the active concentrator, let the next one take the ring; and prints what
 * a fitter would see. With a word on the command line it damages the state instead of cutting the concentrator, and shows how
 * the loop reacts. */
#include <stdint.h>
#include <stdio.h>
#include <stddef.h>
#include <string.h>

#include "saturn.h"
#include "bodies.h"

#define MAC 1
#define IID 2
#define VER 0
#define LIMIT SATURN_LIMIT_DOORS /* doors: 64 requests a cycle; a lighting module has SATURN_LIMIT_LIGHTING, 16 */

static saturn_agent module;
static const uint8_t given[SATURN_IMAGE] = {0xA5}; /* the inputs */
static uint8_t terminals[SATURN_IMAGE];            /* the outputs */
static uint8_t reply[SATURN_REPLY_ROOM_LEAST];
static unsigned long now_ms;

/* After every call: a state that was damaged is given up, terminals first; then the output image goes to the terminals. */
static void after_call(uint8_t answer)
{
    if (answer == SATURN_UNSOUND) {
        memset(terminals, 0, sizeof terminals);
        printf("%6lu ms  answer %u, %s: terminals off, power up\n", now_ms, answer, saturn_answer_text(answer));
        saturn_power_up(&module, MAC, IID, VER, LIMIT);
    }
    memcpy(terminals, &module.regs[SATURN_REG_OUTPUTS], sizeof terminals);
}

static void show(const char *event, uint8_t answer, uint16_t sent)
{
    uint8_t ground = module.regs[SATURN_REG_GROUND]; /* why the module last left RUN */
    printf("%6lu ms  %-52s answer %2u  %-8s  cycle %02X  outputs %02X %02X  ground %02X (%s)  reply ", now_ms, event, answer,
           module.mode == SATURN_RUN ? "RUN" : "fallback", module.cycle, terminals[0], terminals[1], ground,
           saturn_ground_text(ground));
    if (sent == 0) {
        puts("-");
        return;
    }
    for (uint16_t i = 0; i < sent && i < sizeof reply; i++)
        printf("%02X", reply[i]);
    puts("");
}

static void frame(const char *event, uint8_t port, const uint8_t *body, size_t length)
{
    uint16_t sent = 0;
    uint8_t answer = saturn_frame(&module, port, body, length, reply, sizeof reply, &sent);
    after_call(answer);
    show(event, answer, sent);
}

/* so many milliseconds; the tick that ends them is shown */
static void wait_ms(const char *event, unsigned count)
{
    uint8_t answer = 0;
    for (unsigned i = 0; i < count; i++) {
        now_ms++;
        answer = saturn_tick(&module, given, sizeof given);
        after_call(answer);
    }
    show(event, answer, 0);
}

#define FRAME(event, port, body) frame(event, port, body, sizeof body)

/* from power-up to RUN with outputs on */
static void opening(void)
{
    saturn_power_up(&module, MAC, IID, VER, LIMIT);
    show("power up", 0, 0);
    wait_ms("the first millisecond, with the inputs", 1);
    FRAME("TID 05h is assigned", 1, TID_ASSIGNMENT);
    FRAME("SID 000005h is assigned by concentrator 7", 1, SID_BY_A);
    FRAME("the same by concentrator 8", 2, SID_BY_B);
    FRAME("sync of concentrator 7, CYC 10h", 1, SYNC_A_10);
    FRAME("release order: 55h to 17h", 1, RELEASE_BY_A);
    wait_ms("a cycle passes", 255);
    FRAME("sync of concentrator 7, CYC 11h: RUN", 1, SYNC_A_11);
    FRAME("its write of 01 FF to the outputs", 1, WRITE_BY_A);
}

static void next_concentrator(void)
{
    FRAME("a copy of it on the other port", 2, WRITE_BY_A);
    wait_ms("concentrator 7 is cut, a cycle passes", 255);
    FRAME("sync of concentrator 8, CYC 12h: it takes the ring", 2, SYNC_B_12);
    FRAME("its write of 03 FF to the outputs", 2, WRITE_BY_B);
    FRAME("late closing write of concentrator 7: refused", 1, LATE_CLOSING_WRITE_BY_A);
    FRAME("concentrator 8 reads STATUT", 2, READ_STATUT_BY_B);
    wait_ms("the ring is silent", 509);
    wait_ms("one millisecond more: fallback, outputs zero", 1);
}

/* a stray write into the state, which the next call finds */
static void damage(void)
{
    module.taken = 0xFF;
    show("the state is damaged: outputs are still on", 0, 0);
    wait_ms("the next millisecond", 1);
    FRAME("TID 05h is assigned again", 1, TID_ASSIGNMENT);
    FRAME("SID 000005h is assigned by concentrator 7", 1, SID_BY_A);
}

int main(int argc, char **argv)
{
    (void)argv;
    opening();
    if (argc > 1)
        damage();
    else
        next_concentrator();
    return 0;
}
