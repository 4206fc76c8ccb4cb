/* The header's layout is the library's: each field of saturn_agent is where the library keeps it. The library is driven
 * through its calls, and each field is looked at, or set, at the place that the header gives it. */
#include <stddef.h>
#include <stdint.h>
#include <stdio.h>
#include <string.h>

#include "saturn.h"
#include "bodies.h"

static unsigned failed;

static void expect(int holds, const char *what)
{
    if (!holds) {
        printf("layout: FAILED: %s\n", what);
        failed++;
    }
}

static struct {
    uint8_t before[64];
    saturn_agent agent;
    uint8_t after[64];
} m;

static uint8_t reply[SATURN_REPLY_ROOM_LEAST];
static const uint8_t given[SATURN_IMAGE] = {[0] = 0xA5, [SATURN_IMAGE - 1] = 0x5A}; /* the inputs */

static uint8_t frame(const uint8_t *body, size_t length)
{
    uint16_t sent;
    return saturn_frame(&m.agent, 1, body, length, reply, sizeof reply, &sent);
}

/* a sound agent with one field set so that it is unsound: the library sees the field where the header has it */
static void unsound(size_t offset, uint8_t value, const char *what)
{
    saturn_agent kept = m.agent;
    ((uint8_t *)&m.agent)[offset] = value;
    saturn_agent set = m.agent;
    expect(saturn_tick(&m.agent, given, sizeof given) == SATURN_UNSOUND, what);
    expect(memcmp(&m.agent, &set, sizeof set) == 0, "an unsound agent is left as it is");
    m.agent = kept;
}

static void registers_at_power_up(void)
{
    static const struct {
        uint8_t at, value;
    } wanted[] = {
        {SATURN_REG_IID, 0x02},     {SATURN_REG_TYP, 0x82},     {SATURN_REG_VER, 0x03},     {SATURN_REG_VER + 1, 0x04},
        {SATURN_REG_TID, 0x8F},     {SATURN_REG_SID, 0xFF},     {SATURN_REG_SID + 2, 0xFF}, {SATURN_REG_OUT_REP, 0xAA},
        {SATURN_REG_TCYC, 0xFF},    {SATURN_REG_STATUT, 0x80},  {SATURN_REG_CNF_REP, 0x05}, {SATURN_REG_CNF_CYC, 0x02},
        {SATURN_REG_AD_REF, 0x80},  {SATURN_REG_SZ_REF, 0x08},  {SATURN_REG_CPT_SEQ, 0},    {SATURN_REG_CPT_FOR, 0},
        {SATURN_REG_CONF, 0},       {SATURN_REG_GROUND, SATURN_GROUND_NONE}, {SATURN_REG_GROUND + 1, 0xFF},
        {SATURN_REG_OUTPUTS - 1, 0xFF}, {SATURN_REG_OUTPUTS, 0}, {SATURN_REG_INPUTS + SATURN_IMAGE - 1, 0},
    };
    for (unsigned i = 0; i < 8; i++)
        expect(m.agent.regs[SATURN_REG_MAC + i] == i + 1, "MAC");
    for (unsigned i = 0; i < sizeof wanted / sizeof wanted[0]; i++)
        expect(m.agent.regs[wanted[i].at] == wanted[i].value, "the registers at power-up, by their addresses");
}

/* in RUN, 300 ms after the last sync, and with the mark set: the tick that makes 510 ms of silence ends the cycle too */
static void ground_shown(void)
{
    for (unsigned i = 0; i < 209; i++)
        saturn_tick(&m.agent, given, sizeof given);
    expect(m.agent.mode == SATURN_RUN && m.agent.regs[SATURN_REG_GROUND] == SATURN_GROUND_NONE, "no ground in the first RUN");
    saturn_tick(&m.agent, given, sizeof given);
    expect(m.agent.mode == SATURN_FALLBACK, "fallback");
    expect(m.agent.regs[SATURN_REG_GROUND] == SATURN_GROUND_SYNC_SILENCE, "the ground is sync silence, not the window");
}

int main(void)
{
    memset(&m, 0xEE, sizeof m);
    saturn_power_up(&m.agent, 0x0807060504030201, 2, 0x0403, SATURN_LIMIT_LIGHTING);
    for (unsigned i = 0; i < 64; i++)
        expect(m.before[i] == 0xEE && m.after[i] == 0xEE, "the library writes inside the struct alone");
    registers_at_power_up();
    for (unsigned i = 0; i < 8; i++)
        expect(m.agent.known[i] == 0xFFFFFF, "known");
    expect(m.agent.last == 0xFFFFFF, "last");
    expect(m.agent.fixed.limit == SATURN_LIMIT_LIGHTING, "the limit of lighting");
    expect(saturn_tick(&m.agent, given, sizeof given) == SATURN_ACCEPTED, "a tick with the limit of lighting");
    unsound(offsetof(saturn_agent, taken), SATURN_LIMIT_LIGHTING + 1, "k above the limit of lighting");

    saturn_power_up(&m.agent, 1, 2, 0, 32);
    expect(m.agent.fixed.limit == 32 && saturn_tick(&m.agent, given, sizeof given) == SATURN_UNSOUND, "a limit that is neither");

    saturn_power_up(&m.agent, 1, 2, 0, SATURN_LIMIT_DOORS);
    for (unsigned i = 0; i < 10; i++)
        expect(saturn_tick(&m.agent, given, sizeof given) == SATURN_ACCEPTED, "tick");
    expect(m.agent.elapsed == 10 && m.agent.silence == 10 && m.agent.cycle == 0 && m.agent.idle == 0, "elapsed and silence");
    for (unsigned i = 0; i < 245; i++)
        saturn_tick(&m.agent, given, sizeof given);
    expect(m.agent.elapsed == 0 && m.agent.silence == 255 && m.agent.cycle == 1, "cycle");
    expect(memcmp(&m.agent.regs[SATURN_REG_INPUTS], given, sizeof given) == 0, "inputs");
    saturn_agent before = m.agent;
    expect(saturn_tick(&m.agent, given, sizeof given - 1) == SATURN_HOST_INPUT, "63 inputs");
    expect(memcmp(&m.agent, &before, sizeof before) == 0, "a tick with 63 inputs leaves the agent as it is");

    expect(frame(TID_ASSIGNMENT, sizeof TID_ASSIGNMENT) == 0 && m.agent.regs[SATURN_REG_TID] == 0x05, "TID");
    expect(frame(SID_BY_A, sizeof SID_BY_A) == 0 && m.agent.count == 1 && m.agent.known[0] == 7, "count and known");
    expect(frame(SYNC_A_10, sizeof SYNC_A_10) == 0 && m.agent.heard == 1 && m.agent.last == 7 && m.agent.cycle == 0x10, "heard and last");
    expect(frame(RELEASE_BY_A, sizeof RELEASE_BY_A) == 0 && m.agent.taken == 1 && m.agent.mode == SATURN_FALLBACK, "taken");
    expect(frame(SYNC_A_11, sizeof SYNC_A_11) == 0 && m.agent.mode == SATURN_RUN && m.agent.taken == 0, "mode");
    for (unsigned i = 0; i < 300; i++)
        saturn_tick(&m.agent, given, sizeof given);
    expect(m.agent.idle == 300 && m.agent.silence == 300, "idle");
    expect(frame(SID_BY_B, sizeof SID_BY_B) == 0 && m.agent.mark == 0, "no mark");
    expect(frame(SYNC_B_12, sizeof SYNC_B_12) == SATURN_OUTSIDE_WINDOW && m.agent.mark == 1, "mark");

    unsound(offsetof(saturn_agent, mode), 7, "mode is where the library has it");
    unsound(offsetof(saturn_agent, heard), 7, "heard is where the library has it");
    unsound(offsetof(saturn_agent, mark), 7, "mark is where the library has it");
    unsound(offsetof(saturn_agent, count), 9, "count is where the library has it");
    unsound(offsetof(saturn_agent, elapsed), 255, "elapsed is where the library has it");
    unsound(offsetof(saturn_agent, taken), SATURN_LIMIT_DOORS + 1, "taken is where the library has it");
    unsound(offsetof(saturn_agent, fixed.limit), 32, "the limit is where the library has it");
    unsound(offsetof(saturn_agent, idle) + 1, 0xFF, "idle is where the library has it");
    unsound(offsetof(saturn_agent, silence) + 1, 0xFF, "silence is where the library has it");
    unsound(offsetof(saturn_agent, last), 9, "last is where the library has it");
    unsound(offsetof(saturn_agent, known) + 3, 1, "known is where the library has it");
    unsound(offsetof(saturn_agent, regs) + SATURN_REG_GROUND, SATURN_GROUND_WINDOW + 1, "the ground is where the library has it");

    ground_shown();

    if (failed == 0)
        printf("layout: ok, %zu bytes\n", sizeof(saturn_agent));
    return failed != 0;
}
