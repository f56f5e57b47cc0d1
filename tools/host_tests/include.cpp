// The header in C++: included twice, used, linked.
#include "doorhawser.h"
#include "doorhawser.h"
#include <cstdio>
#include <vector>

int main() {
    std::vector<uint8_t> memory(DOORHAWSER_MEMORY), journal(10 * DOORHAWSER_RECORD);
    memory[0] = 0x12;
    doorhawser_settings settings{0x7FFF, DOORHAWSER_MANUAL, 0, DOORHAWSER_ALL_ALLOWED};
    doorhawser_outcome o = doorhawser_step(memory.data(), memory.size(), journal.data(), journal.size(), doorhawser_start(), settings);
    std::printf("%llu %04X %d\n", static_cast<unsigned long long>(o.answer), o.twin.pc, doorhawser_abi() == DOORHAWSER_ABI);
    o = doorhawser_undo(memory.data(), memory.size(), journal.data(), journal.size(), o.twin);
    std::printf("%llu %04X %02X\n", static_cast<unsigned long long>(o.answer), o.twin.pc, doorhawser_peek(memory.data(), 0));
    return 0;
}
