/*
 * The calls that give three words, for x86-64 with the calling convention of Windows. The module hands three words back
 * in two registers, as x86-64 does elsewhere and aarch64 everywhere; Windows wants them in memory that the caller
 * names. tools/build gives those calls the other convention and the name in_registers_..., and here is what C links.
 */
#include "tabeshilo.h"

#define IN_REGISTERS __attribute__((sysv_abi))

IN_REGISTERS tab_moved in_registers_tab_text_to_groups(const uint8_t *text, size_t bytes, uint8_t *out, size_t room);
IN_REGISTERS tab_moved in_registers_tab_groups_to_text(const uint8_t *groups, size_t bytes, uint8_t *out, size_t room);

tab_moved tab_text_to_groups(const uint8_t *text, size_t bytes, uint8_t *out, size_t room) {
    return in_registers_tab_text_to_groups(text, bytes, out, room);
}

tab_moved tab_groups_to_text(const uint8_t *groups, size_t bytes, uint8_t *out, size_t room) {
    return in_registers_tab_groups_to_text(groups, bytes, out, room);
}
