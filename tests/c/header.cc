// The headers as C++; a call is linked as C.
#include "grasp_text.h"

int main() {
    const uint8_t discovery[] = {0x84, 0x01, 0x07, 0x44, 0xC0, 0x00, 0x02, 0x01,
                                 0x83, 0x63, 0x45, 0x58, 0x31, 0x01, 0x02};
    const uint8_t address[GRASP_ADDRESS_BYTES] = {};
    uint64_t fields[GRASP_MESSAGE_FIELDS] = {};
    if (grasp_read(discovery, sizeof discovery, fields) != GRASP_OK)
        return 1;
    const grasp_span name = grasp_message_name(discovery, sizeof discovery, fields);
    if (name.at != discovery + 10 || name.len != 3 || grasp_message_kind(fields) != GRASP_KIND_DISCOVERY)
        return 1;
    grasp_record node = GRASP_RECORD_INIT;
    if (grasp_record_fresh(&node, address, 7017, 60000, 3, 7) != GRASP_OK || node.links != 7)
        return 1;
    const char *const own[] = {"EX1"};
    uint8_t names[GRASP_MAX_NAMES_BYTES];
    if (grasp_own_names(own, 1, names, sizeof names) != 5 || names[0] != 0x81 || names[4] != '1')
        return 1;
    grasp_message_to_write(fields);
    return grasp_refusal_text(GRASP_REFUSAL_CUT) == nullptr ||
           grasp_verdict_text(GRASP_VERDICT_RELAY) == nullptr;
}
