#include <paxidore.h>
#include <stdio.h>
int main(void) {
    const uint32_t field = PAXIDORE_BLS12_381_FR, prepared = field + PAXIDORE_PREPARED;
    uint8_t ready[16384], parameters[16384], state[PAXIDORE_TRANSCRIPTBYTES(2, 1, 32)], challenge[32];
    size_t ready_len, parameters_len, state_len;
    if (paxidore_transcript_ready_parameters(ready, sizeof ready, &ready_len, field, 2) != PAXIDORE_OK ||
        paxidore_transcript_prepare(parameters, sizeof parameters, &parameters_len, field, ready, ready_len) != PAXIDORE_OK ||
        paxidore_transcript_init(state, sizeof state, &state_len, prepared, parameters, parameters_len) != PAXIDORE_OK ||
        paxidore_transcript_absorb_bytes(state, state_len, prepared, parameters, parameters_len,
                                         (const uint8_t *)"a commitment", 12) != PAXIDORE_OK)
        return 1;
    puts(paxidore_strerror(
        paxidore_transcript_squeeze(challenge, sizeof challenge, state, state_len, prepared, parameters, parameters_len)));
}
