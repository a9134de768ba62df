/*
 * For Arm only (oracle/bench/arm). The port's bitcode passes structs as x86-64 does, by value on the stack from 17 bytes on; Arm
 * passes a pointer. Compiled to bitcode for x86-64 like the port, these four agree with it, and take pointers.
 */
#include "dwc2_port.h"

dwc2_iso_submitted bench_iso_submit(uint8_t *session, size_t session_len, uint32_t *ring, size_t ring_words, const uint32_t *lengths,
                                    size_t packets, const dwc2_iso_transfer *transfer)
{
    return dwc2_iso_submit(session, session_len, ring, ring_words, lengths, packets, *transfer);
}

dwc2_data_plan bench_data_stages(const dwc2_data_request *request, uint32_t *array, size_t array_words)
{
    return dwc2_data_stages(*request, array, array_words);
}

dwc2_control_plan bench_build_control_plan(const dwc2_control_request *request, uint32_t *array, size_t array_words)
{
    return dwc2_build_control_plan(*request, array, array_words);
}

dwc2_number bench_stage_actual_length(const dwc2_stage *stage, const uint32_t *array, size_t array_words)
{
    return dwc2_stage_actual_length(*stage, array, array_words);
}
