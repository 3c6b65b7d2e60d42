/*
 * One call of a C entry: see calls.h.
 */
#include "calls.h"

const char *const name_of_question[QUESTIONS] = {[READ] = "read", [ROUTE] = "route", [TRACE] = "trace"};

uint64_t make_call(const struct reader *reader, const struct call *call)
{
    static uint8_t list[LONGEST_LIST];
    const struct capture *capture = call->capture;

    switch (call->question) {
    case READ:
        return reader->read(capture->bytes, capture->length, list, call->first);
    case ROUTE:
        return reader->route(capture->bytes, capture->length, call->first);
    default:
        return reader->trace(capture->bytes, capture->length, call->first, call->second);
    }
}

static uint64_t read_nothing(const uint8_t *capture, size_t capture_len, uint8_t *list, size_t list_len)
{
    (void)capture, (void)capture_len, (void)list, (void)list_len;
    return 0;
}

static uint64_t route_nothing(const uint8_t *capture, size_t capture_len, uint32_t number)
{
    (void)capture, (void)capture_len, (void)number;
    return 0;
}

static uint64_t trace_nothing(const uint8_t *capture, size_t capture_len, uint32_t vector, uint32_t number)
{
    (void)capture, (void)capture_len, (void)vector, (void)number;
    return 0;
}

const struct reader idle = {"nothing", read_nothing, route_nothing, trace_nothing};
