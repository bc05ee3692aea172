#include "collector.h"

void collector_start(struct collector *collector)
{
    collector->kept = 0;
}

/* Each flag after the first ends one frame and begins the next; an empty frame is no frame. */
static size_t take_flag(struct collector *collector)
{
    size_t kept = collector->kept;
    if (kept < 2)
        kept = 0;
    collector->frame[kept] = ARZNAVIK_FLAG;
    collector->kept = 1;
    return kept == 0 ? 0 : kept + 1;
}

size_t collector_take(struct collector *collector, uint8_t byte)
{
    if (byte == ARZNAVIK_FLAG)
        return take_flag(collector);
    if (collector->kept != 0 && collector->kept <= COLLECTOR_BETWEEN)
        collector->frame[collector->kept++] = byte;
    return 0;
}
