/* The nine-hour fault: a log of battery readings fills up to its end pointer. The counter behind the log ages the
 * temperature reading, and the log's end is the counter's address. A loader that gives the end pointer the counter's
 * tag lets the log write over the counter, and the reading never grows old. */

#define OWN __attribute__((visibility("hidden")))

OWN unsigned short lines[64] = {1}; /* 128 bytes */
OWN unsigned age = 1;
OWN short temperature = 21;

unsigned short *log_at = lines;
unsigned short *log_end = lines + 64;
unsigned *age_at = &age;
short *temperature_at = &temperature;

void record(unsigned short v)
{
    if (log_at < log_end)
        *log_at++ = v;
}

int reading(void) { return ++age > 9 * 3600 ? -1 : temperature; }
