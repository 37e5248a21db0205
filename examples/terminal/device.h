/* The tables on a device whose bytes are written one by one, as an EEPROM's: in the library's store, which no power cut
 * breaks. The device is a file, and each byte is on it before the next is written. */
#ifndef DEVICE_H
#define DEVICE_H

#include "store.h"
#include "tillerclover_store.h"

/* The tables are the image, without the queue. A record is answered when it was taken, and nothing waits after a
 * round: so nothing that was answered is lost with the queue, and hand-ins wear out no memory. */
enum {
    DEVICE_IMAGE = sizeof(tillerclover_tables),
    DEVICE_LENGTH = TILLERCLOVER_STORE_LENGTH(DEVICE_IMAGE)
};

struct device {
    struct file file;
    /* what the device holds, as it was read back */
    uint8_t bytes[DEVICE_LENGTH];
    /* bytes written since the start */
    unsigned long writes;
};

/* Opens, locks and reads the device. The tables are those that are current on it, sound or not; nothing waits. The state
 * is left as it was where there is no file. One of another length, one that cannot be read, or that another process has
 * locked, ends the program. */
enum found device_open(struct device *d, const char *path, tillerclover_terminal *state);

/* When this returns, the tables are on the device and survive a loss of power. Where there was no file, it is made. A
 * device that does not take or keep its bytes ends the program; the tables from before are then current, or these. */
void device_write(struct device *d, const tillerclover_terminal *state);

#endif
