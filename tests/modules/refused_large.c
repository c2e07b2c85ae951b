/* Sixteen MiB of zeros behind the module's own bytes: more than the addresses that a module has. */

char space[16 << 20];
