/* No relocation and no global. */

int one(void) { return 1; }
