/* The folder of Debian's modules for the processor, which this machine has none of. */
#define DEB_HOST_MULTIARCH "none"
