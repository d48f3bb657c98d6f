/* A cache with allocation and monitoring that boot words describe, where no processor has one. */
#ifndef SIMULATED_H
#define SIMULATED_H

struct rdt_resource;

/* Takes the place of CPUID leaf 0x10 for the L3: the bits of a mask less one, the shareable bits, masks with gaps, classes less one. */
void simulated_leaf(struct rdt_resource *l3, u32 *eax, u32 *ebx, u32 *ecx, u32 *edx);

/* Gives the processor the features that resctrl asks for. */
void simulated_features(void);

/* The bytes of a cache: those of the boot word for an L3, and else as they were. */
unsigned int simulated_cache_bytes(unsigned int level, unsigned int bytes);

/* Take the place of the two registers by which the lines of an RMID are read. */
void simulated_select(u32 rmid);
void simulated_read(u64 *lines);

/* How long the limbo worker sleeps, in milliseconds. */
extern unsigned int simulated_limbo_ms;

#endif
