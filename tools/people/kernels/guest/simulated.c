// SPDX-License-Identifier: GPL-2.0
/* A cache with allocation and monitoring, by boot words `simulated.NAME=NUMBER`, and a lever at
   /sys/module/simulated/parameters/lever to which is written:
     lines DOMAIN RMID N   this RMID has N lines in the cache of this domain
     clear                 no RMID has a line
     tick                  the limbo worker of each domain runs now
     drain                 every RMID in limbo is freed, whatever lines it has */
#include <linux/cacheinfo.h>
#include <linux/cpu.h>
#include <linux/module.h>
#include <linux/version.h>
#include <asm/processor.h>
#include "internal.h"
#include "simulated.h"

#define LINE_BYTES 64
#define MOST_DOMAINS 64
#define MOST_RMIDS 256
#define L3_LEVEL 3

static unsigned int ways = 8, shareable, classes = 8, rmids = 16, sparse, min_bits = 1, bytes = 32768;
unsigned int simulated_limbo_ms = 1000;

module_param(ways, uint, 0444);
module_param(shareable, uint, 0444);
module_param(classes, uint, 0444);
module_param(rmids, uint, 0444);
module_param(sparse, uint, 0444);
module_param(min_bits, uint, 0444);
module_param(bytes, uint, 0444);
module_param_named(limbo_ms, simulated_limbo_ms, uint, 0444);

static u64 lines_of[MOST_DOMAINS][MOST_RMIDS];
static DEFINE_PER_CPU(u32, selected);

#if LINUX_VERSION_CODE >= KERNEL_VERSION(6, 12, 0)
typedef struct rdt_mon_domain domain_t;
#define FOR_EACH_DOMAIN(d, l3) list_for_each_entry(d, &(l3)->mon_domains, hdr.list)
#define CPUS_OF(d) (&(d)->hdr.cpu_mask)
#define IS_WAITING(l3, d) has_busy_rmid(d)
#define SPARSE_MASKS arch_has_sparse_bitmasks
#else
typedef struct rdt_domain domain_t;
#define FOR_EACH_DOMAIN(d, l3) list_for_each_entry(d, &(l3)->domains, list)
#define CPUS_OF(d) (&(d)->cpu_mask)
#define IS_WAITING(l3, d) has_busy_rmid(l3, d)
#define SPARSE_MASKS arch_has_sparse_bitmaps
#endif

void simulated_leaf(struct rdt_resource *l3, u32 *eax, u32 *ebx, u32 *ecx, u32 *edx)
{
	*eax = ways - 1;
	*ebx = shareable;
	*ecx = sparse << 3;
	*edx = classes - 1;
	l3->cache.min_cbm_bits = min_bits;
	l3->cache.SPARSE_MASKS = sparse;
}

void simulated_features(void)
{
	set_cpu_cap(&boot_cpu_data, X86_FEATURE_RDT_A);
	set_cpu_cap(&boot_cpu_data, X86_FEATURE_CAT_L3);
	set_cpu_cap(&boot_cpu_data, X86_FEATURE_CQM_LLC);
	set_cpu_cap(&boot_cpu_data, X86_FEATURE_CQM_OCCUP_LLC);
	boot_cpu_data.x86_cache_max_rmid = rmids - 1;
	boot_cpu_data.x86_cache_occ_scale = LINE_BYTES;
	boot_cpu_data.x86_cache_size = bytes / 1024;
}

unsigned int simulated_cache_bytes(unsigned int level, unsigned int other)
{
	return level == L3_LEVEL ? bytes : other;
}

void simulated_select(u32 rmid)
{
	this_cpu_write(selected, rmid);
}

void simulated_read(u64 *lines)
{
	unsigned int domain = get_cpu_cacheinfo_id(smp_processor_id(), L3_LEVEL);

	*lines = lines_of[domain % MOST_DOMAINS][this_cpu_read(selected) % MOST_RMIDS];
}

static void tick(struct rdt_resource *l3)
{
	domain_t *d;

	FOR_EACH_DOMAIN(d, l3) {
		if (!IS_WAITING(l3, d))
			continue;
		mod_delayed_work_on(cpumask_any(CPUS_OF(d)), system_wq, &d->cqm_limbo, 0);
		flush_delayed_work(&d->cqm_limbo);
	}
}

static void drain(struct rdt_resource *l3)
{
	domain_t *d;

	cpus_read_lock();
	mutex_lock(&rdtgroup_mutex);
	FOR_EACH_DOMAIN(d, l3)
		__check_limbo(d, true);
	mutex_unlock(&rdtgroup_mutex);
	cpus_read_unlock();
}

static int pull(const char *word, const struct kernel_param *lever)
{
	struct rdt_resource *l3 = &rdt_resources_all[RDT_RESOURCE_L3].r_resctrl;
	unsigned int domain, rmid;
	u64 lines;

	if (sscanf(word, "lines %u %u %llu", &domain, &rmid, &lines) == 3 && domain < MOST_DOMAINS && rmid < MOST_RMIDS)
		lines_of[domain][rmid] = lines;
	else if (!strncmp(word, "clear", 5))
		memset(lines_of, 0, sizeof(lines_of));
	else if (!strncmp(word, "tick", 4))
		tick(l3);
	else if (!strncmp(word, "drain", 5))
		drain(l3);
	else
		return -EINVAL;
	return 0;
}

static const struct kernel_param_ops lever_ops = { .set = pull };
module_param_cb(lever, &lever_ops, NULL, 0200);
