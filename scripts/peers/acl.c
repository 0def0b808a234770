/*
 * acl: DPDK's librte_acl on the shared work (work.h), with the checksum of the answers to compare with base's.
 *
 *   acl verdict|specific SEED N M [SECS]     M packets over N rules, one a call and in bursts of 32
 *
 * pf's order (last match, quick ends) becomes ACL priorities: a quick rule i has 2n-i, another i+1, so that the highest
 * is pf's verdict.  Flags are a masked byte; packets other than TCP carry S there, as only TCP is asked.  No huge
 * pages, no devices, no privileges needed.
 * Built with: cc -O2 -march=native acl.c $(pkg-config --cflags --libs libdpdk)
 */
#include <stdio.h>
#include <string.h>
#include <time.h>
#include <rte_acl.h>
#include <rte_eal.h>
#include <rte_errno.h>
#include <rte_ip.h>
#include <rte_log.h>
#include <rte_version.h>
#include "work.h"

struct key {			/* all in network order, as ACL asks */
	uint8_t proto;
	uint8_t pad[3];
	uint32_t src, dst;
	uint16_t sport, dport;
	uint8_t dir, ifc, flags, pad2;
};

enum { F_PROTO, F_SRC, F_DST, F_SP, F_DP, F_DIR, F_IFC, F_FL, F_PAD, F_N };
RTE_ACL_RULE_DEF(acl_rule, F_N);
static struct rte_acl_field_def defs[F_N] = {
	{ RTE_ACL_FIELD_TYPE_BITMASK, 1, F_PROTO, 0, offsetof(struct key, proto) },
	{ RTE_ACL_FIELD_TYPE_MASK, 4, F_SRC, 1, offsetof(struct key, src) },
	{ RTE_ACL_FIELD_TYPE_MASK, 4, F_DST, 2, offsetof(struct key, dst) },
	{ RTE_ACL_FIELD_TYPE_RANGE, 2, F_SP, 3, offsetof(struct key, sport) },
	{ RTE_ACL_FIELD_TYPE_RANGE, 2, F_DP, 3, offsetof(struct key, dport) },
	{ RTE_ACL_FIELD_TYPE_BITMASK, 1, F_DIR, 4, offsetof(struct key, dir) },
	{ RTE_ACL_FIELD_TYPE_BITMASK, 1, F_IFC, 4, offsetof(struct key, ifc) },
	{ RTE_ACL_FIELD_TYPE_BITMASK, 1, F_FL, 4, offsetof(struct key, flags) },
	{ RTE_ACL_FIELD_TYPE_BITMASK, 1, F_PAD, 4, offsetof(struct key, pad2) },	/* a group has 4 bytes */
};

static double
now(void)
{
	struct timespec t;

	clock_gettime(CLOCK_THREAD_CPUTIME_ID, &t);
	return t.tv_sec + t.tv_nsec * 1e-9;
}

static int
cmpd(const void *a, const void *b)
{
	double x = *(const double *)a, y = *(const double *)b;

	return x < y ? -1 : x > y;
}

static void
measure(const char *what, const char *unit, double per, double secs, uint64_t (*f)(void))
{
	static double v[10000];
	double t0 = now(), a;
	uint64_t sum = 0;
	int n = 0;

	while (n < 5 || (now() - t0 < secs && n < 10000)) {
		a = now();
		sum = f();
		v[n++] = now() - a;
	}
	qsort(v, n, sizeof *v, cmpd);
	printf("peer=dpdk version=%s %s passes=%d %s_per_s=%.0f best=%.0f sum=%016llx\n",
	    rte_version() + 5, what, n, unit, per / v[n / 2], per / v[0], (unsigned long long)sum);
}

static struct rte_acl_ctx *ctx;
static struct key *keys;
static int npk;

static uint64_t
in_bursts(void)
{
	const uint8_t *d[32];
	uint32_t res[32];
	uint64_t h = MIX0;

	for (int i = 0; i < npk; i += 32) {
		int n = npk - i < 32 ? npk - i : 32;

		for (int k = 0; k < n; k++)
			d[k] = (const uint8_t *)&keys[i + k];
		rte_acl_classify(ctx, d, res, n, 1);
		for (int k = 0; k < n; k++)
			h = mix(h, res[k]);
	}
	return h;
}

static uint64_t
one_a_call(void)
{
	uint64_t h = MIX0;

	for (int i = 0; i < npk; i++) {
		const uint8_t *d = (const uint8_t *)&keys[i];
		uint32_t res;

		rte_acl_classify(ctx, &d, &res, 1, 1);
		h = mix(h, res);
	}
	return h;
}

int
main(int argc, char **argv)
{
	static char *eal[] = { "acl", "--no-huge", "-m", "1024", "--no-pci", "--no-shconf", "--no-telemetry",
	    "--log-level=2", "-l", "0", NULL };
	struct rte_acl_config config = { .num_categories = 1, .num_fields = F_N };
	struct rte_acl_param param = { .name = "peer", .socket_id = 0, .rule_size = RTE_ACL_RULE_SZ(F_N) };
	struct rule *r;
	struct packet *p;
	char what[128];
	double secs, t0;
	int n, rc;

	if (argc < 5)
		return 2;
	n = atoi(argv[3]);
	npk = atoi(argv[4]);
	secs = argc > 5 ? atof(argv[5]) : 1;
	if (rte_eal_init(10, eal) < 0) {
		fprintf(stderr, "eal: %s\n", rte_strerror(rte_errno));
		return 1;
	}
	r = make_rules(strtoull(argv[2], NULL, 10), n);
	if (strcmp(argv[1], "specific") == 0)
		make_specific(r, n);
	p = make_packets(strtoull(argv[2], NULL, 10), r, n, npk);
	param.max_rule_num = n;
	memcpy(config.defs, defs, sizeof defs);
	if ((ctx = rte_acl_create(&param)) == NULL)
		return 1;
	t0 = now();
	for (int i = 0; i < n; i++) {
		struct acl_rule a = { 0 };

		a.data.category_mask = 1;
		a.data.priority = r[i].quick ? 2 * n - i : i + 1;
		a.data.userdata = i + 1;
		a.field[F_PROTO].value.u8 = r[i].proto;
		a.field[F_PROTO].mask_range.u8 = r[i].proto ? 0xff : 0;
		a.field[F_SRC].value.u32 = r[i].src;
		a.field[F_SRC].mask_range.u32 = r[i].slen;
		a.field[F_DST].value.u32 = r[i].dst;
		a.field[F_DST].mask_range.u32 = r[i].dlen;
		a.field[F_SP].value.u16 = r[i].slo;
		a.field[F_SP].mask_range.u16 = r[i].shi;
		a.field[F_DP].value.u16 = r[i].dlo;
		a.field[F_DP].mask_range.u16 = r[i].dhi;
		a.field[F_DIR].value.u8 = r[i].dir;
		a.field[F_DIR].mask_range.u8 = r[i].dir ? 0xff : 0;
		a.field[F_IFC].value.u8 = r[i].ifc < 0 ? 0 : r[i].ifc;
		a.field[F_IFC].mask_range.u8 = r[i].ifc < 0 ? 0 : 0xff;
		a.field[F_FL].value.u8 = r[i].fset;
		a.field[F_FL].mask_range.u8 = r[i].fmask;
		if (rte_acl_add_rules(ctx, (struct rte_acl_rule *)&a, 1) != 0)
			return 1;
	}
	if ((rc = rte_acl_build(ctx, &config)) != 0) {
		fprintf(stderr, "build: %s\n", strerror(-rc));
		return 1;
	}
	printf("peer=dpdk version=%s what=build way=acl rules=%d ms=%.1f\n", rte_version() + 5, n, (now() - t0) * 1e3);
	keys = calloc(npk, sizeof *keys);
	for (int i = 0; i < npk; i++) {
		keys[i].proto = p[i].proto;
		keys[i].src = htonl(p[i].src);
		keys[i].dst = htonl(p[i].dst);
		keys[i].sport = htons(p[i].sport);
		keys[i].dport = htons(p[i].dport);
		keys[i].dir = p[i].dir;
		keys[i].ifc = p[i].ifc;
		keys[i].flags = p[i].proto == 6 ? p[i].flags : FL_S;
	}
	snprintf(what, sizeof what, "what=verdict way=acl_burst32 rules=%d packets=%d", n, npk);
	measure(what, "packets", npk, secs, in_bursts);
	snprintf(what, sizeof what, "what=verdict way=acl_single rules=%d packets=%d", n, npk);
	measure(what, "packets", npk, secs, one_a_call);
	return 0;
}
