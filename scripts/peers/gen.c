/*
 * gen: the seeded work (work.h) as texts.
 *
 *   gen SEED KIND N [M]
 *
 * KIND: pf        N rules, as pf.conf(5) has them
 *       packets   M packets for the N rules of the same seed, a line each
 *       specific, specific-packets
 *                 the same, with prefixes of 24 bits or more and no quick rule
 *       table     N entries, a line each
 *       addrs     M addresses for the N entries of the same seed
 *       pftable   the N entries as one table statement and a rule on it
 */
#include <stdio.h>
#include <string.h>
#include "work.h"

static const char *act[] = { "pass", "block drop", "block return" };

static char *
ip(uint32_t a)
{
	static char b[4][20];
	static int k;

	k = (k + 1) % 4;
	snprintf(b[k], sizeof b[k], "%u.%u.%u.%u", a >> 24, a >> 16 & 255, a >> 8 & 255, a & 255);
	return b[k];
}

static char *
pfx(uint32_t a, unsigned len)
{
	static char b[4][24];
	static int k;

	k = (k + 1) % 4;
	if (len == 0)
		return "any";
	if (len == 32)
		return ip(a);
	snprintf(b[k], sizeof b[k], "%s/%u", ip(a), len);
	return b[k];
}

static void
pfport(uint16_t lo, uint16_t hi)
{
	if (lo == 0 && hi == 65535)
		return;
	if (lo == hi)
		printf(" port = %u", lo);
	else if (hi == 65535)
		printf(" port >= %u", lo);
	else
		printf(" port %u:%u", lo, hi);
}

static void
pf(const struct rule *r)
{
	printf("%s", act[r->act]);
	if (r->dir)
		printf(r->dir == DIR_IN ? " in" : " out");
	if (r->quick)
		printf(" quick");
	if (r->ifc >= 0)
		printf(" on em%d", r->ifc);
	printf(" inet");
	if (r->proto)
		printf(" proto %s", r->proto == 6 ? "tcp" : r->proto == 17 ? "udp" : "icmp");
	printf(" from %s", pfx(r->src, r->slen));
	pfport(r->slo, r->shi);
	printf(" to %s", pfx(r->dst, r->dlen));
	pfport(r->dlo, r->dhi);
	if (r->flagsany)
		printf(" flags any");
	if (r->nostate)
		printf(" no state");
	putchar('\n');
}

int
main(int argc, char **argv)
{
	struct rule *r;
	struct packet *p;
	struct entry *t;
	uint32_t *a;
	uint64_t seed;
	int n, m, i, specific;

	if (argc < 4) {
		fprintf(stderr, "usage: gen SEED KIND N [M]\n");
		return 2;
	}
	seed = strtoull(argv[1], NULL, 10);
	n = atoi(argv[3]);
	m = argc > 4 ? atoi(argv[4]) : 0;
#define KIND(k) (strcmp(argv[2], k) == 0)
	specific = strncmp(argv[2], "specific", 8) == 0;
	if (KIND("pf") || KIND("specific")) {
		r = make_rules(seed, n);
		if (specific)
			make_specific(r, n);
		for (i = 0; i < n; i++)
			pf(&r[i]);
	} else if (KIND("packets") || KIND("specific-packets")) {
		r = make_rules(seed, n);
		if (specific)
			make_specific(r, n);
		p = make_packets(seed, r, n, m);
		for (i = 0; i < m; i++) {
			printf("%s on em%u proto %u from %s", p[i].dir == DIR_IN ? "in" : "out",
			    p[i].ifc, p[i].proto, ip(p[i].src));
			if (p[i].sport)
				printf(" port %u", p[i].sport);
			printf(" to %s", ip(p[i].dst));
			if (p[i].sport)
				printf(" port %u", p[i].dport);
			if (p[i].flags)
				printf(" flags %s%s", p[i].flags & FL_S ? "S" : "", p[i].flags & FL_A ? "A" : "");
			putchar('\n');
		}
	} else if (KIND("table") || KIND("pftable")) {
		t = make_table(seed, n);
		if (KIND("pftable"))
			printf("table <t> persist {");
		for (i = 0; i < n; i++)
			printf("%s%s%s%s", KIND("pftable") ? " " : "", t[i].neg ? "!" : "",
			    pfx(t[i].net, t[i].len), KIND("pftable") ? "" : "\n");
		if (KIND("pftable"))
			printf(" }\nblock all\npass in from <t>\n");
	} else if (KIND("addrs")) {
		t = make_table(seed, n);
		a = make_addrs(seed, t, n, m);
		for (i = 0; i < m; i++)
			printf("%s\n", ip(a[i]));
	} else
		return 2;
	return 0;
}
