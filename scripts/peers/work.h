/*
 * work.h: the seeded work that the peers share.
 *
 * One generator makes rules, table entries, addresses and packets from a seed;
 * gen.c writes them as texts, base.c uses them in memory, so that all answer
 * the same questions and can be checked against each other by one checksum.
 *
 * Rules are IPv4 and single (nothing to expand).  The verdict is pf's: last match, `quick` ends, none passes.
 */
#ifndef WORK_H
#define WORK_H

#include <stdint.h>
#include <stdlib.h>

enum { DIR_ANY = 0, DIR_IN = 1, DIR_OUT = 2 };
enum { ACT_PASS, ACT_DROP, ACT_RETURN };
enum { FL_F = 1, FL_S = 2, FL_R = 4, FL_P = 8, FL_A = 16, FL_U = 32 };
#define IFS 4			/* em0 .. em3 */

struct rule {
	uint8_t act, dir, quick;
	int8_t ifc;		/* -1: none is named */
	uint8_t proto;		/* 0: none is named */
	uint8_t slen, dlen;	/* prefix lengths, 0: any */
	uint8_t fset, fmask;	/* mask 0: flags aren't checked */
	uint8_t nostate, flagsany;	/* as written */
	uint32_t src, dst;
	uint16_t slo, shi, dlo, dhi;	/* 0 .. 65535: no port is named */
};

struct packet {
	uint8_t dir, ifc, proto, flags;
	uint32_t src, dst;
	uint16_t sport, dport;
};

struct entry {
	uint32_t net;
	uint8_t len, neg;
};

/* splitmix64 */
static uint64_t work_state;

static inline uint64_t
rnd(void)
{
	uint64_t z = (work_state += 0x9e3779b97f4a7c15ULL);

	z = (z ^ (z >> 30)) * 0xbf58476d1ce4e5b9ULL;
	z = (z ^ (z >> 27)) * 0x94d049bb133111ebULL;
	return z ^ (z >> 31);
}

static inline uint32_t below(uint32_t n) { return (uint32_t)(rnd() >> 32) % n; }
static inline int pct(uint32_t p) { return below(100) < p; }
static inline uint32_t
mask(unsigned len)
{
	return len == 0 ? 0 : 0xffffffffU << (32 - len);
}

static inline uint32_t
net_of(uint32_t seed)	/* an address of 10/8 or 172.16/12 or 192.0.2/24, few enough to collide */
{
	switch (seed % 4) {
	case 0: return 0x0a000000U | below(64) << 16 | below(16) << 8 | below(256);
	case 1: return 0x0a000000U | below(8) << 16 | below(256) << 8 | below(256);
	case 2: return 0xac100000U | below(16) << 16 | below(16) << 8 | below(256);
	default: return 0xc0000200U | below(256);
	}
}

static const uint8_t work_lens[] = { 8, 12, 16, 16, 20, 24, 24, 24, 28, 32 };
static const uint16_t work_ports[] = { 22, 25, 53, 80, 123, 143, 179, 443, 587, 8080 };

static inline void
make_rule(struct rule *r)
{
	uint32_t p = below(100);

	r->act = pct(60) ? ACT_PASS : pct(50) ? ACT_DROP : ACT_RETURN;
	r->dir = pct(60) ? DIR_IN : pct(50) ? DIR_OUT : DIR_ANY;
	r->quick = pct(10);
	r->ifc = pct(60) ? (int8_t)below(IFS) : -1;
	r->proto = p < 50 ? 6 : p < 80 ? 17 : p < 85 ? 1 : 0;
	r->slen = pct(40) ? 0 : work_lens[below(10)];
	r->dlen = pct(30) ? 0 : work_lens[below(10)];
	r->src = net_of(below(4)) & mask(r->slen);
	r->dst = net_of(below(4)) & mask(r->dlen);
	r->slo = r->dlo = 0;
	r->shi = r->dhi = 65535;
	if (r->proto == 6 || r->proto == 17) {
		if (pct(10)) {
			r->slo = 1024;
		}
		p = below(100);
		if (p < 40)
			r->dlo = r->dhi = work_ports[below(10)];
		else if (p < 70) {
			r->dlo = (uint16_t)(1 + below(60000));
			r->dhi = (uint16_t)(r->dlo + below(5000));
		} else if (p < 80)
			r->dlo = 49152;
	}
	r->nostate = r->act == ACT_PASS && pct(10);
	r->flagsany = r->act == ACT_PASS && !r->nostate && r->proto == 6 && pct(10);
	r->fset = r->fmask = 0;
	if (r->act == ACT_PASS && !r->nostate && !r->flagsany) {	/* flags S/SA by default */
		r->fset = FL_S;
		r->fmask = FL_S | FL_A;
	}
}

static inline struct rule *
make_rules(uint64_t seed, int n)
{
	struct rule *r = calloc(n, sizeof *r);

	work_state = seed * 1000003 + 1;
	for (int i = 0; i < n; i++)
		make_rule(&r[i]);
	r[0] = (struct rule){ .act = ACT_DROP, .ifc = -1, .shi = 65535, .dhi = 65535 };	/* block drop all */
	return r;
}

/* The same rules, but prefixes of 24 bits or more, and none quick; the first one stays. */
static inline void
make_specific(struct rule *r, int n)
{
	for (int i = 1; i < n; i++) {
		if (r[i].slen < 24)
			r[i].slen = 24;
		if (r[i].dlen < 24)
			r[i].dlen = 24;
		r[i].quick = 0;
	}
}

static inline struct packet *
make_packets(uint64_t seed, const struct rule *r, int nr, int n)
{
	struct packet *v = calloc(n, sizeof *v);

	work_state = seed * 1000003 + 2;
	for (int i = 0; i < n; i++) {
		struct packet *p = &v[i];
		const struct rule *t = &r[below(nr)];
		int near = pct(70);	/* 70 of 100 are made to suit some rule */

		p->dir = near && t->dir ? t->dir : pct(60) ? DIR_IN : DIR_OUT;
		p->ifc = near && t->ifc >= 0 ? (uint8_t)t->ifc : (uint8_t)below(IFS);
		p->proto = near && t->proto ? t->proto : pct(60) ? 6 : pct(80) ? 17 : 1;
		p->src = net_of(below(4));
		p->dst = net_of(below(4));
		if (near) {
			p->src = t->src | (p->src & ~mask(t->slen));
			p->dst = t->dst | (p->dst & ~mask(t->dlen));
		}
		p->sport = p->dport = 0;
		p->flags = 0;
		if (p->proto == 6 || p->proto == 17) {
			p->sport = (uint16_t)(1024 + below(64000));
			p->dport = near ? (uint16_t)(t->dlo + below(t->dhi - t->dlo + 1))
			    : work_ports[below(10)];
		}
		if (p->proto == 6)
			p->flags = pct(60) ? FL_S : pct(50) ? FL_S | FL_A : FL_A;
	}
	return v;
}

static inline struct entry *
make_table(uint64_t seed, int n)	/* n different prefixes, 20 of 100 negated */
{
	struct entry *t = calloc(n, sizeof *t);
	static const uint8_t lens[] = { 12, 16, 18, 20, 22, 24, 24, 24, 28, 30, 32, 32 };
	int k = 0, i;

	work_state = seed * 1000003 + 3;
	while (k < n) {
		struct entry e;

		e.len = lens[below(12)];
		e.net = (0x0a000000U | (uint32_t)(rnd() & 0xffffff)) & mask(e.len);
		e.neg = pct(20);
		for (i = 0; i < k; i++)
			if (t[i].net == e.net && t[i].len == e.len)
				break;
		if (i == k)
			t[k++] = e;
	}
	return t;
}

static inline uint32_t *
make_addrs(uint64_t seed, const struct entry *t, int nt, int n)
{
	uint32_t *a = calloc(n, sizeof *a);

	work_state = seed * 1000003 + 4;
	for (int i = 0; i < n; i++) {
		const struct entry *e = &t[below(nt)];
		uint32_t low = (uint32_t)rnd();

		a[i] = pct(70) ? e->net | (low & ~mask(e->len)) : 0x0a000000U | (low & 0xffffff);
	}
	return a;
}

static inline uint64_t
mix(uint64_t h, uint64_t v)	/* the checksum: FNV-1a by words */
{
	return (h ^ v) * 0x100000001b3ULL;
}
#define MIX0 0xcbf29ce484222325ULL

#endif
