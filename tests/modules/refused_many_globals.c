/* 65,537 tagged globals; with UNTAGGED the same globals without tags, which is taken, and with FEWER 1,025 tagged ones, which
 * is taken too. */

#ifdef UNTAGGED
#define KIND __attribute__((no_sanitize("memtag")))
#else
#define KIND
#endif
#define ONE(n) KIND int g##n = 1;
#define FOUR(n) ONE(n##0) ONE(n##1) ONE(n##2) ONE(n##3)
#define SIXTEEN(n) FOUR(n##0) FOUR(n##1) FOUR(n##2) FOUR(n##3)
#define SIXTYFOUR(n) SIXTEEN(n##0) SIXTEEN(n##1) SIXTEEN(n##2) SIXTEEN(n##3)
#define QUARTER(n) SIXTYFOUR(n##0) SIXTYFOUR(n##1) SIXTYFOUR(n##2) SIXTYFOUR(n##3)
#define K(n) QUARTER(n##0) QUARTER(n##1) QUARTER(n##2) QUARTER(n##3)
#define FOUR_K(n) K(n##0) K(n##1) K(n##2) K(n##3)
#define SIXTEEN_K(n) FOUR_K(n##0) FOUR_K(n##1) FOUR_K(n##2) FOUR_K(n##3)
#ifdef FEWER
K(a) ONE(b)
#else
SIXTEEN_K(a) SIXTEEN_K(b) SIXTEEN_K(c) SIXTEEN_K(d) ONE(e)
#endif
