/*
 * Whether the processor has the instructions that a hardware build uses. It is asked once, before main. The answer is no, too, where one of
 * them gives another value than the standards print.
 */
#include <stdint.h>
#include <string.h>
#include <wmmintrin.h>

/* has_instructions of crates/instructions reads it, as tools/use-instructions rewrites that */
uint8_t perdoaze_has_instructions;

enum instruction { ENC, ENCLAST, DEC, DECLAST, IMC, LOW_LOW, HIGH_LOW, LOW_HIGH, HIGH_HIGH };

struct answer {
	enum instruction instruction;
	/* each half of a vector, the one with bit 127 first */
	uint64_t x[2], y[2], result[2];
};

#define STATE { 0x7b5b546573745665, 0x63746f725d53475d }
#define KEY { 0x4869285368617929, 0x5b477565726f6e5d }

/*
 * The examples of Intel's white papers on the AES instructions and on the carry-less product, and of FIPS 197, appendix B, the first round
 * and its columns mixed back.
 */
static const struct answer answers[] = {
	{ ENC, STATE, KEY, { 0xa8311c2f9fdba3c5, 0x8b104b58ded7e595 } },
	{ ENCLAST, STATE, KEY, { 0xc7fb881e938c5964, 0x177ec42553fdc611 } },
	{ DEC, STATE, KEY, { 0x138ac342faea2787, 0xb58eb95eb730392a } },
	{ DECLAST, STATE, KEY, { 0xc5a391ef6b317f95, 0xd410637b72a593d0 } },
	{ IMC, { 0x4c2606287ad3f848, 0x9a19cbe0e5816604 }, { 0, 0 }, { 0xe598271ef11141b8, 0xae52b4e0305dbfd4 } },
	{ LOW_LOW, STATE, KEY, { 0x1d4d84c85c3440c0, 0x929633d5d36f0451 } },
	{ HIGH_LOW, STATE, KEY, { 0x1a2bf6db3a30862f, 0xbabf262df4b7d5c9 } },
	{ LOW_HIGH, STATE, KEY, { 0x1bd17c8d556ab5a1, 0x7fa540ac2a281315 } },
	{ HIGH_HIGH, STATE, KEY, { 0x1d1e1f2c592e7c45, 0xd66ee03e410fd4ed } },
	{ ENC, { 0x0848f8e92a8dc69a, 0x2be2f4a0bee33d19 }, { 0x05766c2a3939a323, 0xb12c548817fefaa0 }, { 0x49506a0243ea5b6b, 0x2b359f68f27f9ca4 } },
};

__attribute__((target("aes,pclmul"))) static __m128i done(enum instruction instruction, __m128i x, __m128i y)
{
	switch (instruction) {
	case ENC:
		return _mm_aesenc_si128(x, y);
	case ENCLAST:
		return _mm_aesenclast_si128(x, y);
	case DEC:
		return _mm_aesdec_si128(x, y);
	case DECLAST:
		return _mm_aesdeclast_si128(x, y);
	case IMC:
		return _mm_aesimc_si128(x);
	case LOW_LOW:
		return _mm_clmulepi64_si128(x, y, 0x00);
	case HIGH_LOW:
		return _mm_clmulepi64_si128(x, y, 0x01);
	case LOW_HIGH:
		return _mm_clmulepi64_si128(x, y, 0x10);
	case HIGH_HIGH:
		return _mm_clmulepi64_si128(x, y, 0x11);
	}
	return x;
}

static __m128i vector(const uint64_t halves[2])
{
	return _mm_set_epi64x((long long)halves[0], (long long)halves[1]);
}

__attribute__((constructor)) static void ask_processor(void)
{
	__builtin_cpu_init();
	if (!__builtin_cpu_supports("aes") || !__builtin_cpu_supports("pclmul"))
		return;
	for (size_t n = 0; n < sizeof answers / sizeof *answers; n++) {
		__m128i result = done(answers[n].instruction, vector(answers[n].x), vector(answers[n].y));
		__m128i wanted = vector(answers[n].result);

		if (memcmp(&result, &wanted, sizeof result))
			return;
	}
	perdoaze_has_instructions = 1;
}
